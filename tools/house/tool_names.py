"""Whether the programs of tools/ have one style of names, can be called, and are in tools/README.md.

A program's name has small letters and hyphens and no extension; it begins with `#!` and is executable. Modules that programs import
end in `.py`, and C sources in `.c` and `.cpp`; the other files are data.
"""
import os
import re

from house.findings import Finding

README = "tools/README.md"
NAME = re.compile(r"^[a-z][a-z0-9]*(?:-[a-z0-9]+)*$")
SOURCES = (".py", ".c", ".cpp", ".md")


def names(repository):
    """What is in tools/ itself: files, and folders with a slash at the end."""
    inside = [it.split("/", 1)[1] for it in repository.files if it.startswith("tools/")]
    return sorted({f"{it.partition('/')[0]}/" if "/" in it else it for it in inside})


def why_bad(repository, name):
    """What is wrong with the name or the mode of a file of tools/, or None."""
    path = f"tools/{name}"
    is_program = repository.text(path).startswith("#!")
    if name.endswith(SOURCES):
        return f"{name} is named as a source, and begins with `#!`" if is_program else None
    if not NAME.match(name):
        return f"{name} isn't a name of small letters and hyphens"
    if is_program != os.access(f"{repository.top}/{path}", os.X_OK):
        return f"{name} is a program and not executable, or the other way round"
    return None


def check(repository):
    rows = set(re.findall(r"(?m)^\| `([^`]+)`", repository.text(README)))
    for name in names(repository):
        why = None if name.endswith("/") else why_bad(repository, name)
        if why:
            yield Finding(f"tools/{name}", 1, why, name)
        if name not in rows and name != README.partition("/")[2]:
            yield Finding(README, 1, f"there is no row for {name}", name)
    for name in sorted(rows - set(names(repository))):
        yield Finding(README, 1, f"there is a row for {name}, which isn't there", name)
