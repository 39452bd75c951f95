"""Whether the version is that of the file VERSION everywhere: in the manual page, at the head of the changelog, in the header for C,
and in what the program says of itself."""
import re
import shutil
import subprocess

from house.findings import Finding

# The first version in the file must be there; of the places below, each that there is.
PLACES = (("man/aa-trace.1", re.compile(r'^\.TH .*"Coqetwal ([^"]*)"', re.M)),
          ("CHANGELOG.md", re.compile(r"^## (\d\S*)", re.M)))
HEADER, DEFINED = "include/coqetwal.h", re.compile(r'^#define COQETWAL_VERSION "([^"]*)"', re.M)
PROGRAM, NUMBERED = "trace_arguments", re.compile(r"\d+\.\d+\.\d+")
LOGIC = re.compile(r" logic ([0-9a-f]+)")


def line_of(text, found):
    return text.count("\n", 0, found.start()) + 1


def every_version(repository):
    """Each version that is written somewhere, with its file and line."""
    for path, pattern in PLACES:
        found = pattern.search(repository.text(path))
        yield path, line_of(repository.text(path), found) if found else 1, found[1] if found else ""
    paths = [*repository.sources(PROGRAM), *repository.files_in(PROGRAM, "specs", "")] if PROGRAM in repository.crates else []
    for path, pattern in [(HEADER, DEFINED), *((it, NUMBERED) for it in paths)]:
        for found in pattern.finditer(repository.text(path)):
            yield path, line_of(repository.text(path), found), found[found.lastindex or 0]


def check(repository):
    version = repository.text("VERSION").strip()
    for path, line, found in every_version(repository):
        if found != version:
            yield Finding(path, line, f"the version here is '{found}', and that of VERSION '{version}'", found)


def other_logic(repository):
    """The logic of this machine's kit, if README names another: no fault, since that kit may prove the same."""
    if not shutil.which("rt"):
        return None
    said = subprocess.run(["rt", "version"], stdout=subprocess.PIPE, stderr=subprocess.DEVNULL, text=True, check=False).stdout
    found = LOGIC.search(said)
    return found[1] if found and found[1] not in repository.text("README.md") else None
