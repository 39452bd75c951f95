"""Whether crates.txt counts the functions that may wait as `rt verdict` does, which compares them with the last line of a proof.

A function counts if it, or the `impl` that it is in, has the bound `Wait`; so does a program's `main` if one of its crate's functions
does, since it waits by calling that. Tests don't count: modules and functions under `cfg(test)`.
"""
import functools
import re

from house.findings import Finding

FILE = "crates.txt"
COUNT = re.compile(r"\bmay_wait=(\d+)")
WAIT = re.compile(r"\bWait\b")
# The heads of functions and impl blocks, up to a clause or a body; and the ends of blocks at the left.
HEAD = re.compile(r"^( *)(?:pub(?:\([^)]*\))? )?(?:(?:const|unsafe) )*(fn|impl|trait)\b(.*?)"
                  r"(?=\{|;|^\s*(?:requires|ensures|ghost)\b)|^\}", re.M | re.S)
TESTS = re.compile(r"^#\[cfg\(test\)\]\n(?:pub(?:\([^)]*\))? )?mod (\w+);", re.M)
TEST_BLOCK = re.compile(r"^#\[cfg\(test\)\]\n(?:.*\n)*?\}\n", re.M)
COMMENT = re.compile(r"//[^\n]*")


@functools.lru_cache(maxsize=None)
def waiting(text):
    """The names of the functions of a file that count, but for `main`."""
    found, outer = [], ""
    for head in HEAD.finditer(COMMENT.sub("", TEST_BLOCK.sub("", text))):
        if not head[2]:
            outer = ""
        elif head[2] == "fn":
            found += [head[3].split("(")[0].split("<")[0].strip()] if WAIT.search(head[3]) or head[1] and WAIT.search(outer) else []
        elif not head[1]:
            outer = head[3]
    return found


def files_of(repository, crate):
    """The crate's files, but for those of modules under `cfg(test)`."""
    left_out = set()
    for path in repository.sources(crate):
        folder = path.removesuffix(".rt") if path != repository.root_file(crate) else path.rpartition("/")[0]
        left_out |= {f"{folder}/{it}" for it in TESTS.findall(repository.text(path))}
    return [it for it in repository.sources(crate) if not any(it == f"{out}.rt" or it.startswith(f"{out}/") for out in left_out)]


def count(repository, crate):
    """How many functions of a crate may wait."""
    found = sum(len(waiting(repository.text(it))) for it in files_of(repository, crate))
    return found + 1 if found and repository.root_file(crate).endswith("main.rt") else found


def check(repository):
    for crate in repository.libraries:
        if not repository.root_file(crate):
            continue
        number = repository.place_of(crate)
        said = COUNT.search(repository.lines(FILE)[number - 1])
        listed, found = int(said[1]) if said else 0, count(repository, crate)
        if listed != found:
            yield Finding(FILE, number, f"{crate} has {found} functions that may wait, and its line says {listed}", crate)
