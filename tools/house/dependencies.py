"""Whether crates.txt lists for each crate the libraries that its code, definitions and proofs cite, and no others, and each crate after
those that it depends on.

A crate with an entry too many is proved later, since it waits for that library, and again when that library changes. tools/build reads
the crates in their order.
"""
import functools
import re

from house.findings import Finding

# How code names a library, at the front of a path, and how definitions and proofs do.
IN_CODE = re.compile(r"(?<![:\w])([a-z][a-z_0-9]*)::")
IN_DEFINITIONS = re.compile(r"Rattle\.([a-z][a-z_0-9]*)")
COMMENT = re.compile(r"^[ \t]*(?://|--).*$", re.M)


@functools.lru_cache(maxsize=None)
def cited_in(text):
    """The libraries that a text names, comments aside."""
    code = COMMENT.sub("", text)
    return {*IN_DEFINITIONS.findall(code), *(IN_CODE.findall(code) if "::" in code else ())}


def cited(repository, crate):
    """The libraries that the files of a crate name."""
    paths = [it for it in repository.files_of_crates[crate] if it.endswith((".rt", ".antt"))]
    return {name for path in paths for name in cited_in(repository.text(path))}


def check(repository):
    """Each library that a crate lists but doesn't cite, that it cites but doesn't list, or that is listed after it."""
    crates, before = repository.libraries, set()
    for crate, libraries in crates.items():
        names, line = cited(repository, crate) - {crate}, repository.place_of(crate)
        for it in libraries:
            if it not in names:
                yield Finding("crates.txt", line, f"{crate} lists {it}, which it doesn't cite", f"{crate} {it}")
        for it in sorted(names & set(crates) - set(libraries)):
            yield Finding("crates.txt", line, f"{crate} cites {it}, which it doesn't list", f"{crate} {it}")
        for it in libraries:
            if it in crates and it not in before:
                yield Finding("crates.txt", line, f"{crate} is listed before {it}, on which it depends", f"{crate} {it}")
        before.add(crate)
    for crate in repository.crates:
        if crate not in crates:
            yield Finding(f"crates/{crate}", 1, f"crates.txt doesn't list {crate}", crate)


def count_chains(crates):
    """How many chains of dependencies begin with each crate, including that of itself alone."""
    counts = {}

    def count(crate):
        if crate not in counts:
            counts[crate] = 1 + sum(count(it) for it in crates[crate] if it in crates)
        return counts[crate]

    return {crate: count(crate) for crate in crates}
