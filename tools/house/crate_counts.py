"""What can be counted of a crate: lines, public functions, edits and tests."""
import functools
import re

from house import definitions, edits

PUBLIC = re.compile(r"^\s*pub (?:const )?(?:extern \"C\" )?fn \w+", re.M)
TEST = re.compile(r"^\s*#\[test\]", re.M)
FUNCTION = re.compile(r"^\s*(?:pub(?:\([^)]*\))? )?(?:(?:const|unsafe) )*(?:extern \"C\" )?fn \w+", re.M)


@functools.lru_cache(maxsize=None)
def matches_in(text, pattern):
    return len(pattern.findall(text))


def matches(repository, crate, pattern):
    return sum(matches_in(repository.text(it), pattern) for it in repository.sources(crate))


def code(repository, crate):
    return sum(repository.text(it).count("\n") for it in repository.sources(crate))


def believed(repository, crate):
    return definitions.lines_of(repository, definitions.public_files(repository, crate))


def proofs(repository, crate):
    return definitions.lines_of(repository, repository.files_in(crate, "proofs", ".antt"))


def laws_and_inner(repository, crate):
    return sum(definitions.lines_of(repository, repository.files_in(crate, f"specs/{it}", ".antt")) for it in ("laws", "inner"))


def functions(repository, crate):
    return matches(repository, crate, FUNCTION)


def public_functions(repository, crate):
    return matches(repository, crate, PUBLIC)


def edits_in(*folders):
    return lambda repository, crate: sum(len(repository.edits(crate, it)) for it in folders)


in_gate, more, tested = edits_in(edits.IN_GATE), edits_in(edits.MORE), edits_in(edits.TESTED)
must_fail, all_edits = edits_in(edits.IN_GATE, edits.MORE), edits_in(*edits.FOLDERS)


def tests(repository, crate):
    return matches(repository, crate, TEST)


def total(count, repository):
    return sum(count(repository, it) for it in repository.crates)
