"""Whether the gate refuses each wrong body of tools/wrong-bodies, whose head says how the list is written.

The gate tries must-fail/, and runs the tests that `make tested` shows to refuse the edits of tested-edits/; more-edits/ it leaves out.
"""
import re

from house import edits
from house.findings import Finding

LIST = "tools/wrong-bodies"


def entries(repository):
    """The wrong bodies, each with its line and what shows that it is refused: lists of words, with their lines."""
    found = []
    for number, line in enumerate(repository.lines(LIST), 1):
        if line.startswith("  "):
            found[-1][2].append((number, line.split()))
        elif line and not line.startswith("#"):
            found.append((number, line, []))
    return found


def why_not_tried(repository, edit, folder):
    """Why an edit isn't tried as it should be, or None."""
    crate, _, name = edit.partition("/")
    if crate not in repository.libraries:
        return f"there is no crate {crate}"
    if name in repository.edits(crate, folder):
        return None
    others = [it for it in edits.FOLDERS if name in repository.edits(crate, it)]
    return f"{edit} is in {others[0]}/, and not in {folder}/" if others else f"there is no edit {edit}"


def why_untested(repository, test, edit):
    """Why a test doesn't show what it should, or None."""
    crate, _, path = test.partition("/")
    if crate not in repository.libraries or not edits.has_test(repository, crate, path):
        return f"there is no test {test}"
    if not edit:
        return None
    why = why_not_tried(repository, edit, edits.TESTED)
    if why:
        return why
    owner, _, name = edit.partition("/")
    says = repository.lines(f"crates/{owner}/{edits.TESTED}/{name}.edit")[0]
    return None if says == f"test: {crate} {path}" else f"{edit} names another test: {says}"


def why_may_wait(repository, crate, function):
    """Why a function may wait, or None."""
    if crate not in repository.libraries:
        return f"there is no crate {crate}"
    head = repository.lines("crates.txt")[repository.place_of(crate) - 1].partition(":")[0]
    owner, _, name = function.rpartition("::")
    found = [it for path in repository.sources(crate)
             for it in re.findall(rf"(?s)\bimpl {owner} {{(?:(?!\n}}).)*?\bpub fn {name}\b(.*?)\n *(?:requires|ensures|{{)",
                                  repository.text(path))]
    if not found:
        return f"there is no {crate}::{function}"
    return f"{crate} or {function} may wait" if "may_wait" in head or "Wait" in found[0] else None


def why_bad(repository, words):
    """Why a line doesn't show that a wrong body is refused, or None."""
    kind, *rest = words
    if kind == "edit" and len(rest) == 1:
        return why_not_tried(repository, rest[0], edits.IN_GATE)
    if kind == "case" and len(rest) == 1:
        return why_not_tried(repository, rest[0], edits.TESTED)
    if kind == "test" and len(rest) in (1, 2):
        return why_untested(repository, rest[0], rest[1] if len(rest) == 2 else None)
    if kind == "no-wait" and len(rest) == 2:
        return why_may_wait(repository, *rest)
    return f"the line isn't read: {' '.join(words)}"


def check(repository):
    found = entries(repository)
    if not found:
        yield Finding(LIST, 1, "the list is empty", LIST)
    for line, sentence, shown in found:
        if not shown:
            yield Finding(LIST, line, f"nothing refuses this wrong body: {sentence}", sentence)
        for number, words in shown:
            why = why_bad(repository, words)
            if why:
                yield Finding(LIST, number, f"{why} ({sentence})", " ".join(words))
