"""The wrong bodies of each crate: whether each can be tried, and is named right.

They are in must-fail/, which the gate tries, in more-edits/, which `make edits` tries, and in tested-edits/, which contracts admit
and tests refuse, and which `make tested` tries.
"""
import re

from house import markdown
from house.findings import Finding

# The documents that name edits as `crate/name`, as those that are tried.
DOCUMENTS, NAMED = ("docs/PROOFS.md", "docs/WRONG-BODIES.md"), re.compile(r"^(\w+)/(\w+)$")
IN_GATE, MORE, TESTED = FOLDERS = ("must-fail", "more-edits", "tested-edits")
# What refuses an edit of tested-edits/.
REFUSERS = ("test", "run")


def has_test(repository, crate, path):
    """Whether a crate has this test: a function after `#[test]`, in the file of its module."""
    *modules, name = path.split("::")
    stem = "/".join(modules) or "lib"
    test = re.compile(rf"#\[test\]\n(?:\s*(?:#|//).*\n)*\s*(?:pub )?fn {name}\b")
    return any(test.search(repository.text(f"crates/{crate}/src/{it}.rt")) for it in (stem, f"{stem}/mod", "main"))


def why_bad(repository, crate, folder, name):
    """Why an edit can't be applied, or nothing."""
    texts, path, old, pairs = {}, None, None, 0
    for line in repository.lines(f"crates/{crate}/{folder}/{name}.edit"):
        kind, _, text = line.partition(":")
        text = text[1:] if text.startswith(" ") else text
        if kind == "file":
            path = text
            if f"crates/{crate}/{path}" not in repository.paths:
                return f"there is no file {path}"
            texts.setdefault(path, repository.text(f"crates/{crate}/{path}"))
        elif kind == "old" and path:
            old = text
        elif kind == "new" and old:
            if texts[path].count(old) != 1:
                return f"its text is {texts[path].count(old)} times in {path}: {old}"
            texts[path], old, pairs = texts[path].replace(old, text), None, pairs + 1
        elif kind in REFUSERS and folder == TESTED:
            test = text.partition(" ")
            if test[0] not in repository.crates or kind == "test" and not has_test(repository, test[0], test[2]):
                return f"there is no crate or no test {text}"
        elif line:
            return f"a line isn't read: {line}"
    return None if pairs and not old else "it has no pair of old and new"


def named(repository):
    """The edits that documents name as `crate/name`, with the document and the line."""
    for document in DOCUMENTS:
        for line, span in markdown.spans(repository.text(document)):
            found = NAMED.match(span)
            if found and found[1] in repository.libraries:
                yield document, line, found[1], found[2]


def check(repository):
    """Edits that can't be applied, names that two folders of a crate have, and edits that the gate doesn't try and that documents name
    as if it did."""
    for document, line, crate, name in named(repository):
        if name in repository.edits(crate, MORE):
            yield Finding(document, line, f"the gate doesn't try {crate}/{name}, which is in {MORE}/", f"{crate}/{name}")
    for crate in repository.crates:
        seen = {}
        for folder in FOLDERS:
            for name in repository.edits(crate, folder):
                path, key = f"crates/{crate}/{folder}/{name}.edit", f"{crate}/{name}"
                why = why_bad(repository, crate, folder, name)
                if why:
                    yield Finding(path, 1, why, key)
                if name in seen:
                    yield Finding(path, 1, f"{key} is in two folders, here and in {seen[name]}/", key)
                seen[name] = folder
