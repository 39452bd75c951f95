"""Whether what documents name in backquotes is there: items of code, definitions, edits, files, crates, make targets, tools, options.

Only spans of a clear form are looked at: `crate::item`, `Type::member`, `crate/edit`, a path with a slash that begins with a folder
of the repository or of a crate, `make target`, options of `aa-trace` and of tools, and words that only code has, such as `plain_tree`
and `PlainTree`.
"""
import fnmatch
import re

from house import code_names, markdown, records
from house.findings import Finding

ITEM = re.compile(r"^&?(?:mut )?([A-Za-z_]\w*(?:::(?:<[^>]*>|[A-Za-z_]\w*))+)(?:<.*>)?(?:\(.*\))?$")
EDIT = re.compile(r"^([a-z]\w*)/(\w+)$")
WORD = re.compile(r"^(?:[a-z][a-z0-9]*(?:_[a-z0-9]+)+|[A-Z][a-z0-9]+(?:[A-Z][a-z0-9]*)+|[A-Z]{3,}(?:_[A-Z0-9]+)+)(?:\(.*\))?$")
PATH = re.compile(r"^(?:\./)?[\w.*/-]+(?:/[\w.*-]*)+$")
IN_CRATES = ("src", "specs", "proofs", "must-fail", "more-edits", "tested-edits", "stdin", "stdout", "args")
FILE = re.compile(r"^[\w-]+\.(?:antt|rt|md|py)$")
OPTION = re.compile(r"^--([a-z][a-z-]*)")
BUILT = ("out",)


class Reader:
    """Says what is wrong with a span of a document."""

    def __init__(self, repository):
        self.repository = repository
        self.index = code_names.index_of(repository)
        self.base_names = {it.rpartition("/")[2] for it in repository.files}
        self.top_folders = {it.partition("/")[0] for it in repository.files if "/" in it}
        targets = re.findall(r"(?m)^([\w. -]+):(?!=)", repository.text("Makefile"))
        self.targets = {it for line in targets for it in line.split()}
        self.options = set(re.findall(r'"([a-z-]+)"', "".join(map(repository.text, repository.sources("trace_arguments")))))
        self.options |= {"help", "version"}

    def faults(self, document, span, before=()):
        """What is wrong with a span, perhaps several things."""
        words = span.split()
        home = self.homes(document, before)
        if len(words) > 1 or span.startswith(("make ", "./aa-trace")):
            yield from self.faults_of_command(words)
        elif ITEM.match(span):
            why = self.index.fault_of(re.sub(r"::<[^>]*>", "", ITEM.match(span)[1]))
            if why:
                yield f"`{span}`: {why}"
        elif "/" in span:
            yield from self.faults_of_path(span, home)
        elif FILE.match(span) and span not in self.base_names and not self.index.kit.intersection(home):
            yield f"`{span}`: there is no such file"
        elif WORD.match(span) and span.partition("(")[0] not in self.index.words:
            yield f"`{span}` is in no source"

    def homes(self, document, before):
        """The crates in whose folders a path may be: in the README of a crate this one, and those that spans before it on the line
        name; in other documents any."""
        if not document.startswith("crates/"):
            return ["*"]
        named = [it.partition("/")[0] for it in before]
        return [document.split("/")[1], *(it for it in named if it in self.repository.libraries or it in self.index.kit)]

    def faults_of_path(self, span, home):
        """A file or an edit that isn't there."""
        edit = EDIT.match(span)
        if edit and edit[1] in self.repository.libraries:
            names = [it for folder in ("must-fail", "more-edits", "tested-edits") for it in self.repository.edits(edit[1], folder)]
            if edit[2] not in names and f"crates/{edit[1]}/{edit[2]}" not in self.repository.paths:
                yield f"`{span}`: {edit[1]} has no such edit, file or folder"
        elif PATH.match(span) and not self.is_path(span, home):
            yield f"`{span}`: there is no such file"

    def is_path(self, span, home=("*",)):
        """Whether this is the path of a file or folder, perhaps of one of these crates, or of none that the repository should have."""
        path = re.sub(r"\b[A-Z]{4,}\b(?!\.md)", "*", span.removeprefix("./")).rstrip("/")
        first = path.partition("/")[0]
        if any(it in path.split("/") for it in BUILT):
            return True
        if first in IN_CRATES:
            return any(it in self.index.kit or self.matches(f"crates/{it}/{path}") for it in home)
        if first in self.repository.libraries:
            return self.matches(f"crates/{path}")
        return first not in self.top_folders or self.matches(path)

    def matches(self, path):
        if "*" not in path:
            return path in self.repository.paths
        return any(fnmatch.fnmatchcase(it, path) for it in self.repository.paths)

    def faults_of_command(self, words):
        """Targets of make, tools, and options of the program and of tools, that aren't there."""
        while words and words[0] in ("sudo", "sh", "python3", "$") or words and re.match(r"^[A-Z]\w*=", words[0]):
            words = words[1:]
        program, *rest = words or [""]
        if program == "make":
            for it in rest:
                if re.match(r"^[a-z][\w-]*$", it) and it not in self.targets:
                    yield f"`make {it}`: the Makefile has no such target"
        elif program in ("aa-trace", "./aa-trace"):
            yield from (f"aa-trace has no option {it}" for it in self.unknown(rest, self.options))
        elif program.startswith(("tools/", "bench/")):
            if not self.is_path(program):
                yield f"`{program}`: there is no such file"
            else:
                text = self.repository.text(program)
                yield from (f"{program} has no option {it}" for it in self.unknown(rest, set(re.findall(r"--([a-z][a-z-]*)", text))))

    def unknown(self, words, options):
        for it in words:
            found = OPTION.match(it)
            if found and found[1] not in options:
                yield it


def check(repository):
    reader = Reader(repository)
    for document in repository.documents:
        for number, line in records.without(repository, document, records.RENAMED):
            spans = markdown.SPAN.findall(line)
            for place, span in enumerate(spans):
                for fault in reader.faults(document, span, spans[:place]):
                    yield Finding(document, number, fault, span)
