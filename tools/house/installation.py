"""What is installed, by the list in tools/installed-files, and the documents as they are installed: with links to installed files only."""
import collections
import fnmatch
import posixpath
import re

from house import markdown
from house.document_links import is_outside
from house.findings import Finding

LIST = "tools/installed-files"
# What isn't in the repository, but built.
BUILT = ("aa-trace", "crates/coqetwal/out/")
# Links of other forms than `[text](target)`, which aren't rewritten.
OTHER_LINK = re.compile(r"^\s*\[[^\]]+\]:\s*(\S+)|(?:href|src)=[\"']([^\"']+)|<((?:\.{0,2}/)?[\w./-]+\.md(?:#[\w-]*)?)>")
NOTE = "\nThis copy is an installed one. Files of the source that aren't installed are named here without a link.\n"

# A file that is installed: its mode, or `link`; what it is made from, or leads to; where it goes; and its line in the list.
Installed = collections.namedtuple("Installed", "mode source target line")


def entries(repository):
    """The entries of the list as they are there: fields and line."""
    lines = enumerate(repository.lines(LIST), 1)
    return [(line.split(), number) for number, line in lines if line.strip() and not line.startswith("#")]


def files(repository):
    """All that is installed, one by one."""
    version = repository.text("VERSION").strip()
    for (mode, source, target), number in entries(repository):
        target = target.replace("@VERSION@", version)
        if mode == "link":
            yield Installed(mode, source.replace("@VERSION@", version), target, number)
        elif "*" in source:
            folder = posixpath.dirname(source)
            for path in repository.files:
                if fnmatch.fnmatchcase(path, source) and posixpath.dirname(path) == folder:
                    yield Installed(mode, path, target + posixpath.basename(path), number)
        else:
            yield Installed(mode, source, target, number)


def targets(repository):
    """Where each source goes."""
    return {it.source: it.target for it in files(repository) if it.mode != "link"}


def link_in_place(document, target, places):
    """The link of a document as the installed one has it, or None if it leads to what isn't installed."""
    path, _, anchor = target.partition("#")
    source = posixpath.normpath(posixpath.join(posixpath.dirname(document), path)) if path else document
    if source not in places:
        return None
    there = posixpath.relpath(places[source], posixpath.dirname(places[document])) if path else ""
    return f"{there}#{anchor}" if anchor else there


def line_in_place(document, line, places):
    """A line of a document as the installed one has it, and whether it lost a link."""
    hidden = markdown.SPAN.sub(lambda it: f"`{'x' * len(it[1])}`", line)
    found, end, has_lost = [], 0, False
    for link in markdown.LINK.finditer(hidden):
        text, target = line[link.start() + 1:link.start(1) - 2], line[link.start(1):link.end(1)]
        there = target if is_outside(target) else link_in_place(document, target, places)
        has_lost = has_lost or there is None
        found += [line[end:link.start()], text if there is None else f"[{text}]({there})"]
        end = link.end()
    return "".join([*found, line[end:]]), has_lost


def document_in_place(repository, document, places):
    """The text of an installed document."""
    prose = {number for number, _ in markdown.prose(repository.text(document))}
    lines = enumerate(repository.lines(document), 1)
    read = [line_in_place(document, line, places) if number in prose else (line, False) for number, line in lines]
    text = "\n".join(line for line, _ in read)
    return text + NOTE if any(has_lost for _, has_lost in read) else text


def dead_links(repository, places):
    """The links of installed documents that lead to nothing that is installed, or to no heading of it."""
    documents = {source: document_in_place(repository, source, places) for source in places if source.endswith(".md")}
    headings = {places[source]: markdown.anchors(text) for source, text in documents.items()}
    there = set(places.values())
    for source, text in documents.items():
        others = [(number, next(filter(None, it.groups()))) for number, line in markdown.prose(text) for it in OTHER_LINK.finditer(line)]
        for number, link in [*markdown.links(text), *others]:
            path, _, anchor = link.partition("#")
            target = posixpath.normpath(posixpath.join(posixpath.dirname(places[source]), path)) if path else places[source]
            if not is_outside(link) and (target not in there or anchor and anchor not in headings.get(target, ())):
                yield Finding(source, number, f"the installed document has a link {link} that leads nowhere", link)


def check(repository):
    found, places = list(files(repository)), targets(repository)
    for fields, number in entries(repository):
        if not any(it.line == number for it in found):
            yield Finding(LIST, number, f"there is no {fields[1]}", fields[1])
    for it in found:
        if it.mode != "link" and it.source not in repository.paths and not it.source.startswith(BUILT):
            yield Finding(LIST, it.line, f"there is no {it.source}", it.source)
    for target, count in collections.Counter(it.target for it in found).items():
        if count > 1:
            yield Finding(LIST, 1, f"{count} files go to {target}", target)
    yield from dead_links(repository, places)
