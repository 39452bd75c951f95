"""Whether the relative links of documents lead to a file, and to a heading of it."""
import posixpath

from house import markdown
from house.findings import Finding


def is_outside(target):
    return target.startswith(("http://", "https://", "mailto:"))


def why_dead(repository, document, target, anchors):
    """Why a link leads nowhere, or nothing. `anchors` keeps those of the documents that were read."""
    path, _, anchor = target.partition("#")
    file = posixpath.normpath(posixpath.join(posixpath.dirname(document), path)) if path else document
    if file != "." and file not in repository.paths:
        return f"there is no {file}"
    if anchor and file.endswith(".md"):
        if file not in anchors:
            anchors[file] = markdown.anchors(repository.text(file))
        return None if anchor in anchors[file] else f"{file} has no heading for #{anchor}"
    return None


def check(repository):
    anchors = {}
    for document in repository.documents:
        for line, target in markdown.links(repository.text(document)):
            why = None if is_outside(target) else why_dead(repository, document, target, anchors)
            if why:
                yield Finding(document, line, f"the link {target} is dead: {why}", target)
