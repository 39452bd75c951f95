"""Which parts of documents record what was once so: they keep the names and the numbers of their time."""
import fnmatch
import re

from house import markdown

DOCUMENTS = ("docs/PLANTS.md", "bench/results/*")
CHANGELOG = "CHANGELOG.md"
# The sections of names of before, and of what was measured, with their documents.
RENAMED = ((CHANGELOG, "Renamed"),)
MEASURED = (("CONTRIBUTING.md", "What the gate takes"),)


def is_released(title):
    """Whether a section of the changelog is of a version that was released."""
    return bool(re.match(r"\d", title)) and "unreleased" not in title


def without(repository, document, sections):
    """The lines of a document's prose with their numbers, but for these sections, what was released, and records."""
    if any(fnmatch.fnmatch(document, it) for it in DOCUMENTS):
        return []
    text, left_out = repository.text(document), set()
    for heading in markdown.headings(text):
        if (document, heading.title) in sections or document == CHANGELOG and is_released(heading.title):
            left_out.update(number for number, _ in markdown.section(text, heading.title))
    return [it for it in markdown.prose(text) if it[0] not in left_out]
