"""Whether contracts and definitions that documents quote are those of the code, word for word.

A quote is a fenced block that begins with `pub fn`, `fn`, `abbrev`, `record` or `data`. Two dots stand for what is left out; blanks, line
feeds and last commas may differ.
"""
import functools
import re

from house.findings import Finding

FENCED = re.compile(r"^( *)```\w*\n(.*?)^ *```", re.M | re.S)
BEGINS = re.compile(r"\s*(?:pub |const )*(fn|abbrev|record|data)\b(?: pub)? (\w+)")
LEFT_OUT = re.compile(r"\.\.+")


@functools.lru_cache(maxsize=None)
def joined(text):
    """A text without blanks, line feeds and last commas."""
    return "".join(text.split()).replace(",)", ")").replace(",>", ">")


def quotes(text):
    """The quotes of a document, each with its line, its kind and what it declares."""
    for found in FENCED.finditer(text):
        begins = BEGINS.match(found[2])
        if begins:
            yield text.count("\n", 0, found.start()) + 2, begins[1], begins[2], found[2]


def is_quoted(text, quote):
    """Whether a text has the parts of a quote, one after another."""
    whole, place = joined(text), 0
    for part in map(joined, LEFT_OUT.split(quote)):
        place = whole.find(part, place)
        if place < 0:
            return False
    return True


def sources(repository, kind):
    """The files that may have what is quoted."""
    if kind == "fn":
        return [path for crate in repository.libraries for path in repository.sources(crate)]
    return [path for crate in repository.libraries for path in repository.files_in(crate, "specs", ".antt")]


def check(repository):
    for document in repository.documents:
        for line, kind, name, quote in quotes(repository.text(document)):
            having = [it for it in sources(repository, kind) if re.search(rf"\b{name}\b", repository.text(it))]
            if not any(is_quoted(repository.text(it), quote) for it in having):
                yield Finding(document, line, f"the code doesn't have {name} as it is quoted here", name)
