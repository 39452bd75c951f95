"""The date of the manual page: that of its last change. A comment in the page has a sum of all the rest, so that no change is made
without a new date; tools/manual-date writes both."""
import hashlib
import re

from house.findings import Finding

PAGE = "man/aa-trace.1"
SUM = re.compile(r'^(\.\\" Sum without the date: )([0-9a-f]*)$', re.M)
HEAD = re.compile(r'^(\.TH \S+ \S+ ")([^"]*)(")', re.M)
DATE = re.compile(r"\d{4}-\d\d-\d\d")


def sum_of(text):
    """The sum of a page, without its date and the sum."""
    bare = HEAD.sub(r"\1\3", SUM.sub(r"\1", text))
    return hashlib.sha256(bare.encode()).hexdigest()[:16]


def dated(text, date):
    """The page with this date."""
    text = HEAD.sub(rf"\g<1>{date}\3", text)
    return SUM.sub(rf"\g<1>{sum_of(text)}", text)


def check(repository):
    text = repository.text(PAGE)
    head, found = HEAD.search(text), SUM.search(text)
    if not head or not found:
        yield Finding(PAGE, 1, "there is no .TH with a date, or no sum", "sum")
    elif not DATE.fullmatch(head[2]):
        yield Finding(PAGE, text.count("\n", 0, head.start()) + 1, f"'{head[2]}' isn't a date, as tools/manual-date writes it", head[2])
    elif found[2] != sum_of(text):
        yield Finding(PAGE, text.count("\n", 0, found.start()) + 1, "the page was changed after its date: run tools/manual-date", found[2])
