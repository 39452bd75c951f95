"""The parts of documents in Markdown: headings, sections, paragraphs, code spans and links."""
import collections
import functools
import re

FENCE = re.compile(r"^\s*(```|~~~)")
HEADING = re.compile(r"^(#{1,6})\s+(.*?)\s*#*$")
SPAN = re.compile(r"(?<!`)`([^`\n]+)`(?!`)")
LINK = re.compile(r"\[(?:[^\[\]]|\[[^\]]*\])*\]\(([^()\s]+(?:\([^()]*\)[^()\s]*)?)\)")
LINK_TEXT = re.compile(r"\[((?:[^\[\]]|\[[^\]]*\])*)\](?:\([^()]*\))?")

Heading = collections.namedtuple("Heading", "line level title")


@functools.lru_cache(maxsize=None)
def prose(text):
    """The lines with their numbers, but for those in fenced blocks."""
    found, is_code = [], False
    for number, line in enumerate(text.split("\n"), 1):
        if FENCE.match(line):
            is_code = not is_code
        elif not is_code:
            found.append((number, line))
    return found


def headings(text):
    found = ((number, HEADING.match(line)) for number, line in prose(text))
    return [Heading(number, len(it[1]), it[2]) for number, it in found if it]


@functools.lru_cache(maxsize=None)
def spans(text):
    """The code spans outside of fenced blocks, with the numbers of their lines."""
    return [(number, it) for number, line in prose(text) for it in SPAN.findall(line)]


@functools.lru_cache(maxsize=None)
def links(text):
    """The targets of links, with the numbers of their lines."""
    return [(number, it) for number, line in prose(text) for it in LINK.findall(SPAN.sub("``", line))]


def anchors(text):
    """The anchors of the headings, as GitHub makes them."""
    found, counts = set(), collections.Counter()
    for heading in headings(text):
        plain = re.sub(r"[`*]", "", LINK_TEXT.sub(r"\1", heading.title)).strip().lower()
        anchor = re.sub(r"[^\w\- ]", "", plain).replace(" ", "-")
        found.add(f"{anchor}-{counts[anchor]}" if counts[anchor] else anchor)
        counts[anchor] += 1
    found.update(re.findall(r"<a (?:id|name)=\"([^\"]+)\"", text))
    return found


def section(text, title):
    """The lines below the heading with this title, with their numbers, or None if there is no such heading."""
    places = headings(text)
    for place, heading in enumerate(places):
        if heading.title == title:
            end = next((it.line for it in places[place + 1:] if it.level <= heading.level), None)
            lines = text.split("\n")
            return list(enumerate(lines[heading.line:end and end - 1], heading.line + 1))
    return None


def first_paragraph(text):
    """The first paragraph that isn't a heading, on one line."""
    found = []
    for _, line in prose(text):
        if line.strip() and not HEADING.match(line):
            found.append(line.strip())
        elif found:
            break
    return " ".join(found)


def plain(text):
    """A text with its links replaced by their words, and with single blanks."""
    return " ".join(LINK_TEXT.sub(r"\1", text).split())
