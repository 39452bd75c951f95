"""What a shape of hostile input is, and how inputs are made of repeated parts."""
from dataclasses import dataclass
from typing import Callable


@dataclass(frozen=True)
class Shape:
    """Input that takes a reader of the program long, or much memory."""
    name: str
    # The arguments of the program.
    words: tuple
    # The input, of about as many bytes as asked for.
    make: Callable[[int], bytes]
    # Whether docs/LIMITS.md names it as one that may take longer than others.
    named: bool = False


def repeated(size, part, begin="", end=""):
    """As many parts, each made from its number, as fit between the begin and the end."""
    parts, left = [], size - len(begin) - len(end)
    while True:
        text = part(len(parts))
        left -= len(text)
        if left < 0:
            return (begin + "".join(parts) + end).encode()
        parts.append(text)


def profile(size, rule, begin=""):
    """A profile of as many rules as fit, at most 1,024."""
    head = begin + "profile p {\n"
    room, rules = size - len(head) - 2, []
    while len(rules) < 1024 and room >= len(rule(len(rules))):
        rules.append(rule(len(rules)))
        room -= len(rules[-1])
    return (head + "".join(rules) + "}\n").encode()
