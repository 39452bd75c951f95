"""Profile texts: what docs/RULES-LANGUAGE.md ("The profile text") says of reading them, of their faults, and of canonical text."""
import dataclasses
import enum
import re

PERMISSIONS = b"rwlkma"
WRITE, APPEND = b"wa"
MODES = b"rwlkmaxipcuPCU"
MOST_RULES = 1024
MOST_ITEMS = 1024
DEEPEST = 50
LONGEST_NAME = 255
WHITE = frozenset((b" ", b"\t", b"\r", b"\n"))
END, NUL, LF, QUOTE, BACKSLASH = b"", b"\0", b"\n", b'"', b"\\"
AFTER_COMMA = WHITE | {b"#", b"}", QUOTE, b",", END}
INCLUDE = re.compile(rb'#include[ \t<"]')
WHITE_OR_COMMENT = re.compile(rb"[ \t\r\n]+|#[^\n\0]*")
WORD = re.compile(rb"[A-Za-z][A-Za-z0-9_]*")
ESCAPES_LEFT_OUT = re.compile(rb"[A-Za-z0-9]")


class Kind(enum.IntEnum):
    SYNTAX = 1
    LEFT_OUT = 2
    PERMISSION = 3
    EMPTY_PERMISSIONS = 4
    NOT_ABSOLUTE = 5
    CLASS = 6
    GROUP = 7
    DEPTH = 8
    TOO_MANY_RULES = 9
    TOO_MANY_ITEMS = 10
    CONFLICT = 12


class Fault(Exception):
    def __init__(self, kind, at, length=0):
        super().__init__(kind, at, length)
        self.kind, self.at, self.length = kind, at, length


def syntax(at):
    return Fault(Kind.SYNTAX, at)


@dataclasses.dataclass(frozen=True)
class Byte:
    value: int


@dataclasses.dataclass(frozen=True)
class One:
    """`?`"""


@dataclasses.dataclass(frozen=True)
class Class:
    is_negated: bool
    ranges: tuple


@dataclasses.dataclass(frozen=True)
class Run:
    """`*`, or `**` if it takes slashes."""
    takes_slashes: bool


@dataclasses.dataclass(frozen=True)
class Group:
    alternatives: tuple


@dataclasses.dataclass(frozen=True)
class Rule:
    is_deny: bool
    path: tuple
    permissions: bytes
    start: int = 0

    def holds(self, letter):
        return letter in self.permissions or letter == APPEND and WRITE in self.permissions


@dataclasses.dataclass(frozen=True)
class Profile:
    name: bytes
    rules: tuple


class Cursor:
    def __init__(self, text):
        self.text, self.at = text, 0

    def peek(self, length=1):
        return self.text[self.at:self.at + length]

    def word(self):
        found = WORD.match(self.text, self.at)
        return found.group() if found else b""

    def blank(self):
        while True:
            if INCLUDE.match(self.text, self.at):
                raise Fault(Kind.LEFT_OUT, self.at, 8)
            found = WHITE_OR_COMMENT.match(self.text, self.at)
            if found is None:
                return
            self.at = found.end()

    def gap(self):
        start = self.at
        self.blank()
        if self.at == start:
            raise syntax(start)

    def escaped(self):
        """The byte after a backslash of a path."""
        byte = self.text[self.at + 1:self.at + 2]
        if ESCAPES_LEFT_OUT.match(byte):
            raise Fault(Kind.LEFT_OUT, self.at, 2)
        if byte in (END, NUL, LF):
            raise syntax(self.at + 1)
        self.at += 2
        return byte[0]


def read_profile(text):
    """The profile of a text; raises its first fault."""
    cursor = Cursor(text)
    cursor.blank()
    name = read_header(cursor)
    cursor.at += 1
    cursor.blank()
    rules = []
    while cursor.peek() != b"}":
        rules.append(read_rule(cursor, len(rules)))
        cursor.blank()
    cursor.at += 1
    cursor.blank()
    if cursor.peek() != END:
        raise syntax(cursor.at)
    return Profile(name, tuple(rules))


def read_header(cursor):
    """Reads up to the brace."""
    word = cursor.word()
    if word == b"profile":
        cursor.at += len(word)
        cursor.gap()
        name = read_profile_name(cursor)
        cursor.gap()
        if cursor.peek() == b"/" or cursor.peek() == QUOTE:
            read_name(cursor, None, is_absolute=True)
            cursor.gap()
    elif word or cursor.peek() == b"@":
        raise Fault(Kind.LEFT_OUT, cursor.at, len(word) or 1)
    elif cursor.peek() == b"/" or cursor.peek() == QUOTE:
        name = read_name(cursor, LONGEST_NAME, is_absolute=True)
        cursor.gap()
    else:
        raise syntax(cursor.at)
    for left_out, length in ((b"flags=", 5), (b"xattrs=", 6), (b"(", 1)):
        if cursor.peek(len(left_out)) == left_out:
            raise Fault(Kind.LEFT_OUT, cursor.at, length)
    if cursor.peek() != b"{":
        raise syntax(cursor.at)
    return name


def read_profile_name(cursor):
    if cursor.peek() in (b"{", b"}", b",", b"#"):
        raise syntax(cursor.at)
    first = cursor.at + (cursor.peek() == QUOTE)
    if cursor.text[first:first + 1] == b":":
        raise Fault(Kind.LEFT_OUT, first, 1)
    return read_name(cursor, LONGEST_NAME, is_absolute=False)


def read_name(cursor, longest, is_absolute):
    """A name, bare or in quotes."""
    is_quoted = cursor.peek() == QUOTE
    cursor.at += is_quoted
    start = cursor.at
    if is_absolute and cursor.peek() != b"/":
        raise syntax(start)
    while not name_ends(cursor, is_quoted):
        if longest is not None and cursor.at - start >= longest:
            raise syntax(start)
        cursor.at += 1
        if cursor.text[cursor.at - 1:cursor.at] == BACKSLASH:
            if cursor.peek() in (END, NUL, LF):
                raise syntax(cursor.at)
            if longest is not None and cursor.at - start >= longest:
                raise syntax(start)
            cursor.at += 1
    name = cursor.text[start:cursor.at]
    if not name:
        raise syntax(start)
    cursor.at += is_quoted
    return name


def name_ends(cursor, is_quoted):
    byte = cursor.peek()
    if byte in (END, NUL) or (is_quoted and byte == LF) or (not is_quoted and byte == QUOTE):
        raise syntax(cursor.at)
    return byte == QUOTE if is_quoted else byte in WHITE


def are_letters(word):
    return all(letter in PERMISSIONS for letter in word)


def is_permissions(word):
    return word != b"" and are_letters(word)


def in_order(letters):
    """A set of permissions, as it is printed."""
    return bytes(letter for letter in PERMISSIONS if letter in letters)


def read_rule(cursor, before):
    start = cursor.at
    word = cursor.word()
    if word == b"all":
        raise Fault(Kind.LEFT_OUT, start, len(word))
    if word not in (b"allow", b"deny"):
        test_rule_begins(cursor)
    if before == MOST_RULES:
        raise Fault(Kind.TOO_MANY_RULES, start)
    if word in (b"allow", b"deny"):
        cursor.at += len(word)
        cursor.gap()
        test_rule_begins(cursor)
    path, letters = read_permissions_and_path(cursor) if cursor.word() else read_path_and_permissions(cursor)
    cursor.blank()
    test_arrow(cursor)
    if cursor.peek() != b",":
        raise syntax(cursor.at)
    cursor.at += 1
    return Rule(word == b"deny", path, in_order(letters), start)


def test_rule_begins(cursor):
    """A path or permissions are here."""
    word = cursor.word()
    if is_permissions(word) or cursor.peek() == b"/" or cursor.peek() == QUOTE:
        return
    if word or cursor.peek() in (b"@", b"^", b"$"):
        raise Fault(Kind.LEFT_OUT, cursor.at, len(word) or 1)
    raise syntax(cursor.at)


def test_arrow(cursor):
    if cursor.peek(2) == b"->":
        raise Fault(Kind.LEFT_OUT, cursor.at, 2)


def take_permissions(cursor, word):
    if WRITE in word and APPEND in word:
        raise Fault(Kind.CONFLICT, cursor.at)
    cursor.at += len(word)
    return word


def read_permissions_and_path(cursor):
    letters = take_permissions(cursor, cursor.word())
    cursor.gap()
    return read_path(cursor), letters


def read_path_and_permissions(cursor):
    path = read_path(cursor)
    if cursor.peek() == b",":
        raise Fault(Kind.EMPTY_PERMISSIONS, cursor.at)
    cursor.gap()
    test_arrow(cursor)
    if cursor.peek() == b",":
        raise Fault(Kind.EMPTY_PERMISSIONS, cursor.at)
    word = cursor.word()
    if not word:
        raise syntax(cursor.at)
    if not is_permissions(word):
        is_modes = all(letter in MODES for letter in word)
        raise Fault(Kind.LEFT_OUT if is_modes else Kind.PERMISSION, cursor.at, len(word))
    return path, take_permissions(cursor, word)


@dataclasses.dataclass
class OpenGroup:
    at: int
    alternatives: list


def read_path(cursor):
    is_quoted = cursor.peek() == QUOTE
    cursor.at += is_quoted
    first = cursor.peek()
    if first in (END, NUL) or (is_quoted and first == LF):
        raise syntax(cursor.at)
    if first != b"/":
        raise Fault(Kind.NOT_ABSOLUTE, cursor.at)
    groups, items = [OpenGroup(0, [[]])], 0
    while not path_ends(cursor, is_quoted, len(groups) > 1):
        read_item(cursor, is_quoted, groups, items == MOST_ITEMS)
        items += 1
    if len(groups) > 1:
        raise Fault(Kind.GROUP, groups[-1].at)
    cursor.at += is_quoted
    return tuple(groups[0].alternatives[0])


def path_ends(cursor, is_quoted, in_group):
    byte = cursor.peek()
    if byte == NUL or (is_quoted and byte in (END, LF)):
        raise syntax(cursor.at)
    if is_quoted:
        return byte == QUOTE
    if byte == b",":
        return not in_group and cursor.text[cursor.at + 1:cursor.at + 2] in AFTER_COMMA
    return byte in WHITE or byte in (QUOTE, END)


def read_item(cursor, is_quoted, groups, is_too_many):
    """Adds an item to the innermost alternative."""
    start, byte = cursor.at, cursor.peek()
    value = byte[0]
    if cursor.peek(2) == b"@{":
        raise Fault(Kind.LEFT_OUT, start, 2)
    if byte == BACKSLASH:
        value = cursor.escaped()
    if byte == b"{" and len(groups) > DEEPEST:
        raise Fault(Kind.DEPTH, start)
    if byte == b"}" and len(groups) == 1:
        raise Fault(Kind.GROUP, start)
    if is_too_many:
        raise Fault(Kind.TOO_MANY_ITEMS, start)
    if byte == b"[":
        groups[-1].alternatives[-1].append(read_class(cursor, is_quoted))
        return
    cursor.at = max(cursor.at, start + 1)
    if byte == b"{":
        groups.append(OpenGroup(start, [[]]))
    elif byte == b"}":
        closed = groups.pop()
        groups[-1].alternatives[-1].append(Group(tuple(tuple(one) for one in closed.alternatives)))
    elif byte == b"," and len(groups) > 1:
        groups[-1].alternatives.append([])
    else:
        groups[-1].alternatives[-1].append(read_plain(cursor, byte, value))


def read_plain(cursor, byte, value):
    if byte == b"?":
        return One()
    if byte != b"*":
        return Byte(value)
    stars = re.compile(rb"\**").match(cursor.text, cursor.at).end() - cursor.at
    cursor.at += stars
    return Run(stars > 0)


def read_class(cursor, is_quoted):
    start = cursor.at
    cursor.at += 1
    is_negated = cursor.peek() == b"^"
    cursor.at += is_negated
    ranges, is_alone = [], True
    while cursor.peek() != b"]":
        is_alone = is_alone and cursor.peek() == b"-"
        low = high = read_member(cursor, is_quoted, start)
        is_range = not is_alone and cursor.peek() == b"-" and cursor.peek(2) != b"-]" and cursor.peek(3) != b"--]"
        if is_range:
            cursor.at += 1
            is_hyphen = cursor.peek() == b"-"
            high = read_member(cursor, is_quoted, start)
            # Only the byte after a hyphen says that it isn't the last member.
            if is_hyphen:
                test_text_goes_on(cursor, is_quoted)
        if high < low:
            raise Fault(Kind.CLASS, start)
        ranges.append((low, high))
        is_alone = is_range
    if not ranges:
        raise Fault(Kind.CLASS, start)
    cursor.at += 1
    return Class(is_negated, tuple(ranges))


def test_text_goes_on(cursor, is_quoted):
    byte = cursor.peek()
    if byte == NUL or (is_quoted and byte in (END, LF)):
        raise syntax(cursor.at)


def read_member(cursor, is_quoted, start):
    test_text_goes_on(cursor, is_quoted)
    byte = cursor.peek()
    if byte in (QUOTE, END) or (not is_quoted and byte in WHITE):
        raise Fault(Kind.CLASS, start)
    if byte == BACKSLASH:
        return cursor.escaped()
    cursor.at += 1
    return byte[0]


def canonical_rule(rule):
    return (b"deny " if rule.is_deny else b"") + b'"' + b"".join(map(canonical_item, rule.path)) + b'" ' + rule.permissions + b","


def canonical_text(profile):
    lines = [b'profile "' + profile.name + b'" {'] + [b"  " + canonical_rule(rule) for rule in profile.rules] + [b"}", b""]
    return b"\n".join(lines)


def escape(value, special):
    return (BACKSLASH if value in special else b"") + bytes((value,))


def canonical_item(item):
    if isinstance(item, Byte):
        return escape(item.value, b'*?[]{},\\"@')
    if isinstance(item, One):
        return b"?"
    if isinstance(item, Run):
        return b"**" if item.takes_slashes else b"*"
    if isinstance(item, Group):
        return b"{" + b",".join(b"".join(map(canonical_item, one)) for one in item.alternatives) + b"}"
    members = [b"-".join(escape(end, b'\\]^-"') for end in dict.fromkeys(ends)) for ends in item.ranges]
    return (b"[^" if item.is_negated else b"[") + b"".join(members) + b"]"
