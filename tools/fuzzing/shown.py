"""How faults are shown: as a sentence, a line of the text, and a caret (docs/RULES-PROGRAM.md, "Explaining" and "Notes")."""
import re

from flat_text import FlatReader, ImportFault
from texts import Fault, Kind, read_profile

MOST_COLUMNS = 72
MOST_BEFORE = 36
DOTS = b".."
LONGEST_WORD = 40
FLATTEN = "flatten the text first: apparmor_parser -qQp FILE"
IMPORT_TAKES = frozenset("""@ @{ ^ ( -> abi audit capability change_profile dbus file flags hat io_uring link mount mqueue network other
owner pivot_root priority profile ptrace remount safe set signal umount unix unsafe userns xattrs""".split())
SENTENCES = {
    Kind.SYNTAX: "syntax error",
    Kind.PERMISSION: "no permissions",
    Kind.EMPTY_PERMISSIONS: "permissions are missing",
    Kind.NOT_ABSOLUTE: "the path at byte {at} isn't absolute",
    Kind.CLASS: "bad class",
    Kind.GROUP: "unbalanced brace",
    Kind.DEPTH: "groups nested too deep",
    Kind.TOO_MANY_RULES: "too many rules",
    Kind.TOO_MANY_ITEMS: "too many items",
    Kind.CONFLICT: "append and write conflict",
}
IMAGE_SENTENCES = {
    1: "an image has a header of 20 bytes, and here are fewer",
    2: "an image begins with the four bytes PTAB",
    3: "the version is 1 or 2: bytes 4 and 5, the lower first",
    4: "in version 1 the bytes 6 and 7 are 0",
    5: "a count is out of its limits: 2 to 65,536 states, 256 to 16,777,216 cells, 1 to 65,536 records",
    6: "the image isn't as long as the counts of its header say",
    7: "the default of state {} is no state",
    8: "the row of 256 cells of state {} ends after the last cell",
    9: "the accept of state {} is no record",
    10: "the next of cell {} is no state",
    12: "the depth of state {} is over the bound, or is over 0 and not over that of its default",
}
TOO_MANY_STATES = b"too many states: names lead to more than 16,384 sets of live places of the rules\n"
IMPORT_SENTENCES = {
    2: "an include: " + FLATTEN,
    3: "not supported: {word}",
    4: "these are no permissions, or none that are allowed in this rule",
    5: "the variable @{{{word}}} isn't declared; --define NAME=VALUE gives a variable a value",
    6: "the variable @{{{word}}} needs itself",
    8: "the name of an imported profile can't be this one",
    9: "the profile has more than 1,024 rules: this is one too many",
    10: "the path, or the list of a variable that it needs, is too long",
    12: "something changes here for the chosen subject, which --strict doesn't allow",
    13: "there are more than 1,024 variables, or paths and lists of variables have more than 16 MB",
}
ASSIGNED = re.compile(rb"@\{[A-Za-z][A-Za-z0-9_]*\}")


def printable(line):
    """A tab as one space, and each byte that isn't printable ASCII as `?`."""
    return bytes(32 if byte == 9 else byte if 32 <= byte <= 126 else ord("?") for byte in line)


def word_of(text):
    return printable(text[:LONGEST_WORD]).decode()


def line_of(text, at):
    return text.count(b"\n", 0, at) + 1


def window(line, column):
    """A line about the byte before which there are `column` bytes, and where that byte is shown."""
    if len(line) <= MOST_COLUMNS:
        return line, column
    before, rest = line[:column], line[column:]
    if len(before) > MOST_BEFORE:
        before = DOTS + before[-(MOST_BEFORE - len(DOTS)):]
    left = MOST_COLUMNS - len(before)
    if len(rest) > left:
        rest = rest[:left - len(DOTS)] + DOTS
    return before + rest, len(before)


def shown_place(text, at, sentence, first_line=1):
    """Three lines: the place and the sentence, the line, and a caret below the byte. The text's lines count from `first_line`."""
    start = text.rfind(b"\n", 0, at) + 1
    line, before = window(printable(text[start:].split(b"\n")[0]), at - start)
    place = f"line {line_of(text, at) - 1 + first_line}, column {at - start + 1}: {sentence}\n"
    return place.encode() + line + b"\n" + b" " * before + b"^\n"


def is_comma_missing(text, at):
    try:
        read_profile(text[:at] + b",}")
    except Fault:
        return False
    return True


def sentence_of(text, fault):
    """A fault of a profile text as a sentence."""
    at = fault.at
    if fault.kind == Kind.LEFT_OUT:
        left_out = text[at:at + fault.length]
        word = left_out.decode("latin-1")
        ending = "; aa-trace import takes it" if word in IMPORT_TAKES else ""
        if word in ("include", "#include"):
            ending = "; aa-trace import takes it flattened: apparmor_parser -qQp FILE"
        return f"not supported: {word_of(left_out)} at byte {at}{ending}"
    if fault.kind == Kind.SYNTAX and is_comma_missing(text, at):
        return f"a comma is missing at byte {at}"
    sentence = SENTENCES[fault.kind]
    said = sentence.format(at=at) if "{at}" in sentence else f"{sentence} at byte {at}"
    if fault.kind in (Kind.SYNTAX, Kind.NOT_ABSOLUTE) and text[at:at + 2] == b"@{":
        said += "; aa-trace import takes it"
    return said


def shown_fault(text, fault, first_line=1):
    """The lines about a fault of a profile text, below the first one."""
    return shown_place(text, fault.at, sentence_of(text, fault), first_line)


def image_note(fault):
    return IMAGE_SENTENCES[fault.number].format(fault.index).encode() + b"\n"


class EveryName:
    """Has each name: no assignment counts."""

    def __contains__(self, name):
        return True


def rule_ends(block):
    """Where the rules and statements in a block end, after their commas."""
    yield from (it.end for it in block.rules + block.statements)
    for inner in block.blocks:
        yield from rule_ends(inner)


def ends_with_comma(text, at):
    """Whether with a comma and a line's end at this place a rule would end there, and the text would be read past it."""
    reader, stopped = FlatReader(text[:at] + b",\n" + text[at:], {}, lambda path, block: None, EveryName()), len(text) + 3
    try:
        reader.read()
    except ImportFault as fault:
        stopped = fault.at
    return at + 1 in rule_ends(reader.all) and stopped > at + 2


def grammar(text, at):
    """The sentence about what the grammar doesn't allow."""
    if at == len(text):
        return "the text ends where more must follow"
    return "a comma is missing before this" if ends_with_comma(text, at) else "the grammar of profiles doesn't allow what is here"


def declared(text, fault, defines):
    """The sentence about an assignment that can't be."""
    assigned = ASSIGNED.match(text, fault.at).group()
    word, name = word_of(assigned), assigned[2:-1]
    if name == b"profile_name":
        return f"{word} is given by AppArmor: a text can't assign to it"
    if any(name == given for given, _ in defines):
        return f"{word} is given by --define; --override lets that replace what the text says"
    if fault.first is not None:
        return f"{word} is declared in line {line_of(text, fault.first)}"
    return f"{word} isn't declared before it is added to"


def import_note(text, fault, options):
    """The lines about a fault of an import, below the first one."""
    if fault.number == 11:
        return b"the profiles there are, as listed: choose one by --profile NAME, or import each by --all\n"
    if fault.number == 1:
        return shown_place(text, fault.at, grammar(text, fault.at))
    if fault.number == 7:
        return shown_place(text, fault.at, declared(text, fault, options.defines))
    return shown_place(text, fault.at, IMPORT_SENTENCES[fault.number].format(word=word_of(fault.shown or b"")))
