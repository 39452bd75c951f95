"""Scripts of `run` and `test` (docs/RULES-TREE.md, "Scripts" and "Scripts that are tested")."""
import dataclasses
import errno
import functools
import re

import objects
from texts import PERMISSIONS, Fault, are_letters, canonical_rule, in_order, read_profile
from tree import PLANS, Change, Kind, Refused, Tree, components_of, test_path
from verdicts import Automaton, TooManyStates, link_verdict, verdict

BLANKS = b" \t"
CONTROL = re.compile(rb"[\0-\x1f\x7f]")


@dataclasses.dataclass
class Line:
    """A line of a script with words, which are None for a quote that isn't understood, and for a policy that has no end. `body` is the
    profile text of another policy."""
    number: int
    text: bytes
    words: list
    body: bytes = None
    has_end: bool = True


@dataclasses.dataclass
class Policy:
    """Published profiles by name, as their places, and the version."""
    profiles: dict = dataclasses.field(default_factory=dict)
    version: int = 0


@functools.lru_cache(maxsize=256)
def compiled(text):
    """The name and the places of a profile text; raises its fault, or TooManyStates."""
    profile = read_profile(text)
    return profile.name, Automaton(profile).places


def plain_words(text):
    return [word for word in re.split(rb"[ \t]", text) if word]


QUOTED_WORD = re.compile(rb'[ \t]*(?:"((?:[^"\\]|\\["\\n]|\\x[0-9A-Fa-f]{2})*)"(?=[ \t]|\Z)|([^ \t"][^ \t]*))')
ESCAPE = re.compile(rb'\\(?:x(..)|(.))', re.DOTALL)


def quoted_words(text):
    """The words of a line of `test`; None if a quote is open, something else follows it, or a backslash in quotes is no escape."""
    words, at = [], 0
    while text[at:].strip(BLANKS):
        found = QUOTED_WORD.match(text, at)
        if found is None:
            return None
        words.append(ESCAPE.sub(unescaped, found.group(1)) if found.group(2) is None else found.group(2))
        at = found.end()
    return words


def unescaped(found):
    """The byte that an escape stands for."""
    if found.group(1) is not None:
        return bytes.fromhex(found.group(1).decode())
    return b"\n" if found.group(2) == b"n" else found.group(2)


def read_lines(text, split):
    """The lines that have words and are no comments."""
    lines = text.split(b"\n")
    if lines[-1] == b"":
        lines.pop()
    at = 0
    while at < len(lines):
        first = plain_words(lines[at])[:1]
        line = Line(at + 1, lines[at], None)
        at += 1
        if not first or first[0].startswith(b"#"):
            continue
        line.words = split(line.text)
        if line.words == [b"policy"] and first != [b"expect"]:
            if b"." not in lines[at:]:
                yield Line(line.number, line.text, None, has_end=False)
                return
            end = lines.index(b".", at)
            line.body = b"".join(one + b"\n" for one in lines[at:end])
            at = end + 1
        yield line


class Script:
    """Answers the commands of `run`, one by one."""

    def __init__(self, capacity):
        self.tree, self.policy = Tree(capacity), Policy()

    def answer(self, line):
        """What a line prints; None if it isn't a command."""
        if line.words is None:
            return None
        command, *words = line.words
        if command == b"policy":
            return self.publish(line.body) if not words else None
        if command == b"drop":
            return self.drop(words[0]) if len(words) == 1 else None
        if command == b"open":
            return self.open(*words) if len(words) == 3 and are_letters(words[2]) else None
        if command == b"judged-link":
            return self.judged_link(*words) if len(words) == 3 else None
        change = read_change(line.words)
        return self.change(change) if change else None

    def publish(self, body):
        try:
            name, places = compiled(body)
        except Fault as fault:
            return b"policy refused: read %d at %d" % (fault.kind, fault.at)
        except TooManyStates:
            return b"policy refused: compile 1"
        self.policy = Policy({**self.policy.profiles, name: places}, self.policy.version + 1)
        return b"policy %s version %d" % (name, self.policy.version)

    def drop(self, name):
        profiles = {other: places for other, places in self.policy.profiles.items() if other != name}
        self.policy = Policy(profiles, self.policy.version + 1)
        return b"policy %s removed version %d" % (name, self.policy.version)

    def change(self, change):
        try:
            self.tree = self.tree.apply(change)
        except Refused as refused:
            return str(refused).encode()
        return b"ok %d" % self.tree.version

    def open(self, profile, path, asked):
        return opened(self.tree, self.policy.profiles.get(profile), self.policy.version, path, asked)

    def judged_link(self, profile, old_path, new_path):
        places = self.policy.profiles.get(profile)
        if places is None:
            return b"no profile policy %d" % self.policy.version
        tree, change = self.tree, Change(b"link", (old_path, new_path))
        try:
            edit = tree.planned(change)
            old, new = (tree.name(tree.spot(path), False) for path in change.paths)
        except Refused as refused:
            return b"%s tree %d" % (str(refused).encode(), tree.version)
        said = link_verdict(places.hits(old), places.hits(new))
        if said != b"fine":
            return b"%s %s node %d tree %d policy %d" % (said, new, edit.node, tree.version, self.policy.version)
        self.tree = tree.apply(change)
        return b"linked node %d tree %d policy %d" % (edit.node, self.tree.version, self.policy.version)


def opened(tree, places, policy, path, asked):
    """The answer of an open in this tree, by this profile (None if it isn't published) of this policy."""
    if places is None:
        return b"no profile policy %d" % policy
    try:
        if asked == b"" or b"l" in asked:
            raise Refused(errno.EINVAL)
        test_path(path)
        node, place = tree.walk(components_of(path))
        name = tree.name(place, tree.kind(node) == Kind.DIRECTORY)
    except Refused as refused:
        return b"%s tree %d" % (str(refused).encode(), tree.version)
    return b"%s %s node %d tree %d policy %d" % (verdict(places.hits(name), in_order(asked)), name, node, tree.version, policy)


def read_change(words):
    """The change that the words of a line are, or None."""
    kind, *rest = words
    if kind not in PLANS or len(rest) != (2 if kind in (b"link", b"rename", b"symlink") else 1):
        return None
    return Change(kind, (rest[1],), rest[0]) if kind == b"symlink" else Change(kind, tuple(rest))


def run(text, script, split=plain_words):
    """What a script prints, as lines, and the number of the line that stops it, or None."""
    printed = []
    for line in read_lines(text, split):
        answer = script.answer(line)
        if answer is None:
            return printed, line.number
        printed += [answer] if answer else []
    return printed, None


class TestScript(Script):
    """Answers the commands of `test`, too. `refused` says whether the last command was a policy that was refused."""

    refused = False

    def answer(self, line):
        self.refused = False
        if line.words is None or line.words[0] not in (b"judge", b"explain"):
            return super().answer(line)
        command, *words = line.words
        return self.said(command, *words) if len(words) == 3 and are_letters(words[2]) else None

    def publish(self, body):
        before = self.policy.version
        said = super().publish(body)
        self.refused = self.policy.version == before
        return said

    def said(self, command, profile, name, asked):
        """What the rules of a profile say about a name, and why."""
        places = self.policy.profiles.get(profile)
        if places is None:
            return b"no profile"
        if not name.startswith(b"/"):
            return b"bad name"
        record = places.hits(name)
        said = verdict(record, in_order(asked))
        if command == b"explain":
            said += b"".join(reason(places.rules, letter, *record[2 * index:2 * index + 2])
                             for index, letter in enumerate(PERMISSIONS) if letter in asked)
        return said


def reason(rules, letter, allows, denies):
    """The reason for a permission, by the numbers of the least rules that allow and deny it, 0 where there is none."""
    number = denies or allows
    if number == 0:
        return b"; %c: no rule" % letter
    return b"; %c: %s by rule %d: %s" % (letter, b"denied" if denies else b"allowed", number, canonical_rule(rules[number - 1]))


class Lines:
    """What `test` writes, as lines."""

    @staticmethod
    def answer(_, answer):
        return answer

    @staticmethod
    def failure(number, wanted, got):
        """`wanted` is None for a refused policy."""
        if wanted is None:
            return b"%d: %s" % (number, shown(got))
        return b"%d: expected %s, got %s" % (number, shown(wanted), b"nothing" if got is None else shown(got))

    @staticmethod
    def end(held, expected):
        return b"%d of %d expectations hold" % (held, expected)


class Objects:
    """The same in JSON."""

    @staticmethod
    def answer(number, answer):
        return objects.written({"answer": objects.text_of(answer), "line": number})[:-1]

    @staticmethod
    def failure(number, wanted, got):
        members = {"expected": wanted and objects.text_of(wanted), "got": got and objects.text_of(got), "line": number}
        return objects.written(members)[:-1]

    @staticmethod
    def end(held, expected):
        return objects.written({"expectations": expected, "held": held})[:-1]


class Tested:
    """What `test` prints, line by line."""

    def __init__(self, answers, written):
        self.answers, self.written, self.printed = answers, written, []
        self.expected = self.failed = 0
        self.last, self.refused = None, None

    def answered(self, number, answer, refused):
        """An answer, and whether it refuses a policy."""
        self.settle()
        self.printed += [self.written.answer(number, answer)] if self.answers else []
        self.last, self.refused = answer, number if refused else None

    def settle(self):
        """A policy that was refused directly before is an expectation that doesn't hold."""
        if self.refused is not None:
            self.fail(self.refused, None)
        self.refused = None

    def fail(self, number, wanted):
        self.expected, self.failed = self.expected + 1, self.failed + 1
        self.printed.append(self.written.failure(number, wanted, self.last))

    def compare(self, number, wanted):
        self.refused = None
        if self.last is not None and is_answer(wanted, self.last):
            self.expected += 1
        else:
            self.fail(number, wanted)

    def end(self):
        """Whether something is expected, and all of it holds."""
        self.settle()
        self.printed.append(self.written.end(self.expected - self.failed, self.expected))
        return self.failed == 0 < self.expected


def test(text, script, answers, written):
    """What `test` prints for a script, the number of the line that stops it, or None, and whether the test holds."""
    tested = Tested(answers, written)
    for line in read_lines(text, quoted_words):
        wanted = expectation(line.text)
        answer = script.answer(line) if wanted is None else wanted
        if not answer:
            return tested.printed, line.number, False
        if wanted is None:
            tested.answered(line.number, answer, script.refused)
        else:
            tested.compare(line.number, wanted)
    holds = tested.end()
    return tested.printed, None, holds


def is_answer(wanted, got):
    """Whether an answer is the one that is wanted, or begins with the text before a last word `...`."""
    if plain_words(wanted)[-1] != b"...":
        return wanted == got
    front = wanted[:-len(b"...")].rstrip(BLANKS)
    return front == b"" or got == front or got.startswith((front + b" ", front + b"\t"))


def expectation(text):
    """The text that a line expects; None if it's no expectation."""
    stripped = text.strip(BLANKS)
    if plain_words(stripped)[0] != b"expect":
        return None
    return stripped[len(b"expect"):].strip(BLANKS)


def shown(text):
    return CONTROL.sub(b"?", text)
