"""Imports: what becomes of a flattened text, and the account (docs/RULES-PROGRAM.md, "Imports")."""
import contextlib
import dataclasses
import functools
import re
import sys

from flat_text import MODE, OPEN_FLAGS, FlatReader, ImportFault, Part, flags_of
from words import BadUsage
from texts import MOST_RULES, Byte, Cursor, Fault, Group, Profile, Rule, Run, canonical_item, canonical_text, in_order, read_path

LONGEST_TEXT = 16384
MOST_TEXTS = 1024
MOST_COUNTED = 16777216
COUNT_OF_A_TEXT = 16
COUNT_WITHOUT_A_LIST = 32768
MOST_LEADS = 16
SLASH = Byte(ord("/"))
LONGEST_SHOWN = 72
LONGEST_LINE = 512
DEFINE = re.compile(rb"([A-Za-z][A-Za-z0-9_]*)=((?:\\.|[^\\])*)", re.DOTALL)
INCLUDED = b"##included "
PIECE = re.compile(rb"[^\\@]+|\\.|@\{([A-Za-z][A-Za-z0-9_]*)\}|.", re.DOTALL)
CLASS_OR_BYTE = re.compile(rb"\\.|\[((?:\\.|[^\]\\])+)\]|.", re.DOTALL)
PLAIN_MEMBERS = re.compile(rb"(?!\\\^)\^?(?:\\?-(?!-))?(?:(?:\\[^-]|[^-\\])(?:-(?:\\[^-]|[^-\\]))?)*", re.DOTALL)
# What begins like a variable.
NO_VARIABLE = re.compile(rb"(?<!\\)(?:\\\\)*@\{")
STARS_BEFORE_ESCAPED_SLASH = re.compile(rb"(?<!\\)(?:\\\\)*\*\\/")
ADDED_FIRST = (b'"/proc/*/attr/apparmor/" r', b'"/sys/module/apparmor/parameters/enabled" r')
ADDED_LAST = {b"change_profile": b'"/proc/*/attr/{,apparmor/}{current,exec}" w', b"hat": b'"/proc/[0-9]*/attr/{,apparmor/}current" w'}
OTHER = {"owners": "others", "others": "owners"}
# Variables may lead from one to another through all of them.
sys.setrecursionlimit(10000)


@dataclasses.dataclass(frozen=True)
class Options:
    profile: bytes = None
    is_keep: bool = True
    defines: tuple = ()
    overrides: bool = False
    is_strict: bool = False
    account: str = "changes"

    @property
    def subject(self):
        return "owners" if self.is_keep else "others"

    @property
    def overridden(self):
        """The names of the variables of which the text says nothing."""
        return {name for name, _ in self.defines} if self.overrides else frozenset()

    @classmethod
    def read(cls, line):
        """The options of a command line."""
        profile, owner, subject = (line.value(option) for option in ("--profile", "--owner", "--for"))
        account = line.value("--account", "changes")
        is_known = owner in (None, "keep", "drop") and subject in (None, "owner", "others") and account in ("changes", "all", "none")
        if not is_known or owner and subject:
            raise BadUsage("--owner")
        defines = tuple(map(read_define, line.options.get("--define", [])))
        return cls(None if profile is None else profile.encode(), owner != "drop" and subject != "others", defines,
                   line.has("--override"), line.has("--strict"), account)


def read_define(value):
    found = DEFINE.fullmatch(value.encode())
    if found is None or found.group(1) == b"profile_name":
        raise BadUsage("--define")
    return found.groups()


class Variables:
    """The values of the variables, the lists that are known (None if there is none), and what has been counted for the paths so far.
    The variables in `named` depend on the profile's name; the others count the same in each, together `alike`."""

    def __init__(self, defines):
        self.values, self.known = {}, {}
        self.named, self.alike = None, 0
        self.block, self.counted = None, 0
        for name, value in defines:
            self.values.setdefault(name, []).append(value)

    def need(self, path, block):
        """Tests that a path's variables can be put in, and counts what that takes."""
        if block is not self.block:
            self.block = block
            self.count(self.size(path, block.name), path)
        self.count(len(self.substituted(path, block.name)), path)

    def count(self, size, path):
        self.counted += size
        if self.counted > MOST_COUNTED:
            raise ImportFault(13, path.start)

    def size(self, path, profile):
        """What all variables count in this profile."""
        if self.named is None:
            self.named = self.that_are_named()
            self.alike = sum(self.size_of(name, path, profile) for name in self.values if name not in self.named)
        self.known = {key: texts for key, texts in self.known.items() if key[1] is None}
        return self.alike + sum(self.size_of(name, path, profile) for name in self.values if name in self.named)

    def that_are_named(self):
        used = {name: set(names_in(*values)) for name, values in self.values.items()}
        found, before = {b"profile_name"}, 0
        while len(found) > before:
            before = len(found)
            found |= {name for name, inner in used.items() if not inner.isdisjoint(found)}
        return found

    def size_of(self, name, path, profile):
        key = self.key(name, profile)
        with contextlib.suppress(ImportFault):
            if key not in self.known:
                self.texts(name, path, profile)
        texts = self.known[key]
        of_list = COUNT_WITHOUT_A_LIST if texts is None else sum(map(len, texts)) + COUNT_OF_A_TEXT * len(texts)
        return sum(map(len, self.values[name])) + of_list

    def key(self, name, profile):
        return name, profile if name in self.named else None

    def texts(self, name, path, profile, within=()):
        """The list of texts of a variable, for this path of this profile. The variables in its values come before it."""
        values = [profile] if name == b"profile_name" else self.values.get(name)
        if name in within:
            raise ImportFault(6, path.start, name)
        if values is None:
            raise ImportFault(5, path.start, name)
        key = self.key(name, profile)
        if self.known.setdefault(key) is None:
            for inner in names_in(*values):
                self.texts(inner, path, profile, (*within, name))
            texts = []
            for value in values:
                texts += self.choices(value, path, profile)
                test_size(texts, path)
            self.known[key] = texts
        return self.known[key]

    def choices(self, value, path, profile):
        """A value with the variables in it replaced, one text for each choice."""
        texts = [b""]
        for piece in PIECE.finditer(value):
            ends = self.texts(piece.group(1), path, profile) if piece.group(1) else [piece.group()]
            texts = [text + end for text in texts for end in ends]
            test_size(texts, path)
        return texts

    def substituted(self, path, profile):
        """A path with its variables replaced, one after the other: what is before one has been replaced, and what is after it hasn't."""
        text, whole = path.text, b""
        for piece in PIECE.finditer(text):
            if not piece.group(1):
                whole += piece.group()
                continue
            texts = self.texts(piece.group(1), path, profile)
            if len(texts) > 1:
                texts = [one.lstrip(b"/") if whole.endswith(b"/") else one for one in texts]
                texts = [one.rstrip(b"/") if text[piece.end():].startswith(b"/") else one for one in texts]
            whole += texts[0] if len(texts) == 1 else b"{" + b",".join(texts) + b"}"
        test_size([whole], path)
        return whole


def test_size(texts, path):
    if len(texts) > MOST_TEXTS or sum(map(len, texts)) > LONGEST_TEXT:
        raise ImportFault(10, path.start)


def names_in(*texts):
    """The names of the variables in these texts, in their order."""
    return [piece.group(1) for text in texts for piece in PIECE.finditer(text) if piece.group(1)]


# Paths.

def one_slash(text):
    """Each run of slashes as one, but two at the start stay two."""
    single = re.sub(rb"/+", b"/", text)
    return b"/" + single if re.match(rb"//(?!/)", text) else single


def read_paths(text):
    """The paths, as items, that match what this text of a path matches; None if AppArmor and profile texts may read it differently."""
    # An escaped slash at the start, from a variable, is a slash.
    text = text[1:] if text.startswith(b"\\/") else text
    items = read_plainly(text if text.startswith(b"/") else b"/" + text)
    if items is None or not text.startswith((b"/", b"{")):
        return None
    paths = [items] if text.startswith(b"/") else leads(items[1].alternatives, items[2:])
    return paths if paths and all(map(stays, paths)) else None


def stays(path):
    """Whether a path is the same when its canonical text, in quotes, is imported again."""
    text = b"".join(map(canonical_item, path))
    return read_plainly(one_slash(text)) == path and not text.endswith(b"\\")


def leads(alternatives, rest):
    """The paths that begin with a slash and match what the group of these alternatives, and then the rest, matches; or None."""
    if all(one[:1] == (SLASH,) and not has_run(one[1:2]) for one in alternatives):
        return [(SLASH, Group(tuple(one[1:] for one in alternatives)), *rest)]
    is_changed = any(has_run(one[-1:] + rest[:1]) or one[-1:] + rest[:1] == (SLASH, SLASH) for one in alternatives)
    return None if is_changed or len(alternatives) > MOST_LEADS else [one + rest for one in alternatives]


def has_run(items):
    return any(isinstance(item, Run) for item in items)


def read_plainly(text):
    """The items of a path, or None."""
    items = read_items(text)
    if items is None or NO_VARIABLE.search(text) or STARS_BEFORE_ESCAPED_SLASH.search(text):
        return None
    return None if has_odd_class(text) or not all(map(is_alike, items)) else items


@functools.lru_cache(maxsize=16)
def read_items(text):
    cursor = Cursor(b'"' + text + b'"')
    try:
        items = read_path(cursor)
    except Fault:
        return None
    return items if cursor.at == len(cursor.text) else None


def is_alike(item):
    if isinstance(item, Group):
        return len(item.alternatives) > 1 and all(is_alike(inner) for one in item.alternatives for inner in one)
    return True


def has_odd_class(text):
    """Whether there is a class that AppArmor may read differently, or a bracket outside of classes."""
    found = CLASS_OR_BYTE.finditer(text)
    return any(one.group() == b"]" or one.group(1) is not None and is_odd_class(one.group(1)) for one in found)


def is_odd_class(members):
    """Whether a class has a star, a question mark, or a hyphen that is neither first nor the mark of a range."""
    return re.search(rb"[*?]", members) is not None or PLAIN_MEMBERS.fullmatch(members) is None


# What becomes of the text.

class Reading:
    """A text with its variables, and all that is in it."""

    def __init__(self, text, options):
        self.text, self.variables = text, Variables(options.defines)
        reader = FlatReader(text, self.variables.values, self.variables.need, options.overridden)
        self.all = reader.read()
        self.profiles = reader.profiles

    def chosen(self, name):
        """The profile with this name, or the only one."""
        wanted = [block for block in self.profiles if name in (None, block.name)]
        if len(wanted) != 1:
            raise ImportFault(11, None, [block.name for block in self.profiles])
        return wanted[0]


class Import:
    """What becomes of the text for a chosen profile."""

    def __init__(self, reading, chosen, options):
        self.text, self.variables, self.all, self.chosen, self.options = reading.text, reading.variables, reading.all, chosen, options
        self.rules, self.lines = [], []

    def line(self, part, effect, what=None):
        self.lines.append((part.start, part.end, what or part.what, effect))

    def effect(self, subjects, is_wider):
        """What is said of a change for these subjects."""
        word = "wider" if is_wider else "narrower"
        if self.options.subject in subjects:
            return word
        return f"{word} for {OTHER[self.options.subject]}" if subjects else "exact"

    def add(self, rule, at):
        if len(self.rules) == MOST_RULES:
            raise ImportFault(9, at)
        self.rules.append(rule)

    def make(self):
        for statement in self.all.statements:
            self.line(statement, "exact")
        for block in self.all.blocks:
            self.outer(block)
        for rule in self.chosen.rules:
            self.rule(rule)
        self.head()
        self.additions()
        self.lines.sort()
        changed = [start for start, _, _, effect in self.lines if effect in ("wider", "narrower")]
        if self.options.is_strict and changed:
            raise ImportFault(12, changed[0])
        return Profile(self.chosen.name, tuple(self.rules))

    def outer(self, block):
        """A profile, which is the chosen one, has it, or is left out."""
        line = []
        above = self.chosen
        while above is not self.all:
            line.append(above)
            above = above.parent
        if block not in line:
            self.line(Part(b"profile", block.start, block.end), "exact")
        elif block is not self.chosen:
            self.line(Part(b"parent", block.start, self.chosen.start), "exact")
            self.line(Part(b"parent", self.chosen.end, block.end), "exact")

    def head(self):
        for part in self.chosen.heads:
            is_open = part.what == b"flags" and not OPEN_FLAGS.isdisjoint(flags_of(part.text))
            self.line(part, "narrower" if is_open else "exact")

    def additions(self):
        """The rules that AppArmor adds for change_profile and for hats, which say nothing to others than owners, and let these write
        but not append, which restated rules do."""
        found = []
        effect = "wider" if self.options.is_keep else self.effect({OTHER[self.options.subject]}, False)
        if self.chosen.what == b"hat":
            found.append((b"hat", self.chosen.start))
            length = 1 if self.text[self.chosen.start] == ord("^") else len(b"hat")
            self.line(Part(b"implied", self.chosen.start, self.chosen.start + length), effect)
        for statement in self.chosen.statements:
            is_change = statement.text == b"change_profile"
            self.line(statement, effect if is_change else "exact")
            found += [(b"change_profile", statement.start)] if is_change else []
        for block in self.chosen.blocks:
            self.line(block, effect)
            found.append((b"hat", block.start))
        if found and self.options.is_keep:
            self.add_rules(dict(reversed(found)))

    def add_rules(self, found):
        """`found` has the first part of each kind."""
        written = [(one, min(found.values())) for one in ADDED_FIRST] + [(last, found[what]) for what, last in ADDED_LAST.items()
                                                                         if what in found]
        for one, at in written:
            path, _, letters = one.rpartition(b" ")
            self.add(Rule(False, read_path(Cursor(path)), letters, at), at)

    # Rules.

    def rule(self, rule):
        own = {b"owner": {"owners"}, b"other": {"others"}}.get(rule.subject, {"owners", "others"})
        letters, words = self.letters(rule)
        is_here = self.options.subject in own
        is_kept = letters and is_here and not rule.has_priority
        paths = self.paths(rule) if is_kept else []
        parts = rule.parts
        if not is_kept or paths is None:
            whole = Part(b"+".join(self.words(parts, words, rule, paths is None)), rule.start, rule.end)
            loses = own if letters or rule.is_pair else set()
            self.line(whole, self.effect(loses, rule.is_deny))
            return
        for path in paths:
            self.add(Rule(rule.is_deny, path, letters, rule.start), rule.start)
        for part in parts:
            self.part(part, rule, words, own)

    def letters(self, rule):
        """The permissions that stay, and what those of the text are reported as."""
        if rule.permissions is None:
            return (b"" if rule.is_pair else b"rwlkm"), []
        written = MODE.findall(rule.permissions.text)
        letters = {mode.lower() for mode in written if len(mode) == 1} - {b"x", b"l" if rule.is_pair else b""}
        execs = [mode for mode in written if mode[-1:] in b"xX"]
        if any(b"i" in mode.lower() for mode in execs):
            letters.add(b"m")
        words = [b"exec"] if execs else []
        words += [b"capitals"] if any(mode in b"RWALKM" for mode in written) else []
        return in_order(b"".join(letters)), words

    def words(self, parts, words, rule, is_pattern):
        """The words of a rule that goes."""
        of_path = [b"slashes"] * self.has_slashes(rule) + [b"pattern"] * is_pattern
        found = []
        for part in parts:
            found += words if part is rule.permissions else of_path if part is rule.path else [part.what]
        return found

    @staticmethod
    def has_slashes(rule):
        return rule.path is not None and one_slash(rule.path.text) != rule.path.text

    def part(self, part, rule, words, own):
        if part is rule.permissions:
            if words:
                self.line(part, "exact", b"+".join(words))
        elif part is rule.path:
            if self.has_slashes(rule):
                self.line(part, "exact", b"slashes")
        elif part.what in (b"owner", b"other"):
            self.line(part, self.effect({OTHER[self.options.subject]}, not rule.is_deny))
        elif part.what == b"link":
            self.line(part, self.effect(own, rule.is_deny))
        else:
            self.line(part, "exact")

    def paths(self, rule):
        """The paths of a rule that stays, or None."""
        if rule.path is None:
            return [read_items(b"/{**,}")]
        return read_paths(one_slash(self.variables.substituted(rule.path, self.chosen.name)))

    # The account.

    def account(self):
        if self.options.account == "none" or not self.lines:
            return b""
        is_all = self.options.account == "all"
        lines = [b"%s: %s: %s: %s\n" % (place(self.text, start), what, effect.encode(),
                                      shown(self.text[start:end] if is_all else self.line_at(start)))
                 for start, end, what, effect in self.lines if is_all or effect != "exact"]
        return b"".join(lines) + (b"" if is_all else self.sums())

    def line_at(self, at):
        """The beginning of the line of the text in which a span begins."""
        start = self.text.rfind(b"\n", 0, at) + 1
        return self.text[start:start + LONGEST_LINE].split(b"\n")[0]

    def sums(self):
        other = OTHER[self.options.subject]
        effects = [effect for _, _, _, effect in self.lines]
        counts = [f"{effects.count(effect)} {effect}" for effect in ("exact", "wider", "narrower", f"wider for {other}",
                                                                     f"narrower for {other}")]
        return f"rules {len(self.rules)}; reported: {', '.join(counts)}\n".encode()


def place(text, at):
    return b"%d:%d" % (text.count(b"\n", 0, at) + 1, at - text.rfind(b"\n", 0, at))


def without_control(text):
    """Control bytes as question marks."""
    return re.sub(rb"[\0-\x1f\x7f]", b"?", text)


def shown(text):
    text = without_control(re.sub(rb"[ \t\r\n]+", b" ", text.strip(b" \t\r\n")))
    return text if len(text) <= LONGEST_SHOWN else text[:70] + b".."


def mark_of(text, at):
    """The file that the last line about an included one names before a place, or None."""
    lines = [line for line in text[:at].split(b"\n")[:-1] if line.startswith(INCLUDED)]
    return lines[-1][len(INCLUDED):] if lines else None


def map_of(text, profile):
    lines = []
    for number, rule in enumerate(profile.rules, 1):
        mark = mark_of(text, rule.start)
        lines.append(b"%d %s%s\n" % (number, place(text, rule.start), b"" if mark is None else b" " + without_control(mark)))
    return b"".join(lines)


def import_text(text, options):
    """The profile and the account; raises the fault."""
    reading = Reading(text, options)
    made = Import(reading, reading.chosen(options.profile), options)
    return made.make(), made.account()


def import_all(text, options):
    """A script with all profiles, and their accounts."""
    reading, policies, accounts = Reading(text, options), [], []
    for chosen in reading.profiles:
        made = Import(reading, chosen, options)
        policies.append(b"policy\n" + canonical_text(made.make()) + b".\n")
        account = made.account()
        accounts += [b"profile " + without_control(chosen.name) + b":\n" + account] if account else []
    return b"".join(policies), b"".join(accounts)


def refusal(text, fault):
    """What is written about a fault."""
    message = b"refused: import %d" % fault.number
    if fault.at is not None:
        message += b" at " + place(text, fault.at)
    if fault.number == 11:
        return b"\n".join([message] + [without_control(name) for name in fault.shown]) + b"\n"
    return message + (b" (" + shown(fault.shown) + b")" if fault.shown else b"") + b"\n"
