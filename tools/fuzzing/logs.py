"""Denials of a log (docs/RULES-PROGRAM.md, "Denials of a log")."""
import dataclasses
import functools
import re

import objects
from flat_text import ImportFault
from importing import Options, import_text
from texts import APPEND, WRITE, Byte, Fault, Rule, canonical_rule, in_order, read_profile
from verdicts import Places, verdict

LETTERS = re.compile(rb"[rwalkmcdx]+")
HEX = re.compile(rb"(?:[0-9A-Fa-f]{2})*")
# A field, or other words, up to a gap outside of quotes.
WORD = re.compile(rb'(?:[^\0-\x20"]|"[^"]*(?:"|\Z))+', re.DOTALL)
FIELD = re.compile(rb'([^="]+)=(.*)', re.DOTALL)
BEFORE_BLANK = re.compile(rb"[^\0-\x20]*")
KINDS = b"DENIED", b"KILLED", b"ALLOWED"
LONGEST_PATH = 1024
CONTROL = re.compile(rb"[\0-\x1f\x7f]")


def fields_of(line):
    """The fields of a line by their keys: each value as it is written, or None if its last quote is missing, and whether it has quotes."""
    fields = {}
    for word in WORD.findall(line):
        found = FIELD.match(word)
        if found:
            key, value = found.groups()
            is_quoted = value.startswith(b'"')
            if is_quoted:
                value, end, _ = value[1:].partition(b'"')
                value = value if end else None
            else:
                value = BEFORE_BLANK.match(value).group()
            fields.setdefault(key, (value, is_quoted))
    return fields


def decoded(field):
    """A text that the kernel may write as hex digits, or None if its last quote is missing."""
    value, is_quoted = field
    return bytes.fromhex(value.decode()) if not is_quoted and HEX.fullmatch(value) else value


@dataclasses.dataclass(frozen=True)
class Denial:
    profile: bytes
    name: bytes
    mask: bytes
    is_owner: bool
    info: bytes | None


def read_denial(line):
    fields = fields_of(line)
    kind, denied, requested, *users = (
        fields.get(key, (None,))[0] for key in (b"apparmor", b"denied_mask", b"requested_mask", b"fsuid", b"ouid"))
    mask = requested if denied is None else denied
    if kind not in KINDS or mask is None or not LETTERS.fullmatch(mask):
        return None
    texts = {key: decoded(fields[key]) for key in (b"profile", b"name", b"namespace", b"info") if key in fields}
    if b"profile" not in texts or b"name" not in texts or None in texts.values():
        return None
    profile = texts[b"profile"]
    if b"namespace" in texts:
        profile = b":%b://%b" % (texts[b"namespace"], profile)
    return Denial(profile, texts[b"name"], mask, None not in users and users[0] == users[1], texts.get(b"info"))


@functools.lru_cache(maxsize=64)
def profile_in(text, name, is_owner):
    """The places of the profile of this name in a text; None if it has none. Raises the fault of an import."""
    try:
        profile = read_profile(text)
    except Fault:
        try:
            profile, _ = import_text(text, Options(profile=name, is_keep=is_owner))
        except ImportFault as fault:
            if fault.number == 11:
                return None
            raise
    return Places(profile) if profile.name == name else None


def looked_up(texts, denial):
    """The places of the denied profile, and None; or None, and why there are none."""
    failed = None
    for file, text in texts:
        try:
            places = profile_in(text, denial.profile, denial.is_owner)
        except ImportFault as fault:
            failed = failed or (fault.number, file)
            continue
        if places is not None:
            return places, None
    return None, failed


def added_rule(name, missing):
    """The rule that would allow what is missing to exactly this name, or None."""
    if not name.startswith(b"/") or len(name) > LONGEST_PATH or CONTROL.search(name):
        return None
    letters = missing.replace(bytes((APPEND,)), b"") if WRITE in missing else missing
    return canonical_rule(Rule(False, tuple(map(Byte, name)), letters))


class Report:
    """What the rules say now about a denial. `number` is that of its first line."""

    def __init__(self, denial, number, texts):
        self.denial, self.number, self.times = denial, number, 0
        self.places, self.failed = looked_up(texts, denial)
        asked = denial.mask.translate(bytes.maketrans(b"cd", b"ww"), b"x")
        self.asked = in_order(asked)
        self.said, self.rules, self.missing = b"", [], b""
        if self.places is None:
            self.said = b"not imported" if self.failed else b"no such profile"
        elif not self.asked:
            self.said = b"not judged"
        else:
            self.judge()

    def judge(self):
        record = self.places.hits(self.denial.name)
        members = objects.of_verdict(verdict(record, self.asked))
        self.said = members["verdict"].encode()
        self.missing = (members["missing"] or "").encode()
        if self.said == b"denied":
            self.rules = [members["rule"]]
        elif self.said == b"allowed":
            allowing = [record[2 * index] for index, letter in enumerate(b"rwlkma") if letter in self.asked]
            self.rules = list(dict.fromkeys(allowing))

    def line(self):
        denial = self.denial
        times = b" (%d times)" % self.times if self.times > 1 else b""
        reason = b"" if denial.info is None else b"; the kernel's reason: " + CONTROL.sub(b"?", denial.info)
        return b"%d %s %s %s%s: %s%s\n" % (self.number, CONTROL.sub(b"?", denial.profile), CONTROL.sub(b"?", denial.name), denial.mask,
                                           times, self.what(), reason)

    def what(self):
        left_out = b"; x is not judged" if b"x" in self.denial.mask else b""
        if self.said == b"not imported":
            return b"not imported: import %d in %s" % (self.failed[0], self.failed[1].encode())
        if self.said == b"not judged":
            return b"x is not judged"
        if self.said == b"allowed":
            changed = b": the profile has changed" if self.denial.info is None else b""
            return b"allowed by rule %s" % b", ".join(b"%d" % rule for rule in self.rules) + changed + left_out
        if self.said == b"denied":
            return b"denied by rule %d: %s" % (self.rules[0], canonical_rule(self.places.rules[self.rules[0] - 1])) + left_out
        if self.said == b"no rule":
            added = added_rule(self.denial.name, self.missing)
            proposed = b"no rule is proposed for this name" if added is None else b"add: " + added
            return b"no rule for " + self.missing + left_out + b"; " + proposed
        return self.said

    def written(self):
        denial = self.denial
        added = added_rule(denial.name, self.missing) if self.missing else None
        return objects.written({
            "add": None if added is None else objects.text_of(added), "file": self.failed[1] if self.failed and not self.places else None,
            "info": None if denial.info is None else objects.text_of(denial.info), "line": self.number,
            "mask": objects.text_of(denial.mask), "missing": self.missing.decode() or None, "name": objects.text_of(denial.name),
            "profile": objects.text_of(denial.profile), "rules": self.rules, "subject": "owner" if denial.is_owner else "others",
            "times": self.times, "verdict": self.said.decode()})


def reports(texts, log):
    """The reports of a log, in the order of the first lines."""
    found = {}
    for number, line in enumerate(log.split(b"\n"), 1):
        denial = read_denial(line)
        if denial is not None:
            report = found.setdefault(denial, None) or Report(denial, number, texts)
            report.times += 1
            found[denial] = report
    return list(found.values())
