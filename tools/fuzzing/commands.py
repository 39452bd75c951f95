"""What each command of the program writes (docs/RULES-PROGRAM.md), as the second implementation answers it."""
import dataclasses
import math

import events
import images
import logs
import objects
import script_notes
import scripts
import shown
from flat_text import ImportFault
from importing import Options, import_all, import_text, map_of, mark_of, refusal, without_control
from texts import PERMISSIONS, Fault, canonical_rule, canonical_text, is_permissions, read_profile
from verdicts import Automaton, Places, TooManyStates, verdict
from words import BadUsage, Form, number_of, read_words

CAPACITY = 1024
MOST_ENTRIES = 16384
MOST_DEPTH = 64
VERBOSE, QUIET, JSON = "--verbose", "--quiet", "--json"
CHOICE = ("--profile", "--owner", "--for", "--define")
NO_INPUT, NO_FILE = "refused: input", "refused: output"


@dataclasses.dataclass(frozen=True)
class Outcome:
    """What a run of the program gives: its status, what it writes to both streams, and to the file `map`, None if that stays as it was."""
    status: int
    out: bytes = b""
    err: bytes = b""
    map: bytes = None


def refused(reason, status=3, note=b""):
    return Outcome(status, err=reason.encode() + b"\n" + note)


def answer(words, text, files):
    """The outcome of the program with these arguments, given this text and these files; raises events.Undetermined where the rules
    leave it open."""
    command, *rest = words
    form, run = COMMANDS[command]
    try:
        return run(read_words(form, rest), text, files)
    except BadUsage:
        return Outcome(2)


# A name and its permissions.

def judging(act):
    """A command with PERMS and NAME."""
    def run(line, text, _):
        asked, name = (word.encode("utf-8") for word in line.arguments)
        if not line.has("--flattened") and line.has(*CHOICE, "--override"):
            raise BadUsage("--flattened")
        options = Options.read(line) if line.has("--flattened") else None
        if not is_permissions(asked):
            return refused("bad permissions", 2)
        if not name.startswith(b"/"):
            return refused("bad name", 2)
        return act(line, asked, name, text) if options is None else explain_flattened(line, asked, name, text, options)
    return run


def read_refusal(fault, note=b""):
    return refused(f"refused: read {int(fault.kind)} at {fault.at}", note=note)


def verdict_outcome(line, said, more, members):
    """The answer of a verdict, with other lines, or other members."""
    if line.has(QUIET):
        return Outcome(0 if said == b"allowed" else 1)
    if line.has(JSON):
        return Outcome(0, objects.written(objects.of_verdict(said) | members))
    return Outcome(0, b"".join(one + b"\n" for one in [said, *more]))


@judging
def judge(line, asked, name, text):
    try:
        record = Places(read_profile(text)).hits(name)
    except Fault as fault:
        return read_refusal(fault, shown.shown_fault(text, fault) if line.has(VERBOSE) else b"")
    return verdict_outcome(line, verdict(record, asked), [], {})


@judging
def explain(line, asked, name, text):
    try:
        profile = read_profile(text)
    except Fault as fault:
        return read_refusal(fault, shown.shown_fault(text, fault))
    return explained(line, profile, asked, name, lambda rule: (shown.line_of(text, rule.start), None), {})


def explain_flattened(line, asked, name, text, options):
    try:
        profile, _ = import_text(text, options)
    except ImportFault as fault:
        return Outcome(3, err=refusal(text, fault) + shown.import_note(text, fault, options))
    return explained(line, profile, asked, name, lambda rule: (shown.line_of(text, rule.start), mark_of(text, rule.start)), {"file": None})


def explained(line, profile, asked, name, origin, more):
    """The verdict and the reasons. `origin` gives a rule's line and its file, or None; `more` are members of a rule's object."""
    record = Places(profile).hits(name)
    found = [(letter, *record[2 * index:2 * index + 2]) for index, letter in enumerate(PERMISSIONS) if letter in asked]
    reasons = [reason(profile, origin, *one) for one in found]
    members = [reason_object(profile, origin, more, *one) for one in found]
    return verdict_outcome(line, verdict(record, asked), reasons, {"reasons": members})


def reason(profile, origin, letter, allows, denies):
    number = denies or allows
    if number == 0:
        return b"%c: no rule" % letter
    rule = profile.rules[number - 1]
    line, mark = origin(rule)
    place = b"line %d" % line + (b"" if mark is None else b", in or after " + without_control(mark))
    return b"%c: %s by rule %d, %s: %s" % (letter, b"denied" if denies else b"allowed", number, place, canonical_rule(rule))


def reason_object(profile, origin, more, letter, allows, denies):
    number = denies or allows
    if number == 0:
        return objects.of_reason(letter, "no rule", None)
    rule = profile.rules[number - 1]
    line, mark = origin(rule)
    members = objects.of_rule(rule, number, line) | more
    members |= {"file": objects.text_of(mark)} if more and mark is not None else {}
    return objects.of_reason(letter, "denied" if denies else "allowed", members)


# Tables and images.

def compile_text(line, text, _):
    depth = number_of(line, "--depth", 0, 0, MOST_DEPTH)
    try:
        table = images.make_table(Automaton(read_profile(text)), depth)
        return Outcome(0, images.write_image(table, 1 if depth == 0 and images.fits_version_1(table) else 2))
    except Fault as fault:
        return read_refusal(fault, shown.shown_fault(text, fault) if line.has(VERBOSE) else b"")
    except TooManyStates:
        return refused("refused: compile 1", note=shown.TOO_MANY_STATES if line.has(VERBOSE) else b"")


def image_refusal(line, fault):
    place = "" if fault.index is None else f" at {fault.index}"
    return refused(f"refused: image {fault.number}{place}", note=shown.image_note(fault) if line.has(VERBOSE) else b"")


def check(line, image, _):
    try:
        table = images.read_image(image)
    except images.ImageFault as fault:
        return image_refusal(line, fault)
    depth = b" depth %d" % table.bound if table.bound else b""
    return Outcome(0, b"ok states %d cells %d accepts %d%b\n" % (len(table.default), len(table.next), len(table.records), depth))


@judging
def match(line, asked, name, image):
    try:
        table = images.read_image(image)
    except images.ImageFault as fault:
        return image_refusal(line, fault)
    states, look_ups = table.run(name)
    lines = [b"steps %d" % len(name), *([b"lookups %d" % look_ups] if table.bound else [])]
    members = {"lookups": look_ups if table.bound else None, "steps": len(name)}
    return verdict_outcome(line, verdict(table.record_at(states[-1]), asked), lines, members)


# Scripts.

def scripted(command, machine):
    """A command that reads a script, which a machine answers."""
    def run(line, text, _):
        printed, stopped = scripts.run(text, machine(number_of(line, "--capacity", CAPACITY, 1, MOST_ENTRIES)))
        return script_outcome(printed, stopped, 0, notes_on(command, line, text))
    return run


def test_script(line, text, _):
    script = scripts.TestScript(number_of(line, "--capacity", CAPACITY, 1, MOST_ENTRIES))
    written = scripts.Objects if line.has(JSON) else scripts.Lines
    printed, stopped, holds = scripts.test(text, script, line.has("--answers"), written)
    return script_outcome(printed, stopped, 0 if holds else 1, notes_on("test", line, text))


def notes_on(command, line, text):
    """The notes on a script, if they are asked for."""
    return script_notes.notes(command, text) if line.has(VERBOSE) else b""


def script_outcome(printed, stopped, status, note):
    """What is printed, the number of the line that stops the script, or None, and notes."""
    out = b"".join(one + b"\n" for one in printed)
    return Outcome(status, out, note) if stopped is None else Outcome(3, out, b"line %d: not a command\n" % stopped + note)


# Imports.

def import_profile(line, text, _):
    options = Options.read(line)
    if line.has("--all") and line.has("--profile", "--map"):
        raise BadUsage("--all")
    mapped = None
    try:
        if line.has("--all"):
            out, account = import_all(text, options)
        else:
            profile, account = import_text(text, options)
            out, mapped = canonical_text(profile), map_of(text, profile) if line.has("--map") else None
    except ImportFault as fault:
        return Outcome(3, err=refusal(text, fault) + (shown.import_note(text, fault, options) if line.has(VERBOSE) else b""))
    if line.has("--map") and line.value("--map") != "map":
        return refused(NO_FILE)
    return Outcome(0, out, account, mapped)


# Lists and logs.

def names(line, text, files):
    perms, file = line.arguments
    asked = perms.encode()
    if not is_permissions(asked):
        return refused("bad permissions", 2)
    if file not in files:
        return refused(NO_INPUT)
    try:
        places = Automaton(read_profile(files[file])).places
    except Fault as fault:
        return read_refusal(fault)
    except TooManyStates:
        return refused("refused: compile 1")
    end = b"\0" if line.has("--null") else b"\n"
    listed = [(name, verdict(places.hits(name), asked)) for name in text.removesuffix(end).split(end)] if text else []
    wanted = [(name, said) for name, said in listed if selects(line, said == b"allowed")]
    return Outcome(0, b"".join(name + (b": " + said if line.has("--verdict") else b"") + end for name, said in wanted))


def selects(line, is_allowed):
    """Whether a name is written."""
    return not is_allowed if line.has("--not-allowed") else is_allowed or line.has("--verdict")


def audit(line, log, files):
    if not all(name in files for name in line.arguments):
        return refused(NO_INPUT)
    reports = logs.reports([(name, files[name]) for name in line.arguments], log)
    return Outcome(0, b"".join(report.written() if line.has(JSON) else report.line() for report in reports))


COMMANDS = {
    "judge": (Form((VERBOSE, QUIET, JSON), (), 2, 2), judge),
    "explain": (Form((JSON, "--flattened", "--override"), CHOICE, 2, 2), explain),
    "compile": (Form((VERBOSE,), ("--depth",)), compile_text),
    "check": (Form((VERBOSE,)), check),
    "match": (Form((VERBOSE, QUIET, JSON), (), 2, 2), match),
    "run": (Form((VERBOSE,), ("--capacity",)), scripted("run", scripts.Script)),
    "test": (Form((VERBOSE, "--answers", JSON), ("--capacity",)), test_script),
    "steps": (Form((VERBOSE,), ("--capacity",)), scripted("steps", events.Events)),
    "import": (Form((VERBOSE, "--all", "--override", "--strict"), (*CHOICE, "--account", "--map")), import_profile),
    "names": (Form(("--not-allowed", "--null", "--verdict"), (), 2, 2), names),
    "audit": (Form((JSON,), (), 1, math.inf), audit),
}
