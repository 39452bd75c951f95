"""Notes on scripts of `run`, `test` and `steps` (docs/RULES-PROGRAM.md, "Notes")."""
import re

import shown
from scripts import CONTROL, expectation, plain_words, quoted_words, read_lines
from texts import Fault, are_letters, read_profile

SESSION = re.compile(rb"[1-9]")
MOST_NUMBER = 2**64 - 1
COMMON = ["policy", "drop PROFILE", "mkdir PATH", "create PATH", "symlink TEXT PATH", "link OLD NEW", "unlink PATH", "rmdir PATH",
          "rename OLD NEW", "open PROFILE PATH PERMS"]
EVENTS = ["begin SESSION PROFILE PATH PERMS", "policy-read SESSION", "count SESSION", "cell SESSION NUMBER", "check SESSION", "go SESSION",
          "set NUMBER", "close"]
JUDGED_LINK = "judged-link PROFILE OLD NEW"
QUESTIONS = ["judge PROFILE NAME PERMS", "explain PROFILE NAME PERMS"]
CHANGES = ["mkdir PATH", "create PATH", "symlink TEXT PATH", "link OLD NEW", "unlink PATH", "rmdir PATH", "rename OLD NEW"]
NO_END = "line %d: the policy that begins here has no end, which is a line with a single dot\n"
BAD_QUOTE = "a quote isn't closed, or what follows it, or a backslash in it, isn't understood"
NO_ANSWER = "too few words: expect ANSWER.."
WITH_CR = "line %d: a CR ends or is in a word, to which it belongs\n"
WITH_CONTROL = "line %d: a control byte is in a word, to which it belongs\n"


def forms_of(lines):
    return {line.split(" ")[0].encode(): line for line in lines}


FORMS = {"run": forms_of([*COMMON, JUDGED_LINK]), "test": forms_of([*COMMON, JUDGED_LINK, *QUESTIONS]),
         "steps": forms_of([*COMMON, *EVENTS])}
CHANGE_FORMS = forms_of(CHANGES)
SPLITS = {"run": plain_words, "test": quoted_words, "steps": plain_words}


def fault_of_line(line, command):
    """The number of the word below which the caret is, from 0, and why; None for a command or an expectation."""
    if command != "test":
        return fault_of(line.words, command)
    wanted = expectation(line.text)
    if wanted is not None:
        return None if wanted else (0, NO_ANSWER)
    if line.words is None:
        return 0, BAD_QUOTE
    fault = fault_of(line.words, command)
    return (0, fault[1]) if fault and b'"' in line.text else fault


def fault_of(words, command):
    """The number of the word that isn't understood, from 0, and why; None for a command."""
    if command == "steps" and words[0] == b"keep":
        return fault_after_keep(words[1:])
    form = FORMS[command].get(words[0])
    return fault_in(words, form) if form else (0, "no command begins with this word")


def fault_after_keep(words):
    if not words:
        return 0, "too few words: keep CHANGE.."
    form = CHANGE_FORMS.get(words[0])
    fault = fault_in(words, form) if form else (0, "no change of the tree begins with this word")
    return fault and (fault[0] + 1, fault[1])


def fault_in(words, form):
    parts = form.split(" ")
    if len(words) < len(parts):
        return 0, f"too few words: {form}"
    if len(words) > len(parts):
        return len(parts), f"too many words: {form}"
    for number, (part, word) in enumerate(zip(parts, words)):
        if part in TESTS and not TESTS[part](word):
            return number, f"{WRONG[part]}: {form}"
    return None


def is_session(word):
    return SESSION.fullmatch(word) is not None


def is_number(word):
    return re.fullmatch(rb"[0-9]+", word) is not None and int(word) <= MOST_NUMBER


TESTS = {"SESSION": is_session, "NUMBER": is_number, "PERMS": are_letters}
WRONG = {"SESSION": "the second word is no session, which is a digit from 1 to 9", "NUMBER": "the last word is no number below 2^64",
         "PERMS": "the last word is no permissions"}


def place_of_word(line, number):
    return [word.start() for word in re.finditer(rb"[^ \t]+", line)][number]


def note_on_policy(line):
    try:
        read_profile(line.body)
        return b""
    except Fault as fault:
        return shown.shown_fault(line.body, fault, line.number + 1)


def notes(command, text):
    """The notes on a script, up to the line that stops it."""
    found, is_noted = [], False
    for line in read_lines(text, SPLITS[command]):
        control = CONTROL.search(line.text.replace(b"\t", b" "))
        if control and not is_noted:
            is_noted = True
            found.append(((WITH_CR if control.group() == b"\r" else WITH_CONTROL) % line.number).encode())
        if not line.has_end:
            return b"".join([*found, (NO_END % line.number).encode()])
        if line.body is not None:
            found.append(note_on_policy(line))
            continue
        fault = fault_of_line(line, command)
        if fault:
            place = place_of_word(line.text, fault[0])
            return b"".join([*found, shown.shown_place(line.text, place, fault[1], line.number)])
    return b"".join(found)
