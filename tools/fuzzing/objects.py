"""Answers in JSON (docs/RULES-PROGRAM.md, "Answers in JSON")."""
import json

from texts import PERMISSIONS, canonical_rule


def text_of(text):
    """A name or a text as a string, or where it isn't UTF-8 as the list of its bytes."""
    try:
        return text.decode("utf-8")
    except UnicodeDecodeError:
        return list(text)


def written(members):
    return json.dumps(members, ensure_ascii=False, sort_keys=True, separators=(",", ":")).encode() + b"\n"


def of_verdict(said):
    """The members of a verdict, from its words."""
    members = {"missing": None, "rule": None, "verdict": said.decode()}
    if said.startswith(b"denied"):
        members |= {"rule": int(said.split(b" ")[-1]), "verdict": "denied"}
    elif said.startswith(b"no rule"):
        members |= {"missing": said.split(b" ")[-1].decode(), "verdict": "no rule"}
    return members


def of_rule(rule, number, line):
    return {"line": line, "number": number, "text": text_of(canonical_rule(rule))}


def of_reason(letter, verdict, rule):
    return {"permission": chr(letter), "rule": rule, "verdict": verdict}


def letters_in_order(asked):
    return [letter for letter in PERMISSIONS if letter in asked]
