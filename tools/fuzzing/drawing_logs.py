"""Draws lists of names, and logs with denials, and the profiles that they ask about."""
import re

from drawing import chance, draw_any_text, draw_name, draw_text, mutate
from drawing_flat import draw_some_flat_text, names_of
from drawing_words import draw_flags, mixed
from flat_text import ImportFault
from importing import Options, import_text
from texts import Fault, read_profile

FRONTS = [b"type=AVC msg=audit(1700000000.123:456): ", b"type=1400 audit(1700000000.123:456): ",
          b"Dec  1 06:00:00 host kernel: [   12.345678] audit: type=1400 audit(1700000000.123:456): ",
          b"[   12.345678] audit: type=1400 audit(1.2:3): ", b"", b"audit: type=1400 ", b"node=x type=AVC ", b"\x1d", b"name=x "]
OPERATIONS = [b"open", b"mknod", b"rename_src", b"link", b"exec", b"file_perm", b"capable"]
MASKS = [b"r", b"r", b"w", b"rw", b"wr", b"c", b"d", b"wc", b"a", b"ac", b"k", b"l", b"m", b"rm", b"x", b"rx", b"wx", b"rwlkma", b"cd"]
ODD_MASKS = [b"", b"send", b"r::w", b"::r", b"rr", b"R", b"trace", b"r w"]
TOKENS = [b" ", b"\"", b"=", b"\n", b"\x1d", b"\t", b"\x7f", b"\x00", b"\xff", b"'", b"\\", b"name=", b" name=\"/x\"", b" profile=\"p\" ",
          b"apparmor=\"DENIED\" ", b" namespace=\"n\" ", b" info=\"i\" ", b" info=\"", b"fsuid=0 ", b" ouid=0", b"2F61",
          b"denied_mask=\"w\" ", b",", b"0"]
ENDS = [b"", b" fsuid=0 ouid=0", b" fsuid=1000 ouid=0", b" fsuid=1000 ouid=1000 target=\"/t\"", b" ouid=0 fsuid=0", b" fsuid=0",
        b" fsuid=\"0\" ouid=0", b"\x1dFSUID=\"root\" OUID=\"root\"", b" ouid=00 fsuid=0"]
NAMESPACES = [b"root//lxd-c1", b"root//lxd-c1", b"q", b"root//a b", b"", b":q:", b"\x01"]
INFOS = [b"Failed name lookup - deleted entry", b"Failed name lookup - disconnected path", b"link not subset of target", b"", b"a\tb\x7f",
         b"\xff", b'"']
ODD_NAMES = [b"/a b", b"/a\"b", b"/\x01", b"/\n", b"/" + b"n" * 1023, b"/" + b"n" * 1024, b"/\x00", b"/{a}[b]*?\\,@", b"/\xc3\xa9",
             b"\xff", b"/2F61"]
NULL, LF = b"\0", b"\n"


def read_rules(text):
    """The profiles of a text: their names, and the rules that names may match."""
    try:
        profile = read_profile(text)
        return [(profile.name, profile.rules)]
    except Fault:
        found = []
    for name in names_of(text):
        try:
            found.append((name.encode(), import_text(text, Options(profile=name.encode()))[0].rules))
        except ImportFault:
            found.append((name.encode(), ()))
    return found


def draw_names(draw):
    """The arguments of `names`, a list, and a profile."""
    text = draw_any_text(draw)
    rules = [rule for _, found in read_rules(text) for rule in found]
    names = [draw_listed_name(draw, rules) for _ in range(draw.choice([0, 1, 2, 8]))]
    end = draw.choice([NULL, LF])
    listed = b"".join(name + end for name in names)
    listed = mutate(draw, listed, [NULL, LF, b"/", LF + LF]) if chance(draw, 0.2) else listed
    perms = "".join(draw.sample("rwlkma", draw.randint(1, 2))) if chance(draw, 0.97) else draw.choice(["", "x", "rr", "wa", "R"])
    file = "1" if chance(draw, 0.97) else draw.choice(["2", "", "no/1"])
    return mixed(draw, draw_flags(draw, "--not-allowed", "--null", "--verdict"), [perms, file]), listed, text


def draw_listed_name(draw, rules):
    if chance(draw, 0.1):
        return draw.choice([b"", b"a", b"\xff", b"a/b", b".", b"/\n/", b"//", b"-"])
    return draw_name(draw, rules if chance(draw, 0.8) else [])


def draw_profiles(draw):
    """One to three texts of profiles."""
    texts = [draw_any_text(draw) if chance(draw, 0.4) else draw_some_flat_text(draw)
             for _ in range(draw.choice([1, 1, 2, 3]))]
    return [text + (b"\n" + draw_text(draw, 3) if chance(draw, 0.1) else b"") for text in texts]


def draw_audit(draw):
    """The arguments of `audit`, a log, and the files with profiles."""
    texts = draw_profiles(draw)
    profiles = [profile for text in texts for profile in read_rules(text)] or [(b"p", ())]
    lines = [draw_log_line(draw, *draw.choice(profiles)) for _ in range(draw.choice([1, 2, 4, 8]))]
    lines += [draw.choice(lines) for _ in range(draw.choice([0, 0, 1, 3]))]
    log = LF.join(lines) + draw.choice([b"", LF])
    if chance(draw, 0.25):
        log = mutate(draw, log, TOKENS)
    files = [str(number) for number in range(1, len(texts) + 1)]
    if chance(draw, 0.04):
        files = draw.choice([[], [*files, "9"], ["no/1", *files], [*files, "1"]])
    return mixed(draw, draw_flags(draw, "--json"), files), log, *texts


def draw_log_line(draw, profile, rules):
    """A line about this profile, most often with a name and a mask that one of its rules has."""
    if chance(draw, 0.07):
        return draw.choice([b"", b"other words", b"apparmor=\"DENIED\" operation=\"capable\" profile=\"p\" capname=\"chown\"", b"name="])
    rule = draw.choice(rules) if rules and chance(draw, 0.8) else None
    name = draw_listed_name(draw, [rule] if rule else []).replace(LF, b"")
    if chance(draw, 0.1):
        name = draw.choice(ODD_NAMES)
    mask = draw.choice(MASKS if chance(draw, 0.95) else ODD_MASKS)
    mask = rule.permissions if rule and chance(draw, 0.5) else mask
    masks = draw.choice([b'requested_mask="%b" denied_mask="%b"' % (draw.choice(MASKS), mask)] * 5
                        + [b'denied_mask="%b"' % mask, b'requested_mask="%b"' % mask, b"denied_mask=%b" % mask])
    fields = [b'apparmor="%b"' % draw.choice([b"DENIED"] * 6 + [b"ALLOWED", b"ALLOWED", b"KILLED", b"AUDIT", b"STATUS", b"ERROR"]),
              b'operation="%b"' % draw.choice(OPERATIONS), b"profile=" + written(draw, profile if chance(draw, 0.9) else b"q"),
              b"name=" + written(draw, name), b"pid=1 comm=" + written(draw, draw.choice([b"cat", b"a b", b"name=x"])), masks]
    if chance(draw, 0.2):
        info = draw.choice(INFOS)
        fields.insert(2, b"info=" + (b'"%b"' % info if chance(draw, 0.9) else written(draw, info)) + b" error=-2")
    if chance(draw, 0.15):
        fields.insert(-4, b"namespace=" + written(draw, draw.choice(NAMESPACES)))
    if chance(draw, 0.1):
        draw.shuffle(fields)
    if chance(draw, 0.05):
        fields.pop(draw.randrange(len(fields)))
    gap = draw.choice([b" "] * 9 + [b"  ", b"\t"])
    return draw.choice(FRONTS) + gap.join(fields) + draw.choice(ENDS)


def written(draw, text):
    """A text as the kernel writes it, or now and then otherwise."""
    needs_hex = re.search(rb'["\0-\x20\x7f-\xff]', text) is not None
    if needs_hex if chance(draw, 0.97) else chance(draw, 0.5):
        digits = text.hex()
        return (digits.upper() if chance(draw, 0.8) else digits).encode()
    return b'"%b"' % text if chance(draw, 0.97) else text
