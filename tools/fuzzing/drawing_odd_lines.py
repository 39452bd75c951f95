"""Draws lines of `test` that are no commands, or nearly none: what notes on a script are about."""
from drawing import chance
from script_notes import FORMS

# Those with permissions, which can be wrong, three times each.
COMMAND_FORMS = [form for form in FORMS["test"].values() for _ in range(3 if form.endswith("PERMS") else 1)]
FITTING = {"PROFILE": [b"p", b"q", b"/bin/p", b"p q"], "PERMS": [b"r", b"rw", b"wa", b"m", b""]}
NAMES = [b"/", b"/a", b"/a b", b"/a/b", b"a", b"", b"#", b"/\xff\x80", b'/"', b"/\\", b'a"b', b"/" + b"n" * 80]
ODD_WORDS = [b"x", b"R", b"r w", b"rr\r", b"\r", b"/a\r", b"\0", b"/\x01", b"\x7f", b"/\n", b"\t", b"#", b"# c", b"expect", b"policy",
             b".", b"99", b"", b"..."]
UNKNOWN = [b"expect", b"policy", b"#", b"#x", b"# x", b"", b" ", b"begin", b"keep", b"count", b"close", b"Open", b"open\r", b"judge\0",
           b"mkdir ", b"\tmkdir", b"e", b"expects", b".", b'"', b"\\", b"\\x6dkdir", b"\xff"]
# What quotes don't allow, about the inside of a word.
BAD_QUOTES = [b'"%s', b'%s"', b'"%s"x', b'"%s"""', b'"%s"\r', b'"%s"#', b'"%s"\\', b'"%s\\q"', b'"%s\\x4"', b'"%s\\xg0"', b'"%s\\"',
              b'"%s\\', b'"%s\\x', b'"%s\\\r"', b'"%s\\N"', b'"\\X41%s"', b'"\\ %s"', b'"\\0%s"', b'"\\t%s"', b'"']
GAPS = [b" "] * 8 + [b"  ", b"\t", b" \t "]
EXPECTATIONS = [b"expect", b" expect", b"\texpect \t", b"expect ", b"expect\r", b"expect \r", b"expect\t\0", b"expect ok 1\r", b'expect "',
                b'expect ""', b'"expect"', b'"expect" ok 1', b' "expect" ...', b'"\\x65xpect" ok', b"expect expect", b"expect#",
                b'expect"', b'"expect', b'"expect"x ok', b"expect policy", b"#expect", b"# expect \r", b"expect # \x01",
                b'expect "\r" \\q']
POLICIES = [b"policy", b" policy\t", b'"policy"', b'"\\x70olicy"', b'\t"policy" ', b"policy\r", b"policy x", b'policy ""', b'"policy" \r',
            b'"policy" #', b'"policy', b"policy.", b'"policy"\nprofile p {\n /a x,\n}\n.', b"policy\nprofile p { /a r, }\r\n.",
            b"policy\nprofile p { /a r, }\n.\r", b'policy\n"\n.', b"policy\nexpect\n.", b"policy\n\r\n /a\n.\nmkdir\r", b"policy\n.\n\r",
            b"policy\nprofile p { /** rwlkm, }\n.", b"policy\nprofile p { /** rwlkm, }\n ."]
OTHERS = [b"\r", b" \r", b"\0", b"# \r", b"#\x01", b'#"', b' # it\'s "open', b'"#"', b'"#" x', b'"# x"', b"a#", b"\x0b", b"\x0c mkdir /a",
          b'""', b'"" ""', b'"mkdir /a"', b'mkdir"/a"', b'mkdir "/a""/b"', b'link "/a"\t"/b\r"', b'drop "\\x0d"', b'drop "\r"']


def odd_line(draw):
    """A line without its end; some policies have several."""
    kind = draw.random()
    if kind < 0.15:
        return draw.choice(EXPECTATIONS)
    if kind < 0.3:
        return draw.choice(POLICIES)
    if kind < 0.4:
        return draw.choice(OTHERS)
    return disturbed_command(draw)


def disturbed_command(draw):
    """A command with the wrong words, too few or too many of them, or quotes that aren't understood; now and then a right one."""
    form = draw.choice(COMMAND_FORMS).split(" ")
    words = [form[0].encode(), *(draw.choice(FITTING.get(part, NAMES)) for part in form[1:])]
    disturb(draw, words)
    is_quoted = chance(draw, 0.6)
    written = [written_word(draw, word) if is_quoted else word for word in words]
    if is_quoted and chance(draw, 0.3):
        place = draw.randrange(len(written))
        written[place] = draw.choice(BAD_QUOTES).replace(b"%s", words[place])
    line = draw.choice([b""] * 4 + [b" ", b"\t ", b"  "]) + written[0]
    return line + b"".join(draw.choice(GAPS) + word for word in written[1:]) + draw.choice([b""] * 6 + [b" ", b"\t", b"\r", b" \r", b' "'])


def disturb(draw, words):
    """Changes the words of a command, of which one is left at least."""
    for _ in range(draw.choice([0, 1, 1, 1, 2])):
        place, kind = draw.randrange(len(words)), draw.randrange(5)
        if kind == 0:
            words[0] = draw.choice(UNKNOWN)
        elif kind == 1:
            words[-1] = draw.choice(ODD_WORDS)
        elif kind == 2:
            words[place] = draw.choice(ODD_WORDS)
        elif kind == 3:
            words[place + 1:place + 1] = [draw.choice(NAMES + ODD_WORDS) for _ in range(draw.randint(1, 2))]
        elif len(words) > 1:
            del words[place]


def written_word(draw, word):
    """A word in quotes or, half of the time and where that may be, without."""
    if chance(draw, 0.5):
        return word
    return b'"%s"' % b"".join(written_byte(draw, byte) for byte in word)


def written_byte(draw, byte):
    """A byte within quotes."""
    if byte == ord("\n"):
        return b"\\n"
    if chance(draw, 0.1):
        return draw.choice([b"\\x%02x", b"\\x%02X"]) % byte
    return b"\\%c" % byte if byte in b'"\\' else b"%c" % byte
