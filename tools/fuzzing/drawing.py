"""Draws profile texts, names and questions, and mutates them."""
from texts import APPEND, Byte, Class, Fault, Group, One, Run, read_profile
from verdicts import ALL, taken_by

PARTS = ["a", "b", "ab", "lib", "home", ".ssh", "id_", "...", "x-1", "é", "#", r"a\ b", r"\,", "=", ",c", ":", "@", "@x", "]", "a]",
         r"\]", "\\\\", r"\[a\]", r'\"']
CLASSES = ["[a-c]", "[^a]", "[^/]", "[ab]", "[-a]", "[a-]", "[a--]", "[+--z]", "[a-c--e]", "[a-c-]", "[\\]\\-]", "[/a]", "[^-b-d]",
           "[^^]", "[*?{,@]", "[!-~]"]
BAD_CLASSES = ["[]", "[^]", "[c-a]", "[a", "[a-", "[--a]", "[a-c---e]", "[\\--z]", "[\\^-a]", "[a\\b]", "[\"]", "[ ]"]
TOKENS = [b"{", b"}", b",", b"\"", b"\\", b"\n", b" ", b"\t", b"\r", b"#", b"#include <a>", b"#include", b"@{A}", b"@", b"^", b"$",
          b"->", b"-", b"deny ", b"allow ", b"owner ", b"audit ", b"r", b"rwlkm", b"rix", b"ux", b"a", b"wa", b"all ", b"file", b"[",
          b"]", b"[^", b"*", b"**", b"***", b"?", b"/", b"//", b"/**", b"profile ", b"flags=(complain)", b"xattrs=(a)", b"(", b":",
          b"\\a", b"\\/", b"\\\n", b"\x00", b"\x80", b"\xff", b"{,}", b"/{a,b}/", b"\"/a b\"", b" r,", b" a,", b",,", b"x", b"_", b"7"]
# Words that conflict, that are left out at some place, or that look like one of these.
ODD_LETTERS = ["wa", "aw", "rwa", "wkaw", "all", "all", "al", "lal", "wax", "ax", "alx"]


def chance(draw, share):
    return draw.random() < share


def draw_path(draw, depth=0):
    """The inside of a rule's path."""
    parts = []
    for _ in range(draw.randint(1, 4)):
        kind = draw.random()
        if kind < 0.35:
            parts.append(draw.choice(PARTS))
        elif kind < 0.55:
            parts.append(draw.choice(["*", "**", "?", "*", "**", "***", "a*", "*a", "?*"]))
        elif kind < 0.65:
            parts.append(draw.choice(CLASSES) if chance(draw, 0.95) else draw.choice(BAD_CLASSES))
        elif kind < 0.77 and depth < 3:
            inner = [draw_path(draw, depth + 1) if chance(draw, 0.8) else "" for _ in range(draw.randint(1, 3))]
            parts.append("{" + ",".join(inner) + "}")
        parts.append("/" if chance(draw, 0.6) else "")
    return "".join(parts)


def draw_letters(draw):
    if chance(draw, 0.02):
        return draw.choice(ODD_LETTERS)
    known = draw.choice(["rwlkm", "rlkmaa"])
    return "".join(draw.choice(known) for _ in range(draw.randint(1, 3)))


def draw_rule(draw, path):
    letters = draw_letters(draw)
    path = f'"{path}"' if chance(draw, 0.25) else path
    gap = draw.choice([" ", " ", "  ", "\t", "\n", " # c\n", "\r\n"])
    rule = letters + gap + path if chance(draw, 0.2) else path + gap + letters
    return draw.choice(["", "", "", "deny ", "allow ", "deny" + gap]) + rule + draw.choice(["", "", "", " ", "\n", "#,\n"]) + ","


def draw_text(draw, most_rules=8):
    """A profile text as bytes, most often one without a fault."""
    head = draw.choice(["profile p", "profile p", "/bin/p", '"/bin/p q"', 'profile "p q"', "profile p /bin/p", 'profile p "/b"',
                        "# c\nprofile p", "profile p\\,", "profile a//b"])
    # With few paths, rules that hold different permissions match the same names.
    paths = ["/" + draw_path(draw) for _ in range(draw.choice([1, 2, 16, 16, 16]))]
    rules = [draw_rule(draw, draw.choice(paths)) for _ in range(draw.randint(0, most_rules))]
    separator = draw.choice(["\n  ", "\n", " ", "\n # x\n", ""])
    return (head + " {" + separator + separator.join(rules) + separator + "}" + draw.choice(["", "\n", "\n# end"])).encode()


def draw_wide_text(draw):
    """A text at one of the limits."""
    near = draw.randint(-2, 2)
    kind = draw.randrange(6)
    if kind == 0:
        rules = "".join(f"/{draw.choice('abc')}{number % 7} r,\n" for number in range(1024 + near))
        return b"profile p {\n" + rules.encode() + draw.choice([b"}", b"", b"owner /a r,}", b"@{A} r,}", b"\"", b"r}", b"\xff", b"wa /a,}",
                                                                b"all /a,}", b"al /a,}", b"deny all /a,}", b"al"])
    if kind == 1:
        path = "/" + draw.choice(["a", "?", "[ab]", "{,}", "\\,", "\\é"]) * (1023 + near)
        path = path[:draw.choice([len(path), 1025 + near])] + draw.choice(["", "*", "@{", "}", "{", "[", "\\"])
        return f"profile p {{ {path} r, }}".encode()
    if kind == 2:
        depth = 50 + near
        return ("profile p { /" + "{a" * depth + draw.choice(["}", ",b}"]) * (depth - draw.choice([0, 0, 1, -1])) + " r, }").encode()
    if kind == 3:
        name = draw.choice(["n", "é", "\\ ", "\\\\"]) * 255
        name = name.encode()[:254 + near] + draw.choice([b"", b"\\", b"\0", b"x", b"\n", b"\\ "])
        return draw.choice([b"profile " + name, b"/" + name, b'profile "' + name + b'"', b'"/' + name + b'"']) + b" { /a r, }"
    if kind == 4:
        stars = 9 + near
        return f"profile p {{ /**a{'?' * stars} r, /b/*/**/c{'{,d,[^e]}' * 3} w, deny /**b{'?' * (near + 2)} m, }}".encode()
    return b"profile p {\n" + b"\n".join(draw_rule(draw, "/" + draw_path(draw)).encode() for _ in range(40)) + b"\n}"


def mutate(draw, text, tokens=None):
    """A text with a few bytes or tokens changed."""
    for _ in range(draw.choice([1, 1, 1, 2, 3])):
        text = MUTATIONS[draw.randrange(len(MUTATIONS))](draw, text, tokens or TOKENS)
    return text


def flip(draw, text, _):
    at = draw.randrange(len(text) or 1)
    value = draw.choice([draw.randrange(256), draw.choice(b"\0\n\"\\,{}[]/* \x7f\x80\xff")])
    return text[:at] + bytes((value,)) + text[at + 1:]


def cut(draw, text, _):
    return text[:draw.randrange(len(text) + 1)]


def insert(draw, text, tokens):
    at = draw.randrange(len(text) + 1)
    return text[:at] + draw.choice(tokens) + text[at:]


def replace(draw, text, tokens):
    at = draw.randrange(len(text) + 1)
    return text[:at] + draw.choice(tokens) + text[at + draw.randint(1, 3):]


def span(draw, text):
    start = draw.randrange(len(text) + 1)
    return start, min(len(text), start + draw.choice([1, 1, 2, 4, 8, 16, 40]))


def remove(draw, text, _):
    start, end = span(draw, text)
    return text[:start] + text[end:]


def double(draw, text, _):
    start, end = span(draw, text)
    return text[:end] + text[start:end] * draw.choice([1, 1, 2, 5]) + text[end:]


def swap(draw, text, _):
    words = text.split(b" ")
    one, other = draw.randrange(len(words)), draw.randrange(len(words))
    words[one], words[other] = words[other], words[one]
    return b" ".join(words)


MUTATIONS = [flip, cut, insert, insert, replace, remove, double, swap]


def sample(draw, items):
    """Bytes that these items match, or nearly."""
    return b"".join(sample_item(draw, item) for item in items)


def sample_item(draw, item):
    if isinstance(item, Byte):
        return bytes((item.value,))
    if isinstance(item, Run):
        return draw.choice([b"", b"a", b"ab", b"/" if item.takes_slashes else b"b", b"a/b/" if item.takes_slashes else b".", b"\xc3\xa9"])
    if isinstance(item, Group):
        return sample(draw, draw.choice(item.alternatives))
    taken = taken_by(item) if isinstance(item, (One, Class)) else ALL
    few = [byte for byte in b"abc/-.xz]^\\" if taken >> byte & 1] or [byte for byte in range(1, 256) if taken >> byte & 1]
    return bytes((draw.choice(few or [1]),))


def draw_name(draw, rules):
    """A name that one of these rules matches, or nearly."""
    name = sample(draw, draw.choice(rules).path) if rules else draw.choice([b"/", b"/a", b"/home/a/"])
    if chance(draw, 0.3):
        name = mutate(draw, name, [b"/", b"//", b".", b"a", b"\xc3\xa9", b"\xff", b"/../", b"a" * 300])
    return name if chance(draw, 0.02) else b"/" + name.removeprefix(b"/")


def draw_question(draw, text):
    """PERMS and NAME, as arguments, which are UTF-8 text without byte 0. Often a rule has these permissions and matches the name."""
    try:
        rules = read_profile(text).rules
    except Fault:
        rules = ()
    rule = draw.choice(rules) if rules else None
    name = draw_name(draw, [rule] if rule else []).replace(b"\0", b"").decode("utf-8", "replace")
    if rule and chance(draw, 0.6):
        both = ["a", "w", "wa"] if rule.holds(APPEND) else []
        return draw.choice([rule.permissions.decode(), chr(rule.permissions[0]), *both]), name
    if chance(draw, 0.03):
        return draw.choice(["", "x", "rx", "R", "A", "r w", "rr", "awa", "é"]), name
    return "".join(draw.sample("rwlkma", draw.randint(1, 6))), name


def draw_any_text(draw):
    kind = draw.random()
    if kind < 0.03:
        return draw_wide_text(draw)
    text = draw_text(draw, draw.choice([1, 1, 3, 8]))
    return mutate(draw, text) if kind < 0.45 else text


def draw_depth(draw):
    """The arguments of `compile`."""
    if chance(draw, 0.4):
        return []
    if chance(draw, 0.03):
        return [draw.choice(["--depth=65", "--depth=x", "--depth=", "--depth=-1", "--depth=+", "--depth=4294967296"])]
    written = draw.choice(["", "", "", "+", "0", "+00"]) + str(draw.choice([0, 1, 1, 2, 3, 4, 4, 8, 16, 63, 64]))
    return draw.choice([["--depth", written], ["--depth=" + written]])
