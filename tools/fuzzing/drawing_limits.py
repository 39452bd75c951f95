"""Draws flattened texts at the limits of imports: of variables, of their lists, of paths, and of all that is counted."""
from flat_text import MOST_VARIABLES, FlatReader, ImportFault
from importing import LONGEST_TEXT, MOST_COUNTED, MOST_TEXTS, Variables

LAST_ASSIGNMENTS = ["", "", "@{V0}=b", "@{V0}+=b", "@{X}+=b", "@{X}=b\n@{Y}=b", "@{profile_name}=b", "@{profile_name}+=b", "@{X}=", "@{X}",
                    "@{X}=\"b", "#@{X}=b", "$X=b", "abi <a>,", "@{X}=b\n@{X}=c", "@{X}=b\\\n"]
WITHOUT_A_LIST = ["@{W%d}", "@{U}", "@{L}@{L}", "@{W0}", "b @{U%d}"]
SHORT = ["a", "/b c", "\"\"", "@{S0}", "a @{L}", "\"x y\" z", "\\,"]
# What comes after the last path that is counted, and the same with a path of two bytes.
TAILS = [("", ""), ("/b r,", ""), ("/@{U} r,", ""), ("/@{L}@{L} r,", ""), ("file,", ""), ("link /b -> /c,", ""), ("/b rwa,", ""),
         *[(f"^t {{ {path} r, }}", "^t { /b r, }") for path in ("/b", "/@{U}", "/@{W0}", "/@{L}@{L}")],
         ("profile t { /b r, /c w, }", "profile t { /b r, }"), ("^t { capability, ^u { /b r, } }", "^t { ^u { /b r, } }")]


def draw_limit_text(draw):
    kind = draw.choice([draw_many_variables, draw_long_list, draw_counted_without_lists, draw_counted_profiles])
    return kind(draw).encode()


def draw_many_variables(draw):
    """About as many variables as there may be, and after them an assignment that may be at fault by itself."""
    value = draw.choice(["a", "a", "\"\"", "@{profile_name}", "@{V%(next)d}", "@{V%(last)d}a", "/ /@{V%(last)d}"])
    count = MOST_VARIABLES + draw.randint(-3, 2)
    lines = ["@{V0}=a"] + [f"@{{V{at}}}=" + value % {"next": at + 1, "last": at - 1} for at in range(1, count)]
    paths = "".join(f"/@{{V{draw.randrange(count)}}} r,\n" for _ in range(draw.randint(0, 3)))
    return "\n".join([*lines, draw.choice(LAST_ASSIGNMENTS), "profile p {", paths + "}"])


def draw_long_list(draw):
    """Lists and paths that are about as long as they may be."""
    near = draw.randint(-2, 2)
    texts = " ".join(draw.choice("ab") for _ in range(MOST_TEXTS + near))
    side = " ".join(draw.choice(["a", "/b", "cc"]) for _ in range(draw.choice([31, 32, 33])))
    long = "x" * (LONGEST_TEXT // 2)
    lines = draw.choice([
        [f"@{{A}}={texts}", "@{B}=@{A}"],
        [f"@{{A}}={side}", "@{B}=@{A}@{A}", "@{C}=@{B}@{B}"],
        [f"@{{A}}={long}{long[:near - 3]}", "@{B}=@{A}" + "y" * 3],
        [f"@{{A}}={long} {long} ", "@{A}+=" + "y" * max(near, 0) + " \"\""],
        [f"@{{A}}={long}{long[:near - 3]}", "@{B}=@{A} @{U}", "@{C}=@{U} @{A}@{A}", "@{D}=@{A}@{A} @{D}"]])
    end = draw.choice(["", "yy", "yyy", "yyyyy", "/"])
    return "\n".join([*lines, "profile p {", f"{draw.choice(['/', '@{A}/', '/b', ''])}@{{{draw.choice('AABBCD')}}}{end} r,", "/c r,", "}"])


def draw_counted_without_lists(draw):
    """About as many variables without a list as exceed the sum at the first path."""
    count = draw.choice([511, 510, 505, 480])
    lists = [f"@{{W{at}}}={as_numbered(draw.choice(WITHOUT_A_LIST), at)}" for at in range(count)]
    lists += [f"@{{S{at}}}={draw.choice(SHORT)}" for at in range(draw.choice([0, 0, 1, 200]))]
    return draw_filled(draw, lists, "")


def draw_counted_profiles(draw):
    """Short variables that are counted for many profiles."""
    lists = [f"@{{S{at}}}={draw.choice(SHORT[:-1])}" for at in range(draw.choice([300, 700, MOST_VARIABLES - 6]))]
    lists += [f"@{{P{at}}}={draw.choice(['@{profile_name}', '@{profile_name}x', '@{P0}'])}" for at in range(draw.choice([0, 1, 5]))]
    inner = draw.choice(["^h { /a r, }\n", "^h%d { /a r, }\n", "/a r,\n^h { /b r, }\n", "profile c%d { /a r, /b r, }\n"])
    one = counted("\n".join([*lists, "profile p { /a r, }"]))
    profiles = (MOST_COUNTED - LONGEST_TEXT) // (one + 20) // (2 if inner.startswith("/a") else 1) - 2
    return draw_filled(draw, lists, "".join(as_numbered(inner, at) for at in range(min(1200, max(profiles, 0)))))


def as_numbered(text, number):
    return text.replace("%d", str(number))


def counted(text):
    """What is counted for a text's paths; None if it's refused."""
    variables = Variables(())
    try:
        FlatReader(text.encode(), variables.values, variables.need).read()
    except ImportFault:
        return None
    return variables.counted


def draw_filled(draw, lists, inner):
    """A text with these variables and inner profiles, and with enough paths that about as much is counted as may be."""
    long = draw.randint(LONGEST_TEXT // 2, LONGEST_TEXT - 1)
    start = "\n".join([f"@{{L}}={'x' * long}", *lists, "profile p {", inner + "/a r,\n"])
    tail, plain = draw.choice(TAILS)
    so_far = counted(start + plain + "}\n")
    if so_far is None:
        return start + tail + "}\n"
    full, rest = divmod(max(0, MOST_COUNTED + draw.randint(-3, 3) - so_far), long + 1)
    paths = ["/@{L} r,\n"] * min(full, 1000) + ([f"/{'a' * (rest - 1)} w,\n"] if rest else [])
    draw.shuffle(paths)
    return start + "".join(paths) + tail + draw.choice(["}\n", "/c r,\n}\n", "}"])
