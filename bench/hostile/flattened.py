"""Flattened texts of AppArmor, for `import`."""
from shapes import Shape, repeated

# 1,024 empty texts, and sixteen alternatives that each begin with a slash.
EMPTY = "@{e}=" + '"" ' * 1024 + "\n"
SIXTEEN = "@{s}=" + " ".join(f"/{i:x}" for i in range(16)) + "\n"
CLASS = "@{c}=[" + "ab" * 7900 + "]\n"
LONG = "@{l}=" + "x" * 16300 + "\n"
GROUP = "@{g}=" + " ".join(f"/{i}" for i in range(500)) + "\n"


def chain(count, first):
    """Variables that need each other one after another: the last needs all."""
    return "".join(f"@{{v{i}}}=@{{{f'v{i - 1}' if i else first}}}\n" for i in range(count))


def backwards(count, first):
    """The same, the last of which is declared first."""
    return "".join(reversed(chain(count, first).splitlines(keepends=True)))


def rules(variables, rule):
    """One profile with as many rules as fit."""
    return lambda size: repeated(size, rule, f"{variables}profile p {{\n", "}\n")


def profiles(variables, rule):
    """As many profiles as fit, each with these rules."""
    return lambda size: repeated(size, lambda i: f"profile p{i:x} {{{rule}}}\n", variables)


def texts(part, begin="", end=""):
    return lambda size: repeated(size, part, begin, end)


def values(size):
    return ("@{a}=" + '"" ' * (size // 6) + "\n").encode() + profiles("", "/x r,")(size // 2)


def too_many_empty(size):
    return repeated(size, lambda i: f"@{{v{i}}}=@{{e}}\n", EMPTY)


MAKERS = {
    "classes after a group": rules(SIXTEEN + CLASS, lambda i: "@{s}@{c} r,\n"),
    "the same, not read": rules(SIXTEEN + CLASS, lambda i: "@{s}@{c}[a-] r,\n"),
    "long paths": rules(LONG, lambda i: "/@{l} r,\n"),
    "groups of 500": rules(GROUP, lambda i: "/@{g} r,\n"),
    "a chain in profiles": profiles(chain(1024, "profile_name"), "@{v1023} r,"),
    "a short chain in profiles": profiles(chain(20, "profile_name"), "@{v19} r,"),
    "a chain too long": texts(lambda i: f"@{{v{i}}}=@{{{f'v{i - 1}' if i else 'profile_name'}}}\n"),
    "empty texts": rules(EMPTY + chain(1023, "e"), lambda i: "/@{v1022} r,\n"),
    "empty texts, backwards": rules(backwards(1023, "e") + EMPTY, lambda i: "/@{v1022} r,\n"),
    "empty texts, too many": too_many_empty,
    "uses of nothing": profiles('@{n}=""\n@{u}=' + "@{n}" * 20_000 + "@{profile_name}\n", "@{u} r,"),
    "lists too long": profiles(chain(500, "u") + "@{u}=" + "x" * 16_385 + "\n", "/x r,"),
    "undefined": profiles(chain(1000, "u"), "/x r,"),
    "values": values,
    "a use for each rule": rules(chain(500, "profile_name"), lambda i: "/@{v499} r,\n"),
    "a child between rules": texts(lambda i: f"/x@{{profile_name}} r,\nprofile c{i:x} {{/y r,}}\n", "profile p {\n", "}\n"),
    "profiles": profiles("", ""),
    "profiles with a rule": profiles("", "/x r,"),
    "names": texts(lambda i: f"profile c{i:x} {{}}\n", "profile " + "n" * 200 + " {\n", "}\n"),
    "rules": rules("", lambda i: "/x r,\n"),
    "deny rules": rules("", lambda i: "audit deny owner /x r,\n"),
    "rules without a path": rules("", lambda i: "file,"),
    "nested groups": rules("", lambda i: "/" + "{a," * 50 + "}" * 50 + " r,\n"),
    "groups nested too deep": rules("", lambda i: "/" + "{a," * 5000 + "}" * 5000 + " r,\n"),
    "items": rules("", lambda i: "/" + "?" * 1000 + " r,\n"),
    "a path": lambda size: ("profile p {\n/" + "x" * size + " r,\n}\n").encode(),
    "a comment": lambda size: b"#" + b"x" * size + b"\n",
    "comments": texts(lambda i: "#\n"),
    "a quote": lambda size: b'"' + b"x" * size,
    "statements": rules("", lambda i: "capability,\n"),
    "assignments": texts(lambda i: "@{a}=b\n" if i == 0 else "@{a}+=b\n"),
    "an unknown word": lambda size: b"profile p { " + b"x" * size,
}

SHAPES = [Shape(name, ("import", "--profile", "p"), make) for name, make in MAKERS.items()]
