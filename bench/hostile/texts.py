"""Profile texts, for `judge`, `explain` and `compile`."""
from shapes import Shape, profile, repeated

NAME = "/" + "a" * 4094
TOWER = "{" * 50 + "}" * 50


def same(rule):
    return lambda size: profile(size, lambda i: rule)


def one_rule(begin, end):
    """One rule, whose path is as long as asked for."""
    return lambda size: ("profile p {\n" + begin + "a-c" * (size // 3) + end).encode()


def alternatives(i):
    """98 alternatives of `a` and eight `?`, of which the first two have some `?` written as a class: others in each rule."""
    spelled = ["".join("[^/]" if i >> (8 * n + bit) & 1 else "?" for bit in range(8)) for n in range(2)]
    return "/{" + ",".join("a" + tail for tail in spelled + ["?" * 8] * 96) + "} r,\n"


def starred(i):
    """500 times `**a`, one `a` of which is in a class: another one in each rule."""
    return "/" + "".join("**[a]" if n == i else "**a" for n in range(500)) + " r,\n"


def spelled_stars(i):
    """500 times `*?`, one `?` of which is written as a class: another one in each rule."""
    return "/" + "".join("*[^/]" if n == i else "*?" for n in range(500)) + " r,\n"


SHAPES = [
    Shape("rules of 1,022 places", ("judge", "r", NAME), same("/" + "*?" * 510 + " r,\n")),
    Shape("the same, explained", ("explain", "r", NAME), same("/" + "*?" * 510 + " r,\n")),
    Shape("rules of 500 times **a", ("judge", "r", NAME), same("/" + "**a" * 500 + " r,\n")),
    Shape("rules that all match, explained", ("explain", "r", NAME), same("/** r,\n")),
    Shape("long rules that all match, explained", ("explain", "r", NAME), same("/**{," + "b" * 1000 + "} r,\n")),
    Shape("rules of 1,024 items", ("judge", "w", "/x"), same("/" + "a" * 1023 + " r,\n")),
    Shape("towers of 50 groups", ("judge", "w", "/x"), same("/" + TOWER * 10 + " r,\n")),
    Shape("towers, compiled", ("compile",), same("/" + TOWER * 10 + " r,\n")),
    Shape("comments", ("judge", "w", "/x"), lambda size: repeated(size, lambda i: "#\n", end="profile p {}\n")),
    Shape("an attachment", ("judge", "w", "/x"), lambda size: b"profile p /" + b"a" * size),
    Shape("an attachment in quotes", ("judge", "w", "/x"), lambda size: b'profile p "/' + b"a" * size),
    Shape("a class without an end", ("judge", "w", "/x"), one_rule("/[", "")),
    Shape("a class", ("judge", "w", "/x"), one_rule("/[", "] r,\n}\n")),
    Shape("a class, explained", ("explain", "w", "/x"), one_rule("/[", "] r,\n}\n")),
    Shape("a class, compiled", ("compile",), one_rule("/[", "] r,\n}\n")),
    Shape("rules over the limit", ("judge", "w", "/x"), lambda size: repeated(size, lambda i: "/a r,\n", "profile p {\n", "}\n")),
    Shape("a word that is refused, explained", ("explain", "w", "/x"), lambda size: b"profile p {\n" + b"x" * size),
    Shape("rules of 500 times **a, compiled", ("compile",), lambda size: profile(size, starred), named=True),
    Shape("98 alternatives, compiled", ("compile",), lambda size: profile(size, alternatives), named=True),
    Shape("rules of 500 times *?, compiled", ("compile",), lambda size: profile(size, spelled_stars), named=True),
]
