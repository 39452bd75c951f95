"""Scripts, for `run`, `test` and `steps`."""
from itertools import product

from shapes import Shape, repeated

CAPACITY = 16384
RUN = ("run", "--capacity", str(CAPACITY))
STEPS = ("steps", "--capacity", str(CAPACITY))
PUBLISHED = "policy\nprofile p {\n  /** r,\n}\n.\n"
LETTERS = "abcdefghijklmnopqrstuvwxyz0123456789ABCDEFGHIJKLMNOPQRSTUVWXYZ"


def same(begin, line):
    """The line again and again, after what begins the script."""
    return lambda size: repeated(size, lambda i: line, begin)


def nested(depth):
    """Nested directories `/a/a/..`, built from the lowest up."""
    return "mkdir /a\n" + "mkdir /b\nrename /a /b/a\nrename /b /a\n" * (depth - 1)


def links(text):
    """40 links `/l1` to `/l40`, each of which goes through the one before it: its text ends with these words."""
    first = "symlink / /l0\n"
    return first + "".join(f"symlink l{i - 1}/{text} /l{i}\n" for i in range(1, 40))


def with_one_home(count):
    """Names in the root whose homes in the index are the same, as docs/RULES-TREE.md says."""
    homes, found = 2 * CAPACITY, []
    last_two = {}
    for pair in product(LETTERS, repeat=2):
        last_two.setdefault((31 * ord(pair[0]) + ord(pair[1])) % homes, []).append("".join(pair))
    for three in product(LETTERS, repeat=3):
        number = 0
        for letter in three:
            number = number * 31 + ord(letter)
        found += ["".join(three) + two for two in last_two.get(-number * 961 % homes, [])]
        if len(found) >= count:
            break
    return found[:count]


def one_home(line):
    """As many files with one home as the tree has room for, then the line, of another name with that home."""
    *names, absent = with_one_home(CAPACITY + 1)
    begin = PUBLISHED + "".join(f"create /{name}\n" for name in names)
    return lambda size: repeated(size, lambda i: line.format(absent), begin) if size > len(begin) else begin[:size].encode()


def numbered(line):
    return lambda size: repeated(size, lambda i: line.format(i))


def cells(size):
    """Calls that read cells of a deep tree one by one. After each is read, the walk goes again over those read before."""
    depth = 2000
    calls = "begin 1 p " + "/a" * depth + " r\npolicy-read 1\ncount 1\n" + "cell 1 1\n" * 20_000 + "go 1\n"
    begin = PUBLISHED + nested(depth)
    return (begin + calls * (size // len(calls) + 1))[:size].rpartition("\n")[0].encode() + b"\n"


UP = links("../" * 339)
DOWN = links("a/../" * 203)

SHAPES = [
    Shape("opens by 40 links of 339 times ../", RUN, same(PUBLISHED + UP, "open p /l39 r\n")),
    Shape("directories by these links", RUN, same(UP, "mkdir /l39\n")),
    Shape("directories by links of 203 times a/../", RUN, same("mkdir /a\n" + DOWN, "rmdir /l39/x\n"), named=True),
    Shape("paths of 2,047 directories", RUN, same(nested(2047), "mkdir " + "/a" * 2047 + "\n")),
    Shape("files with one home", RUN, one_home("unlink /{}\n"), named=True),
    Shape("renames of a deep directory", RUN, same(nested(5000) + "mkdir /c\n", "rename /a /c/a\nrename /c/a /a\n")),
    Shape("a directory into its own depths", RUN,
          same(nested(2000) + "symlink " + "a/" * 500 + " /m\n", "rename /a /m/x\n")),
    Shape("entries", RUN, numbered("create /f{}\n")),
    Shape("links to one file", RUN, lambda size: repeated(size, lambda i: f"link /f /g{i}\n", "create /f\n")),
    Shape("profiles with names of their own", RUN, numbered("policy\nprofile p{} {{}}\n.\n")),
    Shape("profiles that replace one another", RUN, same("", "policy\nprofile p {/** r,}\n.\n")),
    Shape("profiles that are dropped", RUN, numbered("drop p{}\n")),
    Shape("profiles that take long to compile", RUN,
          same("", "policy\nprofile p {/**{" + ("a" * 40 + "?" * 12 + ",") * 2 + "} r,}\n.\n"), named=True),
    Shape("a policy without an end", RUN, same("policy\n", "profile p {}\n")),
    Shape("opens of a long name by stars", RUN, same(
        "policy\nprofile p {/" + "*a" * 50 + " r,}\n.\ncreate /" + "a" * 255 + "\n", "open p /" + "a" * 255 + " r\n")),
    Shape("judged links", RUN, same(PUBLISHED + "create /f\n" + UP, "judged-link p /l39/f /l39/g\n"), named=True),
    Shape("a line", RUN, lambda size: b"open p /" + b"a" * size),
    Shape("empty lines", RUN, lambda size: b"\n" * size),
    Shape("comments", RUN, lambda size: b"#\n" * (size // 2)),
    Shape("expectations", ("test",), same("mkdir /a\n", "expect x\n")),
    Shape("a quote", ("test",), lambda size: b'open p "' + b"a" * size),
    Shape("cells read one by one", STEPS, cells, named=True),
    Shape("calls that begin and end", STEPS, same(PUBLISHED, "begin 1 p / r\ngo 1\n")),
    Shape("changes that open and close", STEPS, same("mkdir /a\n", "keep rename /a /b\nclose\nkeep rename /b /a\nclose\n")),
    Shape("events that aren't legal", STEPS, same("", "close\n")),
]
