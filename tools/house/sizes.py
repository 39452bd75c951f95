"""The sizes that the house keeps: of crates, bodies, lines and documents."""
import functools
import re

from house import crate_counts
from house.families import is_for_tests
from house.findings import Finding

MOST_BODY, MOST_COLUMNS = 40, 140
# A crate has fewer.
FUNCTIONS, LINES = 100, 1500
README_WORDS = 1500
DOCUMENT_LINES = {"docs/PROOFS.md": 200, "docs/ARCHITECTURE.md": 150}
FUNCTION = re.compile(r"^( *)(?:pub(?:\([^)]*\))? )?(?:(?:const|unsafe) )*(?:extern \"C\" )?fn (\w+)")
CODE = (".rt", ".antt", ".py", ".sh", ".c", ".cpp", ".h", ".rs")
PROGRAM_FOLDERS = ("tools/", "bench/")


@functools.lru_cache(maxsize=None)
def bodies_of(text):
    """The functions of a file: name, line, and the lines between the braces of the body, which begin at the column of `fn`."""
    found, name, place, indent, begin = [], None, 0, "", None
    for number, line in enumerate(text.split("\n"), 1):
        head = FUNCTION.match(line)
        if head and begin is None:
            name, place, indent = head[2], number, head[1]
            begin = number if line.endswith("{") else None
        elif name and begin is None and line == f"{indent}{{":
            begin = number
        elif name and begin is not None and line == f"{indent}}}":
            found.append((name, place, number - begin - 1))
            name, begin = None, None
    return found


def bodies(repository):
    """Bodies that are too long, tests' crates aside."""
    for crate in repository.libraries:
        for path in [] if is_for_tests(repository, crate) else repository.sources(crate):
            for name, line, length in bodies_of(repository.text(path)):
                if length > MOST_BODY:
                    yield Finding(path, line, f"the body of {name} has {length} lines, more than {MOST_BODY}", name)


def can_be_broken(line):
    """Whether a blank outside of strings is a place to break the line."""
    return len(" ".join(line.split('"')[::2]).split()) > 3


@functools.lru_cache(maxsize=None)
def longest(text):
    return max(map(len, text.split("\n")))


def is_code(repository, path):
    """Whether this is code, a proof or a program."""
    if path.startswith("crates/") or path.endswith(CODE):
        return path.endswith(CODE)
    is_program = path.startswith(PROGRAM_FOLDERS) and "." not in path.rpartition("/")[2] and "fuzz-corpus/" not in path
    return is_program and repository.text(path).startswith("#!")


def columns(repository):
    """Lines that are too long, but for those that are one word or one string."""
    for path in repository.files:
        if is_code(repository, path) and longest(repository.text(path)) >= MOST_COLUMNS:
            for number, line in enumerate(repository.lines(path), 1):
                if len(line) >= MOST_COLUMNS and can_be_broken(line):
                    yield Finding(path, number, f"the line has {len(line)} columns, {MOST_COLUMNS} or more", str(number))


def crates(repository):
    """Crates with too many functions or lines."""
    for crate in repository.crates:
        for count, limit, what in ((crate_counts.functions, FUNCTIONS, "functions"), (crate_counts.code, LINES, "lines of code")):
            number = count(repository, crate)
            if number >= limit:
                where = repository.root_file(crate) or f"crates/{crate}"
                yield Finding(where, 1, f"{crate} has {number} {what}, not under {limit:,}", what)


def documents(repository):
    """Documents that are too long."""
    words = len(repository.text("README.md").split())
    if words >= README_WORDS:
        yield Finding("README.md", 1, f"README has {words} words, not under {README_WORDS:,}", "words")
    for path, most in DOCUMENT_LINES.items():
        lines = repository.text(path).count("\n")
        if lines > most:
            yield Finding(path, most + 1, f"the document has {lines} lines, more than {most}", "lines")


def check(repository):
    for part in (bodies, crates, documents):
        yield from part(repository)
