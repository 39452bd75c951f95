"""Which public functions require something of their callers, and whether docs/PROOFS.md lists each of them, and no other.

A caller must meet these. The prover checks each call in Rattle; nothing checks callers from C. Private functions of a crate (also
`pub(crate)`) aren't listed.
"""
import functools
import re

from house import markdown
from house.findings import Finding

DOCUMENT, TITLE = "docs/PROOFS.md", "Preconditions"
FUNCTION = re.compile(r"^\s*pub (?:const )?(?:extern \"C\" )?fn (\w+)")
METHOD = re.compile(r"^\s*fn (\w+)")
TYPE = re.compile(r"^(?:impl\b.*?\bfor (\w+)|impl(?:<[^>]*>)? (\w+)|(?:pub )?trait (\w+))")
CONDITION = re.compile(r"^\s*requires (.*)")


def libraries(repository):
    """The libraries of crates.txt that have code, lowest first."""
    return [it for it in repository.libraries if not it.endswith("_tests") and f"crates/{it}/src/lib.rt" in repository.paths]


@functools.lru_cache(maxsize=None)
def conditions_of(text):
    """For each public function that has conditions: its name, after that of its type, and its clauses."""
    found, owner, name, in_trait = [], "", None, False
    for line in text.split("\n"):
        if line.startswith(("impl", "trait", "pub trait")):
            owner = next(filter(None, TYPE.match(line).groups()), "") if TYPE.match(line) else ""
            in_trait = line.startswith("pub trait")
        elif line.startswith("}"):
            owner, in_trait = "", False
        function, condition = FUNCTION.match(line) or in_trait and METHOD.match(line), CONDITION.match(line)
        if function:
            name = f"{owner}::{function[1]}" if owner and line.startswith(" ") else function[1]
        elif name and condition:
            if not found or found[-1][0] != name:
                found.append((name, []))
            found[-1][1].append(condition[1])
        elif line.endswith(";") or re.match(r"^\s*\{$", line):
            name = None
    return found


def conditions(repository, crate):
    """The functions of a crate that have conditions, with their clauses."""
    return [it for path in repository.sources(crate) for it in conditions_of(repository.text(path))]


def rows_of(lines):
    """The crate and the functions that each row of the table names, with the number of its line. In a row whose first cell is empty
    the crate is that of the row before."""
    crate = None
    for number, line in lines:
        cells = [it.strip() for it in line.strip().strip("|").split("|")] if line.startswith("|") else []
        named = [markdown.SPAN.findall(it) for it in cells[:2]]
        if len(named) == 2 and named[1]:
            crate = named[0][0] if named[0] else crate
            yield from ((number, crate, it) for it in named[1])


def check(repository):
    """What the table leaves out, and what it has although nothing is required there."""
    lines = markdown.section(repository.text(DOCUMENT), TITLE)
    if lines is None:
        yield Finding(DOCUMENT, 1, f"there is no section `## {TITLE}`", TITLE)
        return
    needed = {(crate, name): None for crate in libraries(repository) for name, _ in conditions(repository, crate)}
    rows = {(crate, name): number for number, crate, name in rows_of(lines)}
    begin = lines[0][0] - 1 if lines else 1
    for crate, name in needed:
        if (crate, name) not in rows:
            yield Finding(DOCUMENT, begin, f"the table of preconditions has no row for {crate}::{name}", f"{crate}::{name}")
    for (crate, name), number in rows.items():
        if (crate, name) not in needed:
            yield Finding(DOCUMENT, number, f"{crate}::{name} requires nothing, or isn't public", f"{crate}::{name}")
