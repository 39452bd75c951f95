"""The families of crates: the headings of crates.txt, each with the crates below it."""
import re

from house import markdown
from house.findings import Finding

FILE = "crates.txt"
DOCUMENT = "docs/ARCHITECTURE.md"
TESTS = "tests, storms and benches"
# Programs that are examples: tests run them.
EXAMPLES = ("mediating_server",)
HEADING = re.compile(r"^# ([^:]+)$")
ROW = re.compile(r"^\| ([^|]+?) \| ([^|]+?) \|")


def by_family(repository):
    """The families in their order, each with its crates."""
    found, family = {}, "no family"
    for line in repository.lines(FILE):
        heading = HEADING.match(line)
        if heading:
            family = heading[1]
            found[family] = []
        elif ":" in line and not line.startswith("#"):
            found.setdefault(family, []).append(line.replace(":", " ").split()[0])
    return found


def is_for_tests(repository, crate):
    """Whether a crate is of tests, of parts of them, or of benchmarks."""
    return crate in by_family(repository).get(TESTS, [])


def listed(repository):
    """The rows of the table of families: their lines, titles, and what is in the second column."""
    rows = [(number, ROW.match(line)) for number, line in markdown.section(repository.text(DOCUMENT), "Families") or []]
    return [(number, row[1], row[2]) for number, row in rows if row and row[1] not in ("family", "---")]


def check(repository):
    """The table of families has those of crates.txt, in their order, each with its crates."""
    families, rows = by_family(repository), listed(repository)
    titles = [title for _, title, _ in rows]
    if titles != list(families):
        yield Finding(DOCUMENT, rows[0][0] if rows else 1, f"the families aren't those of {FILE}: {', '.join(titles)}", "families")
        return
    for number, title, cell in rows:
        crates = re.findall(r"`(\w+)`", cell)
        begins = tuple(it for it in crates if it.endswith("_"))
        left = [it for it in families[title] if it not in crates and not (begins and it.startswith(begins))]
        others = [it for it in crates if it not in families[title] and it not in begins]
        if title != TESTS and (left or others):
            yield Finding(DOCUMENT, number, f"the crates of {title} are others: {' '.join(left + others)}", title)
