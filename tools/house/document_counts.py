"""Whether the numbers in documents are those that can be counted: crates, edits, tests, lines, functions, commands of the tour.

A counted phrase is a number in digits and one of the nouns below. It is about the whole repository, or in a crate's README about that
crate; or about the crate that goes with it: "`crate` has N tests", "`crate`: N tests", "N tests of `crate`", "N tests in `crate`". A
number after "about" or "some" may differ by a tenth. What is past, or about a part, is said in other words: "had N tests", "of N
crates above", "N of the tests"; a phrase that can't be is in the list of what is allowed.
"""
import functools
import re
from importlib.machinery import SourceFileLoader
from importlib.util import module_from_spec, spec_from_loader

from house import crate_counts, definitions, preconditions, private_parts, records
from house.findings import Finding

NUMBER = r"(?<![\w.,^/-])(\d{1,3}(?:,\d{3})+|\d+)"
BEFORE = r"(?:`(\w+)`(?: has|:|,) (?:only |all )?)?(?:(about|some) )?"
AFTER = r"(?: (?:of|in) `(\w+)`)?"
# What makes it a phrase about something else.
PAST = re.compile(r"\b(?:had|was|were|with|after|before|once|in|at most|under|below|over|than|first|last|to|from|by|for|each) $")
OTHERS = re.compile(r",? (?:above|below|that|which|whose|of|in|as|for|each|were|was|had|with|to|from|where|including)\b")
CRATE_NOUNS = {
    "must-fail edits": crate_counts.must_fail,
    "edits of the gate": crate_counts.in_gate,
    "edits that the gate tries": crate_counts.in_gate,
    "edits that the gate leaves out": crate_counts.more,
    "tested edits": crate_counts.tested,
    "edits": crate_counts.all_edits,
    "wrong bodies": crate_counts.all_edits,
    "tests": crate_counts.tests,
    "test functions": crate_counts.tests,
    "lines of definitions": crate_counts.believed,
    "lines of code": crate_counts.code,
    "lines of proofs": crate_counts.proofs,
    "public functions": crate_counts.public_functions,
}
PHRASE = re.compile(f"{BEFORE}{NUMBER} ({'|'.join(sorted(CRATE_NOUNS, key=len, reverse=True))})\\b{AFTER}")
TITLED = re.compile(rf"\b(definitions|proofs|code): {NUMBER} lines\b")
WHOLE = re.compile(rf"{NUMBER} (crates|pairs of crates|commands of the tour|public functions that require|preconditions)\b")


def tour_commands(repository):
    """The commands of README and the tour that `make tour` runs and compares."""
    loader = SourceFileLoader("tour", f"{repository.top}/tools/tour")
    tour = module_from_spec(spec_from_loader(loader.name, loader))
    loader.exec_module(tour)
    return sum(len([it for it in tour.read_commands(repository.lines(file))[0] if it[0].split()[0] not in tour.NOT_RUN])
               for file in tour.FILES)


def required(repository):
    return sum(len(preconditions.conditions(repository, it)) for it in preconditions.libraries(repository))


WHOLE_NOUNS = {
    "crates": lambda it: len(it.libraries),
    "pairs of crates": lambda it: len(private_parts.pairs_of(it, "proofs", "specs/inner")),
    "commands of the tour": tour_commands,
    "public functions that require": required,
    "preconditions": required,
}


class Counter:
    """Counts each thing once."""

    def __init__(self, repository):
        self.repository = repository

    @functools.lru_cache(maxsize=None)
    def of_crate(self, noun, crate):
        count = CRATE_NOUNS[noun]
        return count(self.repository, crate) if crate else crate_counts.total(count, self.repository)

    @functools.lru_cache(maxsize=None)
    def of_all(self, noun):
        return WHOLE_NOUNS[noun](self.repository)


def is_other(line, found):
    """Whether words around a phrase say that it is about something else."""
    return bool(PAST.search(line[:found.start()]) or OTHERS.match(line, found.end()))


def differs(said, about, actual):
    number = int(said.replace(",", ""))
    return abs(number - actual) > (0.1 * actual if about else 0)


def faults_of(counter, home, line):
    """The phrases of a line whose number is another: each with the actual one."""
    crates = counter.repository.libraries
    for found in PHRASE.finditer(line):
        before, about, number, noun, after = found.groups()
        named = next((it for it in (before, after) if it in crates), None)
        if named or not is_other(line, found):
            actual = counter.of_crate(noun, named or home)
            if differs(number, about, actual):
                yield f"{number} {noun}", f"{actual:,}{f' of {named or home}' if named or home else ''}"
    for found in TITLED.finditer(line):
        actual = counter.of_crate(f"lines of {found[1]}", home)
        if differs(found[2], False, actual):
            yield found[0], f"{actual:,}"
    for found in WHOLE.finditer(line):
        if not is_other(line, found) and differs(found[1], False, counter.of_all(found[2])):
            yield found[0], f"{counter.of_all(found[2]):,}"


def faults_of_tables(repository, lines):
    """The rows of tables of files of definitions that say another number of lines, with the line and the actual number."""
    together, last = 0, 0
    for number, path, said in definitions.rows_of(lines):
        together, last = together if number == last + 1 else 0, number
        actual = definitions.count_lines(repository.text(path)) if path else together
        together += actual if path else 0
        if said != actual:
            yield number, f"{said:,} lines in {path or 'all these files'}", f"{actual:,}"


def check(repository):
    counter = Counter(repository)
    for document in repository.documents:
        lines = records.without(repository, document, records.MEASURED)
        for number, said, actual in faults_of_tables(repository, lines):
            yield Finding(document, number, f"it says {said}, and there are {actual}", said)
        home = document.split("/")[1] if document.startswith("crates/") else None
        for number, line in lines:
            for said, actual in faults_of(counter, home, line):
                yield Finding(document, number, f"it says {said}, and there are {actual}", said)
