"""Whether each crate has a README that begins with what its code says of it, has the sections, and lists what it depends on."""
import re

from house import markdown
from house.families import EXAMPLES, is_for_tests
from house.findings import Finding

BELOW = "From below"
SECTIONS = ("Proved", "Definitions to believe", "Only tested", "Trusted", BELOW)
TEST_SECTIONS = ("Tests", BELOW)
SENTENCE = re.compile(r"^(.*?[.!?])(?=\s|$)")


def first_sentence(repository, crate):
    """The first sentence of the documentation of a crate's root file, on one line, or nothing."""
    root, lines = repository.root_file(crate), []
    for line in repository.lines(root) if root else ():
        if not line.startswith("//!") or line.strip() == "//!" and lines:
            break
        lines.append(line[len("//!"):].strip())
    text = markdown.plain(" ".join(lines))
    found = SENTENCE.match(text)
    return found[1] if found else text


def faults_below(repository, crate, lines):
    """Libraries that the list leaves out, and those that it has and crates.txt hasn't, each with its line."""
    libraries = repository.libraries.get(crate, [])
    known = {*repository.libraries, *(it for tail in repository.libraries.values() for it in tail)}
    named = {}
    for number, line in lines:
        for it in markdown.SPAN.findall(line):
            if it in known:
                named.setdefault(it, number)
    for it in libraries:
        if it not in named:
            yield lines[0][0] if lines else 1, f"`## {BELOW}` leaves out {it}"
    for it, number in named.items():
        if it not in libraries and it != crate:
            yield number, f"`## {BELOW}` has {it}, which crates.txt doesn't list for {crate}"


def faults_of(repository, crate, path):
    """What is wrong with the README of a crate, with line numbers."""
    text = repository.text(path)
    sentence = first_sentence(repository, crate)
    if not markdown.plain(markdown.first_paragraph(text)).startswith(sentence):
        yield 1, f"it doesn't begin with the first sentence of {repository.root_file(crate)}: {sentence}"
    titles = {it.title for it in markdown.headings(text) if it.level == 2}
    is_tested = is_for_tests(repository, crate) or crate in EXAMPLES
    wanted = TEST_SECTIONS if is_tested and not titles.issuperset(SECTIONS) else SECTIONS
    for title in wanted:
        if title not in titles:
            yield 1, f"there is no section `## {title}`"
    if BELOW in titles:
        yield from faults_below(repository, crate, markdown.section(text, BELOW))


def check(repository):
    for crate in repository.crates:
        path = f"crates/{crate}/README.md"
        if path not in repository.paths:
            yield Finding(path, 1, f"{crate} has no README", crate)
            continue
        for line, what in faults_of(repository, crate, path):
            yield Finding(path, line, what, what)
