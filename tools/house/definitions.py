"""How many lines of definitions there are, and which of them the contract of one function cites.

A reader of public contracts has to believe the definitions of specs/ without specs/inner/, which has the words of private contracts
and proofs, and without specs/laws/, where all is proved. Blank lines, comments and imports don't count.
"""
import re

from house import markdown
from house.findings import Finding

# The function whose definitions are read as a whole, and how many lines these may have.
CRATE, FUNCTION, MOST = "path_session", "Session::try_open", 900
PROOFS = "docs/PROOFS.md"
ROW = re.compile(r"^\| (?:`([\w/]+\.antt)`|in all) \| ([\d,]+) \|")
NO_DEFINITION = re.compile(r"\s*(--.*|(pub )?(mod|use) .*)?$")
IMPORT = re.compile(r"\s*(?:ghost |pub )?use (?P<module>Rattle(?:\.\w+)+)(?:\.\{(?P<names>.*)\}| as (?P<alias>\w+));?$")
# In code the names of an import may be on lines of their own.
OPEN_IMPORT = re.compile(r"(?s)(ghost use [\w.]+\.\{[^}]*\})")
WORD = re.compile(r"\w+")


def count_lines(text):
    """The lines of definitions, or of proofs, in a text."""
    return sum(not NO_DEFINITION.match(line) for line in text.split("\n")[:-1])


def public_files(repository, crate):
    """The files of a crate that have definitions to believe."""
    return [it for it in repository.files_in(crate, "specs", ".antt") if it.count("/") == 3]


def lines_of(repository, paths):
    return sum(count_lines(repository.text(it)) for it in paths)


def file_of(repository, module):
    """The file of a module of definitions, such as Rattle.names.specs.Paths, or None if this repository has no such file."""
    path = f"crates/{module.removeprefix('Rattle.').replace('.', '/')}.antt"
    return path if path in repository.paths else None


def type_of(module):
    """The type of code that a module declares, such as names::Perms, or None."""
    parts = module.split(".")
    return f"{parts[1]}::{parts[5]}" if parts[2:4] == ["specs", "declared"] and len(parts) > 5 else None


def imports_of(text):
    """The modules that are imported, in order, each with the words by which the text calls what it imports."""
    joined = OPEN_IMPORT.sub(lambda it: " ".join(it.group(1).split()), text)
    found = [it for it in map(IMPORT.match, joined.split("\n")) if it]
    return [(it["module"], WORD.findall(it["names"] or it["alias"])) for it in found]


def contract_of(repository, crate, function):
    """The contract of a function, and the text of the file that has it; None if there is no such function."""
    owner, _, name = function.rpartition("::")
    for path in repository.sources(crate):
        text = repository.text(path)
        begins = text.find(f"impl {owner} {{") if owner else 0
        found = re.compile(rf"(?s)\bpub fn {name}\b.*?\n *\{{\n").search(text, max(begins, 0))
        if begins >= 0 and found:
            return found.group(), text
    return None


def add_in_order(repository, module, order, types):
    """Adds a module after all that it cites, and the types of code that it speaks of."""
    if type_of(module) and type_of(module) not in types:
        types.append(type_of(module))
    path = file_of(repository, module)
    if path and module not in order:
        order.append(module)
        at = len(order) - 1
        for cited, _ in imports_of(repository.text(path)):
            add_in_order(repository, cited, order, types)
        order.append(order.pop(at))


def cited_by(repository, crate, function):
    """The files of definitions that a function's contract cites, in an order in which each comes after all that it cites, and the
    types of code that they speak of; None if there is no such function."""
    found = contract_of(repository, crate, function)
    if not found:
        return None
    contract, text = found
    spoken, order, types = set(WORD.findall(contract)), [], []
    for module, words in imports_of(text):
        if spoken.intersection(words):
            add_in_order(repository, module, order, types)
    return [file_of(repository, it) for it in order], types


def rows_of(lines):
    """The rows of tables of files of definitions: the line's number, the file and its number of lines; in a last row that sums them
    up, None in place of a file."""
    for number, line in lines:
        found = ROW.match(line)
        if found:
            yield number, f"crates/{found[1]}" if found[1] else None, int(found[2].replace(",", ""))


def check(repository):
    """The contract of an open cites no more definitions than one can read, and the document on proofs lists their files."""
    cited = cited_by(repository, CRATE, FUNCTION)
    lines = lines_of(repository, cited[0]) if cited else 0
    if not cited or lines > MOST:
        what = f"its contract cites {lines} lines of definitions, more than {MOST}" if cited else "there is no such function"
        yield Finding(f"crates/{CRATE}/src", 1, f"{FUNCTION}: {what}", FUNCTION)
    listed = {path for _, path, _ in rows_of(markdown.prose(repository.text(PROOFS)))}
    missing = [it for it in cited[0] if it not in listed] if cited else []
    if missing:
        what = f"no table of definitions has these files, which {FUNCTION} cites: {', '.join(missing)}"
        yield Finding(PROOFS, 1, what, FUNCTION)
