"""All checks by their names, and running them."""
from house import (completions, crate_readmes, definitions, dependencies, document_counts, document_links, document_names, edits,
                   families, installation, manual_date, preconditions, private_parts, quotes, sizes, tool_names, versions, waits,
                   wrong_bodies)
from house.findings import without_allowed
from house.repository import Repository

CHECKS = {
    "readmes": (crate_readmes.check, "each crate has a README with its sections, which begins as its code does"),
    "dependencies": (dependencies.check, "crates.txt lists for each crate what it cites, and nothing else"),
    "waits": (waits.check, "crates.txt counts the functions that may wait, as `rt verdict` does"),
    "families": (families.check, "docs/ARCHITECTURE.md has the families of crates.txt, each with its crates"),
    "names": (document_names.check, "what documents name in backquotes is there"),
    "links": (document_links.check, "links of documents lead to a file and a heading"),
    "counts": (document_counts.check, "numbers in documents are those that can be counted"),
    "quotes": (quotes.check, "contracts and definitions that documents quote are those of the code"),
    "private-parts": (private_parts.check, "only listed pairs of crates name private parts of one another"),
    "preconditions": (preconditions.check, "docs/PROOFS.md lists the public functions that require something"),
    "definitions": (definitions.check, "the contract of an open cites few definitions, and docs/PROOFS.md lists their files"),
    "wrong-bodies": (wrong_bodies.check, "the gate refuses the wrong bodies of tools/wrong-bodies"),
    "edits": (edits.check, "each edit can be applied, and is in one folder"),
    "sizes": (sizes.check, "bodies, crates and documents keep their limits"),
    "lines": (sizes.columns, "lines of code, proofs and programs are under 140 columns"),
    "tools": (tool_names.check, "programs of tools/ are named alike, and are in tools/README.md"),
    "versions": (versions.check, "the version is the same everywhere"),
    "manual-date": (manual_date.check, "the manual page has the date of its last change"),
    "completions": (completions.check, "the completions know the commands and options of the program"),
    "installed": (installation.check, "what is installed is there, and links of installed documents lead to what is installed"),
}


def run(repository=None, names=()):
    """The findings of these checks, or of all, without what is allowed, in order of files."""
    repository = repository or Repository()
    found = {name: list(CHECKS[name][0](repository)) for name in names or CHECKS}
    return sorted(without_allowed(repository, found))
