"""Which crates name private parts of others: lemmas in proofs/ and definitions in specs/inner/.

The list tools/house/private-parts has the pairs of crates that do, the lower crate first, in groups, each below its reason: lines
that begin with `#`.
"""
import functools
import re

from house.findings import Finding

LIST = "tools/house/private-parts"
CITED = r"\b(?:Rattle\.)?(\w+)(?:\.{0}\.|::{1}::)([\w.]+?)(?=\.\{{|::|\s|$)"
ABOUT_THREADS = re.compile(r"ThreadSafety$|TheSendSync$|TheKnot$|^Closures$")


@functools.lru_cache(maxsize=None)
def cited_in(text, folder):
    """The crates and the modules of their folders that a text names."""
    word = folder.rpartition("/")[2]
    cited = re.compile(CITED.format(folder.replace("/", r"\."), folder.replace("/", "::")), re.M)
    return cited.findall("\n".join(it for it in text.split("\n") if word in it)) if word in text else []


def pairs_of(repository, *folders):
    """For each crate below and crate above the modules of the lower crate's folders that are cited."""
    crates, pairs = set(repository.crates), {}
    for folder in folders:
        for crate in repository.crates:
            for path in repository.files_of_crates[crate]:
                named = cited_in(repository.text(path), folder) if path.endswith((".antt", ".rt")) else ()
                for other, module in named:
                    if other != crate and other in crates:
                        pairs.setdefault((other, crate), set()).add(module)
    return pairs


def are_about_threads(modules):
    """Whether these modules say only that a type may cross threads: the compiler writes such proofs into proofs/."""
    return all(map(ABOUT_THREADS.search, modules))


def listed(repository):
    """The pairs of the list, each with its line and whether a reason goes before it."""
    pairs, has_reason = {}, False
    for number, line in enumerate(repository.lines(LIST), 1):
        if line.startswith("#"):
            has_reason = True
        elif line:
            pairs[tuple(line.split())] = number, has_reason
        else:
            has_reason = False
    return pairs


def check(repository):
    """Pairs that aren't in the list, and those in it that nothing needs."""
    found, known = pairs_of(repository, "proofs", "specs/inner"), listed(repository)
    for pair in sorted(set(found) - set(known)):
        modules = ", ".join(sorted(found[pair]))
        yield Finding(LIST, 1, f"{pair[1]} names private parts of {pair[0]}, and the pair isn't listed: {modules}", " ".join(pair))
    for pair, (number, has_reason) in known.items():
        if pair not in found:
            yield Finding(LIST, number, f"this pair isn't needed any more: {' '.join(pair)}", " ".join(pair))
        elif not has_reason:
            yield Finding(LIST, number, f"this pair has no reason above it: {' '.join(pair)}", " ".join(pair))
