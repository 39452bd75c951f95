"""The names that code, definitions and proofs declare: of each crate, of each type its members, and all words of sources."""
import functools
import re

from house.edits import FOLDERS

ITEM = re.compile(r"^\s*(?:pub(?:\([^)]*\))? )?(?:ghost )?(?:(?:const|unsafe|extern \"C\") )*"
                  r"(?:(fn|mod)|(struct|enum|trait)|type|const|static) (\w+)")
IMPL = re.compile(r"^impl(?:<[^>]*>)? (?:!?([\w:]+)(?:<.*>)? for )?&?(?:mut )?(\w+)")
VARIANT = re.compile(r"^    ([A-Z]\w*)(?: \{|[,({ ]|$)")
FIELD = re.compile(r"^    (?:pub(?:\([^)]*\))? )?(\w+):")
USE = re.compile(r"(?s)\bpub(?:\([^)]*\))? use ([^;]+);")
DECLARED = re.compile(r"^\s*(?:(?:abbrev|pub|unfoldable|unfolding|record|data|private) )*([^\s:(){},.]+)(?: [^:]*)?:", re.M)
# Where words of sources are, apart from crates, and where names are that there needn't be.
SOURCES = ("bench/", "completions/", "examples/", "include/", "man/", "tools/", "Makefile", "crates.txt", "HANDLES", "coqetwal.pc.in")
NO_SOURCES = ("tools/house/allowed", "tools/house-check-test", "tools/fuzz-corpus/")


class Names:
    """What the files of one crate declare: all names, and of each type its members."""

    def __init__(self):
        self.all, self.members, self.traits, self.modules = set(), {}, [], {}

    def read_code(self, path, text):
        """Adds what a file of code declares."""
        stem = path.rpartition("/")[2][: -len(".rt")]
        here = self.modules.setdefault(stem, set())
        owner = None
        for line in text.split("\n"):
            item = ITEM.match(line)
            if item:
                self.all.add(item[3])
                here.add(item[3])
            if line[:1] not in ("", " ", "/", "#"):
                owner = self.owner_of(line, item)
            elif owner and line.startswith("    "):
                self.add_member(owner, line, item)
        for used in USE.findall(text):
            words = re.findall(r"\w+", used)
            self.all.update(words)
            here.update(words)
        self.all.add(stem)

    def owner_of(self, line, item):
        """The type or trait whose block begins with this line."""
        block = IMPL.match(line)
        if block:
            if block[1]:
                self.traits.append((block[2], block[1].rpartition("::")[2]))
            return block[2]
        return item[3] if item and item[2] and line.rstrip().endswith("{") else None

    def add_member(self, owner, line, item):
        """Adds a function, a variant or a field that a line in the block of a type declares."""
        found = item or VARIANT.match(line) or FIELD.match(line)
        if found:
            name = found[found.lastindex]
            self.members.setdefault(owner, set()).add(name)
            self.all.add(name)

    def read_definitions(self, path, text):
        """Adds what a file of definitions or proofs declares."""
        stem = path.rpartition("/")[2][: -len(".antt")]
        found = set(DECLARED.findall(text))
        self.modules.setdefault(stem, set()).update(found)
        self.all |= found
        self.all.add(stem)


def index_of(repository):
    """The index of a repository, which is made once."""
    if "index" not in repository.kept:
        repository.kept["index"] = Index(repository)
    return repository.kept["index"]


class Index:
    """The names of all crates."""

    def __init__(self, repository):
        self.repository = repository
        self.kit = {it for libraries in repository.libraries.values() for it in libraries} - set(repository.crates)
        self.kit |= {"std", "core", "alloc", "mathlib"}

    @functools.lru_cache(maxsize=None)
    def of(self, crate):
        names = Names()
        for path in self.repository.sources(crate):
            names.read_code(path, self.repository.text(path))
        for folder in ("specs", "proofs"):
            for path in self.repository.files_in(crate, folder, ".antt"):
                names.read_definitions(path, self.repository.text(path))
        return names

    @functools.cached_property
    def members(self):
        """Of each type of any crate its members, with those of the traits that it has."""
        every = {}
        for crate in self.repository.crates:
            for owner, members in self.of(crate).members.items():
                every.setdefault(owner, set()).update(members)
        for crate in self.repository.crates:
            for owner, trait in self.of(crate).traits:
                every.setdefault(owner, set()).update(every.get(trait, ()))
        return every

    @functools.cached_property
    def modules(self):
        """Of each module of any crate what it declares."""
        every = {}
        for crate in self.repository.crates:
            for module, names in self.of(crate).modules.items():
                every.setdefault(module, set()).update(names)
        return every

    @functools.cached_property
    def words(self):
        """All words of sources."""
        repository = self.repository
        paths = [it for it in repository.files if it.startswith(SOURCES) and not it.startswith(NO_SOURCES) and not it.endswith(".md")]
        paths += [it for it in repository.files if it.startswith("crates/") and it.endswith((".rt", ".antt", "/stdin", "/stdout"))]
        found = set(repository.crates) | self.kit
        found.update(name for crate in repository.crates for folder in FOLDERS for name in repository.edits(crate, folder))
        for path in paths:
            found.update(re.split(r"\W+", repository.text(path)))
            found.update(re.split(r"\W+", path))
        return found

    def fault_of(self, path):
        """Why a path such as `crate::module::name` or `Type::member` names nothing, or None."""
        first, *rest = path.split("::")
        owner, last = path.split("::")[-2:]
        if first in ("crate", "self", "super") or first in self.kit:
            return None
        if first in self.repository.libraries:
            missing = [it for it in rest if it not in self.of(first).all]
            if missing == [last] and last in self.members.get(owner, ()):
                return None
            return f"{first} has no {missing[0]}" if missing else None
        if owner in self.members:
            return None if last in self.members[owner] else f"{owner} has no {last}"
        if first in self.modules:
            return None if last in self.modules.get(owner, ()) or last in self.modules[first] else f"{owner} has no {last}"
        # A type of the toolchain's libraries, or one that only stands for another.
        return None if first[:1].isupper() and first in self.words else f"there is no {first}"
