"""The files of the repository, each read once, and the crates."""
import functools
import os

TOP = os.path.dirname(os.path.dirname(os.path.dirname(os.path.abspath(__file__))))


class Repository:
    """A folder with the repository's files. What git ignores isn't among them."""

    def __init__(self, top=TOP):
        self.top = top
        self.texts = {}
        # What is kept of sources by those who read them all.
        self.kept = {}

    def changed(self, paths):
        """The same repository after these files were written or removed; what was read and kept of others isn't read again."""
        other = Repository(self.top)
        other.texts = {path: text for path, text in self.texts.items() if path not in paths}
        there = {it for it in paths if os.path.isfile(f"{self.top}/{it}")}
        other.files = sorted({*self.files, *there} - (set(paths) - there))
        other.kept = self.kept if all(it.endswith(".md") for it in paths) else {}
        return other

    @functools.cached_property
    def ignored(self):
        """The names of folders that are ignored everywhere, and the names that are ignored at the top."""
        path = f"{self.top}/.gitignore"
        lines = open_text(path).split("\n") if os.path.isfile(path) else []
        everywhere = {".git", "wip", *(it.rstrip("/") for it in lines if it and not it.startswith("/"))}
        return everywhere, {it.strip("/") for it in lines if it.startswith("/")}

    @functools.cached_property
    def files(self):
        """The paths of all files, from the top, in order."""
        everywhere, at_top = self.ignored
        found = []
        for folder, folders, names in os.walk(self.top):
            inside = os.path.relpath(folder, self.top)
            is_top = inside == "."
            folders[:] = [it for it in folders if it not in everywhere and not (is_top and it in at_top)]
            found += [it if is_top else f"{inside}/{it}" for it in names if not (is_top and it in at_top)]
        return sorted(found)

    @functools.cached_property
    def paths(self):
        """The paths of all files and folders."""
        found = set(self.files)
        for path in self.files:
            while "/" in path:
                path = path.rpartition("/")[0]
                if path in found:
                    break
                found.add(path)
        return found

    def text(self, path):
        """The text of a file, or nothing if there is none."""
        if path not in self.texts:
            file = f"{self.top}/{path}"
            self.texts[path] = open_text(file) if os.path.isfile(file) else ""
        return self.texts[path]

    def lines(self, path):
        return self.text(path).split("\n")

    @functools.cached_property
    def libraries(self):
        """For each crate the libraries that crates.txt lists, lowest crate first."""
        lines = [line.partition("#")[0].partition(":") for line in self.lines("crates.txt")]
        return {head.split()[0]: tail.split() for head, colon, tail in lines if colon}

    def place_of(self, crate):
        """The number of the crate's line in crates.txt."""
        lines = self.lines("crates.txt")
        return next((n for n, it in enumerate(lines, 1) if it.replace(":", " ").split()[:1] == [crate]), 1)

    @functools.cached_property
    def crates(self):
        """The crates, in the order of crates.txt, and then those that have a folder only."""
        folders = {it.split("/")[1] for it in self.files if it.startswith("crates/") and it.count("/") > 1}
        return [*self.libraries, *sorted(folders - set(self.libraries))]

    @functools.cached_property
    def files_of_crates(self):
        """For each crate the paths of its files."""
        found = {crate: [] for crate in self.crates}
        for path in self.files:
            parts = path.split("/", 2)
            if parts[0] == "crates" and len(parts) > 2:
                found[parts[1]].append(path)
        return found

    def files_in(self, crate, folder, suffix):
        """The files of a crate's folder, and of those in it, with this ending."""
        begin = f"crates/{crate}/{folder}/"
        return [it for it in self.files_of_crates[crate] if it.startswith(begin) and it.endswith(suffix)]

    def sources(self, crate):
        return self.files_in(crate, "src", ".rt")

    def root_file(self, crate):
        """The file that a crate's code begins with."""
        return next((it for it in self.sources(crate) if it.split("/")[2:] in (["src", "lib.rt"], ["src", "main.rt"])), None)

    def edits(self, crate, folder):
        """The names of the edits in a folder of a crate."""
        return [it.rpartition("/")[2][: -len(".edit")] for it in self.files_in(crate, folder, ".edit")]

    @functools.cached_property
    def documents(self):
        """The documents in Markdown."""
        return [it for it in self.files if it.endswith(".md")]


def open_text(file):
    """The text of a file; what isn't UTF-8 in it is replaced."""
    with open(file, encoding="utf-8", errors="replace", newline="") as it:
        return it.read()
