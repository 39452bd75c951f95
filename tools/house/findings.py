"""What a check finds, and the list of what is allowed nevertheless, each with its reason."""
import collections
import fnmatch

ALLOWED = "tools/house/allowed"


class Finding(collections.namedtuple("Finding", "file line what key", defaults=("",))):
    """A fault: where it is, and what it is. The key is what an entry of the list of allowed things names."""

    def __str__(self):
        return f"{self.file}:{self.line}: {self.what}"


Entry = collections.namedtuple("Entry", "line check files key reason")


def read_allowed(repository):
    """The entries of the list: lines `CHECK | FILES | KEY | REASON`."""
    entries = []
    for number, line in enumerate(repository.lines(ALLOWED), 1):
        if line and not line.startswith("#"):
            parts = [it.strip() for it in line.split(" | ", 3)]
            entries.append(Entry(number, *parts) if len(parts) == 4 else Entry(number, "", "", line, ""))
    return entries


def allows(entry, check, finding):
    return entry.check == check and entry.key == finding.key and fnmatch.fnmatch(finding.file, entry.files)


def without_allowed(repository, found):
    """The findings of checks, by their names, without those that are allowed; and the entries that allow nothing."""
    entries, used, left = read_allowed(repository), set(), []
    for check, findings in found.items():
        for finding in findings:
            allowing = [it for it in entries if allows(it, check, finding)]
            used.update(allowing)
            left += [] if allowing else [finding]
    for entry in entries:
        if not entry.check:
            left.append(Finding(ALLOWED, entry.line, "a line isn't `CHECK | FILES | KEY | REASON`"))
        elif entry.check in found and entry not in used:
            left.append(Finding(ALLOWED, entry.line, f"nothing needs this entry any more: {entry.key}"))
    return left
