"""Paths, and the tree with its walks, names and changes (docs/RULES-TREE.md, "Paths" and "The tree")."""
import dataclasses
import enum
import errno

LONGEST_PATH = 4095
LONGEST_COMPONENT = 255
LONGEST_TEXT = 1023
MOST_LINKS = 40
ROOT = 1


class Refused(Exception):
    """An error number."""

    def __str__(self):
        return "%s %d" % (errno.errorcode[self.args[0]], self.args[0])


class Kind(enum.IntEnum):
    DIRECTORY = 1
    FILE = 2
    LINK = 3


@dataclasses.dataclass(frozen=True)
class Node:
    kind: Kind
    text: bytes = b""


@dataclasses.dataclass(frozen=True)
class Place:
    """Where an entry is, or would be."""
    directory: int
    component: bytes


@dataclasses.dataclass(frozen=True)
class Change:
    kind: bytes
    paths: tuple
    text: bytes = b""


@dataclasses.dataclass(frozen=True)
class Edit:
    """What an accepted change does to the entries: those that go, and one that comes, or moves from `source`."""
    gone: tuple = ()
    source: Place = None
    added: Place = None
    node: int = 0


def test_path(path):
    if not path:
        raise Refused(errno.ENOENT)
    if not path.startswith(b"/") or b"\0" in path:
        raise Refused(errno.EINVAL)
    if len(path) > LONGEST_PATH or has_long_component(path):
        raise Refused(errno.ENAMETOOLONG)


def test_text(text):
    if not text:
        raise Refused(errno.ENOENT)
    if b"\0" in text:
        raise Refused(errno.EINVAL)
    if len(text) > LONGEST_TEXT or has_long_component(text):
        raise Refused(errno.ENAMETOOLONG)


def has_long_component(path):
    return any(len(component) > LONGEST_COMPONENT for component in path.split(b"/"))


def components_of(path):
    return [component for component in path.split(b"/") if component] + ([b"."] if path.endswith(b"/") else [])


def test_last(kind, path):
    stripped = path.rstrip(b"/")
    if not stripped:
        raise Refused(errno.EBUSY)
    if stripped != path and kind not in (b"mkdir", b"rmdir"):
        raise Refused(errno.EINVAL)
    if components_of(stripped)[-1] in (b".", b".."):
        raise Refused(errno.EINVAL)


class Tree:
    """A tree isn't changed: `apply` gives the next one."""

    def __init__(self, capacity):
        self.capacity, self.version, self.next_node = capacity, 0, ROOT + 1
        self.nodes = {ROOT: Node(Kind.DIRECTORY)}
        self.entries = {}
        self.edit = Edit()

    def kind(self, node):
        return self.nodes[node].kind

    def place_of(self, directory):
        """The one entry of a directory that isn't the root."""
        return next(place for place, node in self.entries.items() if node == directory)

    def walk(self, components):
        """Follows all links. The node that the walk reaches, and its place; None for the root."""
        rest, node, place, links = components[::-1], ROOT, None, 0
        while rest:
            component = rest.pop()
            if self.kind(node) != Kind.DIRECTORY:
                raise Refused(errno.ENOTDIR)
            if component in (b".", b".."):
                node = self.parent(node) if component == b".." else node
                continue
            child = self.entries.get(Place(node, component))
            if child is None:
                raise Refused(errno.ENOENT)
            if self.kind(child) != Kind.LINK:
                place, node = Place(node, component), child
                continue
            links += 1
            if links > MOST_LINKS:
                raise Refused(errno.ELOOP)
            text = self.nodes[child].text
            rest += components_of(text)[::-1]
            node = ROOT if text.startswith(b"/") else node
        if self.kind(node) == Kind.DIRECTORY:
            place = None if node == ROOT else self.place_of(node)
        return node, place

    def parent(self, directory):
        return ROOT if directory == ROOT else self.place_of(directory).directory

    def name(self, place, is_directory):
        """The name of the entry at a place, which may be a new one; None is the root's."""
        parts = [b"/"] if is_directory else []
        while place is not None:
            parts.append(b"/" + place.component)
            place = None if place.directory == ROOT else self.place_of(place.directory)
        name = b"".join(parts[::-1])
        if len(name) > LONGEST_PATH:
            raise Refused(errno.ENAMETOOLONG)
        return name

    def spot(self, path):
        """The place that the last component of a change's path names."""
        *above, last = components_of(path.rstrip(b"/"))
        directory, _ = self.walk(above)
        if self.kind(directory) != Kind.DIRECTORY:
            raise Refused(errno.ENOTDIR)
        return Place(directory, last)

    def planned(self, change):
        """The edit that a change is, or its error."""
        for path in change.paths:
            test_path(path)
        if change.kind == b"symlink":
            test_text(change.text)
        for path in change.paths:
            test_last(change.kind, path)
        places = [self.spot(path) for path in change.paths]
        return PLANS[change.kind](self, *places)

    def apply(self, change):
        edit = self.planned(change)
        after = Tree(self.capacity)
        after.version, after.next_node = self.version + 1, self.next_node
        after.nodes, after.entries, after.edit = dict(self.nodes), dict(self.entries), edit
        for place in edit.gone + ((edit.source,) if edit.source else ()):
            del after.entries[place]
        if edit.added:
            after.entries[edit.added] = edit.node
        if edit.node == self.next_node:
            after.next_node += 1
            after.nodes[edit.node] = Node(NEW_KINDS[change.kind], change.text)
        return after

    def make(self, place):
        if place in self.entries:
            raise Refused(errno.EEXIST)
        if len(self.entries) >= self.capacity:
            raise Refused(errno.ENOSPC)
        return Edit(added=place, node=self.next_node)

    def link(self, old, new):
        node = self.existing(old)
        if self.kind(node) != Kind.FILE:
            raise Refused(errno.EPERM)
        return dataclasses.replace(self.make(new), node=node)

    def unlink(self, place):
        if self.kind(self.existing(place)) == Kind.DIRECTORY:
            raise Refused(errno.EISDIR)
        return Edit(gone=(place,))

    def rmdir(self, place):
        node = self.existing(place)
        if self.kind(node) != Kind.DIRECTORY:
            raise Refused(errno.ENOTDIR)
        self.test_empty(node)
        return Edit(gone=(place,))

    def rename(self, old, new):
        node, replaced = self.existing(old), self.entries.get(new)
        if replaced == node:
            return Edit()
        is_directory = self.kind(node) == Kind.DIRECTORY
        if is_directory and self.is_below(new.directory, node):
            raise Refused(errno.EINVAL)
        if replaced is None:
            return Edit(source=old, added=new, node=node)
        if is_directory != (self.kind(replaced) == Kind.DIRECTORY):
            raise Refused(errno.ENOTDIR if is_directory else errno.EISDIR)
        if is_directory:
            self.test_empty(replaced)
        return Edit(gone=(new,), source=old, added=new, node=node)

    def existing(self, place):
        if place not in self.entries:
            raise Refused(errno.ENOENT)
        return self.entries[place]

    def test_empty(self, directory):
        if any(place.directory == directory for place in self.entries):
            raise Refused(errno.ENOTEMPTY)

    def is_below(self, directory, above):
        """Whether a directory is another one or lies below it."""
        while directory not in (above, ROOT):
            directory = self.parent(directory)
        return directory == above


NEW_KINDS = {b"mkdir": Kind.DIRECTORY, b"create": Kind.FILE, b"symlink": Kind.LINK}
PLANS = {b"mkdir": Tree.make, b"create": Tree.make, b"symlink": Tree.make, b"link": Tree.link, b"unlink": Tree.unlink,
         b"rmdir": Tree.rmdir, b"rename": Tree.rename}
