"""Scripts of events (docs/RULES-TREE.md, "Scripts of events"), and how many words of a row a change sets ("The tree as a row of
words")."""
import dataclasses
import enum

from scripts import Script, opened, read_change
from texts import is_permissions
from tree import ROOT, Kind, Refused, Tree, components_of, test_path

NOT_NOW = b"not now"
SLOT_CELLS = 164
FIRST_OF_COMPONENT, FIRST_OF_TEXT = 4, 36
MOST_NUMBER = 2**64 - 1


class Undetermined(Exception):
    """The rules don't say how many words a walk reads, so they don't say what this line prints."""


class Row:
    """The cells of a row and the words of its index, as a keeper sets them."""

    def __init__(self, capacity):
        # The root's: a directory, and its node.
        self.cells = {0: int(Kind.DIRECTORY), 1: ROOT}
        self.index = [0] * (1 << (2 * capacity - 1).bit_length())
        self.slots = {}
        self.directories = {ROOT: 0}
        self.used = {0}

    def home(self, place):
        value = self.directories[place.directory]
        for byte in place.component:
            value = (value * 31 + byte) % 2**32
        return value % len(self.index)

    def apply(self, edit, nodes):
        """Makes an accepted change, and returns how many words it sets."""
        cells, index = dict(self.cells), list(self.index)
        moved = None
        for place in edit.gone:
            self.leave(place)
        if edit.source:
            self.unlist(edit.source)
            moved = self.slots.pop(edit.source)
        if edit.added:
            self.enter(edit.added, edit.node, nodes[edit.node], moved)
        set_cells = sum(cells.get(cell, 0) != word for cell, word in self.cells.items())
        return set_cells + sum(before != after for before, after in zip(index, self.index))

    def leave(self, place):
        self.unlist(place)
        slot = self.slots.pop(place)
        self.cells[SLOT_CELLS * slot] = 0
        self.used.remove(slot)

    def unlist(self, place):
        """Vacates the word of an entry, and moves later ones there whose way from home passes it."""
        size, vacated = len(self.index), self.index.index(self.slots[place] + 1)
        at = (vacated + 1) % size
        places = {slot: one for one, slot in self.slots.items()}
        while self.index[at] != 0:
            home = self.home(places[self.index[at] - 1])
            if (at - home) % size >= (at - vacated) % size:
                self.index[vacated], vacated = self.index[at], at
            at = (at + 1) % size
        self.index[vacated] = 0

    def enter(self, place, number, node, slot):
        if slot is None:
            slot = next(slot for slot in range(1, len(self.used) + 1) if slot not in self.used)
            self.used.add(slot)
        self.slots[place] = slot
        if node.kind == Kind.DIRECTORY:
            self.directories[number] = slot
        at = self.home(place)
        while self.index[at] != 0:
            at = (at + 1) % len(self.index)
        self.index[at] = slot + 1
        words = [int(node.kind), number, self.directories[place.directory], len(place.component) + 65536 * len(node.text)]
        for offset, word in enumerate(words):
            self.cells[SLOT_CELLS * slot + offset] = word
        self.write(SLOT_CELLS * slot + FIRST_OF_COMPONENT, place.component)
        self.write(SLOT_CELLS * slot + FIRST_OF_TEXT, node.text)

    def write(self, cell, text):
        for offset in range(0, len(text), 8):
            self.cells[cell + offset // 8] = int.from_bytes(text[offset:offset + 8], "little")


class Stage(enum.IntEnum):
    BEGUN = 0
    POLICY_READ = 1
    COUNTED = 2
    CHECKED = 3


class Walk(enum.IntEnum):
    """How far a walk is. Once it has read a word, only the row's size bounds how many it needs."""
    UNREAD = 0
    BETWEEN = 1
    DONE = 2


@dataclasses.dataclass
class Session:
    profile: bytes
    path: bytes
    asked: bytes
    stage: Stage = Stage.BEGUN
    places: object = None
    policy: int = 0
    tree: Tree = None
    began: int = 0
    ended: int = 0
    walk: Walk = Walk.UNREAD

    def is_decided_by_itself(self):
        """Whether the walk needs no word: what is asked or the path is at fault, or the path doesn't leave the root."""
        try:
            test_path(self.path)
        except Refused:
            return True
        return b"l" in self.asked or all(component in (b".", b"..") for component in components_of(self.path))


@dataclasses.dataclass
class OpenChange:
    after: Tree
    cells: int
    set: int = 0


class Events(Script):
    """Answers the commands of `steps`: None if a line isn't one, empty bytes if it prints nothing."""

    def __init__(self, capacity):
        super().__init__(capacity)
        self.row, self.sessions, self.opened = Row(capacity), {}, None
        self.words = SLOT_CELLS * (capacity + 1) + len(self.row.index)

    def count(self):
        return 2 * self.tree.version + (self.opened is not None)

    def answer(self, line):
        if line.words is None or line.words[0] == b"judged-link":
            return None
        command, *words = line.words
        if command in (b"set", b"close"):
            return self.keeper(command, words)
        if command == b"keep":
            change = read_change(words) if words else None
            return self.keep(change) if change else None
        if command not in SESSION_COMMANDS:
            return super().answer(line)
        parameters, act = SESSION_COMMANDS[command]
        if len(words) != parameters or words[0] not in SESSIONS:
            return None
        return act(self, *words)

    def keeper(self, command, words):
        if command == b"close":
            return self.close() if not words else None
        number = read_number(*words) if len(words) == 1 else None
        return None if number is None else self.set(number)

    def change(self, change):
        said = self.keep(change)
        return said or self.close()

    def keep(self, change):
        if self.opened:
            return NOT_NOW
        try:
            after = self.tree.apply(change)
        except Refused as refused:
            return str(refused).encode()
        self.opened = OpenChange(after, self.row.apply(after.edit, after.nodes))
        return b""

    def set(self, number):
        left = self.opened.cells - self.opened.set if self.opened else 0
        if number > 0 and left == 0:
            return NOT_NOW
        if self.opened:
            self.opened.set += min(number, left)
        return b""

    def close(self):
        if not self.opened:
            return NOT_NOW
        self.tree, self.opened = self.opened.after, None
        return b"ok %d" % self.tree.version

    def open(self, profile, path, asked):
        return self.finish(Session(profile, path, asked))

    def begin(self, number, profile, path, asked):
        if not is_permissions(asked):
            return None
        if number in self.sessions:
            return NOT_NOW
        self.sessions[number] = Session(profile, path, asked)
        return b""

    def step(self, number, before, act):
        session = self.sessions.get(number)
        if session is None or session.stage != before or not act(session):
            return NOT_NOW
        session.stage = Stage(before + 1)
        return b""

    def read_policy(self, session):
        session.places, session.policy = self.policy.profiles.get(session.profile), self.policy.version
        return True

    def read_count(self, session):
        session.began, session.tree = self.count(), self.tree
        if session.began % 2 == 1 or session.is_decided_by_itself():
            session.walk = Walk.DONE
        return session.places is not None

    def read_count_again(self, session):
        if session.walk == Walk.BETWEEN:
            raise Undetermined()
        session.ended = self.count()
        return session.walk == Walk.DONE

    def cell(self, number, word):
        cells, session = read_number(word), self.sessions.get(number)
        if cells is None or cells == 0:
            return None if cells is None else b""
        if session is None or session.stage != Stage.COUNTED or session.walk == Walk.DONE:
            return NOT_NOW
        if session.walk == Walk.BETWEEN:
            raise Undetermined()
        session.walk = Walk.DONE if cells >= self.words else Walk.BETWEEN
        return b""

    def go(self, number):
        if number not in self.sessions:
            return NOT_NOW
        return number + b": " + self.finish(self.sessions.pop(number))

    def finish(self, session):
        """Does the rest of a call."""
        if session.stage < Stage.POLICY_READ:
            self.read_policy(session)
        if session.stage < Stage.COUNTED:
            self.read_count(session)
        if session.stage < Stage.CHECKED:
            session.ended = self.count()
        if session.places is not None and (session.began % 2 == 1 or session.began != session.ended):
            return b"busy %d %d" % (session.began, session.ended)
        return opened(session.tree, session.places, session.policy, session.path, session.asked)


def read_number(word):
    is_number = word.isdigit() and int(word) <= MOST_NUMBER
    return int(word) if is_number else None


SESSIONS = frozenset(b"%d" % number for number in range(1, 10))
SESSION_COMMANDS = {
    b"begin": (4, Events.begin),
    b"policy-read": (1, lambda events, number: events.step(number, Stage.BEGUN, events.read_policy)),
    b"count": (1, lambda events, number: events.step(number, Stage.POLICY_READ, events.read_count)),
    b"cell": (2, Events.cell),
    b"check": (1, lambda events, number: events.step(number, Stage.COUNTED, events.read_count_again)),
    b"go": (1, Events.go),
}
