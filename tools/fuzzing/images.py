"""Tables and images (docs/RULES-LANGUAGE.md, "Tables" and "Images"): those that the program makes, and the faults of any bytes."""
import dataclasses
import itertools
import operator
import struct

from texts import APPEND, PERMISSIONS, WRITE

HEADER = struct.Struct("<4sHHIII")
FREE = 2**32 - 1
# A record as version 1 stores it, without the hits of append, and as version 2 does.
RECORDS = {1: struct.Struct("<10H"), 2: struct.Struct("<12H")}
OF_WRITE, OF_APPEND = (slice(2 * index, 2 * index + 2) for index in map(PERMISSIONS.index, (WRITE, APPEND)))
# How many states before a state its default may be, if the state has a depth.
REACH = 64


class ImageFault(Exception):
    def __init__(self, number, index=None):
        super().__init__(number, index)
        self.number, self.index = number, index


@dataclasses.dataclass
class Table:
    """In version 1 the bound is 0, and so is each depth, and append has the hits of write."""
    default: list
    base: list
    accept: list
    next: list
    check: list
    records: list
    bound: int
    depth: list

    def step(self, state, byte):
        """The next state, and the number of look-ups."""
        for look_ups in itertools.count(1):
            cell = self.base[state] + byte
            if self.check[cell] == state:
                return self.next[cell], look_ups
            if self.depth[state] == 0:
                return self.default[state], look_ups
            state = self.default[state]

    def run(self, name):
        """The states that a name leads through, from the start on, and the number of look-ups."""
        states, look_ups = [1], 0
        for byte in name:
            state, more = self.step(states[-1], byte)
            states.append(state)
            look_ups += more
        return states, look_ups

    def record_at(self, state):
        return self.records[self.accept[state]]

    def record(self, name):
        return self.record_at(self.run(name)[0][-1])


@dataclasses.dataclass
class Choice:
    """The default and the depth of a state, and its cells: a target for each of their bytes."""
    default: int
    depth: int
    cells: dict


def commonest(targets):
    """The target that the most bytes have, the least among equals, and how many bytes have another one."""
    counts = {}
    for alike, target in targets:
        counts[target] = counts.get(target, 0) + len(alike)
    target = min(counts, key=lambda target: (-counts[target], target))
    return target, sum(counts.values()) - counts[target]


class Choosing:
    """Chooses default and depth of each state, which has the fewest cells then."""

    def __init__(self, automaton, most):
        self.states, self.most = automaton.states, most
        self.weights = [len(alike) for alike, _ in self.states[0].targets]
        self.rows = [[target for _, target in state.targets] for state in self.states]
        self.choices = []
        for number in range(len(self.states)):
            self.choices.append(self.choose(number))

    def choose(self, state):
        """Equally few cells: the depth is 0, and if it isn't, the default is the least state."""
        default, least = commonest(self.states[state].targets)
        depth, inherited = 0, [default] * len(self.weights)
        for earlier in range(max(0, state - REACH), state) if self.most else ():
            if self.choices[earlier].depth < self.most:
                cost = sum(itertools.compress(self.weights, map(operator.ne, self.rows[state], self.rows[earlier])))
                if cost < least:
                    least, default, depth, inherited = cost, earlier, self.choices[earlier].depth + 1, self.rows[earlier]
        differing = (it for it, other in zip(self.states[state].targets, inherited) if it[1] != other)
        return Choice(default, depth, {byte: target for alike, target in differing for byte in alike})


def place_states(rows):
    """The base of each state, given its bytes with cells."""
    owned, bases, tried = set(), [], {}
    for row in rows:
        base = tried.get(row, 0)
        while any(base + byte in owned for byte in row):
            base += 1
        # Cells only get owners, so the next row of the same bytes doesn't fit before this base.
        tried[row] = base
        owned.update(base + byte for byte in row)
        bases.append(base if row else 0)
    return bases


def make_table(automaton, most=0):
    """The table of an automaton. No state has a depth over `most`."""
    choices = Choosing(automaton, most).choices
    bases = place_states([tuple(sorted(choice.cells)) for choice in choices])
    count = max(bases) + 256
    depths = [choice.depth for choice in choices]
    table = Table([choice.default for choice in choices], bases, [], [0] * count, [FREE] * count, [], max(depths), depths)
    for number, choice in enumerate(choices):
        for byte, target in choice.cells.items():
            table.next[bases[number] + byte] = target
            table.check[bases[number] + byte] = number
    table.records = list(dict.fromkeys(state.record for state in automaton.states))
    numbers = {record: number for number, record in enumerate(table.records)}
    table.accept = [numbers[state.record] for state in automaton.states]
    return table


def fits_version_1(table):
    return table.bound == 0 and all(record[OF_APPEND] == record[OF_WRITE] for record in table.records)


def write_image(table, version=1):
    """The image of a table in a version, which must fit it."""
    numbers = table.default + table.base + table.accept + (table.depth if version == 2 else []) + table.next + table.check
    stored = RECORDS[version]
    return (HEADER.pack(b"PTAB", version, table.bound if version == 2 else 0, len(table.default), len(table.next), len(table.records))
            + struct.pack("<%dI" % len(numbers), *numbers)
            + b"".join(stored.pack(*record[:stored.size // 2]) for record in table.records))


def words_of_a_state(version):
    return 4 if version == 2 else 3


def read_image(image):
    """The table of an image; raises its first fault."""
    if len(image) < HEADER.size:
        raise ImageFault(1)
    magic, version, bound, n, m, k = HEADER.unpack_from(image)
    for number, is_right in ((2, magic == b"PTAB"), (3, version in RECORDS), (4, version == 2 or bound == 0),
                             (5, 2 <= n <= 65536 and 256 <= m <= 16777216 and 1 <= k <= 65536)):
        if not is_right:
            raise ImageFault(number)
    words = words_of_a_state(version) * n + 2 * m
    if len(image) != HEADER.size + 4 * words + RECORDS[version].size * k:
        raise ImageFault(6)
    table = table_of(image, version, bound, n, m, words)
    for number, entries, limit in ((7, table.default, n), (8, table.base, m - 255), (9, table.accept, k), (10, table.next, n)):
        index = next((index for index, entry in enumerate(entries) if entry >= limit), None)
        if index is not None:
            raise ImageFault(number, index)
    for state, depth in enumerate(table.depth):
        if depth > bound or depth > 0 and table.depth[table.default[state]] >= depth:
            raise ImageFault(12, state)
    return table


def table_of(image, version, bound, n, m, words):
    """The table of an image whose header has no fault, and whose length is right."""
    numbers = iter(struct.unpack_from("<%dI" % words, image, HEADER.size))
    taken = lambda count: list(itertools.islice(numbers, count))
    default, base, accept = taken(n), taken(n), taken(n)
    depth = taken(n) if version == 2 else [0] * n
    following, check = taken(m), taken(m)
    records = list(RECORDS[version].iter_unpack(image[HEADER.size + 4 * words:]))
    if version == 1:
        records = [record + record[OF_WRITE] for record in records]
    return Table(default, base, accept, following, check, records, bound, depth)
