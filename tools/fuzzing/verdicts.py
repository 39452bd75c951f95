"""Verdicts: what a path matches, the least hits of a name, and the automaton of a profile (docs/RULES-LANGUAGE.md, "What a path
matches" and
"The verdict"). A set of bytes is a number of 256 bits."""
import dataclasses
import functools

from texts import PERMISSIONS, Byte, Class, Group, One, Run

MOST_STATES = 16384
SLASH = 1 << ord("/")
# Nothing matches byte 0.
ALL = (1 << 256) - 2
NO_HITS = (0,) * (2 * len(PERMISSIONS))


class TooManyStates(Exception):
    pass


@dataclasses.dataclass
class Place:
    """An item that takes these bytes, and the places that are first after that; or a rule's end, which takes none."""
    rule: int
    takes: int
    after: frozenset = frozenset()
    is_end: bool = False


class Places:
    """The places of a profile's rules."""

    def __init__(self, profile):
        self.rules = profile.rules
        self.places = []
        self.start = frozenset().union(*(self.of_rule(number, rule) for number, rule in enumerate(profile.rules, 1)))

    def add(self, rule, takes, after, is_end=False):
        self.places.append(Place(rule, takes, after, is_end))
        return len(self.places) - 1

    def of_rule(self, number, rule):
        end = self.add(number, 0, frozenset(), is_end=True)
        return self.first(number, rule.path, frozenset((end,)), at_end=True)

    def first(self, rule, items, after, at_end):
        """The places that are first where these items are next, and then what has `after` as its first places."""
        for index in reversed(range(len(items))):
            item = items[index]
            if isinstance(item, Group):
                after = frozenset().union(*(self.first(rule, one, after, False) for one in item.alternatives))
            elif isinstance(item, Run):
                is_last = index + 1 == len(items)
                is_strict = index > 0 and is_slash(items[index - 1]) and (at_end if is_last else is_slash(items[index + 1]))
                after = self.first_of_run(rule, ALL if item.takes_slashes else ALL & ~SLASH, after, is_strict)
            else:
                after = frozenset((self.add(rule, taken_by(item), after),))
        return after

    def first_of_run(self, rule, takes, after, is_strict):
        run = self.add(rule, takes, after)
        after = after | {run}
        self.places[run].after = after
        return frozenset((self.add(rule, takes & ~SLASH, after),)) if is_strict else after

    def step(self, live, byte):
        after = [self.places[place].after for place in live if self.places[place].takes >> byte & 1]
        return frozenset().union(*after)

    def record(self, live):
        """For each permission the least number of an allow rule and of a deny rule among these places, 0 where there is none."""
        ended = {self.places[place].rule for place in live if self.places[place].is_end}
        least = list(NO_HITS)
        for number in sorted(ended, reverse=True):
            rule = self.rules[number - 1]
            for index in range(len(PERMISSIONS)):
                if rule.holds(PERMISSIONS[index]):
                    least[2 * index + rule.is_deny] = number
        return tuple(least)

    def hits(self, name):
        return self.record(functools.reduce(self.step, name, self.start))


def is_slash(item):
    return item == Byte(ord("/"))


def taken_by(item):
    """The bytes that an item takes as one."""
    if isinstance(item, Byte):
        return 1 << item.value
    if isinstance(item, One):
        return ALL & ~SLASH
    assert isinstance(item, Class)
    taken = 0
    for low, high in item.ranges:
        taken |= (1 << high + 1) - (1 << low)
    return ALL & (~taken if item.is_negated else taken)


@dataclasses.dataclass
class State:
    """Its record, and its targets as pairs of a list of bytes and a state."""
    record: tuple
    targets: list


class Automaton:
    """The different sets of live places, and what a byte makes of each. State 0 is the empty set, state 1 the start."""

    def __init__(self, profile):
        self.places = Places(profile)
        self.classes = self.classes_of_bytes()
        numbers, waiting = {frozenset(): 0}, [frozenset()]
        self.states = []
        if profile.rules:
            numbers[self.places.start] = 1
            waiting.append(self.places.start)
        for live in waiting:
            if len(waiting) > MOST_STATES:
                raise TooManyStates()
            self.states.append(self.state(live, numbers, waiting))
        if not profile.rules:
            self.states.append(self.states[0])

    def classes_of_bytes(self):
        """Lists of bytes that each place takes all or none of, by their least bytes."""
        takes = sorted({place.takes for place in self.places.places})
        classes = {}
        for byte in range(256):
            classes.setdefault(tuple(one >> byte & 1 for one in takes), []).append(byte)
        return list(classes.values())

    def state(self, live, numbers, waiting):
        targets = []
        for alike in self.classes:
            after = self.places.step(live, alike[0])
            if after not in numbers:
                numbers[after] = len(waiting)
                waiting.append(after)
            targets.append((alike, numbers[after]))
        return State(self.places.record(live), targets)


def least_deny(record, asked):
    denied = [record[2 * index + 1] for index, letter in enumerate(PERMISSIONS) if letter in asked and record[2 * index + 1]]
    return min(denied, default=0)


def verdict(record, asked):
    """The verdict as it is printed."""
    if least_deny(record, asked):
        return b"denied by rule %d" % least_deny(record, asked)
    missing = bytes(letter for index, letter in enumerate(PERMISSIONS) if letter in asked and not record[2 * index])
    return b"no rule for " + missing if missing else b"allowed"


def allowed(record):
    """The permissions whose verdict is allowed."""
    return bytes(letter for letter in PERMISSIONS if verdict(record, bytes((letter,))) == b"allowed")


def link_verdict(old, new):
    """The verdict on a link, by the records of both names."""
    for_link = verdict(new, b"l")
    if for_link != b"allowed":
        return for_link
    wider = bytes(letter for letter in b"rwkma" if letter in allowed(new) and letter not in allowed(old))
    return b"wider by " + wider if wider else b"fine"
