"""Draws scripts of `run`, `test` and `steps`. The second implementation answers each line as it is drawn, so that many lines meet
entries that exist, and no line is drawn whose answer the rules leave open."""
from drawing import chance, draw_letters, draw_name, draw_text, mutate
from drawing_odd_lines import odd_line
from drawing_words import draw_flags, mixed
from events import Events, Undetermined
from scripts import Line, Script, TestScript, plain_words, quoted_words
from tree import ROOT

COMPONENTS = [b"a", b"b", b"c", b"d", b"...", b".ssh", b"\xff\x80", b"a,b", b"#", b"{"]
LONG = [b"n" * 255, b"n" * 256, b"m" * 254]
TOKENS = [b" ", b"\t", b"\"", b"/", b"//", b"/.", b"/..", b"#", b"\n", b"\0", b"x", b"l", b"rw", b".\n", b"policy\n", b"\r", b"0",
          b"99999999999999999999", b"expect ", b"keep ", b"close\n", b"open ", b"/a", b"18446744073709551615", b"18446744073709551616",
          b"10", b"\\", b"\\n", b"\\x41", b" ...", b"judge ", b"explain "]

# The option for notes, as both of its words.
NOTES = {"--verbose", "-v"}


class Drawing:
    """One script: the lines drawn, and the script that answers them."""

    def __init__(self, draw, script, split):
        self.draw, self.script, self.split = draw, script, split
        self.lines, self.last = [], b"nothing"

    def add(self, text, body=None):
        """Adds a line whose answer is determined, and which doesn't stop the script."""
        words = self.split(text)
        if not words or words == [b"policy"] and body is None:
            return
        try:
            said = self.script.answer(Line(0, text, words, body))
        except Undetermined:
            return
        if said is None:
            return
        self.last = said or self.last
        self.lines += [text] + ([] if body is None else [body + b"."])

    def policy(self):
        text = draw_text(self.draw, 4).replace(b"\n.\n", b"\n")
        if chance(self.draw, 0.5):
            rules = self.draw.choice([b"/** rwkm", b"/a/** rwlkm, /b/** r", b"/** rl, deny /b/** w", b"/{a,b}/* rwl, /** rl, /** rw",
                                      b"/** rlk, /a/** m, deny /b/** k", b"/{a,c}** lm, /** l, /b** rlk", b"/** rl, /a** w, /b** a",
                                      b"/** rwl, deny /a** a", b"/** la, /{a,c}** w, deny /b** w"])
            text = b"profile %s { %s, }" % (self.draw.choice([b"p", b"q"]), rules)
        text = mutate(self.draw, text) if chance(self.draw, 0.1) else text
        lines = [line for line in text.split(b"\n") if line != b"."]
        self.add(b"policy", b"".join(line + b"\n" for line in lines))

    def path(self):
        """A path to an entry, or to one below it, with dots and slashes here and there."""
        draw, tree = self.draw, self.script.tree
        components, place = [], draw.choice([None, *tree.entries])
        while place is not None:
            components.insert(0, place.component)
            place = None if place.directory == ROOT else tree.place_of(place.directory)
        if chance(draw, 0.5) or not components:
            components.append(draw.choice(COMPONENTS if chance(draw, 0.95) else LONG))
        if chance(draw, 0.15):
            components.insert(draw.randrange(len(components) + 1), draw.choice([b".", b"..", b"", b"a"]))
        path = b"/" + b"/".join(components) + draw.choice([b""] * 12 + [b"/", b"/.", b"/..", b"//"])
        odd = [b"/", b"//", b"a", b"/" + b"/n" * 2047, b"/" + b"/n" * 2048, b"/..", b"/../.."]
        return path if chance(draw, 0.95) else draw.choice(odd)

    def change(self):
        kind = self.draw.choice([b"mkdir"] * 3 + [b"create"] * 3 + [b"symlink"] * 2 + [b"link", b"unlink", b"rmdir"] + [b"rename"] * 3)
        if kind == b"symlink":
            text = self.draw.choice([self.path(), self.path().lstrip(b"/") or b".", b"../a", b"x" * 1023, b"/." * 512, b"n" * 256])
            return b"symlink " + text + b" " + self.path()
        return b" ".join([kind, self.path()] + [self.path() for _ in range(kind in (b"link", b"rename"))])

    def open(self):
        asked = bytes(self.draw.choice(b"rwkma" if chance(self.draw, 0.95) else b"rl") for _ in range(self.draw.randint(1, 3)))
        return b" ".join([self.draw.choice([b"p", b"p", b"q", b"/bin/p"]), self.path(), asked])

    def chain(self):
        """Links that lead to one another."""
        for number in range(self.draw.choice([3, 38, 40, 41])):
            self.add(b"symlink l%d /l%d" % (number - 1, number) if number else b"symlink a /l0")
        self.add(b"open p /l%d r" % self.draw.choice([2, 37, 38, 39, 40]))
        self.add(b"open p /l%d/l%d r" % (self.draw.choice([2, 37, 38, 39]), self.draw.randrange(3)))

    def deep(self):
        """A directory whose name is about as long as a name may be, reached through links."""
        at = b""
        for third in range(5):
            for depth in (1, 2, 3):
                self.add(b"mkdir " + at + (b"/" + b"n" * 255) * depth)
            self.add(b"symlink " + at + (b"/" + b"n" * 255) * 3 + b" /L%d" % third)
            at = b"/L%d" % third
        for length in self.draw.sample(range(250, 256), 3):
            for kind in (b"mkdir", b"create"):
                self.add(kind + b" /L4/" + b"%c" % kind[0] * length)
                self.add(b"open p /L4/" + b"%c" % kind[0] * length + b" r")

    def common(self):
        """A line that all three commands have."""
        kind = self.draw.random()
        if kind < 0.05:
            self.policy()
        elif kind < 0.07:
            self.add(b"drop " + self.draw.choice([b"p", b"q"]))
        elif kind < 0.65:
            self.add(self.change())
        else:
            self.add(b"open " + self.open())

    def run_line(self):
        if chance(self.draw, 0.12):
            self.add(b"judged-link %s %s %s" % (self.draw.choice([b"p", b"q"]), self.path(), self.path()))
        else:
            self.common()

    def test_line(self):
        kind = self.draw.random()
        if kind < 0.25:
            self.lines.append(self.draw.choice([b"expect ", b" expect\t", b"expect  "]) + self.wanted() + self.draw.choice([b"", b" "]))
        elif kind < 0.35:
            self.add(b'%s "/a %s"' % (self.draw.choice([b"mkdir", b"create", b'"rmdir"']),
                                      self.draw.choice([b"", b"b", b"c\r", b"\\\"", b"\\\\", b"\\n", b"\\x2f\\xfF", b"\\x00"])))
        elif kind < 0.38:
            self.add(self.draw.choice([b'open p "" r', b'symlink "" /x', b'drop ""', b'open "p" "/a b" "rw"', b'"policy" p',
                                       b'"ju\\x64ge" p / ""', b'explain p "" r', b"judge q a r"]))
        elif kind < 0.55:
            self.add(self.question())
        elif kind < 0.57:
            self.add(b"policy", self.draw.choice([b"", b"profile p {\n  /a x,\n}\n", b"profile p { /a r }\n"]))
        else:
            self.run_line()

    def odd_lines(self):
        """Puts lines between the others that are often no commands; one within a policy changes its text."""
        for _ in range(self.draw.choice([1, 1, 2, 3])):
            self.lines.insert(self.draw.randrange(len(self.lines) + 1), odd_line(self.draw))

    def wanted(self):
        """A text that an expectation may have: mostly the last answer or a front part of it."""
        draw, kind = self.draw, self.draw.random()
        if kind < 0.5:
            return self.last
        if kind < 0.8:
            words = self.last.split(b" ")
            front = b" ".join(words[:draw.randint(0, len(words))])
            return (front if chance(draw, 0.9) else front[:-1]) + draw.choice([b" ...", b"\t ...", b" ...", b"..."])
        return draw.choice([b"ok 1", b"nothing", b"a  b\x01", b"\"ok\"", b"...", b"... ok", b"policy refused: ...", b"ok ... ..."])

    def question(self):
        """Asks what a published profile says about a name."""
        draw, profiles = self.draw, self.script.policy.profiles
        profile = draw.choice([b"p", b"q", *profiles])
        rules = profiles[profile].rules if profile in profiles else []
        name = draw_name(draw, rules) if chance(draw, 0.5) else self.path()
        return b"%s %s %s %s" % (draw.choice([b"judge", b"explain"]), quoted(profile), quoted(name), draw_letters(draw).encode())

    def events_line(self):
        draw, number = self.draw, b"%d" % self.draw.randint(1, 4)
        kind = draw.random()
        if kind < 0.25:
            self.common()
        elif kind < 0.4:
            self.add(b"begin " + number + b" " + self.open())
        elif kind < 0.8:
            cells = draw.choice([b"0", b"1", b"3", b"1000000", b"1000000", b"18446744073709551615", b"007"])
            event = draw.choice([b"policy-read ", b"count ", b"check ", b"go ", b"cell ", b"cell "])
            self.add(event + number + (b" " + cells if event == b"cell " else b""))
        elif kind < 0.87:
            self.add(b"keep " + self.change())
        elif kind < 0.95:
            self.add(b"set " + draw.choice([b"0", b"1", b"1", b"2", b"5", b"100"]))
        else:
            self.add(b"close")

    def call(self):
        """The events of a call in their order, with other lines in between."""
        number = b"%d" % self.draw.randint(1, 4)
        for line in (b"begin " + number + b" " + self.open(), b"policy-read " + number, b"count " + number,
                     b"cell " + number + b" 9999999", b"check " + number, b"go " + number):
            self.add(line)
            for _ in range(self.draw.choice([0, 0, 1, 2])):
                self.events_line()

    def sets(self):
        """A change whose cells are set one by one, until no more are left."""
        self.add(b"keep " + self.change())
        for _ in range(self.draw.randint(1, 12)):
            self.add(b"set 1")
        self.add(b"close")


def quoted(word):
    """A word that stands for these bytes."""
    escaped = b"".join(b"\\%c" % byte if byte in b'"\\' else b"\\x%02x" % byte if byte in b"\n\0\t" else bytes((byte,)) for byte in word)
    return b'"%s"' % escaped


def draw_script(draw, command):
    """The arguments and the text of a script."""
    capacity = draw.choice([1, 2, 3, 5, 8, 20, 100, None])
    split = quoted_words if command == "test" else plain_words
    script = {"run": Script, "test": TestScript, "steps": Events}[command](capacity or 1024)
    drawing = Drawing(draw, script, split)
    kinds = {"run": [drawing.run_line], "test": [drawing.test_line],
             "steps": [drawing.events_line] * 4 + [drawing.call, drawing.sets]}
    drawing.policy()
    if chance(draw, 0.1) and (capacity is None or capacity > 20):
        draw.choice([drawing.chain, drawing.deep])()
    for _ in range(draw.choice([5, 20, 40])):
        draw.choice(kinds[command])()
    flags = draw_script_flags(draw, command)
    if command == "test" and chance(draw, 0.1 if NOTES.isdisjoint(flags) else 0.8):
        drawing.odd_lines()
    text = b"\n".join(drawing.lines) + draw.choice([b"\n", b"\n", b""])
    if chance(draw, 0.25):
        text = mutate(draw, text, TOKENS)
    options = draw_capacity(draw, capacity)
    return mixed(draw, [options, *flags], []), text


def draw_script_flags(draw, command):
    """Options without a value: for `test` notes in half of the cases."""
    if command != "test":
        return draw_flags(draw, "--verbose")
    return draw_flags(draw, "--json", "--answers") + ([draw.choice(sorted(NOTES))] if chance(draw, 0.5) else [])


def draw_capacity(draw, capacity):
    if chance(draw, 0.01):
        return [draw.choice(["--capacity=0", "--capacity=16385", "--capacity=x", "--capacity=", "--capacity=-1", "--capacity=+"])]
    written = draw.choice(["", "", "+", "0", "+00"]) + str(capacity)
    return [] if capacity is None else draw.choice([["--capacity", written], ["--capacity=" + written]])
