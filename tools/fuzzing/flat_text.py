"""Flattened texts: cut into profiles, rules, statements and variables (docs/RULES-PROGRAM.md, "The flattened text")."""
import dataclasses
import re

STATEMENTS = frozenset(b"""abi capability network mount remount umount pivot_root signal ptrace dbus unix set change_profile userns
mqueue io_uring""".split())
OPEN_FLAGS = frozenset(b"complain unconfined default_allow prompt".split())
FLAGS = OPEN_FLAGS | frozenset(b"""enforce kill audit attach_disconnected mediate_deleted chroot_relative namespace_relative chroot_attach
chroot_no_attach no_attach_disconnected delegate_deleted debug interruptible""".split())
# Any value, even an empty one, but for quotes: in AppArmor's parser a quote ends it, and begins another flag.
FLAG_WITH_VALUE = re.compile(rb'(?:kill\.signal|error|attach_disconnected\.path)=[^"]*')
MOST_VARIABLES = 1024
WHITE_BYTES = (b" ", b"\t", b"\r", b"\n")
WHITE = re.compile(rb"[ \t\r\n]*")
SPACES = re.compile(rb"[ \t]*")
BLANK = re.compile(rb"[ \t\r\n]+|#[^\n]*")
INCLUDE = re.compile(rb'#include[ \t<"]')
KEYWORD = re.compile(rb"[A-Za-z][A-Za-z0-9_]*")
ASSIGNMENT = re.compile(rb"@\{([A-Za-z][A-Za-z0-9_]*)\}[ \t\r\n]*(\+?=)")
ENDS_WORD = re.compile(rb'[ \t\r\n",!]|\Z')
WHITE_OR_END = re.compile(rb"[ \t\r\n]|\Z")
# AppArmor's parser may end a word after these two bytes, or take the backslash with what follows.
DOUBTFUL = re.compile(rb'[\\,]\\(?:[ \t\r\n",!]|\Z)')
BARE_WORD = re.compile(rb'(?:\\[^\0]|(?![ \t\r\n"\\\0]|,(?:[ \t\r\n",!]|\Z)).)+', re.DOTALL)
# A backslash before a byte that is refused in quotes is part of it, so that the fault is at that byte.
IN_QUOTES = re.compile(rb'"((?:\\[^\n\0]|[^"\\\n\0])*\\?)', re.DOTALL)
WHOLE_NUMBER = re.compile(rb"[+-]?([0-9]+)")
PERMISSIONS = re.compile(rb"(?:[rRwWaAlLkKmM]|[pPcC]?[iIuU]?[xX])+")
# The case of p, c and u says whether the environment is kept; that of i and x says nothing.
MODE_CASES = bytes.maketrans(b"IX", b"ix")
MODE = re.compile(rb"[rRwWaAlLkKmM]|[pPcC]?[iIuU]?[xX]")
# An exec mode that isn't x alone, and has no i.
APART = re.compile(rb"[pPcC][uU]?[xX]|[uU][xX]")


class ImportFault(Exception):
    """A fault's number, its place (None for 11), and what is shown of it: a word, or the names of all profiles. Of an assignment `first`
    is where the variable is declared before it, or None."""

    def __init__(self, number, at=None, shown=None, first=None):
        super().__init__(number, at, shown)
        self.number, self.at, self.shown, self.first = number, at, shown, first


@dataclasses.dataclass
class Part:
    """A span of the text with a word of the account."""
    what: bytes
    start: int
    end: int
    text: bytes = b""


@dataclasses.dataclass
class FlatRule:
    """A file rule. `parts` are its words in order, but for what its permissions and its path may be reported as. `has_priority` says
    that it has one other than 0."""
    start: int
    end: int = 0
    is_deny: bool = False
    deny: int = 0
    subject: bytes = b""
    has_priority: bool = False
    parts: list = dataclasses.field(default_factory=list)
    path: Part = None
    permissions: Part = None
    is_pair: bool = False
    is_raised: bool = False


@dataclasses.dataclass
class Block:
    """A profile, a hat or a child profile, or (as `body` of the text) all of it."""
    what: bytes
    start: int
    name: bytes = b""
    parent: object = None
    heads: list = dataclasses.field(default_factory=list)
    rules: list = dataclasses.field(default_factory=list)
    statements: list = dataclasses.field(default_factory=list)
    blocks: list = dataclasses.field(default_factory=list)
    end: int = 0


@dataclasses.dataclass
class Statement:
    """What is open in a statement at some place. `before` says what is directly before it: the "keyword", the "end" of parentheses or
    of a quoted word, "white", or a "word". `last` is the last byte before that isn't white."""
    parentheses: int = 0
    braces: int = 0
    before: str = "keyword"
    last: bytes = b""

    def take(self, byte):
        self.parentheses += (byte == b"(") - (byte == b")")
        self.braces += (byte == b"{") - (byte == b"}")
        self.before = "white" if byte in WHITE_BYTES else "end" if byte == b")" else "word"
        self.last = self.last if byte in WHITE_BYTES else byte


class FlatReader:
    def __init__(self, text, variables, needs, overridden=frozenset()):
        """`needs` tests that a path's variables can be put in. Assignments to overridden variables don't count."""
        self.text, self.at = text, 0
        self.variables, self.needs, self.overridden = variables, needs, overridden
        self.first_assignments = {}
        self.all = Block(b"", 0)
        self.profiles = []

    # Words.

    def peek(self, length=1):
        return self.text[self.at:self.at + length]

    def syntax(self, at=None):
        return ImportFault(1, self.at if at is None else at)

    def blank(self):
        start = self.at
        while not INCLUDE.match(self.text, self.at):
            found = BLANK.match(self.text, self.at)
            if found is None:
                return self.at > start
            self.at = found.end()
        raise ImportFault(2, self.at)

    def gap(self):
        if not self.blank():
            raise self.syntax()

    def keyword(self):
        """The word here, which isn't taken."""
        found = KEYWORD.match(self.text, self.at)
        return found.group() if found else b""

    def first_keyword(self):
        """The word with which an item or a rule begins."""
        word = self.keyword()
        if word == b"include":
            raise ImportFault(2, self.at)
        return word

    def white(self, which):
        self.at = which.match(self.text, self.at).end()

    def take(self, word, what=None):
        part = Part(what or word, self.at, self.at + len(word), word)
        self.at = part.end
        return part

    def word(self):
        """A word, quoted or bare."""
        start = self.at
        quoted = IN_QUOTES.match(self.text, start)
        if quoted:
            self.at = quoted.end()
            if quoted.group(1).endswith(b"\\"):
                self.test_quote()
            self.expect(b'"')
            return Part(b"", start, self.at, quoted.group(1))
        found = BARE_WORD.match(self.text, start)
        for byte in re.finditer(rb"\\.?|.", found.group() if found else b"", re.DOTALL):
            if DOUBTFUL.match(self.text, start + byte.start()):
                raise self.syntax(start + byte.start())
        self.at = found.end() if found else start
        if not found or self.peek() in (b"\\", b"\0"):
            raise self.syntax(self.at + (self.peek() == b"\\"))
        return Part(b"", start, self.at, found.group())

    def test_quote(self):
        """After two backslashes AppArmor's parser reads on at a quote, if the text has another."""
        if self.peek() == b'"' and b'"' in self.text[self.at + 1:]:
            raise self.syntax()

    def is_absolute(self):
        start = self.at + (self.peek() == b'"')
        return self.text[start:start + 1] == b"/" or self.text[start:start + 2] == b"@{"

    def path(self):
        if not self.is_absolute():
            raise self.syntax(self.at + (self.peek() == b'"'))
        part = self.word()
        part.what = b"path"
        return part

    # Outside of profiles.

    def read(self):
        self.blank()
        while self.at < len(self.text):
            self.item()
            self.blank()
        if not self.profiles:
            raise self.syntax()
        return self.all

    def item(self):
        keyword, assignment = self.first_keyword(), ASSIGNMENT.match(self.text, self.at)
        if assignment and self.profiles:
            raise self.syntax()
        if assignment:
            self.assign(assignment)
        elif keyword == b"abi":
            self.all.statements.append(self.statement(self.at, [], keyword))
        elif self.peek() == b"$":
            self.boolean()
        elif keyword == b"profile" or self.is_absolute():
            self.block(self.all, b"profile")
        elif keyword:
            raise ImportFault(3, self.at, keyword)
        else:
            raise self.syntax()

    def boolean(self):
        start = self.at
        self.expect(b"$")
        is_braced = self.peek() == b"{"
        self.at += is_braced
        self.letters()
        if is_braced:
            self.expect(b"}")
        self.white(SPACES)
        self.expect(b"=")
        self.white(SPACES)
        self.letters()
        self.all.statements.append(Part(b"boolean", start, self.at))

    def letters(self):
        if not self.keyword():
            raise self.syntax()
        self.take(self.keyword())

    def assign(self, assignment):
        start, name = self.at, assignment.group(1)
        self.at, values = assignment.end(), []
        while not self.assignment_ends():
            values.append(self.word().text)
        if not values:
            raise self.syntax()
        self.first_assignments.setdefault(name, start)
        if name in self.overridden:
            return
        is_new = assignment.group(2) == b"="
        if name == b"profile_name" or is_new == (name in self.variables):
            first = self.first_assignments[name]
            raise ImportFault(7, start, first=first if first < start else None)
        if is_new and len(self.variables) >= MOST_VARIABLES:
            raise ImportFault(13, start)
        self.variables.setdefault(name, []).extend(values)

    def assignment_ends(self):
        self.at = re.compile(rb"(?:[ \t\r]|\\\n)*").match(self.text, self.at).end()
        return self.peek() in (b"", b"\n")

    # Profiles.

    def block(self, parent, what):
        block = Block(what, self.at, parent=parent)
        if self.peek() == b"^":
            self.at += 1
        elif self.keyword() in (b"profile", b"hat"):
            self.take(self.keyword())
            self.blank()
        first = self.at + (self.peek() == b'"')
        name = self.name()
        block.name = name if parent is self.all else parent.name + b"//" + name
        self.head(block)
        if len(block.name) > 255 or not is_expressible(block.name):
            raise ImportFault(8, first)
        self.profiles.append(block)
        parent.blocks.append(block)
        self.body(block)
        block.end = self.at

    def name(self):
        colon = self.at + (self.peek() == b'"')
        if self.text[colon:colon + 1] == b":":
            raise ImportFault(3, colon, b":")
        if self.peek() in (b"{", b"}", b",", b"("):
            raise self.syntax()
        name = self.word().text
        if not name:
            raise self.syntax(colon)
        return name

    def head(self, block):
        """What is between a name and the brace, and the brace."""
        self.blank()
        if self.is_absolute() or self.text[self.at:self.at + 2] == b'":' or self.peek() == b":":
            self.name()
            self.blank()
        while self.peek() != b"{":
            if len(block.heads) == 2:
                raise self.syntax()
            block.heads.append(self.head_part())
            self.blank()
        self.at += 1

    def head_part(self):
        """Flags or extended attributes, up to the first closing parenthesis outside of quotes."""
        start, keyword = self.at, self.keyword()
        if keyword in (b"flags", b"xattrs"):
            self.take(keyword)
            self.white(WHITE)
            self.expect(b"=")
            self.white(WHITE)
        self.expect(b"(")
        first, backslashes = self.at, 0
        while self.peek() != b")":
            if self.peek() in (b"", b"\0"):
                raise self.syntax()
            if self.peek() == b'"' and backslashes and backslashes % 2 == 0:
                self.test_quote()
            if self.peek() == b'"' and backslashes % 2 == 0:
                self.word()
                backslashes = 0
            else:
                backslashes = backslashes + 1 if self.peek() == b"\\" else 0
                self.at += 1
        inside = self.text[first:self.at]
        unknown = [flag for flag in flags_of(inside) if flag not in FLAGS and not FLAG_WITH_VALUE.fullmatch(flag)]
        self.at += 1
        if keyword != b"xattrs" and unknown:
            raise ImportFault(3, start, unknown[0])
        return Part(keyword or b"flags", start, self.at, inside)

    def expect(self, byte):
        if self.peek() != byte:
            raise self.syntax()
        self.at += 1

    def body(self, block):
        self.blank()
        while self.peek() != b"}":
            self.element(block)
            self.blank()
        self.at += 1

    def element(self, block):
        keyword = self.first_keyword()
        if keyword in (b"hat", b"profile") or self.peek() == b"^":
            self.block(block, b"child" if keyword == b"profile" else b"hat")
            return
        rule = FlatRule(self.at)
        self.qualifiers(rule)
        keyword = self.first_keyword()
        if keyword in STATEMENTS:
            block.statements.append(self.statement(rule.start, rule.parts, keyword))
            return
        self.file_rule(rule, keyword)
        if rule.is_raised and rule.permissions and APART.search(rule.permissions.text):
            raise ImportFault(3, rule.start, b"priority")
        if rule.path is not None:
            self.needs(rule.path, block)
        block.rules.append(rule)

    def qualifiers(self, rule):
        if self.keyword() == b"priority":
            self.priority(rule)
        for words in ((b"audit",), (b"allow", b"deny"), (b"owner", b"other")):
            keyword = self.keyword()
            if keyword not in words:
                continue
            part = self.take(keyword)
            if keyword == b"deny":
                rule.is_deny, rule.deny = True, part.start
            rule.subject = keyword if keyword in (b"owner", b"other") else b""
            rule.parts += [part] if keyword not in (b"allow", b"deny") else []
            self.blank()

    def priority(self, rule):
        part = self.take(b"priority")
        self.white(WHITE)
        self.expect(b"=")
        self.white(WHITE)
        found = WHOLE_NUMBER.match(self.text, self.at)
        if not found:
            raise self.syntax(self.at + (self.peek() in (b"+", b"-")))
        rule.has_priority = found.group(1).strip(b"0") != b""
        rule.is_raised = rule.has_priority and self.peek() != b"-"
        part.end = self.at = found.end()
        rule.parts.append(part)
        self.blank()

    def statement(self, start, qualifiers, keyword):
        self.take(keyword)
        here = Statement()
        while not self.ends(here):
            self.step(here)
        self.at += 1
        words = [part.what for part in qualifiers] + [keyword]
        return Part(b"+".join(words), start, self.at, keyword)

    def ends(self, here):
        """Whether a comma here ends the statement. Another one outside of parentheses and braces is a fault."""
        if self.peek() != b"," or here.parentheses or here.braces:
            return False
        if here.before == "word" and not WHITE_OR_END.match(self.text, self.at + 1):
            raise self.syntax()
        return True

    def step(self, here):
        """Takes a quoted word, a comment, an escaped byte, or a byte of a statement."""
        byte = self.peek()
        if byte in (b"", b"\0") or self.is_doubtful(byte, here):
            raise self.syntax()
        if byte == b'"':
            self.word()
            here.before, here.last = "end", byte
        elif byte == b"#" and here.before == "white":
            self.blank()
        elif byte == b"\\":
            self.at += 1
            if self.peek() in (b"", b"\0"):
                raise self.syntax()
            self.at += 1
            here.before, here.last = "word", byte
        else:
            here.take(byte)
            self.at += 1

    def is_doubtful(self, byte, here):
        """Whether AppArmor's parser may read this byte in another way, or doesn't allow it."""
        if byte in (b"\\", b",") and DOUBTFUL.match(self.text, self.at):
            return True
        return {
            b",": self.peek(2) == b",\\" or not here.parentheses and ENDS_WORD.match(self.text, self.at + 1) is not None,
            b"#": here.before in ("keyword", "end") or here.before == "white" and here.last in (b"=", b">"),
            b"(": not (here.before in ("keyword", "white") or here.last in (b"=", b"(")),
            b")": here.parentheses == 0,
            b"}": here.braces == 0,
        }.get(byte, byte in WHITE_BYTES and here.braces > 0 and here.parentheses == 0)

    def file_rule(self, rule, keyword):
        if keyword == b"link":
            rule.parts.append(self.take(keyword))
            self.link(rule)
        else:
            self.usual_rule(rule, keyword)
        self.blank()
        if self.peek() != b",":
            raise self.syntax()
        self.at += 1
        rule.end = self.at

    def link(self, rule):
        rule.is_pair = True
        self.blank()
        self.optional(rule, b"subset")
        rule.path = self.path()
        rule.parts.append(rule.path)
        self.blank()
        if self.peek(2) != b"->":
            raise self.syntax()
        self.at += 2
        self.blank()
        self.word()

    def optional(self, rule, *words):
        if self.keyword() in words:
            rule.parts.append(self.take(self.keyword()))
            self.blank()

    def usual_rule(self, rule, keyword):
        if keyword == b"file":
            rule.parts.append(self.take(keyword))
            self.blank()
            if self.peek() == b",":
                if rule.is_deny:
                    raise ImportFault(4, rule.deny)
                return
        self.optional(rule, b"safe", b"unsafe")
        if self.peek() in (b"{", b"$"):
            raise ImportFault(3, self.at, self.peek())
        is_first = self.keyword() != b""
        if self.keyword() == b"all":
            self.test_all()
        if is_first:
            self.permissions_first(rule)
        else:
            rule.path = self.path()
            if not self.blank() and self.text[self.at - 1:self.at] != b'"':
                raise self.syntax()
            self.permissions(rule)
        rule.parts.append(rule.path)
        self.arrow(rule, is_first)
        rule.parts.sort(key=lambda part: part.start)

    def test_all(self):
        """A rule for all that AppArmor mediates is left out; before a path the word is permissions."""
        start = self.at
        self.take(b"all")
        self.blank()
        if self.peek() == b",":
            raise ImportFault(3, start, b"all")
        self.at = start

    def permissions_first(self, rule):
        word = self.keyword()
        if not PERMISSIONS.fullmatch(word):
            raise ImportFault(3, self.at, word)
        self.permissions(rule)
        self.gap()
        self.optional(rule, b"subset")
        rule.path = self.path()

    def permissions(self, rule):
        word = self.keyword()
        if not word:
            raise self.syntax()
        if not PERMISSIONS.fullmatch(word):
            raise ImportFault(4, self.at)
        letters = word.lower()
        modes = MODE.findall(word)
        execs = {mode[:1].translate(MODE_CASES) + mode[1:].lower() for mode in modes if mode[-1:] in b"xX"}
        is_append = any(mode in b"aA" for mode in modes) and b"w" in letters
        if is_append or len(execs) > 1 or any((mode == b"x") != rule.is_deny for mode in execs):
            raise ImportFault(4, self.at)
        rule.permissions = self.take(word, b"permissions")
        rule.parts.append(rule.permissions)

    def arrow(self, rule, is_first):
        before = self.at
        self.blank()
        if self.peek(2) != b"->":
            self.at = before
            return
        rule.is_pair = is_first and b"l" in rule.permissions.text.lower()
        if rule.is_pair and b"x" in rule.permissions.text.lower():
            raise ImportFault(4, rule.permissions.start)
        start = self.at
        self.at += 2
        self.blank()
        self.word()
        rule.parts.append(Part(b"link" if rule.is_pair else b"target", start, self.at))


def flags_of(text):
    """The flags in the parentheses of a head."""
    return [flag for flag in re.split(rb"[ \t\r\n,()]+", text) if flag]


def is_expressible(name):
    """Whether canonical text can have this profile name, which is read back from between quotes, both as a profile text and here."""
    return re.fullmatch(rb'(?!:)(?:\\[^\n\0]|[^\\"\n\0])+', name) is not None and not name.endswith(b"\\")
