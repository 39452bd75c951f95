"""Reads flattened AppArmor text (that of `apparmor_parser -p`) just well enough to count its rules and to draw names from them.

Made for tools/survey and tools/against-apparmor, so that what they say about `aa-trace import` doesn't depend on it. It assumes
that the text is valid: apparmor_parser has accepted it.
"""

import re

OTHER_RULES = frozenset(b"""abi capability network mount remount umount pivot_root signal ptrace dbus unix set change_profile userns
mqueue io_uring""".split())
QUALIFIERS = frozenset((b"audit", b"allow", b"deny", b"owner", b"other"))
BEFORE_PATHS = frozenset((b"file", b"safe", b"unsafe", b"link", b"subset"))
PERMISSIONS = re.compile(rb"(?:[rRwWaAlLkKmM]|[pPcC]?[iIuU]?[xX])+")
MODE = re.compile(rb"[pPcC]?[iIuU]?[xX]")
TOKEN = re.compile(rb'"(?:[^"\\]|\\.)*"|(?:\\.|[^\s"])+', re.DOTALL)
VARIABLE = re.compile(rb"@\{(\w+)\}")
ASSIGNMENT = re.compile(rb"@\{(\w+)\}\s*\+?=")


class NotRead(Exception):
    """The text isn't one that apparmor_parser accepts, or goes beyond what is read here."""


def without_comments(text):
    """The text with each comment overwritten by spaces, so that offsets stay. A line of a variable has none."""
    lines = []
    for line in text.split(b"\n"):
        end = comment_of(line)
        lines.append(line[:end] + b" " * (len(line) - end))
    return b"\n".join(lines)


def comment_of(body):
    """Where the line's comment begins, or its end."""
    if ASSIGNMENT.match(body.lstrip()):
        return len(body)
    at, quoted = 0, False
    while at < len(body):
        byte = body[at:at + 1]
        if byte == b"\\":
            at += 1
        elif byte == b'"':
            quoted = not quoted
        elif byte == b"#" and not quoted and begins_comment(body[:at]):
            return at
        at += 1
    return len(body)


def begins_comment(before):
    """Whether a # after these bytes of a line begins a comment: within a word it doesn't, and a brace may belong to a group."""
    last, earlier = before[-1:], before[:-1]
    return last in (b"", b" ", b"\t", b",") or last in (b"{", b"}") and earlier[-1:] in (b"", b" ", b"\t", b"\"")


class Token:
    def __init__(self, start, text):
        self.start, self.text = start, text

    def word(self):
        return self.text[1:-1] if self.text[:1] == b'"' else self.text


class Statement:
    """What ends with a comma: a file rule if `path` is set, or something else. `block` is its profile, or None."""

    def __init__(self, tokens, end, block):
        self.tokens, self.end, self.block = tokens, end, block
        self.start = tokens[0].start
        words = [token.text for token in tokens]
        self.qualifiers = []
        while words and words[0] in QUALIFIERS:
            self.qualifiers.append(words.pop(0))
        self.first = words[0].split(b"(")[0] if words else b""
        self.path = self.perms = self.arrow = self.whole = None
        if self.first in OTHER_RULES:
            return
        self.whole = words == [b"file"]
        rest = tokens[len(self.qualifiers):]
        self.paths_first = False
        for token in rest:
            if self.arrow is None and token.text == b"->":
                self.arrow = token
            elif self.arrow is None and self.path is None and token.word()[:1] in (b"/", b"@"):
                self.path = token
                self.paths_first = self.perms is None
            elif self.arrow is None and token.text not in BEFORE_PATHS and PERMISSIONS.fullmatch(token.text):
                self.perms = token

    def is_file_rule(self):
        return self.whole or self.path is not None

    def letters(self):
        """The letters of r w l k m a that it has, except the l of a pair of names."""
        if self.whole:
            return set("rwlkm")
        if self.perms is None:
            return set()
        modes = [one for one in cut(self.perms.text) if one[-1:] in b"xX"]
        letters = {one.lower().decode() for one in cut(self.perms.text) if one.lower() in (b"r", b"w", b"l", b"k", b"m", b"a")}
        if any(b"i" in mode.lower() for mode in modes):
            letters.add("m")
        if self.is_pair():
            letters.discard("l")
        return letters

    def is_pair(self):
        """Whether it binds the right to link to a target."""
        if self.arrow is None:
            return False
        return self.first == b"link" or (not self.paths_first and b"l" in [one.lower() for one in cut(self.perms.text)])


def cut(word):
    """The letters and exec modes of a word of permissions."""
    parts, at = [], 0
    while at < len(word):
        mode = MODE.match(word, at)
        part = word[at:at + 1] if word[at:at + 1] in b"rRwWaAlLkKmM" or mode is None else mode.group()
        parts.append(part)
        at += len(part)
    return parts


class Block:
    """A profile, hat or child profile: the tokens of its head, and where it ends."""

    def __init__(self, tokens, parent):
        self.tokens, self.parent = tokens, parent
        self.start, self.end = tokens[0].start, None
        words = [token.word() for token in tokens]
        if words[0] in (b"profile", b"hat"):
            words.pop(0)
        if not words or words == [b"^"]:
            raise NotRead("a head without a name at byte %d" % self.start)
        name = words[0].lstrip(b"^") or words[1].strip(b'"')
        self.name = name if parent is None else parent.name + b"//" + name

    def line(self):
        """It and the profiles around it."""
        block = self
        while block is not None:
            yield block
            block = block.parent


class Flattened:
    """`variables` has the values of each variable as written, `blocks` the profiles, and `statements` what ends with a comma."""

    def __init__(self, text):
        self.text = text
        self.variables, self.lines_of_variables, self.statements, self.blocks = {}, [], [], []
        self.bare = bare = without_comments(text)
        tokens, block, at = [], None, 0
        for found in list(TOKEN.finditer(bare)):
            if found.start() < at:
                continue
            if not tokens and ASSIGNMENT.match(bare, found.start()):
                at = self.assignment(bare, found.start())
                continue
            for start, part in self.parts(found.start(), found.group()):
                if part == b"{":
                    if not tokens:
                        raise NotRead("a brace without a head at byte %d" % start)
                    block = Block(tokens, block)
                    self.blocks.append(block)
                    tokens = []
                elif part == b"}" and not self.is_open(tokens):
                    if block is None:
                        raise NotRead("a brace too many at byte %d" % start)
                    block.end = start + 1
                    block = block.parent
                elif part == b"," and not self.is_open(tokens):
                    if not tokens:
                        raise NotRead("a comma without a rule at byte %d" % start)
                    self.statements.append(Statement(tokens, start + 1, block))
                    tokens = []
                else:
                    tokens.append(Token(start, part))
        if block is not None or tokens:
            raise NotRead("a profile without an end")

    @staticmethod
    def is_open(tokens):
        """Whether the tokens end in parentheses, of a rule that isn't a file rule or of a profile's flags."""
        text = b"".join(token.text for token in tokens if token.text[:1] != b'"')
        first = next((token.text for token in tokens if token.text not in QUALIFIERS), b"")
        files = first[:1] in (b"/", b"@") or first in BEFORE_PATHS or bool(PERMISSIONS.fullmatch(first))
        flags = any(token.text.startswith((b"flags", b"xattrs", b"(")) for token in tokens)
        return (flags or not files) and text.count(b"(") > text.count(b")")

    @staticmethod
    def parts(start, token):
        """The token without a comma, or a brace of a profile, at its end."""
        if token in (b"{", b"}", b","):
            return [(start, token)]
        if token[:1] == b'"':
            return [(start, token)]
        if token.endswith(b"){"):
            return [(start, token[:-1]), (start + len(token) - 1, b"{")]
        if token.endswith(b",}") and token.count(b"{") < token.count(b"}"):
            return [(start, token[:-2]), (start + len(token) - 2, b","), (start + len(token) - 1, b"}")]
        if token[:1] == b"," and len(token) > 1:
            return [(start, b",")] + Flattened.parts(start + 1, token[1:])
        if token.endswith(b",") and not token.endswith(b"\\,"):
            return [(start, token[:-1]), (start + len(token) - 1, b",")]
        return [(start, token)]

    def assignment(self, bare, start):
        found = ASSIGNMENT.match(bare, start)
        end = found.end()
        line = re.compile(rb"(?:\\\n|[^\n])*").match(bare, end)
        words = TOKEN.findall(line.group().replace(b"\\\n", b"  "))
        values = [word[1:-1] if word[:1] == b'"' else word for word in words]
        self.variables.setdefault(found.group(1), []).extend(values)
        self.lines_of_variables.append((found.group(1), start, line.end()))
        return line.end()

    def place(self, line, column):
        """The offset of a line and a column."""
        if not hasattr(self, "lines"):
            self.lines = [0] + [found.end() for found in re.finditer(rb"\n", self.text)]
        return self.lines[line - 1] + column - 1

    def rule_at(self, offset):
        for statement in self.statements:
            if statement.start <= offset < statement.end:
                return statement
        return None
