"""Cases, the two answers to each, and how a case that differs is made smaller."""
import ast
import dataclasses
import random
import shlex
import subprocess
import tempfile
import zlib

import commands
import drawing
import images
from events import Undetermined
from texts import read_profile
from verdicts import Places

SECONDS = 600
NO_END = -1000
MOST_RUNS = 3000
MAP = "map"
# What is in the file for a map before.
OLD_MAP = b"1 1:1 <old>\n" * 1000


@dataclasses.dataclass(frozen=True)
class Case:
    """A command with its arguments, its standard input, and the texts of the files `1`, `2` and so on of the folder it runs in."""
    words: tuple
    text: bytes
    files: tuple = ()

    def named_files(self):
        return {str(number): text for number, text in enumerate(self.files, 1)}

    def written(self):
        """A file with this case: a line with the command, and its standard input; or with files a line of a list."""
        command = shlex.join(self.words).encode()
        return command + b" < " + repr((self.text, *self.files)).encode() + b"\n" if self.files else command + b"\n" + self.text

    @classmethod
    def read(cls, written):
        line, text = written.split(b"\n", 1)
        return cls(tuple(shlex.split(line.decode())), text)

    @classmethod
    def read_line(cls, line):
        """A case as a line of a list: the command, ` < `, and its standard input as a literal of Python; with files a tuple of it and
        their texts."""
        words, text = line.split(" < ", 1)
        literal = ast.literal_eval(text)
        text, *files = literal if isinstance(literal, tuple) else (literal,)
        return cls(tuple(shlex.split(words)), text, tuple(files))


def with_text(case, number, text):
    """The case with another standard input, which is number 0, or another file."""
    if number == 0:
        return dataclasses.replace(case, text=text)
    return dataclasses.replace(case, files=(*case.files[:number - 1], text, *case.files[number:]))


def program_outcome(program, case):
    """What the program answers; a status below 0 if a signal ended it, or nothing did in time."""
    if not case.files and not any(word.startswith("--map") for word in case.words):
        return outcome_in(None, program, case)
    with tempfile.TemporaryDirectory() as folder:
        for name, text in [*case.named_files().items(), (MAP, OLD_MAP)]:
            with open(f"{folder}/{name}", "wb") as file:
                file.write(text)
        found = outcome_in(folder, program, case)
        with open(f"{folder}/{MAP}", "rb") as file:
            written = file.read()
        return dataclasses.replace(found, map=None if written == OLD_MAP else written)


def outcome_in(folder, program, case):
    try:
        ran = subprocess.run([program, *case.words], input=case.text, capture_output=True, timeout=SECONDS, check=False, cwd=folder)
    except subprocess.TimeoutExpired:
        return commands.Outcome(NO_END, err=b"no end in %d seconds" % SECONDS)
    return commands.Outcome(ran.returncode, ran.stdout, ran.stderr)


def second_outcome(case):
    """What the rules answer; None where they leave it open, and a text if the second implementation fails."""
    try:
        return commands.answer(case.words, case.text, case.named_files())
    except Undetermined:
        return None
    except Exception as error:  # pylint: disable=broad-exception-caught
        return f"{type(error).__name__}: {error}"


def is_same(program, second):
    """Whether both answers are the same. The words about a bad command line may change, so they aren't compared."""
    if isinstance(second, commands.Outcome) and second.status == 2 and not second.err:
        return program.status == 2 and not program.out
    return program == second


@dataclasses.dataclass(frozen=True)
class Difference:
    case: Case
    program: commands.Outcome
    second: object


def difference(program, case, second):
    """How the two answers to a case differ, or None. `second` is what the rules answer."""
    if second is None:
        return None
    found = program_outcome(program, case)
    if not is_same(found, second):
        return Difference(case, found, second)
    wrong = wrong_name(program, case, found) if case.words[0] == "compile" and found.status == 0 else None
    return Difference(case, found, wrong) if wrong else None


def wrong_name(program, case, found):
    """A name on which the image that the program wrote doesn't say what the rules say, by the places of the rules alone; or, if the
    image has chains, on which it doesn't lead where the program's image without chains does, or takes too many look-ups."""
    draw = random.Random(zlib.crc32(case.text))
    profile, table = read_profile(case.text), images.read_image(found.out)
    places = Places(profile)
    flat = images.read_image(program_outcome(program, Case(("compile",), case.text)).out) if table.bound else None
    for _ in range(5):
        name = drawing.draw_name(draw, profile.rules)
        if table.record(name) != places.hits(name):
            return f"the image's record of {name} isn't {places.hits(name)}"
        states, look_ups = table.run(name)
        if flat and (states, len(name)) != flat.run(name):
            return f"the image without chains leads {name} through the states {flat.run(name)[0]}, and not {states}"
        if not len(name) <= look_ups <= (table.bound + 1) * len(name):
            return f"{look_ups} look-ups of {name}"
    return None


class Shrinking:
    """Drops parts of a case as long as the two answers differ."""

    def __init__(self, program, found):
        self.program, self.found, self.runs = program, found, 0

    def differs(self, case):
        self.runs += 1
        found = difference(self.program, case, second_outcome(case)) if self.runs < MOST_RUNS else None
        self.found = found or self.found
        return found is not None

    def shrink(self):
        """The smallest case that was found to differ. One that doesn't end in time is left as it is."""
        if self.found.program.status == NO_END:
            return self.found
        for number in range(len(self.found.case.files) + 1):
            self.shrink_text(number, lambda text: text.splitlines(keepends=True))
            self.shrink_text(number, lambda text: [text[at:at + 1] for at in range(len(text))])
        self.shrink_words()
        return self.found

    def shrink_text(self, number, cut):
        """Drops parts of standard input, which is number 0, or of a file."""
        parts = cut((self.found.case.text, *self.found.case.files)[number])
        size = max(1, len(parts) // 2)
        while size:
            parts = self.dropped(number, parts, size)
            size //= 2

    def dropped(self, number, parts, size):
        at = 0
        while at < len(parts):
            fewer = parts[:at] + parts[at + size:]
            if self.differs(with_text(self.found.case, number, b"".join(fewer))):
                parts = fewer
            else:
                at += size
        return parts

    def shrink_words(self):
        """Drops characters of the last argument."""
        at = 0
        while at < len(self.found.case.words[-1]) and len(self.found.case.words) > 1:
            *before, last = self.found.case.words
            if not self.differs(dataclasses.replace(self.found.case, words=(*before, last[:at] + last[at + 1:]))):
                at += 1
