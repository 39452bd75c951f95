"""Command lines (docs/RULES-PROGRAM.md, "Messages and words")."""
import dataclasses
import re

SHORT = {"v": "--verbose", "q": "--quiet", "n": "--not-allowed", "0": "--null"}
MANY_TIMES = ("--define",)


class BadUsage(Exception):
    pass


@dataclasses.dataclass(frozen=True)
class Form:
    """What a command takes: options without and with a value, and how many arguments at least and at most."""
    flags: tuple = ()
    valued: tuple = ()
    least: int = 0
    most: float = 0


@dataclasses.dataclass(frozen=True)
class Line:
    """The options that are given, each with a list of its values, and the arguments."""
    options: dict
    arguments: list

    def has(self, *options):
        return any(option in self.options for option in options)

    def value(self, option, default=None):
        return self.options[option][0] if option in self.options else default


def spelled_out(words):
    """The words with the long options in place of letters, up to a word `--`."""
    end = words.index("--") if "--" in words else len(words)
    long = []
    for word in words[:end]:
        letters = re.fullmatch("-([vqn0]+)", word)
        long += [SHORT[letter] for letter in letters.group(1)] if letters else [word]
    return long + words[end:]


def read_words(form, words):
    """The line of a command of this form; raises BadUsage."""
    words, options, arguments = spelled_out(list(words)), {}, []
    while words:
        word = words.pop(0)
        if word == "--":
            arguments += words
            break
        if not word.startswith("-") or word == "-":
            arguments.append(word)
            continue
        name, equals, value = word.partition("=")
        if name not in form.flags + form.valued or name in options and name not in MANY_TIMES or equals and name in form.flags:
            raise BadUsage(word)
        if name in form.valued and not equals:
            if not words or words[0].startswith("-") and words[0] != "-":
                raise BadUsage(word)
            value = words.pop(0)
        options.setdefault(name, []).append(value)
    if not form.least <= len(arguments) <= form.most:
        raise BadUsage("arguments")
    return Line(options, arguments)


def number_of(line, option, default, least, most):
    """The number that is an option's value."""
    written = line.value(option, str(default)).removeprefix("+")
    if not (written.isascii() and written.isdigit() and least <= int(written) <= most):
        raise BadUsage(option)
    return int(written)
