"""Whether the completions for shells know the commands and options that the definition of command lines has, and no other option."""
import re

from house.findings import Finding

CRATE = "trace_arguments"
SHELLS = ("bash", "zsh", "fish")
COMMAND = re.compile(r"(?m)^abbrev pub (\w+)_command : CommandForm$")
WORD, SHORT = re.compile(r'codes "(?:--)?([a-z][a-z-]+)"'), re.compile(r'\(codes "(.)", codes "--')
# The words of the parser that a command line hasn't.
NOT_SAID = {"aa-trace", "true", "false"}
# What the parser adds by itself.
ADDED = {"help", "version"}
# Where a completion offers a command.
OFFERED = {"bash": r"commands='[^']*(?<![\w-]){}(?![\w-])", "zsh": r"(?m)^ +'{}:", "fish": r" -a {} -d "}


def words_of(repository):
    """The words that may stand on a command line: commands, options, their texts where these are few; the commands among them; and the
    letters of short options."""
    texts = [repository.text(it) for it in repository.files_in(CRATE, "specs", ".antt")] if CRATE in repository.crates else []
    words, commands, letters = ({it for text in texts for it in kind.findall(text)} for kind in (WORD, COMMAND, SHORT))
    return words - NOT_SAID, commands, letters


def options_of(shell, text):
    """The long options that a completion offers, and the last line of each."""
    pattern = r"(?<!set) -l ([a-z][a-z-]*)" if shell == "fish" else r"(?<![\w-])--([a-z][a-z-]*)"
    lines = enumerate(text.split("\n"), 1)
    return {it: number for number, line in lines if not line.lstrip().startswith("#") for it in re.findall(pattern, line)}


def check(repository):
    words, commands, letters = words_of(repository)
    for shell in SHELLS:
        path = f"completions/aa-trace.{shell}"
        text = repository.text(path)
        for word in sorted(words):
            if not re.search(rf"(?<![\w-])(?:--)?{word}(?![\w-])", text):
                yield Finding(path, 1, f"it doesn't know {word}, which a command line may have", word)
        for command in sorted(commands & words):
            if not re.search(OFFERED[shell].format(command), text):
                yield Finding(path, 1, f"it doesn't offer the command {command}", command)
        for letter in sorted(letters):
            if not re.search(rf"-s {letter}\b" if shell == "fish" else rf"(?<![\w-])-{letter}(?![\w-])", text):
                yield Finding(path, 1, f"it doesn't know -{letter}, which a command line may have", letter)
        for option, number in options_of(shell, text).items():
            if option not in words | ADDED:
                yield Finding(path, number, f"the program has no option --{option}", option)
