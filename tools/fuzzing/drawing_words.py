"""Draws options, and puts them between arguments."""
from drawing import chance

LETTERS = {"--verbose": "v", "--quiet": "q", "--not-allowed": "n", "--null": "0"}
ODD_WORDS = ["--quiet", "-v", "-n", "-0", "--json", "-vx", "-V", "-q0", "--json=", "--all", "--verbose=1", "--", "--answer",
             "--account", "-"]


def draw_flags(draw, *flags):
    """Some of these options, now and then as letters, joined ones, too."""
    chosen = [flag for flag in flags if chance(draw, 0.25)]
    draw.shuffle(chosen)
    words = []
    for flag in chosen:
        letter = LETTERS.get(flag)
        if letter is None or chance(draw, 0.4):
            words.append(flag)
        elif words and words[-1][1] != "-" and chance(draw, 0.6):
            words[-1] += letter
        else:
            words.append("-" + letter)
    return words


def mixed(draw, options, arguments):
    """The arguments in their order, with options before, between and after them; each option is one word, or a list of words."""
    words = [[word] for word in arguments]
    options = [option if isinstance(option, list) else [option] for option in options]
    if chance(draw, 0.02):
        options.append([draw.choice(ODD_WORDS)])
    for option in options:
        words.insert(draw.randrange(len(words) + 1), option)
    return [word for part in words for word in part]
