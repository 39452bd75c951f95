"""Names that the paths of a profile's rules take, drawn."""
import re

# How many names of one kind there are.
NAMES = 512
WORDS = "alpha beta cache data engine font gtk home icon java kernel lib media net opt python qt run share tmp user var www x11".split()


def path_of(draw, least):
    """Drawn words with slashes between them, at least so long."""
    path = ""
    while len(path) < least:
        path += "/" + draw.choice(WORDS)
    return path


def sample(path, draw, length):
    """A name that the path of a rule takes; what `**` takes makes it so long, if there is one."""
    left = max(0, length - len(path))
    out, at = "", 0
    while at < len(path):
        letter = path[at]
        if path.startswith("**", at):
            out += path_of(draw, left)[1:] if left else draw.choice(WORDS)
            left, at = 0, at + 2
        elif letter == "*":
            out, at = out + draw.choice(WORDS), at + 1
        elif letter == "?":
            out, at = out + "q", at + 1
        elif letter == "[":
            end = path.index("]", at + 2)
            inner = path[at + 1:end]
            out, at = out + ("q" if inner[0] == "^" else inner[0]), end + 1
        elif letter == "{":
            end = path.index("}", at)
            out, at = out + draw.choice(path[at + 1:end].split(",")), end + 1
        elif letter == "\\":
            out, at = out + path[at + 1], at + 2
        else:
            out, at = out + letter, at + 1
    return out


def fitted(name, draw, length):
    """The name, cut or made longer."""
    while len(name) < length:
        name += path_of(draw, length - len(name))
    return name[:length]


def paths_of(text):
    """The paths of a profile's rules; groups in groups aren't drawn from."""
    paths = re.findall(r'^\s*(?:deny )?"?(/[^\s"]*)"? +[rwlkmaix]+,', text, re.MULTILINE)
    return [it for it in paths if not re.search(r"\{[^}]*\{", it)]
