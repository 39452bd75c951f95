"""Draws images of both versions, and mutates them."""
import struct

import images
from drawing import chance, draw_question, draw_text, flip
from texts import Fault, read_profile
from verdicts import Automaton, TooManyStates

EDGES = [0, 1, 2, 255, 256, 257, 65535, 65536, 65537, 2**24 - 1, 2**24, 2**24 + 1, 2**31, 2**32 - 1]
HITS = [0, 1, 2, 65535]


def draw_image(draw):
    """An image, most often one that is mutated."""
    kind = draw.random()
    if kind < 0.35:
        image = draw_small_image(draw) if kind < 0.22 else draw_long_chains(draw)
        return mutate_image(draw, image) if chance(draw, 0.4) else image
    try:
        automaton = Automaton(read_profile(draw_text(draw, 3)))
    except (Fault, TooManyStates):
        return draw_small_image(draw)
    table = images.make_table(automaton, draw.choice([0, 0, 0, 1, 2, 4, 64]))
    image = images.write_image(table, draw.choice([1, 1, 2]) if images.fits_version_1(table) else 2)
    return image if chance(draw, 0.1) else mutate_image(draw, image)


def draw_small_image(draw):
    """The image of a table of any numbers, most of them in bounds."""
    n, m, k = draw.randint(2, 5), draw.choice([256, 257, 300]), draw.randint(1, 3)
    version = draw.choice([1, 2])
    bound = draw.choice([0, 1, 1, 2, 3, 64, 65535]) if version == 2 else 0
    deepest = min(bound, draw.choice([1, 3, 65535]))
    depths = [draw.randint(0, deepest) for _ in range(n)]
    depths[draw.randrange(n)] = 0
    table = images.Table([draw_default(draw, depths, depth) for depth in depths], [draw.randrange(m - 255) for _ in range(n)],
                         [draw.randrange(k) for _ in range(n)], [draw.randrange(n) for _ in range(m)],
                         [draw.choice([draw.randrange(n), n, images.FREE]) for _ in range(m)], draw_records(draw, k), bound, depths)
    return images.write_image(table, version)


def draw_default(draw, depths, depth):
    """A state, of a lesser depth if this one is over 0."""
    return draw.choice([state for state, other in enumerate(depths) if depth == 0 or other < depth])


def draw_records(draw, count):
    return [tuple(draw.choice([*HITS, *[0] * 9 * (index % 2)]) for index in range(12)) for _ in range(count)]


def draw_long_chains(draw):
    """The image of a table whose states, in any order, lead by default each to the one before, in chains of up to a length. Most bytes
    have no cell, and the bound of depths is near the greatest one."""
    n, m, k = draw.choice([3, 20, 64, 65, 66, 130, 300]), draw.choice([256, 400, 1000]), draw.randint(1, 3)
    length, stride = draw.choice([1, 2, 62, 63, 64, 65, 299]), draw.choice([1, 1, 1, 3, 200])
    order, default, depth = list(range(n)), [0] * n, [0] * n
    draw.shuffle(order)
    for place, state in enumerate(order):
        in_chain = place % (length + 1)
        depth[state] = stride * in_chain
        default[state] = order[place - 1] if in_chain else draw.choice([0, 1, draw.randrange(n)])
    bound = max(0, min(65535, max(depth) + draw.choice([0, 0, 0, 0, 0, 1, -1, 65535])))
    share = draw.choice([0, 0.02, 0.3])
    check = [draw.randrange(n) if chance(draw, share) else images.FREE for _ in range(m)]
    table = images.Table(default, [draw.randrange(m - 255) for _ in range(n)], [draw.randrange(k) for _ in range(n)],
                         [draw.randrange(n) for _ in range(m)], check, draw_records(draw, k), bound, depth)
    return images.write_image(table, 2)


def draw_image_question(draw, image):
    """PERMS and NAME. The name often leads through cells that the states own, or that are owned where a byte is looked up again."""
    permissions, name = draw_question(draw, b"")
    try:
        table = images.read_image(image)
    except images.ImageFault:
        return permissions, name
    if chance(draw, 0.3):
        return permissions, name
    state, name = table.step(1, ord("/"))[0], "/"
    for _ in range(draw.randrange(20)):
        looked_at = draw.choice([state, state, table.default[state]])
        owned = [byte for byte in range(32, 127) if table.check[table.base[looked_at] + byte] == looked_at]
        name += chr(draw.choice(owned or [*b"ab/."]))
        state, _ = table.step(state, ord(name[-1]))
    return permissions, name


def mutate_image(draw, image):
    for _ in range(draw.choice([1, 1, 2, 3])):
        kind = draw.random()
        if kind < 0.4:
            image = set_word(draw, image)
        elif kind < 0.6:
            image = set_depth(draw, image)
        elif kind < 0.67:
            image = set_version(draw, image)
        elif kind < 0.77:
            image = flip(draw, image, None)
        elif kind < 0.87:
            image = image[:draw.choice([draw.randrange(len(image) + 1), len(image) - 1, 19, 20, 0])]
        else:
            image += draw.choice([b"\0", b"\0" * 4, b"\0" * 20, b"\0" * 24, image[:7]])
    return image


def set_word(draw, image):
    """Sets a number of the header or of a table to a bound, or next to one."""
    if len(image) < 24:
        return image
    n, m, k = struct.unpack_from("<III", image, 8)
    words = (len(image) - 8) // 4
    of_states = 3 + draw.randrange(max(1, min(words - 3, 4 * n)))
    word = draw.choice([0, 1, 2, of_states, draw.randrange(words), draw.randrange(words)])
    bounds = [n, m, k, m - 255]
    value = draw.choice([draw.choice(EDGES), draw.choice(bounds), draw.choice(bounds) - 1, draw.choice(bounds) + 1]) % 2**32
    return image[:8 + 4 * word] + struct.pack("<I", value) + image[12 + 4 * word:]


def set_version(draw, image):
    """Sets the version, the number after it, or both."""
    version, bound = image[4:6], image[6:8]
    if chance(draw, 0.7):
        version = struct.pack("<H", draw.choice([0, 1, 1, 2, 2, 3, 256, 258, 65535]))
    if chance(draw, 0.5):
        bound = struct.pack("<H", draw.choice([0, 0, 1, 2, 64, 256, 65535]))
    return image[:4] + version + bound + image[8:]


def set_depth(draw, image):
    """Sets a depth to that of the default, to the bound, or next to one of them; or the bound to a depth, or next to it; or a default
    to any state, whose depth may be too great."""
    try:
        table = images.read_image(image)
    except images.ImageFault:
        return set_word(draw, image)
    n, state = len(table.default), draw.randrange(len(table.default))
    if image[4] == 1 or chance(draw, 0.2):
        return image[:20 + 4 * state] + struct.pack("<I", draw.randrange(n)) + image[24 + 4 * state:]
    near = draw.choice([-1, 0, 0, 1])
    if chance(draw, 0.3):
        bound = draw.choice([table.bound, table.depth[state], max(table.depth)]) + near
        return image[:6] + struct.pack("<H", bound % 65536) + image[8:]
    depth = draw.choice([0, table.bound, table.depth[table.default[state]], 2**16, 2**31]) + near
    at = 20 + 4 * (3 * n + state)
    return image[:at] + struct.pack("<I", depth % 2**32) + image[at + 4:]
