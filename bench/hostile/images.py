"""Images, for `check` and `match`."""
import random
import struct

from shapes import Shape

NAME = "/" + "a" * 4094
ROW = 256


def image(states, cells, records):
    """An image without a fault: each state has an empty row and is followed by the start state."""
    words = [1] * states + [0] * states + [0] * states + [0] * cells + [0] * cells
    header = b"PTAB" + struct.pack("<HHIII", 1, 0, states, cells, records)
    return header + struct.pack(f"<{len(words)}I", *words) + bytes(20 * records)


def chain_of(size):
    """An image whose states, in any order and all but state 0, are one chain of defaults. Nobody owns a cell, so that each byte is
    looked up at all of them; after the last one comes the start."""
    states = min(65536, (size - 2092) // 16)
    order = [1, *random.Random(1).sample(range(2, states), states - 2)]
    default, depth = [1] * states, [0] * states
    for place, state in enumerate(order[:-1]):
        default[state], depth[state] = order[place + 1], len(order) - 1 - place
    words = default + [0] * states + [0] * states + depth + [0] * ROW + [2**32 - 1] * ROW
    header = b"PTAB" + struct.pack("<HHIII", 2, depth[1], states, ROW, 1)
    return header + struct.pack(f"<{len(words)}I", *words) + bytes(24)


def cells_of(size, number=0):
    """An image with as many cells as fit, all of which hold this number as the next state and as the owner."""
    cells = (size - 64) // 8
    return image(2, cells, 1)[:44] + struct.pack("<I", number) * (2 * cells) + bytes(20)


def header(size):
    """The largest counts that there may be, and too few bytes."""
    return b"PTAB" + struct.pack("<HHIII", 1, 0, 65536, 16777216, 65536) + bytes(size - 20)


MAKERS = {
    "states": lambda size: image(min(65536, (size - 2068) // 12), ROW, 1),
    "a chain of all states": chain_of,
    "cells": cells_of,
    "cells of the last state": lambda size: cells_of(size, 1),
    "records": lambda size: image(2, ROW, min(65536, (size - 2092) // 20)),
    "the largest counts": header,
    "no image": lambda size: b"\x7fELF" * (size // 4),
}

SHAPES = [Shape(f"{name}, {words[0]}", words, make)
          for name, make in MAKERS.items() for words in [("check",), ("match", "r", NAME)]]
