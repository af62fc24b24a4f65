#!/usr/bin/env python3
"""Writes blocks of many changes over many pairs, an input of `state_cli apply`, to standard output.

    blocks.py [PAIRS] [BLOCKS] [SIZE] [SEED]

A first block sets so many pairs (10000), a key of 32 random bytes and a value of 64 each, and the head
moves to it. So many blocks (30) of so many changes (200) follow, each over the one before: a quarter
sets a key of the first block anew, a quarter deletes one, and the others set new keys. No key is
changed twice, so that each block does as much as it would over the first alone. Behind each block the
head moves to the fourth before it.
"""

import random
import sys

BEHIND = 4


def identity(height):
    return "%064x" % height


def block_lines(height, lines):
    yield f"block {identity(height)} {identity(height - 1)} {height}\n"
    for line in lines:
        yield f"{line}\n"
    yield "end\n"
    if height == 1:
        yield f"head {identity(1)}\n"
    elif height > 1 + BEHIND:
        yield f"head {identity(height - BEHIND)}\n"


def first_block(pairs):
    """The first block of a state, whose keys are hexadecimal."""
    lines = (f"set {key} {value.hex()}" for key, value in pairs.items())
    return "".join(block_lines(1, lines)).encode()


def later_blocks(changed, first):
    """Blocks from a height on, each of whose changes are lines."""
    blocks = (block_lines(height, lines) for height, lines in enumerate(changed, first))
    return "".join(line for lines in blocks for line in lines).encode()


def make(keys, count, size, seed):
    """The changes of so many blocks over these keys, each a list of lines."""
    dice = random.Random(seed)
    held = dice.sample(keys, count * (size - size // 2))
    return [changes(dice, held[i::count], size) for i in range(count)]


def changes(dice, held, size):
    half = len(held) // 2
    lines = [f"del {key}" for key in held[:half]]
    lines += [f"set {key} {dice.randbytes(64).hex()}" for key in held[half:]]
    lines += [
        f"set {dice.randbytes(32).hex()} {dice.randbytes(64).hex()}"
        for _ in range(size - len(held))
    ]
    dice.shuffle(lines)
    return lines


def main(words):
    if len(words) > 4:
        sys.exit(__doc__)
    numbers = [int(word) for word in words]
    pairs, count, size, seed = numbers + [10000, 30, 200, 1][len(numbers):]
    dice = random.Random(seed)
    state = {dice.randbytes(32).hex(): dice.randbytes(64) for _ in range(pairs)}
    sys.stdout.buffer.write(first_block(state))
    sys.stdout.buffer.write(later_blocks(make(list(state), count, size, seed + 1), 2))


if __name__ == "__main__":
    main(sys.argv[1:])
