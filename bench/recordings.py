#!/usr/bin/env python3
"""Writes a block of many pairs, an input of `state_cli prove`, to standard output, or with a third
word operations at it, one a line.

    recordings.py [PAIRS] [SEED] [OPERATIONS]

So many pairs (200000), a key of 4 random bytes and a value of 8 each. Of the operations seven in ten
read a key, two set one, and one deletes one; one key in eleven is not held. All of them have room in
the words of a command.
"""

import random
import sys

BLOCK = "%064x" % 1


def make(pairs, seed):
    """The keys, in hexadecimal, and the lines of the block that sets them."""
    dice = random.Random(seed)
    keys = ["%08x" % number for number in dice.sample(range(2**32), pairs)]
    lines = [f"set {key} {dice.randbytes(8).hex()}\n" for key in keys]
    return keys, f"block {BLOCK} {'0' * 64} 1\n{''.join(lines)}end\n".encode()


def operations(keys, count, seed):
    """The words of so many operations."""
    dice = random.Random(seed)
    return [operation(dice, keys) for _ in range(count)]


def operation(dice, keys):
    key = dice.choice(keys) if dice.randrange(11) else "%08x" % dice.randrange(2**32)
    kind = dice.randrange(10)
    if kind < 7:
        return f"?{key}"
    return f"+{key}={dice.randbytes(8).hex()}" if kind < 9 else f"-{key}"


def text_sizes(recording):
    """The lengths of the texts of a recording, which stand behind its operations."""
    at = 32

    def number():
        nonlocal at
        at += 4
        return int.from_bytes(recording[at - 4:at], "little")

    def vector():
        nonlocal at
        size = number()
        at += size
        return size

    for _ in range(number()):
        vector()
    for _ in range(number()):
        vector()
        at += 1
        if recording[at - 1]:
            vector()
    at += 1
    return [vector() for _ in range(number())]


def main(words):
    pairs, seed, count = [int(word) for word in words] + [200000, 1, 0][len(words):]
    keys, block = make(pairs, seed)
    if count:
        print(*operations(keys, count, seed + 1), sep="\n")
    else:
        sys.stdout.buffer.write(block)


if __name__ == "__main__":
    main(sys.argv[1:])
