#!/usr/bin/env python3
"""Writes a history of blocks, an input of `state_cli apply`, to standard output.

    histories.py [FORM] [BLOCKS]

`line`    BLOCKS blocks, each over the one before, that set one of 16 keys in turn, and a reading
          of another of them at each
`grown`   the same, but each block sets a key of its own, so that the state grows by one pair a block
`forks`   BLOCKS blocks over the start, that set one key each, and a reading at each; then the head
          moves to the last, and the others are dropped
`deep`    a line as `line`, and then 20,000 readings at its last block of a key that none has
`moves`   a line as `line`, in which the head moves to each block at once
"""

import sys

FORMS = ("line", "grown", "forks", "deep", "moves")
READS = 20000


def identity(block):
    return b"%064x" % block


def key(form, block):
    return b"%08x" % (block if form in ("grown", "forks") else block % 16)


def told(form, block):
    """The lines of one block."""
    prev = 0 if form == "forks" else block - 1
    yield b"block %s %s %d\n" % (identity(block), identity(prev), block)
    yield b"set %s %016x\n" % (key(form, block), block)
    yield b"end\n"


def lines(form, blocks):
    for block in range(1, blocks + 1):
        yield from told(form, block)
        if form == "moves":
            yield b"head %s\n" % identity(block)
        elif form != "deep":
            yield b"flat %s %s\n" % (identity(block), key(form, block + 8))
    if form == "forks":
        yield b"head %s\n" % identity(blocks)
    if form == "deep":
        for _ in range(READS):
            yield b"flat %s ff\n" % identity(blocks)


def replies(form, blocks):
    """How many lines the program writes."""
    return {"deep": blocks + READS, "forks": 2 * blocks + 1}.get(form, 2 * blocks)


def write_input(out, form, blocks):
    out.writelines(lines(form, blocks))


def main(words):
    form, blocks = (words + ["line", "1000"][len(words):])[:2]
    if len(words) > 2 or form not in FORMS:
        sys.exit(__doc__)
    write_input(sys.stdout.buffer, form, int(blocks))


if __name__ == "__main__":
    main(sys.argv[1:])
