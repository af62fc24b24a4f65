#!/usr/bin/env python3
"""Writes batches of changes, an input of trie_bench, to standard output, the same for the same words.

    batches.py [PAIRS] [SIZE] [BATCHES] [SEED] [KIND] [WORD..]

The texts of the trie of so many pairs (20000), in random order: a key has 32 random bytes, a value 64.
Then the root, and so many batches (100) of so many changes (20): one in two is of a key that is held,
which KIND `sets` sets and KIND `deletes` deletes; the others set new keys. Behind each batch stand
the words: `skip`, or `update` and maybe `hash`, once or more. All batches are of the same trie.
"""

import random
import sys

import lookups

KINDS = ("sets", "deletes")
WORDS = ("skip", "update", "hash")


def make(pairs, size, count, seed, kind):
    """A trie, its texts in random order, and the batches, each a list of lines."""
    trie, texts, _ = lookups.make(pairs, 0, seed)
    dice = random.Random(seed + 1)
    return trie, texts, [batch(dice, trie.keys, size, kind) for _ in range(count)]


def batch(dice, keys, size, kind):
    held = size - size // 2
    changed = dice.sample(keys, held) if held <= len(keys) else list(keys)
    lines = [
        f"del {key}" if kind == "deletes" else f"set {key} {dice.randbytes(64).hex()}"
        for key in changed
    ]
    for _ in range(size - len(lines)):
        lines.append(f"set {dice.randbytes(32).hex()} {dice.randbytes(64).hex()}")
    dice.shuffle(lines)
    return lines


def batch_lines(batches, endings):
    """The batches, each with some words behind it."""
    ending = "".join(f"{word}\n" for word in endings)
    return "".join("".join(f"{line}\n" for line in lines) + ending for lines in batches).encode()


def main(words):
    kind, ending = (words[4:5] or ["deletes"])[0], words[5:] or ["update"]
    if kind not in KINDS or not set(ending) <= set(WORDS):
        sys.exit(__doc__)
    numbers = [int(number) for number in words[:4]]
    pairs, size, count, seed = numbers + [20000, 20, 100, 1][len(numbers):]
    trie, texts, made = make(pairs, size, count, seed, kind)
    sys.stdout.buffer.write(lookups.text_lines(trie, texts))
    sys.stdout.buffer.write(batch_lines(made, ending))


if __name__ == "__main__":
    main(sys.argv[1:])
