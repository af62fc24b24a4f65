#!/usr/bin/env python3
"""Writes a script of `set` lines to standard output, the same for the same words.

    gen.py FORM [PAIRS] [SEED]

random     so many pairs in random order: a key is a zero byte and the name of an account, a name of
           10 to 24 letters and digits with `.near` behind it or, of each four, one of 64 hexadecimal
           digits; a value has 64 random bytes
ascending  the same pairs with the keys ascending, so that the root is the same
big        values of 4 MiB, 64 of them where PAIRS is left out
nested     keys of 0 to 2,114 bytes, each a prefix of the next, in random order; PAIRS is 2,115
deep       a key of 2,114 bytes and for each of its nibbles a key that parts from it there, in random
           order: a branch at each of 4,228 depths, the deepest trie that there is; PAIRS is 4,229
comb       4,212 keys that part so from 2,106 bytes, and keys of these and 8 random bytes, in random
           order: all of the latter lie below a branch at each of 4,212 depths
"""

import random
import sys

LONGEST_KEY = 2114
LONGEST_VALUE = 4194304
LETTERS = "abcdefghijklmnopqrstuvwxyz0123456789"
USUAL = {
    "random": 20000,
    "ascending": 20000,
    "big": 64,
    "nested": LONGEST_KEY + 1,
    "deep": 2 * LONGEST_KEY + 1,
    "comb": 20000,
}


def pairs_of(form, pairs, seed):
    """The pairs of a form, one after another."""
    dice = random.Random(seed)
    if form == "random":
        for _ in range(pairs):
            yield account_key(dice), dice.randbytes(64)
    elif form == "ascending":
        yield from sorted(pairs_of("random", pairs, seed))
    elif form == "big":
        for _ in range(pairs):
            yield dice.randbytes(32), dice.randbytes(LONGEST_VALUE)
    else:
        keys = KEYS[form](dice, pairs)
        dice.shuffle(keys)
        for key in keys[:pairs]:
            yield key, dice.randbytes(32)


def account_key(dice):
    if dice.randrange(4) == 0:
        name = dice.randbytes(32).hex()
    else:
        name = "".join(dice.choices(LETTERS, k=dice.randint(10, 24))) + ".near"
    return b"\0" + name.encode()


def nested_keys(dice, _):
    longest = dice.randbytes(LONGEST_KEY)
    return [longest[:size] for size in range(LONGEST_KEY + 1)]


def deep_keys(dice, _):
    longest = dice.randbytes(LONGEST_KEY)
    return [longest] + parting_keys(longest)


def comb_keys(dice, pairs):
    prefix = dice.randbytes(LONGEST_KEY - 8)
    keys = parting_keys(prefix)
    return keys + [prefix + dice.randbytes(8) for _ in range(pairs - len(keys))]


def parting_keys(prefix):
    """For each nibble of some bytes a key that parts from them there."""
    keys = []
    for size, byte in enumerate(prefix):
        keys.append(prefix[:size] + bytes([byte ^ 0x10]))
        keys.append(prefix[:size] + bytes([byte ^ 0x01]))
    return keys


KEYS = {"nested": nested_keys, "deep": deep_keys, "comb": comb_keys}


def write_script(out, form, pairs, seed):
    for key, value in pairs_of(form, pairs, seed):
        out.write(b"set %s %s\n" % (spelled(key), spelled(value)))


def spelled(data):
    return data.hex().encode() or b"-"


def main(words):
    if not 1 <= len(words) <= 3 or words[0] not in USUAL:
        sys.exit(__doc__)
    form = words[0]
    pairs = int(words[1]) if len(words) > 1 else USUAL[form]
    seed = int(words[2]) if len(words) > 2 else 1
    if pairs < 1 or (form in ("nested", "deep") and pairs > USUAL[form]):
        sys.exit("gen.py: no such number of pairs")
    write_script(sys.stdout.buffer, form, pairs, seed)


if __name__ == "__main__":
    main(sys.argv[1:])
