#!/usr/bin/env python3
"""Writes lookups, an input of trie_bench, to standard output, the same for the same words.

    lookups.py [PAIRS] [LOOKUPS] [SEED] [WORD]

The texts of the trie of so many pairs (200000), in random order: a key has 32 random bytes, a value
64. Then the root, and so many lookups (1000000) in random order, each of a pair's key or, half of
them, of another. WORD is `get`, or `key` where keys are read and not looked up.
"""

import random
import sys
from hashlib import sha256


def packed(path, ends):
    """The nibbles of a path, two to a byte, behind their flags."""
    flags = 2 if ends else 0
    digits = "%x%s" % (flags + 1, path) if len(path) % 2 else "%x0%s" % (flags, path)
    return borsh(bytes.fromhex(digits))


def borsh(data):
    return len(data).to_bytes(4, "little") + data


class Trie:
    """All texts of a trie, its root and its usage. Keys are hexadecimal, none is a prefix of another."""

    def __init__(self, pairs):
        self.pairs = pairs
        self.keys = sorted(pairs)
        self.texts = set()
        self.root, self.usage = self.place(0, len(self.keys), 0)

    def add(self, text):
        self.texts.add(text)
        return sha256(text).digest()

    def place(self, start, end, depth):
        """The digest and the usage of the place at a depth with these keys below."""
        first, last = self.keys[start], self.keys[end - 1]
        if end - start == 1:
            value = self.pairs[first]
            path = packed(first[depth:], True)
            usage = 100 + len(value) + 2 * (len(path) - 4)
            body = b"\0" + path + len(value).to_bytes(4, "little") + self.add(value)
            return self.add(body + usage.to_bytes(8, "little")), usage
        fork = depth
        while first[fork] == last[fork]:
            fork += 1
        digest, usage = self.branch(start, end, fork)
        if fork > depth:
            path = packed(first[depth:fork], False)
            usage += 50 + 2 * (len(path) - 4)
            digest = self.add(b"\3" + path + digest + usage.to_bytes(8, "little"))
        return digest, usage

    def branch(self, start, end, depth):
        bits, digests, usage = 0, [], 50
        while start < end:
            nibble = self.keys[start][depth]
            stop = start
            while stop < end and self.keys[stop][depth] == nibble:
                stop += 1
            digest, below = self.place(start, stop, depth + 1)
            bits |= 1 << int(nibble, 16)
            digests.append(digest)
            usage += below
            start = stop
        body = b"\1" + bits.to_bytes(2, "little") + b"".join(digests)
        return self.add(body + usage.to_bytes(8, "little")), usage


def make(pairs, lookups, seed):
    """A trie, its texts in random order, and the keys that are looked up."""
    dice = random.Random(seed)
    trie = Trie({dice.randbytes(32).hex(): dice.randbytes(64) for _ in range(pairs)})
    texts = sorted(trie.texts)
    dice.shuffle(texts)
    keys = [dice.choice(trie.keys) if i % 2 else dice.randbytes(32).hex() for i in range(lookups)]
    dice.shuffle(keys)
    return trie, texts, keys


def text_lines(trie, texts):
    """The lines that have a program hold the texts, and work below the root."""
    lines = [b"text %s\n" % text.hex().encode() for text in texts]
    return b"".join(lines) + b"root %s\n" % trie.root.hex().encode()


def key_lines(keys, word):
    return "".join(f"{word} {key}\n" for key in keys).encode()


def main(words):
    if len(words) > 4 or (len(words) == 4 and words[3] not in ("get", "key")):
        sys.exit(__doc__)
    numbers = [int(word) for word in words[:3]]
    pairs, lookups, seed = numbers + [200000, 1000000, 1][len(numbers):]
    trie, texts, keys = make(pairs, lookups, seed)
    sys.stdout.buffer.write(text_lines(trie, texts))
    sys.stdout.buffer.write(key_lines(keys, words[3] if len(words) == 4 else "get"))


if __name__ == "__main__":
    main(sys.argv[1:])
