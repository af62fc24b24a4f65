"""Which texts the trie of a script has: how many of which length. No digest is computed.

A text is a value or the record of a node. Each pair has one value and each place of the trie one
record, and a program that gives the root has to hash each of them once, as far as they differ.
"""

from collections import Counter


def read_script(file):
    """The keys of a script, ascending, and for each the length of its value."""
    sizes = {}
    for line in file:
        _, key, value = line.split()
        key = b"" if key == b"-" else bytes.fromhex(key.decode())
        sizes[key] = 0 if value == b"-" else len(value) // 2
    keys = sorted(sizes)
    return keys, [sizes[key] for key in keys]


def shared(left, right):
    """How many nibbles two keys share from the start on."""
    size = min(len(left), len(right))
    differ = int.from_bytes(left[:size], "big") ^ int.from_bytes(right[:size], "big")
    return (8 * size - differ.bit_length()) // 4


class Texts:
    """How many texts there are of each length, and the memory usage of the whole trie."""

    def __init__(self):
        self.lengths = Counter()
        self.usage = 0

    def close(self, place, path):
        """Counts the records of a place that hangs on so many nibbles."""
        _, kids, value = place
        packed = 1 + path // 2
        self.usage += 50 + (0 if value is None else 50 + value)
        if kids == 0:
            self.lengths[49 + packed] += 1
            self.usage += 2 * packed
            return
        self.lengths[(11 if value is None else 47) + 32 * kids] += 1
        if path > 0:
            self.lengths[45 + packed] += 1
            self.usage += 50 + 2 * packed

    def count(self):
        return sum(self.lengths.values())

    def bytes(self):
        return sum(size * times for size, times in self.lengths.items())

    def blocks(self):
        """Blocks of SHA-256: each text is filled up with 9 bytes at least to whole blocks of 64."""
        return sum((size + 9 + 63) // 64 * times for size, times in self.lengths.items())


def texts_of(keys, sizes):
    """The texts of a map, from its ascending keys and the lengths of their values."""
    texts = Texts()
    # The open places from the top down: depth in nibbles, number of children, length of the value.
    open_places = []

    def close_below(depth):
        while open_places and open_places[-1][0] > depth:
            place = open_places.pop()
            above = open_places[-1][0] if open_places else -1
            if above < depth:
                open_places.append([depth, 0, None])
                above = depth
            if open_places:
                open_places[-1][1] += 1
            texts.close(place, place[0] - above - 1)

    for i, (key, size) in enumerate(zip(keys, sizes)):
        if i > 0:
            close_below(shared(keys[i - 1], key))
        open_places.append([2 * len(key), 0, size])
        texts.lengths[size] += 1
    close_below(-1)
    return texts
