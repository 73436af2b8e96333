"""Streams of keys on a real table, for `tests/real.py` and `bench/run.py`."""
import array
import itertools
import random
import sys

SHIFT = 0xFFE1
DELETE = 0xFFFF
# those that both programs ignore
MODIFIERS = [*range(0xFFE1, 0xFFEF), *range(0xFE01, 0xFE10), 0xFF7E, 0xFF7F]


def first_keys(parts, count):
    """The first keys of endless parts, this many."""
    return array.array("I", itertools.islice(itertools.chain.from_iterable(parts), count))


def typed_parts(keys_of, chance):
    """What people type, as `stream` says."""
    while True:
        what = chance.random()
        sequence = chance.choice(keys_of)
        if what < 0.60:
            yield sequence
        elif what < 0.85:
            yield [chance.randrange(0x61, 0x7B)]
        elif what < 0.95:
            yield sequence[: chance.randrange(1, max(2, len(sequence)))] + [DELETE]
        else:
            yield sequence[:1] + [SHIFT] + sequence[1:]


def stream(keys_of, count, seed):
    """60 % whole sequences, 25 % plain keys, 10 % a prefix of a sequence and a key that ends it, 5 % a sequence with Shift inside."""
    return first_keys(typed_parts(keys_of, random.Random(seed)), count)


def random_parts(keys_of, chance):
    """Keys in no order that makes sense, as `random_keys` says."""
    pool = sorted({key for sequence in keys_of for key in sequence}) + MODIFIERS
    while True:
        what = chance.random()
        sequence = chance.choice(keys_of)
        if what < 0.5:
            yield sequence
        elif what < 0.7:
            yield sequence[: chance.randrange(len(sequence))]
        else:
            yield [chance.choice(pool)]


def random_keys(keys_of, count, seed):
    """Keys of sequences, of prefixes of them, and any keysyms of the table in any order, with modifiers among them."""
    return first_keys(random_parts(keys_of, random.Random(seed)), count)


def write(keys, path):
    """Writes the keys, four bytes each, the lowest first."""
    if sys.byteorder == "big":
        keys.byteswap()
    with open(path, "wb") as file:
        keys.tofile(file)
