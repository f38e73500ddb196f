"""Models generators of salts: ChaCha20 by the block function of RFC 8439, with a block counter of 64 bits."""

from nodes import WORD

CONSTANTS = [0x61707865, 0x3320646E, 0x79622D32, 0x6B206574]
COLUMNS = [(place, place + 4, place + 8, place + 12) for place in range(4)]
DIAGONALS = [(0, 5, 10, 15), (1, 6, 11, 12), (2, 7, 8, 13), (3, 4, 9, 14)]
# The block of section 2.3.2: the key is the bytes from 0 to 31.
BLOCK = """
    e4e7f110 15593bd1 1fdd0f50 c47120a3 c7f4d1c7 0368c033 9aaa2204 4e6cd4c3
    466482d2 09aa9f07 05d7c214 a2028bd9 d19c12b5 b94e16de e883d0cb 4e3c50a2
"""


def quarter_round(state, a, b, c, d):
    for into, other, turned, bits in ((a, b, d, 16), (c, d, b, 12), (a, b, d, 8), (c, d, b, 7)):
        state[into] = (state[into] + state[other]) & WORD
        word = state[turned] ^ state[into]
        state[turned] = (word << bits | word >> (32 - bits)) & WORD


def block(state):
    """The sixteen words that a state of sixteen words leads to."""
    working = list(state)
    for _ in range(10):
        for places in COLUMNS + DIAGONALS:
            quarter_round(working, *places)
    return [(word + start) & WORD for word, start in zip(working, state)]


def words_of(data):
    """Little-endian words of some bytes."""
    return [int.from_bytes(data[place : place + 4], "little") for place in range(0, len(data), 4)]


def has_block():
    """Whether the block of RFC 8439 is worked out as it stands there."""
    state = CONSTANTS + words_of(bytes(range(32))) + [1] + words_of(bytes.fromhex("000000090000004a00000000"))
    return block(state) == [int(word, 16) for word in BLOCK.split()]


class Generator:
    """The stream of a key of 32 bytes."""

    def __init__(self, key):
        self.key, self.counter, self.words = words_of(key), 0, []

    def next_u64(self):
        """The next two words of the stream, the low one first."""
        if not self.words:
            self.words = block(CONSTANTS + self.key + [self.counter & WORD, self.counter >> 32, 0, 0])[::-1]
            self.counter += 1
        return self.words.pop() | self.words.pop() << 32

    def salt(self):
        """The low word of the next number."""
        return self.next_u64() & WORD

    def fork(self):
        """The generator whose key is what this one gives next."""
        return Generator(b"".join(self.next_u64().to_bytes(8, "little") for _ in range(4)))


class Counting:
    """A generator whose words go up by a step; a salt is the lowest bits of one."""

    def __init__(self, first, step, mask=WORD):
        self.next, self.step, self.mask = first, step, mask

    def salt(self):
        word, self.next = self.next, self.next + self.step
        return word & self.mask
