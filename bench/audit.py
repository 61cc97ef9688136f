"""A write's tree and its audit in plain numbers, as a server's operator can compute them from what the server has."""

import functools
import struct

MASK = 0xFFFFFFFF

# -- ChaCha20 with a counter and a stream number of 64 bits, and the tree of a point function


def chacha_block(key, counter, stream):
    begin = [0x61707865, 0x3320646E, 0x79622D32, 0x6B206574, *struct.unpack("<8I", key)]
    begin += [counter & MASK, counter >> 32 & MASK, stream & MASK, stream >> 32 & MASK]
    words = begin[:]

    def quarter(a, b, c, d):
        for x, y, z, turn in ((a, b, d, 16), (c, d, b, 12), (a, b, d, 8), (c, d, b, 7)):
            words[x] = words[x] + words[y] & MASK
            mixed = words[z] ^ words[x]
            words[z] = (mixed << turn | mixed >> 32 - turn) & MASK

    for _ in range(10):
        for column in range(4):
            quarter(column, column + 4, column + 8, column + 12)
        for column in range(4):
            quarter(column, 4 + (column + 1) % 4, 8 + (column + 2) % 4, 12 + (column + 3) % 4)
    return struct.pack("<16I", *[(a + b) & MASK for a, b in zip(words, begin)])


def stream_bytes(key, stream, start, count):
    first, last = start // 64, (start + count - 1) // 64
    blocks = b"".join(chacha_block(key, number, stream) for number in range(first, last + 1))
    return blocks[start - 64 * first : start - 64 * first + count]


def number(part):
    return int.from_bytes(part, "little")


def node_key(state):
    return (state & ~1).to_bytes(16, "little") + bytes(16)


def children(state):
    pair = stream_bytes(node_key(state), 0, 0, 32)
    return number(pair[:16]), number(pair[16:])


def block(count, state):
    return stream_bytes(node_key(state), 1, 0, count)


def xor(*parts):
    return bytes(functools.reduce(lambda a, b: a ^ b, column) for column in zip(*parts))


class PublicPart:
    """128 words, 128 right bits and the last correction."""

    def __init__(self, part):
        self.words = [number(part[16 * level : 16 * level + 16]) for level in range(128)]
        self.rights, self.last = number(part[2048:2064]), part[2064:]

    def walk(self, state, address, first=0, past=128):
        """A server's state past these levels on the way to an address, from the one before them."""
        for level in range(first, past):
            word, side = self.words[level], address >> 127 - level & 1
            raw = children(state)[side]
            correction = word if side == 0 else word & ~1 | self.rights >> level & 1
            state = raw ^ correction if state & 1 else raw
        return state

    def leaf(self, server, root, address):
        """A server's leaf of an address."""
        return self.walk(root & ~1 | server, address)

    def added(self, leaf):
        """What a write adds to a server's share of the box at which it has this leaf."""
        own = block(len(self.last), leaf)
        return xor(self.last, own) if leaf & 1 else own

    def message(self, leaf, other):
        """What a write puts into the box at which the servers have these leaves."""
        return xor(self.last, block(len(self.last), leaf), block(len(self.last), other))


def challenge(ckey, address):
    pair = stream_bytes(ckey, address % 2**64, 64 * (address >> 64), 32)
    return number(pair[:16]), number(pair[16:])


# -- the field of 2^128 elements; a sum is an XOR


def product(a, b, level=7):
    if a == 0 or b == 0 or level == 0:
        return a & b
    half = 1 << level - 1
    low = (1 << half) - 1
    high = product(a >> half, b >> half, level - 1)
    least = product(a & low, b & low, level - 1)
    cross = product(a & low ^ a >> half, b & low ^ b >> half, level - 1) ^ high ^ least
    twist = 1 if level == 1 else 1 << (half >> 1)
    return (cross ^ product(twist, high, level - 1)) << half | least ^ high


def inverse(a):
    result, square = 1, a
    for _ in range(127):
        square = product(square, square)
        result = product(result, square)
    return result


def through(at0, at1, at2):
    """The polynomial of degree at most 2 that has these values at 0, 1 and 2."""
    square = at0 ^ at2 ^ product(2, at0 ^ at1)
    return [at0, square ^ at0 ^ at1, square]


def value(polynomial, point):
    return functools.reduce(lambda sum, coefficient: product(sum, point) ^ coefficient, reversed(polynomial), 0)


# -- the audit


class Share:
    """A server's share of a proof: the ten words u, v, h (five), a, b, c."""

    def __init__(self, body):
        words = [number(body[16 * place : 16 * place + 16]) for place in range(10)]
        self.u, self.v, self.h, (self.a, self.b, self.c) = words[0], words[1], words[2:7], words[7:]


class Sums:
    """x, y, M and z of a server's leaves, under the challenges of the addresses."""

    def __init__(self, leaves, challenges):
        self.x = self.y = self.m = self.z = 0
        for leaf, (r, s) in zip(leaves, challenges):
            by_r = product(leaf, r)
            self.x, self.y, self.m, self.z = self.x ^ by_r, self.y ^ product(leaf, s), self.m ^ leaf, self.z ^ product(by_r, s)

    def open(self, share, point):
        """What a server opens: f at the point and a, and the point times g there and b."""
        f, g = through(share.u, self.x, self.m), through(share.v, self.y, self.z)
        return value(f, point) ^ share.a, product(point, value(g, point)) ^ share.b
