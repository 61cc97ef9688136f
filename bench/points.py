"""What a write adds to a box: the sum of both servers' write bytes at its address, by its two roots and its public part. The
definitions are those of crates/dpf_rules/specs (Walk, Expansion), written once more in Python alone."""

import struct

LEVELS = 128          # of the tree: an address has so many bits
RIGHTS = 16 * LEVELS  # offset of the right bits in a public part, behind a word of 16 bytes for each level
LAST = RIGHTS + 16    # offset of the last correction, which is as long as a message
CONSTANTS = (0x61707865, 0x3320646E, 0x79622D32, 0x6B206574)
ROUND = ((0, 4, 8, 12), (1, 5, 9, 13), (2, 6, 10, 14), (3, 7, 11, 15),
         (0, 5, 10, 15), (1, 6, 11, 12), (2, 7, 8, 13), (3, 4, 9, 14))
CHILDREN, BLOCK = 0, 1  # streams of a state's key


def turned(word, bits):
    return (word << bits | word >> (32 - bits)) & 0xFFFFFFFF


def quarter(words, a, b, c, d):
    """The quarter round of RFC 8439, section 2.1."""
    words[a] = words[a] + words[b] & 0xFFFFFFFF
    words[d] = turned(words[d] ^ words[a], 16)
    words[c] = words[c] + words[d] & 0xFFFFFFFF
    words[b] = turned(words[b] ^ words[c], 12)
    words[a] = words[a] + words[b] & 0xFFFFFFFF
    words[d] = turned(words[d] ^ words[a], 8)
    words[c] = words[c] + words[d] & 0xFFFFFFFF
    words[b] = turned(words[b] ^ words[c], 7)


def stream_block(key, stream, count):
    """Block `count` of 64 bytes of a key's stream, by ChaCha20 with a counter and a stream number of 64 bits each."""
    first = [*CONSTANTS, *struct.unpack("<8I", key), *struct.unpack("<4I", struct.pack("<QQ", count, stream))]
    words = list(first)
    for _ in range(10):
        for places in ROUND:
            quarter(words, *places)
    return struct.pack("<16I", *(one + other & 0xFFFFFFFF for one, other in zip(words, first)))


def node_key(state):
    """A state is a number of 128 bits, whose lowest is its control bit."""
    return (state & ~1).to_bytes(16, "little") + bytes(16)


def next_state(part, level, side, state):
    """The child of a state on a side, corrected where the state's control bit is 1."""
    raw = stream_block(node_key(state), CHILDREN, 0)[16 * side : 16 * side + 16]
    child = int.from_bytes(raw, "little")
    if state & 1 == 0:
        return child
    word = int.from_bytes(part[16 * level : 16 * level + 16], "little")
    right = part[RIGHTS + level // 8] >> level % 8 & 1
    return child ^ (word & ~1 | right if side else word)


def leaf_number(part, leaf):
    """A server's write bytes at a leaf, as a number: its block, and the last correction where its control bit is 1."""
    last = part[LAST:]
    block = b"".join(stream_block(node_key(leaf), BLOCK, count) for count in range(-(-len(last) // 64)))
    own = int.from_bytes(block[:len(last)], "big")
    return own ^ int.from_bytes(last, "big") if leaf & 1 else own


def sum_at(part, roots, address):
    """The sum of both servers' write bytes at an address. Where both come to one state, all below it is the same for both."""
    states = [root & ~1 | server for server, root in enumerate(roots)]
    for level in range(LEVELS):
        if states[0] == states[1]:
            return bytes(len(part) - LAST)
        side = address >> (LEVELS - 1 - level) & 1
        states = [next_state(part, level, side, state) for state in states]
    total = leaf_number(part, states[0]) ^ leaf_number(part, states[1])
    return total.to_bytes(len(part) - LAST, "big")
