#!/usr/bin/env python3
"""Makes every sample again: the sessions and the shelf from nothing, what they print from tools/outside.

    python3 samples/make.py [--into FOLDER]

The expected lines come from the outside implementation in tools/, not from the program. Standard library only.
"""
import argparse
import hashlib
import os
import sys
from math import isqrt

HERE = os.path.dirname(os.path.realpath(__file__))
sys.path.insert(0, os.path.join(HERE, "..", "tools"))
from outside import answers

LETTERS = "SOKLBEWVATX"          # the letters that this release knows


# Orders

def moves(p, n):
    """The positions one move away from p: bit 0 set, or a 1 at bit b exchanged with a 0 at bit b + 1."""
    if p % 2 == 0:
        yield p + 1
    for b in range(n - 1):
        if p >> b & 3 == 1:
            yield p + (1 << b)


def is_lawful(ranks):
    n = len(ranks).bit_length() - 1
    return sorted(ranks) == list(range(1 << n)) and all(ranks[q] < ranks[p] for p in range(1 << n) for q in moves(p, n))


def order_by_weight(n):
    """The ranks by weight, the heaviest position first. The weight of a position is the sum of 2^(b/4) over its bits b that are 1."""
    scale = 400                                                      # weights are whole numbers of 2^-100, each term rounded down
    term = [isqrt(isqrt(1 << b + scale)) for b in range(n)]          # 2^(b/4) * 2^100, less than 1 too small
    weight = [sum(term[b] for b in range(n) if p >> b & 1) for p in range(1 << n)]
    falling = sorted(range(1 << n), key=lambda p: (-weight[p], -p))
    # Each weight is less than n too small, so a gap of n or more shows that the true weights are ordered alike and that none are equal.
    assert all(weight[p] - weight[q] >= n for p, q in zip(falling, falling[1:]))
    ranks = [0] * (1 << n)
    for rank, p in enumerate(falling):
        ranks[p] = rank
    return ranks


ORDER_OF_8 = [7, 6, 5, 3, 4, 2, 1, 0]
ORDER_OF_1024 = order_by_weight(10)
NOT_LAWFUL = [7, 5, 6, 3, 4, 2, 1, 0]        # a move leads from position 1, of rank 5, to position 2, of rank 6
assert is_lawful(ORDER_OF_8) and is_lawful(ORDER_OF_1024) and not is_lawful(NOT_LAWFUL)


# Commands

def two_bytes(number):
    return number.to_bytes(2, "big")


def bits(text):
    """One byte for each character 0 or 1."""
    return bytes(int(c) for c in text)


def exponent(count):
    return bytes([count.bit_length() - 1])


def record(ranks):
    """n and the ranks: the operands of `O`, and a record of the shelf."""
    return exponent(len(ranks)) + b"".join(two_bytes(rank) for rank in ranks)


def S(slot):
    return b"S" + bytes([slot])


def O(ranks):
    return b"O" + record(ranks)


def K(k):
    return b"K" + two_bytes(k)


def L(marks):
    return b"L" + exponent(len(marks)) + marks


def E(message):
    return b"E" + message


def B(first, second):
    return b"B" + bytes([first, second])


def W(values):
    return b"W" + values


def V(values):
    return b"V" + two_bytes(len(values)) + values


def A(allowance):
    return b"A" + two_bytes(allowance)


T, X = b"T", b"X"


# The message of 512 bits: the SHA-512 of the text `polar`, the highest bit of each byte first.
MESSAGE = bits("".join("{:08b}".format(byte) for byte in hashlib.sha512(b"polar").digest()))


# The samples

LISTED = b"wl" + L(bits("00010111")) + E(bits("1011")) + E(bits("0110")) + L(bits("11111111")) + E(bits("10100101"))

RANKED = b"wr" + O(ORDER_OF_1024) + K(512) + E(MESSAGE)

# Slots 0 and 1 are lawful, slot 2 is not; the file ends within the record of slot 3.
SHELF = record(ORDER_OF_8) + record(ORDER_OF_1024) + record(NOT_LAWFUL) + record(ORDER_OF_8)[:9]
SHELVED = b"wr" + S(0) + K(4) + E(bits("1011")) + S(1) + E(bits("0110")) + K(512) + E(MESSAGE) + S(2) + S(3) + K(0) + E(b"")

# Bytes of whole numbers: bit 7 is the sign, the low seven bits the size.
NOISY = bytes.fromhex("09850505")
DECODED = b"wr" + O([3, 2, 1, 0]) + K(3) + W(NOISY) + T + A(1) + T

# The same word at caps 10 10 and 0 0, with caps changed after three steps, one step at a time, dropped half way, and cut short.
EIGHT = bytes.fromhex("8503840281050607")
STEPS = b"wr" + O(ORDER_OF_8) + K(4) + b"".join([
    W(EIGHT) + A(65535) + T,
    B(0, 0) + W(EIGHT) + A(0) + A(28) + A(1) + T,
    B(10, 10) + W(EIGHT) + A(3) + B(0, 0) + A(65535) + T,
    B(2, 10) + W(EIGHT) + A(1) * 6 + X,
    V(EIGHT[:5]) + A(100) + T,
    K(0) + W(EIGHT) + A(1) + T,
])

# The ranked code of 1024, its word received with every 37th sign turned, at sizes from 1 on; then with all sizes zero.
def received(word, size, turned):
    return bytes((bit ^ (turned(i))) << 7 | size(i) for i, bit in enumerate(word))


def word_of(session):
    line = answers(session, None, LETTERS).splitlines()[-1]
    return [byte - 48 for byte in line.split()[-1]]


SENT = word_of(RANKED)
RANKED_DECODED = RANKED + b"".join([
    W(received(SENT, lambda i: 1 + i % 100, lambda i: i % 37 == 5)) + A(65535) + T,
    W(received(SENT, lambda i: 0, lambda i: 0)) + A(1000) + A(1000) + T,
])

# Erasures: a third of the positions lost, in a listed code.
ERASED = b"el" + L(bits("0000000100010111")) + W(b"0?1?01?10?1?01?1") + A(65535) + T + W(b"0?1?01?10?1?0121") + X

RECEIVER_REFUSED = b"wl" + b"".join([
    A(1), T, X, B(1, 1), V(bits("1")),   # 17: there is no map yet
    L(bits("0111")),
    A(1), T, X,                          # 11: no word is in hand
    B(11, 0), B(0, 11),                  # 13: a cap above 10
    V(b""), V(bytes(5)),                 # 8: a short word of no byte, or of more than N
    W(NOISY), W(NOISY), V(NOISY[:1]),    # 10: a word is in hand
    L(bits("01")),                       # 10: the map is good, but a word is in hand
    T,                                   # 12: steps remain
    A(13), T,
])

# Arıkan's small examples, his position numbers bit-reversed: positions 1 0 1 1 give the word 1 1 0 1; the rows of his generator for 8; the order that his
# values for the erasure channel with half the positions lost give.
ARIKAN = b"wl" + L(bits("1111")) + E(bits("1011")) + L(bits("11111111")) + b"".join(E(bytes(i == p for i in range(8))) for p in range(8))
ARIKAN_VALUES = [255, 225, 207, 81, 175, 49, 31, 1]        # times 256, from position 0 on
ARIKAN_ORDER = b"er" + O([sorted(ARIKAN_VALUES).index(v) for v in ARIKAN_VALUES]) + K(4) + E(bits("1011"))

# Words at which a shortcut would go astray.
ASTRAY = b"wr" + b"".join([
    O([1, 0]) + K(1) + W(bytes.fromhex("0383")) + A(99) + T,            # a word of two that are repeated
    K(2) + W(bytes.fromhex("0083")) + A(99) + T,                        # a zero keeps its sign; the message is not the word
    O([3, 2, 1, 0]) + K(3) + W(NOISY) + A(99) + T,                      # among equals not the lowest position is turned
    K(1) + W(bytes.fromhex("01810100")) + A(99) + T,
])
ASTRAY_ERASURES = b"er" + O([3, 2, 1, 0]) + K(1) + W(b"010?") + A(99) + T      # Rep is no majority
ASTRAY_LISTED = b"wl" + b"".join([
    L(bits("10")) + W(bytes.fromhex("0583")) + A(99) + T,                                       # no kind: five steps
    L(bits("00100001")) + W(bytes.fromhex("8505850505050505")) + A(99) + T,                     # a listed span is not named by few looks
])

REFUSALS = b"wr" + b"".join([
    K(1),                            # 17: there is no order yet
    S(0),                            # 18: there is no such slot
    O([1, 1]),                       # 3: position 1 repeats a rank
    O([3, 2, 1, 4]),                 # 3: the rank of position 3 is not below 4
    O(NOT_LAWFUL),                   # 4: position 1 does not keep the law
    O(ORDER_OF_8),
    K(9),                            # 5: there are only 8 positions
    K(4),
    E(bits("1021")),                 # 6: byte 2 of the message
    O([1, 1]),                       # 3 again; order and map stay in force
    E(bits("1011")),
    b"O" + bytes([11]),              # 1: n is above 10, which ends the session
    K(4),                            # not read
])
REFUSED_LISTED = b"wl" + b"".join([
    L(bits("0012")),                 # 6: the mark of position 3
    L(bits("0011")),
    E(bits("12")),                   # 6: byte 1 of the message
    E(bits("11")),
    b"L" + bytes([0]),               # 1: n is 0, which ends the session
])
REFUSED_HEADER = b"xr" + O(ORDER_OF_8)               # 15: the first byte is neither `w` nor `e`
REFUSED_LETTER = b"wl" + L(bits("01")) + b"K\0\1"    # 15: `K` belongs to ranked sessions
REFUSED_CUT = b"wr" + O(ORDER_OF_8) + K(4) + E(bits("101"))    # 16: the message lacks a byte
REFUSED_NO_MAP = b"wr" + O(ORDER_OF_8) + E(bits("1011"))       # 17: an order, but no map

SAMPLES = [               # name, session, shelf (None: there is no file)
    ("listed", LISTED, None),
    ("ranked", RANKED, None),
    ("shelf/shelf", SHELVED, SHELF),
    ("decoded", DECODED, None),
    ("steps", STEPS, None),
    ("ranked-decoded", RANKED_DECODED, None),
    ("erased", ERASED, None),
    ("receiver-refused", RECEIVER_REFUSED, None),
    ("arikan", ARIKAN, None),
    ("arikan-order", ARIKAN_ORDER, None),
    ("astray", ASTRAY, None),
    ("astray-erasures", ASTRAY_ERASURES, None),
    ("astray-listed", ASTRAY_LISTED, None),
    ("refusals", REFUSALS, None),
    ("refused-listed", REFUSED_LISTED, None),
    ("refused-header", REFUSED_HEADER, None),
    ("refused-letter", REFUSED_LETTER, None),
    ("refused-cut", REFUSED_CUT, None),
    ("refused-no-map", REFUSED_NO_MAP, None),
]


def main():
    parser = argparse.ArgumentParser()
    parser.add_argument("--into", default=HERE)
    into = parser.parse_args().into

    def write(name, data):
        path = os.path.join(into, name)
        os.makedirs(os.path.dirname(path), exist_ok=True)
        with open(path, "wb") as file:
            file.write(data)

    for name, session, shelf in SAMPLES:
        write(name + ".session", session)
        write(name + ".expected", answers(session, shelf, LETTERS))
        if shelf is not None:
            write(os.path.join(os.path.dirname(name), "orders.shelf"), shelf)


if __name__ == "__main__":
    main()
