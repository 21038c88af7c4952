#!/usr/bin/env python3
"""Random sessions and shelves, right and wrong ones, from a seed.

    make_sessions.py --seed SEED --count COUNT --out FOLDER [--letters LETTERS]

writes NNNNNN.session and NNNNNN.shelf (none where the shelf is to be missing). The same seed, number
and letters give the same session. As a module: make(seed, index, letters) -> (session, shelf or None).

While a session is written it is also run by the outside implementation, one command at a time, only
to know what state it is in, so that most commands make sense there.
"""
import argparse
import os
import random
import sys

HERE = os.path.dirname(os.path.realpath(__file__))
sys.path.insert(0, HERE)
from outside.codes import encode, moves
from outside.session import ALL_LETTERS, LARGEST, Session

SIZES_OF_N = [0, 20, 20, 20, 16, 12, 9, 6, 5, 4, 4]        # how often each n; index is n


def some_n(rng, most=10):
    return rng.choices(range(1, most + 1), SIZES_OF_N[1:most + 1])[0]


def two(number):
    return bytes([number >> 8, number & 255])


# ---- orders

def lawful_by_weights(rng, n):
    """Each bit has a weight, larger for higher bits, so that every move gains. Heavier is more
    reliable; equal weights in random order."""
    style, weights, now = rng.randrange(3), [], 0
    for b in range(n):
        now += rng.randint(1, 3) if style == 0 else 1 if style == 1 else rng.randint(1, 2 ** (b + 1))
        weights.append(now)
    weight = [sum(w for b, w in enumerate(weights) if p >> b & 1) for p in range(2 ** n)]
    best_first = sorted(range(2 ** n), key=lambda p: (-weight[p], rng.random()))
    return ranks_of(best_first)


def lawful_by_moves(rng, n):
    """A random order in which every position comes after all that one move leads to."""
    waits, frees = {}, {p: [] for p in range(2 ** n)}
    for p in range(2 ** n):
        targets = moves(p, n)
        waits[p] = len(targets)
        for q in targets:
            frees[q].append(p)
    free, best_first = [p for p in waits if waits[p] == 0], []
    style = rng.randrange(3)
    while free:
        free.sort()
        p = free.pop(rng.randrange(len(free)) if style == 0 else rng.choice((0, -1)) if style == 1 else -1)
        best_first.append(p)
        for q in frees[p]:
            waits[q] -= 1
            if waits[q] == 0:
                free.append(q)
    return ranks_of(best_first)


def ranks_of(best_first):
    ranks = [0] * len(best_first)
    for rank, p in enumerate(best_first):
        ranks[p] = rank
    return ranks


def lawful(rng, n):
    return rng.choice((lawful_by_weights, lawful_by_moves))(rng, n)


def wrong_ranks(rng, n):
    """Mostly refused ranks, some still lawful by chance."""
    N = 2 ** n
    ranks, style = lawful(rng, n), rng.randrange(9)
    if style == 0:                                         # two neighbours in rank exchanged
        r = rng.randrange(N - 1)
        p, q = ranks.index(r), ranks.index(r + 1)
        ranks[p], ranks[q] = r + 1, r
    elif style == 1:                                       # the two ends of one move exchanged
        p = rng.randrange(N - 1)
        q = rng.choice(moves(p, n))
        ranks[p], ranks[q] = ranks[q], ranks[p]
    elif style == 2:
        p, q = rng.randrange(N), rng.randrange(N)
        ranks[p], ranks[q] = ranks[q], ranks[p]
    elif style == 3:
        rng.shuffle(ranks)
    elif style == 4:                                       # a repeated rank
        ranks[rng.randrange(N)] = ranks[rng.randrange(N)]
    elif style == 5:                                       # a rank too large
        ranks[rng.randrange(N)] = rng.choice((N, N + 1, 1024, 256 * rng.randrange(256), 65535, rng.randrange(65536)))
    elif style == 6:                                       # several wrongs at once
        rng.shuffle(ranks)
        for _ in range(rng.randint(1, 3)):
            ranks[rng.randrange(N)] = rng.choice((rng.randrange(N), N, 65535))
    elif style == 7:                                       # the other way round
        ranks = [N - 1 - r for r in ranks]
    else:                                                  # low byte first
        ranks = [(r & 255) << 8 | r >> 8 for r in ranks]
    return ranks


def rank_bytes(ranks):
    return b"".join(two(rank) for rank in ranks)


def record(rng, n):
    return bytes([n]) + rank_bytes(lawful(rng, n) if rng.random() < 0.75 else wrong_ranks(rng, n))


# ---- the shelf

def some_shelf(rng):
    if rng.random() < 0.06:
        return None
    if rng.random() < 0.05:
        return b""
    if rng.random() < 0.03:                                # more slots than a byte can name
        records = [record(rng, rng.choice((1, 1, 1, 2))) for _ in range(rng.randint(250, 262))]
    else:
        records = [record(rng, some_n(rng, 10 if rng.random() < 0.1 else 6)) for _ in range(rng.randint(1, 7))]
    if rng.random() < 0.2:                                 # an n out of range in the middle
        n = rng.choice((0, 11, 12, 128, 255, 0x4F))
        wrong = bytes(rng.choice((0, 3, 4)))
        if n <= 11 and rng.random() < 0.7:                 # all bytes such a record would have
            wrong = rank_bytes([2 ** n - 1 - p for p in range(2 ** n)])
        records.insert(rng.randint(0, len(records)), bytes([n]) + wrong)
    shelf = b"".join(records)
    if rng.random() < 0.2:                                 # cut short
        cut = rng.choice((1, 1, 2, len(records[-1]) - 1, rng.randint(1, len(records[-1]))))
        shelf = shelf[:-cut]
    elif rng.random() < 0.1:
        shelf += bytes([rng.randrange(256) for _ in range(rng.randint(1, 6))])
    if rng.random() < 0.004:                               # as long as may be, and longer
        length = rng.choice((LARGEST, LARGEST, LARGEST + 1, LARGEST + 1, LARGEST + 700))
        while len(shelf) < length:
            shelf += record(rng, 1) * rng.randint(1, 2000)
        shelf = shelf[:length]
    return shelf[:LARGEST + 1000]


# ---- marks, words, messages

def some_marks(rng, T):
    """Marks with spans of all kinds at all lengths, and some that nearly have a kind."""
    style = rng.random()
    if T == 1:
        return [rng.randrange(2)]
    if style < 0.5:
        return some_marks(rng, T // 2) + some_marks(rng, T // 2)
    marks = rng.choice(([0] * T, [1] * T, [0] * (T - 1) + [1], [0] + [1] * (T - 1)))
    if style < 0.6:
        marks[rng.randrange(T)] ^= 1
    return marks


def listed_marks(rng, N):
    style = rng.randrange(5)
    if style == 0:
        dense = rng.random()
        return [1 if rng.random() < dense else 0 for _ in range(N)]
    if style == 1:                                         # like a ranked map
        n = N.bit_length() - 1
        K = rng.randint(0, N)
        return [1 if r < K else 0 for r in lawful(rng, n)]
    return some_marks(rng, N)


def whole_bytes(rng, signs):
    style = rng.randrange(6)
    size = {0: lambda: rng.randrange(128), 1: lambda: rng.randint(1, 3), 2: lambda: rng.randint(0, 2),
            3: lambda: 0, 4: lambda: 127, 5: lambda: rng.choice((0, 5, 5, 5, 127))}[style]
    return bytes([sign << 7 | size() for sign in signs])


def some_word(rng, map, kind, length, wrong=0.12):
    """`length` bytes: an encoded word with some signs turned, or signs by chance."""
    if rng.random() < 0.7:
        signs = encode(map, [rng.randrange(2) for _ in map.informed()])
        turned = rng.choice((0, 0, 0.03, 0.1, 0.2))
        signs = [s ^ (rng.random() < turned) for s in signs]
    else:
        signs = [rng.randrange(2) for _ in range(map.N)]
    signs = (signs + [rng.randrange(2) for _ in range(length)])[:length]
    if rng.random() < 0.15:                                # strong halves against each other
        b = rng.randrange(map.n)
        signs = [p >> b & 1 ^ (rng.random() < 0.02) for p in range(length)]
        if kind == "w":
            weak = rng.randrange(2)
            return bytes(s << 7 | (rng.choice((127, 127, 126, 120)) if s == weak else 127) for s in signs)
    if kind == "w":
        return whole_bytes(rng, signs)
    lost = rng.choice((0, 0.1, 0.3, 0.6, 1))
    data = bytearray(0x3F if rng.random() < lost else 0x30 + s for s in signs)
    if data and rng.random() < wrong:                      # bytes that do not read
        for _ in range(rng.randint(1, 2)):
            data[rng.randrange(len(data))] = rng.choice((0, 1, 0x2F, 0x32, 0x3E, 0x40, 0xB0, 0xB1, 0xBF, rng.randrange(256)))
    return bytes(data)


def some_message(rng, count):
    message = bytearray(rng.randrange(2) for _ in range(count))
    if count and rng.random() < 0.12:
        for _ in range(rng.randint(1, 2)):
            message[rng.randrange(count)] = rng.choice((2, 3, 0x30, 0x31, 0x80, 0xFF))
    return bytes(message)


# ---- commands

class Maker:
    def __init__(self, rng, kind, make, shelf, letters):
        self.rng, self.kind, self.make, self.letters = rng, kind, make, frozenset(letters)
        self.session = Session(kind, make, shelf or b"", letters)
        self.most_n = rng.choice((2, 3, 4, 6, 10, 10))
        self.patience = rng.choice((1, 3, 8, 40, 300, 65535))      # how large advances tend to be
        self.restless = rng.choice((0.3, 1, 1, 4))                 # how often caps change

    def state(self):
        """(order in force?, map in force?, 'idle' | 'working' | 'finished')"""
        receiver = self.session.receiver
        if receiver is None or not receiver.in_hand():
            hand = "idle"
        else:
            hand = "finished" if receiver.finished() else "working"
        return self.session.order is not None, self.session.map is not None, hand

    def weights(self):
        order, map, hand = self.state()
        if not map:
            likes = dict(B=.3, V=.3, A=.2, T=.2, X=.2, E=.06, W=.06, L=8)
            likes.update(dict(O=1, S=1, K=8) if order else dict(O=4, S=3, K=.6))
        elif hand == "idle":
            likes = dict(O=1.5, S=1, K=3, L=3, E=3, B=1.5, W=6, V=4, A=.4, T=.3, X=.3)
        elif hand == "working":
            likes = dict(O=.4, S=.3, K=.5, L=.5, E=.6, B=2.5 * self.restless, W=.3, V=.3, A=9, T=.7, X=.4)
        else:
            likes = dict(O=.3, S=.3, K=.4, L=.3, E=.4, B=.6, W=.3, V=.3, A=1.5, T=8, X=.6)
        return {letter: like for letter, like in likes.items() if letter in self.session.known}

    def command(self, letter=None):
        rng = self.rng
        if letter is None:
            likes = self.weights()
            letter = rng.choices(list(likes), list(likes.values()))[0]
        return letter.encode() + getattr(self, "make_" + letter)()

    def make_S(self):
        slots = len(self.session.slots)
        style = self.rng.random()
        if slots and style < 0.7:
            return bytes([self.rng.randrange(min(slots, 256))])
        if style < 0.9:
            return bytes([min(slots, 255)])
        return bytes([self.rng.choice((255, self.rng.randrange(256), min(255, slots + 1)))])

    def make_O(self):
        n = some_n(self.rng, self.most_n)
        if self.session.map and self.rng.random() < 0.5:   # another order of the same n as the map in force
            n = self.session.map.n
        return bytes([n]) + rank_bytes(lawful(self.rng, n) if self.rng.random() < 0.75 else wrong_ranks(self.rng, n))

    def make_K(self):
        rng, order = self.rng, self.session.order
        N = 2 ** order.n if order else 2
        K = rng.choice((0, 1, 2, N - 2, N - 1, N, N // 2, rng.randint(0, N), rng.randint(0, N), rng.randint(0, N), rng.randint(0, N)))
        if rng.random() < 0.1:
            K = rng.choice((N + 1, N + 2, 2 * N, 65535, 256 * rng.randrange(256), rng.randint(N + 1, 65535)))
        return two(max(K, 0))

    def make_L(self):
        rng, n = self.rng, some_n(self.rng, self.most_n)
        marks = bytearray(listed_marks(rng, 2 ** n))
        if rng.random() < 0.12:
            for _ in range(rng.randint(1, 2)):
                marks[rng.randrange(len(marks))] = rng.choice((2, 3, 0x30, 0x31, 0x80, 0xFF))
        return bytes([n]) + bytes(marks)

    def make_E(self):
        map = self.session.map
        return some_message(self.rng, len(map.informed()) if map else self.rng.randrange(3))

    def make_B(self):
        rng = self.rng
        n = self.session.map.n if self.session.map else 2
        caps = [rng.choice((0, 10, rng.randint(0, n), rng.randint(0, min(n + 1, 10)), rng.randint(0, 10))) for _ in range(2)]
        if rng.random() < 0.1:
            caps[rng.randrange(2)] = rng.choice((11, 12, 128, 255))
        return bytes(caps)

    def make_W(self):
        map = self.session.map
        if map is None:
            return bytes(self.rng.randrange(4))
        return some_word(self.rng, map, self.kind, map.N)

    def make_V(self):
        rng, map = self.rng, self.session.map
        if map is None:
            m = rng.choice((0, 1, 2, 3, 300))
            return two(m) + bytes(rng.randrange(256) for _ in range(m))
        N = map.N
        m = rng.choice((1, N, N - 1, N // 2, rng.randint(1, N), rng.randint(1, N), rng.randint(1, N)))
        if rng.random() < 0.1:
            m = rng.choice((0, N + 1, 2 * N, N + 256, 256))
        return two(m) + some_word(rng, map, self.kind, m)

    def make_A(self):
        rng = self.rng
        N = self.session.map.N if self.session.map else 2
        few = rng.randint(0, min(self.patience, 4 * N))
        if rng.random() < (0.4 if N > 64 else 0.15):
            return two(rng.choice((4 * N - 3, 4 * N - 4, 256, 65535, 65535)))
        return two(rng.choice((0, 1, 1, 2, 3, few, few, few, few, self.patience)))

    def make_T(self):
        return b""

    def make_X(self):
        return b""

    def ending(self):
        """A last command that ends the session early, and bytes after it that nobody reads."""
        rng = self.rng
        after = rng.choice((b"", b"", b"\n", b"T", b"K\0\1", b"X", bytes(rng.randrange(256) for _ in range(rng.randrange(9)))))
        style = rng.randrange(6)
        if style == 0:                                     # a letter nobody knows
            letter = rng.choice(b"\n\0 CDFGHIJMNPQRUYZsoklbewvatxw?" + bytes([rng.randrange(256), rng.randrange(128, 256)]))
            return bytes([letter]) + after
        if style == 1:                                     # a letter of the other make, or left out
            others = sorted(ALL_LETTERS - self.session.known)
            return rng.choice(others).encode() + bytes([rng.choice((0, 1, 2))]) + bytes(rng.randrange(8)) + after
        if style == 2:                                     # an order or listed map of another n
            letter = b"O" if self.make == "r" else b"L"
            return letter + bytes([rng.choice((0, 11, 12, 16, 127, 128, 255))]) + after
        if style == 3 and "V" in self.session.known:       # more bytes promised than there are
            m = rng.choice((1, 2, 256, 1024, 65535, rng.randint(1, 65535)))
            return b"V" + two(m) + bytes(0x30 for _ in range(rng.randrange(min(m, 600))))
        letters = [c for c in "SOKLBEWVA" if c in self.session.known]
        if not letters:
            return b"\n"
        whole = self.command(rng.choice(letters))
        if len(whole) < 2:
            return whole
        cut = rng.choice((1, 2, len(whole) - 1, rng.randrange(1, len(whole))))
        return whole[:min(cut, len(whole) - 1)]


def strong(rng, make_letter, letters):
    """A long repetition with the largest sizes, one half of the values against the other: narrow
    numbers in a program would show."""
    n = rng.choice((8, 9, 10, 10, 10))
    N = 2 ** n
    if make_letter == "r":
        session = b"wrO" + bytes([n]) + rank_bytes(lawful(rng, n)) + b"K\0\1"
    else:
        session = b"wlL" + bytes([n]) + bytes(N - 1) + b"\1"
    if not {"W", "A", "T", "B"} <= set(letters):
        return session
    for _ in range(3):
        b = rng.choice((0, 0, 0, rng.randrange(n)))
        turn = rng.randrange(2)
        word = bytearray((p >> b & 1 ^ turn) << 7 | 127 for p in range(N))
        for _ in range(rng.randint(0, 2)):
            word[rng.randrange(N)] -= rng.randint(1, 127)
        session += b"B" + bytes(rng.choice(((0, 0), (10, 10), (1, 0), (rng.randint(0, 10), 10)))) + b"W" + bytes(word) + b"A\xff\xffT"
    return session


def make(seed, index, letters=ALL_LETTERS):
    rng = random.Random("%s/%s" % (seed, index))
    shelf = some_shelf(rng)
    kind, make_letter = rng.choice("we"), rng.choice("rl")
    right = (kind + make_letter).encode()

    chance = rng.random()
    if chance < 0.05:                                      # headers: wrong, short, alone
        header = rng.choice((b"", b"w", b"e", b"r", right, right, right[::-1], right.upper(), b"w" + bytes([rng.randrange(256)]),
                             bytes([rng.randrange(256)]) + b"l", b"ww", b"rr", b"\nwr", b" wl", kind.encode() + b"R", b"W" + right[1:],
                             b"er\n", bytes(2)))
        if len(header) == 2 and rng.random() < 0.5 and header != right:
            header += b"L\1\1\1E\1\1"
        return header, shelf

    if chance < 0.056:
        return strong(rng, make_letter, letters), shelf

    maker = Maker(rng, kind, make_letter, shelf if shelf is None or len(shelf) <= LARGEST else b"", letters)
    session, at = bytearray(right), 2
    room = LARGEST
    commands = min(int(rng.expovariate(1 / 14)) + 1, 120)
    while commands and at is not None:
        commands -= 1
        if not maker.weights():
            break
        more = maker.command()
        if len(session) + len(more) > room:
            break
        session += more
        at = maker.session.command(bytes(session), at)[3]
    if at is not None and rng.random() < 0.45:
        session += maker.ending()
    if rng.random() < 0.06 and len(session) > 2:           # anything at all: a byte changed, lost or doubled
        place = rng.randrange(2, len(session))
        session[place:place + 1] = rng.choice((bytes([rng.randrange(256)]), b"", session[place:place + 1] * 2))
    if rng.random() < 0.007:                               # as long as may be, and longer
        length = rng.choice((LARGEST, LARGEST, LARGEST + 1, LARGEST + 1, LARGEST + 900))
        filler = [f for f in (b"B\1\2", b"X", b"T", b"A\0\1", b"K\0\1", b"S\0") if f[:1].decode() in maker.session.known]
        while filler and len(session) < length:
            session += rng.choice(filler) * rng.randint(1, 300)
        session = session[:length].ljust(length, b"X")
        if rng.random() < 0.4:
            session[0:2] = b"zz"
    return bytes(session), shelf


def main():
    parser = argparse.ArgumentParser()
    parser.add_argument("--seed", default="1")
    parser.add_argument("--count", type=int, default=100)
    parser.add_argument("--out", required=True)
    parser.add_argument("--letters", default="".join(sorted(ALL_LETTERS)))
    given = parser.parse_args()
    os.makedirs(given.out, exist_ok=True)
    for index in range(given.count):
        session, shelf = make(given.seed, index, given.letters)
        name = os.path.join(given.out, "%06d" % index)
        with open(name + ".session", "wb") as file:
            file.write(session)
        if shelf is not None:
            with open(name + ".shelf", "wb") as file:
                file.write(shelf)


if __name__ == "__main__":
    main()
