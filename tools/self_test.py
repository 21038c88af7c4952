#!/usr/bin/env python3
"""Tests the outside implementation by itself, and the sentences of RULES.md that can be tried.

    self_test.py              laws, round trips, span rules, costs, steps (about a minute)
    self_test.py --mutants    puts faults into a copy of the implementation and says after how many
                              random sessions each one shows

The span rules below are used by this test only; the implementation never uses them.
"""
import argparse
import importlib
import os
import random
import shutil
import sys
import tempfile
from itertools import product

HERE = os.path.dirname(os.path.realpath(__file__))
sys.path.insert(0, HERE)
from make_sessions import lawful_by_moves, lawful_by_weights, listed_marks, make, rank_bytes, whole_bytes
from outside import ALL_LETTERS, answers
from outside.cancel import cancel
from outside.codes import encode, kind_of_marks, listed_map, message_of, moves, order, ranked_map, transform
from outside.receiver import Receiver, count_steps, settled
from outside.soft import FILL, KINDS, Erasure, Whole, check, join

failed = 0


def say(title, good, more=""):
    global failed
    failed += not good
    print("%-7s %s %s" % ("good" if good else "FAILS", title, more))


# ---- the span rules of RULES.md

def reverse(p, width):
    return sum((p >> b & 1) << (width - 1 - b) for b in range(width))


def by_rule(kind, name, values):
    T, signs = len(values), [v[0] for v in values]
    if name == "Rate-0":
        return [0] * T
    if name == "Rate-1":
        return signs
    if name == "Rep":
        while len(values) > 1:
            h = len(values) // 2
            values = [join(kind, x, y, 0) for x, y in zip(values[:h], values[h:])]
        return [values[0][0]] * T
    if sum(signs) % 2:
        least = min(v[1] for v in values)
        turned = min((p for p in range(T) if values[p][1] == least), key=lambda p: reverse(p, T.bit_length() - 1))
        signs[turned] ^= 1
    return signs


def with_rules(kind, values, marks):
    T, name = len(values), kind_of_marks(marks)
    if name:
        return by_rule(kind, name, values)
    a, b = values[:T // 2], values[T // 2:]
    beta = with_rules(kind, [check(x, y) for x, y in zip(a, b)], marks[:T // 2])
    gamma = with_rules(kind, [join(kind, x, y, t) for x, y, t in zip(a, b, beta)], marks[T // 2:])
    return [x ^ y for x, y in zip(beta, gamma)] + gamma


def some_values(rng, kind, T):
    most = 1 if kind is Erasure else rng.choice((0, 1, 2, 3, 127))
    return [(rng.randrange(2), rng.randint(0, most)) for _ in range(T)]


def some_map(rng, n):
    if rng.random() < 0.5:
        return listed_map(n, bytes(listed_marks(rng, 2 ** n)))
    return ranked_map(order(n, rank_bytes(rng.choice((lawful_by_weights, lawful_by_moves))(rng, n))), rng.randint(0, 2 ** n))


def patterns(T):
    return {tuple(m) for m in ([0] * T, [1] * T, [0] * (T - 1) + [1], [0] + [1] * (T - 1))}


def cost(values, word):
    return sum(v[1] for v, bit in zip(values, word) if v[0] != bit)


# ---- tests

def test_soft():
    sizes = range(0, 6)
    good = True
    for kind, top in ((Whole, 6), (Erasure, 2)):
        for sa, sb, beta in product((0, 1), repeat=3):
            for x, y in product(range(top), repeat=2):
                c = (sa ^ beta, x)
                got = join(kind, (sa, x), (sb, y), beta)
                want_sign = c[0] if c[0] != sb and x > y else sb
                good &= got[0] == want_sign
                good &= not (kind is Erasure) or got[1] in (0, 1)
    say("join: signs by the second law; erasures stay 0 or 1", good)
    say("reading: whole numbers read every byte", all(Whole.read(b) == (b // 128, b % 128) for b in range(256)))
    say("reading: erasures read three bytes", [b for b in range(256) if Erasure.read(b)] == [0x30, 0x31, 0x3F])


def test_encoder(rng):
    good = good_rows = True
    for _ in range(300):
        n = rng.randint(1, 8)
        bits = [rng.randrange(2) for _ in range(2 ** n)]
        word = transform(bits)
        good &= transform(word) == bits
        # by rows: position j gets the XOR of all i that have every 1 of j
        good_rows &= n > 6 or word == [sum(bits[i] for i in range(2 ** n) if j & ~i == 0) % 2 for j in range(2 ** n)]
    say("transform undoes itself", good)
    say("transform agrees with its rows", good_rows)


def test_round_trips(rng):
    good = count = 0
    for _ in range(1500):
        n = rng.choice((1, 1, 2, 2, 3, 3, 4, 5, 6, 7)) if rng.random() < 0.98 else rng.randint(8, 10)
        code = some_map(rng, n)
        message = [rng.randrange(2) for _ in code.informed()]
        word = encode(code, message)
        kind = rng.choice((Whole, Erasure))
        most = 1 if kind is Erasure else rng.choice((0, 1, 3, 127))
        values = [(bit, rng.randint(0, most)) for bit in word]       # signs right, any size, zero too
        got = cancel(kind, values, code.marks)
        good += got == word and message_of(code, got) == message
        count += 1
    say("signs of an encoded word at any sizes decode to it and its message", good == count, "(%d words)" % count)
    good = count = 0
    for _ in range(400):                                             # the same through the session's bytes
        n = rng.randint(1, 7)
        code = some_map(rng, n)
        message = bytes(rng.randrange(2) for _ in code.informed())
        word = encode(code, message)
        kind = rng.choice("we")
        data = whole_bytes(rng, word) if kind == "w" else bytes(0x30 + bit for bit in word)
        session = kind.encode() + b"lL" + bytes([n] + code.marks) + b"E" + message + b"W" + data + b"A\xff\xffT"
        lines = answers(session).decode().split("\n")
        written = "".join(map(str, word))
        good += lines[1] == "1 E 0 " + written
        good += lines[4].split()[4:] == ["".join(map(str, message)) or "-", written]
        count += 2
    say("the same by sessions", good == count, "(%d lines)" % count)


def test_rules(rng):
    good, count = True, 0
    for kind, most in ((Whole, {1: 3, 2: 3, 4: 2}), (Erasure, {1: 1, 2: 1, 4: 1, 8: 1})):
        for T in most:
            every = list(product((0, 1), range(most[T] + 1)))
            if len(every) ** T > 70000:
                continue
            for marks in patterns(T):
                for values in product(every, repeat=T):
                    good &= by_rule(kind, kind_of_marks(list(marks)), list(values)) == cancel(kind, list(values), list(marks))
                    count += 1
    say("span rules give what cancellation gives: all small values", good, "(%d)" % count)
    good, count = True, 0
    for _ in range(20000):
        T = 2 ** rng.choice((1, 2, 2, 3, 3, 4, 5))
        kind = rng.choice((Whole, Erasure))
        values, marks = some_values(rng, kind, T), list(rng.choice(sorted(patterns(T))))
        good &= by_rule(kind, kind_of_marks(marks), values) == cancel(kind, values, marks)
        count += 1
    say("span rules, larger spans by chance", good, "(%d)" % count)
    good = True
    for _ in range(1500):
        n = rng.randint(1, 6)
        code, kind = some_map(rng, n), rng.choice((Whole, Erasure))
        values = some_values(rng, kind, 2 ** n)
        good &= with_rules(kind, values, code.marks) == cancel(kind, values, code.marks)
    say("decoding with span rules gives what cancellation gives", good)


def test_costs(rng):
    wrong, rep_erasures_over, count = 0, 0, 0
    for _ in range(6000):
        T = 2 ** rng.choice((0, 1, 2, 2, 3))
        kind = rng.choice((Whole, Erasure))
        values, marks = some_values(rng, kind, T), list(rng.choice(sorted(patterns(T))))
        name = kind_of_marks(marks)
        code_words = [transform([next(u) if m else 0 for m in marks])
                      for u in (iter(c) for c in product((0, 1), repeat=sum(marks)))]
        over = cost(values, cancel(kind, values, marks)) > min(cost(values, w) for w in code_words)
        if kind is Erasure and name == "Rep":
            rep_erasures_over += over
        else:
            wrong += over
        count += 1
    say("costs: no allowed word is cheaper", wrong == 0, "(%d; Rep in erasures not cheapest %d times, as said)" % (count, rep_erasures_over))


def few_looks(marks):
    if not marks[-1]:
        return "Rate-0"
    if marks[0]:
        return "Rate-1"
    if not marks[-2]:
        return "Rep"
    return "SPC" if marks[1] else None


def test_orders(rng):
    good = law = True
    for _ in range(120):
        n = rng.choice((1, 2, 3, 4, 4, 5, 5, 6, 7))
        N = 2 ** n
        ranks = rng.choice((lawful_by_weights, lawful_by_moves))(rng, n)
        accepted = order(n, rank_bytes(ranks))
        law &= all(ranks[q] < ranks[p] for p in range(N) for q in moves(p, n))
        for K in range(N + 1) if n < 6 else rng.sample(range(N + 1), 8):
            code = ranked_map(accepted, K)
            good &= sum(code.marks) == K
            T = 1
            while T <= N:
                for s in range(0, N, T):
                    good &= code.kind(s, T) == few_looks(code.marks[s:s + T])
                T *= 2
    say("made orders are lawful and accepted", law)
    say("ranked maps: few looks give the kind of the table", good)
    good = True
    for n in range(1, 11):                                           # moves as the document adds them up
        for p in range(2 ** n):
            by_numbers = {p + 1} if p % 2 == 0 else set()
            by_numbers |= {p + 2 ** b for b in range(n - 1) if p >> b & 1 and not p >> (b + 1) & 1}
            good &= set(moves(p, n)) == by_numbers and all(q < 2 ** n for q in by_numbers)
    say("moves in bits are the sums said", good)


def test_steps(rng):
    good = bound = mixed = True
    for _ in range(400):
        n = rng.randint(1, 7)
        code = some_map(rng, n)
        caps = (rng.randint(0, 10), rng.randint(0, 10))
        receiver = Receiver(code, Whole)
        receiver.caps(*caps)
        receiver.word(bytes(code.N))
        total = 0
        while not receiver.finished():
            allowance = rng.choice((0, 1, 2, 5, 1000))
            made, none = receiver.advance(allowance)
            total += made
            good &= made <= allowance and none == receiver.finished() and (made == allowance or none)
        good &= total == receiver.take()[0] == count_steps(code, caps)
        bound &= 1 <= total <= 4 * code.N - 3
        # caps changed at random times: replay the tree with the caps at each step's number
        receiver = Receiver(code, Whole)
        receiver.word(bytes(code.N))
        at_step = []
        while not receiver.finished():
            if rng.random() < 0.4:
                receiver.caps(rng.randint(0, n), rng.randint(0, n))
            at_step += [receiver.cap_pair] * receiver.advance(rng.choice((0, 1, 1, 2, 3, 7)))[0]

        def after(now, s, T):                                        # number of the step after the span's last
            if settled(code, at_step[now], s, T):
                return now + 1
            middle = after(now + 1, s, T // 2)
            return after(middle + 1, s + T // 2, T // 2) + 1
        total = receiver.take()[0]
        mixed &= total == len(at_step) == after(0, 0, code.N) and total <= 4 * code.N - 3
    say("steps: advances sum to steps(root)", good)
    say("steps: at least 1, at most 4N - 3", bound)
    say("steps: caps changed during the word, against a replay", mixed)
    code = listed_map(10, bytes([1, 0] * 512))
    say("steps: 4,093 for N = 1024 at caps 0 0", count_steps(code, (0, 0)) == 4093)


def test_sizes(rng):
    worst = {}

    def down(values, marks, N):
        T = len(values)
        worst[N // T] = max(worst.get(N // T, 0), max(v[1] for v in values))
        if T == 1:
            return [values[0][0] if marks[0] else 0]
        a, b = values[:T // 2], values[T // 2:]
        beta = down([check(x, y) for x, y in zip(a, b)], marks[:T // 2], N)
        gamma = down([join(Whole, x, y, t) for x, y, t in zip(a, b, beta)], marks[T // 2:], N)
        return [x ^ y for x, y in zip(beta, gamma)] + gamma
    down([(0, 127)] * 1024, [0] * 1024, 1024)
    for _ in range(20):
        down([Whole.read(rng.randrange(256)) for _ in range(256)], some_map(rng, 8).marks, 256)
    say("sizes are at most 127 N/T", all(size <= 127 * share for share, size in worst.items()), "(largest %d)" % max(worst.values()))


def laws():
    rng = random.Random("self test")
    test_soft()
    test_encoder(rng)
    test_orders(rng)
    test_rules(rng)
    test_costs(rng)
    test_round_trips(rng)
    test_steps(rng)
    test_sizes(rng)


# ---- faults

FAULTS = [
    ("join: a wins at equal sizes", "soft.py", "a[1] > b[1] else", "a[1] >= b[1] else"),
    ("join: sizes saturate at 127", "soft.py", "LARGEST = 127 * 1024", "LARGEST = 127"),
    ("join: sizes saturate at 32767", "soft.py", "LARGEST = 127 * 1024", "LARGEST = 32767"),
    ("join: difference forgotten in whole numbers", "soft.py", "if agree else abs(x - y)\n\n\nclass E", "if agree else max(x, y)\n\n\nclass E"),
    ("join: difference forgotten in erasures", "soft.py", "max(x, y) if agree else abs(x - y)", "max(x, y)"),
    ("check: a zero has sign 0", "soft.py", "return (a[0] ^ b[0], min(a[1], b[1]))", "return (a[0] ^ b[0] if min(a[1], b[1]) else 0, min(a[1], b[1]))"),
    ("check: larger size", "soft.py", "min(a[1], b[1]))", "max(a[1], b[1]))"),
    ("reading: 80 is 00", "soft.py", "return (byte >> 7, byte & 0x7F)", "return (byte >> 7 if byte & 127 else 0, byte & 0x7F)"),
    ("reading: two's complement", "soft.py", "return (byte >> 7, byte & 0x7F)", "return (byte >> 7, 256 - byte if byte > 127 else byte)"),
    ("reading: an erasure has sign 1", "soft.py", "0x3F: (0, 0)", "0x3F: (1, 0)"),
    ("reading: high bit ignored in erasures", "soft.py", "READS.get(byte)", "READS.get(byte & 127)"),
    ("fill has sign 1", "soft.py", "FILL = (0, 0)", "FILL = (1, 0)"),
    ("fill has size 1", "soft.py", "FILL = (0, 0)", "FILL = (0, 1)"),
    ("law: bit 0 forgotten", "codes.py", "if bits[0] == 0:", "if False:"),
    ("law: top exchange forgotten", "codes.py", "for b in range(n - 1):", "for b in range(n - 2):"),
    ("law: lowest exchange forgotten", "codes.py", "for b in range(n - 1):", "for b in range(1, n - 1):"),
    ("ranks low byte first", "codes.py", "256 * data[2 * p] + data[2 * p + 1]", "data[2 * p] + 256 * data[2 * p + 1]"),
    ("ranks: too large by one allowed", "codes.py", "if ranks[p] >= N or", "if ranks[p] > N or"),
    ("ranks: repetition found at the first of both", "codes.py", "raise Refused(3, 1, p)", "raise Refused(3, 1, ranks.index(ranks[p]))"),
    ("ranks: law asked before repetition", "codes.py", "    seen = set()\n", "    seen = set()\n    if max(ranks) < N:\n      for p in range(N):\n        if not keeps_law(ranks, n, p):\n            raise Refused(4, 1, p)\n"),
    ("law: place is where the move leads", "codes.py", "raise Refused(4, 1, p)", "raise Refused(4, 1, min(q for q in moves(p, n) if ranks[q] >= ranks[p]))"),
    ("law: highest such position", "codes.py", "    for p in range(N):\n        if not keeps_law", "    for p in reversed(range(N)):\n        if not keeps_law"),
    ("K: N not allowed", "codes.py", "if K > 2 ** order.n", "if K >= 2 ** order.n"),
    ("K: N + 1 allowed", "codes.py", "if K > 2 ** order.n", "if K > 2 ** order.n + 1"),
    ("K: rank K informed too", "codes.py", "1 if rank < K", "1 if rank <= K"),
    ("kinds of listed maps by few looks: Rep", "codes.py", "marks == [0] * (T - 1) + [1]", "T > 1 and marks[-2:] == [0, 1] and marks[:2] in ([0, 0], [0, 1])"),
    ("kinds of listed maps by few looks: Rate-1", "codes.py", "if marks == [1] * T", "if marks[:1] == [1]"),
    ("kinds of listed maps by few looks: SPC", "codes.py", "marks == [0] + [1] * (T - 1)", "T > 1 and marks[1] == 1"),
    ("kinds: SPC before Rep", "codes.py", '    if marks == [0] * (T - 1) + [1]:', '    if marks == [0] + [1] * (T - 1):\n        return "SPC"\n    if marks == [0] * (T - 1) + [1]:'),
    ("marks: any byte is informed", "codes.py", "raise Refused(6, 1, p)", "pass"),
    ("message: any byte", "codes.py", "raise Refused(6, 1, index)", "pass"),
    ("message: place is the position", "codes.py", "raise Refused(6, 1, index)", "raise Refused(6, 1, informed[index])"),
    ("encoder: right half first", "codes.py", "for x, y in zip(left, right)] + right", "for x, y in zip(left, right)] + left"),
    ("message straight off the word", "codes.py", "bits = transform(word)", "bits = word"),
    ("frozen bit from the sign", "cancel.py", "if marks[0] == 1 else 0", "if True else 0"),
    ("caps: below instead of at most, first", "receiver.py", "T <= 2 ** caps[0]", "T < 2 ** caps[0]"),
    ("caps: below instead of at most, second", "receiver.py", "T <= 2 ** caps[1]", "T < 2 ** caps[1]"),
    ("caps: Rep under the second cap", "receiver.py", 'if kind in ("Rate-0", "Rep"):', 'if kind == "Rep":\n        return T <= 2 ** caps[1]\n    if kind in ("Rate-0", "Rep"):'),
    ("caps: Rate-1 under the first cap", "receiver.py", 'if kind in ("Rate-1", "SPC"):', 'if kind == "Rate-1":\n        return T <= 2 ** caps[0]\n    if kind in ("Rate-1", "SPC"):'),
    ("take answers the last advance only", "receiver.py", "self.steps += made", "self.steps = made"),
    ("caps exchanged", "receiver.py", "self.cap_pair = (c, d)", "self.cap_pair = (d, c)"),
    ("caps: 11 allowed", "receiver.py", "c > 10 or d > 10", "c > 11 or d > 11"),
    ("caps: only the first asked", "receiver.py", "c > 10 or d > 10", "c > 10"),
    ("caps of the word's acceptance count", "receiver.py", None, None),
    ("caps count when the span's values are made", "receiver.py", None, None),
    ("caps go back at a remap", "receiver.py", "        self.map = map\n\n    def caps", "        self.map = map\n        self.cap_pair = (10, 10)\n\n    def caps"),
    ("caps go back at a word", "receiver.py", "        self.steps = 0\n\n    def advance", "        self.steps = 0\n        self.cap_pair = (10, 10)\n\n    def advance"),
    ("steps not begun anew", "receiver.py", "        self.steps = 0\n\n    def advance", "\n    def advance"),
    ("steps: no final step", "receiver.py", '[("final", s, T), ', "["),
    ("advance makes one more", "receiver.py", "while made < allowance", "while made <= allowance"),
    ("advance on a finished word refused", "receiver.py", "        made = 0\n", "        made = 0\n        if self.finished():\n            raise Refused(11, 2, 0)\n"),
    ("advance of 0 says none remains", "receiver.py", "return made, not self.to_do", "return made, not self.to_do or not allowance"),
    ("take before the end", "receiver.py", "        if not self.finished():\n            raise Refused(12, 2, 0)\n", ""),
    ("take leaves the word in hand", "receiver.py", "        self.values = None\n        return self.steps", "        return self.steps"),
    ("drop only of a finished word", "receiver.py", "        self.values, self.to_do = None, []", "        if not self.finished():\n            raise Refused(12, 2, 0)\n        self.values, self.to_do = None, []"),
    ("remap with a word in hand", "receiver.py", "    def remap(self, map):\n        if self.in_hand():", "    def remap(self, map):\n        if False:"),
    ("word in hand replaced", "receiver.py", "        if self.in_hand():\n            raise Refused(10, 2, 0)\n        if not at_least", "        if not at_least"),
    ("short word: length asked before the word in hand", "receiver.py", "        if self.in_hand():\n            raise Refused(10, 2, 0)\n        if not at_least", "        if not at_least <= len(data) <= self.map.N:\n            raise Refused(8, 2, 0)\n        if self.in_hand():\n            raise Refused(10, 2, 0)\n        if not at_least"),
    ("word: reading asked before the word in hand", "receiver.py", "        if self.in_hand():\n            raise Refused(10, 2, 0)\n        if not at_least", "        for index, byte in enumerate(data):\n            if self.kind.read(byte) is None:\n                raise Refused(14, 2, index)\n        if self.in_hand():\n            raise Refused(10, 2, 0)\n        if not at_least"),
    ("short word: reading asked before length", "receiver.py", "        if not at_least", "        for index, byte in enumerate(data):\n            if self.kind.read(byte) is None:\n                raise Refused(14, 2, index)\n        if not at_least"),
    ("short word: N not allowed", "receiver.py", "self._accept(data, 1)", "self._accept(data if len(data) < self.map.N else b'', 1)"),
    ("short word: 0 allowed", "receiver.py", "self._accept(data, 1)", "self._accept(data, 0)"),
    ("session: 65,536 not allowed", "session.py", "LARGEST = 65536", "LARGEST = 65535"),
    ("session: 65,537 allowed", "session.py", "LARGEST = 65536", "LARGEST = 65537"),
    ("shelf length not asked", "session.py", " or len(shelf) > LARGEST", ""),
    ("header asked before the length", "session.py", "    if len(session) > LARGEST", "    if len(session) > 1 and session[0] not in b'we':\n        return only(15)\n    if len(session) > LARGEST"),
    ("header alone refused", "session.py", "len(session) < 2 or", "len(session) < 3 or"),
    ("shelf: wrong n is passed over", "session.py", "        if not 1 <= n <= 10 or at", "        if not 1 <= n <= 10:\n            at += 1\n            continue\n        if at"),
    ("shelf: n 11 allowed", "session.py", "        if not 1 <= n <= 10 or at", "        if not 1 <= n <= 11 or at"),
    ("shelf: cut record used", "session.py", "or at + 1 + 2 * 2 ** n > len(shelf)", "or at + 2 * 2 ** n > len(shelf)"),
    ("shelf: a record with wrong ranks ends it", "session.py", "        records.append(", "        try:\n            codes.order(n, shelf[at + 1:at + 1 + 2 * 2 ** n])\n        except Refused:\n            break\n        records.append("),
    ("shelf: at most 128 slots", "session.py", "if slot >= len(self.slots)", "if slot >= min(128, len(self.slots))"),
    ("slot one too far", "session.py", "if slot >= len(self.slots)", "slot = min(slot, len(self.slots) - 1) if slot == len(self.slots) else slot\n            if slot < 0 or slot >= len(self.slots)"),
    ("letter of the other make known", "session.py", "frozenset(letters) - other_make", "frozenset(letters) - (other_make - {'L'})"),
    ("unknown letter shown", "session.py", 'shown = "?" if no.number == 15 else letter', 'shown = letter if letter.isalpha() and letter.isascii() else "?"'),
    ("E without a map goes on", "session.py", 'if letter in "WE" and self.map is None:', 'if letter in "W" and self.map is None:'),
    ("W: operands asked before the map", "session.py", 'if letter in "WE" and self.map is None:                       # 4\n            raise Ends(17', 'if letter in "WE" and self.map is None:                       # 4\n            raise Ends(16 if first == len(data) else 17'),
    ("V without a map ends the session", "session.py", 'if letter in "WE" and self.map is None:', 'if letter in "WEV" and self.map is None:'),
    ("B without a map accepted", "session.py", 'if letter in "BVATX" and self.map is None:', 'if letter == "B" and self.map is None:\n            return list(operands)\n        if letter in "BVATX" and self.map is None:'),
    ("n out of range goes on", "session.py", "raise Ends(1, 1, 0)", "raise Ends(16, 3, offset)"),
    ("n asked after the operands", "session.py", "            if not 1 <= n <= 10:                                      # 6", "            if n > 10 and len(data) < first + 9:\n                raise Ends(16, 3, offset)\n            if not 1 <= n <= 10:                                      # 6"),
    ("refused order put in force", "session.py", "            self.order = codes.order(operands[0], operands[1:])", "            self.order = codes.Order(operands[0], [two(operands[i:i + 2]) for i in range(1, len(operands), 2)])\n            codes.order(operands[0], operands[1:])"),
    ("refused slot puts its order in force", "session.py", "            self.order = codes.order(*self.slots[slot])\n", "            n, ranks = self.slots[slot]\n            self.order = codes.Order(n, [two(ranks[i:i + 2]) for i in range(0, len(ranks), 2)])\n            codes.order(n, ranks)\n"),
    ("a slot that is not there takes the order away", "session.py", "                raise Refused(18, 3, offset)", "                self.order = None\n                raise Refused(18, 3, offset)"),
    ("an order changes the map", "session.py", "            self.order = codes.order(operands[0], operands[1:])", "            self.order = codes.order(operands[0], operands[1:])\n            if self.map and self.order.n == self.map.n and not self.receiver.in_hand():\n                self.map = self.receiver.map = codes.ranked_map(self.order, len(self.map.informed()))"),
    ("an order is refused with a word in hand", "session.py", '        if letter == "O":', '        if letter == "O" and self.receiver and self.receiver.in_hand():\n            raise Refused(10, 2, 0)\n        if letter == "O":'),
    ("K: word in hand asked first", "session.py", '        if letter == "K":\n', '        if letter == "K" and self.receiver and self.receiver.in_hand():\n            raise Refused(10, 2, 0)\n        if letter == "K":\n'),
    ("L: word in hand asked first", "session.py", '        if letter == "L":\n', '        if letter == "L" and self.receiver and self.receiver.in_hand():\n            raise Refused(10, 2, 0)\n        if letter == "L":\n'),
    ("map of a refused remap in force", "session.py", "    def put_map(self, map):\n", "    def put_map(self, map):\n        if self.receiver:\n            self.map = map\n"),
    ("E refused with a word in hand", "session.py", '        if letter == "E":', '        if letter == "E" and self.receiver.in_hand():\n            raise Refused(10, 2, 0)\n        if letter == "E":'),
    ("no sign for an empty message", "session.py", 'characters(message) or "-"', "characters(message)"),
    ("refused commands not counted", "session.py", "        self.number += 1\n", "        self.number += not answer\n"),
    ("numbers low byte first", "session.py", "return 256 * data[0] + data[1]", "return data[0] + 256 * data[1]"),
    ("allowance of one byte", "session.py", "self.receiver.advance(two(operands))", "self.receiver.advance(operands[1])"),
    ("SPC turns the lowest position", "rules", "key=lambda p: reverse(p, T.bit_length() - 1)", "key=lambda p: p"),
    ("SPC turns the last of least size", "rules", "turned = min(", "turned = max("),
    ("SPC number within the code, not the span", "rules", "reverse(p, T.bit_length() - 1)", "-p if T > 4 else reverse(p, T.bit_length() - 1)"),
    ("SPC never turns", "rules", "signs[turned] ^= 1", "pass"),
    ("Rep by majority of sizes", "rules", "    if name == \"Rep\":\n", "    if name == \"Rep\":\n        return [int(sum(v[1] if v[0] else -v[1] for v in values) > 0)] * T\n"),
    ("Rep halves by neighbours", "rules", "zip(values[:h], values[h:])]\n        return", "zip(values[::2], values[1::2])]\n        return"),
    ("Rate-0 gives the signs", "rules", "return [0] * T", "return signs"),
]

RECEIVER_AT_ACCEPTANCE = ("settled(self.map, self.cap_pair, s, T)", "settled(self.map, self.word_caps, s, T)",
                          "        self.steps = 0\n\n    def advance", "        self.steps = 0\n        self.word_caps = self.cap_pair\n\n    def advance")


def put_fault(folder, name, file, old, new):
    """Writes a copy of the package with the fault as package `name`; answers its `answers`."""
    to = os.path.join(folder, name)
    shutil.copytree(os.path.join(HERE, "outside"), to, ignore=shutil.ignore_patterns("__pycache__"))

    def change(path, pairs):
        text = open(path).read()
        for a, b in pairs:
            if text.count(a) != 1:
                raise SystemExit("fault cannot be put into %s: %r is there %d times" % (path, a, text.count(a)))
            text = text.replace(a, b)
        open(path, "w").write(text)

    if file == "rules":                      # a copy that decodes with the span rules, one of them wrong
        import inspect
        body = "from .soft import check, join\nfrom .codes import kind_of_marks\n\n\n"
        body += "\n\n".join(inspect.getsource(f) for f in (reverse, by_rule, with_rules))
        open(os.path.join(to, "rules.py"), "w").write(body)
        if old:
            change(os.path.join(to, "rules.py"), [(old, new)])
        change(os.path.join(to, "receiver.py"), [("from .cancel import cancel", "from .rules import with_rules as cancel")])
    elif old is None and "acceptance" in new:
        a, b, c, d = RECEIVER_AT_ACCEPTANCE
        change(os.path.join(to, "receiver.py"), [(a, b), (c, d)])
    elif old is None:                        # decided when the values are made: at the left or right step before
        change(os.path.join(to, "receiver.py"), [
            ("        what, s, T = self.to_do.pop()\n        if what != \"span\":\n            return                       # a right or a final step: it counts, and opens nothing\n",
             "        what, s, T, *known = self.to_do.pop()\n        if what == \"right\":\n            _, s2, T2 = self.to_do.pop()\n            self.to_do.append((\"span\", s2, T2, settled(self.map, self.cap_pair, s2, T2)))\n        if what != \"span\":\n            return\n"),
            ("        if settled(self.map, self.cap_pair, s, T):\n            return                       # its one step",
             "        if known[0] if known else settled(self.map, self.cap_pair, s, T):\n            return                       # its one step"),
            ("(\"right\", s, T), (\"span\", s, half)]", "(\"right\", s, T), (\"span\", s, half, settled(self.map, self.cap_pair, s, half))]")])
    else:
        change(os.path.join(to, file), [(old, new)])
    return importlib.import_module(name).answers


def faults(most, seed):
    global failed
    sessions = []
    late = []
    with tempfile.TemporaryDirectory() as folder:
        sys.path.insert(0, folder)
        for number, (title, file, old, new) in enumerate(FAULTS):
            wrong = put_fault(folder, "fault%d" % number, file, old, title if old is None else new)
            found = None
            for index in range(most):
                if index == len(sessions):
                    session, shelf = make(seed, index)
                    sessions.append((session, shelf, answers(session, shelf)))
                session, shelf, right = sessions[index]
                try:
                    got = wrong(session, shelf)
                except Exception:
                    got = None                      # it broke: that shows too
                if got != right:
                    found = index
                    break
            if found is None:
                late.append(title)
                failed += 1
            print("%-8s %s" % ("never" if found is None else found, title))
    print("%d faults, %d not found in %d sessions" % (len(FAULTS), len(late), most))


def main():
    parser = argparse.ArgumentParser()
    parser.add_argument("--mutants", action="store_true")
    parser.add_argument("--count", type=int, default=3000, help="sessions tried for each fault")
    parser.add_argument("--seed", default="faults")
    given = parser.parse_args()
    if given.mutants:
        faults(given.count, given.seed)
    else:
        laws()
    return 1 if failed else 0


if __name__ == "__main__":
    sys.exit(main())
