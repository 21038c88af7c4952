"""The receiver (RULES.md, "The receiver"; layer 2 of REFUSALS.md).

Words come from cancel.py alone. The steps are only counted: which span is settled and
which is split depends on marks and caps, never on values.

The work memory is not modelled: a session is never refused for want of it.
`history` below follows rows and bits step by step, for the example in RULES.md.
"""
from .cancel import cancel
from .codes import Refused, message_of
from .soft import FILL, check, join


def settled(map, caps, s, T):
    if T == 1:
        return True
    kind = map.kind(s, T)
    if kind in ("Rate-0", "Rep"):
        return T <= 2 ** caps[0]
    if kind in ("Rate-1", "SPC"):
        return T <= 2 ** caps[1]
    return False


class Receiver:
    def __init__(self, map, kind):
        self.map, self.kind = map, kind
        self.cap_pair = (10, 10)
        self.values = None               # a list while a word is in hand
        self.to_do = []                  # what remains; the next thing is the last of the list
        self.steps = 0                   # made for the word in hand

    def in_hand(self):
        return self.values is not None

    def finished(self):
        return self.in_hand() and not self.to_do

    def remap(self, map):
        if self.in_hand():
            raise Refused(10, 2, 0)
        self.map = map

    def caps(self, c, d):
        if c > 10 or d > 10:
            raise Refused(13, 2, 0)
        self.cap_pair = (c, d)

    def word(self, data):
        self._accept(data, self.map.N)

    def short_word(self, data):
        self._accept(data, 1)

    def _accept(self, data, at_least):
        if self.in_hand():
            raise Refused(10, 2, 0)
        if not at_least <= len(data) <= self.map.N:
            raise Refused(8, 2, 0)
        values = [self.kind.read(byte) for byte in data]
        for index, value in enumerate(values):
            if value is None:
                raise Refused(14, 2, index)
        self.values = values + [FILL] * (self.map.N - len(values))
        self.to_do = [("span", 0, self.map.N)]
        self.steps = 0

    def advance(self, allowance):
        """Answers the steps made in this call, and whether none remains."""
        if not self.in_hand():
            raise Refused(11, 2, 0)
        made = 0
        while made < allowance and self.to_do:
            self._step()
            made += 1
        self.steps += made
        return made, not self.to_do

    def _step(self):
        what, s, T = self.to_do.pop()
        if what != "span":
            return                       # a right or a final step: it counts, and opens nothing
        # The first step of the span (s, T): the caps in force now are those that count for it.
        if settled(self.map, self.cap_pair, s, T):
            return                       # its one step
        half = T // 2                    # else this was its left step; the rest in reverse:
        self.to_do += [("final", s, T), ("span", s + half, half), ("right", s, T), ("span", s, half)]

    def take(self):
        """Answers all steps made, the message, the word."""
        if not self.in_hand():
            raise Refused(11, 2, 0)
        if not self.finished():
            raise Refused(12, 2, 0)
        word = cancel(self.kind, self.values, self.map.marks)
        self.values = None
        return self.steps, message_of(self.map, word), word

    def drop(self):
        if not self.in_hand():
            raise Refused(11, 2, 0)
        self.values, self.to_do = None, []


def count_steps(map, caps):
    """steps(root) with caps that do not change, by the formula of the document."""
    def steps(s, T):
        if settled(map, caps, s, T):
            return 1
        return 3 + steps(s, T // 2) + steps(s + T // 2, T // 2)
    return steps(0, map.N)


def history(map, kind, caps, values):
    """[(what was done, rows of the open spans, bits)] after the word and after each step, caps
    unchanged. A settled span gets the bits of cancellation; its kind is named, not used."""
    bits, rows, told = [2] * map.N, [list(values)], []

    def tell(what):
        told.append((what, [list(row) for row in rows], list(bits)))

    def run(s, T):
        mine = rows[-1]
        if settled(map, caps, s, T):
            bits[s:s + T] = cancel(kind, mine, map.marks[s:s + T])
            rows.pop()
            tell("%s on (%d, %d)" % (map.kind(s, T), s, T))
            return
        half = T // 2
        a, b = mine[:half], mine[half:]
        rows.append([check(x, y) for x, y in zip(a, b)])
        tell("left step of (%d, %d)" % (s, T))
        run(s, half)
        rows.append([join(kind, x, y, bit) for x, y, bit in zip(a, b, bits[s:s + half])])
        tell("right step of (%d, %d)" % (s, T))
        run(s + half, half)
        bits[s:s + half] = [x ^ y for x, y in zip(bits[s:s + half], bits[s + half:s + T])]
        rows.pop()
        tell("final step of (%d, %d)" % (s, T))

    tell("word")
    run(0, map.N)
    return told
