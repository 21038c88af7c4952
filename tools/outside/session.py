"""The session (FORMATS.md; layer 3 of REFUSALS.md)."""
from . import codes
from .codes import Refused
from .receiver import Receiver
from .soft import KINDS

ALL_LETTERS = frozenset("SOKLBEWVATX")
RANKED_ONLY, LISTED_ONLY = frozenset("SOK"), frozenset("L")
LARGEST = 65536
FIXED_OPERANDS = {"S": 1, "K": 2, "B": 2, "A": 2, "T": 0, "X": 0}


def read_shelf(shelf):
    """The usable records as (n, bytes of the ranks)."""
    records, at = [], 0
    while at < len(shelf):
        n = shelf[at]
        if not 1 <= n <= 10 or at + 1 + 2 * 2 ** n > len(shelf):
            break
        records.append((n, shelf[at + 1:at + 1 + 2 * 2 ** n]))
        at += 1 + 2 * 2 ** n
    return records


def two(data):
    return 256 * data[0] + data[1]


def characters(bits):
    return "".join(str(bit) for bit in bits)


class Ends(Exception):
    """A refusal that ends the session."""
    def __init__(self, number, layer, place):
        self.number, self.layer, self.place = number, layer, place


class Session:
    """A session whose header is right. `command` does one command of it."""

    def __init__(self, kind_letter, make_letter, shelf, letters=ALL_LETTERS):
        self.kind, self.make = KINDS[kind_letter], make_letter
        other_make = LISTED_ONLY if make_letter == "r" else RANKED_ONLY
        self.known = frozenset(letters) - other_make
        self.slots = read_shelf(shelf)
        self.order = self.map = self.receiver = None
        self.number = 0                  # of the next command

    def command(self, data, offset):
        """Does the command whose letter is at the offset. Answers (letter, answer, line, offset of
        the next command or None if the session has ended)."""
        letter = chr(data[offset])
        try:
            operands, after = self.read_operands(data, offset)
        except Ends as no:
            shown = "?" if no.number == 15 else letter
            answer, line, after = no.number, refusal(self.number, shown, no), None
            letter = shown
        else:
            try:
                more = self.do(letter, operands, offset)
            except Refused as no:
                answer, line = no.number, refusal(self.number, letter, no)
            else:
                answer, line = 0, " ".join([str(self.number), letter, "0"] + [str(m) for m in more])
        self.number += 1
        return letter, answer, line, after

    def read_operands(self, data, offset):
        """Questions 3 to 7. Answers the operand bytes and the offset after them."""
        letter, first = chr(data[offset]), offset + 1
        if letter not in self.known:                                  # 3
            raise Ends(15, 3, offset)
        if letter in "WE" and self.map is None:                       # 4
            raise Ends(17, 3, offset)
        if letter in "OL":
            if first + 1 > len(data):                                 # 5
                raise Ends(16, 3, offset)
            n = data[first]
            if not 1 <= n <= 10:                                      # 6
                raise Ends(1, 1, 0)
            count = 1 + 2 ** n * (2 if letter == "O" else 1)
        elif letter == "V":
            if first + 2 > len(data):                                 # 5
                raise Ends(16, 3, offset)
            count = 2 + two(data[first:first + 2])
        elif letter == "W":
            count = self.map.N
        elif letter == "E":
            count = len(self.map.informed())
        else:
            count = FIXED_OPERANDS[letter]
        if first + count > len(data):                                 # 7
            raise Ends(16, 3, offset)
        return data[first:first + count], first + count

    def do(self, letter, operands, offset):
        """Questions 8 to 11 and the work. Answers what the line says after the 0."""
        if letter == "K" and self.order is None:                      # 8
            raise Refused(17, 3, offset)
        if letter in "BVATX" and self.map is None:                    # 9
            raise Refused(17, 3, offset)
        if letter == "S":
            slot = operands[0]
            if slot >= len(self.slots):                               # 10
                raise Refused(18, 3, offset)
            self.order = codes.order(*self.slots[slot])
            return [self.order.n]
        if letter == "O":
            self.order = codes.order(operands[0], operands[1:])
            return [self.order.n]
        if letter == "K":
            return self.put_map(codes.ranked_map(self.order, two(operands)))
        if letter == "L":
            return self.put_map(codes.listed_map(operands[0], operands[1:]))
        if letter == "E":
            return [characters(codes.encode(self.map, operands))]
        if letter == "B":
            self.receiver.caps(operands[0], operands[1])
            return [operands[0], operands[1]]
        if letter == "W":
            self.receiver.word(operands)
            return []
        if letter == "V":
            self.receiver.short_word(operands[2:])
            return []
        if letter == "A":
            made, none_remains = self.receiver.advance(two(operands))
            return [made, 1 if none_remains else 0]
        if letter == "T":
            steps, message, word = self.receiver.take()
            return [steps, characters(message) or "-", characters(word)]
        if letter == "X":
            self.receiver.drop()
            return []
        raise AssertionError(letter)

    def put_map(self, map):
        if self.receiver is None:
            self.receiver = Receiver(map, self.kind)
        else:
            self.receiver.remap(map)
        self.map = map
        return [len(map.informed())]


def refusal(number, letter, no):
    return "%d %s %d %d %d" % (number, letter, no.number, no.layer, no.place)


def answers(session, shelf=b"", letters=ALL_LETTERS, watch=None):
    """The printed bytes. shelf None is a missing file. `watch`, if given, is called after each
    command with (the Session or None, letter shown, answer, layer or None)."""
    shelf = b"" if shelf is None else shelf

    def only(number):
        if watch:
            watch(None, "?", number, 3)
        return b"0 ? %d 3 0\n" % number

    if len(session) > LARGEST or len(shelf) > LARGEST:                # 1
        return only(19)
    if len(session) < 2 or session[0] not in b"we" or session[1] not in b"rl":   # 2
        return only(15)
    running = Session(chr(session[0]), chr(session[1]), shelf, letters)
    lines, at = [], 2
    while at is not None and at < len(session):
        letter, answer, line, at = running.command(session, at)
        lines.append(line)
        if watch:
            watch(running, letter, answer, int(line.split()[3]) if answer else None)
    return "".join(line + "\n" for line in lines).encode("ascii")
