#!/usr/bin/env python3
"""Runs the examples of the documents through the outside implementation.

Everything that stands in a table or in a session is read from the documents themselves. Examples in
running text are repeated here beside the sentence they stand in; if the sentence is no longer in the
document, that counts as a failure too. Exit status 1 if anything does not agree.

    check_examples.py [--docs FOLDER] [--quiet]
"""
import argparse
import os
import re
import sys
from itertools import permutations

HERE = os.path.dirname(os.path.realpath(__file__))
sys.path.insert(0, HERE)
from outside import answers
from outside.cancel import cancel
from outside.codes import (Refused, encode, keeps_law, kind_of_marks, listed_map, message_of, moves,
                           order, ranked_map, transform)
from outside.receiver import Receiver, count_steps, history
from outside.soft import KINDS, check, join

failed, passed = 0, 0
quiet = False


def say(where, got, wanted):
    global failed, passed
    if got == wanted:
        passed += 1
        if not quiet:
            print("agrees     %s" % where)
    else:
        failed += 1
        print("DISAGREES  %s\n    document: %r\n    outside:  %r" % (where, wanted, got))


# ---- reading the documents

def sections(text):
    """{heading: lines below it}, headings of every level, in order."""
    found, lines = [("", [])], text.split("\n")
    for line in lines:
        if line.startswith("#"):
            found.append((line.lstrip("#").strip(), []))
        else:
            found[-1][1].append(line)
    return dict(found)


def tables(lines):
    """Each table as (head, rows); cells stripped."""
    found, now = [], []
    for line in list(lines) + [""]:
        if line.startswith("|"):
            now.append([cell.strip() for cell in re.split(r"(?<!\\)\|", line.strip()[1:-1])])
        elif now:
            found.append((now[0], now[2:]))
            now = []
    return found


def hexes(text):
    """The bytes of a text that is only pairs of hexadecimal digits, else None."""
    parts = text.split()
    if parts and all(re.fullmatch("[0-9A-F]{2}", part) for part in parts):
        return bytes.fromhex("".join(parts))
    return None


def spans_of_code(text):
    return re.findall("`([^`]*)`", text)


def lines_in(text):
    """The printed lines in a cell: code that starts with a number."""
    return [code for code in spans_of_code(text) if code[0].isdigit()]


def bits(text):
    return [int(c) for c in text]


def characters(list_of_bits):
    return "".join(map(str, list_of_bits))


def numbers(text):
    return [int(x) for x in re.findall(r"\d+", text)]


def soft(text):
    sign, size = text.split("/")
    return int(sign), int(size)


def order_of(ranks):
    n = len(ranks).bit_length() - 1
    return order(n, b"".join(bytes([r >> 8, r & 255]) for r in ranks))


def refusal(call):
    """"accepted", or "refused NUMBER, place PLACE" (the layer is left out, as in EXAMPLES.md)."""
    try:
        call()
    except Refused as no:
        return "refused %d, place %d" % (no.number, no.place)
    return "accepted"


ORDER_OF_8 = [7, 6, 5, 3, 4, 2, 1, 0]
DOWN = {2: [1, 0], 4: [3, 2, 1, 0], 8: ORDER_OF_8}


# ---- FORMATS.md

def formats(text):
    parts = sections(text)
    for title in ("An order, a map, a word", "A listed code that encodes", "A shelf", "Refusals",
                  "Erasures, and a word in hand", "Caps changed during a word"):
        lines = parts[title]
        shelf, session = b"", None
        for line in lines:
            if line.startswith("Shelf:"):
                shelf = hexes(line[len("Shelf:"):].split("(")[0])
            elif line.startswith("Session:"):
                session = hexes(line[len("Session:"):])
            elif hexes(line):
                session = hexes(line)
        (head, rows), = tables(lines)
        expected = "".join(line + "\n" for row in rows for line in lines_in(row[3]))
        say("FORMATS %s: the session" % title, answers(session, shelf).decode(), expected)
        at = int(rows[0][0])
        for row in rows:
            part = hexes(row[1])
            say("FORMATS %s: offset %s" % (title, row[0]), (at, session[at:at + len(part)]), (int(row[0]), part))
            at += len(part)
        unread = session[at:]             # only the session of refusals has bytes that are not read
        say("FORMATS %s: bytes after the last row" % title, unread.hex(), "4b0001" if title == "Refusals" else "")
    (head, rows), = tables(parts["No informed position; a short word; sessions that end early"])
    for row in rows:
        session = b"" if row[0] == "(empty)" else hexes(row[0])
        say("FORMATS session %s" % row[0], answers(session, b"").decode(),
            "".join(line + "\n" for line in lines_in(row[1])))
    # letters and their bytes
    for head, rows in tables(parts["The session"]):
        for row in rows:
            for code, byte in re.findall(r"`(.)` \((\w\w)\)", row[1]):
                say("FORMATS header letter %s" % code, "%02X" % ord(code), byte)
            if head[0] == "letter":
                code, = spans_of_code(row[0])
                say("FORMATS letter %s" % code, "%02X" % ord(code), row[1])


# ---- EXAMPLES.md

def map_of(text):
    """Reads '2, K 1: marks 01', '2, listed 10', 'the order of 8, K 4', '8, the order of 8, K 4'."""
    found = re.search(r"listed ([01]+)", text)
    if found:
        return listed_map(len(found.group(1)).bit_length() - 1, bytes(bits(found.group(1))))
    K = int(re.search(r"K (\d+)", text).group(1))
    N = 8 if "the order of 8" in text else int(text.split(",")[0])
    made = ranked_map(order_of(DOWN[N]), K)
    found = re.search(r"marks ([01]+)", text)
    if found:
        say("EXAMPLES marks of %r" % text, characters(made.marks), found.group(1))
    return made


def receive(kind, map, data):
    receiver = Receiver(map, kind)
    receiver.word(data)
    receiver.advance(65535)
    return receiver.take()


def examples(text):
    parts = sections(text)

    (head, rows), = tables(parts["Orders and maps"])
    given_before = None
    for shows, given, answer in rows:
        where = "EXAMPLES orders and maps: %s" % shows
        given = given_before if given == "the same" else given
        given_before = given
        found = re.match(r"N (\d+), ranks ([\d ]+)$", given)
        if found:
            ranks = numbers(found.group(2))
            say(where + " (N)", len(ranks), int(found.group(1)))
            said = re.match(r"accepted|refused \d+, place \d+", answer).group(0)
            say(where, refusal(lambda: order_of(ranks)), said)
            found = re.search(r"from position (\d+), rank (\d+), to position (\d+), rank (\d+)", answer)
            if found:
                p, r, q, t = map(int, found.groups())
                say(where + " (the move)", (ranks[p], q in moves(p, 3), ranks[q]), (r, True, t))
        elif given == "(2, 4)":
            say(where, refusal(lambda: listed_map(3, bytes(8)).kind(2, 4)), answer.split(":")[0])
        elif answer.startswith("refused"):
            K = int(re.search(r"K (\d+)", given).group(1))
            say(where, refusal(lambda: ranked_map(order_of(ORDER_OF_8), K)), answer)
        else:
            made = map_of(given)
            found = re.search(r"marks ([01]+)", given)
            if found:
                say(where + " (marks)", characters(made.marks), found.group(1))
            s, T = numbers(answer)[:2]
            said = re.match(r"\(\d+, \d+\) (?:is (\S+)|has no kind)$", answer)
            say(where, made.kind(s, T), said.group(1))

    words, encoding, steps = tables(parts["Words"])
    say("EXAMPLES words: rows", [len(words[1]), len(encoding[1]), len(steps[1])], [7, 1, 3])
    for shows, which, received, word, message, count in words[1]:
        kind = KINDS["e" if received.startswith("erasures") else "w"]
        made = map_of(which)
        got = receive(kind, made, hexes(received.replace("erasures ", "")))
        say("EXAMPLES words: %s" % shows, (characters(got[2]), characters(got[1]), got[0]), (word, message, int(count)))
    for shows, which, message, word in encoding[1]:
        say("EXAMPLES words: %s" % shows, characters(encode(map_of(which), bits(message))), word)
    made = None
    for shows, which, caps, count in steps[1]:
        made = made if which == "the same" else map_of(which)
        if caps == "both":
            receiver = Receiver(made, KINDS["w"])
            receiver.word(bytes(made.N))
            receiver.advance(3)
            receiver.caps(0, 0)
            receiver.advance(65535)
            got = receiver.take()[0]
        else:
            got = count_steps(made, tuple(numbers(caps)))
        say("EXAMPLES steps: %s" % shows, got, int(count))
    lines = parts["Words"]
    session = re.search(r"The session ([0-9A-F ]+) prints", "\n".join(lines)).group(1)
    say("EXAMPLES words: the session", answers(hexes(session), b"").decode(),
        "".join(line.strip() + "\n" for line in lines if line.startswith("    ")))

    (head, rows), = tables(parts["Shortcuts that go astray"])
    say("EXAMPLES shortcuts: rows", len(rows), 6)
    for index, (shortcut, example, right, wrong) in enumerate(rows):
        where = "EXAMPLES shortcuts: %s, %s" % (shortcut, example)
        marks = re.search(r"(?:marks|listed) ([01]+)", example).group(1)
        made = listed_map(len(marks).bit_length() - 1, bytes(bits(marks)))
        found = re.search(r"word ([01]+)", example)
        if found:
            say(where, "message " + characters(message_of(made, bits(found.group(1)))), right)
            say(where + " (astray)", characters(b for b, m in zip(bits(found.group(1)), made.marks) if m), wrong)
            continue
        kind = KINDS["e" if "erasures" in example else "w"]
        data = hexes(example.split(", ", 1)[1].replace("erasures ", ""))
        count, message, word = receive(kind, made, data)
        say(where, characters(word), re.search(r"word ([01]+)", right).group(1))
        if "message" in right:
            say(where + " (message)", characters(message), re.search(r"message ([01]+)", right).group(1))
        if "steps" in right:
            say(where + " (steps)", count, int(re.search(r"(\d+) steps", right).group(1)))
            say(where + " (no kind)", made.kind(0, made.N), None)
        # what the shortcut gives
        signs = [kind.read(byte)[0] for byte in data]
        if "without a sign" in shortcut:
            astray = cancel_without_signed_zero([kind.read(byte) for byte in data], made.marks)
        elif "lowest position" in shortcut:
            sizes = [kind.read(byte)[1] for byte in data]
            astray = list(signs)
            astray[sizes.index(min(sizes))] ^= 1
        elif "majority" in shortcut:
            votes = sum((1 - 2 * kind.read(byte)[0]) * kind.read(byte)[1] for byte in data)
            astray = [0 if votes > 0 else 1] * made.N
        else:
            astray = rep_rule(kind, [kind.read(byte) for byte in data])
        say(where + " (astray)", characters(astray), re.search(r"word ([01]+)", wrong).group(1))

    # Arikan
    arikan = "\n".join(parts["Arıkan's examples"])
    found = re.search(r"run it with all\nfour positions informed: ([0-9A-F ]+) prints `(.*)` and `(.*)`", arikan)
    say("EXAMPLES Arikan 4: the session", answers(hexes(found.group(1)), b"").decode(),
        found.group(2) + "\n" + found.group(3) + "\n")
    four, eight, z_table = tables(parts["Arıkan's examples"])
    u, ours = {}, {}
    for row in four[1]:
        for his, cell in zip(four[0][1:], row[1:]):
            (u if row[0] == "u" else ours)[int(his)] = numbers(cell)[0]
    held = [0] * 4
    for his in u:
        say("EXAMPLES Arikan 4: his position %d" % his, reverse(his - 1, 2), ours[his])
        held[ours[his]] = u[his]
    found = re.search(r"positions hold ([01 ]+), and their transform is ([01 ]+)\.", arikan)
    say("EXAMPLES Arikan 4: what the positions hold", held, numbers(found.group(1)))
    say("EXAMPLES Arikan 4: transform", transform(held), numbers(found.group(2)))
    for position, row, his in eight[1]:
        i = int(position)
        say("EXAMPLES Arikan 8: row %d" % i, transform([1 if p == i else 0 for p in range(8)]), numbers(row))
        say("EXAMPLES Arikan 8: row %d, every 1 of j is a 1 of i" % i,
            [1 if j & ~i == 0 else 0 for j in range(8)], numbers(row))
        say("EXAMPLES Arikan 8: row %d, his number" % i, 1 + reverse(i, 3), int(his))

    def chances(z, depth):                # z as a fraction of 2^(2^depth), exact whole numbers
        if depth == 3:
            return [z]
        whole = 2 ** (2 ** depth)
        return chances(2 * z * whole - z * z, depth + 1) + chances(z * z, depth + 1)
    got = chances(1, 0)
    say("EXAMPLES Arikan: 256 z", got, [int(c) for c in z_table[1][0][1:]])
    ranks = [sorted(got).index(z) for z in got]
    say("EXAMPLES Arikan: ranks by z", ranks, [int(c) for c in z_table[1][1][1:]])
    say("EXAMPLES Arikan: the order of 8", ranks, ORDER_OF_8)


def reverse(p, n):
    return int(format(p, "0%db" % n)[::-1], 2)


def cancel_without_signed_zero(values, marks):
    """The shortcut of the document, whole numbers: a zero counts as sign 0."""
    def plain(v):
        return (v[0] if v[1] else 0, v[1])
    values = [plain(v) for v in values]
    if len(values) == 1:
        return [values[0][0] if marks[0] else 0]
    h = len(values) // 2
    a, b = values[:h], values[h:]
    beta = cancel_without_signed_zero([check(x, y) for x, y in zip(a, b)], marks[:h])
    gamma = cancel_without_signed_zero([join(KINDS["w"], x, y, t) for x, y, t in zip(a, b, beta)], marks[h:])
    return [x ^ y for x, y in zip(beta, gamma)] + gamma


def rep_rule(kind, values):
    T = len(values)
    while len(values) > 1:
        h = len(values) // 2
        values = [join(kind, x, y, 0) for x, y in zip(values[:h], values[h:])]
    return [values[0][0]] * T


# ---- RULES.md

def rules(text):
    flat = " ".join(text.split())

    def quoted(sentence, got, wanted):
        say("RULES " + sentence, got if sentence in flat else "the sentence is not in the document", wanted)

    parts = sections(text)
    whole, erasure = KINDS["w"], KINDS["e"]
    for head, rows in tables(parts["Soft numbers"]):
        if head[0].startswith("whole numbers"):
            for left, right in rows:
                a, b = [soft(t) for t in re.findall(r"\d/\d+", left)[:2]]
                if left.startswith("check"):
                    got = check(a, b)
                else:
                    beta = int(re.match(r"join\(\d/\d+, \d/\d+, (\d)\)", left).group(1))
                    got = join(whole, a, b, beta)
                    c = re.search(r"c is (\d/\d+)", left)
                    say("RULES %s (c)" % left, (a[0] ^ beta, a[1]), soft(c.group(1)))
                say("RULES %s" % left, got, soft(re.match(r"\d/\d+", right).group(0)))
    (head, rows), = tables(parts["Maps"])
    for row in rows:
        for marks in row[3:]:
            if marks:
                say("RULES kind of %s" % marks, kind_of_marks(bits(marks)), row[1])
    quoted("10, 0101 and 0011 have no kind.", [kind_of_marks(bits(m)) for m in ("10", "0101", "0011")], [None] * 3)
    quoted("1 is Rate-1 and not Rep, 0 is Rate-0 and not SPC, and 01 is Rep and not SPC.",
           [kind_of_marks(bits(m)) for m in ("1", "0", "01")], ["Rate-1", "Rate-0", "Rep"])
    quoted("the moves are 0→1, 1→2, 2→3, 2→4, 3→5, 4→5, 5→6, 6→7.",
           ["%d→%d" % (p, q) for p in range(8) for q in sorted(moves(p, 3))],
           "0→1 1→2 2→3 2→4 3→5 4→5 5→6 6→7".split())

    def lawful(N):
        n = N.bit_length() - 1
        return [list(r) for r in permutations(range(N)) if all(keeps_law(r, n, p) for p in range(N))]
    quoted("So exactly two orders are lawful: ranks 7 6 5 3 4 2 1 0 and ranks 7 6 5 4 3 2 1 0",
           sorted(lawful(8)), [ORDER_OF_8, [7, 6, 5, 4, 3, 2, 1, 0]])
    quoted("For N = 4 only 3 2 1 0 is lawful, for N = 2 only 1 0.", [lawful(4), lawful(2)], [[[3, 2, 1, 0]], [[1, 0]]])
    quoted("In 7 5 6 3 4 2 1 0 position 1 has rank 5 and its move leads to position 2 of rank 6: the law is broken at position 1.",
           refusal(lambda: order_of([7, 5, 6, 3, 4, 2, 1, 0])), "refused 4, place 1")
    code = listed_map(3, bytes(bits("00010111")))
    quoted("Example: marks 00010111, message 1011. The list is 0001 0011.", characters(encode(code, bits("1011"))), "10100101")
    quoted("transform of 0001 is 1111.", characters(transform(bits("0001"))), "1111")
    quoted("transform of 0011 is 0101.", characters(transform(bits("0011"))), "0101")

    def word(kind, marks, data):
        return characters(cancel(kind, [kind.read(b) for b in hexes(data)], bits(marks)))
    quoted("Example, marks 0111, bytes 09 85 05 05 (values 0/9 1/5 0/5 0/5):", word(whole, "0111", "09 85 05 05"), "0110")
    deep = [(what, rows) for what, rows, _ in history(listed_map(2, bytes([0, 1, 1, 1])), whole, (0, 0),
                                                      [whole.read(b) for b in hexes("09 85 05 05")])]
    quoted("check: 0/5 1/5 for the left half", deep[1][1][-1], [(0, 5), (1, 5)])
    quoted("(0/9, 0/5, 1) gives 1/4; (1/5, 0/5, 1) gives 0/10", [join(whole, (0, 9), (0, 5), 1), join(whole, (1, 5), (0, 5), 1)],
           [(1, 4), (0, 10)])
    quoted("join with 1: 0/14", join(whole, (1, 4), (0, 10), 1), (0, 14))
    quoted("Rate-0, marks 0000, bytes 09 85 85 05: word 0000.", word(whole, "0000", "09 85 85 05"), "0000")
    quoted("Rate-1, marks 11, bytes 00 83: word 01.", word(whole, "11", "00 83"), "01")
    quoted("Rep, marks 0001, whole numbers 01 81 01 00: values 0/1 1/1 0/1 0/0; halved: 0/2 1/1; halved: 0/1. Word 0000.",
           word(whole, "0001", "01 81 01 00"), "0000")
    quoted("Rep, marks 0001, erasures 30 31 30 3F: values 0/1 1/1 0/1 0/0; halved: 0/1 1/1; halved: 1/0 (a tie, b's sign). Word 1111.",
           word(erasure, "0001", "30 31 30 3F"), "1111")
    quoted("Rep, marks 01, bytes 03 83: join(0/3, 1/3, 0) is 1/0. Word 11.", word(whole, "01", "03 83"), "11")
    quoted("SPC, marks 0111, bytes 09 85 05 05: signs 0100, their XOR is 1.", word(whole, "0111", "09 85 05 05"), "0110")
    for T, said in ((2, "T = 2: 0 1."), (4, "T = 4: 0 2 1 3."), (8, "T = 8: 0 4 2 6 1 5 3 7.")):
        quoted(said, sorted(range(T), key=lambda p: reverse(p, T.bit_length() - 1)), numbers(said)[1:])
    quoted("at caps 10 10 the root has no kind, its left half is Rep, its right half SPC: 5 steps.",
           (code.kind(0, 8), code.kind(0, 4), code.kind(4, 4), count_steps(code, (10, 10))), (None, "Rep", "SPC", 5))
    quoted("At caps 0 0 only single positions are settled: 29 steps.", count_steps(code, (0, 0)), 29)
    (head, rows), = [t for t in tables(parts["The work memory"]) if t[0][0] == "after"]
    told = history(code, whole, (10, 10), [whole.read(b) for b in hexes("85 03 82 81 04 81 07 83")])
    say("RULES work memory: rows of the table", len(told), len(rows))
    for (what, open_rows, held), (after, said_rows, said_bits) in zip(told, rows):
        wanted = [] if said_rows == "none" else [[soft(t) for t in part.split()] for part in said_rows.split(", then ")]
        say("RULES work memory: after %s" % after, (what, open_rows, characters(held)), (after, wanted, said_bits))
    quoted("Take then answers 5 steps, message 1011, word 10100101.",
           receive(whole, code, hexes("85 03 82 81 04 81 07 83")), (5, bits("1011"), bits("10100101")))


def main():
    global quiet
    parser = argparse.ArgumentParser()
    parser.add_argument("--docs", default=os.path.join(HERE, "..", "docs"))
    parser.add_argument("--quiet", action="store_true", help="print only what does not agree")
    given = parser.parse_args()
    quiet = given.quiet
    for name, run in (("FORMATS.md", formats), ("EXAMPLES.md", examples), ("RULES.md", rules)):
        with open(os.path.join(given.docs, name), encoding="utf-8") as file:
            run(file.read())
    print("%d agree, %d do not" % (passed, failed))
    return 1 if failed else 0


if __name__ == "__main__":
    sys.exit(main())
