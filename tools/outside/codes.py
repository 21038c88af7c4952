"""Orders, maps, kinds of spans, the encoder (RULES.md; layer 1 of REFUSALS.md)."""


class Refused(Exception):
    def __init__(self, number, layer, place):
        super().__init__("refused %d, layer %d, place %d" % (number, layer, place))
        self.number, self.layer, self.place = number, layer, place


def to_bits(p, n):
    """Bit b of the position p at index b of the list."""
    return [(p >> b) & 1 for b in range(n)]


def to_position(bits):
    return sum(bit << b for b, bit in enumerate(bits))


def moves(p, n):
    """The positions one move away from p, said in bits."""
    bits = to_bits(p, n)
    found = []
    if bits[0] == 0:                       # set bit 0, where it is 0
        found.append(to_position([1] + bits[1:]))
    for b in range(n - 1):                 # exchange a 1 at b with a 0 at b + 1
        if bits[b] == 1 and bits[b + 1] == 0:
            found.append(to_position(bits[:b] + [0, 1] + bits[b + 2:]))
    return found


class Order:
    def __init__(self, n, ranks):
        self.n, self.ranks = n, ranks


def keeps_law(ranks, n, p):
    return all(ranks[q] < ranks[p] for q in moves(p, n))


def order(n, data):
    """The call "order": n and two bytes for each rank."""
    if not 1 <= n <= 10:
        raise Refused(1, 1, 0)
    N = 2 ** n
    if len(data) != 2 * N:
        raise Refused(2, 1, 0)
    ranks = [256 * data[2 * p] + data[2 * p + 1] for p in range(N)]
    seen = set()
    for p in range(N):
        if ranks[p] >= N or ranks[p] in seen:
            raise Refused(3, 1, p)
        seen.add(ranks[p])
    for p in range(N):
        if not keeps_law(ranks, n, p):
            raise Refused(4, 1, p)
    return Order(n, ranks)


class Map:
    """Either make: all that is kept are the marks, 1 informed and 0 frozen."""

    def __init__(self, n, marks):
        self.n, self.N, self.marks = n, 2 ** n, marks

    def informed(self):
        return [p for p in range(self.N) if self.marks[p] == 1]

    def mark(self, p):
        if not 0 <= p < self.N:
            raise Refused(7, 1, 0)
        return self.marks[p]

    def kind(self, s, T):
        """The kind of the span (s, T), or None. Looks at every mark."""
        if T < 1 or T & (T - 1) or s % T or not 0 <= s <= self.N - T:
            raise Refused(7, 1, 0)
        return kind_of_marks(self.marks[s:s + T])


def kind_of_marks(marks):
    T = len(marks)
    if marks == [0] * T:
        return "Rate-0"
    if marks == [1] * T:
        return "Rate-1"
    if marks == [0] * (T - 1) + [1]:
        return "Rep"
    if marks == [0] + [1] * (T - 1):
        return "SPC"
    return None


def ranked_map(order, K):
    if K > 2 ** order.n:
        raise Refused(5, 1, 0)
    return Map(order.n, [1 if rank < K else 0 for rank in order.ranks])


def listed_map(n, data):
    if not 1 <= n <= 10:
        raise Refused(1, 1, 0)
    if len(data) != 2 ** n:
        raise Refused(2, 1, 0)
    for p, byte in enumerate(data):
        if byte not in (0, 1):
            raise Refused(6, 1, p)
    return Map(n, list(data))


def transform(bits):
    if len(bits) == 1:
        return list(bits)
    half = len(bits) // 2
    left, right = transform(bits[:half]), transform(bits[half:])
    return [x ^ y for x, y in zip(left, right)] + right


def encode(map, message):
    """The call "encode" (the output is made here, so its length is right)."""
    informed = map.informed()
    if len(message) != len(informed):
        raise Refused(8, 1, 0)
    for index, byte in enumerate(message):
        if byte not in (0, 1):
            raise Refused(6, 1, index)
    bits = [0] * map.N
    for p, bit in zip(informed, message):
        bits[p] = bit
    return transform(bits)


def message_of(map, word):
    bits = transform(word)
    return [bits[p] for p in map.informed()]
