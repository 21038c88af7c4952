"""Soft numbers (RULES.md, "Soft numbers"). A soft number is the pair (sign, size)."""

FILL = (0, 0)


def check(a, b):
    """First law, the same in every kind."""
    return (a[0] ^ b[0], min(a[1], b[1]))


def join(kind, a, b, beta):
    """Second law. Only the size is the kind's own rule."""
    c_sign = a[0] ^ beta
    agree = c_sign == b[0]
    sign = c_sign if not agree and a[1] > b[1] else b[0]
    return (sign, kind.join_size(a[1], b[1], agree))


class Whole:
    letter = "w"
    LARGEST = 127 * 1024

    @staticmethod
    def read(byte):
        return (byte >> 7, byte & 0x7F)

    @staticmethod
    def join_size(x, y, agree):
        return min(x + y, Whole.LARGEST) if agree else abs(x - y)


class Erasure:
    letter = "e"
    READS = {0x30: (0, 1), 0x31: (1, 1), 0x3F: (0, 0)}

    @staticmethod
    def read(byte):
        """None: the byte does not read."""
        return Erasure.READS.get(byte)

    @staticmethod
    def join_size(x, y, agree):
        return max(x, y) if agree else abs(x - y)


KINDS = {kind.letter: kind for kind in (Whole, Erasure)}
