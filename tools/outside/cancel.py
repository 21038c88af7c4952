"""Cancellation one position at a time (RULES.md): the definition and nothing else."""
from .soft import check, join


def cancel(kind, values, marks):
    """The word that belongs to the values and the marks."""
    T = len(values)
    if T == 1:
        return [values[0][0] if marks[0] == 1 else 0]
    a, b = values[:T // 2], values[T // 2:]
    beta = cancel(kind, [check(x, y) for x, y in zip(a, b)], marks[:T // 2])
    gamma = cancel(kind, [join(kind, x, y, bit) for x, y, bit in zip(a, b, beta)], marks[T // 2:])
    return [x ^ y for x, y in zip(beta, gamma)] + gamma
