"""A second implementation of the polar session, written from docs/ alone.

    soft.py      soft numbers, check and join, the two kinds
    codes.py     orders and their law, maps, kinds of spans, the encoder (layer 1)
    cancel.py    cancellation one position at a time: the definition, no span rules
    receiver.py  the receiver's calls and the count of steps (layer 2)
    session.py   the session format with all refusals (layer 3)

Nothing here is meant to be fast. It is meant to be read beside the documents.
"""
from .session import ALL_LETTERS, answers
