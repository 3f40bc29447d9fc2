"""Classes of boards (document 01, "A class is")."""

from functools import cache

from board import point
from ranks import reading

WHOLE = 24


# "p to p + 2k".
def turned(place, k):
    return (place + 2 * k) % 8


# "Or to 2k − p, modulo 8".
def mirrored(place, k):
    return (2 * k - place) % 8


# The point that each point in use goes to, "each with or without the rings reversed (ring r to rings − 1 − r)".
@cache
def symmetries(rings):
    in_use = [(ring, place) for ring in range(rings) for place in range(8)]
    return [
        [point(rings - 1 - ring if reverse else ring, move(place, k)) for ring, place in in_use]
        for reverse in (False, True)
        for move in (turned, mirrored)
        for k in range(4)
    ]


# "Images are formed as whole boards of 24 points, the points not in use vacant."
def image(board, symmetry):
    whole = bytearray(WHOLE)
    for value, goes_to in zip(board, symmetry):
        whole[goes_to] = value
    return bytes(whole)


# "Its representative is the image of least rank": the first in the order of ranks, which is that of readings.
def representative(board):
    return min((image(board, symmetry) for symmetry in symmetries(len(board) // 8)), key=reading)
