"""Ranks, boards of ranks, lengths of tablebases, and ranks that come back from their boards."""

import calls
import tablebases
from cases.notation import NINE_AGAINST_MILL, answered, board, done, points

RANKS = (
    # Starred: one ring, 3-3.
    (1, "00111222"), (1, "10011222"), (1, "20011122"), (1, "22211100"), (1, "02122011"), (1, "11120202"),
    # Each refusal of a board, and the first of two; the last board has no vacant point.
    (0, "00111222"), (4, "222"), (1, "0111222"), (2, "30111222"), (1, "30111222"), (1, "00311222"), (1, "00011222"),
    (1, ""), (1, "11111222"),
    # A board that no game reaches has a rank all the same.
    (3, NINE_AGAINST_MILL),
)

# Rings, counts, rank, and the length of the target.
UNRANKS = (
    # One ring: the first and the last board of 3-3, five against three; each refusal, and the first of two.
    (1, 3, 3, 0, 8), (1, 3, 3, 559, 8), (1, 3, 3, 560, 8), (1, 5, 3, 0, 8), (1, 5, 4, 0, 8), (1, 2, 3, 0, 8),
    (1, 3, 10, 0, 8), (0, 3, 3, 0, 8), (1, 3, 3, 560, 9), (1, 5, 4, 560, 9), (1, 3, 3, 2**64 - 1, 8),
    # Three rings: the first and the last board of the two sizes that document 01 gives, and the ranks past them.
    (3, 3, 3, 2691919, 24), (3, 3, 3, 2691920, 24),
    (3, 8, 8, 0, 24), (3, 8, 8, 9465511769, 24), (3, 8, 8, 9465511770, 24),
)

# Rings and K: one ring as document 01 gives them, some of two and three rings.
LENGTHS = ((1, 3), (1, 4), (1, 5), (1, 9), (2, 3), (2, 4), (3, 3), (3, 4), (3, 5), (3, 9))

# Rings, counts, and how many of the first ranks.
ROUND_TRIPS = ((1, 3, 3, 560), (1, 5, 3, 56), (2, 3, 3, 160160), (3, 3, 4, 10000))


def rank(rings, text):
    return f"rank {rings} {text}:{answered(*calls.rank(rings, board(text)))}"


def unrank(rings, mover, opponent, rank, length):
    refusal, target = calls.unrank(rings, mover, opponent, rank, bytes([7] * length))
    return f"unrank {rings} {mover} {opponent} {rank}:{done(refusal, 'written')} {points(target)}"


def length(rings, k):
    return f"length {rings} {k}: {tablebases.length(rings, k)}"


def comes_back(rings, mover, opponent, rank):
    refusal, board = calls.unrank(rings, mover, opponent, rank, bytes(8 * rings))
    return not refusal and calls.rank(rings, board) == (0, rank)


def round_trips(rings, mover, opponent, ranks):
    same = sum(comes_back(rings, mover, opponent, rank) for rank in range(ranks))
    return f"round trips {rings} {mover} {opponent}: {same} of {ranks}"


def lines():
    yield from (rank(*case) for case in RANKS)
    yield from (unrank(*case) for case in UNRANKS)
    yield from (length(*case) for case in LENGTHS)
    yield from (round_trips(*case) for case in ROUND_TRIPS)
