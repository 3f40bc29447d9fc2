"""Where the tables of a tablebase stand (document 01, "Ranks and shelves"; its *shelf* is a tablebase here)."""

from math import factorial

from board import counts
from ranks import rank

FEWEST, MOST = 3, 9


# A table's counts: "Stone counts are 3 to 9 a side", and no more stones than points.
def fits(points, mover, opponent):
    return FEWEST <= min(mover, opponent) and max(mover, opponent) <= MOST and mover + opponent <= points


# "The size of table (m, o) is P! / (m! × o! × (P − m − o)!)."
def size(points, mover, opponent):
    return factorial(points) // (factorial(mover) * factorial(opponent) * factorial(points - mover - opponent))


# "All tables (m, o) with 3 ≤ m, o ≤ K and m + o ≤ P, by rising m, then o."
def tables(rings, k):
    to_k = range(FEWEST, k + 1)
    return [(mover, opponent) for mover in to_k for opponent in to_k if fits(8 * rings, mover, opponent)]


# How many entries a tablebase has.
def length(rings, k):
    return sum(size(8 * rings, *table) for table in tables(rings, k))


# A table's places in the tablebase: from its start to its end.
def places(rings, k, table):
    before = [other for other in tables(rings, k) if other < table]
    start = sum(size(8 * rings, *other) for other in before)
    return range(start, start + size(8 * rings, *table))


# "At place r of a table, counted from 0, stands the entry of its position of rank r."
def place(k, board):
    return places(len(board) // 8, k, counts(board))[rank(board)]
