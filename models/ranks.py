"""The order of the boards of a table (document 01, "Ranks and shelves"): one board's rank by counting those before it,
a whole table's order by sorting its boards."""

from functools import cache
from itertools import combinations

from board import MOVER, OPPONENT, VACANT, counts


# The counts that are left for the points below one with this value.
def without(mover, opponent, value):
    return mover - (value == MOVER), opponent - (value == OPPONENT)


# The boards of so many points with these counts: those with the highest point vacant, a 1 and a 2.
@cache
def how_many(points, mover, opponent):
    if min(points, mover, opponent) < 0:
        return 0
    if points == mover == opponent == 0:
        return 1
    return sum(how_many(points - 1, *without(mover, opponent, value)) for value in (VACANT, MOVER, OPPONENT))


# "Read the board from its highest point down. Order boards of equal counts by the first difference, with vacant
# below 1 below 2. The rank is how many come before." Each point adds those that have a lower value there first.
def rank(board):
    before, left = 0, counts(board)
    for point in reversed(range(len(board))):
        for lower in range(board[point]):
            before += how_many(point, *without(*left, lower))
        left = without(*left, board[point])
    return before


# The board of a rank: at each point the value whose boards, among those not passed over, hold the rank.
def board_of(points, mover, opponent, rank):
    board, left = bytearray(points), (mover, opponent)
    for point in reversed(range(points)):
        while rank >= how_many(point, *without(*left, board[point])):
            rank -= how_many(point, *without(*left, board[point]))
            board[point] += 1
        left = without(*left, board[point])
    return bytes(board)


# Every board of these counts, in any order.
def boards(points, mover, opponent):
    for movers in combinations(range(points), mover):
        vacant = [point for point in range(points) if point not in movers]
        for opponents in combinations(vacant, opponent):
            yield bytes(MOVER if p in movers else OPPONENT if p in opponents else VACANT for p in range(points))


# The board from its highest point down; readings are compared by their first difference.
def reading(board):
    return board[::-1]


# A table's boards by rising rank.
def in_order(points, mover, opponent):
    return sorted(boards(points, mover, opponent), key=reading)
