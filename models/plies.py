"""A ply and its number (document 01, "A ply"). A ply is a triple: from, to, removed."""

from functools import lru_cache

from board import MOVER, NEIGHBOURS, OPPONENT, VACANT, in_mill, points_of

NO_REMOVAL = 31
EXCHANGED = bytes.maketrans(bytes([MOVER, OPPONENT]), bytes([OPPONENT, MOVER]))


# "The mover slides a stone to a vacant neighbour; with exactly three stones, to any vacant point."
def destinations(board, start, jumps):
    reach = range(len(board)) if jumps else NEIGHBOURS[len(board)][start]
    return [end for end in reach if board[end] == VACANT]


def slides(board):
    stones = points_of(board, MOVER)
    return [(start, end) for start in stones for end in destinations(board, start, len(stones) == 3)]


# The board after a slide; the vacated point no longer counts towards a mill.
def slid(board, start, end):
    after = bytearray(board)
    after[start], after[end] = VACANT, MOVER
    return after


# The rule of removal, by edition: "If the moved stone then stands in a full mill of its own, exactly one opposing stone
# must be removed: one outside any mill, or any one if all stand in mills." In edition 2 (document 02, A11), "when all
# opposing stones stand in mills, a closed mill removes nothing".
def removals(edition, board, end):
    if not in_mill(board, end):
        return [NO_REMOVAL]
    stones = points_of(board, OPPONENT)
    outside = [stone for stone in stones if not in_mill(board, stone)]
    shielded = stones if edition == 1 else [NO_REMOVAL]
    return outside or shielded


def plies(edition, board):
    return [
        (start, end, removed)
        for start, end in slides(board)
        for removed in removals(edition, slid(board, start, end), end)
    ]


# "A move number is 1,024 × from + 32 × to + removed, with 31 for no removal."
def number(ply):
    start, end, removed = ply
    return 1024 * start + 32 * end + removed


# The ply of a move number.
def numbered(move):
    return move // 1024, move // 32 % 32, move % 32


# The order of a list (document 02, A2): "all moves with a removal, by rising number, and then the others, by rising number".
@lru_cache(maxsize=1)
def listed(edition, board):
    rising = sorted(plies(edition, board), key=number)
    captures = [ply for ply in rising if ply[2] != NO_REMOVAL]
    return captures + [ply for ply in rising if ply[2] == NO_REMOVAL]


# The board after a ply: "the sides change names: 1 becomes 2 and 2 becomes 1."
def after(board, ply):
    start, end, removed = ply
    board = slid(board, start, end)
    if removed != NO_REMOVAL:
        board[removed] = VACANT
    return bytes(board.translate(EXCHANGED))


def successors(edition, board):
    return [after(board, ply) for ply in plies(edition, board)]
