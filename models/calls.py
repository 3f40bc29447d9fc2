"""The calls (document 01, its third paragraph). Each answers a tuple: the number of the refusal, or 0; its values, "zero
elsewhere" after a refusal; then, where the call has a target, what the target holds afterwards."""

import classes
import frames
from board import MOVER, OPPONENT, counts, points_of, unreachable
from certificates import first_failing
from entries import DRAW, HIGHEST_LIMIT, VOID, best, choices, entry_of
from fills import lower_places, pair_depths, pair_places, whole_depths
from plies import after, listed, number, numbered
from ranks import board_of
from ranks import rank as rank_of
from refusals import first_refusal
from tablebases import FEWEST, MOST, fits, length, size


# Conditions by the arguments that they concern; the numbers and the order are the refusal table's.
def about_rings(rings):
    return {"rings": lambda: rings not in (1, 2, 3)}


# Document 02, A11: "20, edition not 1 or 2".
def about_edition(edition):
    return {"edition": lambda: edition not in (1, 2)}


def about_counts(rings, mover, opponent):
    return about_rings(rings) | {"counts": lambda: not fits(8 * rings, mover, opponent)}


def about_board(rings, board):
    return about_counts(rings, *counts(board)) | {
        "length": lambda: len(board) != 8 * rings,
        "value": lambda: any(value > OPPONENT for value in board),
    }


# The stones are the counts of a board or a pair; a whole tablebase has none.
def about_tablebase(rings, k, stones, tablebase):
    return about_rings(rings) | {
        "k": lambda: not FEWEST <= k <= MOST or any(count > k for count in stones),
        "tablebase length": lambda: len(tablebase) != length(rings, k),
    }


def about_limit(limit):
    return {"limit": lambda: limit > HIGHEST_LIMIT}


def rank(rings, board):
    refusal = first_refusal(about_board(rings, board))
    return (refusal, 0) if refusal else (0, rank_of(board))


def unrank(rings, mover, opponent, rank, target):
    refusal = first_refusal(about_counts(rings, mover, opponent) | {
        "target length": lambda: len(target) != 8 * rings,
        "rank": lambda: rank >= size(8 * rings, mover, opponent),
    })
    return (refusal, target) if refusal else (0, board_of(8 * rings, mover, opponent, rank))


# "A list's unused places keep their contents."
def moves(rings, edition, board, target):
    refusal = first_refusal(about_edition(edition) | about_board(rings, board) | {
        "room": lambda: len(target) < len(listed(edition, board)),
    })
    if refusal:
        return refusal, 0, target
    numbers = [number(ply) for ply in listed(edition, board)]
    return 0, len(numbers), numbers + target[len(numbers) :]


def make_move(rings, edition, board, move, target):
    refusal = first_refusal(about_edition(edition) | about_board(rings, board) | {
        "target length": lambda: len(target) != 8 * rings,
        "not listed": lambda: numbered(move) not in listed(edition, board),
    })
    return (refusal, target) if refusal else (0, after(board, numbered(move)))


# The representative's rank; the vacant points above those in use add nothing to it.
def representative(rings, board):
    refusal = first_refusal(about_board(rings, board))
    return (refusal, 0) if refusal else (0, rank_of(classes.representative(board)))


# Document 02, A1: "15, unreachable position"; A11: "15 is given under edition 1 only".
def about_play(edition, board):
    return {"unreachable": lambda: edition == 1 and unreachable(board)}


# The conditions on a board whose entry or best move is sought.
def about_entry(rings, edition, board, k, tablebase):
    stones = about_tablebase(rings, k, counts(board), tablebase)
    return about_edition(edition) | about_board(rings, board) | about_play(edition, board) | stones


# An entry means the outcome under the edition with which its tablebase was filled (A11), so it is read the same under either.
def lookup(rings, edition, board, k, tablebase):
    conditions = about_entry(rings, edition, board, k, tablebase)
    refusal = first_refusal(conditions | {"void": lambda: entry_of(board, k, tablebase) == VOID})
    return (refusal, 0) if refusal else (0, entry_of(board, k, tablebase))


# The move's number, "with the entry of the successor it leads to".
def best_move(rings, edition, board, k, tablebase):
    refusal = first_refusal(about_entry(rings, edition, board, k, tablebase) | {
        "blocked": lambda: not listed(edition, board),
        "void": lambda: any(entry == VOID for _, entry in choices(edition, board, k, tablebase)),
    })
    if refusal:
        return refusal, 0, 0
    ply, entry = best(edition, board, k, tablebase)
    return 0, number(ply), entry


# Entries written at the places to fill; "after 13: all entries to be filled become void".
def filled(places, depth, limit, tablebase):
    refusal = first_refusal({"depth": lambda: max(depth.values(), default=0) > limit})
    entries = tablebase[:]
    for place in places:
        entries[place] = VOID if refusal else depth.get(place, DRAW)
    return refusal, entries


# "One call fills a shelf."
def fill(rings, edition, k, limit, tablebase):
    refusal = first_refusal(about_edition(edition) | about_tablebase(rings, k, (), tablebase) | about_limit(limit))
    if refusal:
        return refusal, tablebase
    return filled(range(length(rings, k)), whole_depths(rings, edition, k), limit, tablebase)


# "Another fills the pair (m, o) and (o, m) only."
def fill_pair(rings, edition, mover, opponent, k, limit, tablebase):
    conditions = about_counts(rings, mover, opponent) | about_tablebase(rings, k, (mover, opponent), tablebase)
    refusal = first_refusal(about_edition(edition) | conditions | about_limit(limit) | {
        "void": lambda: any(tablebase[place] == VOID for place in lower_places(rings, k, mover, opponent)),
    })
    if refusal:
        return refusal, tablebase
    depth = pair_depths(rings, edition, k, mover, opponent, tablebase)
    return filled(pair_places(rings, k, mover, opponent), depth, limit, tablebase)


# Document 02, A8: "reads a shelf and passes it or gives the first index that fails". Its values are 1 and 0 for passed, else 0
# and the index. "Arguments meet the refusals of a shelf fill except limit and depth."
def check(rings, edition, k, tablebase):
    refusal = first_refusal(about_edition(edition) | about_tablebase(rings, k, (), tablebase))
    if refusal:
        return refusal, 0, 0
    index = first_failing(rings, edition, k, tablebase)
    return (0, 1, 0) if index is None else (0, 0, index)


# "It is also held as two point sets": a number whose binary digit p says whether point p is in the set.
def point_set(board, value):
    return sum(1 << point for point in points_of(board, value))


# The conditions on the board in a frame of right characters: "2: length (or frame length) wrong".
def about_position(frame):
    rings = frames.rings_of(frame)
    return about_board(rings, frames.board_of(frame)) | {"length": lambda: len(frame) != frames.length(rings)}


# The rings and the two sides of a frame, which is taken apart once its characters are right.
def read_frame(frame):
    refusal = first_refusal({"characters": lambda: not frames.well_formed(frame)})
    refusal = refusal or first_refusal(about_position(frame))
    if refusal:
        return refusal, 0, 0, 0
    board = frames.board_of(frame)
    return 0, frames.rings_of(frame), point_set(board, MOVER), point_set(board, OPPONENT)


# The number of characters written, at the start of the target.
def write_frame(rings, board, target):
    refusal = first_refusal(about_board(rings, board) | {"room": lambda: len(target) < frames.length(rings)})
    if refusal:
        return refusal, 0, target
    frame = frames.frame_of(board)
    return 0, len(frame), frame + target[len(frame) :]
