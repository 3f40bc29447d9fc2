"""The program `desk` (document 01, "Frames"): its output for any input."""

from array import array
from functools import cache

import frames
from board import counts
from calls import about_play, best_move, fill, lookup, rank, read_frame
from refusals import first_refusal
from tablebases import length

HEADER = "rings mover opponent rank entry move"
K, LIMIT = 5, 2000
# "`desk` keeps edition 1" (document 02, A11).
EDITION = 1


# "The program `desk` fills the one-ring shelf (K 5, limit 2,000)."
@cache
def tablebase():
    return fill(1, EDITION, K, LIMIT, array("H", [0] * length(1, K)))[1]


# "Entry and move are `-` on two and three rings; move is `-` for a blocked mover."
def entry_and_move(rings, board):
    if rings != 1:
        return "-", "-"
    entry = lookup(rings, EDITION, board, K, tablebase())[1]
    refusal, move, _ = best_move(rings, EDITION, board, K, tablebase())
    return entry, "-" if refusal else move


# "A refused line prints `refused` and the number." 15 (document 02, A1) is no refusal of the reader's.
def answer(line):
    refusal, rings, _, _ = read_frame(line)
    if refusal:
        return f"refused {refusal}"
    board = frames.board_of(line)
    refusal = first_refusal(about_play(EDITION, board))
    if refusal:
        return f"refused {refusal}"
    return " ".join(map(str, (rings, *counts(board), rank(rings, board)[1], *entry_and_move(rings, board))))


# "A line ends with a line feed, the last perhaps without; nothing after a final line feed is a line."
def lines_of(data):
    lines = data.split(b"\n")
    return lines if lines[-1] else lines[:-1]


# "The header comes first, even for empty input."
def output(data):
    return "".join(line + "\n" for line in [HEADER, *map(answer, lines_of(data))]).encode()
