"""What an entry says, and best moves by entries (document 01, "Ranks and shelves")."""

from board import MOVER
from plies import after, listed
from tablebases import FEWEST, place

# "Entry: 65,535 draw; 65,534 void; else plies to the end. Even is lost for the mover, odd is won."
DRAW, VOID = 65535, 65534
# "Limit: 0 to 65,533 plies."
HIGHEST_LIMIT = 65533


# A position's entry: "0 for a side with two stones".
def entry_of(board, k, tablebase):
    return tablebase[place(k, board)] if board.count(MOVER) >= FEWEST else 0


# What a successor's entry is worth to the one who moves there, the best first: "quickest win, else a draw, else
# longest loss".
def worth(entry):
    if entry == DRAW:
        return 1, 0
    return (0, entry) if entry % 2 == 0 else (2, -entry)


# The listed plies, each with the entry of the successor it leads to.
def choices(edition, board, k, tablebase):
    return [(ply, entry_of(after(board, ply), k, tablebase)) for ply in listed(edition, board)]


# "A best move is the first listed among" those of most worth.
def best(edition, board, k, tablebase):
    return min(choices(edition, board, k, tablebase), key=lambda choice: worth(choice[1]))
