"""Whether the entries of a tablebase are right, whoever made it (document 02, A8)."""

from entries import DRAW, VOID
from fills import game


# "Even is lost for the mover, odd is won" (document 01); a draw and "a void successor as neither won nor lost".
def lost(entry):
    return entry < VOID and entry % 2 == 0


def won(entry):
    return entry < VOID and entry % 2 == 1


# Whether an entry n is right where these are the successors' entries, case by case as A8 has them. "Void is never right."
def right(n, successors):
    losses = [entry for entry in successors if lost(entry)]
    wins = [entry for entry in successors if won(entry)]
    if n == 0:  # "0 for a blocked mover"
        return len(successors) == 0
    if won(n):  # "odd n with a quickest lost successor of n − 1"
        return min(losses, default=None) == n - 1
    if lost(n):  # "even n above 0 with all successors won and the slowest at n − 1"
        return len(wins) == len(successors) and max(wins, default=None) == n - 1
    # "or draw with no lost successor and at least one successor not won"
    return n == DRAW and len(losses) == 0 and len(wins) < len(successors)


# "The first index that fails", or None for a tablebase that passes. "A side with two stones counts as lost in 0": in the
# game it stands past the last place.
def first_failing(rings, edition, k, tablebase):
    entries = [*tablebase, 0]
    for index, plies in enumerate(game(rings, edition, k)):
        if not right(entries[index], [entries[place] for place in plies]):
            return index
    return None
