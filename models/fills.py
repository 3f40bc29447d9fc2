"""The games that are played on a tablebase under an edition of the rules: the whole one, and a pair's (document 01, "A ply"
and "Ranks and shelves")."""

from array import array
from functools import cache

from entries import DRAW
from outcomes import depths
from plies import successors
from ranks import in_order
from tablebases import FEWEST, length, places, tables


# The places that the plies of each place of a tablebase lead to. A side left with two stones has no place; all such
# positions are one, numbered as the place past the last.
@cache
def game(rings, edition, k):
    boards = [board for table in tables(rings, k) for board in in_order(8 * rings, *table)]
    place = {board: number for number, board in enumerate(boards)}
    return [array("I", [place.get(board, len(boards)) for board in successors(edition, before)]) for before in boards]


# "A side left with two stones has lost": it is lost within 0.
def two_stones(rings, k):
    return {length(rings, k): 0}


# "On a whole shelf, outcomes come from the plies alone, never from entries."
@cache
def whole_depths(rings, edition, k):
    return depths(range(length(rings, k)), game(rings, edition, k), two_stones(rings, k))


# "The pair (m, o) and (o, m)"; of two equal counts it is one table.
def pair_places(rings, k, mover, opponent):
    pair = {(mover, opponent), (opponent, mover)}
    return [place for table in pair for place in places(rings, k, table)]


# "(o − 1, m) and (m − 1, o), where these counts are at least 3".
def lower_places(rings, k, mover, opponent):
    lower = {(opponent - 1, mover), (mover - 1, opponent)}
    return [place for table in lower if min(table) >= FEWEST for place in places(rings, k, table)]


# The lower tables are taken "as given endings with the depths they state, a given draw as a drawn end".
def pair_depths(rings, edition, k, mover, opponent, tablebase):
    stated = {place: tablebase[place] for place in lower_places(rings, k, mover, opponent)}
    given = {place: entry for place, entry in stated.items() if entry != DRAW}
    return depths(pair_places(rings, k, mover, opponent), game(rings, edition, k), given | two_stones(rings, k))
