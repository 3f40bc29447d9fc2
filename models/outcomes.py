"""Outcomes of a game (document 01, "A ply", from "On a whole shelf" on).

A game is a list `plies`, at each position the positions that its plies lead to, and `given`: the positions that count
as ended, whatever plies they have, with their depths. A position that is not asked for and not given is a drawn end.
"""


# "Within n + 1 it is won exactly when some ply leads to a position lost within n."
def won_next(position, plies, lost):
    return not lost.isdisjoint(plies[position])


# "And lost exactly when every ply leads to one won within n."
def lost_next(position, plies, won):
    return won.issuperset(plies[position])


# The given positions by their depths.
def given_at(given):
    at = {}
    for position, depth in given.items():
        at.setdefault(depth, []).append(position)
    return at


# The next n within which more may be won or lost: where level n found nothing, nothing changes before a given depth.
def next_level(level, found, at):
    later = [depth for depth in at if depth > level]
    return level + 1 if found else min(later, default=None)


# The depths of those of the positions that have a forced end: "the least such n". The others are draws.
#
# Level by level, `won` and `lost` hold what is won and lost within n. From nothing won or lost, level 0 finds those with
# no ply. A given position is "won if that depth is odd and lost if it is even, within every n from the depth on".
def depths(positions, plies, given):
    won, lost, depth, at = set(), set(), {}, given_at(given)
    undecided, level = list(positions), 0
    while level is not None:
        newly_won = [position for position in undecided if won_next(position, plies, lost)]
        newly_lost = [position for position in undecided if lost_next(position, plies, won)]
        depth.update((position, level) for position in newly_won + newly_lost)
        ended = at.get(level, [])
        won.update(newly_won, ended if level % 2 == 1 else [])
        lost.update(newly_lost, ended if level % 2 == 0 else [])
        undecided = [position for position in undecided if position not in depth]
        level = next_level(level, newly_won or newly_lost or ended, at)
    return depth
