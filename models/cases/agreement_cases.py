"""Two solvers held against each other under both editions. Both are to give the true tablebase, so every place is equal; the
sums are those of the true one. Then the tablebases of the two editions held against each other."""

import calls
from cases.sums import contents, made_up, throughout, with_entry
from tablebases import length

# Rings and K of whole tablebases.
ONE_RING = ((1, 3), (1, 4), (1, 5), (1, 9))
TWO_RINGS = ((2, 3), (2, 4))

# Rings, the opponent's count of the pair with four, and the entry and place of the change in the true tablebase of K 4: a
# draw given as a loss; an entry given as a loss far deeper than any other, so that there is a gap. Four against four has the
# same plies in both editions, since four stones never all stand in mills.
ONE_RING_CHANGES = ((1, 3, 2, 140), (1, 3, 500, 20))
TWO_RINGS_CHANGE = (2, 3, 500, 5740)
FOUR_AGAINST_FOUR = (2, 4, 0, 179712)


def equal(tablebase):
    return f" {len(tablebase)} of {len(tablebase)} equal"


def true_tablebase(rings, edition, k):
    return calls.fill(rings, edition, k, 2000, throughout(9, length(rings, k)))[1]


def whole(edition, rings, k):
    return f"second {rings} {edition} {k}:{equal(true_tablebase(rings, edition, k))}"


def pair(rings, edition, mover, opponent, tablebase):
    tablebase = calls.fill_pair(rings, edition, mover, opponent, 4, 2000, tablebase)[1]
    return f"{equal(tablebase)}{contents(tablebase)}"


def over_change(edition, rings, opponent, entry, place):
    tablebase = with_entry(true_tablebase(rings, edition, 4), place, entry)
    line = pair(rings, edition, 4, opponent, tablebase)
    return f"second pair {rings} {edition} 4 {opponent} 4 with {entry} at {place}:{line}"


def over_made_up(edition, depth):
    line = pair(1, edition, 3, 4, made_up(length(1, 4), depth))
    return f"second pair 1 {edition} 3 4 4 over made up {depth}:{line}"


def one_ring_under(edition):
    yield from (whole(edition, *case) for case in ONE_RING)
    yield from (over_change(edition, *case) for case in ONE_RING_CHANGES)
    yield over_made_up(edition, 40)


def two_rings_under(edition):
    yield from (whole(edition, *case) for case in TWO_RINGS)
    yield over_change(edition, *TWO_RINGS_CHANGE)


# How many entries differ between the two editions.
def editions(rings, k):
    entries = zip(true_tablebase(rings, 1, k), true_tablebase(rings, 2, k))
    differ = sum(first != second for first, second in entries)
    return f"editions {rings} {k}: {differ} of {length(rings, k)} differ"


def lines():
    yield from one_ring_under(1)
    yield from one_ring_under(2)
    yield from (editions(*case) for case in ONE_RING)
    yield from two_rings_under(1)
    yield over_change(1, *FOUR_AGAINST_FOUR)
    yield from two_rings_under(2)
    yield from (editions(*case) for case in TWO_RINGS)
