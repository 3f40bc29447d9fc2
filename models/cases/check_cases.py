"""Tablebases checked, whoever made them: those that a fill makes, and others with entries that are not right."""

from array import array

import calls
from cases.notation import done
from cases.sums import contents, throughout, with_entry
from certificates import won
from entries import DRAW, VOID
from tablebases import length, places, tables

# Place and entry, in the tablebase of one ring, K 5.
ONE_RING = (
    # A win, a loss, a draw and a blocked mover's entry written as others, in the first place and in the last.
    (117, 3), (117, 65533), (0, DRAW), (225, 4), (225, DRAW), (4, 1), (4, 2), (4, VOID), (1301, 2), (1301, DRAW), (1301, VOID),
    # Wins in one, with a loss in 2 or in 4 among their successors, by which they are not right.
    (3, 3), (561, 5),
    # Changes by which a position before them is not right.
    (117, 0), (1020, 2), (1020, VOID),
)

# The same for two rings, K 4.
TWO_RINGS = (
    # Losses by their quickest successor, not by their slowest; a win by its slowest.
    (9809, 2), (1521238, 6), (1861789, 5),
    # A void after a draw that has no other successor but wins.
    (33841, VOID),
    # The last entry as a win, and as a loss before which a draw is not right.
    (1861859, 1), (1861859, 2),
)

# Rings, edition, K, and the length and entry of the buffer.
UNIFORM = tuple((1, 1, 5, 1302, entry) for entry in (DRAW, VOID, 0, 1, 65533))

REFUSED = (
    # Each refusal.
    (0, 1, 5, 1302, 7), (4, 1, 5, 1302, 7), (1, 0, 5, 1302, 7), (1, 3, 5, 1302, 7), (1, 1, 2, 1302, 7), (1, 1, 10, 1302, 7),
    (1, 1, 5, 1301, 7), (1, 1, 5, 1303, 7), (1, 1, 5, 0, 7), (1, 1, 4, 1302, 7), (2, 1, 5, 1302, 7),
    # The first of two: 1 before 20, 11 and 6, 20 before 11 and 6, 11 before 6.
    (4, 3, 5, 1302, 7), (0, 1, 2, 1302, 7), (4, 1, 5, 1301, 7), (1, 0, 2, 1302, 7), (1, 3, 5, 1301, 7), (1, 1, 2, 1301, 7),
    (1, 1, 10, 0, 7),
)

# What is written over the draws of three against four and of four against three: depths of wins and losses; a void that is
# no loss after a win, and one that is not right though the slowest win after it is the deepest.
FAMILIES = ((7, 6), (7, 8), (65533, 65532), (65533, VOID), (VOID, 65533))


# The line of a tablebase that is made as the words say.
def check(rings, edition, k, made, tablebase):
    refusal, passed, index = calls.check(rings, edition, k, tablebase)
    answer = done(refusal, "passed" if passed else f"fails at {index}")
    return f"check {rings} {edition} {k} over {len(tablebase)} {made}:{answer}"


def filled(rings, edition, k):
    return calls.fill(rings, edition, k, 2000, throughout(0, length(rings, k)))[1]


# Under the edition with which it was filled, and under the other.
def under_both(under, rings, k):
    tablebase = filled(rings, under, k)
    yield from (check(rings, edition, k, f"filled under {under}", tablebase) for edition in (1, 2))


# K 9 has the same places as K 5, and the first of them are those of K 3.
def one_ring_filled(under):
    tablebase = filled(1, under, 5)
    yield from under_both(under, 1, 5)
    yield check(1, under, 9, f"filled under {under}", tablebase)
    yield check(1, under, 3, f"filled under {under}", tablebase[: length(1, 3)])


def with_change(rings, k, place, entry):
    tablebase = with_entry(filled(rings, 1, k), place, entry)
    return check(rings, 1, k, f"filled under 1 with {entry} at {place}", tablebase)


def uniform(rings, edition, k, length, entry):
    return check(rings, edition, k, f"of {entry}", throughout(entry, length))


# The line, and what the tablebase holds.
def check_and_sum(rings, k, made, tablebase):
    return check(rings, 1, k, made, tablebase) + contents(tablebase)


# "Bare win and loss marks" (document 00): 1 for a win and 2 for a loss; a blocked mover's 0 and a draw stay.
def mark(entry):
    if entry == 0 or entry == DRAW:
        return entry
    return 1 if won(entry) else 2


def marks_alone():
    tablebase = array("H", map(mark, filled(1, 1, 5)))
    return check_and_sum(1, 5, "filled under 1 with marks alone", tablebase)


# Writes an entry over the draws of a table of one ring.
def write_over_draws(tablebase, table, entry):
    for place in places(1, 5, table):
        if tablebase[place] == DRAW:
            tablebase[place] = entry


# "Marks round a cycle can hold each other up" (document 00): where the draws of three against four are wins and those of four
# against three losses, such a loss comes after each such win, and wins alone after each such loss.
def family(first, second):
    tablebase = filled(1, 1, 5)
    write_over_draws(tablebase, (3, 4), first)
    write_over_draws(tablebase, (4, 3), second)
    return check_and_sum(1, 5, f"filled under 1 with draws of 3 4 as {first} and of 4 3 as {second}", tablebase)


# Pairs in order, each written anew before a larger one is filled over it.
def in_pairs(rings, k, change):
    tablebase = throughout(0, length(rings, k))
    for mover, opponent in tables(rings, k):
        if mover >= opponent:
            tablebase = calls.fill_pair(rings, 1, mover, opponent, k, 2000, tablebase)[1]
            tablebase = array("H", map(change, tablebase))
    return tablebase


# "Their old library stopped at a ply cap. When a position was still open there, it wrote the cap as the depth, and each
# larger table was solved on top of that number" (document 00): positions that end beyond the cap.
def with_cap(rings, k, cap):
    tablebase = in_pairs(rings, k, lambda entry: cap if cap < entry < VOID else entry)
    return check_and_sum(rings, k, f"filled in pairs under 1 with cap {cap}", tablebase)


# Draws as well, which are as open at the cap.
def with_cap_over_draws(cap):
    tablebase = in_pairs(1, 5, lambda entry: min(entry, cap))
    return check_and_sum(1, 5, f"filled in pairs under 1 with cap {cap} over draws too", tablebase)


# One ring has no depth above 5. Two rings have none above 13, and above 9 none of three against three.
def lines():
    yield from one_ring_filled(1)
    yield from one_ring_filled(2)
    yield from (uniform(*case) for case in UNIFORM)
    yield from (with_change(1, 5, *case) for case in ONE_RING)
    yield marks_alone()
    yield from (family(*case) for case in FAMILIES)
    yield from (with_cap(1, 5, cap) for cap in (5, 4, 3, 2, 1))
    yield from (with_cap_over_draws(cap) for cap in (5, 4))
    yield from (uniform(*case) for case in REFUSED)
    yield from under_both(1, 2, 4)
    yield from under_both(2, 2, 4)
    yield from (with_change(2, 4, *case) for case in TWO_RINGS)
    yield from (with_cap(2, 4, cap) for cap in (9, 2))
