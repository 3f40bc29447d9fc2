"""Tablebases filled, whole and pair by pair: what each call answered, and sums over what the buffer then holds."""

import calls
from cases.notation import done
from cases.sums import contents, made_up, throughout, with_entry
from entries import VOID
from tablebases import length, places

# Rings, edition, K, limit, and the length and entry of the buffer.
WHOLE = tuple(
    # Whatever the buffer held: zeros, sevens, voids.
    (1, edition, k, 2000, length(1, k), entry) for edition in (1, 2) for k in (3, 4, 5, 9) for entry in (0, 7, VOID)
)

LIMITS = (
    # One ring, K 3: the limits too low and the least that is not, the highest and the first that is refused.
    (1, 1, 3, 0, 560, 7), (1, 1, 3, 1, 560, 7), (1, 1, 3, 2, 560, 7), (1, 1, 3, 3, 560, 7), (1, 1, 3, 65533, 560, 7),
    (1, 1, 3, 65534, 560, 7),
    # Each refusal of a whole tablebase but 20, and the first of two.
    (0, 1, 3, 2000, 560, 7), (4, 1, 2, 2000, 560, 7), (1, 1, 2, 2000, 560, 7), (1, 1, 10, 65534, 560, 7),
    (1, 1, 4, 2000, 560, 7), (2, 1, 3, 65534, 560, 7), (3, 1, 9, 2000, 560, 7),
    # Limits that no 16 bits hold.
    (1, 1, 3, 65536, 560, 7), (1, 1, 3, 2**32 - 1, 560, 7),
    # Edition 2: the highest limit that is too low and the least that is not.
    (1, 2, 3, 2, 560, 7), (1, 2, 3, 3, 560, 7),
    # 20 after 1 and before each other refusal.
    (1, 0, 3, 2000, 560, 7), (1, 3, 3, 2000, 560, 7), (4, 3, 3, 2000, 560, 7), (1, 0, 2, 2000, 560, 7),
    (1, 3, 4, 2000, 560, 7), (1, 0, 3, 65534, 560, 7), (1, 3, 3, 1, 560, 7),
)

# Rings, edition, counts, K and limit. Every pair of one ring in order; K 9 has the same places, and four against five no
# room.
def pairs(edition):
    return (
        (1, edition, 3, 3, 5, 2000), (1, edition, 4, 3, 5, 2000), (1, edition, 4, 4, 5, 2000), (1, edition, 3, 5, 5, 2000),
        (1, edition, 5, 3, 9, 2000), (1, edition, 5, 4, 9, 2000),
    )


REFUSED_PAIRS = (
    # Each refusal of a pair's counts, K, length and limit, and the first of two.
    (0, 1, 3, 3, 4, 2000), (4, 1, 2, 3, 4, 2000), (1, 1, 2, 3, 4, 2000), (1, 1, 3, 10, 4, 2000), (1, 1, 5, 4, 3, 2000),
    (1, 1, 3, 3, 2, 2000), (1, 1, 3, 3, 10, 2000), (1, 1, 5, 3, 4, 2000), (1, 1, 3, 3, 5, 65534), (1, 1, 3, 3, 4, 65534),
    # 20 after 1 and before each of them.
    (1, 0, 3, 3, 4, 2000), (1, 3, 3, 3, 4, 2000), (4, 3, 3, 3, 4, 2000), (1, 0, 2, 3, 4, 2000), (1, 3, 3, 3, 2, 2000),
    (1, 0, 3, 3, 5, 2000), (1, 3, 3, 3, 4, 65534),
)

# The edition, a void's place, the mover's count and the limit, K 4, against four stones: void before, in and after (3, 4),
# which alone is lower than (4, 4); then a void in (3, 3), which is lower than (3, 4), alone and beside the limit's refusal;
# then 12 under edition 2, and 20 before it.
VOIDS = (
    (1, 559, 4, 0), (1, 560, 4, 0), (1, 839, 4, 0), (1, 840, 4, 0), (1, 559, 3, 0), (1, 559, 3, 65534),
    (2, 560, 4, 0), (0, 560, 4, 0),
)


def fill(rings, edition, k, limit, length, entry):
    refusal, tablebase = calls.fill(rings, edition, k, limit, throughout(entry, length))
    return f"fill {rings} {edition} {k} {limit} over {length} of {entry}:{done(refusal, 'filled')}{contents(tablebase)}"


# The line, and the buffer afterwards, for the lines that follow on it.
def fill_pair(case, tablebase):
    refusal, tablebase = calls.fill_pair(*case, tablebase)
    return f"fill pair {' '.join(map(str, case))}:{done(refusal, 'filled')}{contents(tablebase)}", tablebase


def one_after_another(cases, tablebase):
    for case in cases:
        line, tablebase = fill_pair(case, tablebase)
        yield line


def four_against_four():
    tablebase = calls.fill(1, 1, 4, 2000, throughout(7, 1190))[1]
    table = places(1, 4, (4, 4))
    return f"four against four{contents(tablebase[table.start : table.stop])}"


def with_void(edition, place, mover, limit):
    tablebase = with_entry(throughout(0, 1190), place, VOID)
    return f"void at {place} {fill_pair((1, edition, mover, 4, 4, limit), tablebase)[0]}"


# Pairs (3, 4) with K 4 over made-up entries.
def over_made_up(rings, depth, cases):
    tablebase = made_up(length(rings, 4), depth)
    yield f"made up {depth}{contents(tablebase)}"
    yield from one_after_another(cases, tablebase)


# On one ring: a gap before 40 with limits on either side of the end, one beyond the limit, one up to the highest limit;
# the first of them under edition 2. Two rings: K 3 whole under both, and a pair with a gap before 12.
def gaps():
    yield from over_made_up(1, 40, [(1, 1, 3, 4, 4, 2000), (1, 1, 4, 3, 4, 40), (1, 1, 4, 3, 4, 41)])
    yield from over_made_up(1, 1999, [(1, 1, 3, 4, 4, 2000)])
    yield from over_made_up(1, 65532, [(1, 1, 3, 4, 4, 65533)])
    yield from over_made_up(1, 40, [(1, 2, 3, 4, 4, 2000)])
    yield from (fill(2, edition, 3, 2000, 160160, 7) for edition in (1, 2))
    yield from over_made_up(2, 12, [(2, 1, 3, 4, 4, 2000)])


def lines():
    yield from (fill(*case) for case in WHOLE)
    yield four_against_four()
    yield from (fill(*case) for case in LIMITS)
    yield from one_after_another(pairs(1), throughout(7, 1302))
    yield from one_after_another(pairs(2), throughout(7, 1302))
    yield from (fill_pair(case, throughout(7, 1190))[0] for case in REFUSED_PAIRS)
    yield fill_pair((1, 1, 4, 4, 4, 0), throughout(0, 1190))[0]
    yield from (with_void(*case) for case in VOIDS)
    yield from gaps()
