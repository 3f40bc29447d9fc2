"""Sums over the entries of a tablebase, and entries that are made up."""

from array import array

from entries import DRAW, VOID

PRIME = 1000003


# One more digit of a number in base 65,537, modulo a prime.
def with_digit(digits, digit):
    return (digits * 65537 + digit) % PRIME


def digits_of(entries):
    digits = 0
    for entry in entries:
        digits = with_digit(digits, entry)
    return digits


# How many entries are won, lost, drawn and void, their depths together, and the entries as digits.
def contents(tablebase):
    depths = [entry for entry in tablebase if entry < VOID]
    won = sum(depth % 2 for depth in depths)
    drawn, void = tablebase.count(DRAW), tablebase.count(VOID)
    return (
        f"; won {won} lost {len(depths) - won} drawn {drawn} void {void}"
        f" depths {sum(depths)} digits {digits_of(tablebase)}"
    )


# A buffer that holds one entry throughout.
def throughout(entry, length):
    return array("H", [entry]) * length


# The same buffer but for one place.
def with_entry(tablebase, place, entry):
    return tablebase[:place] + array("H", [entry]) + tablebase[place + 1 :]


# A draw, one of two depths that follow each other, or a depth below 9.
def made_up_entry(place, depth):
    x = place % 1009 * 619 % 1009
    return (DRAW, depth, depth + 1, x % 9)[x % 4]


def made_up(length, depth):
    return array("H", [made_up_entry(place, depth) for place in range(length)])
