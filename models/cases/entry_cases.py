"""Entries looked up and best moves, in a tablebase of one ring."""

import calls
from cases.notation import NINE_AGAINST_MILL, answered, board
from cases.sums import made_up, throughout, with_digit, with_entry
from entries import VOID
from tablebases import size, tables

# Rings, edition, board and K.
LOOKUPS = (
    # Document 01's two boards, four against four, five against three, and a draw; K 9 has the same places.
    (1, 1, "02122011", 5), (1, 1, "11120202", 5), (1, 1, "11112222", 5), (1, 1, "11212121", 5), (1, 1, "00121122", 5),
    (1, 1, "02122011", 9), (1, 1, "11212121", 9),
    # Two boards whose entries are others under edition 2: three and four stones against a full mill.
    (1, 1, "01011222", 5), (1, 1, "10111222", 5),
    # Each refusal but 12, 15 and 20, and the first of two.
    (0, 1, "02122011", 5), (4, 1, "011", 5), (1, 1, "2122011", 5), (2, 1, "32122011", 5), (1, 1, "32122011", 5),
    (1, 1, "02322011", 5), (1, 1, "02022011", 2), (1, 1, "02122011", 2), (1, 1, "02122011", 10), (1, 1, "11212121", 4),
    (1, 1, "02122011", 4),
    # 20 after 1 and before each other refusal but 12 and 15.
    (1, 0, "02122011", 5), (1, 3, "02122011", 5), (4, 3, "011", 5), (1, 0, "2122011", 5), (1, 3, "02322011", 5),
    (1, 0, "02022011", 5), (1, 3, "02122011", 2), (1, 0, "02122011", 4),
)

BEST_MOVES = (
    # Document 01's two boards; the last listed of three wins, a draw rather than a loss, a capture before a lower number of
    # equal worth; a blocked mover.
    (1, 1, "02122011", 5), (1, 1, "11120202", 5), (1, 1, "01121222", 5), (1, 1, "00121122", 5), (1, 1, "01221221", 5),
    (1, 1, "11112222", 5),
    # The two boards whose entries are others under edition 2.
    (1, 1, "01011222", 5), (1, 1, "10111222", 5),
    # Each refusal but 12, 15 and 20, and the first of two.
    (0, 1, "011", 5), (1, 1, "2122011", 5), (1, 1, "02322011", 5), (1, 1, "02022011", 2), (1, 1, "11212121", 4),
    (1, 1, "11112222", 4),
    # 20 after 1 and before each other refusal but 12 and 15.
    (1, 0, "02122011", 5), (1, 3, "02122011", 5), (4, 3, "011", 5), (1, 0, "2122011", 5), (1, 3, "02322011", 5),
    (1, 0, "02022011", 5), (1, 3, "02122011", 2), (1, 0, "02122011", 4), (1, 3, "11112222", 5),
)

# Document 02's 15, in a tablebase of 1,302 entries.
UNREACHABLE = (
    # Nine stones against a mill on three rings, of either side, with K 9 and K 2; and under edition 2.
    (3, 1, NINE_AGAINST_MILL, 9), (3, 1, NINE_AGAINST_MILL, 2), (3, 2, NINE_AGAINST_MILL, 9),
    (3, 1, "000000000000111111111222", 9), (3, 2, "000000000000111111111222", 2),
    # 4, 20 and 2 before it.
    (3, 1, "000002222222221111111111", 9), (3, 3, NINE_AGAINST_MILL, 9), (3, 1, NINE_AGAINST_MILL[1:], 9),
    # Nine against three that are no mill, eight against a mill, and nine against a mill on two rings.
    (3, 1, "000000000002222222221011", 9), (3, 1, "000000000000022222222111", 9), (2, 1, "0000222222222111", 9),
)

# In a tablebase that was filled under edition 2: document 01's first board, the two that differ, a blocked mover.
EDITION_2 = ((1, 2, "02122011", 5), (1, 2, "01011222", 5), (1, 2, "10111222", 5), (1, 2, "11112222", 5))


def lookup(rings, edition, text, k, tablebase):
    answer = answered(*calls.lookup(rings, edition, board(text), k, tablebase))
    return f"lookup {rings} {edition} {text} {k}:{answer}"


def best_move(rings, edition, text, k, tablebase):
    answer = answered(*calls.best_move(rings, edition, board(text), k, tablebase))
    return f"best move {rings} {edition} {text} {k}:{answer}"


def entry_digit(refusal, entry):
    return 65536 + refusal if refusal else entry


def choice_digit(refusal, move, entry):
    return refusal if refusal else with_digit(move, entry)


# The entries and best moves of a table's boards, as digits.
def answers(word, edition, mover, opponent, tablebase):
    digits = 0
    for rank in range(size(8, mover, opponent)):
        board = calls.unrank(1, mover, opponent, rank, bytes(8))[1]
        digits = with_digit(digits, entry_digit(*calls.lookup(1, edition, board, 5, tablebase)))
        digits = with_digit(digits, choice_digit(*calls.best_move(1, edition, board, 5, tablebase)))
    return f"{word} 1 {edition} {mover} {opponent}: digits {digits}"


def answers_of_all(word, edition, tablebase):
    return (answers(word, edition, *table, tablebase) for table in tables(1, 5))


# One void, where document 01's first board stands: its entry and its predecessors' best moves are refused, its own best
# move is not.
def beside_a_void():
    tablebase = with_entry(throughout(7, 1302), 117, VOID)
    yield lookup(1, 1, "02122011", 5, tablebase)
    yield lookup(1, 1, "11120202", 5, tablebase)
    yield lookup(1, 1, "02122011", 3, tablebase)
    yield lookup(1, 0, "02122011", 5, tablebase)
    yield best_move(1, 1, "02122011", 5, tablebase)
    yield best_move(1, 1, "10211022", 5, tablebase)
    yield best_move(1, 1, "10211022", 4, tablebase)
    yield best_move(1, 3, "10211022", 5, tablebase)
    yield best_move(1, 1, "11120202", 5, tablebase)
    yield answers("answers beside a void", 1, 3, 3, tablebase)


# One void, where a closed mill without a removal leads: a successor under edition 2 alone.
def after_no_removal():
    tablebase = with_entry(throughout(7, 1302), 136, VOID)
    yield best_move(1, 1, "01011222", 5, tablebase)
    yield best_move(1, 2, "01011222", 5, tablebase)


# An entry means the outcome under the edition with which its tablebase was filled (A11), under whichever it is looked up.
def filled_under_2():
    tablebase = calls.fill(1, 2, 5, 2000, throughout(0, 1302))[1]
    yield from (lookup(*case, tablebase) for case in EDITION_2)
    yield from (best_move(*case, tablebase) for case in EDITION_2)
    yield f"filled under 2 {lookup(1, 1, '01011222', 5, tablebase)}"
    yield from answers_of_all("answers", 2, tablebase)


def lines():
    tablebase = calls.fill(1, 1, 5, 2000, throughout(0, 1302))[1]
    yield from (lookup(*case, tablebase) for case in LOOKUPS)
    yield from (best_move(*case, tablebase) for case in BEST_MOVES)
    yield from (call(*case, tablebase) for case in UNREACHABLE for call in (lookup, best_move))
    yield from answers_of_all("answers", 1, tablebase)
    yield from filled_under_2()
    yield from beside_a_void()
    yield from after_no_removal()
    yield from (line for edition in (1, 2) for line in answers_of_all("made-up answers", edition, made_up(1302, 40)))
