"""Moves listed and made, and the lists of tables as digits."""

import calls
from cases.notation import NINE_AGAINST_MILL, THREE_RINGS, answered, board, done, numbers, points
from cases.sums import with_digit

# A board of two rings whose opposing stones all stand in two mills that share a corner.
TWO_MILLS = "0001101100022222"

# Rings, edition, board, and the room of the list.
LISTS = (
    # Document 01's own board, a shield, no shield, the vacated point, four stones on one ring, two rings, three rings.
    (1, 1, "02122011", 10), (1, 1, "21011222", 4), (1, 1, "01011222", 8), (1, 1, "22201011", 9), (1, 1, "20211211", 2),
    (2, 1, "0001001002220101", 12), (3, 1, THREE_RINGS, 9),
    # Each refusal but 20; a list just too short and one just long enough; a blocked mover with no list at all.
    (0, 1, "02122011", 2), (1, 1, "2122011", 2), (1, 1, "02122311", 2), (1, 1, "02022011", 2), (1, 1, "02122011", 7),
    (1, 1, "02122011", 8), (1, 1, "22221111", 0),
    # A board that no game reaches has its moves all the same.
    (3, 1, NINE_AGAINST_MILL, 37),
    # Edition 2 removes a stone outside any mill as edition 1 does, and none where all stand in one mill or in two.
    (1, 2, "21011222", 4), (1, 2, "01011222", 8), (2, 1, TWO_MILLS, 12), (2, 2, TWO_MILLS, 5),
    # 20 after 1 and before each other refusal.
    (1, 0, "02122011", 10), (1, 3, "02122011", 10), (1, 255, "02122011", 10), (4, 3, "02122011", 2), (1, 0, "2122011", 2),
    (1, 3, "02122311", 2), (1, 0, "02022011", 2), (1, 3, "02122011", 7),
)

# Rings, edition, board, move, and the length of the target.
MOVES = (
    # With a removal and without; moves that are not listed.
    (1, 1, "02122011", 5187, 8), (1, 1, "02122011", 5188, 8), (1, 1, "02122011", 95, 8), (1, 1, "02122011", 96, 8),
    (1, 1, "02122011", 5215, 8), (1, 1, "02122011", 65535, 8),
    # Each refusal but 20, and the first of two.
    (1, 1, "02122011", 96, 9), (1, 1, "02022011", 95, 9), (1, 1, "02132011", 95, 8), (1, 1, "2122011", 95, 7),
    (4, 1, "02122011", 95, 8), (3, 1, THREE_RINGS, 18996, 24),
    # A move of a board that no game reaches.
    (3, 1, NINE_AGAINST_MILL, 415, 24),
    # A closed mill in both editions: with a removal and without where a stone stands outside any mill, then where all stand
    # in mills.
    (1, 2, "02122011", 5187, 8), (1, 2, "02122011", 5215, 8), (1, 1, "01011222", 3232, 8), (1, 1, "01011222", 3263, 8),
    (1, 2, "01011222", 3232, 8), (1, 2, "01011222", 3263, 8),
    # 20 after 1 and before each other refusal.
    (1, 0, "02122011", 95, 8), (1, 3, "02122011", 95, 8), (4, 3, "02122011", 95, 8), (1, 0, "2122011", 95, 7),
    (1, 3, "02132011", 95, 8), (1, 0, "02022011", 95, 8), (1, 3, "02122011", 95, 9), (1, 0, "02122011", 96, 8),
)

# Rings, edition, counts, how many ranks, and how far apart: whole tables of one ring, tables of two and three from end to
# end; under edition 2 those with three or five opposing stones, since four never all stand in mills.
TABLES = (
    (1, 1, 3, 3, 560, 1), (1, 1, 3, 4, 280, 1), (1, 1, 3, 5, 56, 1), (1, 1, 4, 3, 280, 1), (1, 1, 4, 4, 70, 1),
    (1, 1, 5, 3, 56, 1), (2, 1, 3, 4, 20000, 20), (2, 1, 5, 4, 20000, 72),
    (3, 1, 3, 9, 20000, 29745), (3, 1, 4, 3, 20000, 605), (3, 1, 9, 9, 20000, 327202),
    (1, 2, 3, 3, 560, 1), (1, 2, 4, 3, 280, 1), (2, 2, 3, 3, 20000, 8), (2, 2, 4, 5, 20000, 72), (3, 2, 4, 3, 20000, 605),
)


def moves(rings, edition, text, room):
    refusal, count, target = calls.moves(rings, edition, board(text), [7] * room)
    return f"moves {rings} {edition} {text}:{answered(refusal, count)} in{numbers(target)}"


def make_move(rings, edition, text, move, length):
    refusal, target = calls.make_move(rings, edition, board(text), move, bytes([7] * length))
    return f"make move {rings} {edition} {text} {move}:{done(refusal, 'written')} {points(target)}"


# The rank of the board after a move, 1000 where its mover has two stones.
def next_rank(rings, edition, board, move):
    after = calls.make_move(rings, edition, board, move, board)[1]
    refusal, rank = calls.rank(rings, after)
    return 1000 if refusal else rank


# A board's moves in their order, each with the rank that it leads to, and how many they are, as digits after a 1.
def digits_at(rings, edition, mover, opponent, rank):
    board = calls.unrank(rings, mover, opponent, rank, bytes(8 * rings))[1]
    _, count, target = calls.moves(rings, edition, board, [0] * 324)
    digits = 1
    for move in target[:count]:
        digits = with_digit(with_digit(digits, move), next_rank(rings, edition, board, move))
    return with_digit(digits, count)


def lists_of_moves(rings, edition, mover, opponent, ranks, step):
    digits = 0
    for i in range(ranks):
        digits = with_digit(digits, digits_at(rings, edition, mover, opponent, step * i))
    return f"lists of moves {rings} {edition} {mover} {opponent}: digits {digits}"


def lines():
    yield from (moves(*case) for case in LISTS)
    yield from (make_move(*case) for case in MOVES)
    yield from (lists_of_moves(*case) for case in TABLES)
