"""How the cases write boards, numbers and answers: a board as document 01 writes it, from the highest point down."""


def board(text):
    return bytes(int(value) for value in reversed(text))


def points(board):
    return "".join(map(str, reversed(board)))


def numbers(values):
    return "".join(f" {value}" for value in values)


# The values, or the refusal.
def answered(refusal, *values):
    return f" refused {refusal}" if refusal else numbers(values)


# A word where a call has no value to print, or the refusal.
def done(refusal, word):
    return f" refused {refusal}" if refusal else f" {word}"


# A board of three rings: mills across the rings and slides between them.
THREE_RINGS = "100221000000201000002010"

# A board of three rings that no game reaches (document 02, A1): nine opposing stones against a mill of the mover's.
NINE_AGAINST_MILL = "000000000000222222222111"
