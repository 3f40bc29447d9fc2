"""Where a call is turned back (document 01, the section of that name, with document 02's 15 and 20)."""

# "Places are taken from top to bottom, conditions left to right": place, condition, number.
TABLE = (
    ("frame", "characters", 14),
    ("rings", "rings", 1),
    ("edition", "edition", 20),
    ("board", "length", 2),
    ("board", "value", 3),
    ("counts", "counts", 4),
    ("counts", "unreachable", 15),
    ("shelf", "k", 11),
    ("shelf", "tablebase length", 6),
    ("limit", "limit", 10),
    ("target", "target length", 6),
    ("target", "room", 7),
    ("rank, move", "rank", 5),
    ("rank, move", "not listed", 8),
    ("rank, move", "blocked", 9),
    ("entries read", "void", 12),
    ("depth", "depth", 13),
)


# "A call meets those that concern its arguments": the number of the first that holds, 0 where none does. A condition
# is a function of nothing, asked only where none before it holds.
def first_refusal(conditions):
    for _, condition, number in TABLE:
        if condition in conditions and conditions[condition]():
            return number
    return 0
