"""The board: points, neighbours and mills (document 01, "The board")."""

# "A board is 8 × rings bytes: 0 vacant, 1 the side to move, 2 the other side." These are the mover and the opponent here.
VACANT, MOVER, OPPONENT = 0, 1, 2


# "Point 8 × ring + place, places 0 to 7 clockwise": place 8 is place 0 again.
def point(ring, place):
    return 8 * ring + place % 8


# "The places before and after in the ring (0 and 7 adjoin); for odd places also the same place in the next ring in or out."
def neighbours(rings, ring, place):
    around = [point(ring, place - 1), point(ring, place + 1)]
    across = [point(other, place) for other in (ring - 1, ring + 1) if other in range(rings)]
    return around + across if place % 2 == 1 else around


# "On each ring {0,1,2}, {2,3,4}, {4,5,6}, {6,7,0}; on three rings also each odd place through all rings."
def mills(rings):
    around = [[point(ring, corner + i) for i in range(3)] for ring in range(rings) for corner in (0, 2, 4, 6)]
    across = [[point(ring, place) for ring in range(3)] for place in (1, 3, 5, 7)]
    return around + across if rings == 3 else around


# The mills that a point is in.
def mills_through(rings, ring, place):
    return [mill for mill in mills(rings) if point(ring, place) in mill]


def by_point(rings, table):
    return [table(rings, ring, place) for ring in range(rings) for place in range(8)]


# "Neighbours and mills stand as fixed tables by point number": for a board of so many points, those of each point.
NEIGHBOURS = {8 * rings: by_point(rings, neighbours) for rings in (1, 2, 3)}
MILLS = {8 * rings: by_point(rings, mills_through) for rings in (1, 2, 3)}


# The points that hold a value.
def points_of(board, value):
    return [number for number, held in enumerate(board) if held == value]


# "A board's counts are the numbers of its 1s and 2s."
def counts(board):
    return board.count(MOVER), board.count(OPPONENT)


# Whether the stone at a point stands in a full mill of its own.
def in_mill(board, stone):
    for first, second, third in MILLS[len(board)][stone]:
        if board[first] == board[second] == board[third]:
            return True
    return False


# Document 02, A1: "On three rings, if one side has nine stones and the other has a full mill".
def unreachable(board):
    def against(nine, other):
        return board.count(nine) == 9 and any(in_mill(board, stone) for stone in points_of(board, other))

    return len(board) == 24 and (against(MOVER, OPPONENT) or against(OPPONENT, MOVER))
