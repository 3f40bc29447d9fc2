"""Frames (document 01, "Frames"): "hexadecimal, lower case: one byte of rings, then four points a byte, the lowest point
in the lowest two bits"."""

LONGEST = 64
DIGITS = b"0123456789abcdef"


# Neither "empty, over 64 characters, odd length," nor "a character outside 0-9 a-f".
def well_formed(frame):
    return 0 < len(frame) <= LONGEST and len(frame) % 2 == 0 and all(character in DIGITS for character in frame)


# "Lengths: 6, 10, 14 characters."
def length(rings):
    return 2 + 4 * rings


def rings_of(frame):
    return int(frame[:2], 16)


# The values of the points, 3 where a frame has one that no board has.
def board_of(frame):
    points = bytes.fromhex(frame[2:].decode())
    return bytes(byte >> shift & 3 for byte in points for shift in (0, 2, 4, 6))


# "A written board reads back as itself."
def frame_of(board):
    fours = [board[point : point + 4] for point in range(0, len(board), 4)]
    points = bytes(a | b << 2 | c << 4 | d << 6 for a, b, c, d in fours)
    return (bytes([len(board) // 8]) + points).hex().encode()
