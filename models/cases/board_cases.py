"""Representatives of classes; frames read and written."""

import calls
from cases.notation import NINE_AGAINST_MILL, THREE_RINGS, answered, board

REPRESENTATIVES = (
    # A board, a turn and a mirror of it; others, one with its rings reversed.
    (1, "02122011"), (1, "11021220"), (1, "10221201"), (1, "11120202"), (1, "22211100"),
    (2, "0001001002220101"), (2, "0222010100010010"), (3, THREE_RINGS),
    # One that no game reaches.
    (3, NINE_AGAINST_MILL),
    # Each refusal.
    (0, "02122011"), (1, "2122011"), (1, "42122011"), (1, "01122011"),
)

# Rings, counts and size of whole tables.
CLASSES = ((1, 3, 3, 560), (1, 5, 3, 56), (2, 3, 3, 160160))

READ = (
    # Document 01's two frames, one of two and one of three rings, and one that no game reaches.
    "018526", "012256", "02112a0401", "03840084009042", "0395aaaa000000",
    # Each refusal, and the first of two.
    "", "0185266", "01852G", "01852A", "018526 ", "0" * 64, "0" * 66, "008526", "048526", "0185", "01852600", "018527",
    "018520", "0211160004", "03840084009042000000",
)

# Rings, board, and the length of the target: longer than the frame, as long, shorter; one that no game reaches; then each
# refusal.
WRITTEN = (
    (1, "02122011", 8), (1, "11120202", 6), (1, "11120202", 5), (2, "0001001002220101", 10), (3, THREE_RINGS, 16),
    (3, NINE_AGAINST_MILL, 16),
    (0, "02122011", 6), (1, "2122011", 6), (1, "32122011", 6), (1, "00122011", 2),
)


def representative(rings, text):
    return f"representative {rings} {text}:{answered(*calls.representative(rings, board(text)))}"


def is_its_own(rings, mover, opponent, rank):
    board = calls.unrank(rings, mover, opponent, rank, bytes(8 * rings))[1]
    return calls.representative(rings, board) == (0, rank)


def classes(rings, mover, opponent, size):
    count = sum(is_its_own(rings, mover, opponent, rank) for rank in range(size))
    return f"classes {rings} {mover} {opponent}: {count}"


def read_frame(frame):
    return f"read frame {frame}:{answered(*calls.read_frame(frame.encode()))}"


def write_frame(rings, text, length):
    refusal, count, target = calls.write_frame(rings, board(text), b"." * length)
    return f"write frame {rings} {text}:{answered(refusal, count)} {target.decode()}"


def lines():
    yield from (representative(*case) for case in REPRESENTATIVES)
    yield from (classes(*case) for case in CLASSES)
    yield from (read_frame(frame) for frame in READ)
    yield from (write_frame(*case) for case in WRITTEN)
