"""What `desk` reads in its test programs: document 01's sample, nothing, and many lines of every kind."""

from frames import frame_of
from ranks import board_of, in_order
from tablebases import size, tables

# Document 01's sample: won in 1, lost in 2, too short.
SAMPLE = [b"018526", b"012256", b"0185"]
GOOD, LOST = SAMPLE[:2]

# 14: empty lines and odd lengths.
ODD = [b"", b"", b"0", b"018", b"01852", b"0185260", b"018526000"]

# 14: blanks, carriage returns, zero bytes and tabs beside a good frame or alone.
BLANKS = [
    b"018526 ", b" 018526", b"018526\r", b"018526\r\r", b"\r", b"01852\0", b"\0", b"\0\0", b"018526\0\0", b"\t\t",
]

# 14: the characters next to 0-9 and a-f, signs, capital letters (one frame has them small and is read), bytes above 127.
CHARACTERS = [
    b"0x018526", b"01852g", b"01852/", b"01852:", b"01852`", b"01852@", b"01852G", b"-18526",
    b"01A526", b"01a526", b"01852A", b"0185AA", b"018526AA",
    b"0185\xe96", b"0185\x80\x80", b"\xff\xff", b"\xff\xff\xff\xff\xff\xff", b"01\x7f\x7f",
]

# Lengths on either side of 64, and far beyond it.
ABOUT_64 = (62, 63, 64, 65, 66, 67, 70)
TWICE_64 = (128, 130)

# 1: rings 0, 4 and others, of right and of wrong lengths.
RINGS = b"00 04 ff 000000 040000 ff8526 10852600 00112233445566 00000000000000 040000000000000000".split()

# 2: rings alone, then lengths too short and too long for one, two and three rings; the last has a right length, and threes.
LENGTHS = b"""
    01 02 03
    0185 01852600 0185260000 018526000000
    02 028526 0285260000000000
    03 038526 0385261234 03852612345678
""".split()

# 3: a three at many points; the first two have a wrong length too.
VALUES = b"""
    01ffffff 02ffff
    01ff26 01c526 018f26 01ffff 010300
    0285261203 02030000aa
    030300000000aa 03852612345630 03ffffffffffff
""".split()

# 4: counts below 3 and above 9 of either side, on one, two and three rings; empty and full boards.
COUNTS = b"""
    010000 019884 012641 018094 019655 016aa6 015555 01aaaa
    0255659508 02a988a929 0228a498a8 0255460518
    0345905a2699a6 030a919156aa61 0359268a949458 03040000800804 03aa65a5666599 03000000000000
""".split()

# 15: nine stones of either side against a mill. Nine against three that are no mill, and against nine without one, are read.
UNREACHABLE = b"0395aaaa000000 036a5555000000 0345aaaa020000 0326142285a569".split()

# Two boards of every table of one ring, and boards of tables with few and with many stones of two and three.
TABLES = b"""
    0149a4 012616 019962 01685a 016a96 01a6a5 019295 015926 01695a 01a965 01559a 016665
    0206404208 02286a48a9 0244549589 029aa59559 025a65aa99 0265a96696 02469a8250
    03020a10004100 03854000000028 03880a4810980a 03409a0a8a1200 03445011099180 03080445414609
    03a6660091a591 0328a59a405586 0359a50189a402 03a54294260426 03298848040260 038a4062011022
""".split()

# Rings and counts of tables whose first and last board are asked for; no game reaches those of nine against nine.
ENDS = ((1, 3, 3), (2, 5, 5), (3, 8, 8), (3, 9, 9), (2, 9, 7))

# One ring, by outcome: won in 1, 3 and 5; lost in 2 and 4; blocked; drawn. Then four stones blocked with a vacant point
# left, and a blocked mover of two rings.
OUTCOMES = b"""
    0152a4 01a685 016a64 019294 0116a1 018a51 01905a 0150a9 0191a9
    016958 01156a 0195a1 016225 019256 011a95 0154a9 0164a5
    016659 019a96 01a559 01959a 01a966 019965 0158a5
    016126 019816 014a64 016462 010699 019618 0150a6
    0158a5 015899 0299990000
""".split()

# Lines of thousands of bytes, with a good line after each but one, so that what follows a long line is seen.
LONG = [GOOD, b"0" * 5000, GOOD, GOOD * 700, LOST, b"\xff" * 2100, GOOD + b"A" * 3000, LOST, b"\0" * 4097, GOOD]

# Boards of one, two and three rings mixed, by no rule.
MIXED = b"""
    03056080086889 0155a6 03820010050008 018616 0206986122 015999 0260048211 012a55 03900a20624028 0284128a29
    012865 019958 0159a5 019249 034aa010002181 03622000502410 03249264800000 0242200116 0222458020 03810006800100
    0290018819 038a0040014a20 015696 03400020600016 0242810900 03000020942440 011969 010696 019965 020050a190
    019069 03120205800608 0209a08668 030188202988a1 016659 016599 016129 02168a1a60 0240448820 015966
    03810488160890 020611a5a8 0388a02501a008 011a58 034481212084a2 0208284181 016429 0209020124 019562 03109000020108
    01945a 036a4805880102 016965 01516a 0280180610 0384400884200a 03022006040582 016168 02000a1156 0309801520a8a1
""".split()


# Lines of zeros; a good frame with zeros after it, and repeated; a good frame with capital letters after it.
def about_64():
    yield from (b"0" * length for length in ABOUT_64 + TWICE_64)
    for length in ABOUT_64:
        yield GOOD.ljust(length, b"0")
        yield (GOOD * length)[:length]
    yield from (GOOD.ljust(length, b"A") for length in (64, 65, 66))


# The first and the last board of each table.
def ends():
    for rings, mover, opponent in ENDS:
        last = size(8 * rings, mover, opponent) - 1
        yield from (frame_of(board_of(8 * rings, mover, opponent, rank)) for rank in (0, last))


# Every board of the one-ring tablebase, in the order of its places.
def one_ring():
    return [frame_of(board) for table in tables(1, 5) for board in in_order(8, *table)]


def many():
    refused = [*ODD, *BLANKS, *CHARACTERS, *about_64(), *RINGS, *LENGTHS, *VALUES, *COUNTS, *UNREACHABLE]
    return [*SAMPLE, *refused, *TABLES, *ends(), *OUTCOMES, *LONG, *MIXED, GOOD, *one_ring()]


# By program: the sample's last line has no line feed, the last of many has one.
def inputs():
    return {
        "desk": b"\n".join(SAMPLE),
        "desk_lines": b"".join(line + b"\n" for line in many()),
        "desk_empty": b"",
    }
