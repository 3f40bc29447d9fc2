"""The lines that the program `cases` prints, in the order in which it runs them."""

from cases import agreement_cases, board_cases, check_cases, entry_cases, fill_cases, play_cases, rank_cases

PARTS = (rank_cases, play_cases, board_cases, fill_cases, entry_cases, agreement_cases, check_cases)


def output():
    return "".join(line + "\n" for part in PARTS for line in part.lines()).encode()
