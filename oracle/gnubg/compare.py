"""Compares lists of ends with GNU Backgammon's legal plays; runs in its embedded Python.

The file that LISTS names has a line for each board and roll: the board, the dice, and the ends with
sides switched, boards as 26 signed bytes in hex. What differs, and how many do, goes to the file that
REPORT names; oracle/gnubg/run sets both and reads the report.
"""

import os

import gnubg

BAR = 25
OFF = 0
MOST_PLAYS = 10000


def board_of(text):
    """The 26 signed entries of a board in hex."""
    return tuple(byte - 256 if byte > 127 else byte for byte in bytes.fromhex(text))


def switched(board):
    """The board seen from the other side."""
    return tuple(-entry for entry in reversed(board))


def position_id(board):
    """gnubg's name of the board, x on roll: each side's own points 1 to 24, then its bar."""
    o_checkers = tuple(max(0, -board[24 - i]) for i in range(25))
    x_checkers = tuple(max(0, board[i + 1]) for i in range(25))
    return gnubg.positionid((o_checkers, x_checkers))


def moved(board, steps):
    """The board after x's steps, each a from and a to; a checker of o that is met alone is hit."""
    after = list(board)
    for origin, target in steps:
        after[origin] -= 1
        if target == OFF:
            continue
        if after[target] == -1:
            after[target] = 0
            after[OFF] -= 1
        after[target] += 1
    return tuple(after)


def plays(board, die1, die2):
    """The steps of each of gnubg's legal plays; one play of no steps where it has none."""
    gnubg.command("set board " + position_id(board))
    gnubg.command("set dice %d %d" % (die1, die2))
    hints = gnubg.hint(MOST_PLAYS)["hint"]
    return [gnubg.parsemove(hint["move"]) for hint in hints] or [()]


def difference(line):
    """What is to be reported of a line, or nothing, and its number of ends."""
    board, die1, die2, *listed = line.split()
    ends = [board_of(end) for end in listed]
    given = board_of(board)
    legal = [switched(moved(given, steps)) for steps in plays(given, int(die1), int(die2))]
    if len(ends) == len(legal) and set(ends) == set(legal):
        return None, len(ends)
    text = "DIFFERENCE: board %s, dice %s-%s\n  only listed %s\n  only gnubg's %s"
    only_listed, only_legal = set(ends) - set(legal), set(legal) - set(ends)
    return text % (given, die1, die2, sorted(only_listed), sorted(only_legal)), len(ends)


def compare(lines, report):
    """Reports each line that differs, and the numbers."""
    rolls = ends = differ = 0
    for line in lines:
        text, number = difference(line)
        rolls, ends = rolls + 1, ends + number
        if text:
            differ += 1
            print(text, file=report)
    print("gnubg: %d boards and rolls, %d ends, %d differ" % (rolls, ends, differ), file=report)


gnubg.command("new session")
gnubg.command("set turn 1")
with open(os.environ["LISTS"]) as lists, open(os.environ["REPORT"], "w") as out:
    compare(lists, out)
