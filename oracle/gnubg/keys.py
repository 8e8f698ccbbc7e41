"""Holds stored keys to GNU Backgammon, in the Python inside it. `oracle/gnubg/run-keys` starts it.

MUNCHALEP_KEYS names the file, records of 45 bytes as oracle/src/key/stored.rs lays them out.
MUNCHALEP_REPORT names the report. Its last line is "no other difference" where each answer is the
same, or differs as docs/DIFFERENCES.md says.
"""

import base64
import collections
import os

import gnubg

RECORD = 45
BOARD, KEY, REFUSAL = slice(1, 27), slice(27, 37), 37

# Where GNU Backgammon and document 01 are meant to differ.
AFTER_END = "positionfromid reads the board before bits after the last end bit, 18 here"
SHUT_OUT = "positionfromid refuses both sides on the bar before closed boards, a board here"
UNCHECKED = "positionfromkey checks nothing, {} here"


def sides_of(entries):
    """gnubg's form of 26 entries: o's and x's checkers, each side's own point 1 first, bar last."""
    signed = [entry - 256 if entry > 127 else entry for entry in entries]
    o = tuple(max(0, -signed[24 - i]) for i in range(25))
    x = tuple(max(0, signed[i + 1]) for i in range(25))
    return o, x


def text_of(sides):
    """x's checkers from the top down, o's from the bottom up, each point:checkers."""
    o, x = sides
    x_points = (f" {i + 1}:{x[i]}" for i in reversed(range(25)) if x[i])
    o_points = (f" {24 - i}:{o[i]}" for i in reversed(range(25)) if o[i])
    return "x" + "".join(x_points) + "; o" + "".join(o_points)


def id_of(key):
    return base64.b64encode(key).decode().rstrip("=")


def number_of(key):
    """The number whose bit k is bit k of the key."""
    return int.from_bytes(key, "little")


def sides_of_id(text):
    """What gnubg reads, None where it refuses."""
    try:
        return gnubg.positionfromid(text)
    except ValueError:
        return None


def key_of_sides(sides):
    """The key that gnubg writes."""
    return bytes(gnubg.positionkey([list(side) for side in sides]))


def is_shut_out(sides):
    """Whether both sides are on the bar, and each has two or more on each point at home."""
    return all(side[24] > 0 and min(side[:6]) > 1 for side in sides)


def is_read_before(key, sides):
    """Whether the key is that of `sides`, and then, after the last end bit, bits that are set."""
    bits = 50 + sum(map(sum, sides))
    rest = number_of(key) ^ number_of(key_of_sides(sides))
    return rest > 0 and rest % 2**bits == 0


class Comparison:
    def __init__(self):
        self.boards = 0
        self.keys = 0
        self.same = collections.Counter()
        self.meant = collections.defaultdict(list)
        self.others = []

    def expect(self, call, key, gnubgs, ours):
        """Counts an answer that is the same, and keeps one that is not."""
        if gnubgs == ours:
            self.same[call] += 1
        else:
            self.others.append(f"{call} of {key.hex().upper()}: gnubg {gnubgs}, here {ours}")

    def written(self, sides, key):
        """Compares the key of a board, which was not refused."""
        self.boards += 1
        self.expect("positionid", key, gnubg.positionid(sides), id_of(key))
        self.expect("positionkey", key, key_of_sides(sides), key)

    def read(self, key, refusal, sides):
        """Compares the board of a key, or its refusal."""
        self.keys += 1
        of_id = sides_of_id(id_of(key))
        of_key = gnubg.positionfromkey(list(key))
        if refusal == 0:
            self.expect("positionfromkey", key, of_key, sides)
            if of_id is None and is_shut_out(sides):
                self.meant[SHUT_OUT].append((key, sides))
            else:
                self.expect("positionfromid", key, of_id, sides)
        else:
            self.meant[UNCHECKED.format(refusal)].append((key, of_key))
            if refusal == 18 and of_id is not None and is_read_before(key, of_id):
                self.meant[AFTER_END].append((key, of_id))
            else:
                self.expect(f"positionfromid refuses, {refusal} here", key, of_id, None)

    def report(self):
        """Its lines."""
        yield f"{self.boards:,} boards written, {self.keys:,} keys read"
        yield "the same:"
        for call, number in sorted(self.same.items()):
            yield f"{number:>10,}  {call}"
        yield "meant to differ, each with the smallest key met:"
        for difference, met in sorted(self.meant.items()):
            key, sides = min(met, key=smallness)
            yield f"{len(met):>10,}  {difference}"
            yield f"            {key.hex().upper()}, ID {id_of(key)}, {text_of(sides)}"
        for other in self.others[:20]:
            yield f"DIFFERENCE: {other}"
        yield f"{len(self.others):,} other differences" if self.others else "no other difference"


def smallness(case):
    """Orders keys by their number of 1s, then as numbers."""
    number = number_of(case[0])
    return bin(number).count("1"), number


def main():
    comparison = Comparison()
    with open(os.environ["MUNCHALEP_KEYS"], "rb") as file:
        while record := file.read(RECORD):
            sides, key = sides_of(record[BOARD]), record[KEY]
            if record[0] == 0:
                comparison.written(sides, key)
            else:
                comparison.read(key, record[REFUSAL], sides)
    with open(os.environ["MUNCHALEP_REPORT"], "w", encoding="utf-8") as report:
        report.writelines(line + "\n" for line in comparison.report())


main()
