#!/usr/bin/env python3
"""Writes turn sheets: the speed sheet, or with --random SEED a small one for comparing programs."""

import argparse
import random
import sys

MAP_NAMES = "party call a code number d e f\n"
TRACE_NAMES = "party call a severity hour d e f\n"
MOST_BYTES = 60_000
LETTERS = "NMRWTKDHFEVULS"


def line(party, letter, *values):
    values = [*values, *[0] * (6 - len(values))]
    return " ".join(map(str, [party, letter, *values])) + "\n"


# The speed sheet: 255 nodes, 15 parties, no node left free, and Makes that go on looking.

NUMBER, RANGE, GEAR, CHOOSE = 0, 1, 2, 24
LOOKING = range(1, 10)  # their lines of T are the shortest


def make(party, slot, code, number=0, kids=(0, 0, 0)):
    # 255 picks at two steps each, and what a found node takes, are fewer than 999.
    return line(party, "M", slot, code, number, *kids) + line(party, "T", 999)


def drop(party, slot):
    return line(party, "D", slot) + line(party, "T", 1)


def tree(party, slot):
    """Four nodes: one that chooses by range, in the slot, over three in the slots 1 to 3."""
    leaves = make(party, 1, RANGE) + make(party, 2, NUMBER, 350) + make(party, 3, GEAR)
    return leaves + make(party, slot, CHOOSE, 0, (1, 2, 3))


def filled(party):
    """17 nodes for one party; slot 8 stays empty if it is to go on looking."""
    out = ""
    for slot in (4, 5, 6):
        out += tree(party, slot) + "".join(drop(party, leaf) for leaf in (1, 2, 3))
    out += tree(party, 7)
    if party in LOOKING:
        return out + drop(party, 2) + make(party, 2, NUMBER, 420)
    return out + make(party, 8, NUMBER, 420)


def speed_sheet():
    out = MAP_NAMES + line(0, "N", 255, 15, 7, 4)
    out += "".join(filled(party) for party in range(1, 16))
    out += "".join(line(party, "M", 8) for party in LOOKING)
    turns = "".join(line(party, "T", 9999) for party in LOOKING)
    per_line = len(turns) // len(LOOKING)
    lines = (MOST_BYTES - len(out)) // per_line
    return out + (turns * (lines // len(LOOKING) + 1))[: lines * per_line]


# Small random sheets: mostly sensible lines, some bad values, some malformed lines.

BEYOND = [-1, 0, 1, 3, 4, 5, 8, 9, 10, 15, 16, 17, 255, 256, 257, 300, 512, 65536, 65537, -40, -41,
          150, 151, 999_999, 1_000_000, 1_000_001, -1_000_001, 2_000_000, 2_000_001, 9_999_999]


class Party:
    """A guess at what a party has, so that lines are mostly sensible; it need not be right."""

    def __init__(self):
        self.filled = set()
        self.trail = 0
        self.turns = 0  # that it still takes to end its call
        self.at_end = lambda: None

    def runs(self, turns, at_end=lambda: None):
        self.turns, self.at_end = turns, at_end

    def turned(self, turns):
        if self.turns > 0:
            self.turns -= turns
            if self.turns <= 0:
                self.at_end()

    def free_slots(self, slots):
        return [slot for slot in range(1, slots + 1) if slot not in self.filled]


class Sheet:
    def __init__(self, seed):
        self.random = random.Random(seed)
        self.traces = self.random.random() < 0.4
        self.nodes = self.random.randint(1, 4)
        self.slots = self.random.randint(2, 8)
        self.bad = self.random.choice([0, 0.01, 0.03, 0.1])
        self.turns = self.random.choice([(1,), (1, 2, 3), (1, 3, 7, 20), (5, 13, 14, 30, 200)])
        self.parties = [Party() for _ in range(self.random.randint(1, 3))]

    def text(self):
        out = TRACE_NAMES if self.traces else MAP_NAMES
        if self.random.random() < 0.97:
            out += line(0, "N", self.nodes, len(self.parties), *self.strides(1, 251, 253))
        for _ in range(self.random.choice([10, 60, 200, 400, 800])):
            out += self.spoiled(self.any_line())
        return out if self.random.random() < 0.9 else out[:-1]

    def value(self, good):
        """Mostly the good value, else one at or beyond some limit."""
        if self.random.random() >= self.bad:
            return good
        return self.random.choice([*BEYOND, good - 256, good + 256, good + 65536, -good])

    def strides(self, *good):
        return [self.value(self.random.choice(good)) for _ in "np"]

    def any_line(self):
        if self.random.random() < 0.004:
            self.parties = [Party() for _ in self.parties]
            sizes = self.value(self.nodes), self.value(len(self.parties))
            return line(self.value(0), "N", *sizes, *self.strides(1, 2, 3, 5, 255))
        number = self.random.randint(1, len(self.parties))
        party = self.parties[number - 1]
        if self.random.random() < (0.95 if party.turns > 0 else 0.03):
            letter, fields = "T", [self.random.choice(self.turns)]
            party.turned(fields[0])
        else:
            letter = self.letter(party)
            fields = getattr(self, "fields_" + letter)(party)
        return line(self.value(number), letter, *map(self.value, fields))

    def letter(self, party):
        full = sum(len(party.filled) for party in self.parties) >= self.nodes
        likely = "FFS" + ("M" if full else "MMMMMMMM")
        if party.filled:
            likely += "EEEHHWWW" + ("DDDDD" if full else "D")
        if party.trail:
            likely += "RRRVVVVVKKKUL"
        return self.random.choice(likely if self.random.random() < 0.93 else LETTERS[1:].replace("T", ""))

    def a_filled(self, party):
        return self.random.choice(list(party.filled) or [self.any_slot()])

    def an_empty(self, party):
        return self.random.choice(party.free_slots(self.slots) or [self.any_slot()])

    def any_slot(self):
        return self.random.randint(1, self.slots)

    def fields_M(self, party):
        slot = self.an_empty(party)
        party.runs(16, lambda: party.filled.add(slot))
        if self.traces:
            hour = self.random.choice([0, 10, 1999, 1_999_999, 2_000_000])
            kids = [self.random.choice([0, self.a_filled(party)]) for _ in "def"]
            return slot, self.random.randint(0, 9), hour, *(kids if party.filled else [0, 0, 0])
        most = 2 if party.filled else 0
        code = self.random.choice([0, 0, 1, 2, 3, 8, 16, 17, 18, 19, 20, 24, 25][: 4 + 5 * most])
        number = self.random.choice([0, 7, -7, 350, 1_000_000, -1_000_000]) if code == 0 else 0
        return slot, code, number, *[self.a_filled(party) if kid < code // 8 else 0 for kid in range(3)]

    def fields_W(self, party):
        party.runs(8)
        ranges, gear = self.random.randint(0, 1), self.random.randint(1, 16)
        return self.a_filled(party), ranges, gear, self.random.choice([-40, -1, 0, 90, 150])

    def fields_H(self, party):
        slot = self.a_filled(party)
        party.runs(1, lambda: party.filled.discard(slot))
        return slot, self.random.randint(1, len(self.parties))

    def fields_D(self, party):
        slot = self.a_filled(party)
        party.runs(1, lambda: party.filled.discard(slot))
        return [slot]

    def fields_K(self, party):
        slot = self.an_empty(party)
        party.runs(1, lambda: party.filled.add(slot))
        return [slot]

    def fields_F(self, party):
        slot = self.an_empty(party)
        party.runs(2, lambda: party.filled.add(slot))
        return [slot]

    def fields_E(self, party):
        party.trail = self.a_filled(party)
        return [party.trail]

    def fields_V(self, party):
        party.runs(1)
        return [self.random.choice([1, 1, 2, 3])]

    def fields_R(self, party):
        party.runs(4)
        return []

    def fields_S(self, party):
        party.runs(9)
        return []

    def fields_U(self, party):
        if self.random.random() < 0.5:
            party.trail = 0
        return []

    def fields_L(self, party):
        party.trail = 0
        return []

    def spoiled(self, text):
        if self.random.random() >= self.bad / 3:
            return text
        at = self.random.randrange(len(text))
        return self.random.choice([
            text[:at] + text[at + 1:],
            text[:at] + self.random.choice(" -\t\r\n09+xT") + text[at:],
            text.replace(" 0", " -0", 1),
            text.replace(" 0", " 0000000", 1),
            text.replace(" 0", " 00000000", 1),
            text.replace("\n", "\r\n"),
            text.lower(),
        ])


def main():
    parser = argparse.ArgumentParser(description=__doc__)
    parser.add_argument("--random", type=int, metavar="SEED")
    seed = parser.parse_args().random
    sys.stdout.write(speed_sheet() if seed is None else Sheet(seed).text())


if __name__ == "__main__":
    main()
