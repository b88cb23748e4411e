"""The faults of a class map, by the whole map of the same run (docs/COMMANDS.md)."""

import re

ORDER = "pc npc bht btb ib idex exmem memwb rf sb port cdata ctag cvalid cdirty clru".split()
BITS = [30, 30, 128, 912, 256, 153, 79, 37, 992, 264, 6, 8192, 1472, 64, 64, 32]
NUMBER = rb"(0|[1-9][0-9]*)"
CLAIM = re.compile(rb"([^ ]+) " + NUMBER + rb" " + NUMBER + rb" " + NUMBER + rb" U" + NUMBER)


def claim(line):
    """What a line says: structure, bit, first cycle, end, rule; or None where it isn't spelled so."""
    words = CLAIM.fullmatch(line)
    if not words or any(int(word) >= 2**32 for word in words.groups()[1:]):
        return None
    return (words[1], *(int(word) for word in words.groups()[1:]))


class Whole:
    """The whole map of a run on the plain machine."""

    def __init__(self, text):
        lines = text.split(b"\n")
        self.cycles, self.instructions = int(lines[1].split()[1]), int(lines[2].split()[1])
        self.rules = {}
        for line in lines[3:-1]:
            name, bit, start, end, rule = claim(line)
            for cycle in range(start, end):
                self.rules[name, bit, cycle] = rule

    def head(self, front, count, line):
        """The fault of the second or third line, or none."""
        number = re.fullmatch(front + NUMBER, line)
        if not number or int(number[1]) >= 2**32:
            return 1
        return 0 if int(number[1]) == count else 2

    def claimed(self, said, before):
        """The fault of a line that says this behind the line before, or none."""
        name, bit, start, end, rule = said
        places = [k for k, known in enumerate(ORDER) if known.encode() == name]
        if not places or bit >= BITS[places[0]] or not start < end <= self.cycles or not 1 <= rule <= 13:
            return 3
        at = (places[0], bit, start)
        if before is not None and at < before:
            return 4
        return 0 if all(self.rules.get((name, bit, cycle)) == rule for cycle in range(start, end)) else 5

    def fault(self, number, line, before):
        """The first fault of the line of this number, from 1 on, or 0."""
        if len(line) > 64:
            return 1
        if number == 1:
            return 0 if line == b"avf-map 1" else 1
        if number == 2:
            return self.head(b"cycles ", self.cycles, line)
        if number == 3:
            return self.head(b"instructions ", self.instructions, line)
        said = claim(line)
        return 1 if said is None else self.claimed(said, before)

    def judged(self, text):
        """The number of pairs of an accepted map, or the first line with a fault and the fault."""
        *lines, rest = text.split(b"\n")
        before, pairs = None, 0
        for number, line in enumerate(lines, 1):
            fault = self.fault(number, line, before)
            if fault:
                return number, fault
            if number > 3:
                name, bit, start, end, _ = claim(line)
                before, pairs = (ORDER.index(name.decode()), bit, end), pairs + end - start
        return (len(lines) + 1, 1) if rest or len(lines) < 3 else pairs
