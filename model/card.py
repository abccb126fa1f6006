#!/usr/bin/env python3
"""A model of the card sections of a script, written from the rules alone and not from the program.

    model/card.py [SCRIPT]     prints what `visits` is to print, and ends with the same status
    model/card.py --vectors    checks the tallies against known values

The rules are those of docs/: a card is a store of SIZE cells of WIDTH bits in the hands of somebody who alters it
after given numbers of accesses; over it stands a checked memory that keeps notes in WIDTH - 20 bits.
"""
import re
import sys

MASK = (1 << 64) - 1
MULTIPLIER = 0x9E3779B97F4A7C15
LAST_CLOCK = 1_048_575
NAMES = {
    1: "no such cell", 2: "word too wide",
    21: "word wider than the store", 22: "stamp ahead of the clock", 23: "tallies differ",
}
WHITE = b" \t\r"


def mix(key, record):
    y = ((record ^ key) * MULTIPLIER) & MASK
    z = y ^ (y >> 32)
    return (z * MULTIPLIER) & MASK


class Tally:
    def __init__(self, rule, key):
        self.rule, self.key, self.value = rule, key, 0

    def add(self, record):
        m = mix(self.key, record)
        self.value = (self.value + m) & MASK if self.rule == "sum" else self.value ^ m

    def fresh(self):
        return Tally(self.rule, self.key)


class Fault(Exception):
    def __init__(self, cause, height, place):
        super().__init__(cause, height, place)
        self.cause, self.height, self.place = cause, height, place

    def named(self):
        return f"{self.cause} ({NAMES[self.cause]})"


class Decline(Exception):
    def __init__(self, cause, place):
        super().__init__(cause, place)
        self.cause, self.place = cause, place


class AlteredCard:
    """The array of words, and the alterations to come. Both have height 0."""

    def __init__(self, size, width, alterations):
        self.fit = 1 <= size <= 4096 and 1 <= width <= 48
        self.size = size if self.fit else 0
        self.width = width if self.fit else 0
        self.words = [0] * self.size
        self.coming = list(alterations)
        self.accesses = 0

    def put(self, cell, word):
        if cell >= self.size:
            raise Fault(1, 0, cell)
        if word >= 1 << self.width:
            raise Fault(2, 0, cell)
        self.words[cell] = word

    def access(self):
        while self.coming and self.coming[0][0] <= self.accesses:
            _, cell, word = self.coming.pop(0)
            try:
                self.put(cell, word)
            except Fault:
                pass
        self.accesses += 1

    def read(self, cell):
        self.access()
        if cell >= self.size:
            raise Fault(1, 0, cell)
        return self.words[cell]

    def write(self, cell, word):
        self.access()
        self.put(cell, word)


class CheckedMemory:
    HEIGHT = 1

    def __init__(self, below, tally):
        self.below = below
        self.fit = 1 <= below.size <= 4096 and 21 <= below.width <= 48
        self.size = below.size if self.fit else 0
        self.bits = below.width - 20 if self.fit else 0
        self.clock = 0
        self.were_read, self.were_written = tally.fresh(), tally.fresh()
        self.broken = None
        try:
            for cell in range(self.size):
                self.store(cell, 0, 0, self.were_written)
        except Fault as fault:
            self.broken = fault

    def record(self, cell, word):
        return cell * 2**48 + word

    def load(self, cell):
        """Reads the cell below, refuses what cannot be, and tallies the word as read."""
        word = self.below.read(cell)
        if word >= 2 ** (self.bits + 20):
            raise Fault(21, self.HEIGHT, cell)
        stamp, value = divmod(word, 2**self.bits)
        if stamp > self.clock:
            raise Fault(22, self.HEIGHT, cell)
        self.were_read.add(self.record(cell, word))
        return value

    def store(self, cell, stamp, value, tally):
        word = stamp * 2**self.bits + value
        self.below.write(cell, word)
        tally.add(self.record(cell, word))

    def visit(self, cell, new=None):
        if self.clock == LAST_CLOCK:
            self.sweep_cells()
        value = self.load(cell)
        if new is not None:
            value = new
        self.clock += 1
        self.store(cell, self.clock, value, self.were_written)
        return value

    def sweep_cells(self):
        new = self.were_written.fresh()
        for cell in range(self.size):
            self.store(cell, 0, self.load(cell), new)
        if self.were_read.value != self.were_written.value:
            raise Fault(23, self.HEIGHT, 0)
        self.were_read, self.were_written, self.clock = new.fresh(), new, 0

    def answer(self, call):
        """The answer in words, and the fault that it reports, if any."""
        if self.broken is None:
            try:
                return self.perform(call), None
            except Decline as no:
                return f"declined {no.cause} ({NAMES[no.cause]}) at {no.place}", None
            except Fault as fault:
                self.broken = fault
        fault = self.broken
        return f"fault {fault.named()} height {fault.height} at {fault.place}", fault

    def perform(self, call):
        if call[0] == "sweep":
            self.sweep_cells()
            return "passed"
        cell = call[1]
        if cell >= self.size:
            raise Decline(1, cell)
        if call[0] == "read":
            return f"value {self.visit(cell)}"
        if call[2] >= 2**self.bits:
            raise Decline(2, cell)
        self.visit(cell, call[2])
        return "written"


class BadLine(Exception):
    pass


def number(words):
    if not words:
        raise BadLine("a word is missing")
    word = words.pop(0)
    if not re.fullmatch(rb"[0-9]+", word) or int(word) > MASK:
        raise BadLine("not a number of 64 bits")
    return int(word)


def end(words):
    if words:
        raise BadLine("a word too many")


class CardSection:
    def __init__(self, words):
        self.size, self.width = number(words), number(words)
        end(words)
        self.tally, self.alterations, self.calls = None, [], []

    def setting(self):
        if self.calls:
            raise BadLine("a setting after the first call")

    def line(self, name, words, text):
        if name == b"tally":
            if not words:
                raise BadLine("a word is missing")
            rule = words.pop(0)
            if rule not in (b"sum", b"xor"):
                raise BadLine("unknown word")
            if not words:
                raise BadLine("a word is missing")
            key = words.pop(0)
            if not re.fullmatch(rb"[0-9a-fA-F]{1,16}", key):
                raise BadLine("not a key of 1 to 16 hexadecimal digits")
            end(words)
            self.setting()
            if self.tally is not None:
                raise BadLine("a setting given twice")
            self.tally = Tally(rule.decode(), int(key, 16))
        elif name == b"alter":
            alteration = (number(words), number(words), number(words))
            end(words)
            self.setting()
            if self.alterations and alteration[0] < self.alterations[-1][0]:
                raise BadLine("alterations not by rising AFTER")
            self.alterations.append(alteration)
        elif name == b"write":
            call = ("write", number(words), number(words))
            end(words)
            self.calls.append((call, text))
        elif name == b"read":
            call = ("read", number(words))
            end(words)
            self.calls.append((call, text))
        elif name == b"sweep":
            end(words)
            self.calls.append((("sweep",), text))
        else:
            raise BadLine("unknown word")

    def run(self, out):
        memory = CheckedMemory(AlteredCard(self.size, self.width, self.alterations), self.tally or Tally("sum", 0))
        passed, first = 0, None
        for i, (call, text) in enumerate(self.calls, 1):
            answer, fault = memory.answer(call)
            passed += answer == "passed"
            first = first or fault
            out.write(b"%d %s: %s\n" % (i, text, answer.encode()))
        fault = f"{first.named()} height {first.height} at {first.place}" if first else "none"
        out.write(f"card {self.size} {self.width}: calls {len(self.calls)}, sweeps passed {passed}, first fault {fault}\n".encode())


def sections(script):
    """Each section, or the message of its first line that makes no sense."""
    out = []
    for n, line in enumerate(script.split(b"\n"), 1):
        text = line.strip(WHITE)
        words = [w for w in re.split(rb"[ \t\r]+", text) if w]
        if not words or words[0].startswith(b"#"):
            continue
        name = words.pop(0)
        try:
            if name == b"card":
                out.append(None)
                out[-1] = CardSection(words)
            elif not out:
                raise BadLine("no section has begun")
            elif isinstance(out[-1], CardSection):
                out[-1].line(name, words, text)
        except BadLine as why:
            if not out:
                out.append(None)
            out[-1] = f"visits: line {n}: {why}"
    return out


def vectors():
    def tallied(rule):
        t = Tally(rule, 0x5DEECE66D)
        for record in (0, 2**48, 844425467002889):
            t.add(record)
        return t.value
    memory = CheckedMemory(AlteredCard(4, 48, []), Tally("sum", 0))
    pairs = [
        (mix(0, 1), 0xAB169EB805B8C71C),
        (mix(0x0123456789ABCDEF, 844425467002889), 0x9A142515E4C314B2),
        (mix(MASK, 1152921504606846975), 0xF783354E70000000),
        (tallied("sum"), 0x32C9907683114576),
        (tallied("xor"), 0x53F79F6BBCE92F6E),
        (memory.record(3, 2 * 2**memory.bits + 9), 844425467002889),
    ]
    for got, wanted in pairs:
        if got != wanted:
            sys.exit(f"got {got:x}, wanted {wanted:x}")
    print(f"{len(pairs)} vectors right")


def main():
    if sys.argv[1:] == ["--vectors"]:
        return vectors()
    if sys.argv[1:] and sys.argv[1] != "-":
        try:
            with open(sys.argv[1], "rb") as f:
                script = f.read()
        except OSError as e:
            sys.exit(f"visits: cannot read {sys.argv[1]}: {e.strerror}")
    else:
        script = sys.stdin.buffer.read()
    found = sections(script)
    if not found:
        sys.exit("visits: the script has no section")
    status = 0
    for section in found:
        if isinstance(section, CardSection):
            section.run(sys.stdout.buffer)
        else:
            sys.stdout.flush()
            print(section, file=sys.stderr)
            status = 1
    sys.stdout.buffer.flush()
    sys.exit(status)


if __name__ == "__main__":
    main()
