"""Which cords of a session are sampled, and which marks its replies have: kept beside the byte strings of `plain_model`.

A note is a record's stamp and update. What the rules leave open, the stamp of a new record and whether a slot was free, is read off the reply.
"""

import re

import plain_model

MARKS = re.compile(r"ok(?: ~([0-9]+)\.([0-9]+) ([0-9]+)| (~full))?(?: ~([0-9]+) gone)?")
REPORT = re.compile(
    r"record ([0-9]+)\.([0-9]+) size ([0-9]+) nodes ([0-9]+) flat ([0-9]+) external ([0-9]+) part ([0-9]+) sum ([0-9]+) branch ([0-9]+)"
    r" buckets ([0-9]+) ([0-9]+) ([0-9]+) ([0-9]+) ([0-9]+) memory ([0-9]+)"
)
FRESH = {b"let", b"ext", b"sub", b"clear"}
CHANGING = {b"append", b"prepend", b"join", b"joinfront", b"cutfront", b"cutback", b"setsum"}
PROFILING = {b"snap", b"walk", b"unsnap"}
MOST_INLINE = 15


class Run:
    """What all sessions share: the stride, the notes of the cells' cords, the stamps of all records, and the notes that replies told."""

    def __init__(self, stride):
        self.stride = stride
        self.cells = {}
        self.stamps = set()
        self.told = set()


class Session(plain_model.Session):
    """A session whose cords may be sampled."""

    def __init__(self, name, cells, run):
        super().__init__(name, cells)
        self.run = run
        self.notes = {}
        self.trees = 0
        self.watches = False

    def is_tree(self, name):
        return name in self.cords and (len(self.cords[name]) > MOST_INLINE or self.sums[name] is not None)

    def due(self):
        """Whether a new tree, which counts, is to be sampled."""
        self.trees += 1
        return self.run.stride != 0 and self.trees % self.run.stride == 0

    def sampled(self, word, rest, printed):
        """The reply to a command with its marks, and the history's line of it."""
        if word in plain_model.ON_CELLS:
            name, cell = (rest[0], rest[1]) if word in (b"put", b"swap") else (rest[1], rest[0])
        else:
            name, cell = rest[{b"copy": 1, b"sub": 3}.get(word, 0)], None
        was, size = self.is_tree(name), len(self.cords.get(name, b""))
        source = self.notes.get(rest[0]) if word == b"copy" else self.run.cells.get(cell)
        reply, entry = self.does(word, rest)
        if reply != "ok":
            return reply, entry
        return "ok" + self.marks(word, name, cell, was, size, source, printed), entry

    def marks(self, word, name, cell, was, size, source, printed):
        old = self.notes.get(name)
        if word == b"put":
            gone, self.run.cells[cell], self.notes[name] = self.run.cells.get(cell), old, None
            return self.gone(gone)
        if word == b"take":
            self.notes[name], self.run.cells[cell] = source, None
            return self.gone(old)
        if word == b"swap":
            self.notes[name], self.run.cells[cell] = source, old
            return ""
        if word in (b"copy", b"peek"):
            return self.new(name, source is not None, printed) + self.gone(old)
        if word in FRESH:
            return self.new(name, self.is_tree(name) and self.due(), printed) + self.gone(old)
        if not self.is_tree(name):
            self.notes[name] = None
            return self.gone(old)
        if not was:
            return self.new(name, self.due(), printed)
        if old is None or (word != b"setsum" and len(self.cords[name]) == size):
            return ""
        return self.noted(name, (old[0], old[1] + 1))

    def gone(self, note):
        return "" if note is None else f" ~{note[0]} gone"

    def noted(self, name, note):
        self.notes[name] = note
        self.run.told.add((*note, len(self.cords[name])))
        return f" ~{note[0]}.{note[1]} {len(self.cords[name])}"

    def new(self, name, sampled, printed):
        """The mark of a cord that was made: with a stamp that no record had before, or none where each slot was in use."""
        self.notes[name] = None
        if not sampled:
            return ""
        found = MARKS.fullmatch(printed)
        if found and found[4]:
            return " ~full"
        stamp = int(found[1]) if found and found[1] else 1
        while stamp < 1 or stamp in self.run.stamps:
            stamp += 1
        self.run.stamps.add(stamp)
        return self.noted(name, (stamp, 0))

    def watch(self, word, printed):
        """The reply to a command of the profiler; what was deleted with a snapshot is taken as it stands."""
        if word == b"snap":
            reply, self.watches = ("! snapshot" if self.watches else "ok"), True
            return reply
        if not self.watches:
            return "! no snapshot"
        if word == b"walk":
            return printed if re.fullmatch(r"walked [0-9]+", printed) else "walked 0"
        self.watches = False
        return printed if re.fullmatch(r"ok (0|[1-9][0-9]*)", printed) else "ok 0"


def report_of(line):
    """The numbers of a report: stamp, update and size; None where it is none, or where its numbers don't add up."""
    found = REPORT.fullmatch(line)
    if not found:
        return None
    numbers = [int(number) for number in found.groups()]
    if f"record {numbers[0]}.{numbers[1]} " != line[: len(f"record {numbers[0]}.{numbers[1]} ")] or numbers[3] != sum(numbers[4:9]) or sum(numbers[9:14]) > numbers[4]:
        return None
    return tuple(numbers[:3])
