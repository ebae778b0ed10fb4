"""A straightforward interpreter of scripts without a fault: each cord is a byte string of Python's, and the board a dictionary."""

import copy
import re

ESCAPES = {b'"': b'"', b"\\": b"\\", b"n": b"\n"}
ESCAPE = re.compile(rb"\\(x[0-9a-f]{2}|.)")
WITH_TEXT = {b"let", b"ext", b"append", b"prepend", b"find", b"starts", b"ends"}
ON_CELLS = {b"put", b"take", b"peek", b"swap"}
OPTIONS = {b"pool", b"passes", b"stride"}
MOST_BYTES = 2147483647
MOST_SHOWN = 4096
# how many boxes of releasers a session owns; each `ext` that is done uses one
BOXES = 16


def unescaped(match):
    escape = match[1]
    return bytes([int(escape[1:], 16)]) if escape[:1] == b"x" else ESCAPES[escape]


def text_of(part):
    """The bytes that a text stands for."""
    piece, _, times = part[1:].rpartition(b'"')
    if b"\\" in piece:
        piece = ESCAPE.sub(unescaped, piece)
    return piece * int(times[1:]) if times else piece


def quoted(text):
    shown = "".join(
        "\\" + chr(byte) if byte in b'"\\' else "\\n" if byte == 10 else chr(byte) if 32 <= byte <= 126 else f"\\x{byte:02x}"
        for byte in text[:MOST_SHOWN]
    )
    more = f" +{len(text) - MOST_SHOWN}" if len(text) > MOST_SHOWN else ""
    return f'"{shown}"{more}'


class Session:
    """One session: its names' cords and sums, the board's cells, which all sessions share, how often it acted on one, and its externals."""

    def __init__(self, name, cells):
        self.name = name
        self.cells = cells
        self.cords = {}
        self.sums = {}
        self.acted = 0
        self.externals = 0

    def set(self, name, text, expected=None):
        self.cords[name] = text
        self.sums[name] = expected
        return "ok"

    def change(self, name, text):
        if len(text) > MOST_BYTES:
            return f"! length {len(text)}"
        return self.set(name, text) if len(text) != len(self.cords[name]) else "ok"

    def cut(self, name, asked, text):
        size = len(self.cords[name])
        return self.change(name, text) if asked <= size else f"! position {asked} {size}"

    def would(self, word, rest):
        """The reply to a command on no cell, which isn't done."""
        trial = copy.copy(self)
        trial.cords, trial.sums = dict(self.cords), dict(self.sums)
        return trial.answer(word, rest)

    def does(self, word, rest):
        """The reply to a command, and the history's line of it where it acts on a cell."""
        return self.acts(word, rest) if word in ON_CELLS else (self.answer(word, rest), None)

    def acts(self, word, rest):
        name, cell = (rest[0], int(rest[1])) if word in (b"put", b"swap") else (rest[1], int(rest[0]))
        own = (self.cords.get(name), self.sums.get(name))
        if word in (b"put", b"swap") and own[0] is None:
            return f"! unset {name.decode()}", None
        self.acted += 1
        entry = f"{self.name} {self.acted} {word.decode()} {cell}"
        if word == b"put":
            self.cells[cell] = own
            return self.set(name, b""), f"{entry} ok {len(own[0])}"
        found = self.cells.get(cell)
        if found is None:
            return f"! empty {cell}", f"{entry} empty"
        came = ""
        if word == b"take":
            del self.cells[cell]
        if word == b"swap":
            self.cells[cell] = own
            came = f" {len(own[0])}"
        return self.set(name, *found), f"{entry} ok{came} {len(found[0])}"

    def answer(self, word, rest):
        if word == b"let":
            return self.set(rest[0], text_of(rest[1]))
        if word == b"ext":
            if self.externals == BOXES:
                return "! releasers"
            self.externals += 1
            return self.set(rest[0], text_of(rest[1]))
        names = [rest[0], rest[1]] if word in (b"join", b"joinfront", b"compare") else [rest[0]]
        for name in names:
            if name not in self.cords:
                return f"! unset {name.decode()}"
        name, text = rest[0], self.cords[rest[0]]
        if word == b"append":
            return self.change(name, text + text_of(rest[1]))
        if word == b"prepend":
            return self.change(name, text_of(rest[1]) + text)
        if word == b"join":
            return self.change(name, text + self.cords[rest[1]])
        if word == b"joinfront":
            return self.change(name, self.cords[rest[1]] + text)
        if word == b"copy":
            return self.set(rest[1], text, self.sums[name])
        if word == b"sub":
            start = int(rest[1])
            return self.set(rest[3], text[start : start + int(rest[2])])
        if word == b"clear":
            return self.set(name, b"")
        if word == b"cutfront":
            return self.cut(name, int(rest[1]), text[int(rest[1]) :])
        if word == b"cutback":
            return self.cut(name, int(rest[1]), text[: max(0, len(text) - int(rest[1]))])
        if word == b"setsum":
            return self.set(name, text, int(rest[1])) if text else "! no bytes"
        if word == b"sum":
            return "none" if self.sums[name] is None else f"sum {self.sums[name]}"
        if word == b"size":
            return str(len(text))
        if word == b"print":
            return quoted(text)
        if word == b"at":
            place = int(rest[1])
            return str(text[place]) if place < len(text) else f"! position {place} {len(text)}"
        if word == b"find":
            place = text.find(text_of(rest[1]))
            return str(place) if place >= 0 else "none"
        if word == b"compare":
            other = self.cords[rest[1]]
            return "less" if text < other else "equal" if text == other else "greater"
        if word == b"starts":
            return "yes" if text.startswith(text_of(rest[1])) else "no"
        if word == b"ends":
            return "yes" if text.endswith(text_of(rest[1])) else "no"
        raise ValueError(word)


def sessions_of(script):
    """The sessions of a script, in order: the name and the commands of each, a command as its first word and the others."""
    sessions = []
    for line in script.split(b"\n")[1:]:
        word, _, rest = line.partition(b" ")
        if not line or line.startswith(b"#") or word in OPTIONS:
            continue
        if word == b"session":
            sessions.append((rest.decode(), []))
        elif word != b"end":
            sessions[-1][1].append((word, rest.split(b" ", 1) if word in WITH_TEXT else rest.split(b" ")))
    return sessions


def option_of(script, word, default):
    for line in script.split(b"\n"):
        if line.startswith(word + b" "):
            return int(line.split(b" ")[1])
    return default


def pool_of(script):
    """How many numbers the script's pool has."""
    return option_of(script, b"pool", 65536)


def passes_of(script):
    """How many passes may be live, one for each tree in a name or a cell."""
    return option_of(script, b"passes", 16384)


def stride_of(script):
    """Of how many new trees one is sampled; 0: none is."""
    return option_of(script, b"stride", 0)


def output(names, replies, history, pool=65536):
    """The text of a run: each session's line and replies, the history, and the pool, which all numbers came back to."""
    lines = []
    for name, said in zip(names, replies):
        lines += [f"session {name}", *said]
    lines += [f"history {len(history)}", *history, f"pool 0 of {pool}"]
    return "".join(f"{line}\n" for line in lines)


def run(script):
    """The output of `cords run` on a script where its sessions are done one after another. With one session there is no other."""
    sessions, cells, replies, history = sessions_of(script), {}, [], []
    for name, commands in sessions:
        session = Session(name, cells)
        replies.append([])
        for word, rest in commands:
            reply, entry = session.does(word, rest)
            replies[-1].append(reply)
            history += [entry] if entry else []
    return output([name for name, _ in sessions], replies, history, pool_of(script))
