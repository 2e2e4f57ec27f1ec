#!/usr/bin/env python3
"""An independent model of 01, "The reading of a stream": it cuts a stream into pieces by the rules of that section, judges each piece,
and counts pieces. It follows the paper alone: neither the Rust nor the proved code is consulted, and there is no receiver in it.

    ledger.py FILE              prints the ledger's nine lines for the bytes of FILE ('-': standard input)
    ledger.py --pieces FILE     prints the pieces, one to a line
    ledger.py --against FILE    each line of FILE is a stream in hex, nine numbers, and the frames' bodies without their check in
                                hex, joined by commas ('-' for none): says how many agree, or the first that does not
"""
import sys

NAMES = ["openings", "frames", "runts", "checksums", "giants", "escaped", "broken", "noise", "open"]
ESCAPES = [0x7E, 0x24, 0x23, 0x25, 0xA4, 0xA3, 0xA5]
LIMIT = 256


def check(data):
    """The reflected CRC-16 with polynomial 0x8408, start 0, bit by bit."""
    crc = 0
    for byte in data:
        for bit in range(8):
            odd = (crc ^ (byte >> bit)) & 1
            crc = (crc >> 1) ^ (0x8408 if odd else 0)
    return crc


class Piece:
    """`kind` is byte, pair, frame or tail; `came` is True where an outside piece came in Idle; `units` and `ending` are a frame's."""

    def __init__(self, kind, data, came=None, units=None, ending=None):
        self.kind, self.data, self.came, self.units, self.ending = kind, data, came, units, ending

    def __str__(self):
        more = f" {self.ending}, {len(self.units)} units" if self.kind == "frame" else ""
        return f"{self.kind} {self.data.hex()}{more}"


def units_of(s, at):
    """The data units from `at` on, at most LIMIT, with the place after each: a byte other than 7e, or 7e and 00 to 06."""
    units = []
    while len(units) <= LIMIT:
        if at < len(s) and s[at] != 0x7E:
            units.append((s[at], at + 1, "raw"))
            at += 1
        elif at + 1 < len(s) and s[at + 1] <= 6:
            units.append((ESCAPES[s[at + 1]], at + 2, "escape"))
            at += 2
        else:
            break
    return units


def judge(body):
    if len(body) < 6:
        return "runt"
    low, high = body[-2:]
    return "sound" if check(body[:-2]) == low + 256 * high else "checksum"


def frame_at(s, start, at):
    """The frame whose units start at `at`; its bytes, from `start` on, include its opener unless a tail has it. And the next place."""
    found = units_of(s, at)
    if len(found) > LIMIT:
        _, end, how = found[LIMIT]
        ending = "giant" if how == "raw" else "escaped"
        return Piece("frame", s[start:end], units=[u for u, _, _ in found[:LIMIT]], ending=ending), end
    body = bytes(u for u, _, _ in found)
    at = found[-1][1] if found else at
    if at + 1 >= len(s):
        return Piece("frame", s[start:], units=body, ending="unfinished"), len(s)
    ending = judge(body) if s[at + 1] == 8 else "broken"
    return Piece("frame", s[start : at + 2], units=body, ending=ending), at + 2


def tail_at(s, at, half):
    """A tail from `at` on; `half` says that its first byte is the second half of a pair. Its end, and what ended it."""
    start = at
    while True:
        if not half:
            while at < len(s) and s[at] != 0x7E:
                at += 1
            at += 1
        if at >= len(s):
            return Piece("tail", s[start:]), len(s), None
        second = s[at]
        at += 1
        half = False
        if second in (7, 8):
            return Piece("tail", s[start:at]), at, second


def reading(s):
    """The pieces of a stream. Joined they make up its bytes."""
    pieces, at, idle = [], 0, True
    opened = False  # whether the last tail ended in an opener
    while at < len(s) or opened:
        if not opened and s[at] != 0x7E:
            pieces.append(Piece("byte", s[at : at + 1], came=idle))
            idle = s[at] in (0x00, 0xFF)
            at += 1
            continue
        if not opened and s[at : at + 2] != b"\x7e\x07":
            pieces.append(Piece("pair", s[at : at + 2], came=idle))
            at, idle = at + 2, False
            continue
        frame, at = frame_at(s, at, at if opened else at + 2)
        opened = False
        pieces.append(frame)
        if frame.ending in ("giant", "escaped"):
            tail, at, ended = tail_at(s, at, frame.ending == "escaped")
            pieces.append(tail)
            opened, idle = ended == 7, True
        else:
            idle = frame.ending != "broken"
    assert b"".join(p.data for p in pieces) == bytes(s)
    return pieces


def noise(p):
    if p.kind == "byte":
        return p.came and p.data[0] not in (0x00, 0xFF)
    if p.kind == "pair":
        return len(p.data) == 2  # a lone last 7e waits
    return p.kind == "frame" and p.ending == "broken"


def ledger(s):
    pieces = reading(bytes(s))
    frames = [p for p in pieces if p.kind == "frame"]
    endings = ["sound", "runt", "checksum", "giant", "escaped", "broken"]
    counts = [sum(f.ending == e for f in frames) for e in endings]
    noises = sum(bool(noise(p)) for p in pieces)
    nine = [len(frames)] + counts + [noises, int(bool(frames) and frames[-1].ending == "unfinished")]
    return nine, [bytes(f.units[:-2]) for f in frames if f.ending == "sound"]


def read(name):
    return sys.stdin.buffer.read() if name == "-" else open(name, "rb").read()


def against(name):
    lines = 0
    for line in open(name):
        text, *numbers, bodies = line.split()
        s = b"" if text == "-" else bytes.fromhex(text)
        nine, frames = ledger(s)
        said = ",".join(f.hex() for f in frames) or "-"
        if nine != [int(n) for n in numbers] or said != bodies:
            print(f"DIFFERENCE with the model on {text}\n  the model: {nine} {said}\n  the line:  {numbers} {bodies}")
            return 1
        lines += 1
    print(f"{lines:>9}  streams by the independent model of 01's grammar: nine numbers and all frames, no difference")
    return 0


def main(words):
    if len(words) == 2 and words[0] == "--against":
        return against(words[1])
    if len(words) == 2 and words[0] == "--pieces":
        for p in reading(read(words[1])):
            print(p)
        return 0
    if len(words) == 1 and not words[0].startswith("--"):
        for name, n in zip(NAMES, ledger(read(words[0]))[0]):
            print(name, n)
        return 0
    print(__doc__, file=sys.stderr)
    return 2


if __name__ == "__main__":
    sys.exit(main(sys.argv[1:]))
