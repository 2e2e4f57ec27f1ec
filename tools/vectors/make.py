#!/usr/bin/env python3
"""Writes crates/vectors/data/: rows for the check, the escapes, addresses and encode.

An own reading of document 01, which shares nothing with the code under test: the check is computed bit by bit.
A row is `INPUT = EXPECTED # rule`, in hexadecimal; blanks do not count; `*N` makes the byte before it stand N times.
The random rows come from a fixed seed, so that two runs write the same files.
"""
import os
import random

SEVEN = [0x7E, 0x24, 0x23, 0x25, 0xA4, 0xA3, 0xA5]
SEED = 20240901
FILL = 0xEE


def check(data, start=0, polynomial=0x8408):
    c = start
    for b in data:
        for i in range(8):
            bit = (c ^ (b >> i)) & 1
            c = (c >> 1) ^ (polynomial if bit else 0)
    return c


def escaped(data):
    out = bytearray()
    for b in data:
        if b in SEVEN:
            out += bytes([0x7E, SEVEN.index(b)])
        else:
            out.append(b)
    return bytes(out)


def encoded(is_from, gateway, kind, payload):
    number = gateway + (0x8000 if is_from else 0)
    body = number.to_bytes(2, "big") + kind.to_bytes(2, "big") + payload
    body += check(body).to_bytes(2, "little")
    start = bytes([0xFF, 0x7E, 0x07]) if is_from else bytes([0x00, 0xFF, 0xFF, 0x7E, 0x07])
    return start + escaped(body) + bytes([0x7E, 0x08])


def text(data):
    """Hexadecimal, with runs of more than 16 equal bytes as `*N`."""
    out = []
    i = 0
    while i < len(data):
        j = i
        while j < len(data) and data[j] == data[i]:
            j += 1
        if j - i > 16:
            out.append("%02x*%x " % (data[i], j - i))
        else:
            out.append("%02x" % data[i] * (j - i))
        i = j
    return "".join(out).strip()


def answer(number, value=0, size=4):
    return bytes([number]) + value.to_bytes(size, "big")


def written(wire, room):
    """The answer and the whole buffer of an encoder, which was filled with ee before."""
    if room < len(wire):
        return answer(11) + bytes([FILL]) * room
    return answer(0, len(wire)) + wire + bytes([FILL]) * (room - len(wire))


def row(data, expected, rule):
    return "%s = %s # %s" % (text(data), text(expected), rule)


def crc_rows(r):
    named = [
        (b"", "no bytes"),
        (b"123456789", "the published check value, 2189"),
        (b"\x00", "one zero"),
        (b"\x01", "the lowest bit"),
        (b"\x80", "the highest bit"),
        (b"\xff", "eight ones"),
        (b"\x00" * 256, "256 zeros"),
        (b"\xff" * 256, "256 times ff"),
        (bytes(range(256)), "every byte once"),
        (bytes.fromhex("12010b00"), "a body without payload"),
    ]
    for n in (1, 2, 3, 7, 8, 9, 64, 250, 254, 255, 1024):
        named.append((r.randbytes(n), "random, %d bytes" % n))
    return [row(d, check(d).to_bytes(2, "big"), w) for d, w in named]


def length_rows(r):
    def one(d, w):
        n = len(escaped(d))
        return row(d, answer(10) if len(d) > 65536 else answer(0, n), w)

    rows = [one(b"", "no bytes"), one(bytes(SEVEN), "the seven"), one(bytes(range(256)), "every byte once")]
    for n in (65535, 65536, 65537):
        rows.append(one(b"\x41" * n, "10: input over 65,536"))
        rows.append(one(b"\x7e" * n, "10: input over 65,536, each byte escaped"))
    return rows + [one(r.randbytes(n), "random") for n in (1, 5, 40, 250, 1000)]


def escape_rows(r):
    def one(d, room, w):
        if len(d) > 65536:
            expected = answer(10) + bytes([FILL]) * room
        else:
            expected = written(escaped(d), room)
        return row(room.to_bytes(4, "big") + d, expected, w)

    rows = [one(b"", 0, "no bytes, no room"), one(b"", 3, "no bytes"), one(bytes(SEVEN), 16, "the seven")]
    for d in (b"\x41", b"\x7e", bytes(SEVEN), bytes(range(256)), r.randbytes(100)):
        n = len(escaped(d))
        for room in (n - 1, n, n + 1):
            rows.append(one(d, room, "11: room below the exact length, %d" % n))
    for n in (65535, 65536, 65537):
        rows.append(one(b"\x41" * n, 65540, "10: input over 65,536"))
    rows.append(one(b"\x41" * 65537, 0, "10 before 11"))
    return rows + [one(r.randbytes(n), 2 * n + 3, "random") for n in (1, 2, 17, 120, 250)]


def unescaped_rows(r):
    rows = [row(bytes([c]), answer(0, SEVEN[c], 2), "7e and %02x" % c) for c in range(7)]
    return rows + [row(bytes([c]), answer(14, 0, 2), "14: byte above 06") for c in (7, 8, 9, 0x23, 0x7E, 0xFF)]


def id_rows(r):
    numbers = [0, 1, 0x1201, 0x7FFE, 0x7FFF, 0x8000, 0x8001, 0xFFFF]
    return [row(n.to_bytes(2, "big"), answer(13, 0, 2) if n > 0x7FFF else answer(0, n, 2), "13: gateway ID above 7fff") for n in numbers]


def address_rows(r):
    numbers = [0, 1, 0x1201, 0x7FFF, 0x8000, 0x8001, 0x9201, 0xFFFF] + [r.randrange(65536) for _ in range(8)]
    return [row(n.to_bytes(2, "big"), bytes([n >> 15]) + (n & 0x7FFF).to_bytes(2, "big"), "bit 0x8000 set means From") for n in numbers]


def number_rows(r):
    rows = []
    for g in [0, 1, 0x1201, 0x7FFE, 0x7FFF, 0x8000, 0xFFFF] + [r.randrange(0x8000) for _ in range(4)]:
        for d in (0, 1):
            back = answer(13, 0, 2) if g > 0x7FFF else answer(0, g + 0x8000 * d, 2)
            rows.append(row(bytes([d]) + g.to_bytes(2, "big"), back + back, "the 16 bits, and the two bytes"))
    return rows


def encode_rows(r):
    def one(d, g, kind, payload, room, w):
        head = bytes([d]) + g.to_bytes(2, "big") + kind.to_bytes(2, "big") + room.to_bytes(4, "big")
        if g > 0x7FFF:
            expected = answer(13) + bytes([FILL]) * room
        elif len(payload) > 250:
            expected = answer(10) + bytes([FILL]) * room
        else:
            expected = written(encoded(d == 1, g, kind, payload), room)
        return row(head + payload, expected, w)

    rows = [one(0, 0x1201, 0x0B00, b"", 32, "To, no payload"), one(1, 0x1201, 0x0B01, b"", 32, "From, no payload")]
    for d in (0, 1):
        for p in (b"", b"\x7e", bytes(SEVEN), r.randbytes(30)):
            n = len(encoded(d == 1, 0x1201, 0x0148, p))
            for room in (n - 1, n, n + 1):
                rows.append(one(d, 0x1201, 0x0148, p, room, "11: room below the exact length, %d" % n))
        for size in (249, 250, 251):
            rows.append(one(d, 0x1201, 0x0149, b"\x41" * size, 600, "10: payload over 250"))
        for g in (0x7FFE, 0x7FFF, 0x8000):
            rows.append(one(d, g, 0x0038, b"\x01", 40, "13: gateway ID above 7fff"))
    rows.append(one(0, 0x7E7E, 0x7E7E, b"\x7e" * 250, 519, "a long encoding"))
    rows.append(one(0, 0x2424, 0xA5A5, b"\xa3" * 250, 519, "a long encoding"))
    rows.append(one(1, 0x8000, 0x0148, b"\x41" * 251, 0, "13 before 10 and 11"))
    rows.append(one(1, 0x0001, 0x0148, b"\x41" * 251, 0, "10 before 11"))
    rows.append(one(1, 0x0001, 0x0148, b"", 0, "no room"))
    for kind in (0x0000, 0x7E24, 0xFFFF):
        rows.append(one(1, 0x0001, kind, b"\x00", 40, "any other 16-bit type is encoded all the same"))
    for _ in range(12):
        p = r.randbytes(r.randrange(60))
        rows.append(one(r.randrange(2), r.randrange(0x8000), r.randrange(0x10000), p, 160, "random"))
    return rows


FILES = [
    ("crc", crc_rows, "bytes = their check (2, big-endian)"),
    ("escaped_length", length_rows, "bytes = number of 01 or 00, length (4)"),
    ("escape", escape_rows, "room (4), bytes = number of 01 or 00, bytes written (4), the buffer, filled with ee before"),
    ("unescaped_byte", unescaped_rows, "code = number of 01 or 00, byte (2)"),
    ("gateway_id", id_rows, "number (2) = number of 01 or 00, ID (2)"),
    ("address", address_rows, "two bytes = 01 for From or 00 for To, ID (2)"),
    ("number", number_rows, "01 for From or 00 for To, ID (2) = number of 01 or 00, the 16 bits (2), number of 01 or 00, two bytes"),
    ("encode", encode_rows, "01 for From or 00 for To, ID (2), type (2), room (4), payload = number of 01 or 00, bytes written (4), the buffer, filled with ee before"),
]


def main():
    here = os.path.dirname(os.path.abspath(__file__))
    data = os.path.join(here, "..", "..", "crates", "vectors", "data")
    os.makedirs(data, exist_ok=True)
    for name, rows, form in FILES:
        lines = rows(random.Random(SEED))
        head = ["# Made by tools/vectors/make.py from document 01 alone, seed %d; no code of the project or of the Rust took part." % SEED, "# %s" % form]
        with open(os.path.join(data, name), "w") as f:
            f.write("\n".join(head + lines) + "\n")
        print(name, len(lines))


main()
