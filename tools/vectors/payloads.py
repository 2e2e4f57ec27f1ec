#!/usr/bin/env python3
"""Writes the vectors of crates/vectors_payloads/data: rows `KIND ANSWER INPUT RULE`, numbers and bytes in hexadecimal, `-` for no byte.

The answers come from Python alone: its own UTF-8 decoder, and the few lines below for packet areas, status words, packet numbers and slot counters.
Run from the repository's root: python3 tools/vectors/payloads.py
"""
import os
import random
import struct

OUT = 'crates/vectors_payloads/data'


def row(letter, answer, data, rule):
    return f'{letter} {answer:x} {bytes(data).hex() or "-"} {rule}\n'


def write(name, about, rows):
    head = f'# {about}\n# made by tools/vectors/payloads.py; a row is letter, answer, input, rule\n'
    seen, out = set(), []
    for r in rows:
        key = tuple(r.split(' ')[:3])
        if key not in seen:
            seen.add(key)
            out.append(r)
    with open(os.path.join(OUT, name), 'w') as f:
        f.write(head + ''.join(out))


# UTF-8: letter u

def utf8_row(data, rule):
    try:
        bytes(data).decode('utf-8', 'strict')
        good = 1
    except UnicodeDecodeError:
        good = 0
    return row('u', good, data, rule)


PRODUCTIONS = [  # RFC 3629, section 4, in its order
    [(0x00, 0x7f)],
    [(0xc2, 0xdf), (0x80, 0xbf)],
    [(0xe0, 0xe0), (0xa0, 0xbf), (0x80, 0xbf)],
    [(0xe1, 0xec), (0x80, 0xbf), (0x80, 0xbf)],
    [(0xed, 0xed), (0x80, 0x9f), (0x80, 0xbf)],
    [(0xee, 0xef), (0x80, 0xbf), (0x80, 0xbf)],
    [(0xf0, 0xf0), (0x90, 0xbf), (0x80, 0xbf), (0x80, 0xbf)],
    [(0xf1, 0xf3), (0x80, 0xbf), (0x80, 0xbf), (0x80, 0xbf)],
    [(0xf4, 0xf4), (0x80, 0x8f), (0x80, 0xbf), (0x80, 0xbf)],
]


def utf8_rows():
    yield utf8_row(b'', 'no byte')
    for text in ('A\u2262\u0391.', '\ud55c\uad6d\uc5b4', '\u65e5\u672c\u8a9e', '\ufeff\U000233b4'):
        yield utf8_row(text.encode(), 'RFC 3629, section 7, examples')
    for p in PRODUCTIONS:
        for low in (True, False):
            base = [r[0] if low else r[1] for r in p]
            for i, (lo, hi) in enumerate(p):
                for b in (lo - 1, lo, lo + 1, hi - 1, hi, hi + 1):
                    if 0 <= b <= 255:
                        yield utf8_row(base[:i] + [b] + base[i + 1:], 'a boundary of a production')
            for k in range(1, len(p)):
                yield utf8_row(base[:k], 'truncated')
                yield utf8_row(base[:k] + [0x41], 'truncated, and a character follows')
            yield utf8_row(base + base, 'two characters')
            yield utf8_row(base + [0x80], 'a tail too many')
    for data in ('c080', 'c1bf', 'e08080', 'e09fbf', 'f0808080', 'f08fbfbf', 'c0ae2e2f'):
        yield utf8_row(bytes.fromhex(data), 'overlong')
    for cp in (0xd800, 0xdb7f, 0xdb80, 0xdbff, 0xdc00, 0xdf80, 0xdfff):
        yield utf8_row(chr(cp).encode('utf-8', 'surrogatepass'), 'a surrogate')
    for data in ('f4908080', 'f5808080', 'f7bfbfbf', 'f888808080', 'fc8480808080', 'fe', 'ff'):
        yield utf8_row(bytes.fromhex(data), 'beyond U+10FFFF')
    for b in range(256):
        yield utf8_row([b], 'one byte')
    rng = random.Random(3629)
    edges = sorted({e for p in PRODUCTIONS for lo, hi in p for e in (lo, hi)} | {0xc0, 0xc1, 0xf5, 0xff})
    for _ in range(600):
        yield utf8_row([rng.choice(edges) for _ in range(rng.randrange(2, 9))], 'edges at random')


# Packet areas: letter p, whole packets * 16 + too short

def area_row(area, rule):
    packets, at, short = 0, 0, 0
    while at < len(area):
        if len(area) - at < 7 or len(area) - at < 7 + area[at + 6]:
            short = 1
            break
        packets += 1
        at += 7 + area[at + 6]
    return row('p', packets * 16 + short, area, rule)


def packet(n):
    return bytes([0x31, 0x00, 0x02, 0x12, 0x34, 0x55, n]) + bytes((7 * i) & 255 for i in range(n))


def area_rows():
    yield area_row(b'', 'no packet')
    for n in (0, 1, 2, 13, 100, 242, 243):
        whole = packet(n)
        yield area_row(whole, 'one packet, to the end')
        yield area_row(whole + b'\x00', 'one byte more')
        yield area_row(whole[:-1], 'one byte less')
    for k in range(1, 7):
        yield area_row(packet(0)[:k], 'a header cut short')
    yield area_row(packet(0) * 5, 'five headers with no data')
    yield area_row(packet(1) + packet(2) + packet(3), 'three packets')
    yield area_row(packet(1) + packet(2) + packet(3)[:-2], 'the third cut short')
    yield area_row(packet(5)[:6] + b'\xff' + packet(5)[7:], 'a data length of ff')
    rng = random.Random(7)
    for _ in range(60):
        area = b''.join(packet(rng.randrange(0, 30)) for _ in range(rng.randrange(0, 7)))
        yield area_row(area[:rng.randrange(len(area) + 1)], 'cut at random')


# Status words: letter s, the length needed or 16 (22) if refused

def needed(status):
    if status & 0xe0 != 0xe0:
        return 22
    n = 2
    for bit, size in ((0x01, 1), (0x02, 1), (0x04, 2), (0x08, 2)):
        if status & bit == 0:
            n += size
    return n + (2 if status & 0x10 == 0 else 1) + 2


def status_rows():
    marked = {0x00e0: 'needs 12, marked', 0xffff: 'needs 5, marked', 0x00df: 'refused 22, marked'}
    for status in list(marked) + list(range(256)) + [0xff00 | s for s in range(256)]:
        yield row('s', needed(status), struct.pack('>H', status), marked.get(status, 'every low byte'))


# Receive responses: letter r, input old number and payload; area << 32 | number << 16 | slot counter, or refusal << 48 | value

def interpreted(lo, old):
    hi = old >> 8
    return ((hi if lo >= (old & 255) else (hi + 1) & 255) << 8) | lo


def response_row(old, payload, rule):
    data = struct.pack('>H', old) + payload
    if len(payload) < 2:
        return row('r', 23 << 48 | 5, data, rule)
    status = struct.unpack('>H', payload[:2])[0]
    n = needed(status)
    if n == 22:
        return row('r', 22 << 48 | status, data, rule)
    if len(payload) < n:
        return row('r', 23 << 48 | n, data, rule)
    slot = struct.unpack('>H', payload[n - 2:n])[0]
    if status & 0x10:
        number = interpreted(payload[n - 3], old)
    else:
        number = struct.unpack('>H', payload[n - 4:n - 2])[0]
    return row('r', n << 32 | number << 16 | slot, data, rule)


def response_rows():
    rng = random.Random(149)
    for low in range(256):
        status = bytes([rng.randrange(256), low])
        body = bytes(rng.randrange(256) for _ in range(12))
        old = rng.randrange(65536)
        n = needed(low)
        yield response_row(old, status + body, 'every low byte of the status word')
        if n != 22:
            for k in (n - 1, n):
                yield response_row(old, (status + body)[:k], 'just as long as needed, and one less')
    yield response_row(0x1234, b'', 'no byte')
    yield response_row(0x1234, b'\x00', 'one byte')


# Packet numbers: letter n, input low byte and old number

def number_rows():
    marked = [(0x05, 0x1205), (0x04, 0x1205), (0x00, 0xffff)]
    for lo, old in marked:
        yield row('n', interpreted(lo, old), bytes([lo]) + struct.pack('>H', old), 'marked')
    for old in (0x0000, 0x0001, 0x007f, 0x00ff, 0x0100, 0x1234, 0x80ff, 0xfeff, 0xff00, 0xff80, 0xffff):
        for lo in sorted({0, 1, (old - 1) & 255, old & 255, (old + 1) & 255, 254, 255}):
            yield row('n', interpreted(lo, old), bytes([lo]) + struct.pack('>H', old), 'below, at and above the old low byte')


# Slot counters: letter c, input the present counter and the past one; slots since, or 10000 and the bad slot number. Letter k: input a counter; epoch << 16 | number, and 40000 more if bad

def since(now, past):
    for c in (now, past):
        if c & 0x3fff > 11999:
            return 0x10000 | (c & 0x3fff)
    a, b = ((c >> 14) * 12000 + (c & 0x3fff) for c in (now, past))
    return (a - b) % 48000 or 48000


def slot_rows():
    places = (0, 1, 5999, 11998, 11999, 12000, 0x3fff)
    grid = [e << 14 | p for e in range(4) for p in places]
    for now in grid:
        bad = 0x40000 if now & 0x3fff > 11999 else 0
        yield row('k', bad | (now >> 14) << 16 | (now & 0x3fff), struct.pack('>H', now), 'epoch and slot number')
        for past in grid:
            yield row('c', since(now, past), struct.pack('>HH', now, past), 'every pair of a grid')


write('utf8', 'texts: 1 if UTF-8, by the UTF-8 decoder of Python', utf8_rows())
write('areas', 'packet areas: 10 for each whole packet, and 1 if the area ends too short', area_rows())
write('statuses', 'status words: the length needed, or 16 (22) if refused', status_rows())
write('responses', 'receive responses after a packet number: area, number and slot counter, or refusal and value', response_rows())
write('numbers', 'packet numbers from a low byte and the number before', number_rows())
write('slots', 'slot counters: slots since, epoch and slot number', slot_rows())
