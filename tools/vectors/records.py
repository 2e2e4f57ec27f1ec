#!/usr/bin/env python3
"""Writes the rows of crates/vectors_records/data, and the answers that are expected of them.

The rules are those of document 01, "Event record" and "Numbers handed back", written down here once more and in Python alone.
A file starts with a line that says what it is. A row is 16 bytes and then its parts:
    op (1), answer (2), gateway (2), room or place (2), request type (1), response type (1),
    length of the first part (2), of the second (2), of the third (2), of the rule (1); first, second, third, rule.
Numbers are big-endian. Op 0 asks whether the first part is sound (answer 1 or 0); op 9 what stands at a place of it (answer: where the record ends,
or ffff); ops 1 to 8 encode that kind into a buffer of ee bytes with that room: the answer is the length, or ff00 and the refusal, and the third
part is the whole buffer afterwards.
Run from the repository's root: python3 tools/vectors/records.py
"""
import os
import random

OUT = 'crates/vectors_records/data'
LIMIT = 1024


def be(n):
    return bytes([n >> 8, n & 255])


def record(kind, gateway, body, version=1):
    rest = bytes([version, kind]) + be(gateway) + body
    return be(len(rest)) + rest


def is_text(b):
    try:
        b.decode('utf-8', 'strict')
    except UnicodeDecodeError:
        return False
    return len(b) > 0


def sound_body(kind, b):
    if kind == 8:
        return 3 <= len(b) and 3 + b[1] <= len(b) and len(b) - 1 <= LIMIT
    if len(b) > LIMIT:
        return False
    if kind in (1, 4, 5):
        return b == b''
    if kind == 2:
        return len(b) == 8
    if kind == 3:
        return is_text(b)
    if kind == 6:
        return len(b) == 3 and b[2] in (0, 1)
    if kind == 7:
        return 7 <= len(b) == 7 + b[6]
    return False


def sound(r):
    if len(r) < 6 or len(r) != 2 + r[0] * 256 + r[1]:
        return False
    return r[2] == 1 and r[4] * 256 + r[5] <= 0x7fff and sound_body(r[3], r[6:])


def stands(log, at):
    if len(log) < at + 2:
        return None
    r = log[at:at + 2 + log[at] * 256 + log[at + 1]]
    return at + len(r) if sound(r) else None


def row(op, answer, rule, first=b'', second=b'', third=b'', gateway=0, room=0, asked=0, answered=0):
    rule = rule.encode()
    assert len(rule) < 256
    return (bytes([op]) + be(answer) + be(gateway) + be(room) + bytes([asked, answered]) + be(len(first)) + be(len(second))
            + be(len(third)) + bytes([len(rule)]) + first + second + third + rule)


def write(name, about, rows):
    data = f'# {about}; made by tools/vectors/records.py\n'.encode() + b''.join(rows)
    assert len(data) < 65536, (name, len(data))
    with open(os.path.join(OUT, name), 'wb') as f:
        f.write(data)
    return f'{name}: {len(rows)} of {len(rows)} rows agree\n'


def text(n):
    return (b'v1.0 \xc3\xa9\xe2\x82\xac' * 200)[:n] if n < 5 else b'v' * (n - 3) + b'\xe2\x82\xac'


def packet(n):
    return bytes([0x31, 0, 1, 0x80, 2, 7, n]) + bytes(i & 255 for i in range(n))


def command(q, p):
    return bytes([0x06, len(q)]) + q + bytes([0x07]) + p


GOOD = [(1, b''), (2, b'\x04\xc0\x5b\x30\x00\x02\xbe\x16'), (3, b'Mgate Version G8.59'), (4, b''), (5, b''), (6, b'\x12\x34\x00'), (6, b'\xff\xff\x01'),
        (7, packet(0)), (7, packet(1)), (7, packet(255)), (8, command(b'', b'')), (8, command(b'\x01\x02', b'\x03\x04\x05')),
        (8, command(bytes(255), b'\x09'))]


def judged(r, rule):
    return row(0, int(sound(r)), rule, r)


def soundness():
    rows = [judged(bytes.fromhex('000401041201'), 'enumeration ended at 1201')]
    for kind, body in GOOD:
        rows.append(judged(record(kind, 0x1201, body), f'kind {kind}'))
    for kind in (0, 9, 16, 255):
        rows.append(judged(record(kind, 0x1201, b''), 'kind not known'))
    for v in (0, 2, 3, 255):
        rows.append(judged(record(4, 0x1201, b'', v), 'version not known'))
    for g in (0x0000, 0x7ffe, 0x7fff, 0x8000, 0x8001, 0xffff):
        rows.append(judged(record(5, g, b''), f'gateway {g:04x}'))
    for n in range(0, 7):
        rows.append(judged(bytes.fromhex('00040104120100')[:n], f'{n} bytes of a record'))
    rows.append(judged(b'\0\0', 'a length of 0'))
    for d in (-1, 0, 1):
        r = record(3, 0x1201, b'text')
        rows.append(judged(be(len(r) - 2 + d) + r[2:], f'length off by {d}'))
    for kind in (1, 4, 5):
        rows.append(judged(record(kind, 1, b'\0'), f'kind {kind} with a body'))
    for n in (0, 7, 8, 9, 10):
        rows.append(judged(record(2, 1, bytes(n)), f'long address of {n} bytes'))
    for n in (0, 1, 1023, 1024, 1025):
        rows.append(judged(record(3, 1, text(n)), f'text of {n} bytes'))
    for b in ('80', 'c0af', 'c1bf', 'c2', 'e08080', 'e0a080', 'eda080', 'ed9fbf', 'efbfbf', 'f08fbfbf', 'f0908080', 'f48fbfbf', 'f4908080', 'f5808080', '00'):
        rows.append(judged(record(3, 1, bytes.fromhex(b)), f'text {b}'))
    for b in ('', '1234', '12340001', '123400', '123401', '123402', '1234ff'):
        rows.append(judged(record(6, 1, bytes.fromhex(b)), f'slot counter and mark {b}'))
    for n in (0, 1, 254, 255):
        p = packet(n)
        for b, what in ((p[:-1], 'a byte short'), (p, 'whole'), (p + b'\0', 'with a byte more'), (p + p, 'and a second')):
            rows.append(judged(record(7, 1, b), f'packet of {n} data bytes, {what}'))
    for n in (0, 1, 5, 6):
        rows.append(judged(record(7, 1, bytes(n)), f'{n} bytes are no packet'))
    for n in (0, 1, 2, 3):
        rows.append(judged(record(8, 1, bytes(n)), f'command of {n} bytes'))
    for d in (-1, 0, 1):
        b = command(b'abc', b'')
        rows.append(judged(record(8, 1, b[:1] + bytes([b[1] + d]) + b[2:]), f'request length off by {d}'))
    for n in (1024, 1025, 1026):
        rows.append(judged(record(8, 1, command(b'q' * 20, b'p' * (n - 23))), f'command body of {n} bytes'))
        rows.append(judged(record(8, 1, command(b'q' * 255, b'p' * (n - 258))), f'command body of {n} bytes, 255 of them asked'))
    return rows


def damaged(rng):
    rows = []
    for i in range(400):
        kind, body = rng.choice(GOOD)
        r = bytearray(record(kind, rng.choice((0, 1, 0x1201, 0x7fff)), body))
        what = rng.choice(('changed', 'cut', 'lost', 'doubled', 'grown'))
        at = rng.randrange(min(len(r), 12))
        if what == 'changed':
            r[at] = rng.choice((0, 1, 2, r[at] ^ 1, r[at] ^ 0x80, rng.randrange(256)))
        elif what == 'cut':
            del r[rng.randrange(len(r)):]
        elif what == 'lost':
            del r[at]
        elif what == 'doubled':
            r.insert(at, r[at])
        else:
            r.append(rng.randrange(256))
        rows.append(judged(bytes(r), f'damaged: {what}'))
    return rows


def places(rng):
    log = b''
    for kind, body in GOOD[:9]:
        log += record(kind, 0x0102, body) + bytes(rng.randrange(3))
    cut = record(2, 0x0102, bytes(8))
    log += cut[:9] + record(4, 0x0102, b'') + b'\x00\x04\x01'
    rows = []
    for at in range(len(log) + 3):
        end = stands(log, at)
        rows.append(row(9, 0xffff if end is None else end, f'place {at}', log, room=at))
    return rows


def encoded(kind, gateway, room, rule, first=b'', second=b'', asked=0, answered=0):
    body = bytes([asked, len(second) & 255]) + second + bytes([answered]) + first if kind == 8 else first
    out = bytes([0xee]) * room
    r = record(kind, gateway, body) if len(body) < 65000 else b''
    if gateway > 0x7fff:
        answer = 0xff00 + 13
    elif not sound_body(kind, body) or len(second) > 255:
        answer = 0xff00 + 41
    elif room < len(r):
        answer = 0xff00 + 40
    else:
        answer = len(r)
        out = r + out[len(r):]
    return row(kind, answer, rule, first, second, out, gateway, room, asked, answered)


def encoding():
    rows = []
    for kind, body in GOOD:
        first, second, asked, answered = body, b'', 0, 0
        if kind == 8:
            asked, n = body[0], body[1]
            second, answered, first = body[2:2 + n], body[2 + n], body[3 + n:]
        size = 6 + len(body)
        for gateway in (0x0000, 0x1201, 0x7fff, 0x8000, 0xffff):
            for room in (0, size - 1, size, size + 1):
                if gateway in (0x1201, 0x8000) or room == size and size < 100:
                    rows.append(encoded(kind, gateway, room, f'kind {kind} at {gateway:04x}, room {room} for {size}', first, second, asked, answered))
    for n in (0, 7, 9):
        for room in (0, 40):
            rows.append(encoded(2, 1, room, f'41 before 40: long address of {n} bytes', bytes(n)))
            rows.append(encoded(2, 0x8000, room, f'13 before 41: long address of {n} bytes', bytes(n)))
    for n in (0, 1023, 1024, 1025):
        rows.append(encoded(3, 1, 1100, f'text of {n} bytes', text(n)))
    rows.append(encoded(3, 1, 40, 'text that is not UTF-8', b'\xff'))
    for n in (0, 6, 8):
        rows.append(encoded(7, 1, 40, f'{n} bytes for a packet of 7', (packet(0) + b'\0')[:n]))
    for n in (254, 255, 256, 257):
        rows.append(encoded(8, 1, 400, f'request of {n} bytes', b'p', b'q' * n, 6, 7))
    for n in (1024, 1025, 1026):
        rows.append(encoded(8, 1, 1100, f'command body of {n} bytes', b'p' * (n - 23), b'q' * 20, 6, 7))
    rows.append(encoded(8, 1, 0, '41 before 40: command too long', b'p' * 1100, b'q', 6, 7))
    return rows


def main():
    rng = random.Random(2026)
    told = write('sound', 'whether a record is sound', soundness())
    told += write('damaged', 'records that were damaged', damaged(rng))
    told += write('places', 'what stands at the places of a log', places(rng))
    rows = encoding()
    told += write('encoded', 'records of events', rows)
    with open('crates/vectors_records/stdout', 'w') as f:
        f.write(told)
    print(told, end='')


main()
