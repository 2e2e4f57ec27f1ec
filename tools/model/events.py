#!/usr/bin/env python3
"""An independent model of 01, "Transport", "Numbers handed back" and "Event record": what the sound frames of a stream do to the tables and
counters, and the event log. The frames come from the model of the grammar, ledger.py. It follows the paper, and for the counters the names, their
order and which is raised (`Counters` of the source document transport/receiver.rs); the proved code is not consulted.

    events.py FILE                    writes the event log of the bytes of FILE ('-': standard input)
    events.py --ledger FILE           prints the ledger's nine lines and the 33 counters
    events.py --answers FILE          prints how often each refusal, each event and no event came
    events.py --sound FILE            FILE is an event log: says how many records of each kind it has, or where it stops being sound
    events.py --small                 writes a small stream that gives each kind of record: crates/events/stdin
    events.py --make SEED COUNT       writes a random stream of COUNT frames that meets every refusal that a stream can
    events.py --against PROGRAM SEED STREAMS COUNT
                                      compares PROGRAM, which is crates/events, with the model on so many random streams, log and ledger: says how
                                      often each answer came and that there is no difference, or which stream shows one
"""
import collections
import os
import random
import subprocess
import sys
import tempfile

sys.path.insert(0, os.path.dirname(os.path.abspath(__file__)))
import ledger

COUNTERS = """unhandled_frame_type invalid_receive_request receive_requests invalid_receive_responses receive_response_from_unknown_gateway
receive_responses receive_packets receive_packet_too_short invalid_command_requests retransmitted_command_requests command_requests
invalid_command_responses retransmitted_command_responses command_responses ping_requests ping_responses enumeration_start_requests
invalid_enumeration_start_request enumeration_start_responses enumeration_requests enumeration_responses invalid_enumeration_responses
version_requests version_responses invalid_version_responses enumeration_end_requests enumeration_end_responses
invalid_enumeration_end_responses assign_gateway_id_requests assign_gateway_id_responses identify_requests identify_responses
invalid_identify_responses""".split()

# link.rs, `Type`: the eighteen named types, and the counter of an accepted frame and of an invalid one
RECEIVE_REQUEST, RECEIVE_RESPONSE, COMMAND_REQUEST, COMMAND_RESPONSE = 0x0148, 0x0149, 0x0B0F, 0x0B10
START_REQUEST, ENUMERATION_RESPONSE, IDENTIFY_RESPONSE, VERSION_RESPONSE, END_RESPONSE = 0x0014, 0x0039, 0x003B, 0x000B, 0x0006
ACCEPTED = {
    RECEIVE_REQUEST: "receive_requests", RECEIVE_RESPONSE: "receive_responses", COMMAND_RESPONSE: "command_responses",
    START_REQUEST: "enumeration_start_requests", ENUMERATION_RESPONSE: "enumeration_responses", IDENTIFY_RESPONSE: "identify_responses",
    VERSION_RESPONSE: "version_responses", END_RESPONSE: "enumeration_end_responses", 0x0B00: "ping_requests", 0x0B01: "ping_responses",
    0x0015: "enumeration_start_responses", 0x0038: "enumeration_requests", 0x003C: "assign_gateway_id_requests",
    0x003D: "assign_gateway_id_responses", 0x003A: "identify_requests", 0x000A: "version_requests", 0x0E02: "enumeration_end_requests",
}
INVALID = {
    RECEIVE_REQUEST: "invalid_receive_request", RECEIVE_RESPONSE: "invalid_receive_responses", COMMAND_REQUEST: "invalid_command_requests",
    COMMAND_RESPONSE: "invalid_command_responses", START_REQUEST: "invalid_enumeration_start_request",
    ENUMERATION_RESPONSE: "invalid_enumeration_responses", IDENTIFY_RESPONSE: "invalid_identify_responses",
    VERSION_RESPONSE: "invalid_version_responses", END_RESPONSE: "invalid_enumeration_end_responses",
}
NAMED = set(ACCEPTED) | {COMMAND_REQUEST}
TO = {RECEIVE_REQUEST, COMMAND_REQUEST, START_REQUEST}
FROM = {RECEIVE_RESPONSE, COMMAND_RESPONSE, ENUMERATION_RESPONSE, IDENTIFY_RESPONSE, VERSION_RESPONSE, END_RESPONSE}
NUMBERS, SEQUENCES, COMMANDS = 32, 32, 64
HELD = 245  # the most payload bytes of a waiting command


def number(data):
    return int.from_bytes(data, "big")


def is_text(data):
    try:
        return len(data.decode("utf-8", "strict")) > 0
    except UnicodeDecodeError:
        return False


def ones(n):
    return bin(n).count("1")


def needed(status):
    return 12 - ones(status & 0x13) - 2 * ones(status & 0x0C)


def packets(area):
    """The whole packets of an area, in order, and the bytes that are left."""
    out = []
    while len(area) >= 7 and len(area) >= 7 + area[6]:
        size = 7 + area[6]
        out.append(area[:size])
        area = area[size:]
    return out, area


class Table:
    """So many places, each free (None) or holding a key and a value. Of a key held twice the first place counts; a new entry goes to the first
    free place (docs/DECISIONS.md)."""

    def __init__(self, size):
        self.places = [None] * size

    def place(self, key):
        return next((i for i, held in enumerate(self.places) if held and held[0] == key), None)

    def full(self):
        return None not in self.places

    def __contains__(self, key):
        return self.place(key) is not None

    def __getitem__(self, key):
        return self.places[self.place(key)][1]

    def get(self, key):
        return self[key] if key in self else None

    def __setitem__(self, key, value):
        i = self.place(key)
        self.places[self.places.index(None) if i is None else i] = key, value

    def pop(self, key):
        i = self.place(key)
        value, self.places[i] = self.places[i][1], None
        return value


class Receiver:
    def __init__(self):
        self.numbers, self.sequences, self.commands = Table(NUMBERS), Table(SEQUENCES), Table(COMMANDS)
        self.counters = collections.Counter()

    def add(self, name, n=1):
        self.counters[name] = (self.counters[name] + n) % 2**64

    def over(self):
        """12: a length of the state is over its limit. Only a waiting command has one."""
        return any(held and len(held[1][1]) > HELD for held in self.commands.places)

    def reset(self):
        """12, or None and the counters at 0."""
        if self.over():
            return 12
        self.counters.clear()
        return None

    def refusal(self, sender, gateway, kind, p):
        """The first row of 01's table that holds, in its order, or None: its number, and the counter that it raises."""
        bad = INVALID.get(kind)
        if self.over():
            return 12, None
        if gateway > 0x7FFF:
            return 13, None
        if len(p) > 250:
            return 32, None
        if kind not in NAMED:
            return 31, "unhandled_frame_type"
        if kind in TO and sender or kind in FROM and not sender or kind == START_REQUEST and gateway != 0:
            return 20, bad
        if kind == RECEIVE_RESPONSE and gateway not in self.numbers:
            return 24, "receive_response_from_unknown_gateway"
        exact = {RECEIVE_REQUEST: 5, ENUMERATION_RESPONSE: 10, IDENTIFY_RESPONSE: 10, START_REQUEST: 6}
        if kind in exact and len(p) != exact[kind] or kind in (COMMAND_REQUEST, COMMAND_RESPONSE) and len(p) < 5:
            return 21, bad
        if kind == RECEIVE_RESPONSE:
            if len(p) < 2:
                return 23, bad
            if number(p[:2]) & 0xE0 != 0xE0:
                return 22, bad
            if len(p) < needed(number(p[:2])):
                return 23, bad
        if kind == START_REQUEST and p[4] & 0x80:
            return 28, bad
        if kind == VERSION_RESPONSE and not is_text(p):
            return 29, bad
        if kind == COMMAND_REQUEST and gateway not in self.sequences and self.sequences.full():
            return 26, None
        if kind == COMMAND_REQUEST and (gateway, p[4]) not in self.commands and self.commands.full():
            return 27, None
        if kind == RECEIVE_REQUEST and gateway not in self.numbers and self.numbers.full():
            return 25, None
        if kind == COMMAND_RESPONSE and (gateway, p[4]) not in self.commands:
            return 30, "retransmitted_command_responses"
        return None

    def response(self, gateway, p):
        """A good receive response: the fields that its status word has, the packet number, the slot counter, the packets."""
        status, at, before = number(p[:2]), 2, self.numbers[gateway]
        for bit, size in ((0x01, 1), (0x02, 1), (0x04, 2), (0x08, 2)):
            at += 0 if status & bit else size
        if status & 0x10:
            low, high = p[at], before >> 8
            new = (high if low >= before & 0xFF else (high + 1) % 256) * 256 + low
            at += 1
        else:
            new = number(p[at : at + 2])
            at += 2
        slot, area = p[at : at + 2], p[at + 2 :]
        assert at + 2 == needed(status)
        self.numbers[gateway] = new
        whole, rest = packets(area)
        self.add("receive_packets", len(whole))
        self.add("receive_packet_too_short", bool(rest))
        return [(6, gateway, slot + bytes([new == before]))] + [(7, gateway, packet) for packet in whole]

    def step(self, sender, gateway, kind, p):
        """What a frame gives: a refusal's number, or the records of its event."""
        found = self.refusal(sender, gateway, kind, p)
        if found:
            if found[1]:
                self.add(found[1])
            return found[0]
        if kind == COMMAND_REQUEST:
            again = self.sequences.get(gateway) == p[4]
            self.add("retransmitted_command_requests" if again else "command_requests")
            self.sequences[gateway] = p[4]
            self.commands[gateway, p[4]] = p[3], p[5:]
            return []
        self.add(ACCEPTED[kind])
        if kind == RECEIVE_REQUEST:
            self.numbers[gateway] = number(p[2:4])
            return [(5, gateway, b"")]
        if kind == RECEIVE_RESPONSE:
            return self.response(gateway, p)
        if kind == COMMAND_RESPONSE:
            asked, request = self.commands.pop((gateway, p[4]))
            return [(8, gateway, bytes([asked, len(request)]) + request + p[3:4] + p[5:])]
        if kind == START_REQUEST:
            return [(1, number(p[4:6]), b"")]
        if kind in (ENUMERATION_RESPONSE, IDENTIFY_RESPONSE):
            return [(2, gateway, p[:8])]
        if kind == VERSION_RESPONSE:
            return [(3, gateway, p)]
        if kind == END_RESPONSE:
            return [(4, gateway, b"")]
        return []


def record(kind, gateway, body):
    follows = bytes([1, kind]) + gateway.to_bytes(2, "big") + body
    return len(follows).to_bytes(2, "big") + follows


def steps(s):
    """The receiver after a stream, and what each sound frame gave."""
    r, given = Receiver(), []
    nine, bodies = ledger.ledger(s)
    for body in bodies:
        address = number(body[:2])
        given.append(r.step(address >= 0x8000, address % 0x8000, number(body[2:4]), body[4:]))
    return r, given, nine


def log(s):
    return b"".join(record(*x) for given in steps(s)[1] if isinstance(given, list) for x in given)


def sound_body(kind, b):
    """01, "Event record": whether a body is one that a record of this kind may have."""
    size = len(b) - 1 if kind == 8 else len(b)
    if size > 1024:
        return False
    return {
        1: lambda: not b, 2: lambda: len(b) == 8, 3: lambda: is_text(b), 4: lambda: not b, 5: lambda: not b,
        6: lambda: len(b) == 3 and b[2] <= 1, 7: lambda: packets(b) == ([b], b""), 8: lambda: len(b) >= 3 and 3 + b[1] <= len(b),
    }.get(kind, lambda: False)()


def sound(data):
    """How many records of each kind a log has, and where it stops being sound, or its length."""
    at, kinds = 0, collections.Counter()
    while at < len(data):
        end = at + 2 + number(data[at : at + 2])
        if end < at + 6 or end > len(data) or data[at + 2] != 1 or data[at + 4] > 0x7F or not sound_body(data[at + 3], data[at + 6 : end]):
            break
        kinds[data[at + 3]] += 1
        at = end
    return kinds, at


def encoded(sender, gateway, kind, payload):
    """01, "On the wire"."""
    body = (gateway + 0x8000 * sender).to_bytes(2, "big") + kind.to_bytes(2, "big") + payload
    body += ledger.check(body).to_bytes(2, "little")
    escaped = b"".join(bytes([0x7E, ledger.ESCAPES.index(b)]) if b in ledger.ESCAPES else bytes([b]) for b in body)
    return (b"\xff\x7e\x07" if sender else b"\x00\xff\xff\x7e\x07") + escaped + b"\x7e\x08"


def packet(kind, data):
    return bytes([kind, 0, 2, 0x34, 0x56, 9, len(data)]) + data


def small():
    """Each kind of record once and more; a refusal between; noise; a frame that stays open."""
    g = 0x1201
    area = packet(0x31, b"") + packet(0x32, bytes(range(0x7E, 0x84))) + b"\x31\x00"
    return b"".join([
        encoded(False, 0, START_REQUEST, b"\x37\x24\x9a\x0f\x12\x35"),
        encoded(True, 0x1235, ENUMERATION_RESPONSE, bytes.fromhex("04c05b4000a2346f") + b"\x12\x35"),
        encoded(True, g, VERSION_RESPONSE, "Mgate Version G8.59 \u00b5".encode()),
        encoded(True, g, VERSION_RESPONSE, b"\xc0\x80"),
        b"\x41\x7e\x00",
        encoded(False, 0, START_REQUEST, b"\x37\x24\x9a\x0f\x92\x35"),
        encoded(True, g, IDENTIFY_RESPONSE, bytes.fromhex("04c05b3000023416") + b"\x12\x01"),
        encoded(True, g, END_RESPONSE, b""),
        encoded(False, g, RECEIVE_REQUEST, b"\x00\x01\x12\x05\x00"),
        encoded(True, g, RECEIVE_RESPONSE, bytes.fromhex("00ff057e24") + area),
        encoded(True, g, RECEIVE_RESPONSE, bytes.fromhex("00e0010203040506" "12061ffe")),
        encoded(True, 0x1202, RECEIVE_RESPONSE, bytes.fromhex("00ff057e24")),
        encoded(False, g, COMMAND_REQUEST, b"\x00\x00\x00\x06\x7e" + b"\x01\x23"),
        encoded(True, g, COMMAND_RESPONSE, b"\x00\x0e\x00\x07\x7e" + bytes(3)),
        encoded(True, g, COMMAND_RESPONSE, b"\x00\x0e\x00\x07\x7e" + bytes(3)),
        encoded(False, g, COMMAND_REQUEST, b"\x00\x00\x00\x26\x7f"),
        encoded(True, g, COMMAND_RESPONSE, b"\x00\x0e\x00\x27\x7f"),
        encoded(False, g, 0x0B00, b""),
        encoded(True, g, 0x1234, b"\x01"),
        b"\x00\xff\xff\x7e\x07\x12",
    ])


def payload_of(r, kind):
    if r.random() < 0.04:
        return bytes(r.randrange(256) for _ in range(r.randrange(252)))
    if kind == RECEIVE_REQUEST:
        return bytes([0, 1]) + r.randrange(0x1200, 0x1203).to_bytes(2, "big") + b"\x00"
    if kind == RECEIVE_RESPONSE:
        status = r.choice([0x00E0, 0x00FF, 0x00EE, 0x00FE, r.randrange(0x10000) | 0xE0, r.randrange(0x10000)])
        head = status.to_bytes(2, "big") + bytes(r.choice([0, 1, 2, 0x12, 0xFF, r.randrange(256)]) for _ in range(max(0, needed(status) - 2 - (r.random() < 0.1))))
        return head + b"".join(packet(r.randrange(256), bytes(r.randrange(256) for _ in range(r.choice([0, 1, 13, 40])))) for _ in range(r.randrange(4))) + bytes(r.choice([0, 0, 3]))
    if kind in (COMMAND_REQUEST, COMMAND_RESPONSE):
        return bytes([0, r.randrange(3), 0, r.randrange(256), r.randrange(4)]) + bytes(r.randrange(256) for _ in range(r.choice([0, 2, 30, 245])))
    if kind == START_REQUEST:
        return bytes(4) + bytes([r.choice([0x12, 0x92]), r.randrange(256)])
    if kind in (ENUMERATION_RESPONSE, IDENTIFY_RESPONSE):
        return bytes(r.randrange(256) for _ in range(r.choice([9, 10, 10, 10, 11])))
    if kind == VERSION_RESPONSE:
        return r.choice([b"", b"G8.59", "\u00e9\u20ac\U0001f600".encode(), b"\xed\xa0\x80", b"\xf4\x90\x80\x80", bytes([65] * 250)])
    return bytes(r.randrange(4))


def made(seed, count):
    r = random.Random(seed)
    out, kinds = [], sorted(NAMED)
    busy = [RECEIVE_REQUEST, RECEIVE_RESPONSE, RECEIVE_RESPONSE, COMMAND_REQUEST, COMMAND_REQUEST, COMMAND_RESPONSE]
    for i in range(count):
        kind = r.choice(busy) if r.random() < 0.6 else r.choice(kinds + [r.randrange(0x10000)])
        sender = kind in FROM if r.random() < 0.96 else kind not in FROM
        gateway = 0 if kind == START_REQUEST and r.random() < 0.9 else 0x1200 + r.randrange(36 if i > count // 3 else 20)
        frame = encoded(sender, gateway, kind, payload_of(r, kind))
        if r.random() < 0.02:
            frame = frame[: r.randrange(len(frame))] + bytes(r.randrange(256) for _ in range(r.randrange(3)))
        out.append(frame + bytes([0xFF]) * r.randrange(3))
    return b"".join(out)


def answers(s):
    """How often each answer came to a frame."""
    tally = collections.Counter()
    for given in steps(s)[1]:
        tally[f"refusal {given}" if isinstance(given, int) else f"kind {given[0][0]}" if given else "no event"] += 1
    return tally


def books(s):
    r, _, nine = steps(s)
    rows = list(zip(ledger.NAMES, nine)) + [(name, r.counters[name]) for name in COUNTERS]
    return "".join(f"{name} {n}\n" for name, n in rows)


def told(tally):
    return "".join(f"{n:>9}  {name}\n" for name, n in sorted(tally.items()))


def against(program, seed, streams, count):
    tally, records = collections.Counter(), collections.Counter()
    for i in range(seed, seed + streams):
        s = made(i, count)
        with tempfile.NamedTemporaryFile() as f:
            f.write(s)
            f.flush()
            got = subprocess.run([program, f.name], capture_output=True, check=True).stdout
            said = subprocess.run([program, f.name, "--ledger"], capture_output=True, check=True).stdout.decode()
        kinds, end = sound(got)
        if got != log(s) or said != books(s) or end != len(got):
            print(f"DIFFERENCE with the model on the stream of --make {i} {count}")
            return 1
        tally += answers(s)
        records += collections.Counter({f"records of kind {k}": n for k, n in kinds.items()})
    sys.stdout.write(told(tally) + told(records))
    print(f"{sum(tally.values()):>9}  frames by the independent model of 01's step and records: logs, ledgers and counters, no difference")
    return 0


def main(words):
    out = sys.stdout.buffer
    if words == ["--small"]:
        out.write(small())
    elif len(words) == 3 and words[0] == "--make":
        out.write(made(int(words[1]), int(words[2])))
    elif len(words) == 2 and words[0] == "--ledger":
        sys.stdout.write(books(ledger.read(words[1])))
    elif len(words) == 5 and words[0] == "--against":
        return against(words[1], *map(int, words[2:]))
    elif len(words) == 2 and words[0] == "--answers":
        sys.stdout.write(told(answers(ledger.read(words[1]))))
    elif len(words) == 2 and words[0] == "--sound":
        data = ledger.read(words[1])
        kinds, end = sound(data)
        if end != len(data):
            print(f"no sound record at {end} of {len(data)}")
            return 1
        print(f"{sum(kinds.values())} records, all sound, {len(data)} bytes:", ", ".join(f"kind {k} {kinds[k]}" for k in sorted(kinds)))
    elif len(words) == 1 and not words[0].startswith("--"):
        out.write(log(ledger.read(words[0])))
    else:
        print(__doc__, file=sys.stderr)
        return 2
    return 0


if __name__ == "__main__":
    sys.exit(main(sys.argv[1:]))
