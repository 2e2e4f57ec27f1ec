#!/usr/bin/env python3
"""Steps of the transport receiver from states that are made up, which the Rust cannot hold: what the proved side makes of them is held to the
model of 01's step, events.py. 01, "The reading of a stream": a made-up state is answered too, with 12 if a length in it is over its limit, and of a
key held twice the first place counts; "Transport": counters wrap at 2^64.

    states.py MADE SEED COUNT     MADE is the driver's program of that name: says how often each answer came and that there is no difference, or
                                  shows a case that differs

The model knows no arrays. What they mean is docs/DECISIONS.md's: a key of 0 is a free place, a key k + 1 holds k; a waiting command's key is gateway
times 256 plus sequence, and its payload stands in the pool, 245 bytes to a place. Whatever a step does not say, it leaves as it was.
"""
import collections
import os
import random
import struct
import subprocess
import sys

sys.path.insert(0, os.path.dirname(os.path.abspath(__file__)))
import events

STATE = struct.Struct("<32I32H32I32B64I64B64H15680s33Q")
SAID = struct.Struct("<6Q")
PARTS = [("nkeys", 32), ("numbers", 32), ("skeys", 32), ("sequences", 32), ("ckeys", 64), ("ctypes", 64), ("clengths", 64), ("pool", 1), ("counters", 33)]
TOP = 2**64 - 1
HELD = events.HELD


def taken_apart(data):
    flat, at, state = STATE.unpack(data), 0, {}
    for name, size in PARTS:
        state[name] = flat[at] if name == "pool" else list(flat[at : at + size])
        at += size
    return state


def packed(state):
    return STATE.pack(*[x for name, _ in PARTS for x in ([state[name]] if name == "pool" else state[name])])


# ---- what is made up


def made_state(r, gateways):
    """Tables from empty to full, keys held twice and keys that no frame names, lengths at their limit, left-over values at free places, counters about
    to wrap."""
    free = r.choice([0, 0, 0.05, 0.5, 0.9, 1])
    known = r.choice([0, 0.1, 0.5, 0.9])

    def keys(size, whole):
        out = []
        for _ in range(size):
            other = r.choice([1, 2**32 - 1, 0x8001, r.randrange(1, 2**32), r.randrange(1, 0x8001)])
            out.append(0 if r.random() < free else whole() + 1 if r.random() < known else other)
        return out

    state = {
        "nkeys": keys(32, lambda: r.choice(gateways)),
        "numbers": [r.choice([0, 0x1205, 0x12FF, 0xFFFF, r.randrange(0x10000)]) for _ in range(32)],
        "skeys": keys(32, lambda: r.choice(gateways)),
        "sequences": [r.choice([0, 1, 255, r.randrange(256)]) for _ in range(32)],
        "ckeys": keys(64, lambda: r.choice(gateways) * 256 + r.choice([0, 1, 255])),
        "ctypes": list(r.randbytes(64)),
        "pool": r.randbytes(64 * HELD),
        "counters": [r.choice([0, 1, TOP, TOP - 1, TOP - 2, TOP - 5, r.randrange(2**64)]) for _ in range(33)],
    }
    state["clengths"] = [r.choice([0, 1, 244, HELD, r.randrange(HELD + 1)]) if key else r.choice([0, HELD, 246, 255, 256, 501, 65535]) for key in state["ckeys"]]
    if r.random() < 0.08:
        i = r.randrange(64)
        state["ckeys"][i] = state["ckeys"][i] or r.choice(gateways) * 256 + 1
        state["clengths"][i] = r.choice([246, 247, 255, 256, 257, 501, 512, 65535])
    return state


def made_frame(r, gateways):
    kinds = [events.RECEIVE_REQUEST, events.RECEIVE_RESPONSE, events.COMMAND_REQUEST, events.COMMAND_RESPONSE]
    kind = r.choice(kinds) if r.random() < 0.75 else r.choice(sorted(events.NAMED) + [0, r.randrange(0x10000)])
    sender = kind in events.FROM if r.random() < 0.95 else kind not in events.FROM
    gateway = 0 if kind == events.START_REQUEST and r.random() < 0.8 else r.choice(gateways)
    if r.random() < 0.03:
        gateway = r.choice([0x8000, 0x9201, 0xFFFF])
    p = events.payload_of(r, kind)
    if kind in (events.COMMAND_REQUEST, events.COMMAND_RESPONSE) and len(p) > 4:
        p = p[:4] + bytes([r.choice([0, 1, 255])]) + p[5:]
    if kind == events.RECEIVE_RESPONSE and r.random() < 0.1:
        p = p[: r.randrange(13)]
    if r.random() < 0.03:
        p = r.randbytes(r.choice([249, 250, 251, 300]))
    return sender, gateway, kind, p


# ---- what the model makes of it


def receiver_of(state):
    """The state in 01's words. A length over the limit is told by its length alone."""
    t = events.Receiver()
    t.numbers.places = [(k - 1, n) if k else None for k, n in zip(state["nkeys"], state["numbers"])]
    t.sequences.places = [(k - 1, n) if k else None for k, n in zip(state["skeys"], state["sequences"])]
    for i, k in enumerate(state["ckeys"]):
        request = state["pool"][i * HELD : (i + 1) * HELD].ljust(65536, b"\0")[: state["clengths"][i]]
        t.commands.places[i] = (divmod(k - 1, 256), (state["ctypes"][i], request)) if k else None
    t.counters.update(dict(zip(events.COUNTERS, state["counters"])))
    return t


def left_by(t, state):
    """The arrays afterwards: a place that the model left as it was has its bytes, a place that was freed all but its key."""
    before, pool, out = receiver_of(state), bytearray(state["pool"]), {name: state[name] if name == "pool" else list(state[name]) for name, _ in PARTS}
    for keys, values, table, was in (("nkeys", "numbers", t.numbers, before.numbers), ("skeys", "sequences", t.sequences, before.sequences)):
        for i, held in enumerate(table.places):
            if held != was.places[i]:
                out[keys][i], out[values][i] = (held[0] + 1, held[1]) if held else (0, out[values][i])
    for i, held in enumerate(t.commands.places):
        if held != before.commands.places[i]:
            out["ckeys"][i] = 0
            if held:
                (gateway, sequence), (out["ctypes"][i], request) = held
                out["ckeys"][i], out["clengths"][i] = gateway * 256 + sequence + 1, len(request)
                pool[i * HELD : i * HELD + len(request)] = request
    out["pool"], out["counters"] = bytes(pool), [t.counters[name] for name in events.COUNTERS]
    return out


def expected(state, frame):
    """Refusal, the door's word for an answer, its news, and the state: of a frame, or of a reset where there is none."""
    t = receiver_of(state)
    if frame is None:
        return t.reset() or 0, 0, None, left_by(t, state)
    sender, gateway, kind, p = frame
    waits = t.commands.place((gateway, p[4])) if len(p) > 4 else None
    given = t.step(*frame)
    if isinstance(given, int):
        news = [5 if len(p) < 2 else events.needed(events.number(p[:2])), 0, 0, 0] if given == 23 else [0] * 4
        return given, 0, news, left_by(t, state)
    if not given:
        return 0, 9 if kind == events.COMMAND_REQUEST else 0, [0] * 4, left_by(t, state)
    first, named, body = given[0]
    news = [0] * 4
    if first == 1:
        news[0] = named
    elif first == 6:
        news = [t.numbers[gateway], events.number(body[:2]), body[2], events.needed(events.number(p[:2]))]
    elif first == 8:
        news = [waits, body[0], body[1], p[3]]
    return 0, first, news, left_by(t, state)


# ---- both


def differs(case, said, after):
    """What the two say differently of a case, or None."""
    refused, answer, news, state = expected(*case)
    if said[:2] != (refused, answer):
        return f"the model answers {refused or answer}, ours {said[0] or said[1]} (a refusal's number, or the door's word)"
    if news is not None and list(said[2:]) != news:
        return f"the model tells {news}, ours {list(said[2:])}"
    for name, _ in PARTS:
        if state[name] != after[name]:
            wrong = [i for i, (a, b) in enumerate(zip(state[name], after[name])) if a != b]
            i = wrong[0]
            return f"{name} at {i}: {case[0][name][i]} before, {state[name][i]} by the model, {after[name][i]} ours; {len(wrong)} such places"
    return None


def told(case):
    state, frame = case
    if frame is None:
        return "a reset of the counters"
    sender, gateway, kind, p = frame
    numbers = [i for i, k in enumerate(state["nkeys"]) if k == gateway + 1]
    sequences = [i for i, k in enumerate(state["skeys"]) if k == gateway + 1]
    commands = [i for i, k in enumerate(state["ckeys"]) if len(p) > 4 and k == gateway * 256 + p[4] + 1]
    return f"{'From' if sender else 'To'} {gateway:04x} {kind:04x} {p.hex() or '-'}, whose keys stand at {numbers}, {sequences} and {commands}"


def marks(case, refused, after):
    """What a case was there for."""
    state, frame = case
    if frame and any(a < b for a, b in zip(after["counters"], state["counters"])):
        yield MARKS[0]
    for keys, values in (("nkeys", "numbers"), ("skeys", "sequences"), ("ckeys", "clengths")):
        changed = [k for i, k in enumerate(state[keys]) if k and (k, state[values][i]) != (after[keys][i], after[values][i])]
        if any(state[keys].count(k) > 1 for k in changed):
            yield MARKS[1]
    if not refused and any(n > HELD for n in state["clengths"]):
        yield MARKS[2]


ANSWERS = ["refused by %d" % n for n in [12, 13] + list(range(20, 33))] + ["answered by %d" % n for n in (0, 1, 2, 3, 4, 5, 6, 8, 9)]
MARKS = [
    "a counter wrapped", "one of two places with one key changed", "a length over the limit at a free place was passed over", "the counters were reset",
]


def main(made, seed, count):
    r, cases = random.Random(seed), []
    for _ in range(count):
        gateways = r.sample([0, 1, 0x1201, 0x1202, 0x7FFE, 0x7FFF], r.randrange(1, 4))
        state = made_state(r, gateways)
        cases.append((state, None if r.random() < 0.03 else made_frame(r, gateways)))
    text = []
    for state, frame in cases:
        sender, gateway, kind, p = frame or (False, 0, 0, b"")
        text.append(packed(state) + struct.pack("<BBHHH", frame is None, sender, gateway, kind, len(p)) + p)
    out = subprocess.run([made], input=b"".join(text), capture_output=True, check=True).stdout
    size, seen = SAID.size + STATE.size, collections.Counter()
    assert len(out) == size * count
    found = []
    for i, case in enumerate(cases):
        said, after = SAID.unpack_from(out, i * size), taken_apart(out[i * size + SAID.size : (i + 1) * size])
        what = differs(case, said, after)
        if what:
            found.append((len(told(case)), f"DIFFERENCE with the model from a made-up state (seed {seed}, case {i}): on {told(case)}: {what}"))
        elif case[1] is None:
            seen[MARKS[3]] += not said[0]
        else:
            seen[f"refused by {said[0]}" if said[0] else f"answered by {said[1]}"] += 1
        for mark in marks(case, said[0], after):
            seen[mark] += 1
    if found:
        print(min(found)[1])
        print(f"{len(found)} of {count} cases differ")
        return 1
    never = [name for name in ANSWERS + MARKS if not seen[name]]
    if never and count >= 2000:
        print(f"DIFFERENCE with the model: of {count} made-up states none is here: {never[0]}")
        return 1
    refusals = ", ".join(f"{name[11:]}: {seen[name]}" for name in ANSWERS if name.startswith("refused"))
    print(f"{count:>9}  transport: steps and resets from made-up states (keys held twice, full tables, left-over values, limits), by the model of 01's step")
    print(f"           ({'; '.join(f'{name}: {seen[name]}' for name in MARKS)})")
    print(f"           (refusals among them: {refusals})")
    return 0


if __name__ == "__main__":
    if len(sys.argv) != 4:
        print(__doc__, file=sys.stderr)
        sys.exit(2)
    sys.exit(main(sys.argv[1], int(sys.argv[2]), int(sys.argv[3])))
