#!/usr/bin/env python3
"""generate.py N [MIX]: writes a tape of N records to standard output, the same on every run.

A fit-out, 32 links, then a mix that is the same from start to end, so that tapes of
different lengths compare. The mix `service`, taken where none is named: clocks in the
main, requests of all four kinds that open a dialogue (kept under 6 in 100 together, as no
more than 60,000 can ever be opened: about a million records), requests that are refused,
and a few records that are no calls. Readings rise, and dialogues expire by the clock as
they would in service; about 22 of the 32 places are taken.
The other mixes repeat one thing: `clocks` with rising readings, `full` initiations that
find no place, `strangers` initiations to a peer that is no link, `unknown` empty records
with an unknown tag, `subscribers` records that add one until there are 64 and are refused
then, `openings` an initiation and the clock that ends it, in turn, and `proofs` a network
proof, whose APDU is the longest, and the clock that ends it, in turn (once the numbers are
spent, after 120,033 records, the requests are refused, and the clocks quiet). `enquiries` are
deliveries of the four invokes for parameters and proofs of users whose key is here, so that
each is answered at once, one in three with a session. `visits` are a peer's authWtmUser, the
result from Home that brings it to the terminal, half of them with a unit and half with a
session, and the terminal's reply, in turn (once the numbers are spent, after 180,033 records,
the invokes get an error, and the rest is refused).
"""
import random
import struct
import sys

PLAIN, WITH_VALUES, VISITOR_START, PROOF, REPLY, DELIVERY, CLOCK = range(0x20, 0x27)
INVOKE, RESULT = 1, 2
AUTH_WTM_USER, GET_WTAT_PARAM, WTAT_PARAM_ENQ, GET_WTAN_PARAM, WTAN_PARAM_ENQ = range(1, 6)
KEY_HERE = 1  # a subscriber's place
ALGORITHM = b"\x01"
TIMERS = [30_000, 28_000, 32_000, 30_000, 30_000, 5_000]  # T1 to T5, TR
MEAN_STEP = 72  # milliseconds from one record to the next


def record(tag, value):
    return struct.pack(">BH", tag, len(value)) + value


def service(n, rng, peers, stranger):
    head = struct.Struct(">BHQ").pack
    numbers = [bytes(rng.choices(b"0123456789", k=1 + i % 15)) for i in range(1500)]
    challenges = [rng.randbytes(8) for _ in range(100)]
    linked = [bytes([peer]) for peer in peers]
    refused = [b"", b"1234567890123456", b"12a4", b"555:", b"/20"]
    no_calls = [
        record(0x10, bytes(27)), record(0x11, bytes([peers[0]])), record(0x11, b""),
        record(VISITOR_START, bytes(7)), record(PROOF, bytes(15)), record(0x26, bytes(7)),
        record(0x7F, b"unknown"), record(0x00, b""),
    ]
    pick, choice = rng.random, rng.choice
    # The kinds of request in their shares, each with what may stand between its reading and its digits.
    requests = ([(PLAIN, linked)] * 4 + [(WITH_VALUES, linked)] * 2 + [(VISITOR_START, [b""])] * 3
                + [(PROOF, challenges)] * 3)
    to_stranger = [(PLAIN, [bytes([stranger])]), (WITH_VALUES, [bytes([stranger])])]

    def request(requests, now, digits):
        tag, middles = choice(requests)
        value = choice(middles) + choice(digits)
        return head(tag, 8 + len(value), now) + value

    reading = 0.0
    for _ in range(n):
        reading += 2 * MEAN_STEP * pick()
        now = int(reading)
        kind = pick()
        if kind < 0.80:
            yield head(0x26, 8, now)
        elif kind < 0.858:
            yield request(requests, now, numbers)
        elif kind < 0.90:
            yield request(requests, now, refused)
        elif kind < 0.94:
            yield request(to_stranger, now, numbers)
        elif kind < 0.98:
            yield request(requests, now // 2, numbers)
        else:
            yield choice(no_calls)


def clock(reading):
    return record(0x26, struct.pack(">Q", reading))


def initiation(reading, peer):
    return record(PLAIN, struct.pack(">QB", reading, peer) + b"123456789012345")


def proof(reading):
    return record(PROOF, struct.pack(">Q", reading) + b"\x01\x23\x45\x67\x89\xab\xcd\xef" + b"123456789012345")


def clocks(n, rng, peers, stranger):
    return (clock(i) for i in range(n))


def full(n, rng, peers, stranger):
    return (initiation(1_000, peers[0]) for _ in range(n))


def strangers(n, rng, peers, stranger):
    return (initiation(1_000, stranger) for _ in range(n))


def unknown(n, rng, peers, stranger):
    return (record(0x77, b"") for _ in range(n))


def subscribers(n, rng, peers, stranger):
    return (record(0x12, bytes([i % 3]) + bytes(16) + b"%d" % (100_000_000 + i)) for i in range(n))


def openings(n, rng, peers, stranger):
    return (clock(i + TIMERS[0]) if i % 2 else initiation(i, peers[-1]) for i in range(n))


def proofs(n, rng, peers, stranger):
    return (clock(i + TIMERS[3]) if i % 2 else proof(i) for i in range(n))


def apdu(kind, invoke_id, operation, fields):
    """FIELDS are tags and values, in the order of the tags."""
    head = record(0x01, bytes([kind])) + record(0x02, struct.pack(">H", invoke_id)) + record(0x03, bytes([operation]))
    return head + b"".join(record(tag, value) for tag, value in fields)


def delivery(reading, draw, peer, octets):
    return record(DELIVERY, struct.pack(">Q", reading) + draw + bytes([peer]) + octets)


def enquiries(n, rng, peers, stranger):
    numbers = [b"%d" % rng.randrange(10**14, 10**15) for _ in range(min(n, 64))]
    for digits in numbers:
        yield record(0x12, bytes([KEY_HERE]) + rng.randbytes(16) + digits)
    # An APDU of each sort for each user, and some draws; ids and readings rise.
    sorts = []
    for operation in (GET_WTAT_PARAM, WTAT_PARAM_ENQ, GET_WTAN_PARAM, WTAN_PARAM_ENQ):
        proof = operation in (GET_WTAN_PARAM, WTAN_PARAM_ENQ)
        for computes, challenged in ((True, proof), (False, proof), (False, True)):
            for digits in numbers:
                fields = [(0x04, digits)] + [(0x05, b"")] * computes
                fields += [(0x06, rng.randbytes(8))] * challenged + [(0x07, ALGORITHM)] * proof
                sorts.append(apdu(INVOKE, 1, operation, fields))
    draws = [rng.randbytes(16) for _ in range(100)]
    for i in range(n - len(numbers)):
        octets = sorts[i * 5 % len(sorts)]
        invoke_id = struct.pack(">H", i % 65_535 + 1)
        yield delivery(i, draws[i % 100], peers[i % 32], octets[:7] + invoke_id + octets[9:])


def visits(n, rng, peers, stranger):
    home = peers[0]
    draw = rng.randbytes(16)
    for i in range(0, n, 3):
        name = i // 3 + 1
        invoke_id = min(name, 65_535)
        response = rng.randbytes(4)
        given = (0x09, rng.randbytes(24)) if name % 2 else (0x08, rng.randbytes(8) + response)
        yield delivery(i, draw, peers[name % 32], apdu(INVOKE, invoke_id, AUTH_WTM_USER, [(0x04, b"123456789012345")]))
        if i + 1 < n:
            yield delivery(i + 1, draw, home, apdu(RESULT, invoke_id, GET_WTAT_PARAM, [(0x07, ALGORITHM), given]))
        if i + 2 < n:
            yield record(REPLY, struct.pack(">QH", i + 2, invoke_id) + response)


MIXES = {mix.__name__: mix for mix in (service, clocks, full, strangers, unknown, subscribers, openings, proofs,
                                       enquiries, visits)}


def tape(n, mix, rng):
    peers = rng.sample(range(1, 256), 33)
    stranger = peers.pop()
    home, server = peers[:2]
    yield record(0x10, struct.pack(">6IBBB", *TIMERS, home, server, 1))
    for peer in peers:
        yield record(0x11, bytes([peer]))
    yield from mix(n - 33, rng, peers, stranger)


def main():
    n, mix = (sys.argv[1:] + ["service"])[:2] if len(sys.argv) in (2, 3) else ("", "")
    if not n.isdigit() or int(n) < 33 or mix not in MIXES:
        sys.exit(f"generate.py N [MIX]: N is the number of records, 33 or more; MIX is one of {', '.join(MIXES)}")
    sys.stdout.buffer.write(b"".join(tape(int(n), MIXES[mix], random.Random(1))))


main()
