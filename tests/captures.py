"""Pairs of a sheet and a capture, for comparing programs.

A capture is made as a list of events first, so that it is a good one; then it may be damaged. Edges come
first, among them captures around the ends of a program's pieces.
"""

import random

import second_opinion
import sheets
import sheet_records
import sheets_pnet
import texts
from families import in_turn
from second_opinion import ANSWER, COUNTER, EVENT_LENGTH, REQUEST, first_come

# what a program of this project reads at once; any other length is as good a place for a seam
PIECE = 65_534


def event(kind, stream, stamp):
    return bytes([kind]) + stream.to_bytes(2, "big") + (stamp % COUNTER).to_bytes(4, "big")


def small_sheet(rng):
    """Streams of kind 2, and in half of the sheets some of kind 7; under either edition."""
    masters = rng.randint(1, 6)
    share = rng.choice([0, 0, 0.3, 1])
    streams = []
    for _ in range(rng.randint(1, 12)):
        stream = [rng.randint(1, masters), rng.randint(1, 300), 900_000, rng.randint(500_000, 900_000)]
        streams.append(sheets_pnet.with_jitter(rng, stream) if rng.random() < share else stream)
    return sheets_pnet.pnet_sheet(masters, streams, sheets_pnet.pnet_edition(rng))


def bounds_of(data, promised=first_come):
    """Each stream's bound, or nothing where the sheet is refused."""
    shown = second_opinion.compare_capture(data, b"", promised=promised)
    return None if isinstance(shown, second_opinion.Refusal) else [one.bound for one in shown]


def response(rng, bound):
    """Near the bound, near the wrap, or anything."""
    return rng.choice([
        rng.randint(0, bound), bound, bound + 1, max(bound - 1, 0), 0, 1,
        rng.randint(bound, 3 * bound + 3), COUNTER - 1, rng.randrange(COUNTER),
    ])


def good_events(rng, bounds, count):
    """So many events, each stream's requests and answers in turn."""
    since = [None] * len(bounds)
    now = rng.choice([0, COUNTER - 1, COUNTER - rng.randint(1, 5_000), rng.randrange(COUNTER)])
    made = []
    for _ in range(count):
        now += rng.randint(0, 900)
        i = rng.randrange(len(bounds))
        if since[i] is None:
            since[i] = now
            made.append(event(REQUEST, i + 1, now))
        else:
            stamp = since[i] + response(rng, bounds[i])
            since[i] = None
            made.append(event(ANSWER, i + 1, stamp))
    return made


def spacings_of(data):
    """Each stream's T and J."""
    return [(t, j) for _, _, t, _, j in second_opinion.read(data).streams]


def kept_events(rng, data, count, promised=first_come):
    """About so many events in order of time, most of them as the sheet has it: answers within the bound, each request up to J after a time of its own, and
    these times at least T apart."""
    made = []
    fault = rng.choice([None, None, "late", "soon", "both"])
    start = rng.choice([0, COUNTER - rng.randint(1, 5_000), rng.randrange(COUNTER)])
    bounds, spacings = bounds_of(data, promised), spacings_of(data)
    for i, (bound, (spacing, jitter)) in enumerate(zip(bounds, spacings), start=1):
        due = start + rng.randint(0, spacing)
        now = due + rng.choice([0, jitter, rng.randint(0, jitter)])
        for _ in range(max(1, count // (2 * len(bounds)))):
            made.append((now, i, REQUEST))
            took = rng.randint(0, bound) if rng.random() < 0.9 else bound
            if fault in ("late", "both") and rng.random() < 0.1:
                took = bound + rng.choice([1, 2, bound])
            answered = now + took
            if rng.random() < 0.03:
                break
            made.append((answered, i, ANSWER))
            # a late answer holds the next request up
            due = max(due, now - jitter) + spacing + rng.choice([0, 0, 1, rng.randint(0, spacing)])
            asked = due + rng.choice([0, 0, jitter, rng.randint(0, jitter)])
            if fault in ("soon", "both") and rng.random() < 0.1:
                asked = due - rng.choice([1, 2, spacing // 2])
            now = max(answered, asked)
    return [event(kind, stream, stamp) for stamp, stream, kind in sorted(made, key=lambda one: one[0])]


# What is made beside a sheet takes the maker of sheets, and what these are promised.


def kept(rng, made=small_sheet, promised=first_come):
    data = made(rng)
    return data, b"".join(kept_events(rng, data, rng.randint(0, 200), promised))


def asked_only(rng, made=small_sheet, promised=first_come):
    """Requests that nothing answers, the last of them a bound or so behind the others."""
    data = made(rng)
    now = rng.randrange(COUNTER)
    asked = []
    for i, bound in enumerate(bounds_of(data, promised), start=1):
        asked.append(event(REQUEST, i, now))
        now += rng.choice([0, bound, bound + 1, max(bound - 1, 0), rng.randint(0, 2 * bound)])
    return data, b"".join(asked)


def silent_for_long(rng, made=small_sheet, promised=first_come):
    """Nothing is recorded for almost half a round of the counter, or for half of it and more."""
    data = made(rng)
    first, second = kept_events(rng, data, 20, promised), []
    apart = rng.choice([COUNTER // 2 - 1, COUNTER // 2, COUNTER // 2 + 1, COUNTER - 1])
    last = int.from_bytes(first[-1][3:], "big")
    open_streams = {e[1:3] for e in first if e[0] == REQUEST} - {e[1:3] for e in first if e[0] == ANSWER}
    if (1).to_bytes(2, "big") not in open_streams and sum(e[1:3] == b"\0\1" for e in first) % 2 == 0:
        second = [event(REQUEST, 1, last + apart), event(ANSWER, 1, last + apart + 5)]
    return data, b"".join(first + second)


def closely_asked(rng):
    """Requests about T - J apart, each answered at once: whether one is too soon goes by those before it."""
    t = rng.choice([1_000, 5_000, 900_000, sheet_records.BILLION])
    j = rng.choice([0, 1, t // 10, t // 2, t - 250])
    data = sheets_pnet.pnet_sheet(1, [(1, 203, t, t - j, j)])
    now, label = rng.randrange(COUNTER), None
    made = []
    for _ in range(rng.randint(2, 30)):
        # as soon as it can come, then a bp or more beside that
        if label is not None:
            now = max(now + 9, label + t - j + rng.choice([0, 0, 0, -1, 1, j, j // 2, rng.randint(0, t)]))
        label = now if label is None or label + t - now > j else max(now, label + t)
        made += [event(REQUEST, 1, now), event(ANSWER, 1, now + 9)]
    return data, b"".join(made)


# ---------------------------------------------------------------- damage


def cut(rng, events):
    data = b"".join(events)
    return data[: rng.randrange(len(data) + 1)]


def changed_byte(rng, events):
    data = bytearray(b"".join(events))
    if data:
        data[rng.randrange(len(data))] = rng.randrange(256)
    return bytes(data)


def changed_kind(rng, events):
    at = rng.randrange(len(events))
    kind = rng.choice([REQUEST, ANSWER, 0, 1, 2, 6, 15, 18, 255])
    return b"".join(events[:at] + [bytes([kind]) + events[at][1:]] + events[at + 1 :])


def strange_stream(rng, events):
    at = rng.randrange(len(events))
    stream = rng.choice([0, 801, 65_535, 13, 256])
    changed = events[at][:1] + stream.to_bytes(2, "big") + events[at][3:]
    return b"".join(events[:at] + [changed] + events[at + 1 :])


def left_out(rng, events):
    at = rng.randrange(len(events))
    return b"".join(events[:at] + events[at + 1 :])


def repeated(rng, events):
    at = rng.randrange(len(events))
    return b"".join(events[:at] + [events[at]] + events[at:])


DAMAGES = [cut, changed_byte, changed_kind, strange_stream, left_out, repeated]


def damaged(rng, made=small_sheet, promised=first_come):
    data = made(rng)
    events = good_events(rng, bounds_of(data, promised), rng.randint(1, 60))
    return data, rng.choice(DAMAGES)(rng, events)


def good(rng, made=small_sheet, promised=first_come):
    data = made(rng)
    return data, b"".join(good_events(rng, bounds_of(data, promised), rng.randint(0, 200)))


def any_sheet(rng):
    data = rng.choice(sheets.FAMILIES)(rng)
    bounds = bounds_of(data) or [1]
    return data, b"".join(good_events(rng, bounds, rng.randint(0, 40)))


def beside_a_text(rng):
    data, capture = rng.choice([good, kept])(rng)
    return texts.as_text(rng, data), capture


def noise(rng, made=small_sheet, promised=first_come):
    return made(rng), rng.randbytes(rng.randint(0, 40))


FAMILIES = [
    good, kept, damaged, kept, asked_only, damaged, beside_a_text, any_sheet, silent_for_long, damaged, beside_a_text, noise, closely_asked,
]


# ---------------------------------------------------------------- edges


def edges(rng):
    one = sheets_pnet.pnet_sheet(1, [(1, 203, 1_000, 1_000)])
    yield "an empty capture", one, b""
    for earlier in (0, 1, COUNTER - 251, COUNTER - 250, COUNTER - 1):
        for later in (0, 1, 249, 250, 251, COUNTER - 1):
            yield "from %d to %d" % (earlier, later), one, event(REQUEST, 1, earlier) + event(ANSWER, 1, later)
    # T is 1,000 bp and the bound 250 bp: how soon, how long open, and how far apart
    asked = event(REQUEST, 1, COUNTER - 500) + event(ANSWER, 1, COUNTER - 400)
    for later in (499, 500, 501):
        yield "asked again at %d" % later, one, asked + event(REQUEST, 1, later) + event(ANSWER, 1, later + 9)
    # J is 300 bp, and the second request comes 700 bp after the first, as soon as it can: then how soon the third, and the fourth
    jitter = sheets_pnet.pnet_sheet(1, [(1, 203, 1_000, 700, 300)])
    for second in (COUNTER + 199, COUNTER + 200, COUNTER + 500, COUNTER + 800, COUNTER + 801):
        again = asked + event(REQUEST, 1, second) + event(ANSWER, 1, second + 9)
        yield "J 300, asked again at %d" % second, jitter, again
        for third in (second + 699, second + 700, second + 701, COUNTER + 1_199, COUNTER + 1_200, COUNTER + 1_201):
            more = again + event(REQUEST, 1, third) + event(ANSWER, 1, third + 9)
            yield "J 300, asked again at %d and %d" % (second, third), jitter, more
            yield "J 300, asked again at %d, %d and 700 bp later" % (second, third), jitter, more + event(REQUEST, 1, third + 700)
    two = sheets_pnet.pnet_sheet(1, [(1, 203, 1_000, 1_000)] * 2)
    for later in (498, 499, 500, 501, 502):
        yield "open until %d" % later, two, event(REQUEST, 1, 0) + event(REQUEST, 2, later) + event(ANSWER, 2, later)
    # a silent master beside it: the bound is 260 bp, and under edition 2 500 bp
    for edition in (1, 2):
        silent = sheets_pnet.pnet_sheet(2, [(1, 203, 1_000, 1_000)], edition)
        for took in (260, 261, 500, 501):
            yield "edition %d, answered after %d" % (edition, took), silent, event(REQUEST, 1, COUNTER - 9) + event(ANSWER, 1, COUNTER - 9 + took)
        beside = sheets_pnet.pnet_sheet(3, [(1, 203, 9_999, 9_999), (2, 103, 9_999, 9_999)], edition)
        for later in (410, 411, 750, 751):
            yield "edition %d, open until %d" % (edition, later), beside, event(REQUEST, 1, 0) + event(REQUEST, 2, later) + event(ANSWER, 2, later)
    yield "beside a deadline too short under edition 2", sheets_pnet.pnet_sheet(2, [(1, 203, 499, 499)], 2), asked
    yield "beside edition 3", sheets_pnet.pnet_sheet(2, [(1, 203, 499, 499)], 3), asked
    for apart in (COUNTER // 2 - 1, COUNTER // 2, COUNTER - 1):
        yield "%d bp apart" % apart, one, asked + event(REQUEST, 1, apart - 400) + event(ANSWER, 1, apart - 399)
    day = b"".join(event(kind, 2, 2_000_000_000 * n + kind) for n in range(1, 9) for kind in (REQUEST, ANSWER))
    yield "silent for more than a round", two, event(REQUEST, 1, 0) + event(ANSWER, 1, 9) + day + event(REQUEST, 1, 17_000_000_000)
    pair = event(REQUEST, 1, 7) + event(ANSWER, 1, 9)
    for length in range(len(pair) + 1):
        yield "cut to %d bytes" % length, one, pair[:length]
        yield "%d bytes, then kind 0" % length, one, pair[:length] + bytes(1)

    # the most streams, each with a line of its own
    full = sheets_pnet.full_segment(rng, 32, [25] * 32)
    bounds = bounds_of(full)
    for stream in (0, 1, 800, 801):
        yield "stream %d of 800" % stream, full, event(REQUEST, stream, 0)
    yield "800 streams", full, b"".join(good_events(rng, bounds, 4_000))

    # ten masters, 80 streams each, at the slowest: those behind the one that the token has just left answer first, 247 bp apart, that one last,
    # and then each one's next stream does, so that its last answer takes exactly its bound
    even = sheets_pnet.pnet_sheet(10, [(1 + i // 80, 200, 1_000_000, 1_000_000) for i in range(800)])
    for left, start, early in ((1, 0, 0), (1, COUNTER - 1, 0), (10, COUNTER - 296, 0), (10, 0, 1)):
        requests = [event(REQUEST, i, start - early) for i in range(1, 801)]
        order = [80 * ((left + i) % 10) + i // 10 + 1 for i in range(800)]
        answers = [event(ANSWER, stream, start + 247 * i) for i, stream in enumerate(order, start=1)]
        yield "M%02d asks %d early, from %d" % (left, early, start), even, b"".join(requests + answers)

    # around the ends of pieces
    per_piece = PIECE // EVENT_LENGTH
    long = good_events(rng, bounds, 2 * per_piece + 3)
    for count in (per_piece - 1, per_piece, per_piece + 1, 2 * per_piece, len(long)):
        whole = b"".join(long[:count])
        yield "%d records" % count, full, whole
        yield "%d records, cut by one" % count, full, whole[:-1]
        yield "%d records and one byte" % count, full, whole + bytes([REQUEST])
        yield "%d records, then unknown" % count, full, whole + bytes([3])
        yield "%d records, then strange" % count, full, whole + event(ANSWER, 801, 0)
    waits = event(REQUEST, 5, 0) + pair * ((PIECE - EVENT_LENGTH) // (2 * EVENT_LENGTH))
    yield "an answer in the next piece", full, waits + event(REQUEST, 9, 1) + event(ANSWER, 5, 4_083_200)
    yield "a request in the next piece", full, waits + event(REQUEST, 9, 1) + event(REQUEST, 5, 1)
    yield "an answer twice, far apart", full, event(REQUEST, 5, 0) + event(ANSWER, 5, 1) + pair * 9_000 + event(ANSWER, 5, 2)


def captures(seed, count):
    """Yield `count` triples of a name, a sheet, as bytes or as text, and a capture's bytes."""
    rng = random.Random(seed)
    return in_turn(edges(rng), FAMILIES, rng, count)
