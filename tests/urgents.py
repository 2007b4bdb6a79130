"""Runs of --urgent, for comparing programs: a sheet, as bytes or as text, and for some a capture beside its figures.

Edges come first. Then sheets are drawn from families, good ones and such as were made for other rules or are damaged.
"""

import random

import captures
import second_opinion
import sheets
import sheets_pnet
import sheets_urgent
import texts
from families import in_turn
from second_opinion import ANSWER, COUNTER, REQUEST, Refusal, urgent_first

NO_CAPTURE = None


def made_for_it(rng):
    return rng.choice(sheets_urgent.FAMILIES)(rng), NO_CAPTURE


def made_for_first_come(rng):
    """Deadlines at the bound or one bp below it, and spacings at what the refined search passes."""
    family = rng.choice(sheets_pnet.ANY + [sheets_pnet.pnet_late, sheets_pnet.pnet_jitter, sheets_pnet.pnet_other_edition])
    return family(rng), NO_CAPTURE


def any_sheet(rng):
    """Of any bus, and damaged ones."""
    return rng.choice(sheets.FAMILIES)(rng), NO_CAPTURE


def changed(rng):
    """One byte of a sheet that was made for it."""
    data = bytearray(rng.choice(sheets_urgent.FAMILIES)(rng))
    at = rng.randrange(len(data))
    data[at] = rng.choice([0, 1, 255, data[at] ^ (1 << rng.randrange(8)), rng.randrange(256)])
    return bytes(data), NO_CAPTURE


def as_text(rng):
    data, _ = rng.choice([made_for_it, made_for_first_come])(rng)
    return texts.as_text(rng, data), NO_CAPTURE


# ---------------------------------------------------------------- captures beside x

BESIDE = [captures.good, captures.kept, captures.kept, captures.kept, captures.damaged, captures.damaged, captures.asked_only, captures.silent_for_long]
# a stream that asks more seldom leaves the counter without a record for too long
ASKS_OFTEN = 100_000_000


def accepted(rng):
    """A sheet with a figure for each stream, and with not too many of them."""
    while True:
        data = rng.choice(sheets_urgent.FAMILIES + [captures.small_sheet])(rng)
        often = all(t <= ASKS_OFTEN for t, _ in captures.spacings_of(data))
        if len(data) < 500 and often and not isinstance(urgent_first(data), Refusal):
            return data


def beside_figures(rng):
    data, capture = rng.choice(BESIDE)(rng, accepted, urgent_first)
    return data if rng.random() < 0.8 else texts.as_text(rng, data), capture


def beside_any(rng):
    """A capture beside a sheet that may be refused: then nothing is said of the capture."""
    data, _ = rng.choice([made_for_it, made_for_first_come, any_sheet, changed])(rng)
    events = captures.good_events(rng, captures.bounds_of(data, urgent_first) or [1], rng.randint(0, 40))
    return data, b"".join(events) + rng.choice([b"", b"", bytes([2])])


FAMILIES = [
    made_for_it, beside_figures, made_for_it, as_text, made_for_it, beside_figures, made_for_first_come, made_for_it, beside_any, beside_figures, any_sheet, changed,
]


# ---------------------------------------------------------------- edges


def edges():
    for name, data in sheets_urgent.edges():
        yield name, data, NO_CAPTURE
    # the figure of stream 1 is 500 bp, that of the others 1,000 bp; R is 750 bp
    slow = (1, 203, 100_000, 100_000)
    three = sheets_pnet.pnet_sheet(1, [(1, 203, 500, 500), slow, slow])
    for stream, took in ((1, 500), (1, 501), (1, 750), (2, 751), (2, 1_000), (2, 1_001), (3, 1_000), (3, 1_001)):
        for start in (0, COUNTER - 300):
            capture = captures.event(REQUEST, stream, start) + captures.event(ANSWER, stream, start + took)
            yield "stream %d from %d answered after %d" % (stream, start, took), three, capture
    for stream, age in ((1, 500), (1, 501), (2, 1_000), (2, 1_001)):
        capture = captures.event(REQUEST, stream, 0) + captures.event(REQUEST, 3, age) + captures.event(ANSWER, 3, age)
        yield "stream %d open for %d" % (stream, age), three, capture
    yield "no record", three, b""
    late = sheets_pnet.pnet_sheet(1, [(1, 203, 499, 499), slow, slow])
    for capture in (b"", b"\x02", captures.event(ANSWER, 1, 0)):
        yield "beside a refused sheet", late, capture
        yield "beside another bus", second_opinion.record_of(5, (400,)) + second_opinion.record_of(6, (17, 1_000)), capture
        yield "beside a cut sheet", three[:-1], capture
    full = sheets_pnet.pnet_sheet(10, [(1 + i % 10, 200, 197_600, 197_600) for i in range(800)])
    rng = random.Random("urgent edges")
    yield "800 streams", full, b"".join(captures.good_events(rng, urgent_first(full), 4_000))


def urgents(seed, count):
    """Yield `count` triples of a name, a sheet and a capture, or none."""
    return in_turn(edges(), FAMILIES, random.Random("urgent %d" % seed), count)
