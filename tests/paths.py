"""Paths over several segments, for comparing programs: segments, forwarding times and a deadline.

The lines of the vectors come first. Then paths are made good, with a deadline around their cost, and some are damaged, or have a sheet as text.
"""

import random

import second_opinion
import sheets
import sheets_pnet
import texts
import vectors
from second_opinion import BILLION, FORWARDING_LIMIT, Crossed

# arguments are decimal numbers of any size; these are the greatest of 32 bits, and the next
WIDE = (2**32 - 1, 2**32)


def small_segment(rng):
    """A sheet that is accepted, and one of its senders."""
    masters = rng.randint(1, 6)
    streams = [
        [rng.randint(1, masters), rng.randint(1, 300), 900_000, rng.randint(500_000, 900_000)]
        for _ in range(rng.randint(1, 12))
    ]
    streams = [sheets_pnet.with_jitter(rng, stream) if rng.random() < 0.3 else stream for stream in streams]
    return sheets_pnet.pnet_sheet(masters, streams, sheets_pnet.pnet_edition(rng)), rng.choice(streams)[0]


def time(rng):
    return rng.choice([0, 1, rng.randint(0, 500), rng.randint(0, FORWARDING_LIMIT), FORWARDING_LIMIT])


def good(rng):
    gateways = rng.choice([1, 1, 2, 3, rng.randint(1, 10), 10])
    segments = [small_segment(rng) for _ in range(gateways + 1)]
    times = [time(rng) for _ in range(gateways)]
    crossed = second_opinion.cross_path(segments, times, BILLION)
    assert isinstance(crossed, Crossed)
    return segments, times, crossed.total + rng.choice([0, 0, 1, rng.randint(0, 9_999)])


def missed(rng):
    segments, times, _ = good(rng)
    total = second_opinion.cross_path(segments, times, BILLION).total
    return segments, times, rng.choice([total - 1, 1, rng.randint(1, total - 1)])


def other_edition(rng):
    """A segment under another edition than it was made for, and the deadline as it was: it may now be missed."""
    segments, times, deadline = good(rng)
    at = rng.randrange(len(segments))
    data, master = segments[at]
    n, edition, streams = sheets_pnet.parts_of(data)
    other = rng.choice([None, 1]) if edition == 2 else rng.choice([2, 2, 2, 3])
    segments[at] = (sheets_pnet.pnet_sheet(n, streams, other), master)
    return segments, times, deadline


# ---------------------------------------------------------------- damage


def slow_gateway(rng, segments, times, deadline):
    times[rng.randrange(len(times))] = rng.choice([FORWARDING_LIMIT + 1, BILLION, *WIDE])
    return segments, times, deadline


def strange_deadline(rng, segments, times, deadline):
    return segments, times, rng.choice([0, BILLION + 1, *WIDE])


def strange_sender(rng, segments, times, deadline):
    at = rng.randrange(len(segments))
    segments[at] = (segments[at][0], rng.choice([0, 7, 32, 33, 200, 255, 256, 300, *WIDE]))
    return segments, times, deadline


def other_sheet(rng, segments, times, deadline):
    at = rng.randrange(len(segments))
    segments[at] = (rng.choice(sheets.FAMILIES)(rng), segments[at][1])
    return segments, times, deadline


def text_for_bytes(rng, segments, times, deadline):
    at = rng.randrange(len(segments))
    segments[at] = (texts.as_text(rng, segments[at][0]), segments[at][1])
    return segments, times, deadline


def too_many(rng, segments, times, deadline):
    more = 11 - len(times) + rng.randint(0, 3)
    return segments + [small_segment(rng) for _ in range(more)], times + [time(rng) for _ in range(more)], deadline


def too_few(rng, segments, times, deadline):
    return segments[:1], [], deadline


DAMAGES = [
    slow_gateway, strange_deadline, strange_sender, strange_sender, other_sheet, other_sheet, text_for_bytes, text_for_bytes, too_many, too_few,
]


def damaged(rng):
    path = good(rng)
    for _ in range(rng.choice([1, 1, 2, 3])):
        if path[1]:
            path = rng.choice(DAMAGES)(rng, *path)
    return path


def refused_twice(rng):
    """A bad line in one segment's text and a refused sheet in another, in either order: the first of the two is named."""
    segments, times, deadline = good(rng)
    bad_line, other = rng.sample(range(len(segments)), 2)
    segments[bad_line] = (vectors.HEAD_LINE + b"x\n", 1)
    segments[other] = (rng.choice([b"", b"c", vectors.HEAD_LINE, vectors.sheet(*vectors.TABLE), vectors.sheet(*vectors.FOUR_MASTERS_LATE)]), 1)
    return segments, times, deadline


FAMILIES = [good, good, missed, other_edition, damaged, damaged, damaged, damaged, refused_twice]


def paths(seed, count):
    """So many paths, each with a name."""
    made = 0
    for line in vectors.PATHS.strip().splitlines()[:count]:
        yield (line,) + vectors.path_of(line)[:3]
        made += 1
    rng = random.Random("path %d" % seed)
    while made < count:
        family = rng.choice(FAMILIES)
        yield ("%s %d" % (family.__name__, made),) + tuple(family(rng))
        made += 1
