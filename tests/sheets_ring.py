"""PROFIBUS sheets, each family aimed at one rule, in rings of kind 3 and of kind 9."""

from sheet_records import BILLION, ONES, record, records_of, sheet
from sheets_pnet import pnet_masters


def profibus_sheet(n, latency, longest, streams):
    """A ring of kind 3, or one of kind 9 where `longest` has a pair of a master and its longest message for each kind 10."""
    if isinstance(longest, int):
        head = [(3, n, latency, longest)]
    else:
        head = [(9, n, latency)] + [(10, *pair) for pair in longest]
    return sheet(head + [(4, *s) for s in streams])


def every_message(n, longest):
    return n * longest if isinstance(longest, int) else sum(message for _, message in longest)


def some_message(rng):
    return rng.choice([1, 500, 100_000, rng.randint(1, 100_000), rng.randint(1, 999)])


def messages_in_any_order(rng, n):
    """One for each master: any, or one that is far longer than all others, as a slow drive's."""
    masters = list(range(1, n + 1))
    if rng.random() < 0.5:
        rng.shuffle(masters)
    usual, slow = rng.randint(1, 999), rng.choice(masters)
    if rng.random() < 0.5:
        return [(y, rng.choice([usual, 100_000]) if y == slow else usual) for y in masters]
    return [(y, some_message(rng)) for y in masters]


def profibus_start(rng):
    n = rng.choice([1, 2, 3, 10, 32])
    latency = rng.choice([1, 2, 300, 99_999, 100_000, rng.randint(1, 100_000)])
    longest = some_message(rng) if rng.random() < 0.4 else messages_in_any_order(rng, n)
    own = dict.fromkeys(range(1, n + 1), longest) if isinstance(longest, int) else dict(longest)
    masters = pnet_masters(rng, n, rng.choice([1, 2, 3, 8, 50]))
    streams = [[y, rng.choice([1, own[y], rng.randint(1, own[y])])] for y in masters]
    return n, latency, longest, streams


def profibus_at(rng, n, longest, streams, ttr):
    """Deadlines for which each stream allows just `ttr`, with less than one step over."""
    for s in streams:
        h = sum(1 for other in streams if other[0] == s[0])
        s.append(h * (ttr + every_message(n, longest)) + s[1] + rng.choice([0, h - 1, rng.randrange(h)]))


def profibus_random(rng):
    n, latency, longest, streams = profibus_start(rng)
    profibus_at(rng, n, longest, streams, latency)
    for s in streams:
        s[2] = min(BILLION, s[2] + rng.choice([0, rng.randint(0, 5_000), rng.randint(0, BILLION)]))
    return profibus_sheet(n, latency, longest, streams)


def profibus_exact(rng):
    """The answer is L itself, and many streams tie for it."""
    n, latency, longest, streams = profibus_start(rng)
    profibus_at(rng, n, longest, streams, latency)
    return profibus_sheet(n, latency, longest, streams)


def profibus_ties(rng):
    """Streams that stop at one TTR or the next, in any order."""
    n, latency, longest, streams = profibus_start(rng)
    profibus_at(rng, n, longest, streams, latency + rng.randint(0, 1_000))
    for s in streams:
        h = sum(1 for other in streams if other[0] == s[0])
        s[2] = min(BILLION, s[2] + h * rng.choice([0, 1, 2]))
    return profibus_sheet(n, latency, longest, streams)


def profibus_below(rng):
    """One stream, or a few, one bp short at L."""
    n, latency, longest, streams = profibus_start(rng)
    profibus_at(rng, n, longest, streams, latency + rng.choice([0, 0, 5]))
    for s in rng.sample(streams, min(len(streams), rng.choice([1, 1, 3]))):
        h = sum(1 for other in streams if other[0] == s[0])
        s[2] = h * (latency + every_message(n, longest)) + s[1] - 1
    return profibus_sheet(n, latency, longest, streams)


def profibus_short(rng):
    """A deadline below the stream's own cycle, or anywhere below the bound."""
    n, latency, longest, streams = profibus_start(rng)
    profibus_at(rng, n, longest, streams, latency)
    s = rng.choice(streams)
    s[2] = rng.choice([1, max(1, s[1] - 1), s[1], s[1] + 1, rng.randint(1, s[2])])
    return profibus_sheet(n, latency, longest, streams)


def profibus_over(rng):
    n = rng.choice([1, 3, 10, 32])
    master = rng.randint(1, n)
    if rng.random() < 0.5:
        masters = [master] * 80
    else:
        masters = [y for y in range(1, n + 1) for _ in range(25 if n == 32 else 80)]
    rng.shuffle(masters)
    longest = rng.choice([9, [(y, 9) for y in range(n, 0, -1)]])
    body = profibus_sheet(n, 9, longest, [(y, 9, 9_000_000) for y in masters])
    last = record(4, master, 9, 9_000_000)
    return body + last + rng.choice([b"", last * 5, rng.randbytes(20)])


def ring_parts(rng):
    """A ring of kind 9 as its first record, its longest messages and its streams."""
    n = rng.choice([1, 2, 2, 3, 32])
    messages = [record(10, *pair) for pair in messages_in_any_order(rng, n)]
    streams = [record(4, rng.randint(1, n), 1, rng.choice([9, 9_000_000])) for _ in range(rng.choice([0, 1, 2, 5]))]
    return record(9, n, rng.choice([1, 300])), messages, streams


def messages_missing(rng):
    """A longest message or more left out, before streams of any C and master, at the end, or where the sheet is cut."""
    head, messages, streams = ring_parts(rng)
    for _ in range(rng.choice([1, 1, 2, len(messages)])):
        if messages:
            del messages[rng.randrange(len(messages))]
    n = head[1]
    first = record(4, rng.choice([1, n, rng.randint(1, n), n + 1, 0]), rng.choice([1, 999, 100_000, 100_001, rng.randint(1, 100_000)]), rng.choice([0, 9, 9_000_000]))
    behind = rng.choice([b"", first, first, first + b"".join(streams), first[:-1], first[:1], b"".join(streams)])
    return head + b"".join(messages) + behind


def messages_repeated(rng):
    """A master's longest message again, the same or another, in range or not, at any place."""
    head, messages, streams = ring_parts(rng)
    one = rng.choice(messages)
    again = record(10, one[1], rng.choice([1, 100_000, 100_001, 0, int.from_bytes(one[2:], "big")]))
    if rng.random() < 0.3 and len(messages) > 1:
        # and another is missing
        messages.remove(rng.choice([m for m in messages if m != one]))
    parts = messages + rng.choice([[], streams])
    parts.insert(rng.choice([len(messages), rng.randint(0, len(parts)), len(parts)]), rng.choice([again, again, again[:-1]]))
    return head + b"".join(parts)


def messages_astray(rng):
    """A longest message before the ring, behind a stream, or in a sheet that has none."""
    head, messages, streams = ring_parts(rng)
    one = rng.choice(messages)
    rest = [head] + messages + streams
    other = rng.choice([record(3, 2, 300, 500), record(1, 4), record(5, 400)])
    return rng.choice([
        one + b"".join(rest),
        b"".join(rest) + one,
        b"".join(rest) + one[:1],
        b"".join([head] + messages[:-1] + streams[:1] + messages[-1:] + streams[1:]),
        other + one + b"".join(streams),
        other + one[:1],
        b"".join(rest[:1] + rest),
    ])


def messages_out_of_range(rng):
    """A master that is not of the ring, or a longest message out of its range, with the others as they should be."""
    head, messages, streams = ring_parts(rng)
    at = rng.randrange(len(messages))
    master, longest = messages[at][1], int.from_bytes(messages[at][2:], "big")
    messages[at] = rng.choice([
        record(10, rng.choice([0, head[1] + 1, 33, 255]), longest),
        record(10, master, rng.choice([0, 1, 100_000, 100_001, ONES])),
    ])
    return head + b"".join(messages + streams)


def above_own_message(rng):
    """A stream's C just at, or above, its own master's longest message, which another master's may well hold."""
    n, latency, longest, streams = profibus_start(rng)
    if isinstance(longest, int):
        longest = [(y, rng.randint(1, 999)) for y in range(1, n + 1)]
    own = dict(longest)
    masters = [rng.randint(1, n) for _ in streams][:5]
    cycles = [[y, rng.choice([own[y], own[y], 1, own[y] + rng.choice([0, 0, 1]), max(own.values())]), BILLION] for y in masters]
    return profibus_sheet(n, latency, longest, cycles)


def ring_cut(rng):
    """A ring of kind 9 that ends anywhere, often just behind a record."""
    head, messages, streams = ring_parts(rng)
    data = head + b"".join(messages + streams)
    whole = sum(map(len, records_of(data)[: rng.randint(1, 1 + len(messages))]))
    return data[: rng.choice([whole, whole, whole - 1, rng.randint(1, len(data))])]
