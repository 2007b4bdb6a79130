"""P-NET sheets, each family aimed at one rule."""

from sheet_records import BILLION, ONES, numbers_of, record, records_of, sheet


def pnet_edition(rng):
    """The edition that is written, or nothing where none is, and edition 1 holds."""
    return rng.choice([None, None, None, 1, 2, 2])


def pnet_holds(n, streams, edition):
    """H of each master, for streams given as lists with the master first and C second."""
    holds = dict.fromkeys(range(1, n + 1), 10)
    for stream in streams:
        holds[stream[0]] = max(holds[stream[0]], 47 + stream[1])
    return dict.fromkeys(holds, max(holds.values())) if edition == 2 else holds


def pnet_bounds(n, streams, edition):
    turn = sum(pnet_holds(n, streams, edition).values())
    bounds = {}
    for stream in streams:
        bounds[stream[0]] = bounds.get(stream[0], 0) + turn
    return bounds


def pnet_masters(rng, n, total):
    """Masters for `total` streams, at most 80 each, some of them silent."""
    room = [y for y in rng.sample(range(1, n + 1), rng.randint(1, n)) for _ in range(80)]
    rng.shuffle(room)
    return room[:total]


def pnet_cycle(rng):
    return rng.choice([1, 2, 203, 1547, 1548, rng.randint(1, 1548), rng.randint(1, 60)])


def pnet_streams(rng, n, total):
    return [[y, pnet_cycle(rng)] for y in pnet_masters(rng, n, total)]


def pnet_sheet(n, streams, edition=None):
    """A stream is of kind 7 where J stands behind its D."""
    written = [] if edition is None else [(8, edition)]
    return sheet([(1, n), *written] + [(7 if len(s) == 5 else 2, *s) for s in streams])


def pnet_roomy(rng):
    n = rng.choice([1, 2, 3, 4, 5, 8, 16, 31, 32])
    streams = pnet_streams(rng, n, rng.choice([1, 2, 3, 5, 10, 40]))
    edition = pnet_edition(rng)
    bounds = pnet_bounds(n, streams, edition)
    for s in streams:
        d = min(BILLION, bounds[s[0]] * rng.randint(1, 50) + rng.randint(0, 99))
        s += [rng.choice([d, BILLION, rng.randint(d, BILLION)]), d]
    return pnet_sheet(n, streams, edition)


def pnet_tight(rng):
    """Spacing and deadline both at the bound: W may then climb through rounds."""
    n = rng.choice([2, 3, 4, 8, 16, 32])
    streams = pnet_streams(rng, n, rng.choice([2, 4, 9, 30, 100]))
    edition = pnet_edition(rng)
    bounds = pnet_bounds(n, streams, edition)
    for s in streams:
        t = bounds[s[0]] + rng.choice([0, 0, 0, 1, 7])
        s += [t, t]
    return pnet_sheet(n, streams, edition)


def pnet_busy_master(rng):
    """One master with many streams among masters with few: several a(y) above 1."""
    n = rng.randint(2, 32)
    busy = rng.randint(1, n)
    count = rng.choice([10, 40, 79, 80])
    streams = [[busy, pnet_cycle(rng)] for _ in range(count)]
    for y in range(1, n + 1):
        if y != busy and rng.random() < 0.9:
            streams += [[y, rng.choice([1, 2, 30])] for _ in range(rng.randint(1, 2))]
    rng.shuffle(streams)
    edition = pnet_edition(rng)
    bounds = pnet_bounds(n, streams, edition)
    for s in streams:
        t = bounds[s[0]] + rng.choice([0, rng.randint(0, 400), rng.randint(0, 9000)])
        s += [t, t]
    return pnet_sheet(n, streams, edition)


def pnet_chain(rng):
    """Spacings set one after another, so that each round lets one more request in.

    This gives the longest searches: the window passes one spacing in a round,
    and what that adds takes it past the next.
    """
    n = rng.choice([4, 8, 16, 32])
    count = rng.choice([20, 40, 80])
    busy_cycle = rng.choice([1, 50, 300])
    others = {y: rng.randint(1, 40) for y in range(2, n + 1)}
    streams = [[1, busy_cycle] for _ in range(count)] + [[y, c] for y, c in others.items()]
    edition = pnet_edition(rng)
    holds, bounds = pnet_holds(n, streams, edition), pnet_bounds(n, streams, edition)
    turn = sum(holds.values())
    w = bounds[1] - sum((count - 1) * (holds[y] - 10) for y in others)
    spacing = {1: bounds[1]}
    order = sorted(others)
    rng.shuffle(order)
    before = 0
    # the window of a master with one stream is W and its bound, one turn
    for y in order:
        spacing[y] = turn + rng.choice([w - 1, before, (before + w) // 2])
        before, w = w, w + holds[y] - 10
    for s in streams:
        t = spacing[s[0]]
        s += [t, rng.choice([t, bounds[s[0]]])]
    rng.shuffle(streams)
    return pnet_sheet(n, streams, edition)


def pnet_links(rng):
    """The same with several streams to a master, and several masters that search.

    The spacings lie at, just below and just above the values that the search of
    the busiest masters goes through, so that a count kept one W too long, or not
    long enough, would show.
    """
    n = rng.choice([3, 4, 8, 16])
    own = rng.choice([4, 12, 30])
    counts = {y: own if y <= 2 else rng.randint(0, own) for y in range(1, n + 1)}
    cycle = {y: rng.choice([1, 53, rng.randint(1, 300)]) for y in counts}
    streams = [[y, cycle[y]] for y, count in counts.items() for _ in range(count)]
    edition = pnet_edition(rng)
    holds, bounds = pnet_holds(n, streams, edition), pnet_bounds(n, streams, edition)
    w = bounds[1] - sum((own - counts[y]) * (holds[y] - 10) for y in counts)
    rng.shuffle(streams)
    # a spacing just passed leads on to the next; one that is not passed ends the chain, so few are
    beside = [-1] * rng.choice([5, 20, 100]) + [-3, -2, 0, 1]
    for s in streams:
        y = s[0]
        t = bounds[y] + max(0, w + rng.choice(beside))
        s += [t, rng.choice([t, bounds[y]])]
        if counts[y] < own:
            w += holds[y] - 10
    return pnet_sheet(n, streams, edition)


def pnet_late(rng):
    """Deadlines at the bound, and one below for at least one stream."""
    n = rng.choice([1, 2, 4, 10, 32])
    streams = pnet_streams(rng, n, rng.choice([1, 2, 8, 60]))
    edition = pnet_edition(rng)
    bounds = pnet_bounds(n, streams, edition)
    late = rng.sample(range(len(streams)), min(len(streams), rng.choice([1, 1, 2, 3])))
    for i, s in enumerate(streams):
        d = bounds[s[0]] - (1 if i in late else 0)
        s += [rng.choice([d, d + rng.randint(0, 100_000)]), d]
    return pnet_sheet(n, streams, edition)


def pnet_many(rng):
    """Up to all 800 streams, at the bound or well above it."""
    n = rng.choice([10, 11, 32])
    streams = pnet_streams(rng, n, rng.choice([300, 799, 800]))
    edition = pnet_edition(rng)
    bounds = pnet_bounds(n, streams, edition)
    for s in streams:
        t = bounds[s[0]] * rng.choice([1, 1, 2])
        s += [t, t]
    return pnet_sheet(n, streams, edition)


ANY = [pnet_roomy, pnet_tight, pnet_busy_master, pnet_chain, pnet_links, pnet_late, pnet_many]


def parts_of(data):
    """N, the edition if it is written, and the streams of a P-NET sheet, each with its numbers."""
    head, *rest = [(part[0], numbers_of(part)) for part in records_of(data)]
    edition = rest.pop(0)[1][0] if rest[0][0] == 8 else None
    return head[1][0], edition, [numbers for _, numbers in rest]


def pnet_other_edition(rng):
    """Any of the sheets above under the other edition than it was made for: a deadline at the bound may now be below it."""
    n, edition, streams = parts_of(rng.choice(ANY)(rng))
    return pnet_sheet(n, streams, rng.choice([None, 1]) if edition == 2 else 2)


def with_jitter(rng, stream):
    """J is all or part of what D leaves of T; or any, and T longer by it, so that the window passes T just where it did."""
    master, c, t, d = stream
    if rng.random() < 0.5:
        j = rng.choice([0, 1, t - d, t - d, rng.randint(0, t - d)])
        return [master, c, t, d, min(j, t - d)]
    j = min(rng.choice([1, 7, d, t - 1, rng.randint(0, 3 * t)]), BILLION - t)
    return [master, c, t + j, d, j]


def pnet_jitter(rng):
    """Any of the sheets above with some or all of its streams of kind 7."""
    n, edition, streams = parts_of(rng.choice(ANY)(rng))
    share = rng.choice([0.1, 0.5, 0.9, 1])
    return pnet_sheet(n, [with_jitter(rng, s) if rng.random() < share else s for s in streams], edition)


def pnet_jitter_counts(rng):
    """Two masters. J of the second's only stream is just so long that `count` of its requests come in between those of the first, or one more does."""
    own = rng.choice([2, 3, 10, 80])
    count = rng.randint(1, own)
    c, other = rng.randint(1, 1548), rng.randint(1, 1548)
    edition = pnet_edition(rng)
    holds = pnet_holds(2, [[1, c], [2, other]], edition)
    turn = sum(holds.values())
    w = own * turn - (own - count) * (holds[2] - 10)
    least = -(-(w + turn) // count)
    t = rng.randint(least, max(least, w // (count - 1) if count > 1 else 3 * w))
    j = count * t - w - turn + rng.choice([-1, 0, 1, 1, 1])
    streams = [[1, c, BILLION, own * turn] for _ in range(own)]
    streams.append([2, other, t, turn, min(max(0, j), t - turn)])
    rng.shuffle(streams)
    return pnet_sheet(2, streams, edition)


def jitter_edges(t, d):
    """J at the ends of its range, where D is just as long as it leaves, and beyond them."""
    return [0, 1, t - 2, t - 1, t, t + 1, t - d - 1, t - d, t - d + 1, t - d + 2, ONES - d, ONES - 1, ONES, 2**31]


def pnet_jitter_edge(rng):
    """One stream with J at an edge, or with D at one, among good ones."""
    n, edition, streams = parts_of(rng.choice([pnet_roomy, pnet_tight, pnet_late, pnet_jitter])(rng))
    at = rng.randrange(len(streams))
    master, c, t, d, *_ = streams[at]
    t, d = rng.choice([(t, d), (t, d), (t, 1), (t, t), (1, 1), (BILLION, d), (BILLION, BILLION), (BILLION, 1)])
    j = rng.choice([j for j in jitter_edges(t, d) if 0 <= j <= ONES])
    if rng.random() < 0.3:
        # what J leaves of T, as numbers of 32 bits have it
        left = (t - j) % 2**32
        d = rng.choice([d for d in (left - 1, left, left + 1, t, t + 1) if 0 <= d <= ONES])
    streams[at] = [master, c, t, d, j]
    return pnet_sheet(n, streams, edition)


def full_segment(rng, n, counts, kinds=(2,), edition=None):
    """Streams of the given counts for masters 1, 2, ..., all accepted under either edition."""
    streams = [[y, rng.randint(1, 1548)] for y, c in enumerate(counts, start=1) for _ in range(c)]
    rng.shuffle(streams)
    ends = {2: [5_000_000, 4_500_000], 7: [5_000_000, 4_500_000, 500_000]}
    return pnet_sheet(n, [s + ends[rng.choice(kinds)] for s in streams], edition)


def pnet_over(rng):
    """The 81st stream of a master or the 801st in all, of one kind or of both, and then anything."""
    ends = rng.choice([[(9_000_000, 9_000_000)], [(9_000_000, 9_000_000, 0)], [(9_000_000, 9_000_000), (9_000_000, 8_000_000, 1_000_000)]])
    if rng.random() < 0.5:
        n = rng.randint(1, 32)
        master = rng.randint(1, n)
        streams = [[master, 9] for _ in range(80)]
        streams += [[rng.randint(1, n), 9] for _ in range(rng.choice([0, 1, 30])) if n > 1]
    else:
        n = rng.choice([10, 11, 32])
        master = rng.randint(1, n)
        counts = [80] * 10 if n == 10 else [25] * n if n == 32 else [73] * 10 + [70]
        streams = [[y, 9] for y, c in enumerate(counts, start=1) for _ in range(c)]
    rng.shuffle(streams)
    body = pnet_sheet(n, [s + list(rng.choice(ends)) for s in streams], pnet_edition(rng))
    last = rng.choice([record(2, master, 9, 9_000_000, 9_000_000), record(7, master, 9, 9_000_000, 8_000_000, 1_000_000)])
    return body + last + rng.choice([b"", last * 5, rng.randbytes(20)])
