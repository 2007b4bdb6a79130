"""P-NET sheets for urgent requests first, each family aimed at one part of page 02's Ask 11.

A search on them takes some thousand rounds at most, so that the page's own sequence is soon at its end.
"""

import random

from families import in_turn
from second_opinion import urgent_figure
from sheet_records import BILLION
from sheets_pnet import pnet_edition, pnet_holds, pnet_sheet

# slots, that is, turns of the token in a figure
MOST_SLOTS = 4_000


def segment(rng, most):
    """N, the edition, and for some masters a row of cycles, at most so many."""
    n = rng.choice([1, 1, 2, 3, 8, 32])
    busy = rng.sample(range(1, n + 1), min(n, rng.choice([1, 1, 2, 3])))
    cycle = rng.choice([1, 203, 1548, rng.randint(1, 1548)])
    return n, pnet_edition(rng), {y: [rng.choice([cycle, rng.randint(1, cycle)]) for _ in range(rng.randint(1, most))] for y in busy}


def turn_of(n, edition, cycles):
    return sum(pnet_holds(n, [(y, c) for y, row in cycles.items() for c in row], edition).values())


def made_of(rng, n, edition, cycles, ends):
    """The sheet of these cycles with an end for each: T, D and J. A stream is of kind 2 where J is 0, now and then of kind 7 all the same."""
    streams = []
    for y, row in cycles.items():
        for c, (t, d, j) in zip(row, ends[y]):
            streams.append([y, c, t, d] + ([j] if j or rng.random() < 0.1 else []))
    rng.shuffle(streams)
    return pnet_sheet(n, streams, edition)


def just_met(rng, turn, count, slack, late):
    """T, D and J of so many streams of one master, by urgency: each D is its figure, or that and a little of the slack, and T - J is D, or longer by some."""
    ends, ahead, deadline = [], [], 0
    for rank in range(count):
        found = urgent_figure(turn, ahead, rank == count - 1, min(BILLION // 4, turn * MOST_SLOTS))
        if found is None:
            # the rest is left out: it would not be found soon
            break
        deadline = max(deadline, found[0] + rng.choice([0, 0, rng.randint(0, slack)]))
        j = rng.choice([0, 0, 1, deadline, rng.randint(0, 3 * deadline)]) if late else 0
        t = min(BILLION, deadline + j + rng.choice([0, 0, 1, slack, rng.randint(0, 4 * deadline)]))
        ends.append((t, deadline, t - deadline if j > t - deadline else j))
        ahead.append((ends[-1][0], ends[-1][2]))
    return ends


def with_a_miss(rng, ends):
    """One D is a bp shorter, so that its stream is not met, or has another place."""
    at = rng.randrange(len(ends))
    t, d, j = ends[at]
    return ends[:at] + [(t, max(1, d - 1), j)] + ends[at + 1 :]


def urgent_exact(rng):
    """Deadlines just at the figures; where T is D too, each stream takes half of what the ones ahead leave, and the searches go up to hundreds of slots."""
    n, edition, cycles = segment(rng, 9)
    turn = turn_of(n, edition, cycles)
    slack = rng.choice([0, 0, 1, turn])
    late = rng.random() < 0.5
    ends = {y: just_met(rng, turn, len(row), slack, late) for y, row in cycles.items()}
    if rng.random() < 0.4:
        y = rng.choice(list(ends))
        ends[y] = with_a_miss(rng, ends[y])
    # V has to stay as it was, and with it each master's longest cycle
    cycles = {y: sorted(row, reverse=True)[: len(ends[y])] for y, row in cycles.items()}
    return made_of(rng, n, edition, cycles, ends)


def urgent_harmonic(rng):
    """Spacings that double, or almost, and slow streams behind them, whose searches take up to some thousand rounds."""
    n, edition, cycles = segment(rng, 1)
    y, (cycle,) = rng.choice(list(cycles.items()))
    turn = turn_of(n, edition, cycles)
    beside = rng.choice([[0], [0, 1], [0, 1, turn // 3], [0] * 9 + [-1]])
    spacings = [turn * 2**k + rng.choice(beside) for k in range(1, 1 + rng.choice([3, 6, 9, 10, 11, 12, 13]))]
    late = [0, 0, 1, turn] if rng.random() < 0.3 else [0]
    ends = [(t + j, t, j) for t, j in ((t, rng.choice(late)) for t in spacings)]
    slow = min(BILLION, turn * 2**18)
    for _ in range(rng.randint(1, 6)):
        d = rng.choice([slow, slow, slow, rng.randint(slow // 32, slow)])
        ends.append(rng.choice([(slow, d, 0), (slow, d, slow - d), (BILLION, d, 0)]))
    cycles[y] = [cycle] * len(ends)
    return made_of(rng, n, edition, cycles, {other: ends if other == y else [(slow, slow, 0)] for other in cycles})


def urgent_equal(rng):
    """Few deadlines for many streams: equal ones go by sheet order, and the last of them has nothing less urgent behind it."""
    n, edition, cycles = segment(rng, rng.choice([3, 10, 80]))
    turn = turn_of(n, edition, cycles)
    ends = {}
    for y, row in cycles.items():
        count = len(row)
        few = [rng.choice([count, count, count + 1, count - 1, 2 * count, (count + 1) // 2, 2]) * turn - rng.choice([0, 0, 0, 1]) for _ in range(rng.choice([1, 2, 3]))]
        few = [max(d, 1) for d in few]
        ends[y] = []
        for _ in row:
            d = rng.choice(few)
            j = rng.choice([0, 0, 0, d, rng.randint(0, d)])
            ends[y].append((d + j + rng.choice([0, 0, turn, 10 * d]), d, j))
    return made_of(rng, n, edition, cycles, ends)


# one spacing of so many turns each: the load is one together, or would be with one stream more
LOADS = [[2, 2], [3, 3, 3], [2, 3, 6], [2, 4, 4], [4, 4, 4, 4], [2, 4, 8, 8], [5] * 5, [2, 3, 7, 42], [1]]


def urgent_loaded(rng):
    """Urgent streams that leave nothing, or next to nothing, and a slow one behind them, which may stand before them on the sheet."""
    n, edition, cycles = segment(rng, 1)
    y, (cycle,) = rng.choice(list(cycles.items()))
    turn = turn_of(n, edition, cycles)
    beside = rng.choice([[0], [0], [0, 1], [0, -1], [1], [-1], [turn // 2]])
    quick = [max(1, turns * turn + rng.choice(beside)) for turns in rng.choice(LOADS)]
    if rng.random() < 0.3:
        quick.pop()
    late = rng.random() < 0.3
    ends = [(t + j, t, j) for t, j in ((t, rng.choice([0, t]) if late else 0) for t in quick)]
    slow = min(BILLION, turn * rng.choice([20, 500, MOST_SLOTS]))
    ends += [(slow, rng.choice([slow, slow // 2]), 0) for _ in range(rng.randint(1, 3))]
    cycles[y] = [cycle] * len(ends)
    return made_of(rng, n, edition, cycles, {other: ends if other == y else [(slow, slow, 0)] for other in cycles})


def urgent_few(rng):
    """A few streams with deadlines far below the bound of first come, and many with long ones."""
    n, edition, cycles = segment(rng, rng.choice([4, 12, 40, 80]))
    turn = turn_of(n, edition, cycles)
    ends = {}
    for y, row in cycles.items():
        own = []
        for rank in range(rng.choice([1, 1, 2, 3])):
            d = (rank + 2) * turn + rng.choice([0, 0, 0, -1, 1, rng.randint(0, turn)])
            j = rng.choice([0, 0, 0, 1, rng.randint(0, 2 * d)])
            own.append((rng.choice([d, d + 1, 5 * d, 40 * d]) + j, d, j))
        long = [min(BILLION, turn * rng.choice([2, 5, 30]) * len(row)) for _ in row]
        ends[y] = (own + [(t, t, 0) for t in long])[: len(row)]
    return made_of(rng, n, edition, cycles, ends)


FAMILIES = [urgent_exact, urgent_exact, urgent_harmonic, urgent_harmonic, urgent_equal, urgent_loaded, urgent_few]


# ---------------------------------------------------------------- edges


def doubling(count, last=0):
    """So many streams of one master, V of 250 bp, each with twice the spacing and deadline of the one before; the figure of each is its deadline, but for the last."""
    spacings = [250 * 2**k for k in range(1, count + 1)]
    spacings[-1] += last
    return pnet_sheet(1, [(1, 203, t, t) for t in spacings])


def edges():
    slow = (1, 203, 100_000, 100_000)
    for d in (249, 250, 251):
        yield "alone, D %d" % d, pnet_sheet(1, [(1, 203, d, d)])
    for d in (499, 500, 501):
        yield "before two slow ones, D %d" % d, pnet_sheet(1, [(1, 203, d, d), slow, slow])
        yield "behind two slow ones, D %d" % d, pnet_sheet(1, [slow, slow, (1, 203, d, d)])
        yield "the last in order, D %d" % d, pnet_sheet(1, [(1, 203, 9_999, d)] * 2)
    for d in (749, 750, 999, 1_000):
        yield "three alike, D %d" % d, pnet_sheet(1, [(1, 203, d, d)] * 3)
        yield "four alike, D %d" % d, pnet_sheet(1, [(1, 203, d, d)] * 4)
        yield "second of three, D %d" % d, pnet_sheet(1, [(1, 203, 500, 500), (1, 203, 90_000, d), slow])
    for j in (249, 250, 251, 500):
        yield "J %d ahead" % j, pnet_sheet(1, [(1, 203, 1_000, 500, j), slow, slow])
        yield "own J %d" % j, pnet_sheet(1, [(1, 203, 1_000, 1_000), (1, 203, 90_000 + j, 90_000, j), slow])
    # the ends of a program's blocks of slots, wherever these are: figures of 2, 4, .. turns, and one bp beside
    for count in range(1, 12):
        for last in (-1, 0, 1):
            yield "%d doublings %+d" % (count, last), doubling(count, last)
    for count in (79, 80):
        yield "%d of one master" % count, pnet_sheet(1, [(1, 203, count * 250, count * 250)] * count)
        yield "%d of one master, one bp less" % count, pnet_sheet(1, [(1, 203, count * 250 - 1, count * 250 - 1)] * count)
        falling = [(1, 203, 100_000, 100_000 - i) for i in range(count)]
        yield "%d of one master, the last first" % count, pnet_sheet(1, falling)
        yield "%d of one master, as on the sheet" % count, pnet_sheet(1, falling[::-1])
    yield "80 each of ten masters", pnet_sheet(10, [(1 + i % 10, 200, 197_600, 197_600) for i in range(800)])
    yield "80 each of ten masters, one late", pnet_sheet(10, [(1 + i % 10, 200, 197_600, 197_599 if i == 799 else 197_600) for i in range(800)])
    yield "25 each of 32 masters, of kind 7", pnet_sheet(32, [(1 + i % 32, 1548, BILLION, 1_276_000, BILLION - 1_276_000) for i in range(800)], 2)
    yield "25 each of 32 masters, one bp less", pnet_sheet(32, [(1 + i % 32, 1548, BILLION, 1_275_999, BILLION - 1_275_999) for i in range(800)], 2)
    yield from wide()


def wide():
    """Where a right side is far beyond 32 bits, or a sum of x and J is as great as there are."""
    longest = (1, 203, BILLION, BILLION)
    for n, edition, cycle in ((1, None, 1), (1, None, 203), (32, 2, 1548), (32, None, 1548)):
        for t in (1, 7):
            for count in (1, 78):
                yield "%d of T %d behind a long one, N %d, C %d" % (count, t, n, cycle), pnet_sheet(n, [(1, cycle, BILLION, BILLION)] + [(1, cycle, t, t)] * count, edition)
    for d in (499, 500, 501):
        yield "the greatest J, D %d" % d, pnet_sheet(1, [(1, 203, BILLION, d, BILLION - d), longest, longest])
    yield "every J the greatest", pnet_sheet(1, [(1, 203, BILLION, 20_000, BILLION - 20_000)] * 80)
    yield "J but one the greatest", pnet_sheet(1, [(1, 203, BILLION, 20_000, BILLION - 20_001)] * 80)
    yield "J that lets a second one in for each", pnet_sheet(1, [(1, 203, BILLION, 20_000 - i, BILLION - 20_000 + i) for i in range(80)])
    # load exactly one, and less by a little, with the sum of thirds, sixths or halves of a turn
    for t in (144, 145, 150):
        yield "three of T %d, V 48" % t, pnet_sheet(1, [(1, 1, 90_000, 90_000)] + [(1, 1, t, t)] * 3)
    for t in (47, 48, 49, 50):
        yield "T %d, V 48" % t, pnet_sheet(1, [(1, 1, 90_000, 90_000)] + [(1, 1, t, t)])


def longest():
    """The sheets with the longest searches that were found, each with the sum of its figures and of its rounds, or with what it is refused with.

    The page's own sequence gives the same, but has to divide some thousand million times for each.
    """
    masters = range(1, 11)

    def of_each(*spacings):
        return [(y, 1, t, t) for t in spacings for y in masters]

    halves = of_each(*[480 * 2**k for k in range(1, 16)], *[BILLION] * 63)
    yield "15 halves", pnet_sheet(10, halves), (327_155_702_400, 34_076_680)
    closer = of_each(960, 1920, 3840, 7680, 15360, 30721, 61443, 122890, 245764, 491997, 983094, 1967365, 3956194, 15776160)
    late = [(y, 1, 7_931_095, 7_874_730, 56_365) for y in masters]
    yield "few slots at a time", pnet_sheet(10, closer + late + of_each(*[BILLION] * 65)), (334_298_409_600, 41_083_900)
    one = [(1, 1, t, t) for t in [BILLION] * 77 + [49, 2_353, 9_737_785]]
    yield "refused, one master", pnet_sheet(1, one), "refused 21 at stream 78\n"
    yield "refused, ten masters", pnet_sheet(10, of_each(*[BILLION] * 78, 481, 235_115)), "refused 21 at stream 781\n"


def sheets(seed, count):
    """Yield `count` pairs of a name and a sheet's bytes: the edges, then the families in turn."""
    return in_turn(edges(), FAMILIES, random.Random("urgent sheets %d" % seed), count)
