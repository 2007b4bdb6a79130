"""Sheets that stand just at a rule, one by one."""

import math

from sheet_records import BILLION, MEGABYTE, ONES, WIDTHS, record, sheet
from sheets_damaged import around, with_field
from sheets_pnet import full_segment, jitter_edges, pnet_sheet
from sheets_ring import profibus_sheet
from sheets_table import PRIMES, WRAPPING, worldfip_sheet


def edition_places():
    """The record of the edition where it may stand, and where it may not."""
    head, stream, first, second = (1, 4), (2, 1, 203, 100_000, 90_000), (8, 1), (8, 2)
    for name, records in [
        ("first", [second, head, stream]),
        ("alone", [second]),
        ("with no stream", [head, second]),
        ("behind a stream", [head, stream, second]),
        ("between streams", [head, stream, second, stream]),
        ("behind a stream of kind 7", [head, (7, *stream[1:], 0), first]),
        ("twice the same", [head, second, second, stream]),
        ("1, then 2", [head, first, second, stream]),
        ("1, then 0", [head, first, (8, 0), stream]),
        ("twice, apart", [head, first, stream, first]),
        ("three, then 2", [head, (8, 3), second, stream]),
        ("then the segment again", [head, second, head, stream]),
        ("then a ring's stream", [head, second, (4, 1, 9, 9)]),
        ("then master 5", [head, second, (2, 5, 203, 9, 9)]),
        ("behind a ring", [(3, 3, 300, 500), second, (4, 1, 400, 8_400)]),
        ("behind a ring's stream", [(3, 3, 300, 500), (4, 1, 400, 8_400), second]),
        ("behind an exchange", [(5, 400), first, (6, 17, 1_000)]),
        ("behind a variable", [(5, 400), (6, 17, 1_000), first]),
        ("behind no masters", [(1, 0), second, stream]),
        ("before a stream of kind 7", [head, second, (7, *stream[1:], 0)]),
    ]:
        yield "edition %s" % name, sheet(records)
    for name, records in [("cut", [head]), ("cut behind a stream", [head, stream]), ("cut behind itself", [head, second]), ("cut behind a ring", [(3, 3, 300, 500)])]:
        yield "edition %s" % name, sheet(records) + bytes([8])
    yield "edition, then an unknown kind", sheet([head, second]) + bytes([99])
    yield "edition, then a cut stream", sheet([head, second, stream])[:-1]


def edition_figures():
    """Deadlines and spacings just at what an edition makes of a segment."""
    # H of 250, 350 and 150 bp, and one silent master
    cycles = [(1, 203), (1, 203), (2, 303), (4, 103)]
    for edition, turn in ((None, 760), (1, 760), (2, 1_400)):
        for by in (0, -1):
            streams = [(y, c, 100_000, (2 if y == 1 else 1) * turn + by) for y, c in cycles]
            yield "uneven, edition %s, D %+d" % (edition, by), pnet_sheet(4, streams, edition)
            yield "uneven, edition %s, last D %+d" % (edition, by), pnet_sheet(4, [(*s[:3], 90_000) for s in streams[:3]] + streams[3:], edition)
    for edition in (1, 2):
        even = [(y, 203, 100_000, 2_000) for y in (1, 2, 3, 4, 1, 2, 3, 4)]
        yield "four masters, edition %d" % edition, pnet_sheet(4, even, edition)
        yield "four masters, edition %d, late" % edition, pnet_sheet(4, even[:4] + [(1, 203, 100_000, 1_999)] + even[5:], edition)
    for n in (1, 2, 31, 32):
        for master in sorted({1, n}):
            for d in (n * 1_595, n * 1_595 - 1):
                yield "N %d only master %d D %d, edition 2" % (n, master, d), pnet_sheet(n, [(master, 1_548, d, d)], 2)
    # W of master 2 is 1,080 bp, and the bound of master 1 under edition 2 1,050 bp: T, less J, holds both, or one bp less
    for t, j in ((2_130, 0), (2_129, 0), (3_000, 870), (3_000, 871), (1_790, 0), (1_789, 0)):
        yield "edition 2, T %d J %d" % (t, j), pnet_sheet(3, [(1, 303, t, 1_050, j)] + [(2, 303, 9_999, 9_999)] * 2, 2)


def edition_limits(rng):
    """As many streams as there may be behind an edition, and more."""
    for count in (80, 81):
        yield "%d streams on one master behind the edition" % count, full_segment(rng, 1, [count], kinds=(2, 7), edition=2)
    longest = full_segment(rng, 32, [25] * 32, kinds=(7,), edition=2)
    one_more = record(7, 1, 200, 5_000_000, 4_500_000, 500_000)
    yield "the longest sheet with the edition", longest
    yield "800 streams of kind 2 with edition 1", full_segment(rng, 10, [80] * 10, edition=1)
    yield "800 streams of kind 2 with edition 2", full_segment(rng, 10, [80] * 10, edition=2)
    yield "greatest bound, edition 2", full_segment(rng, 32, [80] + [23] * 31, kinds=(2, 7), edition=2)
    yield "greatest bound, edition 2, silent masters", full_segment(rng, 32, [80] * 10, edition=2)
    for name, last in [
        ("801st", one_more), ("801st of kind 2", record(2, 1, 200, 5_000_000, 4_500_000)), ("801st, cut", one_more[:-1]),
        ("801st, out of range", record(7, 33, 200, 5_000_000, 4_500_000, 500_000)), ("edition again", record(8, 2)), ("edition again, cut", bytes([8])),
        ("801st, unknown kind", bytes([11])), ("megabytes of kind 7", one_more * (2 * MEGABYTE // 16)),
    ]:
        yield "the longest sheet with the edition, then %s" % name, longest + last
    yield "a megabyte of editions", record(1, 4) + record(8, 1) * (MEGABYTE // 2)


def message_places():
    """The longest messages of a ring of kind 9 where they may stand, and where they may not."""
    head, one, two, stream = (9, 2, 300), (10, 1, 500), (10, 2, 900), (4, 1, 400, 8_400)
    for name, records in [
        ("ascending", [head, one, two, stream]),
        ("descending", [head, two, one, stream]),
        ("for a master without streams", [head, one, two, (4, 2, 900, 8_400)]),
        ("none", [head]),
        ("none, and a stream", [head, stream]),
        ("none, and a stream out of range", [head, (4, 3, 400, 8_400)]),
        ("none, and a stream of 100,000 bp", [head, (4, 1, 100_000, 8_400)]),
        ("none, and a stream of 100,001 bp", [head, (4, 1, 100_001, 8_400)]),
        ("the first missing at the end", [head, two]),
        ("the last missing at the end", [head, one]),
        ("the first missing at a stream", [head, two, stream]),
        ("the last missing at a stream", [head, one, stream]),
        ("the last missing at its own stream of 100,000 bp", [head, one, (4, 2, 100_000, 8_400)]),
        ("the last missing at its own stream of 100,001 bp", [head, one, (4, 2, 100_001, 8_400)]),
        ("the last missing at another's stream above its own", [head, one, (4, 1, 501, 8_400)]),
        ("the last missing, and given behind a stream", [head, one, stream, two]),
        ("twice the same", [head, one, one, two, stream]),
        ("twice the same, and one missing", [head, one, one, stream]),
        ("again with another number", [head, one, two, (10, 1, 9), stream]),
        ("again, out of range", [head, one, two, (10, 1, 0), stream]),
        ("again, above its range", [head, one, two, (10, 1, 100_001), stream]),
        ("of master 0", [head, one, (10, 0, 500), two, stream]),
        ("of master 3", [head, one, two, (10, 3, 500), stream]),
        ("with no stream", [head, one, two]),
        ("behind a stream", [head, one, two, stream, one]),
        ("between streams", [head, one, two, stream, two, stream]),
        ("first", [one, head, two, stream]),
        ("alone", [one]),
        ("behind a ring of kind 3", [(3, 2, 300, 500), one, stream]),
        ("behind a segment", [(1, 2), one, (2, 1, 203, 100_000, 90_000)]),
        ("behind an exchange", [(5, 400), one, (6, 17, 1_000)]),
        ("then the ring again", [head, one, two, head, stream]),
        ("then a ring of kind 3", [head, one, two, (3, 2, 300, 500), stream]),
        ("then an edition", [head, one, two, (8, 1), stream]),
        ("then a segment's stream", [head, one, two, (2, 1, 203, 100_000, 90_000)]),
        ("behind no masters", [(9, 0, 300), one, stream]),
        ("behind 33 masters", [(9, 33, 300), one, stream]),
        ("C just its own", [head, one, two, (4, 1, 500, 8_400), (4, 2, 900, 8_400)]),
        ("C above its own, and not above the other's", [head, one, two, (4, 1, 501, 8_400)]),
        ("C above both", [head, one, two, (4, 2, 901, 8_400)]),
    ]:
        yield "longest message: %s" % name, sheet(records)
    for name, records in [("cut", [head]), ("cut behind another", [head, one]), ("cut behind all", [head, one, two]), ("cut behind a stream", [head, one, two, stream])]:
        for length in (1, 2, 5):
            yield "longest message: %s, %d bytes" % (name, length), sheet(records) + record(*one)[:length]
    for length in (1, 2, 9):
        yield "longest message: missing at a stream cut after %d bytes" % length, sheet([head, one]) + record(*stream)[:length]
    yield "longest message, then an unknown kind", sheet([head, one]) + bytes([11])


def message_figures():
    """TTR by the sum of the longest messages, whatever master has which."""
    streams = [(1, 400, 8_400), (1, 500, 10_000), (2, 300, 5_000)]
    for longest in ([500] * 3, [500, 300, 700], [500, 300, 4_000 - 500 - 300 - 300], [500, 300, 3_200], [500, 300, 3_201], [500, 300, 100_000]):
        messages = list(enumerate(longest, start=1))
        for name, own in (("", messages), (", the other way round", messages[::-1])):
            yield "ring with longest messages %s%s" % (longest, name), profibus_sheet(3, 300, own, streams)
    for latency in (2_499, 2_500, 2_501):
        yield "ring of kind 9 with L %d" % latency, profibus_sheet(3, latency, [(y, 500) for y in (2, 3, 1)], streams)
    yield "greatest TTR of kind 9", profibus_sheet(1, 1, [(1, 1)], [(1, 1, BILLION)])
    greatest = [(y, 100_000) for y in range(1, 33)]
    for d in (264_100_000, 264_099_999, 264_100_079, 264_100_080):
        yield "greatest ring of kind 9, D %d" % d, profibus_sheet(32, 100_000, greatest, [(1, 100_000, d)] + [(1, 100_000, BILLION)] * 79)


def message_limits():
    """As many streams and masters as there may be in a ring of kind 9, and more."""
    for count in (79, 80, 81):
        yield "%d streams on one master of kind 9" % count, profibus_sheet(1, 1, [(1, 1)], [(1, 1, 1_000_000)] * count)
    messages = [(y, y) for y in range(32, 0, -1)]
    full = profibus_sheet(32, 1, messages, [(y, y, 1_000_000) for y in range(1, 33) for _ in range(25)])
    yield "the longest ring", full
    for name, last in [
        ("the 801st", record(4, 5, 5, 1_000_000)), ("the 801st, above its master's", record(4, 5, 6, 1_000_000)), ("the 801st, D 0", record(4, 5, 5, 0)),
        ("a longest message", record(10, 5, 5)), ("a longest message, cut", bytes([10])), ("a megabyte of streams", record(4, 5, 5, 1_000_000) * (MEGABYTE // 10)),
        ("a megabyte of longest messages", record(10, 5, 5) * (MEGABYTE // 6)),
    ]:
        yield "the longest ring, then %s" % name, full + last
    for missing in (1, 16, 31, 32):
        others = [pair for pair in messages if pair[0] != missing]
        yield "32 masters, longest message %d missing" % missing, profibus_sheet(32, 1, others, [(32, 1, 9)])
        yield "32 masters, longest message %d missing at the end" % missing, profibus_sheet(32, 1, others, [])
    yield "a megabyte of one longest message", profibus_sheet(2, 1, [(1, 1)], []) + record(10, 1, 1) * (MEGABYTE // 6)


def edges(rng):
    """Sheets that stand just at a rule, each by name."""
    yield "empty", b""
    for kind in range(256):
        if kind < 20 or kind in (99, 128, 255):
            yield "kind %d alone" % kind, bytes([kind])
    yield "no masters", bytes([1, 0])
    yield "33 masters", bytes([1, 33])
    yield "no stream", bytes([1, 4])

    for kind in WIDTHS:
        for field in range(len(WIDTHS[kind])):
            for value in around(kind, field):
                yield "kind %d field %d is %d" % (kind, field + 1, value), with_field(kind, field, value)
    # D is held by T, and T alone can make D too great
    for t, d in [(1, 1), (1, 2), (BILLION, BILLION), (BILLION, BILLION + 1), (89_999, 90_000)]:
        yield "T %d D %d" % (t, d), pnet_sheet(1, [(1, 1, t, d)])
    # and by T - J, which must not be worked out where J is above T
    for t, d in [(1, 1), (2, 1), (1_000, 1), (1_000, 400), (1_000, 1_000), (BILLION, 1), (BILLION, 400), (BILLION, BILLION)]:
        for j in sorted({j for j in jitter_edges(t, d) if 0 <= j <= ONES}):
            yield "T %d D %d J %d" % (t, d, j), pnet_sheet(1, [(1, 1, t, d, j)])
    for t, d, j in [(1_000, ONES, 1_001), (1_000, ONES - 1, 1_001), (1, ONES, 2), (1_000, 0, 1_000), (1_000, 0, 999), (0, 0, 0), (0, 1, 0), (0, 1, ONES)]:
        yield "T %d D %d J %d" % (t, d, j), pnet_sheet(1, [(1, 1, t, d, j)])
    for longest, c in [(1, 1), (1, 2), (100_000, 100_000), (100_000, 100_001)]:
        yield "M %d C %d" % (longest, c), profibus_sheet(1, 1, longest, [(1, c, BILLION)])

    # the page's worked sheets
    four = [(y, 203, 100_000, 2_000) for y in (1, 2, 3, 4, 1, 2, 3, 4)]
    yield "four masters", pnet_sheet(4, four)
    for i in range(8):
        late = list(four)
        late[i] = (late[i][0], 203, 100_000, 1_999)
        yield "four masters, stream %d late" % (i + 1), pnet_sheet(4, late)
    yield "two masters", pnet_sheet(2, [(y, 203, 100_000, 100_000) for y in (1, 1, 2)])
    # master 2's request may have waited 500 bp and come up to J late: 760 + 500 + J is T, or one more or less
    for t, j in [(1_560, 299), (1_560, 300), (1_560, 301), (3_000, 1_739), (3_000, 1_740), (3_000, 1_741), (3_000, 2_500)]:
        yield "two masters, T %d J %d" % (t, j), pnet_sheet(2, [(1, 203, 100_000, 100_000)] * 2 + [(2, 203, t, 500, j)])
    yield "the greatest J", pnet_sheet(2, [(1, 203, BILLION, 1_000, BILLION - 1_000)] * 2 + [(2, 203, BILLION, 500, BILLION - 500)])
    ring = [(1, 400, 8_400), (1, 500, 10_000), (2, 300, 5_000)]
    yield "ring", profibus_sheet(3, 300, 500, ring)
    for latency in (2_499, 2_500, 2_501):
        yield "ring with L %d" % latency, profibus_sheet(3, latency, 500, ring)
    yield "table", worldfip_sheet(400, [(17, 1_000), (18, 2_000), (19, 4_000), (20, 4_000)])
    yield "table, third at 2000", worldfip_sheet(
        400, [(17, 1_000), (18, 2_000), (19, 2_000), (20, 4_000)])
    yield "E 210", worldfip_sheet(210, [(i, 1_000) for i in (1, 2, 3, 4)] + [(5, 3_000)])

    # counts of masters and streams
    for n in (1, 2, 31, 32):
        for master in {1, n}:
            turn = 47 + 1548 + 10 * (n - 1)
            for d in (turn, turn - 1):
                yield "N %d only master %d D %d" % (n, master, d), pnet_sheet(n, [(master, 1548, d, d)])
    for count in (79, 80, 81):
        yield "%d streams on one master" % count, full_segment(rng, 1, [count])
        yield "%d streams of kind 7 on one master" % count, full_segment(rng, 1, [count], kinds=(7,))
        yield "%d streams of kinds 2 and 7 on one master" % count, full_segment(rng, 1, [count], kinds=(2, 7))
        yield "%d ring streams on one master" % count, profibus_sheet(
            1, 1, 1, [(1, 1, 1_000_000)] * count)
    eighty = full_segment(rng, 10, [80] * 10)
    yield "80 streams each", pnet_sheet(
        10, [(y, 200, 1_000_000, 1_000_000) for y in range(1, 11) for _ in range(80)])
    yield "800 streams", eighty
    yield "800 streams on 32 masters", full_segment(rng, 32, [25] * 32)
    yield "greatest bound", full_segment(rng, 32, [80] + [23] * 31)
    one_more = record(2, 1, 200, 5_000_000, 4_500_000)
    yield "the 801st", full_segment(rng, 32, [25] * 32) + one_more
    yield "the 801st, out of range", full_segment(rng, 32, [25] * 32) + record(2, 33, 1, 9, 9)
    yield "the 801st, cut", full_segment(rng, 32, [25] * 32) + one_more[:-1]
    yield "the 801st, wrong kind", full_segment(rng, 32, [25] * 32) + bytes([4])
    yield "the 801st, unknown kind", full_segment(rng, 32, [25] * 32) + bytes([11])
    yield "the 801st, kind 8", full_segment(rng, 32, [25] * 32) + record(8, 1)
    yield "the 801st and 81st at once", eighty + one_more
    longest = full_segment(rng, 32, [25] * 32, kinds=(7,))
    one_late = record(7, 1, 200, 5_000_000, 4_500_000, 500_000)
    yield "the longest sheet without the edition", longest
    yield "800 streams of kinds 2 and 7", full_segment(rng, 10, [80] * 10, kinds=(2, 7))
    yield "the 801st, kind 7 behind kind 2", full_segment(rng, 32, [25] * 32) + one_late
    yield "the 801st, kind 7 behind kind 7", longest + one_late
    yield "the 801st, kind 2 behind kind 7", longest + one_more
    yield "the 801st of kind 7, out of range", longest + record(7, 1, 200, 5_000_000, 4_500_000, 500_001)
    yield "the 801st of kind 7, cut", longest + one_late[:-1]
    yield "the 801st behind kind 7, wrong kind", longest + bytes([4])
    yield "the 801st behind kind 7, unknown kind", longest + bytes([11])
    yield "the 801st of kinds 2 and 7", full_segment(rng, 32, [25] * 32, kinds=(2, 7)) + one_late
    ring800 = profibus_sheet(32, 1, 1, [(y, 1, 1_000_000) for y in range(1, 33) for _ in range(25)])
    yield "800 ring streams", ring800
    yield "the 801st ring stream", ring800 + record(4, 5, 1, 1_000_000)
    yield "the 801st ring stream, D 0", ring800 + record(4, 5, 1, 0)

    yield from message_places()
    yield from message_figures()
    yield from message_limits()
    yield from edition_places()
    yield from edition_figures()
    yield from edition_limits(rng)

    # input far longer than any good sheet
    yield "81st, then megabytes of streams", (
        full_segment(rng, 1, [80]) + one_more * (2 * MEGABYTE // 12))
    yield "801st, then megabytes of noise", (
        full_segment(rng, 32, [25] * 32) + one_more + rng.randbytes(3 * MEGABYTE))
    yield "81st, then megabytes of kind 7", full_segment(rng, 1, [80], kinds=(7,)) + one_late * (2 * MEGABYTE // 16)
    yield "801st, then megabytes of kind 7", longest + one_late * (3 * MEGABYTE // 16)
    yield "801st ring stream, then a megabyte", ring800 + record(4, 5, 1, 1_000_000) * (MEGABYTE // 10)
    many = [(i, 10_000) for i in range(64)]
    yield "65th, then megabytes", worldfip_sheet(1, many) + record(6, 99, 10_000) * (2 * MEGABYTE // 7)
    yield "a megabyte of kind 1", record(1, 4) * (MEGABYTE // 2)
    yield "a megabyte of zeros", bytes(MEGABYTE)
    yield "a good sheet, then a megabyte of zeros", eighty[: 2 + 12 * 40] + bytes(MEGABYTE)

    # variables and identifiers
    yield "64 variables", worldfip_sheet(1, many)
    yield "65 variables", worldfip_sheet(1, many + [(64, 10_000)])
    yield "the 65th met before", worldfip_sheet(1, many + [(0, 10_000)])
    yield "the 64th met before", worldfip_sheet(1, many[:63] + [(62, 10_000)])
    yield "met before and period 0", worldfip_sheet(1, [(1, 10), (1, 0)])
    yield "identifiers 0 and 65535", worldfip_sheet(1, [(65_535, 10), (0, 10)])
    yield "64 in 64 slots, descending", worldfip_sheet(1, [(i, 64) for i in range(64, 0, -1)])
    yield "64 in 63 slots, descending", worldfip_sheet(1, [(i, 63) for i in range(64, 0, -1)])
    yield "64 in 65 slots", worldfip_sheet(1, [(i, 65) for i in range(64)])
    yield "64 in one slot", worldfip_sheet(100, [(i, 6_400) for i in range(63)] + [(63, 100)])
    yield "64 one at a time", worldfip_sheet(100, [(0, 200)] + [(i, 12_600) for i in range(1, 64)])
    yield "64 one at a time, one too many", worldfip_sheet(
        100, [(0, 200)] + [(i, 12_400) for i in range(1, 64)])

    # rows around the limit
    for rows in (4_095, 4_096, 4_097, 8_192):
        yield "%d rows, mostly empty" % rows, worldfip_sheet(1, [(1, 2 * rows), (2, 2)])
        yield "%d rows of one slot" % rows, worldfip_sheet(1, [(2, 2), (1, rows)])
    yield "4096 rows, 64 variables", worldfip_sheet(
        10, [(i, 100 * 2 ** (i % 13)) for i in range(64)])
    yield "4096 rows, misses", worldfip_sheet(
        50, [(i, 100 * 2 ** min(i, 12)) for i in range(14)] + [(i, 409_600) for i in range(14, 64)])
    yield "rows 4080, 255 and 16", worldfip_sheet(1, [(1, 255), (2, 16)])
    yield "rows 4097, 17 and 241", worldfip_sheet(1, [(1, 17), (2, 241)])
    yield "rows 4097, no slot", worldfip_sheet(2, [(1, 17), (2, 241)])
    yield "greatest periods", worldfip_sheet(1, [(1, 999_999_937), (2, BILLION)])
    yield "64 huge periods", worldfip_sheet(1, [(i, BILLION - i) for i in range(64)])
    yield "64 primes", worldfip_sheet(1, list(enumerate(PRIMES[:64])))
    for periods in WRAPPING:
        product = math.prod(periods)
        yield "product %d" % product, worldfip_sheet(1, list(enumerate(periods)))
        yield "product %d, then 1" % product, worldfip_sheet(1, list(enumerate(periods + (1,))))
    yield "greatest slots", worldfip_sheet(1, [(65_535, BILLION)])
    yield "one slot, one row", worldfip_sheet(1_000_000, [(1, 1_000_000)])
    yield "no slot by one", worldfip_sheet(1_000_000, [(1, 999_999)])
    yield "empty rows", worldfip_sheet(500, [(9, 3_000), (8, 2_000)])

    # ring figures at the ends of their ranges
    yield "greatest TTR", profibus_sheet(1, 1, 1, [(1, 1, BILLION)])
    yield "greatest h and n", profibus_sheet(32, 100_000, 100_000, [(1, 100_000, BILLION)] * 80)
    for d in (264_100_000, 264_099_999, 264_100_079, 264_100_080):
        yield "greatest ring, D %d" % d, profibus_sheet(
            32, 100_000, 100_000, [(1, 100_000, d)] + [(1, 100_000, BILLION)] * 79)
    yield "D below C", profibus_sheet(1, 1, 1_000, [(1, 1_000, 1)])
    yield "D below C, second", profibus_sheet(1, 1, 1_000, [(1, 1, 9_999), (1, 1_000, 999)])
