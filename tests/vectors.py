"""Self-test of the second opinion: figures that are known beforehand.

They are the cases worked by hand on page 01 and, where a page can be taken
in two ways, the inputs on which the readings differ, with the answer of the
reading that was chosen.
"""

import os
import sys

sys.path.insert(0, os.path.dirname(os.path.abspath(__file__)))
sys.dont_write_bytecode = True

import second_opinion as opinion  # noqa: E402
from second_opinion import Refusal  # noqa: E402


def record(kind, *numbers):
    body = b"".join(n.to_bytes(w, "big") for n, w in zip(numbers, opinion.WIDTHS[kind]))
    return bytes([kind]) + body


def sheet(*records):
    return b"".join(record(*r) for r in records)


def events(*records):
    return b"".join(
        bytes([kind]) + stream.to_bytes(2, "big") + stamp.to_bytes(4, "big") for kind, stream, stamp in records
    )


def under(edition, records):
    """The sheet of these records with the edition written."""
    return sheet(records[0], (8, edition), *records[1:])


def shown(answer):
    """An answer in the words of the vectors below."""
    if isinstance(answer, Refusal):
        return "%d at %d" % answer
    if isinstance(answer, opinion.Sheet):
        return "accepted"
    if isinstance(answer, opinion.PnetPlan):
        return "R %s; W %s; rounds %s" % tuple(
            " ".join(str(x) for x in run) for run in answer
        )
    if isinstance(answer, opinion.UrgentPlan):
        return "x %s; rounds %s" % tuple(" ".join(str(x) for x in run) for run in answer[1:])
    if isinstance(answer, opinion.ProfibusPlan):
        return "TTR %d by %d" % answer
    if isinstance(answer, opinion.WorldfipPlan):
        return "microcycle %d; slots %d; rows %s" % (
            answer.microcycle,
            answer.slots,
            " ".join(str(x) for x in answer.rows),
        )
    if isinstance(answer, list) and all(isinstance(one, opinion.Shown) for one in answer):
        return "; ".join("%d %d %d %d" % one[2:] for one in answer)
    if isinstance(answer, opinion.Crossed):
        return "total %d" % answer.total
    if isinstance(answer, opinion.Written):
        return "%s then %d" % (answer.record.hex(), answer.place)
    if isinstance(answer, bytes):
        return answer.decode("ascii")
    return str(answer)


# ---------------------------------------------------------------- page 01, and the count of page 02's Ask 2

UP = [(0, 0), (1, 14), (48, 625), (2_000, 26_042), (48_001, 625_014)]
DOWN = [(26_041, 1_999), (26_042, 2_000)]
# page 02, Ask 5; two legs of 501 bp are turned up once, not leg by leg
UP_NS = [(0, 0), (1, 13_021), (6, 78_125), (501, 6_523_438), (1_000, 13_020_834), (1_002, 13_046_875)]
# the conversions accept every 32-bit number
UP_WIDE = [(2**32 - 1, 55_924_053_321)]
UP_NS_WIDE = [(2**32 - 1, 55_924_053_320_313)]
DOWN_WIDE = [(0, 0), (2**32 - 1, 329_853_488)]

FOUR_MASTERS = [(1, 4)] + [(2, y, 203, 100_000, 2_000) for y in (1, 2, 3, 4, 1, 2, 3, 4)]
FOUR_MASTERS_LATE = FOUR_MASTERS[:5] + [(2, 1, 203, 100_000, 1_999)] + FOUR_MASTERS[6:]
TWO_MASTERS = [
    (1, 2),
    (2, 1, 203, 100_000, 100_000),
    (2, 1, 203, 100_000, 100_000),
    (2, 2, 203, 100_000, 100_000),
]
# master 2's request may have waited 500 bp when master 1's window opens
WAITING = TWO_MASTERS[:3] + [(2, 2, 203, 1_000, 1_000)]
# page 02, Ask 7: D of 700 bp is all that J of 300 bp leaves of T
JITTER = (7, 1, 203, 1_000, 700, 300)
# page 02, Ask 10: H of 350 bp is master 2's, master 1 has 250 bp, and master 3 is silent
UNEVEN = [
    (1, 3),
    (2, 1, 203, 100_000, 100_000),
    (2, 1, 203, 100_000, 100_000),
    (2, 2, 303, 100_000, 100_000),
]
RING = [(3, 3, 300, 500), (4, 1, 400, 8_400), (4, 1, 500, 10_000), (4, 2, 300, 5_000)]
# page 02, Ask 8: the same ring with each master's own longest message, and with one slow drive, which counts once
OPEN_RING = [(9, 3, 300), (10, 1, 500), (10, 2, 500), (10, 3, 500), *RING[1:]]
SLOW_DRIVE = [(9, 3, 300), (10, 3, 2_000), (10, 1, 500), (10, 2, 300), *RING[1:]]
SLOW_DRIVE_OF_ALL = [(3, 3, 300, 2_000), *RING[1:]]
TABLE = [(5, 400), (6, 17, 1_000), (6, 18, 2_000), (6, 19, 4_000), (6, 20, 4_000)]
TABLE_LATE = TABLE[:3] + [(6, 19, 2_000)] + TABLE[4:]
E210 = [(5, 210)] + [(6, i, 1_000) for i in (1, 2, 3, 4)] + [(6, 5, 3_000)]
EIGHTY_EACH = [(1, 10)] + [
    (2, y, 200, 1_000_000, 1_000_000) for y in range(1, 11) for _ in range(80)
]

# page 02, Ask 11: V is 250 bp, and first come has 750 bp for each stream
URGENT = [(1, 1), (2, 1, 203, 500, 500), (2, 1, 203, 100_000, 100_000), (2, 1, 203, 100_000, 100_000)]

FULL_RING = sheet((9, 32, 1), *[(10, y, 1) for y in range(32, 0, -1)], *[(4, 1 + i % 32, 1, 9) for i in range(800)])
JITTERS = sheet((1, 32), *[(7, 1 + i % 32, 203, 1_000, 700, 300) for i in range(800)])
LONGEST = JITTERS[:2] + sheet((8, 2)) + JITTERS[2:]

EIGHTY_LINES = b"pnet-segment,10\n" + b"".join(
    b"pnet-stream,%d,200 bp,1000000 bp,1000000 bp\n" % y for y in range(1, 11) for _ in range(80)
)

PAGE = [
    ("pnet", sheet(*FOUR_MASTERS),
     "R 2000 2000 2000 2000; W 2000 2000 2000 2000; rounds 1 1 1 1"),
    ("pnet", sheet(*FOUR_MASTERS_LATE), "8 at 5"),
    ("report", sheet(*FOUR_MASTERS_LATE), "refused 8 at stream 5\n"),
    ("pnet", sheet(*TWO_MASTERS), "R 1000 500; W 760 500; rounds 1 1"),
    ("report", sheet(*TWO_MASTERS),
     "P-NET segment\n"
     "M01 bound 1000 bp 13020834 ns refined 760 bp 9895834 ns 1 rounds\n"
     "M02 bound 500 bp 6510417 ns refined 500 bp 6510417 ns 1 rounds\n"),
    ("pnet", sheet(*WAITING), "R 1000 500; W 1000 500; rounds 2 1"),
    ("profibus", sheet(*RING), "TTR 2500 by 1"),
    ("report", sheet(*RING), "PROFIBUS ring\nTTR 2500 bp limited by stream 1\n"),
    ("report", sheet(*OPEN_RING), "PROFIBUS ring\nTTR 2500 bp limited by stream 1\n"),
    ("report", sheet(*SLOW_DRIVE), "PROFIBUS ring\nTTR 1200 bp limited by stream 1\n"),
    ("report", sheet(*SLOW_DRIVE_OF_ALL), "refused 9 at stream 1\n"),
    ("worldfip", sheet(*TABLE), "microcycle 1000; slots 2; rows 3 5 3 9"),
    ("report", sheet(*TABLE),
     "WorldFIP table\n"
     "microcycle 1000 us 2 slots 4 rows\n"
     "row 0: 17 18\nrow 1: 17 19\nrow 2: 17 18\nrow 3: 17 20\n"),
    ("worldfip", sheet(*TABLE_LATE), "12 at 4"),
    ("report", sheet(*TABLE_LATE), "refused 12 at variable 4\n"),
    ("worldfip", sheet(*E210), "12 at 5"),
    ("report", b"", "refused 1 at byte 0\n"),
    ("read", b"", "1 at 0"),
    ("read", bytes([99]), "2 at 0"),
    ("read", bytes([1, 0]), "4 at 0"),
    ("read", bytes([1, 33]), "4 at 0"),
    ("read", bytes([1, 4]), "6 at 2"),
    ("report", bytes([1, 4]), "refused 6 at byte 2\n"),
]

# call, sheet in hex (for write: place, buffer length, kind and numbers), for capture the capture too, answer (for rewrite in hex)
READINGS = r"""
pnet | 05 00000190 | 6 at 5
pnet | 05 | 1 at 0
worldfip | 01 21 | 4 at 0
pnet | 05 00000190 06 0011 000003e8 | 3 at 0
read | 07 | 3 at 0
read | 08 | 3 at 0
read | 09 | 1 at 0
read | 0a | 3 at 0
read | 0b | 2 at 0
read | 10 | 2 at 0
read | 09 02 00000064 0a 02 00000009 0a 01 00000008 04 01 00000008 0000ffff | accepted
read | 09 02 00000064 0a 01 00000008 04 01 00000008 0000ffff | 20 at 12
read | 09 01 000186a1 | 4 at 0
read | 09 01 00000064 0a 01 00000001 | 6 at 12
read | 09 01 00000064 | 20 at 6
read | 09 02 00000064 0a 01 000001f4 04 01 000001f5 00000009 | 4 at 12
read | 09 02 00000064 0a 01 000001f4 04 02 000001f5 00000009 | 20 at 12
read | 09 02 00000064 0a 01 000001f4 04 02 000186a1 00000009 | 4 at 12
read | 09 02 00000064 0a 01 000001f4 04 02 | 1 at 12
read | 09 01 00000064 0a 01 000001f4 04 01 00000001 00000009 0a 01 000001f4 | 3 at 22
read | 09 01 00000064 0a 01 000001f4 0a 01 00000000 | 4 at 12
read | 03 01 00000064 000001f4 0a 01 000001f4 | 3 at 10
report | 09 01 00000064 | refused 20 at byte 6\n
read | 09 02 00000064 0a 01 000001f4 0a 01 000001f5 | 20 at 12
read | 09 02 00000064 0a 01 000001f4 0a 01 000001f4 0a 02 000001f4 04 01 00000001 00000009 | 20 at 12
read | 09 02 00000064 0a 01 000001f4 0a 03 000001f4 | 4 at 12
read | 09 02 00000064 0a 00 000001f4 | 4 at 6
read | 09 02 00000064 0a 01 00000000 | 4 at 6
read | 09 02 00000064 0a 01 000186a0 | 20 at 12
read | 09 02 00000064 0a 01 000186a1 | 4 at 6
read | 09 02 00000064 0a 01 0000 | 1 at 6
read | 09 02 00000064 0a | 1 at 6
read | 09 02 00000064 0b | 2 at 6
read | 09 02 00000064 02 | 3 at 6
read | 09 02 00000064 08 | 3 at 6
read | 09 02 00000064 09 | 3 at 6
read | 09 02 00000064 03 | 3 at 6
read | 09 02 00000064 04 | 1 at 6
read | 09 02 00000064 04 01 00000001 00000001 | 20 at 6
read | 09 02 00000064 04 03 00000001 00000001 | 4 at 6
read | 09 02 00000064 04 02 000186a0 00000001 | 20 at 6
read | 09 02 00000064 04 02 000186a1 00000001 | 4 at 6
read | 09 02 00000064 0a 01 00000001 0a 02 00000001 | 6 at 18
read | 09 02 00000064 0a 01 00000001 0a 02 00000002 04 01 00000001 00000001 04 02 00000002 00000001 | accepted
read | 09 02 00000064 0a 01 00000001 0a 02 00000002 04 01 00000002 00000001 | 4 at 18
read | 09 02 00000064 0a 01 00000001 0a 02 00000002 04 02 00000003 00000001 | 4 at 18
read | 09 01 00000064 0a 01 000001f4 04 01 00000001 00000009 0a | 3 at 22
read | 09 01 00000064 0a 01 000001f4 04 01 00000001 00000009 09 | 3 at 22
read | 09 00 00000064 | 4 at 0
read | 09 21 00000064 | 4 at 0
read | 09 20 00000000 | 4 at 0
read | 09 20 000186a0 | 20 at 6
read | 09 01 000000 | 1 at 0
read | 0104 0a | 3 at 2
read | 0104 09 | 3 at 2
read | 05 00000190 0a 01 00000001 | 3 at 5
read | 03 01 00000064 000001f4 09 | 3 at 10
pnet | 09 01 00000064 0a 01 000001f4 04 01 00000001 00000009 | 3 at 0
worldfip | 09 01 00000064 0a 01 000001f4 04 01 00000001 00000009 | 3 at 0
worldfip | 09 01 00000064 | 20 at 6
profibus | 09 01 00000064 0a 01 000001f4 04 01 00000001 00000009 | 9 at 1
profibus | 09 02 00000064 0a 02 00000190 0a 01 0000000a 04 01 0000000a 00000208 | TTR 100 by 1
profibus | 09 02 00000064 0a 02 00000190 0a 01 0000000a 04 01 0000000a 00000207 | 9 at 1
profibus | 03 02 00000064 00000190 04 01 0000000a 00000208 | 9 at 1
profibus | 09 01 00000064 0a 01 0000000a 04 01 0000000a 000003e9 04 01 0000000a 000003e8 | TTR 485 by 1
write | 7 | 0 | 3 0 0 0 | 2 at 7
write | 7 | 99 | 3 1 1 1 | 2 at 7
write | 18446744073709551615 | 0 | 3 1 1 1 | 2 at 18446744073709551615
write | 0 | 6 | 9 32 100000 | 0920000186a0 then 6
write | 0 | 6 | 9 33 100000 | 4 at 0
write | 0 | 6 | 9 32 100001 | 4 at 0
write | 0 | 6 | 9 0 1 | 4 at 0
write | 0 | 6 | 9 1 0 | 4 at 0
write | 6 | 12 | 10 32 100000 | 0a20000186a0 then 12
write | 6 | 12 | 10 33 100000 | 4 at 6
write | 6 | 12 | 10 32 100001 | 4 at 6
write | 6 | 12 | 10 0 1 | 4 at 6
write | 6 | 12 | 10 1 0 | 4 at 6
write | 6 | 11 | 10 1 1 | 13 at 12
write | 18446744073709551609 | 9 | 9 1 1 | 13 at 18446744073709551615
write | 18446744073709551610 | 9 | 10 1 1 | 13 at 0
write | 0 | 6 | 11 1 1 | 2 at 0
rewrite | 03 01 00000064 000001f4 04 01 00000001 00000009 | 0901000000640a01000001f404010000000100000009
rewrite | 03 03 00000064 000001f4 04 02 000001f4 00000009 04 01 00000001 00000009 | 0903000000640a01000001f40a02000001f40a03000001f40402000001f40000000904010000000100000009
rewrite | 09 02 00000064 0a 02 00000009 0a 01 00000008 04 01 00000008 0000ffff | 0902000000640a02000000090a01000000080401000000080000ffff
rewrite | 0101 0802 020100cb000003e8000003e8 | 01010802020100cb000003e8000003e8
rewrite | 0500000190 060011000003e8 | 0500000190060011000003e8
rewrite | - | 1 at 0
rewrite | 03 | 1 at 0
rewrite | 03 01 00000064 000001f4 | 6 at 10
rewrite | 03 01 00000064 000001f4 04 01 000001f5 00000009 | 4 at 10
rewrite | 09 01 00000064 | 20 at 6
pnet | 0102 0802 020100cb000186a0000186a0 | R 500 0; W 260 0; rounds 1 0
pnet | 0103 0802 020300cb00000bb800000bb8 02020035000005dc000005dc 0203000300000bb800000bb8 | R 0 750 1500; W 0 510 1020; rounds 0 1 2
read | 0104 0801 0802 020100cb000003e8000003e8 | 3 at 4
read | 0104 0801 | 6 at 4
read | 0104 08 | 1 at 2
read | 0104 0802 | 6 at 4
read | 0104 0800 | 4 at 2
read | 0104 0803 | 4 at 2
read | 0104 08ff | 4 at 2
read | 0104 0800 63 | 4 at 2
read | 0104 0801 63 | 2 at 4
read | 0104 0801 08 | 3 at 4
read | 0104 0801 0104 | 3 at 4
read | 0104 0801 04 | 3 at 4
read | 0104 0801 02 | 1 at 4
read | 0104 0801 020500cb000003e8000003e8 | 4 at 4
read | 0104 0801 020100cb000003e8000003e8 | accepted
read | 0104 0802 070100cb000003e8000002bc0000012c 020100cb000003e8000003e8 | accepted
read | 0104 020100cb000003e8000003e8 0802 | 3 at 14
read | 0104 020100cb000003e8000003e8 0800 | 3 at 14
read | 0104 020100cb000003e8000003e8 08 | 3 at 14
read | 0104 070100cb000003e8000002bc0000012c 0801 | 3 at 18
read | 0104 0802 020100cb000003e8000003e8 0802 | 3 at 16
read | 0802 | 3 at 0
read | 0802 0104 020100cb000003e8000003e8 | 3 at 0
read | 0100 0802 | 4 at 0
read | 03 01 00000001 00000001 08 | 3 at 10
read | 03 01 00000001 00000001 0801 | 3 at 10
read | 05 00000190 0802 | 3 at 5
profibus | 0101 0802 020100cb000003e8000003e8 | 3 at 0
worldfip | 0101 0801 020100cb000003e8000003e8 | 3 at 0
pnet | 0102 020100cb000003e8000001f3 | R 260 0; W 260 0; rounds 1 0
pnet | 0102 0801 020100cb000003e8000001f3 | R 260 0; W 260 0; rounds 1 0
pnet | 0102 0802 020100cb000003e8000001f3 | 8 at 1
pnet | 0102 0802 020100cb000003e8000001f4 | R 500 0; W 260 0; rounds 1 0
pnet | 0101 0802 020100cb000003e8000003e8 020100cb000003e8000001f3 | 8 at 2
pnet | 0101 0802 020100cb000186a0000186a0 070100cb00000bb80000000100000000 | 8 at 2
write | 2 | 4 | 8 1 | 0801 then 4
write | 2 | 4 | 8 2 | 0802 then 4
write | 2 | 4 | 8 0 | 4 at 2
write | 2 | 0 | 8 3 | 4 at 2
write | 2 | 4 | 8 256 | 4 at 2
write | 2 | 3 | 8 2 | 13 at 4
write | 18446744073709551613 | 9 | 8 2 | 13 at 18446744073709551615
write | 18446744073709551614 | 9 | 8 2 | 13 at 0
read | 0104 07 01 00cb 000003e8 000003e8 00000000 | accepted
read | 0104 07 01 00cb 000003e8 00000001 000003e7 | accepted
read | 0104 07 01 00cb 000003e8 00000001 000003e8 | 4 at 2
read | 0104 07 01 00cb 000003e8 00000001 000003e9 | 4 at 2
read | 0104 07 01 00cb 000003e8 00000001 ffffffff | 4 at 2
read | 0104 07 01 00cb 000003e8 00000000 000003e7 | 4 at 2
read | 0104 07 01 00cb 000003e8 00000000 000003e8 | 4 at 2
read | 0104 07 01 00cb 000003e8 000001f4 000001f4 | accepted
read | 0104 07 01 00cb 000003e8 000001f5 000001f4 | 4 at 2
read | 0104 07 01 00cb 000003e8 000003e9 00000000 | 4 at 2
read | 0104 07 01 00cb 000003e8 ffffffff 000003e9 | 4 at 2
read | 0104 07 01 00cb 00000001 00000001 00000000 | accepted
read | 0104 07 01 00cb 00000001 ffffffff 00000002 | 4 at 2
read | 0104 07 01 00cb 00000000 00000000 00000000 | 4 at 2
read | 0104 07 01 00cb 00000000 00000001 00000000 | 4 at 2
read | 0104 07 01 00cb 3b9aca00 00000001 3b9ac9ff | accepted
read | 0104 07 01 00cb 3b9aca01 00000001 00000000 | 4 at 2
read | 0104 07 05 00cb 000003e8 000003e8 00000000 | 4 at 2
read | 0104 07 01 060d 000003e8 000003e8 00000000 | 4 at 2
read | 0104 07 01 00cb 000003e8 000003e8 000000 | 1 at 2
read | 0104 07 01 00cb 000003e8 000003e8 | 1 at 2
read | 0104 07 | 1 at 2
read | 0104 02 01 00cb 000003e8 000003e8 00000000 | 2 at 14
read | 0104 07 01 00cb 000003e8 000003e8 00000000 02 01 00cb 000003e8 000003e9 | 4 at 18
read | 0104 02 01 00cb 000003e8 000003e8 07 01 00cb 000003e8 000003e8 00000001 | 4 at 14
read | 03 01 00000001 00000001 07 | 3 at 10
read | 05 00000190 07 | 3 at 5
profibus | 0101 070100cb000003e8000003e800000000 | 3 at 0
worldfip | 0101 070100cb000003e8000003e800000000 | 3 at 0
pnet | 0101 020100cb000186a0000186a0 070100cb00000bb80000000100000000 | 8 at 2
pnet | 0102 020100cb000186a0000186a0 020100cb000186a0000186a0 070200cb00000bb8000001f4000009c4 | R 1000 500; W 1000 500; rounds 2 1
write | 0 | 16 | 7 32 1548 1000000000 1 999999999 | 0720060c3b9aca00000000013b9ac9ff then 16
write | 5 | 20 | 7 1 203 1000 700 300 | 13 at 21
write | 5 | 0 | 7 1 203 1000 701 300 | 4 at 5
write | 5 | 0 | 7 1 203 1000 1 1000 | 4 at 5
write | 5 | 0 | 7 1 203 1000 1 4294967295 | 4 at 5
write | 18446744073709551599 | 9 | 7 1 203 1000 700 300 | 13 at 18446744073709551615
write | 18446744073709551600 | 9 | 7 1 203 1000 700 300 | 13 at 0
write | 5 | 20 | 2 1 70000 99 99 | 4 at 5
write | 18446744073709551613 | 9 | 1 4 | 13 at 18446744073709551615
write | 18446744073709551614 | 9 | 1 4 | 13 at 0
write | 18446744073709551615 | 9 | 1 33 | 4 at 18446744073709551615
read | - | 1 at 0
read | 02 | 3 at 0
read | 0104 04 | 3 at 2
read | 01 | 1 at 0
read | 03 00 00 | 1 at 0
read | 0104 02 05 0000 | 1 at 2
read | 0104 0104 | 3 at 2
read | 05 00000001 06 0001 000003e8 06 0001 00000000 | 4 at 12
write | 5 | 0 | 1 4 | 13 at 7
profibus | 03 01 00000064 0000000a 04 01 0000000a 000000e5 04 01 0000000a 00000001 | 9 at 1
profibus | 03 01 00000001 000003e8 04 01 000003e8 00000001 | 9 at 1
profibus | 03 01 00000064 0000000a 04 01 0000000a 000003e9 04 01 0000000a 000003e8 | TTR 485 by 1
worldfip | 05 00000002 06 0001 00000011 06 0002 000000f1 | 10 at 0
worldfip | 05 00000001 06 0001 00000011 06 0002 000000f1 | 11 at 0
worldfip | 05 00000001 06 0001 3b9ac9c1 06 0002 3b9ac9ff | 11 at 0
capture | 0101 020100cb000003e8000003e8 | - | 0 0 0 0
capture | 0101 020100cb000003e8000003e8 | 02 | 2 at 0
capture | 0101 070100cb000003e8000002bc0000012c | 07 | 2 at 0
capture | 0101 070100cb000003e8000002bc0000012c | 10 0001 00000000 11 0001 000000fa | 1 250 0 0
capture | 0102 070100cb000003e8000000630000012c | 02 | 8 at 1
capture | 0102 0802 020100cb000003e8000003e8 | 10 0001 00000000 11 0001 000001f4 | 1 500 0 0
capture | 0102 0802 020100cb000003e8000003e8 | 10 0001 00000000 11 0001 000001f5 | 1 501 1 0
capture | 0102 0801 020100cb000003e8000003e8 | 10 0001 00000000 11 0001 000001f4 | 1 500 1 0
capture | 0102 0802 020100cb000003e8000001f3 | 02 | 8 at 1
capture | 0102 0802 020100cb000003e8000001f4 | 08 | 2 at 0
capture | 0102 0803 020100cb000003e8000001f4 | 02 | 4 at 2
capture | 0101 020100cb000003e8000003e8 | 10 0001 00000000 11 0001 000000fa 10 0001 00000200 11 0001 000002fb | 2 251 1 0
capture | 0102 020100cb0000006300000063 | 02 | 8 at 1
capture | 0101 020100cb000003e8000003e8 | 11 0002 | 1 at 0
capture | 0101 020100cb000003e8000003e8 | 11 0000 00000000 | 14 at 0
capture | 0101 020100cb000003e8000003e8 | 10 0001 fffffff0 11 0001 00000010 | 1 32 0 0
urgent | 0101 020100cb000003e8000003e8 | x 250; rounds 0
urgent | 0101 020100cb000003e8000003e8 020100cb000003e8000003e8 | x 500 500; rounds 1 1
urgent | 0101 070100cb000003e8000001f4000001f4 020100cb000003e8000003e8 020100cb000186a0000186a0 | x 500 1000 1000; rounds 1 2 2
urgent | 0101 020100cb000000f9000000f9 | 21 at 1
urgent | 0101 020100cb000000fa000000fa | x 250; rounds 0
urgent | 0101 020100cb000001f4000001f4 020100cb000186a0000186a0 020100cb000186a0000186a0 | x 500 1000 1000; rounds 1 2 2
urgent | 0101 020100cb000001f3000001f3 020100cb000186a0000186a0 020100cb000186a0000186a0 | 21 at 1
urgent | 0101 020100cb000186a0000186a0 020100cb000186a0000186a0 020100cb000001f4000001f4 | x 1000 1000 500; rounds 2 2 1
urgent | 0102 0802 020100cb000003e8000003e8 | x 500; rounds 0
urgent | 0102 0802 020100cb000003e8000001f3 | 21 at 1
urgent | 0102 0801 020100cb000003e8000001f3 | x 260; rounds 0
urgent | - | 1 at 0
urgent | 0104 | 6 at 2
urgent | 0104 0803 | 4 at 2
urgent | 05 00000190 | 6 at 5
urgent | 05 00000190 06 0011 000003e8 | 3 at 0
urgent | 03 01 00000001 00000001 04 01 00000001 000003e8 | 3 at 0
beside x | 0101 020100cb000000f9000000f9 | 02 | 21 at 1
beside x | 05 00000190 06 0011 000003e8 | 02 | 3 at 0
beside x | 0101 020100cb000003e8000003e8 | - | 0 0 0 0
beside x | 0101 020100cb000003e8000003e8 | 02 | 2 at 0
beside x | 0101 020100cb000003e8000003e8 | 11 0000 00000000 | 14 at 0
beside x | 0101 020100cb000001f4000001f4 020100cb000186a0000186a0 020100cb000186a0000186a0 | 10 0001 00000000 11 0001 000001f4 10 0002 00000000 11 0002 000003e8 | 1 500 0 0; 1 1000 0 0; 0 0 0 0
beside x | 0101 020100cb000001f4000001f4 020100cb000186a0000186a0 020100cb000186a0000186a0 | 10 0001 fffffff0 11 0001 000001e5 10 0002 00000000 11 0002 000003e9 | 1 501 1 0; 1 1001 1 0; 0 0 0 0
beside x | 0102 0802 020100cb000003e8000003e8 | 10 0001 00000000 11 0001 000001f5 | 1 501 1 0
"""

# segments (a sheet in hex, A for the one below, - for none, and the sending master), forwarding times, D, answer; n*x is n times x
SHEET_A = "0102 020100cb0000270f0000270f 020200cb0000270f0000270f"
PATHS = """
12*A:1 | 11*0 | 1000 | 17 at 11
11*A:1, -:1 | 11*0 | 1000 | 1 at 0
63:1 | - | 1000 | 2 at 0
A:1, 0102 020100cb0000006300000063:1 | 5 | 99999 | 8 at 1
0102 020100cb0000006300000063:1, 63:1 | 5 | 99999 | 8 at 1
- | - | 0 | 17 at 0
A:1 | - | 0 | 17 at 0
A:1, A:2 | 30 | 1060 | total 1060
A:1, A:2 | 30 | 1059 | 19 at 0
A:9, A:2 | 1000001 | 0 | 4 at 1
A:9, A:2 | 1000000 | 0 | 4 at 0
A:1, A:9 | 0 | 1 | 18 at 2
11*A:1 | 10*0 | 5500 | total 5500
11*A:1 | 10*0 | 5499 | 19 at 0
11*A:2 | 10*1000000 | 20005500 | total 20005500
11*A:2 | 9*1000000, 1000001 | 20005500 | 4 at 10
A:1, A:1 | 0 | 1000000001 | 4 at 0
A:1, A:1 | 0 | 1000000000 | total 1000
A:0, A:1 | 0 | 1000 | 18 at 1
A:1, 0103 020200cb0000270f0000270f:1 | 0 | 1000 | 18 at 2
A:1, 05 00000190 06 0011 000003e8:1 | 0 | 1000 | 3 at 0
A:1, 05 00000190:1 | 0 | 1000 | 6 at 5
2*0102 020100cb0000270f0000270f 020200cc0000270f0000270f:1 | 0 | 1002 | total 1002
A:1, 0102 070100cb0000270f00001388000003e8 020200cb0000270f0000270f:1 | 0 | 1000 | total 1000
A:1, 0102 020100cb0000270f0000270f 070200cb0000270f000000630000270e:2 | 0 | 1000 | 4 at 14
A:1, 0102 020100cb0000270f0000270f 070200cb0000270f0000006300000000:2 | 0 | 1000 | 8 at 2
A:1, 0102 0801 020100cb0000270f0000270f:1 | 0 | 760 | total 760
A:1, 0102 0802 020100cb0000270f0000270f:1 | 0 | 1000 | total 1000
A:1, 0102 0802 020100cb0000270f0000270f:1 | 0 | 999 | 19 at 0
0102 0802 020100cb0000270f0000270f:1, 0102 0801 020100cb0000270f0000270f:1 | 30 | 820 | total 820
A:1, 0102 0802 020100cb0000270f0000270f:2 | 0 | 1000 | 18 at 2
A:1, 0102 0802 020100cb0000270f000001f3:1 | 0 | 1000 | 8 at 1
A:1, 0102 0803 020100cb0000270f0000270f:1 | 0 | 1000 | 4 at 2
A:1, 0102 0801 0801 020100cb0000270f0000270f:1 | 0 | 1000 | 3 at 4
"""


# call, for import the text (- for none, and with Python's escapes), for export the sheet in hex, answer: a text, or a sheet in hex
TEXTS = r"""
import | pnet-segment,0\nx\n | 23 at 2
import | pnet-segment,0\n | 4 at 0
import | - | 1 at 0
import | \n | 23 at 1
export | 03 | 1 at 0
export | 03 01 00000001 00000001 | 6 at 10
export | 03 01 00000001 00000001 04 01 00000001 000003e8 | 2 at 0
import | pnet-segment,2\npnet-jitter-stream,1,9 bp,99 bp,9 bp,0 bp\n | 010207010009000000630000000900000000
import | pnet-segment,1\npnet-edition,1\npnet-jitter-stream,1,9 bp,99 bp,9 bp,0 bp\n | 0101080107010009000000630000000900000000
import | pnet-segment,3\nprofibus-ring,3,300 bp\n | 3 at 2
import | profibus-ring,2,100 bp\nprofibus-message,1,500 bp\nprofibus-message,2,9 bp\nprofibus-stream,2,9 bp,8400 bp\n | 0902000000640a01000001f40a0200000009040200000009000020d0
export | 09 02 00000064 0a 02 00000009 0a 01 000001f4 04 02 00000009 000020d0 | profibus-ring,2,100 bp\nprofibus-message,2,9 bp\nprofibus-message,1,500 bp\nprofibus-stream,2,9 bp,8400 bp\n
import | profibus-ring,2,100 bp\nprofibus-message,2,9 bp\nprofibus-message,1,500 bp\nprofibus-stream,2,9 bp,8400 bp\n | 0902000000640a02000000090a01000001f4040200000009000020d0
import | profibus-ring,2,100 bp\n | 20 at 6
import | profibus-ring,1,100 bp\nprofibus-message,1,500 bp\n | 6 at 12
import | profibus-ring,2,100 bp\nprofibus-message,1,500 bp\nprofibus-message,1,500 bp\n | 20 at 12
import | profibus-ring,2,100 bp\nprofibus-message,1,500 bp\nprofibus-stream,1,400 bp,8400 bp\n | 20 at 12
import | profibus-ring,2,100 bp\nprofibus-message,1,500 bp\nprofibus-stream,1,501 bp,8400 bp\n | 4 at 12
import | profibus-ring,2,100 bp\nprofibus-message,3,500 bp\n | 4 at 6
import | profibus-ring,2,100 bp\nprofibus-message,1,0 bp\n | 4 at 6
import | profibus-ring,2,100 bp\nprofibus-message,1,100001 bp\n | 4 at 6
import | profibus-ring,2,100 bp\nprofibus-message,1,4294967295 bp\n | 4 at 6
import | profibus-ring,2,100 bp\nprofibus-message,1,4294967296 bp\n | 23 at 2
import | profibus-ring,2,100 bp\nprofibus-message,256,500 bp\n | 23 at 2
import | profibus-ring,33,100 bp\n | 4 at 0
import | profibus-ring,32,100001 bp\n | 4 at 0
import | profibus-ring,256,100 bp\n | 23 at 1
import | profibus-ring,2,4294967296 bp\n | 23 at 1
import | profibus-ring,2,100\n | 23 at 1
import | profibus-ring,2 bp,100 bp\n | 23 at 1
import | profibus-message,1,500 bp\n | 3 at 0
import | pnet-segment,2\nprofibus-message,1,500 bp\n | 3 at 2
import | profibus-ring,1,100 bp\nprofibus-message,1,500 bp\nprofibus-stream,1,400 bp,8400 bp\nprofibus-message,1,500 bp\n | 3 at 22
import | profibus-ring,1,100 bp\nprofibus-message,1,500 bp\nprofibus-ring,1,100 bp\n | 3 at 12
export | 09 01 00000064 | 20 at 6
export | 0a | 3 at 0
export | 0101 0802 07 01 0009 000003e8 00000384 00000000 | pnet-segment,1\npnet-edition,2\npnet-jitter-stream,1,9 bp,1000 bp,900 bp,0 bp\n
import | pnet-segment,1\npnet-edition,2\npnet-jitter-stream,1,9 bp,1000 bp,900 bp,0 bp\n | 0101080207010009000003e80000038400000000
import | pnet-segment,33\n | 4 at 0
import | pnet-segment,256\n | 23 at 1
import | pnet-segment,2\npnet-stream,1,65535 bp,9 bp,9 bp\n | 4 at 2
import | pnet-segment,2\npnet-stream,1,65536 bp,9 bp,9 bp\n | 23 at 2
import | pnet-segment,00\n | 23 at 1
import | pnet-segment,2\npnet-stream,1,9 bp,999 bp,999 bp | 23 at 2
import | x\npnet-stream,1,9 bp,999 bp,999 bp | 23 at 1
export | 0101 020100cb000003e8000003e8 | pnet-segment,1\npnet-stream,1,203 bp,1000 bp,1000 bp\n
import | pnet-segment,1\npnet-stream,1,203 bp,1000 bp,1000 bp\n | 0101020100cb000003e8000003e8
export | 0101 070100cb000003e8000002bc0000012c | pnet-segment,1\npnet-jitter-stream,1,203 bp,1000 bp,700 bp,300 bp\n
import | pnet-segment,1\npnet-jitter-stream,1,203 bp,1000 bp,700 bp,300 bp\n | 0101070100cb000003e8000002bc0000012c
export | 0101 070100cb000003e8000003e800000000 020100cb000003e8000003e8 | pnet-segment,1\npnet-jitter-stream,1,203 bp,1000 bp,1000 bp,0 bp\npnet-stream,1,203 bp,1000 bp,1000 bp\n
import | pnet-segment,1\npnet-jitter-stream,1,203 bp,1000 bp,1000 bp,0 bp\npnet-stream,1,203 bp,1000 bp,1000 bp\n | 0101070100cb000003e8000003e800000000020100cb000003e8000003e8
export | 05 00000190 06 0000 000003e8 06 ffff 3b9aca00 | worldfip-exchange,400 us\nworldfip-variable,0,1000 us\nworldfip-variable,65535,1000000000 us\n
import | worldfip-exchange,400 us\nworldfip-variable,0,1000 us\nworldfip-variable,65535,1000000000 us\n | 0500000190060000000003e806ffff3b9aca00
export | - | 1 at 0
export | 07 | 3 at 0
export | 08 | 3 at 0
export | 09 | 1 at 0
export | 0b | 2 at 0
export | 0104 0801 | 6 at 4
export | 0104 0803 | 4 at 2
export | 0101 020100cb000003e8000003e8 0801 | 3 at 14
export | 0101 0801 020100cb000003e8000003e8 | pnet-segment,1\npnet-edition,1\npnet-stream,1,203 bp,1000 bp,1000 bp\n
import | pnet-segment,1\npnet-edition,1\npnet-stream,1,203 bp,1000 bp,1000 bp\n | 01010801020100cb000003e8000003e8
import | pnet-segment,4\npnet-edition,0\n | 4 at 2
import | pnet-segment,4\npnet-edition,3\n | 4 at 2
import | pnet-segment,4\npnet-edition,255\n | 4 at 2
import | pnet-segment,4\npnet-edition,256\n | 23 at 2
import | pnet-segment,4\npnet-edition,2 bp\n | 23 at 2
import | pnet-segment,4\npnet-edition,2\n | 6 at 4
import | pnet-segment,4\npnet-edition,2 | 23 at 2
import | pnet-segment,4\npnet-edition,1\npnet-edition,2\n | 3 at 4
import | pnet-segment,4\npnet-edition,1\nx\n | 23 at 3
import | pnet-segment,4\npnet-stream,1,203 bp,1000 bp,1000 bp\npnet-edition,2\n | 3 at 14
import | pnet-edition,2\n | 3 at 0
import | pnet-edition,2\npnet-segment,4\n | 3 at 0
import | worldfip-exchange,400 us\npnet-edition,1\n | 3 at 5
export | 0101 070100cb000003e8000002bd0000012c | 4 at 2
export | 0104 04 | 3 at 2
export | 0121 | 4 at 0
export | 03 21 00000001 00000001 | 4 at 0
export | 0500000190 060011000003e8 060011000003e8 | 7 at 12
export | 0104 | 6 at 2
import | pnet-stream,1,203 bp,1000 bp,1000 bp\n | 3 at 0
import | pnet-jitter-stream,1,203 bp,1000 bp,700 bp,300 bp\n | 3 at 0
import | profibus-stream,1,400 bp,8400 bp\n | 3 at 0
import | worldfip-variable,17,1000 us\n | 3 at 0
import | pnet-segment,4\nprofibus-stream,1,400 bp,8400 bp\n | 3 at 2
import | pnet-segment,4\npnet-stream,1,203 bp,1000 bp,1000 bp\npnet-segment,4\n | 3 at 14
import | worldfip-exchange,400 us\npnet-stream,1,203 bp,1000 bp,1000 bp\n | 3 at 5
import | pnet-segment,0\npnet-segment,0\n | 4 at 0
import | pnet-segment,255\n | 4 at 0
import | pnet-segment,4\npnet-stream,0,203 bp,1000 bp,1000 bp\n | 4 at 2
import | pnet-segment,4\npnet-stream,5,203 bp,1000 bp,1000 bp\n | 4 at 2
import | pnet-segment,4\npnet-stream,1,203 bp,1000 bp,1001 bp\n | 4 at 2
import | pnet-segment,4\npnet-stream,1,203 bp,4294967295 bp,4294967295 bp\n | 4 at 2
import | pnet-segment,4\npnet-stream,1,203 bp,4294967296 bp,1000 bp\n | 23 at 2
import | pnet-segment,4\npnet-jitter-stream,1,203 bp,1000 bp,1 bp,999 bp\n | 0104070100cb000003e800000001000003e7
import | pnet-segment,4\npnet-jitter-stream,1,203 bp,1000 bp,1 bp,1000 bp\n | 4 at 2
import | pnet-segment,4\npnet-jitter-stream,1,203 bp,1000 bp,701 bp,300 bp\n | 4 at 2
import | pnet-segment,4\npnet-jitter-stream,1,203 bp,1000 bp,1 bp,4294967295 bp\n | 4 at 2
import | pnet-segment,4\npnet-jitter-stream,1,203 bp,1000 bp,1 bp,4294967296 bp\n | 23 at 2
import | worldfip-exchange,400 us\npnet-jitter-stream,1,203 bp,1000 bp,700 bp,300 bp\n | 3 at 5
import | worldfip-exchange,0 us\n | 4 at 0
import | worldfip-exchange,4294967295 us\n | 4 at 0
import | worldfip-exchange,4294967296 us\n | 23 at 1
import | worldfip-exchange,400 us\nworldfip-variable,65536,1000 us\n | 23 at 2
import | worldfip-exchange,400 us\nworldfip-variable,17,0 us\n | 4 at 5
import | pnet-segment,4\n | 6 at 2
import | worldfip-exchange,400 us\n | 6 at 5
import | worldfip-exchange,400 us\nworldfip-variable,17,1000 us\nworldfip-variable,17,2000 us\n | 7 at 12
import | worldfip-exchange,400 us\nworldfip-variable,17,1000 us\nworldfip-variable,17,0 us\n | 4 at 12
import | \xef\xbb\xbfpnet-segment,1\npnet-stream,1,203 bp,1000 bp,1000 bp\n | 23 at 1
import | pnet-segment,1\npnet-stream,1,203 bp,1000 bp,1000 bp\n\n | 23 at 3
import | pnet-segment,1\npnet-stream,1,203 bp,1000 bp,1000 bp\n\x20 | 23 at 3
import | pnet-segment,1\npnet-stream,1,203 bp,1000 bp,1000 bp\n\0 | 23 at 3
import | pnet-segment,1\rpnet-stream,1,203 bp,1000 bp,1000 bp\r | 23 at 1
import | pnet-segment | 23 at 1
"""

# lines that are not of the form, most of them but for one slip
HEAD_LINE = b"pnet-segment,2\n"
GOOD_LINE = b"pnet-stream,1,203 bp,1000 bp,1000 bp\n"
SLIPS = r"""
pnet-stream,01,203 bp,1000 bp,1000 bp
pnet-stream,1,0203 bp,1000 bp,1000 bp
pnet-stream,1,203 bp,1000 bp,00 bp
pnet-stream,1,203 bp,1000 bp,0000000000000001 bp
\x20pnet-stream,1,203 bp,1000 bp,1000 bp
pnet-stream ,1,203 bp,1000 bp,1000 bp
pnet-stream, 1,203 bp,1000 bp,1000 bp
pnet-stream,1 ,203 bp,1000 bp,1000 bp
pnet-stream,1,203 bp ,1000 bp,1000 bp
pnet-stream,1,203  bp,1000 bp,1000 bp
pnet-stream,1,2 03 bp,1000 bp,1000 bp
pnet-stream,1,203 bp,1000 bp,1000 bp\x20
pnet-stream,1,203 bp,1000 bp,1000 bp\t
pnet-stream,1,203\tbp,1000 bp,1000 bp
pnet-stream\t1\t203 bp\t1000 bp\t1000 bp
pnet-stream,1,203\xa0bp,1000 bp,1000 bp
pnet-stream,1,203 bp,1000 bp,1000 bp\r
pnet-stream,1,203 bp,1000 bp,1000 bp\0
pnet-stream,1,203 bp,1000 bp,1000
pnet-stream,1,203,1000 bp,1000 bp
pnet-stream,1,203,1000,1000
pnet-stream,1,203 ,1000 bp,1000 bp
pnet-stream,1,203 us,1000 bp,1000 bp
pnet-stream,1,203 bp,1000 bp,1000 us
pnet-stream,1,203 bp,1000 bp,1000 ns
pnet-stream,1,203 BP,1000 bp,1000 bp
pnet-stream,1,203 b,1000 bp,1000 bp
pnet-stream,1,203 bpp,1000 bp,1000 bp
pnet-stream,1,203bp,1000 bp,1000 bp
pnet-stream,1,bp 203,1000 bp,1000 bp
pnet-stream,1 bp,203 bp,1000 bp,1000 bp
pnet-stream,M01,203 bp,1000 bp,1000 bp
worldfip-variable,17 us,1000 us
worldfip-variable,17,1000 bp
worldfip-variable,17,1000
worldfip-exchange,400
worldfip-exchange,400 bp
profibus-stream,1,400 us,8400 bp
profibus-stream,1,400 bp,8400
pnet-segment,4 bp
"pnet-stream",1,203 bp,1000 bp,1000 bp
pnet-stream,1,"203 bp",1000 bp,1000 bp
"pnet-stream,1,203 bp,1000 bp,1000 bp"
pnet-stream;1;203 bp;1000 bp;1000 bp
pnet-stream,1;203 bp,1000 bp,1000 bp
pnet-stream,1,203 bp,1000 bp,1000 bp,
pnet-stream,1,203 bp,1000 bp,1000 bp,,
pnet-stream,1,203 bp,1000 bp,1000 bp;
,pnet-stream,1,203 bp,1000 bp,1000 bp
pnet-stream,,1,203 bp,1000 bp,1000 bp
pnet-stream,1,203 bp,1000 bp,1000 bp,0 bp
pnet-stream,1,203 bp,1000 bp
pnet-stream,1,203 bp,,1000 bp
pnet-stream,1,203 bp, bp,1000 bp
pnet-stream,,203 bp,1000 bp,1000 bp
pnet-stream,
pnet-stream
pnet-segment,
pnet-segment,1,1
profibus-stream,1,400 bp,8400 bp,9 bp
worldfip-variable,17,1000 us,400 us
PNET-STREAM,1,203 bp,1000 bp,1000 bp
Pnet-stream,1,203 bp,1000 bp,1000 bp
pnet_stream,1,203 bp,1000 bp,1000 bp
pnet-strea,1,203 bp,1000 bp,1000 bp
pnet-streams,1,203 bp,1000 bp,1000 bp
pnet-segment,1,203 bp,1000 bp,1000 bp
2,1,203 bp,1000 bp,1000 bp
\xef\xbb\xbfpnet-stream,1,203 bp,1000 bp,1000 bp
pnet-stream,+1,203 bp,1000 bp,1000 bp
pnet-stream,-1,203 bp,1000 bp,1000 bp
pnet-stream,1,-0 bp,1000 bp,1000 bp
pnet-stream,1,203.0 bp,1000 bp,1000 bp
pnet-stream,1,203 bp,1e3 bp,1000 bp
pnet-stream,1,0xcb bp,1000 bp,1000 bp
pnet-stream,1,203 bp,1,000 bp,1000 bp
pnet-stream,1,203 bp,1_000 bp,1000 bp
pnet-stream,1,203 bp,1'000 bp,1000 bp
pnet-stream,\xd9\xa1,203 bp,1000 bp,1000 bp
pnet-stream,\xef\xbc\x91,203 bp,1000 bp,1000 bp
pnet-stream,256,203 bp,1000 bp,1000 bp
pnet-stream,257,203 bp,1000 bp,1000 bp
pnet-stream,1,65536 bp,1000 bp,1000 bp
pnet-stream,1,203 bp,1000 bp,4294967296 bp
pnet-stream,1,203 bp,4294968296 bp,1000 bp
pnet-stream,1,203 bp,9999999999 bp,1000 bp
pnet-stream,1,203 bp,18446744073709552616 bp,1000 bp
pnet-segment,256
pnet-segment,300
profibus-stream,256,400 bp,8400 bp
profibus-stream,1,4294967296 bp,8400 bp
worldfip-exchange,4294967296 us
worldfip-variable,65536,1000 us
worldfip-variable,17,4294967296 us
profibus-ring,3,300 bp,500 bp
profibus-ring
profibus-ring,
profibus-ring,3
profibus-ring,3,
profibus-ring,3,300
profibus-ring,3,300 us
profibus-ring,3 bp,300 bp
profibus-ring,03,300 bp
profibus-ring,3,300 bp,
profibus-ring,3,300  bp
profibus-ring,256,300 bp
profibus-ring,3,4294967296 bp
profibus-rings,3,300 bp
Profibus-ring,3,300 bp
\x20profibus-ring,3,300 bp
profibus-message
profibus-message,
profibus-message,1
profibus-message,1,500
profibus-message,1,500 us
profibus-message,1 bp,500 bp
profibus-message,M01,500 bp
profibus-message,1,0500 bp
profibus-message,1,500 bp,
profibus-message,1,500 bp,9 bp
profibus-message,256,500 bp
profibus-message,1,4294967296 bp
profibus-messages,1,500 bp
profibus_message,1,500 bp
pnet-edition
pnet-edition,
pnet-edition,02
pnet-edition,2 bp
pnet-edition,2\x20
pnet-edition,2\r
pnet-edition,2,
pnet-edition,2,1
pnet-edition,,2
pnet-edition, 2
pnet-edition,-1
pnet-edition,2.0
pnet-edition,256
pnet-edition,258
pnet-edition;2
pnet-edition 2
Pnet-edition,2
pnet_edition,2
pnet-editions,2
\x20pnet-edition,2
pnet-jitter-stream,1,203 bp,1000 bp,900 bp
pnet-jitter-stream,1,203 bp,1000 bp,900 bp,
pnet-jitter-stream,1,203 bp,1000 bp,900 bp,0
pnet-jitter-stream,1,203 bp,1000 bp,900 bp,0 us
pnet-jitter-stream,1,203 bp,1000 bp,900 bp,00 bp
pnet-jitter-stream,1,203 bp,1000 bp,900 bp,-1 bp
pnet-jitter-stream,1,203 bp,1000 bp,900 bp,0 bp,
pnet-jitter-stream,1,203 bp,1000 bp,900 bp,0 bp,0 bp
pnet-jitter-stream,1,203 bp,1000 bp,,0 bp
pnet-jitter-stream,1,203 bp,1000 bp,900 bp,4294967296 bp
pnet-jitter-stream,1,203 bp,1000 bp,4294967296 bp,0 bp
pnet-jitter-stream,1,65536 bp,1000 bp,900 bp,0 bp
pnet-jitter-stream,256,203 bp,1000 bp,900 bp,0 bp
pnet-jitter-stream
pnet-jitter-stream,
pnet-jitter,1,203 bp,1000 bp,900 bp,0 bp
pnet-stream-jitter,1,203 bp,1000 bp,900 bp,0 bp
pnet-jitter_stream,1,203 bp,1000 bp,900 bp,0 bp
Pnet-jitter-stream,1,203 bp,1000 bp,900 bp,0 bp
\x20pnet-jitter-stream,1,203 bp,1000 bp,900 bp,0 bp
#
x

"""


def unescaped(text):
    """A text as it stands in a case line."""
    return b"" if text == "-" else text.encode("ascii").decode("unicode_escape").encode("latin-1")


def slips():
    """Each line that is not of the form, with its end."""
    for line in SLIPS[1:].split("\n")[:-1]:
        yield "the line %s" % line, unescaped(line) + b"\n"


def text_case(line):
    """A line's call, its input and its answer."""
    name, given, expected = [part.strip() for part in line.split("|")]
    if name == "import":
        return name, unescaped(given), expected
    return name, bytes.fromhex(given.replace("-", "")), unescaped(expected).decode("ascii")


def repeated(text):
    """What a list in the words above says, one by one."""
    for part in text.split(","):
        times, star, one = part.strip().rpartition("*")
        if one != "-":
            yield from [one] * (int(times) if star else 1)


def path_of(text):
    """A line's segments, times, deadline and answer."""
    segments, times, deadline, expected = [part.strip() for part in text.split("|")]
    made = []
    for one in repeated(segments):
        data, master = one.split(":")
        data = {"A": SHEET_A, "-": ""}.get(data.strip(), data)
        made.append((bytes.fromhex(data), int(master)))
    return made, [int(time) for time in repeated(times)], int(deadline), expected


def asked_at(*stamps):
    """Requests of stream 1 at these stamps, each answered 9 bp later."""
    return events(*[(kind, 1, (stamp + later) % 2**32) for stamp in stamps for kind, later in ((16, 0), (17, 9))])


def soon(data, capture):
    """How many requests came too soon."""
    return len(opinion.too_soon(opinion.read(data).streams, opinion.instants(capture)))


# what the page or the readings say in prose, without an input of their own
PROSE = [
    # 13 comes after 3, 10 and 11, and before 8 and 12
    ("13 before 8", lambda: opinion.plan_pnet(sheet(*FOUR_MASTERS_LATE), (4, 3, 4)), "13 at 4"),
    ("room enough", lambda: opinion.plan_pnet(sheet(*FOUR_MASTERS_LATE), (4, 4, 4)), "8 at 5"),
    ("3 before 13", lambda: opinion.plan_pnet(sheet(*TABLE), (0, 0, 0)), "3 at 0"),
    ("13 before 12", lambda: opinion.plan_worldfip(sheet(*TABLE_LATE), 3), "13 at 4"),
    ("11 before 13",
     lambda: opinion.plan_worldfip(sheet((5, 1), (6, 1, 17), (6, 2, 241)), 0), "11 at 0"),
    ("10 before 13",
     lambda: opinion.plan_worldfip(sheet((5, 2), (6, 1, 17), (6, 2, 241)), 0), "10 at 0"),
    ("3 for another bus", lambda: opinion.plan_profibus(sheet(*TABLE)), "3 at 0"),
    ("3 for another bus", lambda: opinion.plan_worldfip(sheet(*RING)), "3 at 0"),
    ("a ring of kind 3 rewritten", lambda: in_hex(opinion.rewrite_sheet(sheet(*RING))), sheet(*OPEN_RING).hex()),
    ("a ring of kind 9 rewritten, in its own order", lambda: in_hex(opinion.rewrite_sheet(sheet(*SLOW_DRIVE))), sheet(*SLOW_DRIVE).hex()),
    ("room for the ring rewritten", lambda: in_hex(opinion.rewrite_sheet(sheet(*RING), 54)), sheet(*OPEN_RING).hex()),
    ("no room for the ring rewritten", lambda: opinion.rewrite_sheet(sheet(*RING), 53), "13 at 54"),
    ("6 before 13 on rewriting", lambda: opinion.rewrite_sheet(sheet(RING[0]), 0), "6 at 10"),
    ("a sheet refused with 9 is rewritten", lambda: opinion.report(opinion.rewrite_sheet(sheet(*SLOW_DRIVE_OF_ALL))), "refused 9 at stream 1\n"),
    ("a text rewritten", lambda: in_hex(opinion.rewrite_given(HEAD_LINE + GOOD_LINE)), "0102020100cb000003e8000003e8"),
    ("a text with a bad line is not rewritten", lambda: opinion.rewrite_given(HEAD_LINE + b"\n"), "23 at 2"),
    ("the longest ring rewritten",
     lambda: len(opinion.rewrite_sheet(sheet((3, 32, 1, 1), *[(4, 1 + i % 32, 1, 9) for i in range(800)]))), "8198"),
    ("800 streams of a ring of kind 9", lambda: opinion.read(FULL_RING), "accepted"),
    ("the 801st of a ring of kind 9", lambda: opinion.read(FULL_RING + sheet((4, 1, 1, 9))), "5 at 8198"),
    ("the 801st of a ring of kind 9, out of range", lambda: opinion.read(FULL_RING + sheet((4, 1, 2, 9))), "4 at 8198"),
    ("the 81st of a master of a ring of kind 9", lambda: opinion.read(sheet((9, 1, 1), (10, 1, 1), *[(4, 1, 1, 9)] * 81)), "5 at 812"),
    ("a longest message behind 800 streams", lambda: opinion.read(FULL_RING + sheet((10, 1, 1))), "3 at 8198"),
    ("the ring with nothing but its first record missing", lambda: opinion.read(FULL_RING[6:]), "3 at 0"),
    ("the last master's longest message missing", lambda: opinion.read(FULL_RING[:192] + FULL_RING[198:]), "20 at 192"),
    ("the first master's longest message missing", lambda: opinion.read(FULL_RING[:6] + FULL_RING[12:]), "20 at 192"),
    ("a longest message too many", lambda: opinion.read(FULL_RING[:198] + FULL_RING[192:]), "20 at 198"),
    ("the greatest sum of longest messages",
     lambda: opinion.plan_profibus(sheet((9, 32, 1), *[(10, y, 100_000) for y in range(1, 33)], (4, 32, 1, 1_000_000_000))), "TTR 996799999 by 1"),
    ("a master alone", lambda: opinion.plan_pnet(sheet((1, 1), (2, 1, 203, 1000, 1000))),
     "R 250; W 250; rounds 1"),
    ("a silent master costs 10",
     lambda: opinion.plan_pnet(sheet((1, 3), (2, 2, 203, 1000, 1000))),
     "R 0 270 0; W 0 270 0; rounds 0 1 0"),
    # 760 bp and the 500 bp before them hold two requests 1,259 bp apart, but one of 1,260
    ("a window that holds two requests",
     lambda: opinion.plan_pnet(sheet(*TWO_MASTERS[:3], (2, 2, 203, 1_259, 1_259))),
     "R 1000 500; W 1000 500; rounds 2 1"),
    ("a window that holds one request",
     lambda: opinion.plan_pnet(sheet(*TWO_MASTERS[:3], (2, 2, 203, 1_260, 1_260))),
     "R 1000 500; W 760 500; rounds 1 1"),
    # and 760 bp, the 500 bp and J are exactly T here, or one more
    ("a window that holds one request, up to J late",
     lambda: opinion.plan_pnet(sheet(*TWO_MASTERS[:3], (7, 2, 203, 1_560, 1_260, 300))),
     "R 1000 500; W 760 500; rounds 1 1"),
    ("a window that holds two requests, the first up to J late",
     lambda: opinion.plan_pnet(sheet(*TWO_MASTERS[:3], (7, 2, 203, 1_560, 1_259, 301))),
     "R 1000 500; W 1000 500; rounds 2 1"),
    ("a master's own J counts for the others alone",
     lambda: opinion.plan_pnet(
         sheet((1, 2), (7, 1, 203, 100_000, 1_000, 99_000), (7, 1, 203, 100_000, 1_000, 99_000), *TWO_MASTERS[3:])),
     "R 1000 500; W 760 500; rounds 1 1"),
    ("kind 7 with J = 0 is kind 2",
     lambda: opinion.plan_pnet(sheet(*WAITING[:3], (7, 2, 203, 1_000, 1_000, 0))),
     "R 1000 500; W 1000 500; rounds 2 1"),
    ("the greatest J",
     lambda: opinion.plan_pnet(sheet(*TWO_MASTERS[:3], (7, 2, 203, 1_000_000_000, 500, 999_999_500))),
     "R 1000 500; W 1000 500; rounds 2 1"),
    ("the greatest J, and a deadline too short for it",
     lambda: opinion.plan_pnet(sheet(*TWO_MASTERS[:3], (7, 2, 203, 1_000_000_000, 1, 999_999_999))), "8 at 3"),
    # page 02, Ask 10. Edition 1: V = 250 + 350 + 10 = 610; W of master 1 is 2 * 610 - (2 - 1) * 340 - 2 * 0
    ("no edition written", lambda: opinion.plan_pnet(sheet(*UNEVEN)), "R 1220 610 0; W 880 610 0; rounds 1 1 0"),
    ("edition 1 written", lambda: opinion.plan_pnet(under(1, UNEVEN)), "R 1220 610 0; W 880 610 0; rounds 1 1 0"),
    # Edition 2: V = 3 * 350; W of master 1 is 2 * 1,050 - (2 - 1) * 340 - 2 * 340, of master 2 1,050 - 0 - 1 * 340
    ("edition 2 written", lambda: opinion.plan_pnet(under(2, UNEVEN)), "R 2100 1050 0; W 1080 710 0; rounds 1 1 0"),
    ("the report of edition 1", lambda: opinion.report(under(1, UNEVEN)),
     "P-NET segment\n"
     "M01 bound 1220 bp 15885417 ns refined 880 bp 11458334 ns 1 rounds\n"
     "M02 bound 610 bp 7942709 ns refined 610 bp 7942709 ns 1 rounds\n"),
    ("the report of edition 2", lambda: opinion.report(under(2, UNEVEN)),
     "P-NET segment\n"
     "M01 bound 2100 bp 27343750 ns refined 1080 bp 14062500 ns 1 rounds\n"
     "M02 bound 1050 bp 13671875 ns refined 710 bp 9244792 ns 1 rounds\n"),
    ("the editions agree where every master has the largest H", lambda: opinion.plan_pnet(under(2, TWO_MASTERS)),
     "R 1000 500; W 760 500; rounds 1 1"),
    ("the largest H is the searching master's: another saves that, less 10",
     lambda: opinion.plan_pnet(
         sheet((1, 2), (8, 2), (2, 1, 303, 100_000, 100_000), (2, 1, 103, 100_000, 100_000), (2, 2, 203, 100_000, 100_000))),
     "R 1400 700; W 1060 700; rounds 1 1"),
    ("31 silent masters",
     lambda: opinion.plan_pnet(sheet((1, 32), (8, 2), (2, 5, 1_548, 100_000, 51_040))),
     "R %s; W %s; rounds %s" % tuple(" ".join(["0"] * 4 + [x] + ["0"] * 27) for x in ("51040", "1905", "1"))),
    ("31 silent masters, and a deadline one bp below 32 * 1,595",
     lambda: opinion.plan_pnet(sheet((1, 32), (8, 2), (2, 5, 1_548, 100_000, 51_039))), "8 at 1"),
    ("the same under edition 1, with 1,595 + 31 * 10",
     lambda: opinion.plan_pnet(sheet((1, 32), (8, 1), (2, 5, 1_548, 100_000, 1_905))).bound[4], "1905"),
    ("a master alone, with the editions alike",
     lambda: opinion.plan_pnet(sheet((1, 1), (8, 2), (2, 1, 203, 1_000, 250))), "R 250; W 250; rounds 1"),
    # 1,080 bp and the 1,050 bp before them, edition 2's own bound, hold one request of T 2,130, and two of T 2,129
    ("a window that holds one request under edition 2",
     lambda: opinion.plan_pnet(sheet((1, 3), (8, 2), (2, 1, 303, 2_130, 2_130), *[(2, 2, 303, 9_999, 9_999)] * 2)),
     "R 1050 2100 0; W 710 1080 0; rounds 1 1 0"),
    ("a window that holds two requests under edition 2",
     lambda: opinion.plan_pnet(sheet((1, 3), (8, 2), (2, 1, 303, 2_129, 2_129), *[(2, 2, 303, 9_999, 9_999)] * 2)),
     "R 1050 2100 0; W 710 1420 0; rounds 1 2 0"),
    ("13 before 8 under edition 2", lambda: opinion.plan_pnet(sheet((1, 2), (8, 2), (2, 1, 203, 499, 499)), (2, 2, 1)), "13 at 2"),
    ("room for masters, not for kind 8", lambda: opinion.plan_pnet(sheet((1, 2), (8, 2), (2, 1, 203, 500, 500)), (2, 2, 2)),
     "R 500 0; W 260 0; rounds 1 0"),
    ("80 of a master behind kind 8", lambda: opinion.read(sheet((1, 2), (8, 2), *TWO_MASTERS[1:2] * 80)), "accepted"),
    ("the 81st of a master behind kind 8", lambda: opinion.read(sheet((1, 2), (8, 2), *TWO_MASTERS[1:2] * 81)), "5 at 964"),
    ("80 of a master, by turns of kinds 2 and 7",
     lambda: opinion.read(sheet((1, 2), *[(2, 1, 203, 1_000, 700), JITTER] * 40)), "accepted"),
    ("the 81st of a master, of kind 2",
     lambda: opinion.read(sheet((1, 2), *[(2, 1, 203, 1_000, 700), JITTER] * 40, (2, 1, 203, 1_000, 700))), "5 at 1122"),
    ("the 81st of a master, of kind 7",
     lambda: opinion.read(sheet((1, 2), *[(2, 1, 203, 1_000, 700), JITTER] * 40, JITTER)), "5 at 1122"),
    ("79 of kind 2, and two of kind 7", lambda: opinion.read(sheet((1, 2), *TWO_MASTERS[1:2] * 79, JITTER, JITTER)), "5 at 966"),
    ("the 81st of kind 7", lambda: opinion.read(sheet((1, 2), *[JITTER] * 81)), "5 at 1282"),
    ("80 of one master and one of another", lambda: opinion.read(sheet((1, 2), *[JITTER] * 80, (7, 2, 203, 1_000, 700, 300))), "accepted"),
    ("the longest sheet without the edition", lambda: len(JITTERS), "12802"),
    ("the longest sheet without the edition is read", lambda: opinion.read(JITTERS), "accepted"),
    ("the 801st stream, of kind 7", lambda: opinion.read(JITTERS + sheet((7, 32, 203, 1_000, 700, 300))), "5 at 12802"),
    ("the 801st stream, of kind 2", lambda: opinion.read(JITTERS + sheet((2, 32, 203, 1_000, 700))), "5 at 12802"),
    ("the 801st stream of kind 7, out of range", lambda: opinion.read(JITTERS + sheet((7, 32, 203, 1_000, 701, 300))), "4 at 12802"),
    ("the 801st stream of kind 7, cut", lambda: opinion.read(JITTERS + b"\x07"), "1 at 12802"),
    ("the longest sheet, with the edition", lambda: len(LONGEST), "12804"),
    ("the longest sheet with the edition is read", lambda: opinion.read(LONGEST), "accepted"),
    ("the 801st stream behind the edition", lambda: opinion.read(LONGEST + sheet((7, 32, 203, 1_000, 700, 300))), "5 at 12804"),
    ("the 801st stream behind the edition, out of range", lambda: opinion.read(LONGEST + sheet((7, 33, 203, 1_000, 700, 300))), "4 at 12804"),
    ("the 801st stream behind the edition, cut", lambda: opinion.read(LONGEST + b"\x07"), "1 at 12804"),
    ("an edition behind 800 streams", lambda: opinion.read(LONGEST + b"\x08"), "3 at 12804"),
    ("streams of both kinds are numbered together",
     lambda: opinion.report(sheet((1, 1), (2, 1, 203, 9_999, 9_999), JITTER, (2, 1, 203, 1_000, 999), JITTER)),
     "refused 8 at stream 2\n"),
    ("a 65th variable met before",
     lambda: opinion.read(
         sheet((5, 1), *[(6, i, 9) for i in range(64)], (6, 0, 9))), "5 at 453"),
    ("the 801st stream",
     lambda: opinion.read(
         sheet(*EIGHTY_EACH, (2, 1, 200, 1_000_000, 1_000_000))), "5 at 9602"),
    ("equal periods by sheet order",
     lambda: opinion.report(sheet((5, 500), (6, 9, 2_000), (6, 8, 2_000), (6, 7, 1_000))),
     "WorldFIP table\nmicrocycle 1000 us 2 slots 2 rows\nrow 0: 7 9\nrow 1: 7 8\n"),
    ("an empty row",
     lambda: opinion.report(sheet((5, 500), (6, 9, 3_000), (6, 8, 2_000))),
     "WorldFIP table\nmicrocycle 1000 us 2 slots 6 rows\n"
     "row 0: 8 9\nrow 1:\nrow 2: 8\nrow 3: 9\nrow 4: 8\nrow 5:\n"),
    ("words keep their s",
     lambda: opinion.report(sheet((5, 1_000), (6, 1, 1_000))),
     "WorldFIP table\nmicrocycle 1000 us 1 slots 1 rows\nrow 0: 1\n"),
    ("slots far above 64",
     lambda: opinion.report(sheet((5, 1), (6, 65_535, 1_000_000_000))),
     "WorldFIP table\nmicrocycle 1000000000 us 1000000000 slots 1 rows\nrow 0: 65535\n"),
    ("a miss at the end of the last row",
     lambda: opinion.plan_worldfip(sheet((5, 600), (6, 2, 1_000), (6, 1, 1_000))), "12 at 2"),
    ("the number of streams for 13, before 8",
     lambda: opinion.compare_capture(sheet(*FOUR_MASTERS_LATE), b"", 7), "13 at 8"),
    ("8 before the capture's refusals",
     lambda: opinion.compare_capture(sheet(*FOUR_MASTERS_LATE), b"\x02", 8), "8 at 5"),
    ("another bus's sheet", lambda: opinion.compare_capture(sheet(*RING), b"", 0), "3 at 0"),
    ("an answer before its request, one stream beside another",
     lambda: opinion.compare_capture(
         sheet(*TWO_MASTERS), events((16, 1, 5), (16, 3, 4), (17, 3, 4), (17, 1, 1_006), (17, 3, 9))),
     "15 at 28"),
    ("figures of three streams",
     lambda: opinion.compare_capture(
         sheet(*TWO_MASTERS), events((16, 1, 5), (16, 3, 4), (17, 3, 4), (17, 1, 1_006), (16, 3, 9))),
     "1 1001 1 0; 0 0 0 0; 1 0 0 1"),
    ("the report of a capture",
     lambda: opinion.capture_report(
         sheet(*TWO_MASTERS), events((16, 1, 5), (16, 3, 4), (17, 3, 4), (17, 1, 1_006), (16, 3, 9))),
     "P-NET capture\n"
     "stream 1 M01 bound 1000 bp 13020834 ns largest 1001 bp 13033855 ns 1 answers 1 above 0 open\n"
     "stream 2 M01 bound 1000 bp 13020834 ns largest 0 bp 0 ns 0 answers 0 above 0 open\n"
     "stream 3 M02 bound 500 bp 6510417 ns largest 0 bp 0 ns 1 answers 0 above 1 open\n"
     "answers above the bound in 1 streams, first stream 1\n"
     "records not in order of time, or none for 2147483648 bp 27962026666667 ns or longer: ages and gaps not known\n"),
    ("no record at all", lambda: opinion.capture_report(sheet((1, 1), (2, 1, 203, 1_000, 1_000)), b""),
     "P-NET capture\n"
     "stream 1 M01 bound 250 bp 3255209 ns largest 0 bp 0 ns 0 answers 0 above 0 open\n"
     "no answer in the whole capture\n"),
    ("a request that is open for longer than its bound, and one that comes too soon",
     lambda: opinion.capture_report(
         sheet((1, 1), (2, 1, 203, 1_000, 1_000), (2, 1, 203, 1_000, 1_000)),
         events((16, 1, 0), (16, 2, 7), (17, 2, 9), (16, 2, 1_006))),
     "P-NET capture\n"
     "stream 1 M01 bound 500 bp 6510417 ns largest 0 bp 0 ns 0 answers 0 above 1 open\n"
     "stream 2 M01 bound 500 bp 6510417 ns largest 2 bp 26042 ns 1 answers 0 above 1 open\n"
     "requests open beyond the bound in 1 streams, first stream 1\n"
     "requests sooner than their spacing allows 1 times, first stream 2\n"),
    ("requests T - J apart: the second is in time, the third too soon, and what follows goes by that one",
     lambda: opinion.capture_report(sheet((1, 1), JITTER), asked_at(0, 700, 1_400, 2_100, 2_800)),
     "P-NET capture\n"
     "stream 1 M01 bound 250 bp 3255209 ns largest 9 bp 117188 ns 5 answers 0 above 0 open\n"
     "requests sooner than their spacing allows 2 times, first stream 1\n"),
    *[
        ("requests of T 1000, J 300 at %s" % (stamps,),
         lambda stamps=stamps: soon(sheet((1, 1), JITTER), asked_at(*stamps)), str(times))
        for stamps, times in [
            ((0, 700), 0),
            ((0, 699), 1),
            ((0, 700, 1_700), 0),
            ((0, 700, 1_699), 1),
            ((0, 1_000, 1_700), 0),
            ((0, 1_000, 1_699), 1),
            ((0, 1_300, 2_000), 0),
            ((0, 900, 1_700, 2_700), 0),
            ((0, 900, 1_700, 2_699), 1),
            # one that comes late enough is its own label, however far ahead the one before was
            ((0, 700, 2_000, 2_700), 0),
            ((0, 700, 2_001, 2_700), 1),
            ((0, 699, 1_399), 1),
            ((0, 699, 1_398), 2),
            ((0, 100, 200, 300), 3),
            # around the counter's end
            ((4_294_966_796, 200, 1_200), 0),
            ((4_294_966_796, 200, 1_199), 1),
            ((4_294_966_796, 199), 1),
        ]
    ],
    ("J of one stream is not the other's",
     lambda: soon(sheet((1, 1), (2, 1, 203, 1_000, 700), JITTER),
                  events((16, 1, 0), (17, 1, 5), (16, 2, 5), (17, 2, 9), (16, 1, 700), (17, 1, 701), (16, 2, 705))), "1"),
    # page 02, Ask 11: 13 comes after 3 and before 21, and names the streams whichever run is short
    ("13 before 21", lambda: opinion.plan_urgent(sheet((1, 1), (2, 1, 203, 249, 249)), (1, 0, 1)), "13 at 1"),
    ("room enough, then 21", lambda: opinion.plan_urgent(sheet((1, 1), (2, 1, 203, 249, 249)), (1, 1, 1)), "21 at 1"),
    ("a place for each stream, not for each master", lambda: opinion.plan_urgent(sheet(*URGENT), (3, 3, 2)), "13 at 3"),
    ("room for each stream", lambda: opinion.plan_urgent(sheet(*URGENT), (3, 3, 3)), "x 500 1000 1000; rounds 1 2 2"),
    ("3 before 13 for urgent requests first", lambda: opinion.plan_urgent(sheet(*TABLE), (0, 0, 0)), "3 at 0"),
    ("6 before 13 for urgent requests first", lambda: opinion.plan_urgent(sheet((1, 4)), (0, 0, 0)), "6 at 2"),
    # equal D by sheet order, also behind one that is more urgent
    ("places in the order of urgency",
     lambda: opinion.plan_urgent(
         sheet((1, 2), (2, 2, 203, 9_000, 9_000), *[(2, 1, 203, 9_000, d) for d in (7_000, 6_000, 7_000, 6_000)])).place, "[1, 3, 1, 4, 2]"),
    ("J and T play no part in the order",
     lambda: opinion.plan_urgent(
         sheet((1, 1), (7, 1, 203, 9_000, 5_000, 4_000), (2, 1, 203, 5_000, 5_000), (7, 1, 203, 90_000, 4_999, 9_000))).place, "[2, 3, 1]"),
    # the last has b = 0 and the one before it b = 1, so the two have the same figure
    ("80 of one master", lambda: opinion.plan_urgent(sheet((1, 1), *[(2, 1, 203, 99_999, 99_999)] * 80)).figure,
     str([250 * min(i + 2, 80) for i in range(80)])),
    # V is 250, 110 and 10 bp together; master 2's stream, alone there, has one turn of the token
    ("another master's streams are not ahead",
     lambda: opinion.plan_urgent(sheet((1, 3), (2, 1, 203, 800, 800), (2, 1, 203, 9_000, 9_000), (2, 2, 63, 370, 370))),
     "x 740 740 370; rounds 1 1 0"),
    ("a figure above the deadline by one bp",
     lambda: opinion.plan_urgent(sheet((1, 3), (2, 1, 203, 739, 739), (2, 1, 203, 9_000, 9_000), (2, 2, 63, 370, 370))), "21 at 1"),
    ("the first stream in sheet order, not in that of urgency",
     lambda: opinion.plan_urgent(sheet((1, 1), (2, 1, 203, 9_000, 999), *[(2, 1, 203, 9_000, d) for d in (998, 997, 249)])), "21 at 1"),
    ("a stream that is not accepted is ahead of others all the same",
     lambda: opinion.plan_urgent(sheet((1, 1), (2, 1, 203, 9_000, 499), (2, 1, 203, 9_000, 500))), "21 at 1"),
    # load 250/500 and 250/500: each round adds what it asks for
    ("no solution below any deadline",
     lambda: opinion.plan_urgent(sheet((1, 1), (2, 1, 203, 90_000, 90_000), *[(2, 1, 203, 500, 500)] * 2)), "21 at 1"),
    ("a window that ends just with a spacing", lambda: opinion.plan_urgent(sheet(*URGENT[:3], (2, 1, 203, 1_000, 1_000))),
     "x 500 1000 1000; rounds 1 2 2"),
    ("a window and J that end just with a spacing", lambda: opinion.plan_urgent(sheet((1, 1), (7, 1, 203, 1_000, 500, 250), *URGENT[2:])),
     "x 500 750 750; rounds 1 1 1"),
    ("a window and J that end one bp behind a spacing", lambda: opinion.plan_urgent(sheet((1, 1), (7, 1, 203, 1_000, 500, 251), *URGENT[2:])),
     "x 500 1000 1000; rounds 1 2 2"),
    ("the greatest J and the greatest T",
     lambda: opinion.plan_urgent(
         sheet((1, 1), (7, 1, 203, 1_000_000_000, 500, 999_999_500), (2, 1, 203, 1_000_000_000, 1_000_000_000))),
     "x 500 500; rounds 1 1"),
    ("the report of urgent requests first", lambda: opinion.urgent_report(sheet(*URGENT)),
     "P-NET urgent first\n"
     "stream 1 M01 place 1 figure 500 bp 6510417 ns 1 rounds deadline 500 bp\n"
     "stream 2 M01 place 2 figure 1000 bp 13020834 ns 2 rounds deadline 100000 bp\n"
     "stream 3 M01 place 3 figure 1000 bp 13020834 ns 2 rounds deadline 100000 bp\n"
     "first come refused 8 at stream 1 bound 750 bp 9765625 ns urgent 500 bp 6510417 ns deadline 500 bp\n"),
    ("the report of urgent requests first where first come does too", lambda: opinion.urgent_report(sheet(*TWO_MASTERS)),
     "P-NET urgent first\n"
     "stream 1 M01 place 1 figure 1000 bp 13020834 ns 1 rounds deadline 100000 bp\n"
     "stream 2 M01 place 2 figure 1000 bp 13020834 ns 1 rounds deadline 100000 bp\n"
     "stream 3 M02 place 1 figure 500 bp 6510417 ns 0 rounds deadline 100000 bp\n"),
    ("the report of urgent requests first, refused", lambda: opinion.urgent_report(sheet(*FOUR_MASTERS[:5], (2, 4, 203, 100_000, 1_999))),
     "refused 21 at stream 5\n"),
    ("the report of urgent requests first, of another bus", lambda: opinion.urgent_report(sheet(*RING)), "refused 3 at byte 0\n"),
    ("the report of urgent requests first, of a bad line", lambda: opinion.urgent_report(HEAD_LINE + b"x\n"), "refused 23 at line 2\n"),
    ("a capture beside x: stream 1 was promised 500 bp",
     lambda: opinion.capture_report(
         sheet(*URGENT), events((16, 2, 0), (16, 3, 0), (16, 1, 1), (17, 2, 210), (17, 3, 460), (17, 1, 710)), opinion.urgent_first),
     "P-NET capture urgent first\n"
     "stream 1 M01 bound 500 bp 6510417 ns largest 709 bp 9231771 ns 1 answers 1 above 0 open\n"
     "stream 2 M01 bound 1000 bp 13020834 ns largest 210 bp 2734375 ns 1 answers 0 above 0 open\n"
     "stream 3 M01 bound 1000 bp 13020834 ns largest 460 bp 5989584 ns 1 answers 0 above 0 open\n"
     "answers above the bound in 1 streams, first stream 1\n"),
    ("a capture beside x of a sheet that is refused",
     lambda: opinion.capture_report(sheet((1, 1), (2, 1, 203, 249, 249)), b"\x02", opinion.urgent_first), "refused 21 at stream 1\n"),
    ("a refused capture beside x",
     lambda: opinion.capture_report(sheet(*URGENT), events((17, 1, 0)), opinion.urgent_first), "refused 15 at capture byte 0\n"),
    ("a refused capture", lambda: opinion.capture_report(sheet(*TWO_MASTERS), events((17, 1, 0))),
     "refused 15 at capture byte 0\n"),
    ("the report of a path",
     lambda: opinion.path_report([(sheet(*TWO_MASTERS), 1), (sheet(*FOUR_MASTERS), 2)], [30], 3_060),
     "P-NET path\n"
     "segment 1 M01 bound 1000 bp\n"
     "gateway 1 request 30 bp reply 30 bp\n"
     "segment 2 M02 bound 2000 bp\n"
     "total 3060 bp 39843750 ns deadline 3060 bp\n"),
    ("a path's total is turned up once: leg by leg it would be 1 ns more",
     lambda: opinion.path_report([(sheet((1, 2), (2, 1, 203, 9_999, 9_999), (2, 2, 204, 9_999, 9_999)), 1)] * 2, [0], 1_002),
     "P-NET path\n"
     "segment 1 M01 bound 501 bp\n"
     "gateway 1 request 0 bp reply 0 bp\n"
     "segment 2 M01 bound 501 bp\n"
     "total 1002 bp 13046875 ns deadline 1002 bp\n"),
    ("a refused sheet of a path",
     lambda: opinion.path_report([(sheet(*TWO_MASTERS), 1), (sheet(*FOUR_MASTERS_LATE), 2)], [0], 1),
     "refused 8 at stream 5 of segment 2\n"),
    ("an empty path", lambda: opinion.path_report([], [], 1), "refused 17 at 0 gateways\n"),
    ("a slow gateway",
     lambda: opinion.path_report([(sheet(*TWO_MASTERS), 1)] * 3, [0, 1_000_001], 1), "refused 4 at gateway 2\n"),
    ("no deadline", lambda: opinion.path_report([(sheet(*TWO_MASTERS), 1)] * 2, [0], 0), "refused 4 at deadline\n"),
    ("a master without streams",
     lambda: opinion.path_report([(sheet(*TWO_MASTERS), 1), (sheet(*TWO_MASTERS), 3)], [0], 1), "refused 18 at segment 2\n"),
    ("a deadline that is missed",
     lambda: opinion.path_report([(sheet(*TWO_MASTERS), 1)] * 2, [0], 1_999), "refused 19\n"),
    ("room for the text",
     lambda: opinion.export_sheet(sheet((1, 1), (2, 1, 203, 1_000, 1_000)), 52),
     "pnet-segment,1\npnet-stream,1,203 bp,1000 bp,1000 bp\n"),
    ("no room for the text", lambda: opinion.export_sheet(sheet((1, 1), (2, 1, 203, 1_000, 1_000)), 51), "13 at 52"),
    ("2 for kind 3 before 13", lambda: opinion.export_sheet(sheet(*RING), 0), "2 at 0"),
    ("6 before 13", lambda: opinion.export_sheet(sheet((1, 4)), 0), "6 at 2"),
    ("room for the sheet", lambda: opinion.import_text(HEAD_LINE + GOOD_LINE, 14).hex(), "0102020100cb000003e8000003e8"),
    ("no room for the sheet", lambda: opinion.import_text(HEAD_LINE + GOOD_LINE, 13), "13 at 14"),
    ("6 before 13 on import", lambda: opinion.import_text(HEAD_LINE, 0), "6 at 2"),
    ("23 before 13 on import", lambda: opinion.import_text(HEAD_LINE + b"x\n", 0), "23 at 2"),
    ("1 before 13 on import", lambda: opinion.import_text(b"", 0), "1 at 0"),
    ("the 801st line of a stream", lambda: opinion.import_text(EIGHTY_LINES + GOOD_LINE), "5 at 9602"),
    ("a bad line behind the 801st stream", lambda: opinion.import_text(EIGHTY_LINES + GOOD_LINE * 200 + b"x\n"), "23 at 1002"),
    ("an unended line behind the 801st stream",
     lambda: opinion.import_text(EIGHTY_LINES + GOOD_LINE * 200 + GOOD_LINE[:-1]), "23 at 1002"),
    ("the 81st line of a master",
     lambda: opinion.import_text(HEAD_LINE + GOOD_LINE * 81 + b"pnet-segment,2\n"), "5 at 962"),
    ("the 65th line of a variable",
     lambda: opinion.import_text(b"worldfip-exchange,1 us\n" + b"".join(b"worldfip-variable,%d,9 us\n" % i for i in (*range(64), 0))),
     "5 at 453"),
    ("a line of 10,000 digits", lambda: opinion.import_text(HEAD_LINE + b"pnet-stream,%s,9 bp,9 bp,9 bp\n" % (b"1" * 10_000)), "23 at 2"),
    ("a line of 10,000 blanks", lambda: opinion.import_text(HEAD_LINE + b" " * 10_000 + b"\n"), "23 at 2"),
    ("a line of 10,000 commas", lambda: opinion.import_text(b"pnet-segment" + b"," * 10_000 + b"\n"), "23 at 1"),
    ("10,000 bytes without an end", lambda: opinion.import_text(HEAD_LINE + b"x" * 10_000), "23 at 2"),
    ("the report of a line not of the form", lambda: opinion.report(HEAD_LINE + GOOD_LINE + b"x\n"), "refused 23 at line 3\n"),
    ("the report of a text that reading refuses", lambda: opinion.report(HEAD_LINE + HEAD_LINE), "refused 3 at byte 2\n"),
    ("a word and its comma make a text", lambda: opinion.report(b"worldfip-variable,"), "refused 23 at line 1\n"),
    ("a word alone makes none", lambda: opinion.report(b"worldfip-variable\n"), "refused 2 at byte 0\n"),
    ("a word with something before it makes none", lambda: opinion.report(b"\xef\xbb\xbf" + HEAD_LINE + GOOD_LINE), "refused 2 at byte 0\n"),
    ("the word of kind 9 makes a text", lambda: opinion.report(b"profibus-ring,3,300 bp\n"), "refused 20 at byte 6\n"),
    ("the word of kind 10 makes a text", lambda: opinion.report(b"profibus-message,"), "refused 23 at line 1\n"),
    ("the word of a kind that is not there makes none", lambda: opinion.report(b"worldfip-edition,2\n"), "refused 2 at byte 0\n"),
    ("a text is exported as itself", lambda: opinion.export_given(HEAD_LINE + GOOD_LINE), (HEAD_LINE + GOOD_LINE).decode("ascii")),
    ("a text with a bad line is not exported", lambda: opinion.export_given(HEAD_LINE + b"\n"), "23 at 2"),
    ("bytes are not imported", lambda: opinion.import_text(sheet(*TWO_MASTERS)), "23 at 1"),
    ("a text beside a capture", lambda: opinion.capture_report(HEAD_LINE + GOOD_LINE, events((16, 1, 5), (17, 1, 9))),
     "P-NET capture\n"
     "stream 1 M01 bound 260 bp 3385417 ns largest 4 bp 52084 ns 1 answers 0 above 0 open\n"
     "every answer within its bound\n"),
    ("a text's 23 before the capture's refusals",
     lambda: opinion.capture_report(HEAD_LINE + b"x\n", b"\x02"), "refused 23 at line 2\n"),
    ("a path of a text and of bytes",
     lambda: opinion.path_report([(HEAD_LINE + GOOD_LINE, 1), (sheet(*TWO_MASTERS), 2)], [5], 770),
     "P-NET path\n"
     "segment 1 M01 bound 260 bp\n"
     "gateway 1 request 5 bp reply 5 bp\n"
     "segment 2 M02 bound 500 bp\n"
     "total 770 bp 10026042 ns deadline 770 bp\n"),
    ("a bad line in a path",
     lambda: opinion.path_report([(sheet(*TWO_MASTERS), 1), (HEAD_LINE + GOOD_LINE + b"x\n", 2)], [0], 1),
     "refused 23 at line 3 of segment 2\n"),
    ("a bad line in a path, behind a refused sheet",
     lambda: opinion.path_report([(sheet(*FOUR_MASTERS_LATE), 1), (b"pnet-segment,\n", 2)], [0], 1),
     "refused 8 at stream 5 of segment 1\n"),
    ("the most room that a sheet without the edition takes", lambda: opinion.import_text(opinion.export_sheet(JITTERS), 12_801), "13 at 12802"),
    ("the 801st line of a stream, behind lines of kind 7",
     lambda: opinion.import_text(opinion.export_sheet(JITTERS) + GOOD_LINE), "5 at 12802"),
    ("the word of kind 7 makes a text", lambda: opinion.report(b"pnet-jitter-stream,"), "refused 23 at line 1\n"),
    ("the most room that a sheet with the edition takes", lambda: opinion.import_text(opinion.export_sheet(LONGEST), 12_803), "13 at 12804"),
    ("the 801st line of a stream, behind the edition",
     lambda: opinion.import_text(opinion.export_sheet(LONGEST) + GOOD_LINE), "5 at 12804"),
    ("the word of kind 8 makes a text", lambda: opinion.report(b"pnet-edition,"), "refused 23 at line 1\n"),
    ("the report of a text that begins with its edition", lambda: opinion.report(b"pnet-edition,2\n" + HEAD_LINE), "refused 3 at byte 0\n"),
    ("the report of a text of edition 2",
     lambda: opinion.report(HEAD_LINE + b"pnet-edition,2\n" + GOOD_LINE),
     "P-NET segment\nM01 bound 500 bp 6510417 ns refined 260 bp 3385417 ns 1 rounds\n"),
    ("a capture beside edition 2: a response within its bound, above that of edition 1",
     lambda: opinion.capture_report(HEAD_LINE + b"pnet-edition,2\n" + GOOD_LINE, events((16, 1, 5), (17, 1, 505))),
     "P-NET capture\n"
     "stream 1 M01 bound 500 bp 6510417 ns largest 500 bp 6510417 ns 1 answers 0 above 0 open\n"
     "every answer within its bound\n"),
    ("a path over both editions, each segment by its own",
     lambda: opinion.path_report([(under(1, UNEVEN), 2), (under(2, UNEVEN), 1), (sheet(*UNEVEN), 1)], [5, 30], 4_000),
     "P-NET path\n"
     "segment 1 M02 bound 610 bp\n"
     "gateway 1 request 5 bp reply 5 bp\n"
     "segment 2 M01 bound 2100 bp\n"
     "gateway 2 request 30 bp reply 30 bp\n"
     "segment 3 M01 bound 1220 bp\n"
     "total 4000 bp 52083334 ns deadline 4000 bp\n"),
    ("unknown kind to the writer", lambda: opinion.write_record(0, 9, 11, ()), "2 at 9"),
    ("a whole record", lambda: opinion.write_record(14, 2, 2, (32, 1_548, 9, 9)),
     "0220060c0000000900000009 then 14"),
    ("one byte short", lambda: opinion.write_record(13, 2, 2, (32, 1_548, 9, 9)), "13 at 14"),
]


def in_hex(answer):
    return answer.hex() if isinstance(answer, bytes) else answer


def call(name, *data):
    return {
        "capture": opinion.compare_capture,
        "beside x": lambda *pair: opinion.compare_capture(*pair, promised=opinion.urgent_first),
        "export": opinion.export_sheet,
        "rewrite": lambda data: in_hex(opinion.rewrite_sheet(data)),
        "import": lambda text: in_hex(opinion.import_text(text)),
        "read": opinion.read,
        "pnet": opinion.plan_pnet,
        "urgent": opinion.plan_urgent,
        "profibus": opinion.plan_profibus,
        "worldfip": opinion.plan_worldfip,
        "report": opinion.report,
    }[name](*data)


def vectors():
    """Every vector as (name, what is asked, the answer known beforehand)."""
    for bp, us in UP + UP_WIDE:
        yield "%d bp up" % bp, lambda bp=bp: opinion.us_up(bp), str(us)
    for bp, ns in UP_NS + UP_NS_WIDE:
        yield "%d bp up in ns" % bp, lambda bp=bp: opinion.ns_up(bp), str(ns)
    for us, bp in DOWN + DOWN_WIDE:
        yield "%d us down" % us, lambda us=us: opinion.bp_down(us), str(bp)
    for name, data, expected in PAGE:
        yield "%s %s" % (name, data.hex()), lambda n=name, d=data: call(n, d), expected
    eighty = sheet(*EIGHTY_EACH)
    yield "80 each: R", lambda: opinion.plan_pnet(eighty).bound, str([197_600] * 10)
    yield "80 each: us", lambda: opinion.us_up(197_600), "2572917"
    for line in READINGS.strip().splitlines():
        name, *given, expected = [part.strip() for part in line.split("|")]
        if name == "write":
            place, length = int(given[0]), int(given[1])
            kind, *numbers = [int(x) for x in given[2].split()]
            yield line, lambda l=length, p=place, k=kind, x=numbers: (
                opinion.write_record(l, p, k, x)), expected
        else:
            data = [bytes.fromhex(part.replace("-", "")) for part in given]
            yield line, lambda n=name, d=data: call(n, *d), expected.replace("\\n", "\n")
    for line in PATHS.strip().splitlines():
        *path, expected = path_of(line)
        yield line, lambda p=path: opinion.cross_path(*p), expected
    yield from of_texts()
    yield from PROSE


def of_texts():
    for line in TEXTS.strip().splitlines():
        name, given, expected = text_case(line)
        yield line, lambda n=name, g=given: call(n, g), expected
    for name, line in slips():
        yield name, lambda l=line: opinion.import_text(HEAD_LINE + l + GOOD_LINE), "23 at 2"
    for name, data, expected in PAGE:
        text = opinion.export_sheet(data)
        if isinstance(text, bytes):
            yield "back from " + text.decode("ascii"), lambda t=text: call("import", t), data.hex()
            if name == "report":
                yield "report of " + text.decode("ascii"), lambda t=text: opinion.report(t), expected


def main():
    passed = 0
    failed = 0
    for name, ask, expected in vectors():
        answer = shown(ask())
        if answer == expected:
            passed += 1
        else:
            failed += 1
            print("%s\n  expected %r\n  got      %r" % (name, expected, answer))
    print("%d passed, %d failed" % (passed, failed))
    return 1 if failed else 0


if __name__ == "__main__":
    sys.exit(main())
