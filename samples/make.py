"""Write the sample sheets, their texts, captures, paths and runs with urgent requests first and their listings, or say whether they are current.

    make.py            writes every NAME.sheet, NAME.csv, NAME.capture and NAME.txt beside this file
    make.py --check    changes nothing; exit status 1 if a file is not current

The expected reports stand here as text, so that a change of the second
opinion can't pass unseen into the samples.
"""

import os
import sys

HERE = os.path.dirname(os.path.abspath(__file__))
sys.path.insert(0, os.path.join(HERE, os.pardir, "tests"))
sys.dont_write_bytecode = True

import second_opinion  # noqa: E402

# how the listing of a sheet that has no text calls a record
NAMES = {
    1: "P-NET segment",
    2: "P-NET stream",
    3: "PROFIBUS ring",
    4: "PROFIBUS stream",
    5: "WorldFIP",
    6: "WorldFIP variable",
    7: "P-NET stream with jitter",
    8: "P-NET rule",
    9: "PROFIBUS ring",
    10: "PROFIBUS master",
}
# each field's bytes, name and unit
FIELDS = {
    1: [(1, "masters N", "")],
    2: [
        (1, "master", ""),
        (2, "longest cycle C", " bp"),
        (4, "spacing T", " bp"),
        (4, "deadline D", " bp"),
    ],
    3: [(1, "masters n", ""), (4, "ring latency L", " bp"), (4, "longest message M", " bp")],
    4: [(1, "master", ""), (4, "cycle C", " bp"), (4, "deadline D", " bp")],
    5: [(4, "one buffer exchange E", " us")],
    6: [(2, "identifier", ""), (4, "period", " us")],
    8: [(1, "edition", "")],
    9: [(1, "masters n", ""), (4, "ring latency L", " bp")],
    10: [(1, "number", ""), (4, "longest message", " bp")],
}
FIELDS[7] = FIELDS[2] + [(4, "release jitter J", " bp")]

FOUR_MASTERS = [(1, 4)] + [(2, y, 203, 100_000, 2_000) for y in (1, 1, 2, 2, 3, 3, 4, 4)]
LATE_THIRD = (2, 2, 203, 100_000, 1_999)


def of_edition(edition, deadline):
    """Two masters with H of 250 and 350 bp, and a silent one; the deadline is master 2's."""
    return [
        (1, 3),
        (8, edition),
        (2, 1, 203, 100_000, 100_000),
        (2, 1, 203, 100_000, 100_000),
        (2, 2, 303, 100_000, deadline),
    ]


def with_an_alarm(deadline, of_second):
    """One master that is alone, so V is 250 bp: an alarm, and two streams that ask seldom."""
    return [(1, 1), (2, 1, 203, 500, deadline), (2, 1, 203, 100_000, of_second), (2, 1, 203, 100_000, 100_000)]


RING = [(3, 3, 300, 500), (4, 1, 400, 8_400), (4, 1, 500, 10_000), (4, 2, 300, 5_000)]
# master 5 is a slow drive, whose longest message is twelve times that of any other
WITH_A_SLOW_DRIVE = [(4, 1, 400, 24_000), (4, 1, 500, 40_000), (4, 2, 300, 12_000), (4, 5, 6_000, 60_000)]


def own_messages(*longest):
    """The longest message of each master, from the first on."""
    return [(10, master, message) for master, message in enumerate(longest, start=1)]


# Source 004's plant: 5 ms are 384 bp, so its spacings are whole numbers of bp
MS_100, MS_200, MS_300, MS_500 = 7_680, 15_360, 23_040, 38_400
MS_20, MS_80 = 1_536, 6_144


def plant_streams(master, *spacings):
    """A stream for each spacing; the source gives no deadlines, so D is T."""
    return [(2, master, 200, spacing, spacing) for spacing in spacings]


# Source 004's traffic of Table 3.3, A to F as 1 to 6
SIX_VARIABLES = [(6, 1, 1_000), (6, 2, 2_000), (6, 3, 3_000), (6, 4, 4_000), (6, 5, 4_000), (6, 6, 6_000)]

# name, what it shows, records, bytes cut off at the end, expected report
SAMPLES = [
    (
        "pnet-two-masters",
        "Accepted. The refined figure of master 1 is below its bound, as master 2\n"
        "has one request only while two of master 1 are served.",
        [
            (1, 2),
            (2, 1, 203, 100_000, 100_000),
            (2, 1, 203, 100_000, 100_000),
            (2, 2, 203, 100_000, 100_000),
        ],
        0,
        "P-NET segment\n"
        "M01 bound 1000 bp 13020834 ns refined 760 bp 9895834 ns 1 rounds\n"
        "M02 bound 500 bp 6510417 ns refined 500 bp 6510417 ns 1 rounds\n",
    ),
    (
        "pnet-waiting-request",
        "Accepted. Master 2 asks every 1,000 bp at most, but a request of its may have\n"
        "waited up to 500 bp, its bound, when the window opens: so two of its requests\n"
        "count, and nothing is saved.",
        [
            (1, 2),
            (2, 1, 203, 100_000, 100_000),
            (2, 1, 203, 100_000, 100_000),
            (2, 2, 203, 1_000, 1_000),
        ],
        0,
        "P-NET segment\n"
        "M01 bound 1000 bp 13020834 ns refined 1000 bp 13020834 ns 2 rounds\n"
        "M02 bound 500 bp 6510417 ns refined 500 bp 6510417 ns 1 rounds\n",
    ),
    (
        "pnet-four-masters",
        "Accepted. Every deadline stands at the bound of 2,000 bp, which source 004\n"
        "prints as 26 ms; rounded up it is 26,041,667 ns.",
        FOUR_MASTERS,
        0,
        "P-NET segment\n"
        + "".join(
            "M0%d bound 2000 bp 26041667 ns refined 2000 bp 26041667 ns 1 rounds\n" % y
            for y in (1, 2, 3, 4)
        ),
    ),
    (
        "pnet-four-masters-late",
        "Refused with 8. A deadline of 26,041 us is 1,999 bp, one below the bound:\n"
        "26 ms for the bound would have let it pass.",
        FOUR_MASTERS[:3] + [LATE_THIRD] + FOUR_MASTERS[4:],
        0,
        "refused 8 at stream 3\n",
    ),
    (
        "pnet-silent-masters",
        "Accepted, stream 1 just at its bound. Masters 2 and 4 have no streams and no\n"
        "line, and still cost 10 bp each in every turn of the token.",
        [
            (1, 4),
            (2, 1, 203, 5_000, 620),
            (2, 3, 303, 10_000, 2_000),
            (2, 3, 103, 10_000, 9_000),
        ],
        0,
        "P-NET segment\n"
        "M01 bound 620 bp 8072917 ns refined 620 bp 8072917 ns 1 rounds\n"
        "M03 bound 1240 bp 16145834 ns refined 1000 bp 13020834 ns 1 rounds\n",
    ),
    (
        "pnet-first-edition",
        "Accepted. The edition of the rule is written, and it is 1, as where none is: each master\n"
        "is charged the longest time that it holds the token itself, and the silent one 10 bp. So\n"
        "V is 250 + 350 + 10 = 610 bp.",
        of_edition(1, 1_050),
        0,
        "P-NET segment\n"
        "M01 bound 1220 bp 15885417 ns refined 880 bp 11458334 ns 1 rounds\n"
        "M02 bound 610 bp 7942709 ns refined 610 bp 7942709 ns 1 rounds\n",
    ),
    (
        "pnet-second-edition",
        "Accepted, stream 3 just at its bound. The segment of pnet-first-edition under edition 2,\n"
        "the rule of source 003: every master is charged the longest time that any one of them\n"
        "holds the token, master 2's 350 bp, and the silent one too. So V is 3 * 350 = 1,050 bp,\n"
        "and stays that whichever master gets one more stream, if its C is 303 bp at most.\n"
        "\n"
        "A visit that is not used saves 340 bp in the refined figures, at the silent master too:\n"
        "master 1 has 2,100 - 340 - 2 * 340 bp, and master 2 has 1,050 - 340 bp.",
        of_edition(2, 1_050),
        0,
        "P-NET segment\n"
        "M01 bound 2100 bp 27343750 ns refined 1080 bp 14062500 ns 1 rounds\n"
        "M02 bound 1050 bp 13671875 ns refined 710 bp 9244792 ns 1 rounds\n",
    ),
    (
        "pnet-second-edition-late",
        "Refused with 8. The deadline of stream 3 is one bp below its bound under edition 2; under\n"
        "edition 1 its bound is 610 bp, and it would pass.",
        of_edition(2, 1_049),
        0,
        "refused 8 at stream 3\n",
    ),
    (
        "pnet-release-jitter",
        "Accepted. Stream 6, of master 3, is sporadic: its nominal times are at least 100 ms\n"
        "apart (T, 7,680 bp), and a request comes up to 80 ms late (J, 6,144 bp), so two may\n"
        "come 20 ms apart. Its deadline of 20 ms, 1,536 bp, is all that J leaves of T. Where J\n"
        "is measured, it is to be rounded up.\n"
        "\n"
        "J changes no bound, but the refined figures of the others. A request of master 3 may\n"
        "have waited for 741 bp, its bound, and have come J late: 1,462 + 741 + 6,144 bp are more\n"
        "than T, so two of its requests count while three of master 1 are served, and also while\n"
        "two of master 2 are. With J = 0 one would, and the refined figures be 1,462 and 1,195 bp.",
        [
            (1, 3),
            (2, 1, 200, MS_100, MS_100),
            (2, 1, 200, MS_200, MS_200),
            (2, 1, 200, MS_200, MS_200),
            (2, 2, 150, MS_500, MS_500),
            (2, 2, 150, MS_500, MS_500),
            (7, 3, 250, MS_100, MS_20, MS_80),
        ],
        0,
        "P-NET segment\n"
        "M01 bound 2223 bp 28945313 ns refined 1749 bp 22773438 ns 2 rounds\n"
        "M02 bound 1482 bp 19296875 ns refined 1482 bp 19296875 ns 2 rounds\n"
        "M03 bound 741 bp 9648438 ns refined 741 bp 9648438 ns 1 rounds\n",
    ),
    (
        "pnet-urgent-first",
        "Refused with 8: with first come each of the three streams has 750 bp, and the first wants its answer\n"
        "within 500 bp. Accepted where urgent requests go first: see urgent-first.",
        with_an_alarm(500, 100_000),
        0,
        "refused 8 at stream 1\n",
    ),
    (
        "pnet-urgent-late",
        "Refused with 8 as pnet-urgent-first is, and with 21 where urgent requests go first: see urgent-late.",
        with_an_alarm(500, 999),
        0,
        "refused 8 at stream 1\n",
    ),
    (
        "pnet-urgent-jitter",
        "Refused with 8: with first come each of the three streams of master 1 has 3 * 1,050 bp, and D of the\n"
        "first is 3,000 bp. Accepted where urgent requests go first: see urgent-jitter.",
        [
            (1, 3),
            (8, 2),
            (7, 1, 203, 10_000, 3_000, 7_000),
            (2, 1, 203, 100_000, 100_000),
            (2, 1, 203, 10_000, 10_000),
            (2, 2, 303, 100_000, 1_050),
        ],
        0,
        "refused 8 at stream 1\n",
    ),
    (
        "profibus-ring",
        "Accepted. Stream 1 alone fails at 2,501 bp. A ring of kind 3, which has one longest message for\n"
        "all masters and no text; profibus-ring-rewritten is the same ring, as it is written now.",
        RING,
        0,
        "PROFIBUS ring\nTTR 2500 bp limited by stream 1\n",
    ),
    (
        "profibus-ring-late",
        "Refused with 9. At a rotation time of 300 bp, the latency, stream 3 needs\n"
        "300 + 3 * 500 + 300 = 2,100 bp and has one less.",
        RING[:3] + [(4, 2, 300, 2_099)],
        0,
        "refused 9 at stream 3\n",
    ),
    (
        "profibus-ring-rewritten",
        "Accepted. This is what planner --rewrite profibus-ring.sheet writes: the ring without its M, that M\n"
        "for each master, then the streams. Its report is the same.",
        [(9, 3, 300)] + own_messages(500, 500, 500) + RING[1:],
        0,
        "PROFIBUS ring\nTTR 2500 bp limited by stream 1\n",
    ),
    (
        "profibus-slow-drive",
        "Accepted. Master 5 is a slow drive with messages of up to 6,000 bp, and no other has one above\n"
        "500 bp. Each master counts with its own: 4 * 500 + 6,000 = 8,000 bp. Stream 3 has\n"
        "12,000 - 300 - 8,000 bp, which is the TTR. With 6,000 bp for every master it would be\n"
        "profibus-slow-drive-for-all, and refused.",
        [(9, 5, 100)] + own_messages(500, 500, 500, 500, 6_000) + WITH_A_SLOW_DRIVE,
        0,
        "PROFIBUS ring\nTTR 3700 bp limited by stream 3\n",
    ),
    (
        "profibus-slow-drive-for-all",
        "Refused with 9. The ring of profibus-slow-drive by kind 3, in which the slow drive's longest message\n"
        "counts for all five masters, 30,000 bp: at a rotation time of 100 bp stream 1 needs\n"
        "2 * 30,100 + 400 = 60,600 bp and has 24,000 bp.",
        [(3, 5, 100, 6_000)] + WITH_A_SLOW_DRIVE,
        0,
        "refused 9 at stream 1\n",
    ),
    (
        "worldfip-table",
        "Accepted. Two slots in each row, all of them used.",
        [(5, 400), (6, 17, 1_000), (6, 18, 2_000), (6, 19, 4_000), (6, 20, 4_000)],
        0,
        "WorldFIP table\n"
        "microcycle 1000 us 2 slots 4 rows\n"
        "row 0: 17 18\n"
        "row 1: 17 19\n"
        "row 2: 17 18\n"
        "row 3: 17 20\n",
    ),
    (
        "worldfip-empty-rows",
        "Accepted. Equal periods rank by sheet order, so 31 stands before 30; two\n"
        "rows have nothing to send.",
        [(5, 300), (6, 40, 3_000), (6, 31, 2_000), (6, 30, 2_000)],
        0,
        "WorldFIP table\n"
        "microcycle 1000 us 3 slots 6 rows\n"
        "row 0: 31 30 40\n"
        "row 1:\n"
        "row 2: 31 30\n"
        "row 3: 40\n"
        "row 4: 31 30\n"
        "row 5:\n",
    ),
    (
        "worldfip-five-e210",
        "Refused with 12 (source 004, Table 6.3). Four exchanges fill each row, and\n"
        "the fifth variable still waits when its period ends.",
        [(5, 210)] + [(6, i, 1_000) for i in (17, 18, 19, 20)] + [(6, 21, 3_000)],
        0,
        "refused 12 at variable 5\n",
    ),
    (
        "damaged-cut",
        "Refused with 1. The last record lacks seven of its twelve bytes.",
        [(1, 2), (2, 1, 203, 100_000, 100_000), (2, 2, 203, 100_000, 100_000)],
        7,
        "refused 1 at byte 14\n",
    ),
    (
        "damaged-edition",
        "Refused with 3. The edition may stand just behind the segment, and nowhere else.",
        [(1, 2), (2, 1, 203, 100_000, 100_000), (8, 2), (2, 2, 203, 100_000, 100_000)],
        0,
        "refused 3 at byte 14\n",
    ),
    (
        "damaged-ring",
        "Refused with 20. Masters 3 and 1 have their longest message, in any order, and master 2 has none when\n"
        "the first stream comes. It needs one, without streams of its own too: it may send all the same.",
        [(9, 3, 300), (10, 3, 500), (10, 1, 500), (4, 1, 400, 8_400)],
        0,
        "refused 20 at byte 18\n",
    ),
]
# what --rewrite makes of a sample is another
REWRITTEN = {"profibus-ring": "profibus-ring-rewritten"}

# Real cells, from source 004, to start from one that looks like yours; where its figure is another than ours, the listing says why. Fields as above.
CELLS = [
    (
        "plant-one-segment",
        "Accepted. A plant of eight masters and 28 streams on one segment (source 004,\n"
        "Tables 4.3 and 4.10). Every cycle is 200 bp at most, so V is 8 * 247 = 1,976 bp.\n"
        "\n"
        "The source gives T in ms and no D, so D is T here. 48 bp last 625 us: 100, 200, 300\n"
        "and 500 ms are 7,680, 15,360, 23,040 and 38,400 bp, and nothing is rounded, as for\n"
        "every multiple of 5 ms. Any other T or D is to be rounded down and C up: then\n"
        "requests come oftener, have less time and take longer than in truth, and what is\n"
        "accepted so is safe.\n"
        "\n"
        "The source's Table 4.4 has V rounded to 25.7 ms first and multiplied then, so each of\n"
        "its figures is below the bound; here the bound is exact in bp and rounded up in ns:\n"
        "\n"
        "M01   5928 bp   77187500 ns    77.1 ms in the source\n"
        "M02   7904 bp  102916667 ns   102.1 ms, a slip: 4 * 25.7 ms is 102.8 ms, as for M06\n"
        "M03   5928 bp   77187500 ns    77.1 ms\n"
        "M04   3952 bp   51458334 ns    51.4 ms\n"
        "M05   1976 bp   25729167 ns    25.7 ms\n"
        "M06   7904 bp  102916667 ns   102.8 ms\n"
        "M07   9880 bp  128645834 ns   128.5 ms\n"
        "M08  11856 bp  154375000 ns   154.2 ms\n"
        "\n"
        "A deadline of 77.1 ms for master 1, which the source's figure would meet, is 5,921 bp\n"
        "and refused with 8. It has no refined figures for this segment.",
        [(1, 8)]
        + plant_streams(1, *[MS_300] * 3)
        + plant_streams(2, *[MS_200] * 4)
        + plant_streams(3, *[MS_500] * 3)
        + plant_streams(4, *[MS_200] * 2)
        + plant_streams(5, MS_100)
        + plant_streams(6, *[MS_500] * 4)
        + plant_streams(7, *[MS_500] * 5)
        + plant_streams(8, *[MS_500] * 6),
        0,
        "P-NET segment\n"
        "M01 bound 5928 bp 77187500 ns refined 5217 bp 67929688 ns 1 rounds\n"
        "M02 bound 7904 bp 102916667 ns refined 6482 bp 84401042 ns 2 rounds\n"
        "M03 bound 5928 bp 77187500 ns refined 5217 bp 67929688 ns 1 rounds\n"
        "M04 bound 3952 bp 51458334 ns refined 3715 bp 48372396 ns 1 rounds\n"
        "M05 bound 1976 bp 25729167 ns refined 1976 bp 25729167 ns 1 rounds\n"
        "M06 bound 7904 bp 102916667 ns refined 6482 bp 84401042 ns 2 rounds\n"
        "M07 bound 9880 bp 128645834 ns refined 7036 bp 91614584 ns 2 rounds\n"
        "M08 bound 11856 bp 154375000 ns refined 7353 bp 95742188 ns 2 rounds\n",
    ),
    (
        "plant-segment-a",
        "Accepted. The plant of plant-one-segment cut into three segments (source 004,\n"
        "Tables 4.6 and 4.10): this one has masters 1, 2 and 3, and master 3 is this side of\n"
        "the gateway to plant-segment-b. Times in bp as in plant-one-segment.\n"
        "\n"
        "The last two streams of master 3 are relayed: the reply to the stream of master 1 in\n"
        "path-plant-two-segments, and the request of path-plant-three-segments. Page 02 (Ask 4)\n"
        "wants the request here; the source counts a reply too, since the gateway takes a turn\n"
        "to send it. One stream more makes no bound smaller, so the sheet keeps both.\n"
        "\n"
        "The source's Tables 4.8 (bound) and 4.11 (refined) have tenths of ms, rounded or, as\n"
        "38.9 ms, cut; here the figures are exact in bp and rounded up in ns:\n"
        "\n"
        "M01  bound 2223 bp 28945313 ns   28.9 ms   refined 2223 bp 28945313 ns   28.9 ms\n"
        "M02  bound 2964 bp 38593750 ns   38.6 ms   refined 2727 bp 35507813 ns   35.5 ms\n"
        "M03  bound 3705 bp 48242188 ns   48.2 ms   refined 2994 bp 38984375 ns   38.9 ms\n"
        "\n"
        "It counts the requests of other masters by another rule than page 02 (Ask 2), and here\n"
        "both count one for each stream.",
        [(1, 3)]
        + plant_streams(1, *[MS_300] * 3)
        + plant_streams(2, *[MS_200] * 4)
        + plant_streams(3, MS_500, MS_500, MS_500, MS_300, MS_500),
        0,
        "P-NET segment\n"
        "M01 bound 2223 bp 28945313 ns refined 2223 bp 28945313 ns 1 rounds\n"
        "M02 bound 2964 bp 38593750 ns refined 2727 bp 35507813 ns 1 rounds\n"
        "M03 bound 3705 bp 48242188 ns refined 2994 bp 38984375 ns 1 rounds\n",
    ),
    (
        "plant-segment-b",
        "Accepted. The middle one of the three segments (see plant-segment-a): the source's\n"
        "masters 4, 5 and 6 are masters 1, 2 and 3 here. Master 1 is this side of the gateway to\n"
        "plant-segment-a and master 3 of that to plant-segment-c. The last two streams of\n"
        "master 1 are relayed, the request of path-plant-two-segments and the reply of\n"
        "path-plant-three-segments, and so is the last of master 3, the latter's request.\n"
        "\n"
        "Beside the source's Tables 4.8 (bound) and 4.11 (refined), rounded to tenths of ms:\n"
        "\n"
        "M01  bound 2964 bp 38593750 ns   38.6 ms   refined 2253 bp 29335938 ns   29.3 ms\n"
        "M02  bound  741 bp  9648438 ns    9.6 ms   refined  741 bp  9648438 ns    9.6 ms\n"
        "M03  bound 3705 bp 48242188 ns   48.2 ms   refined 2520 bp 32812500 ns   32.8 ms",
        [(1, 3)]
        + plant_streams(1, MS_200, MS_200, MS_300, MS_500)
        + plant_streams(2, MS_100)
        + plant_streams(3, *[MS_500] * 5),
        0,
        "P-NET segment\n"
        "M01 bound 2964 bp 38593750 ns refined 2253 bp 29335938 ns 1 rounds\n"
        "M02 bound 741 bp 9648438 ns refined 741 bp 9648438 ns 1 rounds\n"
        "M03 bound 3705 bp 48242188 ns refined 2520 bp 32812500 ns 1 rounds\n",
    ),
    (
        "plant-segment-c",
        "Accepted. The last of the three segments (see plant-segment-a): the source's masters 7\n"
        "and 8 are masters 1 and 2 here, and master 1 is this side of the gateway to\n"
        "plant-segment-b. Its last stream is relayed, the reply of path-plant-three-segments.\n"
        "\n"
        "The source has 38.6 ms for all four figures (Tables 4.8 and 4.11), rounded from\n"
        "2,964 bp, 38,593,750 ns.",
        [(1, 2)] + plant_streams(1, *[MS_500] * 6) + plant_streams(2, *[MS_500] * 6),
        0,
        "P-NET segment\n"
        "M01 bound 2964 bp 38593750 ns refined 2964 bp 38593750 ns 1 rounds\n"
        "M02 bound 2964 bp 38593750 ns refined 2964 bp 38593750 ns 1 rounds\n",
    ),
    (
        "profibus-six-masters",
        "Accepted. A ring of six masters with 17 streams (source 004, Table 5.7), any\n"
        "low-priority traffic beside them. The ring runs at 1 Mbit/s, so a bp of it is 1 us: C\n"
        "and every master's longest message of 2 ms are 2,000 bp, L of 0.1 ms is 100 bp, and\n"
        "nothing is rounded. Else C, messages and L are to be rounded up and D down: what is\n"
        "accepted so is safe.\n"
        "\n"
        "The rule is the source's: (60,000 - 2,000) / 3 - 6 * 2,000 bp, rounded down. It prints\n"
        "7.33 ms for 7,333 bp (7.333 ms) and says master 4 or 5; the report has the first stream\n"
        "that fails at 7,334 bp, stream 9, the first of master 4. At this TTR stream 1 needs\n"
        "40,666 bp; the source has 40.66 ms, from 7.33 ms.\n"
        "\n"
        "Under its other rule, for few low-priority messages a turn, the source finds D of 50 and\n"
        "60 ms too short (70.1 ms at least). Page 01 goes by source 002 and has no such rule.",
        [(9, 6, 100)]
        + own_messages(*[2_000] * 6)
        + [
            (4, master, 2_000, deadline)
            for master, deadlines in (
                (1, (50_000, 100_000)),
                (2, (90_000, 80_000, 140_000)),
                (3, (120_000, 130_000, 110_000)),
                (4, (60_000, 200_000, 140_000)),
                (5, (60_000, 100_000, 100_000)),
                (6, (80_000, 80_000, 100_000)),
            )
            for deadline in deadlines
        ],
        0,
        "PROFIBUS ring\nTTR 7333 bp limited by stream 9\n",
    ),
    (
        "worldfip-six-e184",
        "Accepted. Source 004's traffic of Table 3.3, its A to F as 1 to 6, at 1 Mbit/s: 64 and\n"
        "80 bits and two turnarounds of 20 us make E = 184 us. A period of 1 ms is 1,000 us, and\n"
        "nothing is rounded; else E is to be rounded up and a period down.\n"
        "\n"
        "The table is the source's Table 6.2, row by row; its microcycle 1 is row 0. Its text has\n"
        "92 bits where its sum has 80: with 92, E would be 196 us and the table the same.",
        [(5, 184)] + SIX_VARIABLES,
        0,
        "WorldFIP table\n"
        "microcycle 1000 us 5 slots 12 rows\n"
        "row 0: 1 2 3 4 5\n"
        "row 1: 1 6\n"
        "row 2: 1 2\n"
        "row 3: 1 3\n"
        "row 4: 1 2 4 5\n"
        "row 5: 1\n"
        "row 6: 1 2 3 6\n"
        "row 7: 1\n"
        "row 8: 1 2 4 5\n"
        "row 9: 1 3\n"
        "row 10: 1 2\n"
        "row 11: 1\n",
    ),
    (
        "worldfip-six-e210",
        "Accepted. The traffic of worldfip-six-e184 at E = 210 us: one slot fewer, and 5 too waits\n"
        "for row 1. The table is source 004's Table 6.8, row by row; its microcycle 1 is row 0.",
        [(5, 210)] + SIX_VARIABLES,
        0,
        "WorldFIP table\n"
        "microcycle 1000 us 4 slots 12 rows\n"
        "row 0: 1 2 3 4\n"
        "row 1: 1 5 6\n"
        "row 2: 1 2\n"
        "row 3: 1 3\n"
        "row 4: 1 2 4 5\n"
        "row 5: 1\n"
        "row 6: 1 2 3 6\n"
        "row 7: 1\n"
        "row 8: 1 2 4 5\n"
        "row 9: 1 3\n"
        "row 10: 1 2\n"
        "row 11: 1\n",
    ),
]

EVENTS = {16: "request", 17: "answer"}

# name, the sheet that it is laid beside, what it shows, events (kind, stream, stamp), expected report
CAPTURES = [
    (
        "capture-within",
        "pnet-two-masters",
        "Every answer within its bound. The counter runs over to zero between a request\n"
        "and its answer: 704 - 4,294,967,000 around the wrap is 1,000 bp, the bound itself.\n"
        "The last request is still open.",
        [
            (16, 1, 4_294_967_000),
            (16, 3, 4_294_967_100),
            (17, 3, 4_294_967_293),
            (16, 2, 4_294_967_295),
            (17, 2, 520),
            (17, 1, 704),
            (16, 3, 100_004),
        ],
        "P-NET capture\n"
        "stream 1 M01 bound 1000 bp 13020834 ns largest 1000 bp 13020834 ns 1 answers 0 above 0 open\n"
        "stream 2 M01 bound 1000 bp 13020834 ns largest 521 bp 6783855 ns 1 answers 0 above 0 open\n"
        "stream 3 M02 bound 500 bp 6510417 ns largest 193 bp 2513021 ns 1 answers 0 above 1 open\n"
        "every answer within its bound\n",
    ),
    (
        "capture-silent",
        "pnet-two-masters",
        "No answer: the probe hears requests only. Stream 1 has waited for 100,000 bp, and\n"
        "its bound is 1,000 bp; stream 3 for 450 bp, and its bound is 500 bp.",
        [(16, 1, 5), (16, 3, 99_555), (16, 2, 100_005)],
        "P-NET capture\n"
        "stream 1 M01 bound 1000 bp 13020834 ns largest 0 bp 0 ns 0 answers 0 above 1 open\n"
        "stream 2 M01 bound 1000 bp 13020834 ns largest 0 bp 0 ns 0 answers 0 above 1 open\n"
        "stream 3 M02 bound 500 bp 6510417 ns largest 0 bp 0 ns 0 answers 0 above 1 open\n"
        "requests open beyond the bound in 1 streams, first stream 1\n"
        "no answer in the whole capture\n",
    ),
    (
        "capture-too-soon",
        "pnet-two-masters",
        "The application's fault and not the bus's: stream 3 asks again 99,999 bp after its\n"
        "last request, while the counter runs over, and its T is 100,000 bp.",
        [(16, 3, 4_294_900_000), (17, 3, 4_294_900_400), (16, 3, 32_703), (17, 3, 33_300)],
        "P-NET capture\n"
        "stream 1 M01 bound 1000 bp 13020834 ns largest 0 bp 0 ns 0 answers 0 above 0 open\n"
        "stream 2 M01 bound 1000 bp 13020834 ns largest 0 bp 0 ns 0 answers 0 above 0 open\n"
        "stream 3 M02 bound 500 bp 6510417 ns largest 597 bp 7773438 ns 2 answers 1 above 0 open\n"
        "answers above the bound in 1 streams, first stream 3\n"
        "requests sooner than their spacing allows 1 times, first stream 3\n",
    ),
    (
        "capture-jitter-within",
        "pnet-release-jitter",
        "Every answer within its bound, and no request too soon. The second of stream 6 comes\n"
        "1,536 bp after the first, T - J: the first one's nominal time may be 3,856 bp, so that it\n"
        "came J late, and those of the others 11,536 and 19,216 bp, T later each, when they came.",
        [
            (16, 6, 10_000),
            (17, 6, 10_600),
            (16, 6, 11_536),
            (16, 1, 11_700),
            (17, 6, 11_900),
            (17, 1, 12_300),
            (16, 6, 19_216),
            (17, 6, 19_900),
        ],
        "P-NET capture\n"
        "stream 1 M01 bound 2223 bp 28945313 ns largest 600 bp 7812500 ns 1 answers 0 above 0 open\n"
        "stream 2 M01 bound 2223 bp 28945313 ns largest 0 bp 0 ns 0 answers 0 above 0 open\n"
        "stream 3 M01 bound 2223 bp 28945313 ns largest 0 bp 0 ns 0 answers 0 above 0 open\n"
        "stream 4 M02 bound 1482 bp 19296875 ns largest 0 bp 0 ns 0 answers 0 above 0 open\n"
        "stream 5 M02 bound 1482 bp 19296875 ns largest 0 bp 0 ns 0 answers 0 above 0 open\n"
        "stream 6 M03 bound 741 bp 9648438 ns largest 684 bp 8906250 ns 3 answers 0 above 0 open\n"
        "every answer within its bound\n",
    ),
    (
        "capture-jitter-too-soon",
        "pnet-release-jitter",
        "Requests of stream 6, each 1,536 bp after the one before, T - J. Two may come so, as in\n"
        "capture-jitter-within, but no third: the first one's nominal time is 3,856 bp at the\n"
        "earliest, so the third's is 19,216 bp or later, and it comes at 13,072 bp. The fourth goes\n"
        "by that one.",
        [
            (16, 6, 10_000),
            (17, 6, 10_600),
            (16, 6, 11_536),
            (17, 6, 11_900),
            (16, 6, 13_072),
            (17, 6, 13_700),
            (16, 6, 14_608),
            (17, 6, 15_000),
        ],
        "P-NET capture\n"
        "stream 1 M01 bound 2223 bp 28945313 ns largest 0 bp 0 ns 0 answers 0 above 0 open\n"
        "stream 2 M01 bound 2223 bp 28945313 ns largest 0 bp 0 ns 0 answers 0 above 0 open\n"
        "stream 3 M01 bound 2223 bp 28945313 ns largest 0 bp 0 ns 0 answers 0 above 0 open\n"
        "stream 4 M02 bound 1482 bp 19296875 ns largest 0 bp 0 ns 0 answers 0 above 0 open\n"
        "stream 5 M02 bound 1482 bp 19296875 ns largest 0 bp 0 ns 0 answers 0 above 0 open\n"
        "stream 6 M03 bound 741 bp 9648438 ns largest 628 bp 8177084 ns 4 answers 0 above 0 open\n"
        "requests sooner than their spacing allows 1 times, first stream 6\n",
    ),
    (
        "capture-not-in-order",
        "pnet-two-masters",
        "Two records are swapped, so the counter seems to go on by almost its whole round:\n"
        "no age and no gap is known.",
        [(16, 1, 1_000), (17, 1, 1_930), (16, 3, 1_200), (17, 3, 1_600)],
        "P-NET capture\n"
        "stream 1 M01 bound 1000 bp 13020834 ns largest 930 bp 12109375 ns 1 answers 0 above 0 open\n"
        "stream 2 M01 bound 1000 bp 13020834 ns largest 0 bp 0 ns 0 answers 0 above 0 open\n"
        "stream 3 M02 bound 500 bp 6510417 ns largest 400 bp 5208334 ns 1 answers 0 above 0 open\n"
        "records not in order of time, or none for 2147483648 bp 27962026666667 ns or longer: ages and gaps not known\n",
    ),
    (
        "capture-above",
        "pnet-two-masters",
        "Answers above their bound: stream 3 took 501 bp once, where 500 bp were promised.",
        [
            (16, 1, 1_000),
            (16, 3, 1_200),
            (17, 3, 1_701),
            (17, 1, 1_930),
            (16, 3, 101_200),
            (17, 3, 101_700),
        ],
        "P-NET capture\n"
        "stream 1 M01 bound 1000 bp 13020834 ns largest 930 bp 12109375 ns 1 answers 0 above 0 open\n"
        "stream 2 M01 bound 1000 bp 13020834 ns largest 0 bp 0 ns 0 answers 0 above 0 open\n"
        "stream 3 M02 bound 500 bp 6510417 ns largest 501 bp 6523438 ns 2 answers 1 above 0 open\n"
        "answers above the bound in 1 streams, first stream 3\n",
    ),
    (
        "capture-refused",
        "pnet-two-masters",
        "Refused with 16. Stream 2 asks again while its request is open.",
        [(16, 2, 5), (16, 3, 6), (17, 3, 250), (16, 2, 400)],
        "refused 16 at capture byte 21\n",
    ),
]

# name, what it shows, segments (a sheet above, named by its text, and the master that sends there), forwarding times and deadline in bp, expected report
PATHS = [
    (
        "path-two-segments",
        "Accepted. Master 1 of the first segment asks; master 2 of the second is the\n"
        "gateway. 1,000 bp, 30 bp, 2,000 bp, and 30 bp once more for the reply.",
        [("pnet-two-masters", 1), ("pnet-four-masters", 2)],
        [30],
        3_060,
        "P-NET path\n"
        "segment 1 M01 bound 1000 bp\n"
        "gateway 1 request 30 bp reply 30 bp\n"
        "segment 2 M02 bound 2000 bp\n"
        "total 3060 bp 39843750 ns deadline 3060 bp\n",
    ),
    (
        "path-both-editions",
        "Accepted, just at the deadline. Each segment goes by its own edition: master 2 of the first\n"
        "asks, and has 610 bp; master 1 of the second is the gateway, and has 2,100 bp.",
        [("pnet-first-edition", 2), ("pnet-second-edition", 1)],
        [30],
        2_770,
        "P-NET path\n"
        "segment 1 M02 bound 610 bp\n"
        "gateway 1 request 30 bp reply 30 bp\n"
        "segment 2 M01 bound 2100 bp\n"
        "total 2770 bp 36067709 ns deadline 2770 bp\n",
    ),
    (
        "path-late",
        "Refused with 19. The deadline is one bp below the total.",
        [("pnet-two-masters", 1), ("pnet-four-masters", 2)],
        [30],
        3_059,
        "refused 19\n",
    ),
    (
        "path-late-sheet",
        "Refused with 8. The second sheet is refused for itself, whoever sends there.",
        [("pnet-two-masters", 1), ("pnet-four-masters-late", 3)],
        [30],
        100_000,
        "refused 8 at stream 3 of segment 2\n",
    ),
    (
        "path-silent-gateway",
        "Refused with 18. Master 2 of the second segment has no streams: the relayed\n"
        "stream has to stand in the sheet of every segment that it crosses.",
        [("pnet-two-masters", 1), ("pnet-silent-masters", 2)],
        [30],
        100_000,
        "refused 18 at segment 2\n",
    ),
    (
        "path-plant-two-segments",
        "Accepted. Source 004's stream 1 of master 1, which asks a slave of the next segment\n"
        "(Table 4.5): master 1 of segment a sends, then master 1 of segment b, the gateway. The\n"
        "source leaves forwarding times out, so 0 bp stands here for yours; it gives no\n"
        "deadline, and 23,040 bp are the stream's T, 300 ms.\n"
        "\n"
        "The source has 115.72 ms. It lets the reply wait for a turn of the gateway too, M03 of\n"
        "segment a with 3,705 bp; by page 02 (Ask 4) a reply costs the forwarding time alone. With\n"
        "that wait it would be 8,892 bp, 115,781,250 ns; the source's own sum of rounded turns,\n"
        "12 * 9.65 ms, is 115.8 ms. If your gateways take a turn to send a reply, add that bound.\n"
        "Its 97.1 ms are the sum of three refined figures, 7,470 bp, 97,265,625 ns; a path goes by\n"
        "the bounds.",
        [("plant-segment-a", 1), ("plant-segment-b", 1)],
        [0],
        MS_300,
        "P-NET path\n"
        "segment 1 M01 bound 2223 bp\n"
        "gateway 1 request 0 bp reply 0 bp\n"
        "segment 2 M01 bound 2964 bp\n"
        "total 5187 bp 67539063 ns deadline 23040 bp\n",
    ),
    (
        "path-plant-three-segments",
        "Accepted. Source 004's stream 2 of master 8, which asks a slave of the first segment\n"
        "(Table 4.5; its text says segment 8, and there is none): master 2 of segment c, then the\n"
        "gateways, master 3 of segment b and master 3 of segment a. Forwarding times and deadline\n"
        "(T, 500 ms) as in path-plant-two-segments.\n"
        "\n"
        "The source has 212.36 ms, with the reply's waits at M01 of segment b and M01 of segment c,\n"
        "2,964 bp each, which page 02 does not charge. With them it would be 16,302 bp,\n"
        "212,265,625 ns; the source's own sum, 12 * 6.43 + 14 * 9.65 ms, is 212.26 ms. Its 178.2 ms\n"
        "are the sum of five refined figures, 13,695 bp, 178,320,313 ns.",
        [("plant-segment-c", 2), ("plant-segment-b", 3), ("plant-segment-a", 3)],
        [0, 0],
        MS_500,
        "P-NET path\n"
        "segment 1 M02 bound 2964 bp\n"
        "gateway 1 request 0 bp reply 0 bp\n"
        "segment 2 M03 bound 3705 bp\n"
        "gateway 2 request 0 bp reply 0 bp\n"
        "segment 3 M03 bound 3705 bp\n"
        "total 10374 bp 135078125 ns deadline 38400 bp\n",
    ),
]


# name, what it shows, a sheet above, named by its text, expected report with urgent requests first
URGENTS = [
    (
        "urgent-first",
        "Accepted. The alarm, stream 1, has the smallest deadline, so its requests go first: one waits for a less\n"
        "urgent request that is in the stack already, and then for its own turn, 2 * 250 bp. First come has\n"
        "750 bp for it, for both other streams may be before it.\n"
        "\n"
        "In 1,000 bp the alarm asks twice. So stream 2 waits for two turns of the alarm, for one of stream 3 that is\n"
        "in the stack, and for its own; stream 3 for two of the alarm, one of stream 2, and its own.\n"
        "\n"
        "This holds where the master hands the next request to the stack when the answer to the one before is in,\n"
        "and not sooner: capture-urgent-above shows what comes of that.",
        "pnet-urgent-first",
        "P-NET urgent first\n"
        "stream 1 M01 place 1 figure 500 bp 6510417 ns 1 rounds deadline 500 bp\n"
        "stream 2 M01 place 2 figure 1000 bp 13020834 ns 2 rounds deadline 100000 bp\n"
        "stream 3 M01 place 3 figure 1000 bp 13020834 ns 2 rounds deadline 100000 bp\n"
        "first come refused 8 at stream 1 bound 750 bp 9765625 ns urgent 500 bp 6510417 ns deadline 500 bp\n",
    ),
    (
        "urgent-late",
        "Refused with 21. The deadline of stream 2 is one bp below its figure, 1,000 bp: two requests of the alarm\n"
        "may go before it. With first come it would have 750 bp and be met, and the alarm would not.",
        "pnet-urgent-late",
        "refused 21 at stream 2\n",
    ),
    (
        "urgent-jitter",
        "Accepted, stream 4 just at its figure. Edition 2: V is 3 * 350 = 1,050 bp. In the order of master 1\n"
        "stream 1 comes first, then stream 3, whose deadline is the next, and stream 2 last.\n"
        "\n"
        "A request of stream 1 may come 7,000 bp late, so two of them may be close together, and both go before\n"
        "the others: 3,150 + 7,000 bp are more than T, 10,000 bp. With J = 0 one would, and the figures of streams 2\n"
        "and 3 be 3,150 bp. The J of a stream itself does not count for it.",
        "pnet-urgent-jitter",
        "P-NET urgent first\n"
        "stream 1 M01 place 1 figure 2100 bp 27343750 ns 1 rounds deadline 3000 bp\n"
        "stream 2 M01 place 3 figure 4200 bp 54687500 ns 2 rounds deadline 100000 bp\n"
        "stream 3 M01 place 2 figure 4200 bp 54687500 ns 2 rounds deadline 10000 bp\n"
        "stream 4 M02 place 1 figure 1050 bp 13671875 ns 0 rounds deadline 1050 bp\n"
        "first come refused 8 at stream 1 bound 3150 bp 41015625 ns urgent 2100 bp 27343750 ns deadline 3000 bp\n",
    ),
    (
        "urgent-plant",
        "Accepted. Source 004's plant, where first come is accepted too: then no figure is above the bound, and the\n"
        "more urgent a stream is, the further below. Equal deadlines go by the order of the sheet; stream 11 has the\n"
        "smallest of master 3. The last two in an order have the bound of first come, 3,705 bp at master 3. Its refined\n"
        "figure, 2,994 bp, is below that, as it counts how seldom the other masters ask, and these figures do not.",
        "plant-segment-a",
        "P-NET urgent first\n"
        "stream 1 M01 place 1 figure 1482 bp 19296875 ns 1 rounds deadline 23040 bp\n"
        "stream 2 M01 place 2 figure 2223 bp 28945313 ns 1 rounds deadline 23040 bp\n"
        "stream 3 M01 place 3 figure 2223 bp 28945313 ns 1 rounds deadline 23040 bp\n"
        "stream 4 M02 place 1 figure 1482 bp 19296875 ns 1 rounds deadline 15360 bp\n"
        "stream 5 M02 place 2 figure 2223 bp 28945313 ns 1 rounds deadline 15360 bp\n"
        "stream 6 M02 place 3 figure 2964 bp 38593750 ns 1 rounds deadline 15360 bp\n"
        "stream 7 M02 place 4 figure 2964 bp 38593750 ns 1 rounds deadline 15360 bp\n"
        "stream 8 M03 place 2 figure 2223 bp 28945313 ns 1 rounds deadline 38400 bp\n"
        "stream 9 M03 place 3 figure 2964 bp 38593750 ns 1 rounds deadline 38400 bp\n"
        "stream 10 M03 place 4 figure 3705 bp 48242188 ns 1 rounds deadline 38400 bp\n"
        "stream 11 M03 place 1 figure 1482 bp 19296875 ns 1 rounds deadline 23040 bp\n"
        "stream 12 M03 place 5 figure 3705 bp 48242188 ns 1 rounds deadline 38400 bp\n",
    ),
]

# the same of captures, beside the figures of urgent requests first: name, sheet, what it shows, events, expected report
URGENT_CAPTURES = [
    (
        "capture-urgent-within",
        "pnet-urgent-first",
        "Every answer within its figure. Streams 2 and 3 ask together, and the alarm, stream 1, asks while stream 2\n"
        "is served. When that answer is in, at 210 bp, the alarm is handed to the stack before stream 3, and it is\n"
        "answered at 460 bp.",
        [(16, 2, 0), (16, 3, 0), (16, 1, 1), (17, 2, 210), (17, 1, 460), (17, 3, 710)],
        "P-NET capture urgent first\n"
        "stream 1 M01 bound 500 bp 6510417 ns largest 459 bp 5976563 ns 1 answers 0 above 0 open\n"
        "stream 2 M01 bound 1000 bp 13020834 ns largest 210 bp 2734375 ns 1 answers 0 above 0 open\n"
        "stream 3 M01 bound 1000 bp 13020834 ns largest 710 bp 9244792 ns 1 answers 0 above 0 open\n"
        "every answer within its bound\n",
    ),
    (
        "capture-urgent-above",
        "pnet-urgent-first",
        "An answer above its figure, by a driver that hands the next request to the stack too soon. It takes that of\n"
        "stream 3 when the message of stream 2 starts, and not when its answer is in. So the alarm, stream 1, finds\n"
        "one before it that is served and one more in the stack, and waits for 709 bp, beyond its deadline too.",
        [(16, 2, 0), (16, 3, 0), (16, 1, 1), (17, 2, 210), (17, 3, 460), (17, 1, 710)],
        "P-NET capture urgent first\n"
        "stream 1 M01 bound 500 bp 6510417 ns largest 709 bp 9231771 ns 1 answers 1 above 0 open\n"
        "stream 2 M01 bound 1000 bp 13020834 ns largest 210 bp 2734375 ns 1 answers 0 above 0 open\n"
        "stream 3 M01 bound 1000 bp 13020834 ns largest 460 bp 5989584 ns 1 answers 0 above 0 open\n"
        "answers above the bound in 1 streams, first stream 1\n",
    ),
]


def record(kind, *numbers):
    body = b"".join(n.to_bytes(f[0], "big") for n, f in zip(numbers, FIELDS[kind]))
    return bytes([kind]) + body


def record_lines(records, cut):
    lines = []
    place = count = 0
    for kind, *numbers in records:
        length = len(record(kind, *numbers))
        line = "byte %d: %s" % (place, NAMES[kind])
        # streams and variables are numbered
        if kind in second_opinion.STREAM_KINDS[records[0][0]]:
            count += 1
            line += " %d" % count
        if place + length > sum(len(record(*r)) for r in records) - cut:
            line += ", cut after %d of %d bytes" % (length - cut, length)
        else:
            for number, (_, field, unit) in zip(numbers, FIELDS[kind]):
                line += ", %s %s%s" % (field, format(number, ","), unit)
        lines.append(line)
        place += length
    return lines


def listing(name, about, inside, report):
    return "\n".join([name + ".sheet", "", about, ""] + inside) + "\n\nReport:\n\n" + report


def event(kind, stream, stamp):
    return bytes([kind]) + stream.to_bytes(2, "big") + stamp.to_bytes(4, "big")


def hold_to(report, told, name):
    if told != report.encode("ascii"):
        sys.exit("%s: the second opinion reports otherwise:\n%s" % (name, told.decode("ascii")))


def capture_listing(first, about, events, report):
    lines = [first, ""] + about.split("\n") + [""]
    for index, (kind, stream, stamp) in enumerate(events):
        place = index * second_opinion.EVENT_LENGTH
        lines.append("byte %d: %s, stream %d, stamp %s bp" % (place, EVENTS[kind], stream, format(stamp, ",")))
    return "\n".join(lines) + "\n\nReport:\n\n" + report


def capture_files(made):
    """Beside the bounds, or beside the figures of urgent requests first."""
    for captures, promised, form in (
        (CAPTURES, second_opinion.first_come, "%s.capture, beside %s.sheet"),
        (URGENT_CAPTURES, second_opinion.urgent_first, "%s.capture, urgent requests first, beside %s.sheet"),
    ):
        for name, sheet, about, events, report in captures:
            data = b"".join(event(*e) for e in events)
            hold_to(report, second_opinion.capture_report(made[sheet + ".sheet"], data, promised), name)
            yield name + ".capture", data
            yield name + ".txt", capture_listing(form % (name, sheet), about, events, report).encode("ascii")


def sheet_files():
    for name, about, records, cut, report in SAMPLES + CELLS:
        data = b"".join(record(*r) for r in records)
        data = data[: len(data) - cut]
        hold_to(report, second_opinion.report(data), name)
        inside = record_lines(records, cut)
        text = second_opinion.export_sheet(data)
        if not isinstance(text, second_opinion.Refusal):
            inside = ["%s.csv is this sheet as text." % name]
            yield name + ".csv", text
        yield name + ".sheet", data
        yield name + ".txt", listing(name, about, inside, report).encode("ascii")


def path_files(made):
    for name, about, segments, times, deadline, report in PATHS:
        told = second_opinion.path_report([(made[sheet + ".sheet"], master) for sheet, master in segments], times, deadline)
        hold_to(report, told, name)
        command = "planner --path"
        for number, (sheet, master) in zip([deadline] + times, segments):
            command += " %d bp %s.csv %d" % (number, sheet, master)
        yield name + ".txt", command_listing(command, about, report)


def urgent_files(made):
    for name, about, sheet, report in URGENTS:
        hold_to(report, second_opinion.urgent_report(made[sheet + ".sheet"]), name)
        yield name + ".txt", command_listing("planner --urgent %s.csv" % sheet, about, report)


def command_listing(command, about, report):
    return (command + "\n\n" + about + "\n\nReport:\n\n" + report).encode("ascii")


def files():
    """Every file's name and contents."""
    made = dict(sheet_files())
    for old, new in REWRITTEN.items():
        if second_opinion.rewrite_sheet(made[old + ".sheet"]) != made[new + ".sheet"]:
            sys.exit("%s: the second opinion rewrites it otherwise" % old)
    made.update(capture_files(made))
    made.update(path_files(made))
    made.update(urgent_files(made))
    return made


def contents(path):
    if not os.path.exists(path):
        return None
    with open(path, "rb") as file:
        return file.read()


def main():
    if sys.argv[1:] not in ([], ["--check"]):
        sys.exit(__doc__.strip())
    expected = files()
    if sys.argv[1:] == []:
        for name, data in expected.items():
            with open(os.path.join(HERE, name), "wb") as file:
                file.write(data)
        print("%d files written" % len(expected))
        return 0
    stale = [n for n, data in expected.items() if contents(os.path.join(HERE, n)) != data]
    stale += [
        n for n in sorted(os.listdir(HERE)) if n.endswith((".sheet", ".csv", ".capture", ".txt")) and n not in expected
    ]
    for name in stale:
        print("not current: %s" % name)
    print("%d files, %d not current" % (len(expected), len(stale)))
    return 1 if stale else 0


if __name__ == "__main__":
    sys.exit(main())
