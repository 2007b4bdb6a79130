"""Sheets that are cut, changed or shuffled, and fields at the ends of their ranges."""

from sheet_records import BILLION, WIDTHS, record, records_of, sheet
from sheets_pnet import pnet_jitter, pnet_late, pnet_roomy, pnet_tight
from sheets_ring import profibus_random, profibus_ties
from sheets_table import worldfip_harmonic, worldfip_mixed, worldfip_one_slot

SOUND = [
    pnet_roomy, pnet_tight, pnet_late, pnet_jitter, profibus_random, profibus_ties,
    worldfip_harmonic, worldfip_mixed, worldfip_one_slot,
]


def damaged(rng):
    data = bytearray(rng.choice(SOUND)(rng))
    for _ in range(rng.choice([1, 1, 1, 2])):
        at = rng.randrange(len(data))
        how = rng.randrange(4)
        if how == 0:
            data[at] = rng.choice([0, 1, 255, data[at] ^ (1 << rng.randrange(8)), rng.randrange(256)])
        elif how == 1:
            data.insert(at, rng.randrange(256))
        elif how == 2 and len(data) > 1:
            del data[at]
        else:
            data += rng.randbytes(rng.randint(1, 12))
    return bytes(data)


def cut_short(rng):
    data = rng.choice(SOUND)(rng)
    return data[: rng.randrange(len(data))]


def shuffled(rng):
    """Whole records, swapped, doubled, dropped or borrowed from another bus."""
    parts = records_of(rng.choice(SOUND)(rng))
    how = rng.randrange(4)
    at = rng.randrange(len(parts))
    if how == 0:
        other = rng.randrange(len(parts))
        parts[at], parts[other] = parts[other], parts[at]
    elif how == 1:
        parts.insert(rng.randrange(len(parts) + 1), parts[at])
    elif how == 2:
        del parts[at]
    else:
        borrowed = rng.choice(records_of(rng.choice(SOUND)(rng)))
        parts.insert(rng.randrange(len(parts) + 1), borrowed)
    return b"".join(parts)


def wrong_kind(rng):
    """Another kind byte at the head of a record, known or unknown."""
    parts = records_of(rng.choice(SOUND)(rng))
    at = rng.randrange(len(parts))
    kind = rng.choice([0, 1, 2, 3, 4, 5, 6, 7, 8, 9, 10, 11, 16, 99, 255])
    parts[at] = bytes([kind]) + parts[at][1:]
    data = b"".join(parts[: at + 1])
    # without its body the wrong kind must still be named before the cut
    return rng.choice([b"".join(parts), data, data[: len(data) - len(parts[at]) + 1]])


def noise(rng):
    data = rng.randbytes(rng.choice([1, 2, 3, 12, 50, 500]))
    return rng.choice([b"", bytes([rng.randrange(11)])]) + data


def edition_astray(rng):
    """The record of the edition at any place, out of range, twice, cut or with nothing behind it."""
    parts = records_of(rng.choice(SOUND)(rng))
    at = rng.choice([0, 1, 1, 1, 2, len(parts), rng.randint(0, len(parts))])
    one, other = (record(8, rng.choice([0, 1, 1, 2, 2, 3, 255])) for _ in range(2))
    before, behind = b"".join(parts[:at]), b"".join(parts[at:])
    return before + rng.choice([one + behind, one + behind, one + other + behind, one + behind + other, one[:1], one, one + one[:1]])


def no_stream(rng):
    head = rng.choice([
        [(1, rng.randint(1, 32))],
        [(1, rng.randint(1, 32)), (8, rng.randint(1, 2))],
        [(3, rng.randint(1, 32), rng.randint(1, 100_000), rng.randint(1, 100_000))],
        [(5, rng.randint(1, 1_000_000))],
        [(9, rng.randint(1, 32), rng.randint(1, 100_000))],
        [(9, 2, rng.randint(1, 100_000)), (10, 2, rng.randint(1, 100_000)), (10, 1, rng.randint(1, 100_000))],
    ])
    return sheet(head)


# a sound record of each kind, and for each field the values around its range
SOUND_RECORD = {
    1: [4],
    2: [2, 203, 100_000, 90_000],
    3: [3, 300, 500],
    4: [2, 400, 80_000],
    5: [400],
    6: [17, 1_000],
    7: [2, 203, 100_000, 60_000, 30_000],
    8: [2],
    9: [3, 300],
    10: [2, 500],
}
RANGES = {
    1: [(1, 32)],
    2: [(1, 4), (1, 1_548), (1, BILLION), (1, 100_000)],
    3: [(1, 32), (1, 100_000), (1, 100_000)],
    4: [(1, 3), (1, 500), (1, BILLION)],
    5: [(1, 1_000_000)],
    6: [(0, 65_535), (1, BILLION)],
    # T has to hold D and J
    7: [(1, 4), (1, 1_548), (90_000, BILLION), (1, 70_000), (0, 40_000)],
    8: [(1, 2)],
    9: [(1, 32), (1, 100_000)],
    10: [(1, 3), (1, 100_000)],
}
HEAD_OF = {2: 1, 4: 3, 6: 5, 7: 1, 8: 1, 10: 9}


def with_field(kind, field, value, before=()):
    """A sheet in which one field has this value and the others are sound."""
    numbers = list(SOUND_RECORD[kind])
    numbers[field] = value
    if kind in (1, 3, 5):
        rest = [1] + SOUND_RECORD[kind + 1][1:] if kind != 5 else SOUND_RECORD[6]
        return sheet([(kind, *numbers), (kind + 1, *rest)])
    if kind == 9:
        masters = range(1, min(numbers[0], 32) + 1)
        return sheet([(9, *numbers)] + [(10, y, 500) for y in masters] + [(4, 1, *SOUND_RECORD[4][1:])])
    head = (HEAD_OF[kind], *SOUND_RECORD[HEAD_OF[kind]])
    behind = {8: [(2, *SOUND_RECORD[2])], 10: [(10, 1, 500), (10, 3, 500), (4, 1, *SOUND_RECORD[4][1:])]}.get(kind, [])
    return sheet([head, *before, (kind, *numbers), *behind])


def around(kind, field):
    least, greatest = RANGES[kind][field]
    ones = 256 ** WIDTHS[kind][field] - 1
    values = {0, least - 1, least, least + 1, greatest - 1, greatest, greatest + 1, ones, (ones >> 1) + 1}
    return sorted(v for v in values if 0 <= v <= ones)


def field_edge(rng):
    kind = rng.choice(list(WIDTHS))
    field = rng.randrange(len(WIDTHS[kind]))
    value = rng.choice(around(kind, field))
    before = []
    if kind in HEAD_OF and kind not in (8, 10):
        before = [(kind, *SOUND_RECORD[kind]) for _ in range(rng.choice([0, 0, 1, 3]))]
        if kind == 6:
            before = [(6, 100 + i, 1_000) for i in range(len(before))]
        if HEAD_OF[kind] == 1 and rng.random() < 0.3:
            before.insert(0, (8, rng.randint(1, 2)))
    return with_field(kind, field, value, before)
