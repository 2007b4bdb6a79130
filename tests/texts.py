"""Texts to import and sheets to export, the same for the same seed.

The cases of the vectors come first, then texts at the edges of the rules, one by one. The rest is drawn from families: most
texts are exports of good sheets, some with a slip or more in them, since bytes drawn at random are refused for their first line.
"""

import random

import second_opinion
import sheets
import sheet_records
import sheets_damaged
import sheets_pnet
import sheets_ring
import sheets_table
import vectors
from second_opinion import UNITS, WIDTHS, WORDS, Refusal, line_of
from vectors import GOOD_LINE, HEAD_LINE

# what a program may read at once; any other length is as good a place for a seam
PIECES = (4_096, 16_384, 65_534, 65_536)

# rings that read, of both kinds; those of kind 3 have no text
RINGS = [sheets_ring.profibus_random, sheets_ring.profibus_exact, sheets_ring.profibus_ties, sheets_ring.profibus_below, sheets_ring.profibus_short]


def open_ring(rng):
    """A ring of kind 9."""
    return second_opinion.rewrite_sheet(rng.choice(RINGS)(rng))


# sheets that read and have a text
SHORT_SHEETS = [
    sheets_pnet.pnet_roomy, sheets_pnet.pnet_tight, sheets_pnet.pnet_late, sheets_pnet.pnet_jitter_counts, open_ring, open_ring,
    sheets_table.worldfip_mixed, sheets_table.worldfip_one_slot, sheets_table.worldfip_harmonic,
]
SHEETS = SHORT_SHEETS + [
    sheets_pnet.pnet_busy_master, sheets_pnet.pnet_links, sheets_pnet.pnet_many, sheets_pnet.pnet_jitter, sheets_pnet.pnet_jitter,
    sheets_table.worldfip_many_slots, sheets_table.worldfip_full_row, sheets_table.worldfip_many_rows, sheets_table.worldfip_huge, sheets_table.worldfip_no_fit,
]


def records_of(data):
    """The records of a sheet, each a kind and the list of its numbers."""
    return [(record[0], list(second_opinion.fields_of(record[0], record[1:]))) for record in sheet_records.records_of(data)]


def written(records):
    return b"".join(line_of(kind, numbers) for kind, numbers in records)


def exported(rng):
    return written(records_of(rng.choice(SHEETS)(rng)))


def short(rng):
    return written(records_of(rng.choice(SHORT_SHEETS)(rng)))


# ---------------------------------------------------------------- slips: a line that is of the form no more


def joined(cells):
    return b",".join(cells) + b"\n"


def with_cell(rng, line, change):
    """The line with one cell changed, the word or a number with its unit."""
    cells = line[:-1].split(b",")
    at = rng.randrange(len(cells))
    cells[at] = change(cells[at])
    return joined(cells)


def with_number(rng, line, change):
    cells = line[:-1].split(b",")
    at = rng.randrange(1, len(cells))
    digits, blank, unit = cells[at].partition(b" ")
    cells[at] = change(digits) + blank + unit
    return joined(cells)


def leading_zero(rng, line):
    return with_number(rng, line, lambda digits: b"0" * rng.choice([1, 1, 2, 30]) + digits)


def other_notation(rng, line):
    before, behind = rng.choice([(b"+", b""), (b"-", b""), (b"0x", b""), (b"", b".0"), (b"", b"e0"), (b"", b"_0")])
    return with_number(rng, line, lambda digits: before + digits + behind)


def no_digits(rng, line):
    return with_number(rng, line, lambda digits: b"")


def too_big(rng, line):
    word, *cells = line[:-1].split(b",")
    kind = next(kind for kind in WORDS if WORDS[kind].encode("ascii") == word)
    field = rng.randrange(len(cells))
    ones = 256 ** WIDTHS[kind][field] - 1
    number = ones + rng.choice([1, 2, rng.randint(1, ones), 2**32, 2**64, 2**64 - ones, 10**20])
    cells[field] = ("%d%s" % (number, UNITS[kind][field])).encode("ascii")
    return joined([word] + cells)


def blank(rng, line):
    at = rng.choice([0, len(line) - 1, rng.randrange(len(line))])
    return line[:at] + rng.choice([b" ", b" ", b"\t", b"\xa0"]) + line[at:]


def no_unit(rng, line):
    return line.replace(b" bp", b"", rng.choice([1, 3, 4])).replace(b" us", b"")


def other_unit(rng, line):
    bp, us = rng.choice([(b" us", b" bp"), (b" BP", b" US"), (b"bp", b"us"), (b"  bp", b"  us"), (b" ns", b" ns"), (b" b", b" u")])
    return line.replace(b" us", us).replace(b" bp", bp, 1)


def unit_too_much(rng, line):
    return with_cell(rng, line, lambda cell: cell + rng.choice([b" bp", b" us"]))


def other_end(rng, line):
    return line[:-1] + rng.choice([b"\r\n", b"\r", b"\n\n", b"\n\r", b",\n", b";\n", b"\0\n", b" \n", b"\v\n"])


def other_comma(rng, line):
    return line.replace(b",", rng.choice([b";", b"\t", b", ", b" ,", b",,"]), rng.choice([1, 9]))


def quoted(rng, line):
    return with_cell(rng, line, lambda cell: b'"' + cell + b'"')


def upper_case(rng, line):
    return rng.choice([line.upper(), line.capitalize(), line.replace(b"n", b"N")])


def other_word(rng, line):
    words = [
        b"", b"pnet", b"pnet-", b"pnet-streams", b"worldfip", b"1", b"#",
        b"profibus-ring", b"profibus-message", b"pnet-edition", b"pnet-editions", b"pnet-jitter", b"pnet-stream", b"pnet-jitter-stream",
    ]
    return joined([rng.choice(words)] + line[:-1].split(b",")[1:])


def cell_more(rng, line):
    cells = line[:-1].split(b",")
    cells.insert(rng.randint(1, len(cells)), rng.choice([b"", b"1", b"1 bp", b"1 us", cells[-1]]))
    return joined(cells)


def cell_less(rng, line):
    cells = line[:-1].split(b",")
    del cells[rng.randrange(len(cells))]
    return joined(cells)


def long_line(rng, line):
    at = rng.randrange(len(line))
    return line[:at] + rng.choice([b"1", b"0", b" ", b",", b"x", b"\0"]) * rng.choice([100, 5_000, 10_000]) + line[at:]


def byte_changed(rng, line):
    at = rng.randrange(len(line))
    return line[:at] + rng.randbytes(1) + line[at + 1 :]


def byte_more(rng, line):
    at = rng.randrange(len(line) + 1)
    return line[:at] + rng.randbytes(1) + line[at:]


def byte_less(rng, line):
    at = rng.randrange(len(line))
    return line[:at] + line[at + 1 :]


def byte_order_mark(rng, line):
    return b"\xef\xbb\xbf" + line


def other_line(rng, line):
    return rng.choice([b"\n", b"x\n", b",\n", b" \n", b"\r\n", b"\n" + line, b"# " + line])


SLIPS = [
    leading_zero, other_notation, no_digits, too_big, too_big, blank, no_unit, other_unit, unit_too_much, other_end, other_comma, quoted,
    upper_case, other_word, cell_more, cell_less, long_line, byte_changed, byte_more, byte_less, byte_order_mark, other_line,
]


def with_slips(rng, text, most):
    """A text with a slip in some of its lines, often the first or the last."""
    lines = text.splitlines(keepends=True)
    for at in {rng.choice([0, len(lines) - 1, rng.randrange(len(lines))]) for _ in range(rng.randint(1, most))}:
        lines[at] = rng.choice(SLIPS)(rng, lines[at])
    return b"".join(lines)


def slipped(rng):
    return with_slips(rng, rng.choice([short, exported, misread])(rng), rng.choice([1, 1, 3]))


def cut_short(rng):
    text = rng.choice([short, exported, misread])(rng)
    return text[: rng.choice([-1, rng.randrange(len(text))])]


def as_text(rng, data):
    """A sheet as it may stand beside a capture or in a path: as text, with a slip now and then; where it has none, as it is."""
    text = second_opinion.export_given(data)
    if isinstance(text, Refusal):
        return data
    return with_slips(rng, text, 1) if rng.random() < 0.4 else text


# ---------------------------------------------------------------- texts of the form that reading refuses


def other_number(rng, records):
    kind, numbers = rng.choice(records)
    field = rng.randrange(len(numbers))
    ones = 256 ** WIDTHS[kind][field] - 1
    numbers[field] = rng.choice([0, ones, ones - 1, rng.randint(0, ones), min(ones, numbers[field] + 1)])
    return records


def no_stream(rng, records):
    """With all that stands before the streams, or with the first record alone."""
    before = [record for record in records if record[0] not in second_opinion.STREAM_KINDS[1] + (4, 6)]
    # where the first record was taken away, nothing else may be left
    return before[: rng.choice([1, len(before), len(before)])] or records[:1]


def no_head(rng, records):
    return records[1:]


def moved(rng, records):
    """Two records, each at the other's place."""
    at, other = rng.sample(range(len(records)), 2)
    records[at], records[other] = records[other], records[at]
    return records


def borrowed(rng, records):
    """A record of any kind that has a line, anywhere."""
    kind = rng.choice(list(WORDS))
    records.insert(rng.randint(0, len(records)), (kind, list(sheets_damaged.SOUND_RECORD[kind])))
    return records


def other_edition(rng, records):
    """An edition, in range or not, behind the first record or anywhere."""
    records.insert(rng.choice([1, 1, 1, rng.randint(0, len(records))]), (8, [rng.choice([0, 1, 2, 3, 255])]))
    return records


def other_message(rng, records):
    """A longest message dropped, or one more, in range or not, behind the first record or anywhere."""
    given = [at for at, (kind, _) in enumerate(records) if kind == 10]
    if given and rng.random() < 0.5:
        del records[rng.choice(given)]
        return records
    one = (10, [rng.choice([0, 1, 1, 2, 33]), rng.choice([0, 1, 500, 100_000, 100_001])])
    records.insert(rng.choice([1, 1, 1 + len(given), rng.randint(0, len(records))]), one)
    return records


MISREADINGS = [other_number, other_number, other_number, no_stream, no_stream, no_head, moved, borrowed, other_edition, other_message, other_message]


def misread(rng):
    records = records_of(rng.choice(SHORT_SHEETS)(rng))
    for _ in range(rng.choice([1, 1, 2])):
        if len(records) > 1:
            records = rng.choice(MISREADINGS)(rng, records)
    return written(records)


def met_before(rng):
    return written(records_of(sheets_table.worldfip_repeated(rng)))


def messages_wrong(rng):
    """A ring with the longest message of a master left out, or given again."""
    records = records_of(open_ring(rng))
    n = records[0][1][0]
    at = rng.randint(1, n)
    if rng.random() < 0.5:
        del records[at]
    else:
        records.insert(rng.randint(at, n) + 1, records[at])
    return written(records)


def over(rng):
    """The 81st stream of a master, the 801st in all or the 65th variable, and more, with a bad line among them or none."""
    more = rng.choice([1, 2, 200])
    n = rng.choice([0, 1, 10, 32])
    if n == 0:
        records = [(5, [1])] + [(6, [i, 10_000]) for i in rng.sample(range(65_536), 64 + more)]
    elif rng.random() < 0.3:
        records = [(9, [n, 1])] + [(10, [y, 9]) for y in range(n, 0, -1)] + [(4, [1 + i % n, 9, 9_000_000]) for i in range(min(80 * n, 800) + more)]
    else:
        ends = rng.choice([[(2, 9_000_000)], [(7, 9_000_000, 0)], [(2, 9_000_000), (7, 8_000_000, 1_000_000)]])
        records = [(1, [n])] + rng.choice([[], [(8, [2])]])
        for i in range(min(80 * n, 800) + more):
            kind, *end = rng.choice(ends)
            records.append((kind, [1 + i % n, 9, 9_000_000, *end]))
    text = written(records)
    return with_slips(rng, text, 1) if rng.random() < 0.4 else text


# ---------------------------------------------------------------- what is hardly a text, or none


def empty(rng):
    """Refused with 1, as no other text is."""
    return b""


def noise(rng):
    """Any bytes, or bytes that a text may have, often behind what makes them a text."""
    signs = rng.choice([bytes(range(256)), b"0123456789, bpus\n", b"pnet-stream,1 bp\n"])
    made = bytes(rng.choices(signs, k=rng.choice([1, 2, 12, 50, 500])))
    return rng.choice([b"", HEAD_LINE, *second_opinion.BEGINNINGS]) + made


def ring(rng):
    """A ring of kind 3 or 9, as bytes."""
    return rng.choice(RINGS)(rng)


def as_bytes(rng):
    """A sheet of any bus, good or not."""
    return rng.choice(sheets.FAMILIES)(rng)


FAMILIES = [
    exported, exported, exported, short, short, short, short, slipped, slipped, slipped, slipped, slipped, slipped, cut_short,
    misread, misread, misread, misread, misread, met_before, messages_wrong, over, over, empty, noise, ring, ring, as_bytes, as_bytes, as_bytes,
]


# ---------------------------------------------------------------- edges


def of_length(length):
    """A text of the form of so many bytes, good up to 720 streams; some of its lines are a byte longer than the others."""
    count, longer = divmod(length - len(b"pnet-segment,9\n"), len(GOOD_LINE))
    return written([(1, [9])] + [(2, [1 + i % 9, 1_203 if i < longer else 203, 1_000, 1_000]) for i in range(count)])


def long_edges():
    """Texts around the ends of pieces, and far longer ones than any good text."""
    for length in sorted({piece + by for piece in PIECES for by in (-1, 0, 1)}):
        text = of_length(length)
        yield "%d bytes" % length, text
        yield "%d bytes, then a bad line" % length, text + b"x\n" + GOOD_LINE
        yield "%d bytes, the last line without its end" % length, text[:-1]
    most = sheet_records.MEGABYTE // len(GOOD_LINE)
    yield "megabytes of streams", HEAD_LINE + GOOD_LINE * (3 * most)
    late = b"pnet-jitter-stream,1,203 bp,1000 bp,700 bp,300 bp\n"
    yield "megabytes of streams of kind 7", HEAD_LINE + late * (3 * sheet_records.MEGABYTE // len(late))
    yield "megabytes of streams of kind 7, then a bad line", HEAD_LINE + late * (3 * sheet_records.MEGABYTE // len(late)) + late[:-4] + b"\n"
    yield "megabytes of streams, then a bad line", HEAD_LINE + GOOD_LINE * (3 * most) + b"pnet-stream,1,203 bp,1000 bp,1000\n"
    yield "a megabyte of streams, then one without an end", HEAD_LINE + GOOD_LINE * most + GOOD_LINE[:-1]
    yield "a megabyte of streams without a segment", GOOD_LINE * most
    yield "a megabyte of segments", HEAD_LINE * most
    yield "a megabyte of editions", HEAD_LINE + b"pnet-edition,2\n" * (sheet_records.MEGABYTE // 15)
    yield "a megabyte of editions, then a bad line", HEAD_LINE + b"pnet-edition,2\n" * (sheet_records.MEGABYTE // 15) + b"pnet-edition,256\n"
    yield "a megabyte of longest messages", b"profibus-ring,2,9 bp\n" + b"profibus-message,1,9 bp\n" * (sheet_records.MEGABYTE // 24)
    yield "a megabyte of longest messages, then a bad line", b"profibus-ring,2,9 bp\n" + b"profibus-message,1,9 bp\n" * (sheet_records.MEGABYTE // 24) + b"profibus-message,1,9\n"
    yield "a megabyte of variables", b"worldfip-exchange,1 us\n" + b"worldfip-variable,1,9 us\n" * most
    for what, one in (("digits", b"1"), ("zeros", b"0"), ("blanks", b" "), ("commas", b","), ("zero bytes", b"\0")):
        yield "a megabyte of %s in a line" % what, HEAD_LINE + b"pnet-stream,1" + one * sheet_records.MEGABYTE + GOOD_LINE
    yield "a megabyte of empty lines", b"\n" * sheet_records.MEGABYTE
    yield "a megabyte in one line", b"x" * sheet_records.MEGABYTE


def edges(rng):
    for line in vectors.TEXTS.strip().splitlines():
        yield line, vectors.text_case(line)[1]
    for name, line in vectors.slips():
        yield name, HEAD_LINE + line + GOOD_LINE
    # each field at the ends of its bytes and its range; kind 4 is tried behind kind 9, since kind 3 has no line
    for kind in WORDS:
        for field in range(len(WIDTHS[kind])):
            for value in sheets_damaged.around(kind, field):
                records = records_of(sheets_damaged.with_field(kind, field, value))
                if kind == 4:
                    records[:1] = [(9, [3, 300]), (10, [3, 500]), (10, [2, 500]), (10, [1, 500])]
                yield "kind %d field %d is %d" % (kind, field + 1, value), written(records)
    for j in (0, 1, 999, 1_000, 1_001, sheet_records.ONES):
        for d in sorted({1, 1_000 - j, 1_001 - j}):
            if 0 <= d:
                yield "T 1000 D %d J %d" % (d, j), HEAD_LINE + written([(7, [1, 203, 1_000, d, j])])
    yield "the longest lines of kind 2", written([(1, [32])] + [(2, [10 + i % 23, 1_548, sheet_records.BILLION, sheet_records.BILLION]) for i in range(800)])
    half = sheet_records.BILLION // 2
    longest = [(1, [32])] + [(7, [10 + i % 23, 1_548, sheet_records.BILLION, half, half]) for i in range(800)]
    yield "the longest text", written(longest)
    yield "the longest text, then a stream of kind 2", written(longest) + GOOD_LINE
    yield "the longest text, then a stream of kind 7", written(longest + longest[-1:])
    yield "the longest text, then a bad line", written(longest) + b"pnet-jitter-stream,1,203 bp,1000 bp,700 bp,300\n"
    longest.insert(1, (8, [2]))
    yield "the longest text with the edition", written(longest)
    yield "the longest text with the edition, then a stream of kind 2", written(longest) + GOOD_LINE
    yield "the longest text with the edition, then a stream of kind 7", written(longest + longest[-1:])
    yield "the longest text with the edition, then the edition again", written(longest + longest[1:2])
    yield "the longest text with the edition, then a bad line", written(longest) + b"pnet-edition,\n"
    yield "the longest text with the edition, then one unended", written(longest) + b"pnet-edition,2"
    yield "the longest line that is of the form", HEAD_LINE + written([(7, [255, 65_535, *[sheet_records.ONES] * 3])])
    yield "800 streams", written(records_of(sheets_pnet.full_segment(rng, 32, [25] * 32)))
    yield "800 streams of kind 7", written(records_of(sheets_pnet.full_segment(rng, 32, [25] * 32, kinds=(7,))))
    yield "800 streams of kinds 2 and 7", written(records_of(sheets_pnet.full_segment(rng, 32, [25] * 32, kinds=(2, 7))))
    ring800 = [(9, [32, 100_000])] + [(10, [y, 100_000]) for y in range(32, 0, -1)] + [(4, [10 + i % 23, 100_000, sheet_records.BILLION]) for i in range(800)]
    yield "the longest text of a ring", written(ring800)
    yield "the longest text of a ring, then a stream", written(ring800 + ring800[-1:])
    yield "the longest text of a ring, then a longest message", written(ring800 + ring800[1:2])
    yield "the longest text of a ring, then a bad line", written(ring800) + b"profibus-message,1,9\n"
    yield "64 variables", written([(5, [1_000_000])] + [(6, [65_535 - i, sheet_records.BILLION]) for i in range(64)])
    yield from long_edges()


def texts(seed, count):
    """Yield `count` pairs of a name and what is given: a text, or the bytes of a sheet."""
    rng = random.Random("text %d" % seed)
    given = 0
    for name, data in edges(rng):
        if given == count:
            return
        yield name, data
        given += 1
    while given < count:
        family = rng.choice(FAMILIES)
        yield "%s %d" % (family.__name__, given), family(rng)
        given += 1
