"""Hold a planner's help to the second opinion's table of kinds, and try what goes wrong around a sheet, with the exit status of each; then the
script `plan` and what `install` puts down, with the program as it is built.

    program.py PROGRAM...
"""

import os
import pathlib
import pty
import re
import subprocess
import sys
import tempfile

sys.path.insert(0, os.path.dirname(os.path.abspath(__file__)))
sys.dont_write_bytecode = True

import second_opinion  # noqa: E402
import sheets_urgent  # noqa: E402
import slips  # noqa: E402

ROOT = pathlib.Path(__file__).resolve().parent.parent
# the script starts no check: the program is built by whoever runs this
AS_BUILT = dict(os.environ, PLAN_BUILD="never")
COLUMNS = 80
# one record of each kind, each field at a value that leaves room for the others'
GOOD = {
    1: (1,),
    2: (1, 203, second_opinion.BILLION, 1),
    3: (1, 300, 500),
    4: (1, 400, 8400),
    5: (400,),
    6: (17, 1000),
    7: (1, 203, second_opinion.BILLION, 1, 0),
    8: (1,),
    9: (1, 300),
    10: (1, 500),
}
# what a field's greatest value is called, where it stands in another field, with the others as above
NAMED = {
    "N": second_opinion.MASTERS_LIMIT,
    "n": second_opinion.MASTERS_LIMIT,
    "M": second_opinion.MESSAGE_LIMIT,
    "T": second_opinion.BILLION,
    "T-1": second_opinion.BILLION - 1,
    "T-J": second_opinion.BILLION,
}
FIRST = second_opinion.FIRST_KINDS
PHRASES = (
    "The first record is %d, %d, %d or %d;" % FIRST,
    "at most %d streams" % second_opinion.STREAMS_LIMIT,
    "at most %d for one master" % second_opinion.STREAMS_LIMIT_OF_MASTER,
    "at most %d variables" % second_opinion.VARIABLES_LIMIT,
    "one of kind 8 may stand just behind kind 1",
    "one of kind 10 for each master, in any order, stands behind kind 9",
    "Kind 3 is read and no longer written",
    "Edition 1 of the P-NET rule, which holds without kind 8,",
    "%d bp if it has no streams; edition 2 charges every master the longest" % second_opinion.UNUSED_VISIT,
    "48 in %d us" % second_opinion.us_up(48),
    "6 in %d ns" % second_opinion.ns_up(6),
    "a kind that is not %d..%d" % (min(second_opinion.WIDTHS), max(second_opinion.WIDTHS)),
    "more than %d rows" % second_opinion.ROWS_LIMIT,
    "however often the others ask",
    "if every master keeps its spacing",
    "%d for a request" % second_opinion.REQUEST,
    "%d for its completed answer" % second_opinion.ANSWER,
    "true below %d bp" % second_opinion.COUNTER,
    "neither %d nor %d" % (second_opinion.REQUEST, second_opinion.ANSWER),
    "0..%d bp" % second_opinion.FORWARDING_LIMIT,
    "1..%d bp" % second_opinion.BILLION,
    "1 to %d gateways" % second_opinion.GATEWAYS_LIMIT,
    "wherever SHEET stands",
    "A ring of kind 3 has no text",
    "--rewrite ",
    "dragging counts up, 203 bp becomes 204 bp",
    "--urgent ",
)
# those that a program can show: its own room is never short, so 13 is not among them
REFUSALS = [number for number in range(1, 22) if number != 13] + [23]
GOOD_SHEET = bytes.fromhex("0101020100cb000003e8000003e8")
# T 1000, D 700, J 300
JITTER_SHEET = bytes.fromhex("0101070100cb000003e8000002bc0000012c")
# a silent master beside the stream: the bound is 500 bp, and under edition 1 260 bp
EDITION_SHEET = bytes.fromhex("01020802020100cb000003e8000003e8")
EDITION_TEXT = b"pnet-segment,2\n" + slips.EDITION + slips.STREAM
LONGEST_SHEET = bytes([1, 32, 8, 2]) + b"".join(bytes([7, 1 + i % 32]) + JITTER_SHEET[4:] for i in range(800))
# an alarm with D of 500 bp before two slow streams, V of 250 bp: first come has 750 bp for each
URGENT_SHEET = bytes.fromhex("0101" "020100cb000001f4000001f4" + "020100cb000186a0000186a0" * 2)
# D of 499 bp, below its figure
LATE_SHEET = URGENT_SHEET.replace(bytes.fromhex("000001f4000001f4"), bytes.fromhex("000001f3000001f3"))
RING_SHEET = bytes.fromhex("03010000012c000001f4" "040100000190000020d0")
# the same ring in kinds 9 and 10
NEW_RING_SHEET = bytes.fromhex("09010000012c" "0a01000001f4" "040100000190000020d0")
NEW_RING_TEXT = b"profibus-ring,1,300 bp\nprofibus-message,1,500 bp\nprofibus-stream,1,400 bp,8400 bp\n"
# 800 streams, 32 masters
LONGEST_RING = bytes([9, 32, 0, 0, 0, 1]) + b"".join(bytes([10, 32 - i, 0, 0, 0, 9]) for i in range(32)) + b"".join(
    bytes([4, 1 + i % 32, 0, 0, 0, 9, 59, 154, 202, 0]) for i in range(800))
BAD_TEXT = slips.TEXT.replace(b"203 bp", b"203bp")
# 64 variables in each of 4,096 rows: no pipe holds its report
TABLE = bytes.fromhex("0500000001") + b"".join(
    b"\x06" + (60_000 + n).to_bytes(2, "big") + (1_000 if n else 4_096_000).to_bytes(4, "big") for n in range(64))
KIND = re.compile(r" {2,3}(\d+) +(\d+)  ([^:]+): (.*)")
FIELD = re.compile(r"(.+) \((\d)\) (?:(any)|(\d+)\.\.(\w+(?: ?- ?\w+)?)(?: (bp|us))?)$")
UNTIMED = ("masters", "master", "identifier", "edition")


def run(program, words, data=b""):
    done = slips.call(program, words, data, env=AS_BUILT)
    return done.stdout.decode("utf-8"), done.stderr.decode("utf-8"), done.returncode


def limits(width, match):
    if match.group(3):
        return 0, 256**width - 1
    most = match.group(5).replace(" ", "")
    return int(match.group(4)), NAMED[most] if most in NAMED else int(most)


def field_trouble(kind, place, text):
    """What the help says wrongly of one field, or nothing."""
    match = FIELD.match(text)
    if not match:
        return "not a name, its bytes and its range: %r" % text
    width = int(match.group(2))
    if width != second_opinion.WIDTHS[kind][place]:
        return "%r has another number of bytes" % text
    timed = match.group(1).split()[0] not in UNTIMED
    if timed != (match.group(6) is not None):
        return "%r: a time has a unit, and nothing else has" % text
    if timed and match.group(6) != ("us" if kind in (5, 6) else "bp"):
        return "%r has the wrong unit" % text
    least, most = limits(width, match)
    for value, right in ((least - 1, False), (least, True), (most, True), (most + 1, False)):
        fields = GOOD[kind][:place] + (value,) + GOOD[kind][place + 1 :]
        if second_opinion.in_range(kind, fields) != right:
            return "%r: %d is %s range" % (text, value, "in" if not right else "out of")
    return None


def told_kinds(text):
    """Each kind of the help's table, with its body's length and its fields; a line that goes on is indented."""
    told, kind = {}, None
    for line in text.splitlines():
        match = KIND.match(line)
        if match:
            kind = int(match.group(1))
            told[kind] = (int(match.group(2)), match.group(4))
        elif kind and line.startswith(" " * 12):
            told[kind] = (told[kind][0], told[kind][1] + " " + line.strip())
        else:
            kind = None
    return {kind: (length, fields.split(", ")) for kind, (length, fields) in told.items()}


def text_help_troubles(text):
    """The forms of the lines, the example, and the repair for what a spreadsheet saves."""
    for kind, word in second_opinion.WORDS.items():
        form = re.compile(r" {3}" + word + "".join(",[A-Z]+" + unit for unit in second_opinion.UNITS[kind]))
        if sum(bool(form.fullmatch(line)) for line in text.splitlines()) != 1:
            yield "no form of a line of kind %d" % kind
    example = "".join(line[3:] + "\n" for line in text.splitlines() if re.match(r" {3}pnet-[a-z]+,\d", line)).encode("ascii")
    if example.count(b"\n") != 3 or isinstance(second_opinion.import_text(example), second_opinion.Refusal):
        yield "not a text of three lines: %r" % example
    spoilt = b"\xef\xbb\xbf" + re.sub(rb"([^,\n]+)", rb'"\1"', example).replace(b",", b";").replace(b"\n", b";;;\r\n") + b";;;;\r\n\r\n"
    with tempfile.NamedTemporaryFile() as saved:
        saved.write(spoilt)
        saved.flush()
        repair = [line for line in text.splitlines() if line.startswith("   tr -d ")][0].replace("<FILE", '<"$1"')
        done = slips.call(["sh", "-c", repair, "sh", saved.name], [])
    if done.stdout != example:
        yield "the repair makes %r of %r" % (done.stdout, spoilt)


def help_troubles(text):
    yield from text_help_troubles(text)
    for line in text.splitlines():
        if len(line) > COLUMNS:
            yield "a line of more than %d columns: %s" % (COLUMNS, line)
    told = told_kinds(text)
    if sorted(told) != sorted(second_opinion.WIDTHS):
        yield "the kinds told are %s" % sorted(told)
        return
    for kind, (length, fields) in told.items():
        if length != second_opinion.body_length(kind):
            yield "kind %d has a body of %d bytes" % (kind, second_opinion.body_length(kind))
        if len(fields) != len(second_opinion.WIDTHS[kind]):
            yield "kind %d has %d fields" % (kind, len(second_opinion.WIDTHS[kind]))
            continue
        for place, field in enumerate(fields):
            trouble = field_trouble(kind, place, field)
            if trouble:
                yield "kind %d: %s" % (kind, trouble)
    flowing = " ".join(text.split())
    later = re.search(r"all later ones are ([^.;]*) to match", flowing)
    behind = {str(kind) for kinds in second_opinion.STREAM_KINDS.values() for kind in kinds}
    if not later or sorted(re.findall(r"\d+", later.group(1))) != sorted(behind):
        yield "not told: which kinds stand behind the first record"
    for words in PHRASES:
        if words not in flowing:
            yield "not told: %s" % words
    statuses, listed = text.split("\nExit status:\n")[1].split("\nA sheet is a row")[0], text.split("refused with a number")[1]
    for found, numbers in ((statuses, [0, 1, 2, 3]), (listed, REFUSALS)):
        if sorted(int(n) for n in re.findall(r"(?:^|  ) *(\d+)  [a-z]", found, re.M)) != numbers:
            yield "not the numbers %s: %s" % (numbers, found)


# ---------------------------------------------------------------- complaints


def complaint_troubles(program, words, part, data=b""):
    """Nothing to report: the reason is said on standard error, standard output stays empty, and the status is 2."""
    out, err, status = run(program, words, data)
    named = all(line.startswith("planner: ") for line in err.splitlines())
    if out or status != 2 or not named or part not in err:
        yield "%s: wrote %r, said %r and ended with %d" % (words, out, err, status)


def path_troubles(program, sheet, missing):
    """Words behind --path that are not fours of a number, its unit, a sheet and a master: which one, what stands there, what should."""
    first = ["--path", "1000", "bp", sheet, "1"]
    whole = first + ["5", "bp", sheet, "M01"]
    for count, wanted in ((1, "DEADLINE"), (2, "bp"), (4, "MASTER"), (6, "bp"), (7, "SHEET"), (8, "MASTER")):
        yield from complaint_troubles(program, whole[:count], "word %d is missing; wanted there: " % count)
        yield from complaint_troubles(program, whole[:count], wanted)
    for at, word, wanted in (
        (1, "1000bp", "DEADLINE"), (1, "", "DEADLINE"), (1, "-1", "DEADLINE"), (2, "us", "bp"), (2, "", "bp"), (4, "M1", "MASTER"),
        (4, "1.0", "MASTER"), (4, "M001", "MASTER"), (4, "M0x", "MASTER"), (5, "5bp", "TIME"), (5, "M01", "TIME"), (6, "1", "bp"), (8, "x", "MASTER"),
    ):
        changed = whole[:at] + [word] + whole[at + 1 :]
        yield from complaint_troubles(program, changed, "word %d is %s; wanted there: " % (at, word))
        yield from complaint_troubles(program, changed, wanted)
    yield from complaint_troubles(program, whole[:1] + ["1" * 5000] + whole[2:], "word 1 is %s..; wanted" % ("1" * 60))
    yield from complaint_troubles(program, first + ["5", "bp", missing, "1"], missing)
    yield from complaint_troubles(program, first[:3] + ["-", "1", "5", "bp", "-", "1"], "standard input")
    if run(program, whole) != run(program, first + ["5", "bp", sheet, "1"]):
        yield "M01 and 1 are not the same master"


def word_troubles(program, folder, sheet):
    missing = os.path.join(folder, "missing.sheet")
    for words in ([missing], [missing, missing], [sheet, missing], ["--", missing]):
        yield from complaint_troubles(program, words, "%s: No such file" % missing)
    for words in ([folder], [sheet, folder], [folder, sheet]):
        yield from complaint_troubles(program, words, "%s: Is a directory" % folder)
    for words in ([missing] * 3, ["--"] + [missing] * 3):
        yield from complaint_troubles(program, words, "--help")
    for words in (["--hlep"], ["-x", sheet], [sheet, "--help"], [sheet, "-n", sheet]):
        yield from complaint_troubles(program, words, "unknown option " + [w for w in words if w[0] == "-"][0] + "; planner --help")
    yield from complaint_troubles(program, ["a\x1b[2J\\\x7fb"], "a\\x1b[2J\\x5c\\x7fb: No such file")
    yield from complaint_troubles(program, ["x" * 5000], "%s..: longer than" % ("x" * 60))
    yield from complaint_troubles(program, [sheet, "x" * 5000], "%s..: longer than" % ("x" * 60))
    yield from complaint_troubles(program, [""], ": ")
    yield from complaint_troubles(program, ["-", "-"], "standard input")
    closed = ["sh", "-c", '"$@" <&-', "sh"] + program
    for words in ([], ["-"], [sheet, "-"], ["-", sheet], ["--path", "9", "bp", "-", "1"], ["--urgent", sheet, "-"], ["--urgent", "-", sheet]):
        yield from complaint_troubles(closed, words, "planner: standard input: Bad file descriptor\n")
    yield from path_troubles(program, sheet, missing)
    for words in (["--urgent", sheet, missing], ["--urgent", missing, sheet], ["--urgent", missing, missing]):
        yield from complaint_troubles(program, words, "%s: No such file" % missing)
    for words in (["--urgent", sheet, folder], ["--urgent", folder, sheet]):
        yield from complaint_troubles(program, words, "%s: Is a directory" % folder)
    yield from complaint_troubles(program, ["--urgent", sheet, "x" * 5000], "%s..: longer than" % ("x" * 60))
    yield from complaint_troubles(program, ["--urgent", sheet, "--help"], "unknown option --help; planner --help")
    yield from complaint_troubles(program, ["--urgent", "-", "-"], "standard input")
    for command, most in (("--export", 1), ("--import", 1), ("--rewrite", 1), ("--urgent", 2)):
        yield from complaint_troubles(program, [command, missing], "%s: No such file" % missing)
        yield from complaint_troubles(program, [command, folder], "%s: Is a directory" % folder)
        yield from complaint_troubles(program, [command] + [sheet] * (most + 1), "too many words")
        yield from complaint_troubles(program, [command, "--help"], "unknown option --help; planner --help")
        yield from complaint_troubles(program, [command, "x" * 5000], "%s..: longer than" % ("x" * 60))
        for words in ([command], [command, "-"]):
            yield from complaint_troubles(closed, words, "planner: standard input: Bad file descriptor\n")


# ---------------------------------------------------------------- texts


def refused_troubles(program, words, told, data=b""):
    """Nothing is written but what went wrong, on standard error, and 1."""
    out, err, status = run(program, words, data)
    named = all(line.startswith("planner: ") for line in err.splitlines())
    if out or status != 1 or not named or told not in err:
        yield "%s: wrote %r, said %r and ended with %d, not with %r" % (words, out, err, status, told)


def exchange_troubles(program, folder, sheet, text):
    """Sheets as text and back, by name and on standard input, whole or not at all."""
    edition, ring, old_ring = (os.path.join(folder, name) for name in ("edition.csv", "ring.sheet", "old-ring.sheet"))
    for name, data in ((edition, EDITION_TEXT), (ring, NEW_RING_SHEET), (old_ring, RING_SHEET)):
        with open(name, "wb") as file:
            file.write(data)
    for command, data, name, made in (
        ("--export", GOOD_SHEET, sheet, slips.TEXT), ("--export", slips.TEXT, text, slips.TEXT), ("--import", slips.TEXT, text, GOOD_SHEET),
        ("--export", EDITION_TEXT, edition, EDITION_TEXT), ("--import", EDITION_TEXT, edition, EDITION_SHEET),
        ("--export", NEW_RING_SHEET, ring, NEW_RING_TEXT), ("--rewrite", RING_SHEET, old_ring, NEW_RING_SHEET),
        ("--rewrite", NEW_RING_SHEET, ring, NEW_RING_SHEET), ("--rewrite", GOOD_SHEET, sheet, GOOD_SHEET), ("--rewrite", slips.TEXT, text, GOOD_SHEET),
    ):
        for words, given in (([command], data), ([command, "-"], data), ([command, name], b"")):
            done = slips.call(program, words, given, env=AS_BUILT)
            if (done.stdout, done.stderr, done.returncode) != (made, b"", 0):
                yield "%s: wrote %r, said %r and ended with %d" % (words, done.stdout, done.stderr, done.returncode)
    for data in (GOOD_SHEET, TABLE, GOOD_SHEET[:2] + GOOD_SHEET[2:] * 80, JITTER_SHEET, EDITION_SHEET, LONGEST_SHEET, NEW_RING_SHEET, LONGEST_RING):
        name = os.path.join(folder, "any.sheet")
        with open(name, "wb") as file:
            file.write(data)
        back = slips.call(["sh", "-c", 'name=$1; shift; "$@" --export "$name" | "$@" --import', "sh", name] + program, [], env=AS_BUILT)
        if (back.stdout, back.stderr, back.returncode) != (data, b"", 0):
            yield "exported and imported: wrote %r, said %r and ended with %d" % (back.stdout, back.stderr, back.returncode)
    name = "planner: standard input: "
    for command, data, told in (
        ("--export", b"", name + "refused 1 at byte 0\n"),
        ("--export", GOOD_SHEET[:2], name + "refused 6 at byte 2\n"),
        ("--export", RING_SHEET, name + "refused 2 at byte 0\nplanner: a PROFIBUS ring of kind 3 has no text form"),
        ("--export", NEW_RING_SHEET[:6] + NEW_RING_SHEET[12:], name + "refused 20 at byte 6\n"),
        ("--import", NEW_RING_TEXT.replace(b"ring,1", b"ring,2"), name + "refused 20 at byte 12\n"),
        ("--import", NEW_RING_TEXT.replace(b"ring,1", b"ring,2"), name + "byte 12 of the sheet is line 3 of the text\n"),
        ("--rewrite", b"", name + "refused 1 at byte 0\n"),
        ("--rewrite", RING_SHEET[:10], name + "refused 6 at byte 10\n"),
        ("--rewrite", RING_SHEET[:-1], name + "refused 1 at byte 10\n"),
        ("--rewrite", NEW_RING_SHEET[:6], name + "refused 20 at byte 6\n"),
        ("--rewrite", BAD_TEXT, name + "refused 23 at line 2\n"),
        ("--rewrite", BAD_TEXT, name + "line 2, column 18 has 'bp'; "),
        ("--export", BAD_TEXT, name + "refused 23 at line 2\n"),
        ("--export", BAD_TEXT, name + "line 2, column 18 has 'bp'; "),
        ("--export", b" " + slips.TEXT, name + "taken for bytes"),
        ("--import", b"", name + "refused 1 at byte 0\n"),
        ("--import", b"", name + "byte 0 is where the sheet ends"),
        ("--import", slips.SEGMENT, name + "refused 6 at byte 2\n"),
        ("--import", slips.TEXT * 2, name + "byte 14 of the sheet is line 3 of the text\n"),
        ("--import", BAD_TEXT, name + "refused 23 at line 2\n"),
        ("--import", EDITION_TEXT.replace(b"n,2", b"n,3"), name + "refused 4 at byte 2\n"),
        ("--import", EDITION_TEXT.replace(b"n,2", b"n,3"), name + "byte 2 of the sheet is line 2 of the text\n"),
        ("--import", EDITION_TEXT.replace(b"n,2", b"n,256"), name + "refused 23 at line 2\n"),
        ("--import", EDITION_TEXT.replace(b"n,2", b"n,256"), "at most 255 there\nplanner: the form of that line: pnet-edition,EDITION\n"),
        ("--import", EDITION_TEXT + slips.EDITION, name + "refused 3 at byte 16\n"),
        ("--export", EDITION_SHEET[:4], name + "refused 6 at byte 4\n"),
        ("--export", EDITION_SHEET.replace(b"\x08\x02", b"\x08\x03"), name + "refused 4 at byte 2\n"),
        ("--import", b" " + slips.TEXT, name + "refused 23 at line 1\n"),
        ("--import", b" " + slips.TEXT, slips.AROUND),
        ("--import", GOOD_SHEET, slips.BYTES),
        ("--import", NEW_RING_SHEET, slips.BYTES),
        ("--import", RING_SHEET, slips.BYTES),
    ):
        yield from refused_troubles(program, [command], told, data)


def same_troubles(program, texts, sheets, data=b""):
    """A text has the report of its sheet."""
    if run(program, texts, data) != run(program, sheets, data):
        yield "%s: %r, %s: %r" % (texts, run(program, texts, data), sheets, run(program, sheets, data))


def edition_troubles(program, folder):
    """The samples of both editions, by text: how each ends, that edition 1 is as good as none, and that a text out of range is told its line."""
    first, second, late = (str(ROOT / "samples" / ("pnet-%s-edition%s.csv" % name)) for name in (("first", ""), ("second", ""), ("second", "-late")))
    for name, ending in ((first, 0), (second, 0), (late, 1), (str(ROOT / "samples" / "damaged-edition.sheet"), 1)):
        yield from end_troubles(program, [name], ending)
    for deadline, ending in (("2770", 0), ("2769", 1)):
        yield from end_troubles(program, ["--path", deadline, "bp", first, "2", "30", "bp", second, "1"], ending)
    written = pathlib.Path(first).read_bytes()
    if run(program, [first]) != run(program, [], written.replace(b"pnet-edition,1\n", b"")):
        yield "edition 1 written is not as without"
    if run(program, [late])[2] == run(program, [], pathlib.Path(late).read_bytes().replace(slips.EDITION, b""))[2]:
        yield "edition 2 is as edition 1"
    name = os.path.join(folder, "edition.csv")
    for edition, took, ending in ((b"2", 500, 0), (b"2", 501, 1), (b"1", 260, 0), (b"1", 261, 1)):
        with open(name, "wb") as file:
            file.write(EDITION_TEXT.replace(b"n,2", b"n," + edition))
        yield from end_troubles(program, [name, "-"], ending, event(16, 1, 0) + event(17, 1, took))


def ring_troubles(program, folder):
    """The samples of rings: how each ends, and that one of kind 3 is rewritten with the report that it had, which is then written as text."""
    samples = ROOT / "samples"
    for name, ending in (("profibus-ring", 0), ("profibus-ring-late", 1), ("profibus-slow-drive", 0), ("profibus-slow-drive-for-all", 1), ("damaged-ring", 1)):
        yield from end_troubles(program, [str(samples / (name + ".sheet"))], ending)
    new = os.path.join(folder, "new.sheet")
    for old in sorted(samples.glob("profibus-*.sheet")):
        done = slips.call(program, ["--rewrite", str(old)], env=AS_BUILT)
        with open(new, "wb") as file:
            file.write(done.stdout)
        if (done.stderr, done.returncode) != (b"", 0) or (done.stdout == old.read_bytes()) != (old.read_bytes()[0] == 9):
            yield "%s: rewritten as %r, said %r and ended with %d" % (old, done.stdout, done.stderr, done.returncode)
        yield from same_troubles(program, [new], [str(old)])
        if slips.call(program, ["--rewrite", new], env=AS_BUILT).stdout != done.stdout:
            yield "%s: rewritten again, it is another" % old
        text = slips.call(program, ["--export", new], env=AS_BUILT)
        if text.returncode != 0 or not text.stdout.startswith(b"profibus-ring,"):
            yield "%s: rewritten and exported: %r" % (old, text.stdout)


def long_troubles(program):
    """Texts that are longer than any sheet: the first line that is not of the form, however far behind, and no line behind it."""
    text = slips.SEGMENT + slips.STREAM * 6000
    for data, report in (
        (text, "refused 5 at byte 962\n"),
        (text + slips.STREAM[:-1], "refused 23 at line 6002\n"),
        (text + b"\n" + text, "refused 23 at line 6002\n"),
        (slips.SEGMENT + b"pnet-stream,1," + b"2" * 200_000 + b" bp,1000 bp,1000 bp\n" + text, "refused 23 at line 2\n"),
    ):
        out, _, status = run(program, [], data)
        if (out, status) != (report, 1):
            yield "%d bytes of text: wrote %r and ended with %d, not %r" % (len(data), out, status, report)
    endless = slips.call(["sh", "-c", '{ echo pnet-segment,1; yes 2>/dev/null; } | "$@"', "sh"] + program, [], env=AS_BUILT, timeout=60)
    if (endless.stdout, endless.returncode) != (b"refused 23 at line 2\n", 1):
        yield "a text without end: wrote %r and ended with %d" % (endless.stdout, endless.returncode)


def text_troubles(program, folder, sheet):
    text, bad = os.path.join(folder, "one.csv"), os.path.join(folder, "bad.csv")
    for name, data in ((text, slips.TEXT), (bad, BAD_TEXT)):
        with open(name, "wb") as file:
            file.write(data)
    yield from slips.troubles(program, folder)
    yield from exchange_troubles(program, folder, sheet, text)
    capture = event(16, 1, 0) + event(17, 1, 250)
    yield from same_troubles(program, [text], [sheet])
    yield from same_troubles(program, ["--", text], [sheet])
    yield from same_troubles(program, [text, "-"], [sheet, "-"], capture)
    path = ["--path", "510", "bp", sheet, "1", "5", "bp", sheet, "1"]
    for at in (3, 7):
        yield from same_troubles(program, path[:at] + [text] + path[at + 1 :], path)
        yield from same_troubles(program, path[:at] + ["-"] + path[at + 1 :], path, slips.TEXT)
    for words, report, data in (
        ([bad, sheet], "refused 23 at line 2\n", b""),
        (["-", sheet], "refused 23 at line 2\n", BAD_TEXT),
        (path[:3] + [bad] + path[4:], "refused 23 at line 2 of segment 1\n", b""),
        (path[:7] + [bad] + path[8:], "refused 23 at line 2 of segment 2\n", b""),
        (path[:7] + ["-"] + path[8:], "refused 23 at line 2 of segment 2\n", BAD_TEXT),
    ):
        out, err, status = run(program, words, data)
        if (out, status) != (report, 1) or ": line 2, column 18 has 'bp'; wanted there: a blank" not in err:
            yield "%s: wrote %r, said %r and ended with %d" % (words, out, err, status)
    yield from edition_troubles(program, folder)
    yield from ring_troubles(program, folder)
    yield from long_troubles(program)


# ---------------------------------------------------------------- urgent requests first


def report_troubles(program, words, report, data=b""):
    """A report as it has to be, with its status, and nothing said beside it."""
    expected = (report, "", second_opinion.status(report.splitlines()))
    if run(program, words, data) != expected:
        yield "%s: %r, not %r" % (words, run(program, words, data), expected)


def urgent_troubles(program, folder):
    """A sheet that only they accept: by name and on standard input, as bytes and as text, alone and beside a capture."""
    sheet, text = os.path.join(folder, "urgent.sheet"), os.path.join(folder, "urgent.csv")
    contents = {sheet: URGENT_SHEET, text: second_opinion.export_sheet(URGENT_SHEET)}
    report = second_opinion.urgent_report(URGENT_SHEET).decode("ascii")
    for name, data in contents.items():
        with open(name, "wb") as file:
            file.write(data)
        for words, given in (([name], b""), (["-"], data), ([], data)):
            yield from report_troubles(program, ["--urgent"] + words, report, given)
        for took, ending in ((500, 0), (501, 1)):
            capture = event(16, 1, 0) + event(17, 1, took)
            beside = second_opinion.capture_report(data, capture, second_opinion.urgent_first).decode("ascii")
            assert second_opinion.status(beside.splitlines()) == ending
            with tempfile.NamedTemporaryFile() as file:
                file.write(capture)
                file.flush()
                for words, given in (([name, "-"], capture), (["-", file.name], data), ([name, file.name], b"")):
                    yield from report_troubles(program, ["--urgent"] + words, beside, given)
        # without the command it is refused as ever
        yield from report_troubles(program, [name], "refused 8 at stream 1\n")
    for data, told in (
        (LATE_SHEET, "refused 21 at stream 1\n"),
        (RING_SHEET, "refused 3 at byte 0\n"),
        (TABLE, "refused 3 at byte 0\n"),
        (URGENT_SHEET[:-1], "refused 1 at byte 26\n"),
        (b"", "refused 1 at byte 0\n"),
    ):
        yield from report_troubles(program, ["--urgent"], told, data)
        # the sheet is refused before the capture
        with tempfile.NamedTemporaryFile() as capture:
            capture.write(b"\x02")
            capture.flush()
            yield from report_troubles(program, ["--urgent", "-", capture.name], told, data)
    yield from report_troubles(program, ["--urgent", sheet, "-"], "refused 2 at capture byte 0\n", b"\x02")
    out, err, status = run(program, ["--urgent"], BAD_TEXT)
    if (out, status) != ("refused 23 at line 2\n", 1) or ": line 2, column 18 has 'bp'; wanted there: a blank" not in err:
        yield "--urgent on a bad text: wrote %r, said %r and ended with %d" % (out, err, status)


def slow_troubles(program):
    """The longest searches that are known, each within the time of a call: the sum of all figures and of all rounds, or the refusal."""
    for name, data, expected in sheets_urgent.longest():
        done = slips.call(program, ["--urgent"], data, env=AS_BUILT, timeout=60)
        lines = [line.split() for line in done.stdout.decode("ascii").splitlines() if line.startswith("stream ")]
        found = (sum(int(words[6]) for words in lines), sum(int(words[10]) for words in lines)) if lines else done.stdout.decode("ascii")
        if found != expected:
            yield "%s: %r, not %r" % (name, found, expected)


# ---------------------------------------------------------------- statuses


def end_troubles(program, words, ending, data=b""):
    out, err, status = run(program, words, data)
    if (err, status) != ("", ending) or not out:
        yield "%s: wrote %r, said %r and ended with %d, not with %d" % (words, out, err, status, ending)


def event(kind, stream, stamp):
    return bytes([kind]) + stream.to_bytes(2, "big") + stamp.to_bytes(4, "big")


def status_troubles(program, sheet):
    """Each case of the table in README."""
    for data, ending in ((GOOD_SHEET, 0), (b"", 1), (GOOD_SHEET[:-1], 1), (TABLE, 0), (RING_SHEET, 0), (NEW_RING_SHEET, 0), (NEW_RING_SHEET[:6], 1)):
        for words in ([], ["-"], ["--"], ["--", "-"]):
            yield from end_troubles(program, words, ending, data)
    asked, answered = event(16, 1, 0), event(17, 1, 250)
    for capture, ending in (
        (asked + answered, 0),
        (asked + event(17, 1, 251), 1),
        (asked + answered + event(16, 1, 1000) + event(17, 1, 1009), 0),
        (asked + answered + event(16, 1, 999) + event(17, 1, 1009), 1),
        (asked + answered + event(16, 1, 2000), 0),
        (b"", 1),
        (asked, 1),
        (event(16, 1, 9) + event(17, 1, 8), 1),
        (answered, 1),
    ):
        yield from end_troubles(program, [sheet, "-"], ending, capture)
    # beside a second stream that answers: open for 500 bp, the bound, and for one more
    with tempfile.NamedTemporaryFile() as two:
        two.write(bytes.fromhex("0101") + GOOD_SHEET[2:] * 2)
        two.flush()
        for stamp, ending in ((500, 0), (501, 1)):
            capture = asked + event(16, 2, stamp) + event(17, 2, stamp)
            yield from end_troubles(program, [two.name, "-"], ending, capture)
    # requests T - J apart: the second is in time, and the third is too soon, but T after the second it is not
    with tempfile.NamedTemporaryFile() as jitter:
        jitter.write(JITTER_SHEET)
        jitter.flush()
        yield from end_troubles(program, [jitter.name], 0)
        for stamps, ending in (((700,), 0), ((699,), 1), ((700, 1400), 1), ((700, 1699), 1), ((700, 1700), 0)):
            capture = asked + answered + b"".join(event(16, 1, stamp) + event(17, 1, stamp + 9) for stamp in stamps)
            yield from end_troubles(program, [jitter.name, "-"], ending, capture)
    for data, ending in ((GOOD_SHEET, 0), (URGENT_SHEET, 0), (LATE_SHEET, 1), (RING_SHEET, 1), (b"", 1)):
        for words in (["--urgent"], ["--urgent", "-"]):
            yield from end_troubles(program, words, ending, data)
    for capture, ending in ((asked + answered, 0), (asked + event(17, 1, 251), 1), (asked, 1), (b"", 1), (answered, 1)):
        yield from end_troubles(program, ["--urgent", sheet, "-"], ending, capture)
    path = ["bp", sheet, "1", "5", "bp", sheet, "1"]
    yield from end_troubles(program, ["--path", "510"] + path, 0)
    yield from end_troubles(program, ["--path", "509"] + path, 1)
    yield from end_troubles(program, ["--path", "9", "bp"], 1)
    yield from end_troubles(program, ["--help"], 0)
    yield from end_troubles(program, ["--version"], 0)


def cut_troubles(program, sheet):
    """A report that cannot be written whole: one line on standard error, and 3."""
    with tempfile.NamedTemporaryFile() as table, tempfile.NamedTemporaryFile() as capture:
        table.write(TABLE)
        table.flush()
        calls = [[sheet], [sheet, capture.name], ["--path", "510", "bp", sheet, "1", "5", "bp", sheet, "1"], ["--path", "1", "bp"], ["--help"], [table.name], ["--export", sheet], ["--export", table.name], ["--rewrite", sheet]]
        calls += [["--urgent", sheet], ["--urgent", sheet, capture.name], ["--urgent", table.name]]
        for words in calls:
            with open("/dev/full", "wb") as full:
                done = subprocess.run(program + words, stdout=full, stderr=subprocess.PIPE, check=False, env=AS_BUILT)
            if done.returncode != 3 or done.stderr.count(b"\n") != 1:
                yield "%s on a full disk: said %r and ended with %d" % (words, done.stderr, done.returncode)
        # a reader that goes away in the middle
        started = subprocess.Popen(program + [table.name], stdout=subprocess.PIPE, stderr=subprocess.PIPE, env=AS_BUILT)
        started.stdout.read(100)
        started.stdout.close()
        said = started.stderr.read()
        started.stderr.close()
        if started.wait() != 3 or said.count(b"\n") != 1:
            yield "a closed pipe: said %r and ended with %d" % (said, started.returncode)


def terminal_troubles(program):
    """No name, and someone at a terminal: the usage, and 2."""
    for words in ([], ["--export"], ["--import"], ["--rewrite"], ["--urgent"]):
        controller, terminal = pty.openpty()
        done = subprocess.run(
            program + words, stdin=terminal, stdout=subprocess.PIPE, stderr=subprocess.PIPE, timeout=60, check=False, env=AS_BUILT)
        os.close(terminal)
        os.close(controller)
        if done.stdout or done.returncode != 2 or b"planner SHEET CAPTURE" not in done.stderr or b"no sheet" not in done.stderr:
            yield "%s on a terminal: wrote %r, said %r and ended with %d" % (words, done.stdout, done.stderr, done.returncode)


# ---------------------------------------------------------------- the script, and what it installs


def script_troubles(program, sheet):
    """The script says what the program says, without it where it can, and takes each command for one."""
    script = [str(ROOT / "plan")]
    for words in (["--help"], ["-h"], ["--hlep"], ["-x", sheet], [sheet, "-\x1b\\"], ["-" + "x" * 5000], ["--urgent", sheet]):
        if run(script, words) != run(program, words):
            yield "%s: the script says %r, the program %r" % (words, run(script, words), run(program, words))
    version = run(script, ["--version"])[0].splitlines()
    if len(version) != 2 or version[0] + "\n" != run(program, ["--version"])[0] or " logic " not in version[1]:
        yield "--version: %r" % version


def installed_troubles(sheet):
    """Put somewhere, it runs without the repository, and goes away again whole."""
    install = [str(ROOT / "install")]
    with tempfile.TemporaryDirectory() as folder:
        prefix = os.path.join(folder, "a prefix")
        out, err, status = run(install, [prefix])
        planner = [os.path.join(prefix, "bin", "planner")]
        if status != 0 or err or not os.access(planner[0], os.X_OK):
            yield "install: wrote %r, said %r and ended with %d" % (out, err, status)
            return
        link = os.path.join(folder, "link")
        os.symlink(planner[0], link)
        for call in (planner, [link]):
            yield from status_troubles(call, sheet)
        yield from complaint_troubles(planner, ["--hlep"], "unknown option")
        yield from cut_troubles(planner, sheet)
        if run(planner, ["--version"]) != run([str(ROOT / "plan")], ["--version"]):
            yield "--version of the installed one: %r" % (run(planner, ["--version"]),)
        if run(install, ["--remove", prefix])[2] != 0 or os.path.exists(planner[0]) or os.listdir(os.path.join(prefix, "lib")):
            yield "install --remove left something: %s" % os.listdir(os.path.join(prefix, "lib"))
        if run(install, ["--remove", prefix])[2] != 2 or run(install, ["--what"])[2] != 2:
            yield "install --remove of nothing"
        with open(planner[0], "w", encoding="ascii") as other:
            other.write("another program\n")
        for words in ([prefix], ["--remove", prefix]):
            if run(install, words)[2] != 2 or not os.path.exists(planner[0]):
                yield "install took another program's place"


def main(program):
    if not program:
        sys.exit(__doc__)
    troubles = []
    text, said, status = run(program, ["--help"])
    if said or status:
        troubles.append("--help said %r on standard error and ended with %d" % (said, status))
    troubles += help_troubles(text)
    with tempfile.TemporaryDirectory() as folder:
        sheet = os.path.join(folder, "one.sheet")
        with open(sheet, "wb") as file:
            file.write(GOOD_SHEET)
        troubles += word_troubles(program, folder, sheet)
        troubles += text_troubles(program, folder, sheet)
        troubles += urgent_troubles(program, folder)
        troubles += slow_troubles(program)
        troubles += status_troubles(program, sheet)
        troubles += cut_troubles(program, sheet)
        troubles += terminal_troubles(program)
        troubles += script_troubles(program, sheet)
        troubles += installed_troubles(sheet)
    for trouble in troubles:
        print(trouble)
    print("the program's help, complaints and statuses: %d wrong" % len(troubles))
    return 1 if troubles else 0


if __name__ == "__main__":
    sys.exit(main(sys.argv[1:]))
