"""What a planner says, for people, of a text that is not of the form, and of the bytes and sheets that look like one. Each slip by itself, with what
must be told of it; for program.py."""

import os
import subprocess

import second_opinion

STREAM = b"pnet-stream,1,203 bp,1000 bp,1000 bp\n"
SEGMENT = b"pnet-segment,1\n"
TEXT = SEGMENT + STREAM
JITTER = b"pnet-jitter-stream,1,203 bp,1000 bp,700 bp,300 bp\n"
EDITION = b"pnet-edition,2\n"
RING_OF_TWO = b"profibus-ring,2,300 bp\n"
MESSAGES = (b"profibus-message,1,500 bp\n", b"profibus-message,2,500 bp\n")
RING_STREAM = b"profibus-stream,1,400 bp,8400 bp\n"
# the form that is told beside a slip
FORMS = {
    b"pnet-se": "pnet-segment,MASTERS\n",
    b"pnet-st": "pnet-stream,MASTER,CYCLE bp,SPACING bp,DEADLINE bp\n",
    b"pnet-ji": "pnet-jitter-stream,MASTER,CYCLE bp,SPACING bp,DEADLINE bp,JITTER bp\n",
    b"pnet-ed": "pnet-edition,EDITION\n",
    b"profibu": ("profibus-stream,MASTER,CYCLE bp,DEADLINE bp\n", "profibus-ring,MASTERS,LATENCY bp\n", "profibus-message,MASTER,MESSAGE bp\n"),
    b"worldfi": ("worldfip-exchange,EXCHANGE us\n", "worldfip-variable,IDENTIFIER,PERIOD us\n"),
}
LF = "save with LF line ends, or: tr -d '\\r' < TEXT"
BLANK = "one blank stands between a number and its unit, as in 203 bp"
UNIT = "each time has its unit"
QUOTES = "a cell has no quotation marks"
SEPARATORS = "commas stand between cells, no semicolons and no tabs"
MARK = "a byte order mark is no part of a text: sed '1s/^\\xef\\xbb\\xbf//' TEXT"
PADDED = "spreadsheets pad rows with them: sed 's/,*$//' TEXT"
EMPTY = "a text has no empty line"
ZERO = "a number has no zero in front"
UNENDED = "the last line has no end"
AROUND = "no blank stands before or behind a cell"
SMALL = "words have small letters only"
RING = "a ring has no longest message: each master has its own, on a line behind it"
BYTES = "this begins as the bytes of a sheet do"
DIGITS = "a number is decimal digits alone"
WORDS = "; wanted there: a word of these, and a comma"
LISTED = "planner: " + ", ".join(second_opinion.WORDS.values()) + "\n"
BIG = "a number too big for its field, at most %s there"

# a line that is not of the form, and what is told of it behind its number: where, what stands there, what was wanted; then the advice, if any
LINES = (
    (b"pnet-stream,1,203bp,1000 bp,1000 bp\n", ", column 18 has 'bp'; wanted there: a blank and the unit bp", BLANK),
    (b"pnet-stream,1,203  bp,1000 bp,1000 bp\n", ", column 19 has ' bp'; wanted there: the unit bp", BLANK),
    (b"pnet-stream,1,203\tbp,1000 bp,1000 bp\n", ", column 18 has '\\x09bp'; wanted there: a blank and the unit bp", BLANK),
    (b"pnet-stream,1,203,1000 bp,1000 bp\n", ", column 18 has ',1000 bp'; wanted there: a blank and the unit bp", UNIT),
    (b"pnet-stream,1,203 us,1000 bp,1000 bp\n", ", column 19 has 'us'; wanted there: the unit bp", UNIT),
    (b"pnet-stream,1,203 bp,1000 bp,1000\n", ", column 34 is the end of the line; wanted there: a blank and the unit bp", UNIT),
    (b"worldfip-exchange,400 bp\n", ", column 23 has 'bp'; wanted there: the unit us", UNIT),
    (b"worldfip-variable,17,1000us\n", ", column 26 has 'us'; wanted there: a blank and the unit us", BLANK),
    (STREAM[:-1] + b"\r\n", ", column 37 has '\\x0d'; wanted there: the end of the line", LF),
    (b'pnet-stream,"1",203 bp,1000 bp,1000 bp\n', ", column 13 has '\"1\"'; wanted there: a number", QUOTES),
    (b"pnet-stream,1;203 bp;1000 bp;1000 bp\n", ", column 14 has ';203 bp;1000 bp;1000 bp'; wanted there: a comma and the next cell", SEPARATORS),
    (STREAM[:-1] + b",,\n", ", column 37 has ','; wanted there: the end of the line", PADDED),
    (b"pnet-segment,1,,,\r\n", ", column 15 has ','; wanted there: the end of the line", PADDED),
    (STREAM[:-1] + b",1 bp\n", ", column 37 has ',1 bp'; wanted there: the end of the line", None),
    (b"pnet-stream,1,203 bp,1000 bp\n", ", column 29 is the end of the line; wanted there: a comma and the next cell", None),
    (b"pnet-stream,1,,1000 bp,1000 bp\n", ", column 15 has ',1000 bp'; wanted there: a number", None),
    (b"pnet-stream,01,203 bp,1000 bp,1000 bp\n", ", column 13 has '01'; wanted there: a number", ZERO),
    (b"pnet-stream,1,00 bp,1000 bp,1000 bp\n", ", column 15 has '00 bp'; wanted there: a number", ZERO),
    (b"pnet-stream, 1,203 bp,1000 bp,1000 bp\n", ", column 13 has ' 1'; wanted there: a number", AROUND),
    (b"pnet-stream,1 ,203 bp,1000 bp,1000 bp\n", ", column 14 has ' '; wanted there: a comma and the next cell", AROUND),
    (b"pnet-stream,1,-203 bp,1000 bp,1000 bp\n", ", column 15 has '-203 bp'; wanted there: a number", DIGITS),
    (b"pnet-stream,1,2.03 bp,1000 bp,1000 bp\n", ", column 16 has '.03 bp'; wanted there: a blank and the unit bp", DIGITS),
    (b"pnet-stream,1,0.5 bp,1000 bp,1000 bp\n", ", column 16 has '.5 bp'; wanted there: a blank and the unit bp", DIGITS),
    (b"pnet-stream,M01,203 bp,1000 bp,1000 bp\n", ", column 13 has 'M01'; wanted there: a number", DIGITS),
    (b"pnet-segment,1e1\n", ", column 15 has 'e1'; wanted there: the end of the line", DIGITS),
    (STREAM[:-1] + b"x\n", ", column 37 has 'x'; wanted there: the end of the line", None),
    (b"pnet-stream,1,203 BP,1000 bp,1000 bp\n", ", column 19 has 'BP'; wanted there: the unit bp", UNIT),
    (b"pnet-segment,256\n", ", column 14 has '256'; " + BIG % "255", None),
    (b"pnet-stream,256,203 bp,1000 bp,1000 bp\n", ", column 13 has '256'; " + BIG % "255", None),
    (b"pnet-stream,1,65536 bp,1000 bp,1000 bp\n", ", column 15 has '65536 bp'; " + BIG % "65535 bp", None),
    (b"pnet-stream,1,203 bp,4294967296 bp,1000 bp\n", ", column 22 has '4294967296 bp'; " + BIG % "4294967295 bp", None),
    (b"pnet-stream,1,203 bp,1000 bp,42949672950 bp\n", ", column 30 has '42949672950 bp'; " + BIG % "4294967295 bp", None),
    (JITTER[:-4] + b"\n", ", column 47 is the end of the line; wanted there: a blank and the unit bp", UNIT),
    (JITTER[:-4] + b"bp\n", ", column 47 has 'bp'; wanted there: a blank and the unit bp", BLANK),
    (JITTER[:-4] + b" us\n", ", column 48 has 'us'; wanted there: the unit bp", UNIT),
    (JITTER[:-1] + b",0 bp\n", ", column 50 has ',0 bp'; wanted there: the end of the line", None),
    (b"pnet-jitter-stream,1,203 bp,1000 bp,700 bp\n", ", column 43 is the end of the line; wanted there: a comma and the next cell", None),
    (b"pnet-jitter-stream,1,203 bp,1000 bp,700 bp,\n", ", column 44 is the end of the line; wanted there: a number", None),
    (b"pnet-jitter-stream,1,203 bp,1000 bp,700 bp,0300 bp\n", ", column 44 has '0300 bp'; wanted there: a number", ZERO),
    (b"pnet-jitter-stream,256,203 bp,1000 bp,700 bp,300 bp\n", ", column 20 has '256'; " + BIG % "255", None),
    (b"pnet-jitter-stream,1,65536 bp,1000 bp,700 bp,300 bp\n", ", column 22 has '65536 bp'; " + BIG % "65535 bp", None),
    (b"pnet-jitter-stream,1,203 bp,1000 bp,700 bp,4294967296 bp\n", ", column 44 has '4294967296 bp'; " + BIG % "4294967295 bp", None),
    (JITTER[:-1], ", column 50 is the end of the text; wanted there: the end of the line", UNENDED),
    (b"pnet-edition,2 bp\n", ", column 15 has ' bp'; wanted there: the end of the line", AROUND),
    (b"pnet-edition,2.0\n", ", column 15 has '.0'; wanted there: the end of the line", DIGITS),
    (b"pnet-edition,02\n", ", column 14 has '02'; wanted there: a number", ZERO),
    (b"pnet-edition,second\n", ", column 14 has 'second'; wanted there: a number", DIGITS),
    (b"pnet-edition,\n", ", column 14 is the end of the line; wanted there: a number", None),
    (b"pnet-edition,2,1\n", ", column 15 has ',1'; wanted there: the end of the line", None),
    (b"pnet-edition,2,,,\n", ", column 15 has ','; wanted there: the end of the line", PADDED),
    (b"pnet-edition,2\r\n", ", column 15 has '\\x0d'; wanted there: the end of the line", LF),
    (b"pnet-edition,256\n", ", column 14 has '256'; " + BIG % "255", None),
    (b"pnet-edition,9999999999\n", ", column 14 has '9999999999'; " + BIG % "255", None),
    (EDITION[:-1], ", column 15 is the end of the text; wanted there: the end of the line", UNENDED),
    (b"profibus-stream,300,400 bp,8400 bp\n", ", column 17 has '300'; " + BIG % "255", None),
    (b"profibus-stream,1,9999999999 bp,8400 bp\n", ", column 19 has '9999999999 bp'; " + BIG % "4294967295 bp", None),
    (b"profibus-ring,3,300bp\n", ", column 20 has 'bp'; wanted there: a blank and the unit bp", BLANK),
    (b"profibus-ring,3,300\n", ", column 20 is the end of the line; wanted there: a blank and the unit bp", UNIT),
    (b"profibus-ring,3,300 us\n", ", column 21 has 'us'; wanted there: the unit bp", UNIT),
    (b"profibus-ring,3 bp,300 bp\n", ", column 16 has ' bp'; wanted there: a comma and the next cell", AROUND),
    (b"profibus-ring,3\n", ", column 16 is the end of the line; wanted there: a comma and the next cell", None),
    (b"profibus-ring,3,300 bp,500 bp\n", ", column 23 has ',500 bp'; wanted there: the end of the line", RING),
    (b"profibus-ring,3,300 bp,,\n", ", column 23 has ','; wanted there: the end of the line", PADDED),
    (b"profibus-ring,256,300 bp\n", ", column 15 has '256'; " + BIG % "255", None),
    (b"profibus-ring,3,4294967296 bp\n", ", column 17 has '4294967296 bp'; " + BIG % "4294967295 bp", None),
    (b"profibus-message,1,500\n", ", column 23 is the end of the line; wanted there: a blank and the unit bp", UNIT),
    (b"profibus-message,M01,500 bp\n", ", column 18 has 'M01'; wanted there: a number", DIGITS),
    (b"profibus-message,1,0500 bp\n", ", column 20 has '0500 bp'; wanted there: a number", ZERO),
    (b"profibus-message,1,500 bp,,\n", ", column 26 has ','; wanted there: the end of the line", PADDED),
    (b"profibus-message,256,500 bp\n", ", column 18 has '256'; " + BIG % "255", None),
    (b"profibus-message,1,4294967296 bp\n", ", column 20 has '4294967296 bp'; " + BIG % "4294967295 bp", None),
    (MESSAGES[0][:-1], ", column 26 is the end of the text; wanted there: the end of the line", UNENDED),
    (b"worldfip-exchange,4294967296 us\n", ", column 19 has '4294967296 us'; " + BIG % "4294967295 us", None),
    (b"worldfip-variable,65536,1000 us\n", ", column 19 has '65536'; " + BIG % "65535", None),
    (b"pnet-stream," + b"9" * 99 + b",203 bp,1000 bp,1000 bp\n", ", column 13 has '%s..'; " % ("9" * 24) + BIG % "255", None),
    (STREAM[:-1], ", column 37 is the end of the text; wanted there: the end of the line", UNENDED),
    (STREAM[:-4], ", column 34 is the end of the text; wanted there: a blank and the unit bp", UNENDED),
)
# the same of lines that begin with no word
STRANGE_LINES = (
    (b"\n", ", column 1 is the end of the line" + WORDS, EMPTY),
    (b"\r\n", ", column 1 has '\\x0d'" + WORDS, EMPTY),
    (b",,,,\n", ", column 1 has ','" + WORDS, EMPTY),
    (b"\xef\xbb\xbf" + STREAM, ", column 1 has '\\xef\\xbb\\xbfpnet-stream'" + WORDS, MARK),
    (b'"pnet-stream",1,203 bp,1000 bp,1000 bp\n', ", column 1 has '\"pnet-stream\"'" + WORDS, QUOTES),
    (b"pnet-stream;1;203 bp;1000 bp;1000 bp\n", ", column 1 has 'pnet-stream;1;203 bp;100..'" + WORDS, SEPARATORS),
    (b"pnet-stream\t1\n", ", column 1 has 'pnet-stream\\x091'" + WORDS, SEPARATORS),
    (b" " + STREAM, ", column 1 has ' pnet-stream'" + WORDS, AROUND),
    (b"\t" + STREAM, ", column 1 has '\\x09pnet-stream'" + WORDS, AROUND),
    (b"PNET-STREAM,1\n", ", column 1 has 'PNET-STREAM'" + WORDS, SMALL),
    (b"profibus-rings,1,300 bp\n", ", column 1 has 'profibus-rings'" + WORDS, None),
    (b"profibus-message;1;500 bp\n", ", column 1 has 'profibus-message;1;500 b..'" + WORDS, SEPARATORS),
    (b"PROFIBUS-RING,1,300 bp\n", ", column 1 has 'PROFIBUS-RING'" + WORDS, SMALL),
    (b"pnet-segmen", ", column 1 has 'pnet-segmen'" + WORDS, None),
    (b"pnet-jitter,1,203 bp,1000 bp,700 bp,300 bp\n", ", column 1 has 'pnet-jitter'" + WORDS, None),
    (b"PNET-JITTER-STREAM,1\n", ", column 1 has 'PNET-JITTER-STREAM'" + WORDS, SMALL),
    (b" " + JITTER, ", column 1 has ' pnet-jitter-stream'" + WORDS, AROUND),
    (b"pnet-editions,2\n", ", column 1 has 'pnet-editions'" + WORDS, None),
    (b"pnet-edition;2\n", ", column 1 has 'pnet-edition;2'" + WORDS, SEPARATORS),
    (b"PNET-EDITION,2\n", ", column 1 has 'PNET-EDITION'" + WORDS, SMALL),
    (b"# a plant\n", ", column 1 has '# a plant'" + WORDS, None),
    (b"\xe9t\xe9\x00\n", ", column 1 has '\\xe9t\\xe9\\x00'" + WORDS, None),
)
# texts whose sheet is refused when it is read, the report, and the line that is told
REFUSED = (
    (SEGMENT, "refused 6 at byte 2\n", "byte 2 is where the sheet ends, behind the last line of the text\n"),
    (STREAM, "refused 3 at byte 0\n", "byte 0 of the sheet is line 1 of the text\n"),
    (b"pnet-segment,33\n", "refused 4 at byte 0\n", "byte 0 of the sheet is line 1 of the text\n"),
    (TEXT + STREAM.replace(b",1,", b",2,"), "refused 4 at byte 14\n", "byte 14 of the sheet is line 3 of the text\n"),
    (TEXT + JITTER.replace(b"700", b"701"), "refused 4 at byte 14\n", "byte 14 of the sheet is line 3 of the text\n"),
    (TEXT + JITTER.replace(b"300", b"1000"), "refused 4 at byte 14\n", "byte 14 of the sheet is line 3 of the text\n"),
    (TEXT + JITTER + STREAM.replace(b",1,", b",2,"), "refused 4 at byte 30\n", "byte 30 of the sheet is line 4 of the text\n"),
    (JITTER, "refused 3 at byte 0\n", "byte 0 of the sheet is line 1 of the text\n"),
    (TEXT + b"worldfip-variable,1,1 us\n", "refused 3 at byte 14\n", "byte 14 of the sheet is line 3 of the text\n"),
    (TEXT * 2, "refused 3 at byte 14\n", "byte 14 of the sheet is line 3 of the text\n"),
    (SEGMENT + STREAM * 81, "refused 5 at byte 962\n", "byte 962 of the sheet is line 82 of the text\n"),
    (SEGMENT + (STREAM + JITTER) * 40 + JITTER, "refused 5 at byte 1122\n", "byte 1122 of the sheet is line 82 of the text\n"),
    (b"worldfip-exchange,1 us\n" + b"worldfip-variable,1,1 us\n" * 2, "refused 7 at byte 12\n", "byte 12 of the sheet is line 3 of the text\n"),
    (b"profibus-stream,1,1 bp,1 bp\n", "refused 3 at byte 0\n", "byte 0 of the sheet is line 1 of the text\n"),
    (MESSAGES[0], "refused 3 at byte 0\n", "byte 0 of the sheet is line 1 of the text\n"),
    (RING_OF_TWO, "refused 20 at byte 6\n", "byte 6 is where the sheet ends, behind the last line of the text\n"),
    (RING_OF_TWO + MESSAGES[1], "refused 20 at byte 12\n", "byte 12 is where the sheet ends, behind the last line of the text\n"),
    (RING_OF_TWO + MESSAGES[1] + RING_STREAM, "refused 20 at byte 12\n", "byte 12 of the sheet is line 3 of the text\n"),
    (RING_OF_TWO + MESSAGES[1] * 2 + RING_STREAM, "refused 20 at byte 12\n", "byte 12 of the sheet is line 3 of the text\n"),
    (RING_OF_TWO + b"".join(MESSAGES), "refused 6 at byte 18\n", "byte 18 is where the sheet ends, behind the last line of the text\n"),
    (RING_OF_TWO + b"".join(MESSAGES) + RING_STREAM.replace(b"400", b"501"), "refused 4 at byte 18\n", "byte 18 of the sheet is line 4 of the text\n"),
    (RING_OF_TWO + b"".join(MESSAGES) + RING_STREAM + MESSAGES[0], "refused 3 at byte 28\n", "byte 28 of the sheet is line 5 of the text\n"),
    (RING_OF_TWO + b"profibus-message,3,500 bp\n", "refused 4 at byte 6\n", "byte 6 of the sheet is line 2 of the text\n"),
    (SEGMENT + b"pnet-edition,3\n" + STREAM, "refused 4 at byte 2\n", "byte 2 of the sheet is line 2 of the text\n"),
    (SEGMENT + b"pnet-edition,0\n" + STREAM, "refused 4 at byte 2\n", "byte 2 of the sheet is line 2 of the text\n"),
    (SEGMENT + EDITION, "refused 6 at byte 4\n", "byte 4 is where the sheet ends, behind the last line of the text\n"),
    (SEGMENT + EDITION * 2 + STREAM, "refused 3 at byte 4\n", "byte 4 of the sheet is line 3 of the text\n"),
    (TEXT + EDITION, "refused 3 at byte 14\n", "byte 14 of the sheet is line 3 of the text\n"),
    (EDITION + TEXT, "refused 3 at byte 0\n", "byte 0 of the sheet is line 1 of the text\n"),
    (SEGMENT + EDITION + STREAM + JITTER.replace(b",1,", b",2,", 1), "refused 4 at byte 16\n", "byte 16 of the sheet is line 4 of the text\n"),
)
# bytes that no one takes for a text; the one that begins with a new line is a record of kind 10
PLAIN = (b"\x0b", b"\x00pnet-segment,1\n", b"p\x00n\x00e\x00t\x00", b"\x80pnet-segment,1\n", b"\xef\xbb", b"pnet\x7f", b"\nx", TEXT[:5] + b"\x01" + TEXT[5:])


def call(program, words, data=b"", **more):
    return subprocess.run(program + words, input=data, stdout=subprocess.PIPE, stderr=subprocess.PIPE, check=False, **more)


def told_form(line):
    """The form that is told beside a line, or nothing where it begins with no word."""
    words = {word: kind for kind, word in second_opinion.WORDS.items()}
    word = line.split(b",")[0].decode("latin-1")
    if word not in words or b"," not in line:
        return None
    forms = FORMS[line[:7]]
    return forms if isinstance(forms, str) else [form for form in forms if form.startswith(word + ",")][0]


def both_ways(program, folder, data):
    """A text by its file's name and on standard input: the name that is told, and what was written."""
    name = os.path.join(folder, "a text.csv")
    with open(name, "wb") as file:
        file.write(data)
    yield name, call(program, [name])
    yield "standard input", call(program, [], data)


def trouble(done, report, parts):
    """What is not as it should be: the report on standard output, 1, and each of the parts in words that name the program."""
    said = done.stderr.decode("ascii")
    right = done.stdout.decode("ascii") == report and done.returncode == 1 and all(part in said for part in parts)
    if right and said.endswith("\n") and all(line.startswith("planner: ") for line in said.splitlines()):
        return None
    return "%s: wrote %r, said %r and ended with %d, not %r" % (done.args[-1], done.stdout, said, done.returncode, parts)


def line_troubles(program, folder):
    for line, place, advice in LINES + STRANGE_LINES:
        form = told_form(line)
        parts = ([advice] if advice else []) + ["the form of that line: " + form if form else LISTED]
        for name, done in both_ways(program, folder, TEXT + line):
            yield trouble(done, "refused 23 at line 3\n", ["planner: %s: line 3%s" % (name, place)] + parts)
            if not advice and done.stderr.count(b"\n") != 2:
                yield "%r: more than needs to be said: %r" % (line, done.stderr)


def first_line_troubles(program, folder):
    """Behind no other line, what begins with no word is taken for bytes; a tab is the number of kind 9."""
    for line, place, advice in STRANGE_LINES:
        if line[:1] in (b"\n", b"\r", b"\xe9"):
            continue
        for name, done in both_ways(program, folder, line + TEXT):
            shown = place if line.endswith(b"\n") else place.replace("segmen", "segmenpnet-segment")
            parts = ["planner: %s: taken for bytes, as it does not begin with a word and a comma\n" % name, "planner: %s: line 1%s" % (name, shown)]
            report = "refused %d at byte 0\n" % (4 if line[:1] == b"\t" else 2)
            yield trouble(done, report, parts + ([advice] if advice else []))
    for data in PLAIN:
        done = call(program, [], data)
        report = b"refused %d at byte 0\n" % (3 if data[0] == 10 else 2)
        if (done.stdout, done.stderr, done.returncode) != (report, b"", 1):
            yield "%r: wrote %r, said %r and ended with %d" % (data, done.stdout, done.stderr, done.returncode)


def sheet_troubles(program, folder):
    for text, report, told in REFUSED:
        for name, done in both_ways(program, folder, text):
            yield trouble(done, report, ["planner: %s: %s" % (name, told)])


def troubles(program, folder):
    for tried in (line_troubles, first_line_troubles, sheet_troubles):
        yield from filter(None, tried(program, folder))
