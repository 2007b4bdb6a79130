"""Compare a planner's reports, and what it exports, imports and rewrites, with the second opinion's, byte by byte.

    compare.py PROGRAM... [--seed S] [--count N] [--captures N] [--paths N] [--texts N] [--urgents N] [--rewrites N] [--jobs J]

So many sheets, then so many pairs of a sheet and a capture, then so many paths, then so many texts, then so many sheets with urgent requests first,
some beside a capture, then so many sheets that are rewritten. Two runs are made on each text, and on each ring of kind 3 that is rewritten: the new
sheet has to have the report of the old one.

PROGRAM may be several words, so that a program built for another machine can
be run under an emulator. Its exit status is held to the second opinion's too.
"""

import multiprocessing
import os
import shutil
import subprocess
import sys
import tempfile
from collections import Counter

sys.path.insert(0, os.path.dirname(os.path.abspath(__file__)))
sys.dont_write_bytecode = True

import captures  # noqa: E402
import paths  # noqa: E402
import rewrites  # noqa: E402
import second_opinion  # noqa: E402
import sheets  # noqa: E402
import texts  # noqa: E402
import urgents  # noqa: E402
from second_opinion import Refusal, urgent_first  # noqa: E402

SECONDS_FOR_A_SHEET = 120
# below this count a missing outcome says nothing about the generator
COUNT_THAT_MEETS_ALL = 1000
LEAST_OF_EACH = 10

ACCEPTED = ["P-NET segment", "PROFIBUS ring", "WorldFIP table", "P-NET path", "P-NET urgent first"]
OF_SHEETS = ["accepted, " + head for head in ACCEPTED[:3]] + [
    "refused %d" % number for number in (*range(1, 13), 20)
] + ["accepted, P-NET segment, by J", "accepted, P-NET segment, by edition 2", "refused 8, by edition 2"] + [
    "accepted, PROFIBUS ring, by own messages"
]
# those that reading gives
OF_READING = (1, 2, 3, 4, 5, 6, 7, 20)
OF_CAPTURES = [
    "every answer within its bound",
    "answers above the bound",
    "requests open beyond the bound",
    "requests sooner than their spacing allows",
    "records not in order",
    "no answer in the whole capture",
] + [
    "capture refused %d" % number for number in (1, 2, 14, 15, 16)
] + [
    "refused 23", "every answer within its bound, by J", "requests sooner than their spacing allows, by J",
    "every answer within its bound, by edition 2",
]
OF_PATHS = ["accepted, P-NET path", "accepted, P-NET path, of both editions", "sheet of a path refused", "text of a path refused 23"] + [
    "path refused %d" % number for number in (4, 17, 18, 19)
] + ["path refused 19, by edition 2"]
# a text never stands for a cut record, an unknown kind or a ring of kind 3
OF_TEXTS = ["import accepted, kind 1", "import accepted, kind 1 with kind 8", "import accepted, kind 5", "import accepted, kind 9 with kind 10"] + [
    "import refused %d" % number for number in (1, 3, 4, 5, 6, 7, 20, 23)
] + [
    "export accepted, kind 1", "export accepted, kind 1 with kind 8", "export accepted, kind 5", "export accepted, kind 9 with kind 10",
    "export refused 2 for kind 3", "export refused by reading", "export refused 23",
] + ["report of it: " + one for one in ("accepted, P-NET segment", "accepted, PROFIBUS ring", "accepted, WorldFIP table", "refused 23")]
OF_REWRITES = ["rewrite accepted, " + one for one in ("kind 1", "kind 1 with kind 8", "kind 3", "kind 5", "kind 9 with kind 10")] + [
    "rewrite refused %d" % number for number in (*OF_READING, 23)
] + ["rewritten: " + one for one in ("accepted, PROFIBUS ring", "refused 9")]

MANY_ROUNDS = 100
# by reading: 1 to 7 and 20, but for 3 at byte 0, which is that of another bus too
OF_URGENTS = [
    "urgent accepted", "urgent accepted, first come refused 8", "urgent accepted, first come refused 8, by J", "urgent accepted, by edition 2",
    "urgent accepted, of %d rounds or more" % MANY_ROUNDS,
    "urgent refused 21", "urgent refused 21, by J", "urgent refused 21, by edition 2", "urgent refused 3 at byte 0", "urgent refused by reading", "urgent refused 23",
] + ["beside x: " + one for one in OF_CAPTURES[2:6]] + [
    "beside x: " + one for one in ("every answer within its bound", "every answer within its bound, not so beside R", "answers above the bound, not so beside R")
] + [
    "beside x: " + one for one in ("capture refused", "sheet refused 21", "sheet refused 23", "sheet refused before that")
]


def outcome(report):
    lines = report.decode("ascii").splitlines()
    if lines[0] in ACCEPTED:
        return "accepted, " + lines[0]
    if lines[0] in second_opinion.CAPTURE_HEADS.values():
        return next(one for one in OF_CAPTURES if lines[-1].startswith(one))
    refused = " ".join(lines[0].split()[:2])
    if " of segment " in lines[0]:
        return "text of a path refused 23" if refused == "refused 23" else "sheet of a path refused"
    if lines[0] == "refused 19" or any(word in lines[0] for word in ("gateway", "deadline", "segment")):
        return "path " + refused
    return "capture " + refused if " capture " in lines[0] else refused


def shortened(text, most=4000):
    if len(text) <= most:
        return text
    half = most // 2
    return "%s ... (%d left out) ... %s" % (text[:half], len(text) - 2 * half, text[-half:])


def run(words, data):
    """What the program wrote, the lines that it said, and its status, or no status where it did not end in time."""
    try:
        done = subprocess.run(words, input=data, stdout=subprocess.PIPE, stderr=subprocess.PIPE, timeout=SECONDS_FOR_A_SHEET)
        return done.stdout, done.stderr.split(b"\n"), done.returncode
    except subprocess.TimeoutExpired as late:
        return late.stdout or b"", [], None


def difference_of(words, name, given, data, expected, status, complaint=None):
    """How the program's run with this on standard input differs from what is expected of it, or nothing."""
    output, said, ended = run(words, data)
    troubles = []
    if ended is None:
        troubles.append("program did not end within %d seconds" % SECONDS_FOR_A_SHEET)
    elif ended != status:
        troubles.append("program ended with status %d, not with %d" % (ended, status))
    if complaint is not None and complaint not in said:
        troubles.append("program said %r, not %r" % (shortened(b"\n".join(said)), complaint))
    if output == expected and not troubles:
        return None
    return "\n".join([
        "%s (%d bytes)" % (name, len(given)),
        "hex: %s" % shortened(given.hex()),
        "program: %s" % shortened(output.decode("ascii", "backslashreplace")),
        "second opinion: %s" % shortened(expected.decode("ascii", "backslashreplace")),
    ] + troubles)


def compare_one(task):
    """The outcome, and a description of the difference if there is one."""
    words, name, given, data, expected = task
    status = second_opinion.status(expected.decode("ascii").splitlines())
    return outcome(expected), difference_of(words, name, given, data, expected, status)


def without_jitter(data):
    """The same sheet with each stream of kind 2."""
    records = second_opinion.read(data).records
    return b"".join(second_opinion.record_of(2, fields[:4]) if kind == 7 else second_opinion.record_of(kind, fields) for kind, fields in records)


def under_edition_1(data):
    """The same sheet with no edition written."""
    records = second_opinion.read(data).records
    return b"".join(second_opinion.record_of(kind, fields) for kind, fields in records if kind != 8)


def with_one_message(data):
    """The same ring with the longest of all messages as every master's."""
    sheet = second_opinion.read(data)
    if sheet.kind != 9:
        return data
    streams = b"".join(second_opinion.record_of(kind, fields) for kind, fields in sheet.records if kind == 4)
    return second_opinion.record_of(3, (*sheet.head, max(sheet.messages.values()))) + streams


CAUSES = {"edition 2": under_edition_1, "J": without_jitter, "own messages": with_one_message}


def with_cause(one, outcomes, data, shown, expected):
    """The outcome of a sheet that reads, and what it is by: what the sheet has, and without which it would show something else."""
    for cause, without in CAUSES.items():
        named = "%s, by %s" % (one, cause)
        if named in outcomes and shown(without(data)) != expected:
            return named
    return one


def compare_sheet(task):
    program, name, data = task
    expected = second_opinion.report(data)
    one, difference = compare_one((program, "sheet: " + name, data, data, expected))
    return with_cause(one, OF_SHEETS, data, second_opinion.report, expected), difference


def compare_pair(task):
    """By two files, or with the one or the other on standard input."""
    program, name, data, capture = task
    expected = second_opinion.capture_report(data, capture)
    with tempfile.TemporaryDirectory() as folder:
        names = [os.path.join(folder, "a.sheet"), os.path.join(folder, "a.capture")]
        for path, content in zip(names, (data, capture)):
            with open(path, "wb") as file:
                file.write(content)
        way = (len(data) + len(capture)) % 3
        if way < 2:
            names[way] = "-"
        given = (data, capture, b"")[way]
        label = "sheet %s beside capture: %s" % (shortened(data.hex(), 400), name)
        one, difference = compare_one((program + names, label, capture, given, expected))

    def found(sheet):
        return second_opinion.capture_lines(sheet, capture)[-1]

    return with_cause(one, OF_CAPTURES, second_opinion.sheet_given(data), found, found(data)), difference


def path_with_cause(one, segments, times, deadline):
    """The outcome of a path, and whether the editions of its segments have to do with it."""
    named = {"accepted, P-NET path": "accepted, P-NET path, of both editions", "path refused 19": "path refused 19, by edition 2"}.get(one)
    if not named:
        return one
    given = [(second_opinion.sheet_given(data), master) for data, master in segments]
    if one == "path refused 19":
        first = [(under_edition_1(data), master) for data, master in given]
        return one if isinstance(second_opinion.cross_path(first, times, deadline), Refusal) else named
    return named if {second_opinion.read(data).edition for data, _ in given} == {1, 2} else one


def compare_path(task):
    """By files, now and then with one of them on standard input."""
    program, name, segments, times, deadline = task
    expected = second_opinion.path_report(segments, times, deadline)
    with tempfile.TemporaryDirectory() as folder:
        words = ["--path", str(deadline), "bp"]
        given = b""
        for number, (data, master) in enumerate(segments):
            file_name = os.path.join(folder, "%d.sheet" % number)
            with open(file_name, "wb") as file:
                file.write(data)
            if number == 1 and len(data) % 3 == 0:
                file_name, given = "-", data
            words += ([str(times[number - 1]), "bp"] if number else []) + [file_name, str(master)]
        label = "path %s | %s bp | %d bp: %s" % (
            ", ".join("%s:%d" % (shortened(data.hex(), 200), master) for data, master in segments), times, deadline, name)
        one, difference = compare_one((program + words, label, b"", given, expected))
    return path_with_cause(one, segments, times, deadline), difference


FILTERS = {"--import": second_opinion.import_text, "--export": second_opinion.export_given, "--rewrite": second_opinion.rewrite_given}


def kinds_of(sheet):
    """The kind of a sheet's first record, and that of the second where it is no stream."""
    second = sheet.records[1][0]
    return "kind %d" % sheet.kind + ("" if second in second_opinion.STREAM_KINDS[sheet.kind] else " with kind %d" % second)


def outcome_of_filter(command, given, answer):
    if command == "--import":
        return "import " + ("refused %d" % answer.number if isinstance(answer, Refusal) else "accepted, " + kinds_of(second_opinion.read(answer)))
    data = second_opinion.sheet_given(given)
    sheet = data if isinstance(data, Refusal) else second_opinion.read(data)
    if command == "--rewrite":
        return "rewrite " + ("refused %d" % sheet.number if isinstance(sheet, Refusal) else "accepted, " + kinds_of(sheet))
    if isinstance(sheet, Refusal):
        return "export refused 23" if sheet.number == 23 else "export refused by reading"
    return "export %s %s" % ("refused 2 for" if isinstance(answer, Refusal) else "accepted,", kinds_of(sheet))


def compare_filter(words, label, command, given, data, called):
    """A refusal is said on standard error, with what the input is called, and nothing is written."""
    answer = FILTERS[command](given)
    one = outcome_of_filter(command, given, answer)
    if isinstance(answer, Refusal):
        said = "planner: %s: %s" % (called, second_opinion.refusal_line(answer))
        return one, difference_of(words, label, given, data, b"", 1, said.encode("ascii"))
    return one, difference_of(words, label, given, data, answer, 0)


def compare_text(task):
    """The report of a text, or what a filter makes of it, by a file's name, by `-` or by no word."""
    program, name, command, given, way = task
    label = "%s: %s" % (command or "report", name)
    with tempfile.TemporaryDirectory() as folder:
        file_name = os.path.join(folder, "a.csv")
        with open(file_name, "wb") as file:
            file.write(given)
        called, names, data = [(file_name, [file_name], b""), ("standard input", ["-"], given), ("standard input", [], given)][way]
        if command:
            return compare_filter(program + [command] + names, label, command, given, data, called)
        one, difference = compare_one((program + names, label, given, data, second_opinion.report(given)))
        return "report of it: " + one, difference


def runs_on(given, turn):
    """Import, and in turn the report, the export of what is given, or that of the sheet that it stands for, which gives it back."""
    yield "--import", given
    sheet = second_opinion.import_text(given)
    if turn == 0:
        yield "", given
    elif turn == 1 or isinstance(sheet, Refusal):
        yield "--export", given
    else:
        assert second_opinion.export_sheet(sheet) == given
        yield "--export", sheet


def runs_on_texts(program, seed, count):
    for number, (name, given) in enumerate(texts.texts(seed, count)):
        for command, data in runs_on(given, number % 3):
            yield program, name, command, data, number // 3 % 3


def compare_rewritten(task):
    """The report of a ring that was rewritten is that of the ring of kind 3."""
    program, name, given, data = task
    one, difference = compare_one((program, "rewritten: " + name, data, data, second_opinion.report(given)))
    return "rewritten: " + one, difference


def compare_rewrite(task):
    """What a sheet is rewritten as, or what a rewritten one has for a report."""
    program, name, given, way, made = task
    return compare_text((program, name, "--rewrite", given, way)) if made is None else compare_rewritten((program, name, given, made))


def runs_on_rewrites(program, seed, count):
    for number, (name, given) in enumerate(rewrites.rewrites(seed, count)):
        made = second_opinion.rewrite_given(given)
        yield program, name, given, number % 3, None
        if not isinstance(made, Refusal) and given[0] == 3:
            yield program, name, given, number % 3, made


def outcome_of_urgent(given, expected):
    """What --urgent makes of a sheet, and what is special about that."""
    head, *lines = expected.decode("ascii").splitlines()
    one = "urgent accepted"
    if head.startswith("refused "):
        one = "urgent " + (head if head == "refused 3 at byte 0" else "refused by reading" if int(head.split()[1]) in OF_READING else " ".join(head.split()[:2]))
    elif max(int(line.split(" rounds ")[0].split()[-1]) for line in lines if line.startswith("stream ")) >= MANY_ROUNDS:
        return "urgent accepted, of %d rounds or more" % MANY_ROUNDS
    elif lines[-1].startswith("first come refused 8"):
        one = "urgent accepted, first come refused 8"
    return with_cause(one, OF_URGENTS, second_opinion.sheet_given(given), second_opinion.urgent_report, expected)


def outcome_beside_figures(given, capture, expected):
    """What a capture shows beside the figures, and whether it shows something else beside the bounds of first come."""
    head, *lines = expected.decode("ascii").splitlines()
    if head.startswith("refused "):
        number = int(head.split()[1])
        return "beside x: " + ("capture refused" if " capture " in head else "sheet refused %s" % ("before that" if number in OF_READING else number))
    one = "beside x: " + outcome(expected)
    named = one + ", not so beside R"
    return named if named in OF_URGENTS and second_opinion.capture_lines(given, capture)[-1] != lines[-1] else one


def never_worse(given):
    """Whether urgent requests first accept what first come accepts, with no figure above the bound."""
    data = second_opinion.sheet_given(given)
    if isinstance(data, Refusal):
        return True
    bounds, figures = second_opinion.first_come(data), urgent_first(data)
    return isinstance(bounds, Refusal) or (not isinstance(figures, Refusal) and all(x <= bound for x, bound in zip(figures, bounds)))


def compare_urgent(task):
    """By a file's name, by `-` or, without a capture, by no word."""
    program, name, data, capture = task
    assert never_worse(data), data.hex()
    alone = capture is None
    expected = second_opinion.urgent_report(data) if alone else second_opinion.capture_report(data, capture, urgent_first)
    one = outcome_of_urgent(data, expected) if alone else outcome_beside_figures(data, capture, expected)
    contents = [data] if alone else [data, capture]
    with tempfile.TemporaryDirectory() as folder:
        names = [os.path.join(folder, part) for part in ("a.sheet", "a.capture")[: len(contents)]]
        for path, content in zip(names, contents):
            with open(path, "wb") as file:
                file.write(content)
        way = sum(map(len, contents)) % 3
        given = b""
        if way < len(names):
            names[way], given = "-", contents[way]
        elif alone and way == 1:
            names, given = [], data
        label = "--urgent on %s" % name + ("" if alone else ", sheet %s" % shortened(data.hex(), 400))
        _, difference = compare_one((program + ["--urgent"] + names, label, contents[-1], given, expected))
    return one, difference


def arguments(words):
    options = {"--seed": 1, "--count": 3000, "--captures": 1000, "--paths": 1000, "--texts": 1300, "--urgents": 1500, "--rewrites": 1000, "--jobs": os.cpu_count() or 1}
    program = []
    rest = iter(words)
    for word in rest:
        if word in options:
            value = next(rest, None)
            if value is None or not value.isdigit():
                sys.exit("%s takes a number" % word)
            options[word] = int(value)
        else:
            program.append(word)
    if not program or options["--jobs"] < 1:
        sys.exit(__doc__.strip())
    return program, options


def compare_all(compare, tasks, count, outcomes, jobs, what):
    """How many differ, and whether each outcome was met."""
    met = Counter()
    differing = 0
    with multiprocessing.Pool(jobs) as pool:
        for one, difference in pool.imap(compare, tasks):
            met[one] += 1
            if difference is not None:
                differing += 1
                if differing <= 5:
                    print(difference + "\n")
    for one in outcomes:
        print("%-48s %6d" % (one, met[one]))
    print("compared %d %s, %d differ" % (sum(met.values()), what, differing))
    rare = [one for one in outcomes if met[one] < LEAST_OF_EACH]
    if count >= COUNT_THAT_MEETS_ALL and rare:
        print("met fewer than %d times: %s" % (LEAST_OF_EACH, ", ".join(rare)))
        return False
    return differing == 0


def main():
    program, options = arguments(sys.argv[1:])
    if shutil.which(program[0]) is None:
        sys.exit("no such program: %s" % program[0])
    seed, jobs = options["--seed"], options["--jobs"]
    count, pairs, ways, written, urgent, old = (options[word] for word in ("--count", "--captures", "--paths", "--texts", "--urgents", "--rewrites"))
    tasks = ((program, name, data) for name, data in sheets.sheets(seed, count))
    good = compare_all(compare_sheet, tasks, count, OF_SHEETS, jobs, "sheets")
    tasks = ((program, *pair) for pair in captures.captures(seed, pairs))
    good &= compare_all(compare_pair, tasks, pairs, OF_CAPTURES, jobs, "pairs of a sheet and a capture")
    tasks = ((program, *path) for path in paths.paths(seed, ways))
    good &= compare_all(compare_path, tasks, ways, OF_PATHS, jobs, "paths")
    tasks = runs_on_texts(program, seed, written)
    good &= compare_all(compare_text, tasks, written, OF_TEXTS, jobs, "runs on texts")
    tasks = ((program, *one) for one in urgents.urgents(seed, urgent))
    good &= compare_all(compare_urgent, tasks, urgent, OF_URGENTS, jobs, "sheets with urgent requests first")
    tasks = runs_on_rewrites(program, seed, old)
    good &= compare_all(compare_rewrite, tasks, old, OF_REWRITES, jobs, "runs on sheets to rewrite")
    return 0 if good else 1


if __name__ == "__main__":
    sys.exit(main())
