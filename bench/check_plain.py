"""Check bench/plain.c against the second opinion, figure by figure.

    check_plain.py [--seed S] [--count N]

Each generated sheet goes to all three planners and to that of urgent requests
first, and with some captures to the one for these, with lent runs that are long
enough, just long enough and one place too short; and each is written as text and
rewritten, and each generated text read as a sheet, in the same way; and sheets that
are made for urgent requests first go to their planner. A speed comparison with a planner that answers something else, or that
spoils lent memory, would mean nothing.
"""

import ctypes
import os
import random
import shutil
import subprocess
import sys
import tempfile

HERE = os.path.dirname(os.path.abspath(__file__))
sys.path.insert(0, os.path.join(HERE, os.pardir, "tests"))
sys.dont_write_bytecode = True

import second_opinion as opinion  # noqa: E402
import sheets  # noqa: E402
import sheets_urgent  # noqa: E402
import texts  # noqa: E402

MARK8 = 0xA5
MARK32 = 0xA5A5A5A5
MARK64 = 0xA5A5A5A5A5A5A5A5

# ---------------------------------------------------------------- asking


def build(folder):
    compiler = os.environ.get("CC") or shutil.which("cc") or "gcc"
    library = os.path.join(folder, "plain.so")
    subprocess.run(
        [compiler, "-O2", "-Wall", "-Wextra", "-Werror", "-shared", "-fPIC",
         os.path.join(HERE, "plain.c"), "-o", library],
        check=True,
    )
    return ctypes.CDLL(library)


def size(n):
    return ctypes.c_size_t(n)


def ask_three(planner, data, lengths):
    """The answer, and the three lent runs with two marked places behind each."""
    runs = [(ctypes.c_uint32 * (n + 2))(*[MARK32] * (n + 2)) for n in lengths]
    place = ctypes.c_uint64(MARK64)
    number = planner(
        data, size(len(data)),
        runs[0], size(lengths[0]), runs[1], size(lengths[1]), runs[2], size(lengths[2]),
        ctypes.byref(place),
    )
    return (number, place.value), [list(run) for run in runs]


def expected_three(planner, data, lengths):
    plan = planner(data, lengths)
    runs = [[MARK32] * (n + 2) for n in lengths]
    if isinstance(plan, opinion.Refusal):
        return tuple(plan), runs
    for run, figures in zip(runs, plan):
        run[: len(figures)] = figures
    return (0, MARK64), runs


def ask_profibus(library, data):
    ttr = ctypes.c_uint32(MARK32)
    stream = ctypes.c_uint32(MARK32)
    place = ctypes.c_uint64(MARK64)
    number = library.plain_profibus(
        data, size(len(data)), ctypes.byref(ttr), ctypes.byref(stream), ctypes.byref(place))
    return (number, place.value), (ttr.value, stream.value)


def expected_profibus(data):
    plan = opinion.plan_profibus(data)
    if isinstance(plan, opinion.Refusal):
        return tuple(plan), (MARK32, MARK32)
    return (0, MARK64), tuple(plan)


def ask_worldfip(library, data, length):
    rows = (ctypes.c_uint64 * (length + 2))(*[MARK64] * (length + 2))
    count = ctypes.c_uint32(MARK32)
    place = ctypes.c_uint64(MARK64)
    number = library.plain_worldfip(
        data, size(len(data)), rows, size(length), ctypes.byref(count), ctypes.byref(place))
    return (number, place.value), count.value, list(rows)


def expected_worldfip(data, length):
    plan = opinion.plan_worldfip(data, length)
    rows = [MARK64] * (length + 2)
    if isinstance(plan, opinion.Refusal):
        return tuple(plan), MARK32, rows
    rows[: len(plan.rows)] = plan.rows
    return (0, MARK64), len(plan.rows), rows


CAPTURE_RUNS = (
    (ctypes.c_uint64, MARK64),
    (ctypes.c_uint32, MARK32),
    (ctypes.c_uint64, MARK64),
    (ctypes.c_uint8, MARK8),
)


def ask_capture(library, data, capture, lengths):
    runs = [(kind * (n + 2))(*[mark] * (n + 2)) for n, (kind, mark) in zip(lengths, CAPTURE_RUNS)]
    place = ctypes.c_uint64(MARK64)
    lent = [word for run, n in zip(runs, lengths) for word in (run, size(n))]
    number = library.plain_capture(
        data, size(len(data)), capture, size(len(capture)), *lent, ctypes.byref(place))
    return (number, place.value), [list(run) for run in runs]


def expected_capture(data, capture, lengths):
    runs = [[mark] * (n + 2) for n, (_, mark) in zip(lengths, CAPTURE_RUNS)]
    answer = opinion.compare_capture(data, capture, min(lengths))
    if isinstance(answer, opinion.Refusal):
        return tuple(answer), runs
    for run, name in zip(runs, ("answers", "largest", "above", "left")):
        run[: len(answer)] = [getattr(one, name) for one in answer]
    return (0, MARK64), runs


def ask_exchange(exchange, data, length):
    """The answer of one that writes bytes into a lent run, and the run with two marked places behind it."""
    run = (ctypes.c_uint8 * (length + 2))(*[MARK8] * (length + 2))
    written = ctypes.c_uint32(MARK32)
    place = ctypes.c_uint64(MARK64)
    number = exchange(data, size(len(data)), run, size(length), ctypes.byref(written), ctypes.byref(place))
    return (number, place.value), written.value, bytes(run)


def expected_exchange(exchange, data, length):
    made = exchange(data, length)
    run = bytes([MARK8]) * (length + 2)
    if isinstance(made, opinion.Refusal):
        return tuple(made), MARK32, run
    return (0, MARK64), len(made), made + run[len(made) :]


# ---------------------------------------------------------------- what is asked


def event(kind, stream, stamp):
    return bytes([kind]) + stream.to_bytes(2, "big") + (stamp % 2**32).to_bytes(4, "big")


def capture_of(rng, bounds):
    """Requests and answers of streams with these bounds, with wraps."""
    records = []
    open_since = {}
    clock = rng.choice([0, 2**32 - 1000, rng.randrange(2**32)])
    for _ in range(rng.choice([0, 1, 2, 10, 60])):
        i = rng.randrange(len(bounds))
        if open_since and rng.random() < 0.5:
            i = rng.choice(list(open_since))
        if i in open_since:
            b = bounds[i]
            response = rng.choice([0, b - 1, b, b + 1, rng.randrange(2**32)])
            records.append(event(17, i + 1, open_since.pop(i) + response))
        else:
            open_since[i] = clock
            records.append(event(16, i + 1, clock))
        clock += rng.choice([0, 1, 500, 2**31, rng.randrange(2**32)])
    return records


def captures(rng, data):
    """A capture that is accepted where the sheet is, and two that are mostly not."""
    plan = opinion.plan_pnet(data)
    if isinstance(plan, opinion.Refusal):
        bounds = [1000]
    else:
        bounds = [plan.bound[stream[0] - 1] for stream in opinion.read(data).streams]
    records = capture_of(rng, bounds)
    yield b"".join(records)
    n = len(bounds)
    stray = event(
        rng.choice([16, 17, 16, 17, 0, 2, 15, 18, 255]),
        rng.choice([0, 1, n, n + 1, 800, 801, 65535, rng.randint(1, n)]),
        rng.randrange(2**32),
    )
    at = rng.randint(0, len(records))
    if at > 0 and rng.random() < 0.5:
        stray = records[at - 1]  # once more: 15 or 16
    whole = b"".join(records[:at] + [stray] + records[at:])
    yield whole
    yield whole[: rng.randint(0, len(whole))]


def capture_lengths(data):
    yield (800, 800, 800, 800)
    sheet = opinion.read(data)
    if isinstance(sheet, opinion.Sheet) and sheet.kind == 1:
        n = len(sheet.streams)
        yield (n, n, n, n)
        for short in range(4):
            yield tuple(n - 1 if run == short else n for run in range(4))


def three_lengths(data, most, of_sheet):
    """Three runs as long as they ever have to be; and of what the sheet wants, or one of them shorter by one."""
    yield (most,) * 3
    sheet = opinion.read(data)
    if isinstance(sheet, opinion.Sheet) and sheet.kind == 1:
        n = of_sheet(sheet)
        yield (n, n, n)
        yield (n - 1, n, n)
        yield (n, n - 1, n)
        yield (n, n, n - 1)


def worldfip_lengths(data):
    yield 4096
    plan = opinion.plan_worldfip(data)
    if isinstance(plan, opinion.WorldfipPlan):
        yield len(plan.rows)
        yield len(plan.rows) - 1
    elif plan.number == 12:
        yield 0


def exchange_lengths(exchange, data):
    yield 80_000
    made = exchange(data)
    if not isinstance(made, opinion.Refusal):
        yield len(made)
        yield len(made) - 1


def exchange_differences(library, data):
    """As the sheet that it may be, and as the text that it may be."""
    exchanges = (
        (library.plain_text_of, opinion.export_sheet),
        (library.plain_sheet_of, opinion.import_text),
        (library.plain_rewritten, opinion.rewrite_sheet),
    )
    for plain, exchange in exchanges:
        for length in exchange_lengths(exchange, data):
            if ask_exchange(plain, data, length) != expected_exchange(exchange, data, length):
                yield "%s, run of %d" % (exchange.__name__, length)


def urgent_differences(library, data):
    for lengths in three_lengths(data, 800, lambda sheet: len(sheet.streams)):
        if ask_three(library.plain_urgent, data, lengths) != expected_three(opinion.plan_urgent, data, lengths):
            yield "urgent requests first, runs of %d, %d and %d" % lengths


def differences(library, rng, data):
    yield from exchange_differences(library, data)
    for lengths in three_lengths(data, 32, lambda sheet: sheet.head[0]):
        if ask_three(library.plain_pnet, data, lengths) != expected_three(opinion.plan_pnet, data, lengths):
            yield "P-NET planner, runs of %d, %d and %d" % lengths
    yield from urgent_differences(library, data)
    if ask_profibus(library, data) != expected_profibus(data):
        yield "PROFIBUS planner"
    for length in worldfip_lengths(data):
        if ask_worldfip(library, data, length) != expected_worldfip(data, length):
            yield "WorldFIP planner, run of %d" % length
    for capture in captures(rng, data):
        for lengths in capture_lengths(data):
            asked = (data, capture, lengths)
            if ask_capture(library, *asked) != expected_capture(*asked):
                yield "capture %s, runs of %d, %d, %d and %d" % (capture.hex(), *lengths)


def main():
    options = {"--seed": 1, "--count": 3000}
    words = sys.argv[1:]
    while len(words) >= 2 and words[0] in options and words[1].isdigit():
        options[words[0]] = int(words[1])
        words = words[2:]
    if words:
        sys.exit(__doc__.strip())
    with tempfile.TemporaryDirectory() as folder:
        library = build(folder)
        rng = random.Random(options["--seed"])
        compared = 0
        differing = 0
        for name, data in sheets.sheets(options["--seed"], options["--count"]):
            compared += 1
            found = list(differences(library, rng, data))
            if found:
                differing += 1
                print("%s: %s\n  %s" % (name, "; ".join(found), data[:2000].hex()))
        for name, data in texts.texts(options["--seed"], options["--count"] // 2):
            compared += 1
            found = list(exchange_differences(library, data))
            if found:
                differing += 1
                print("%s: %s\n  %r" % (name, "; ".join(found), data[:2000]))
        for name, data in sheets_urgent.sheets(options["--seed"], options["--count"]):
            compared += 1
            found = list(urgent_differences(library, data))
            if found:
                differing += 1
                print("%s: %s\n  %s" % (name, "; ".join(found), data[:2000].hex()))
    print("compared %d sheets and texts, %d differ" % (compared, differing))
    return 1 if differing else 0


if __name__ == "__main__":
    sys.exit(main())
