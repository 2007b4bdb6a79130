"""Run a planner on every sample sheet, text, capture and path, and with urgent requests first where a listing says so, and compare its report
with the one in the listing, and its exit status with the second opinion's; and turn each sheet into its text and back, and rewrite it.

    samples.py PROGRAM...
"""

import pathlib
import subprocess
import sys

sys.path.insert(0, str(pathlib.Path(__file__).resolve().parent))
sys.dont_write_bytecode = True

import second_opinion  # noqa: E402

SAMPLES = pathlib.Path(__file__).resolve().parent.parent / "samples"


def listed(file):
    """The first line of a file's listing, and its report."""
    listing = file.with_suffix(".txt").read_bytes()
    return listing.split(b"\n", 1)[0].decode("ascii"), listing.split(b"\nReport:\n\n", 1)[1]


def differs(words, expected, status, data=b""):
    done = subprocess.run(words, input=data, stdout=subprocess.PIPE, check=False)
    if (done.stdout, done.returncode) == (expected, status):
        return False
    print("%s\nexpected %r, status %d\ngot      %r, status %d" % (" ".join(words), expected, status, done.stdout, done.returncode))
    return True


def reported(words, expected, data=b""):
    return differs(words, expected, second_opinion.status(expected.decode("ascii").splitlines()), data)


def of_sheet(program, file):
    """A sheet or a text: by standard input, and by the file's name."""
    _, expected = listed(file)
    yield reported(program, expected, file.read_bytes())
    yield reported(program + [str(file)], expected)
    made = second_opinion.rewrite_given(file.read_bytes())
    refused = isinstance(made, second_opinion.Refusal)
    yield differs(program + ["--rewrite", str(file)], b"" if refused else made, int(refused))


def of_text(program, text):
    """A text is the same sheet: the same reports, its sheet's bytes by import, and its own bytes by export."""
    yield from of_sheet(program, text)
    sheet = text.with_suffix(".sheet")
    yield differs(program + ["--export", str(sheet)], text.read_bytes(), 0)
    yield differs(program + ["--import", str(text)], sheet.read_bytes(), 0)


def of_capture(program, capture):
    first, expected = listed(capture)
    words = program + ["--urgent"] * (", urgent requests first, " in first)
    beside = SAMPLES / first.split(", beside ")[1]
    for sheet in (beside, beside.with_suffix(".csv")):
        yield reported(words + [str(sheet), str(capture)], expected)


def of_command(program, listing):
    """The listing's first line is the command as a user in the samples' folder would type it, with texts; the sheets give the same."""
    first, expected = listed(listing)
    texts = [str(SAMPLES / word) if word.endswith(".csv") else word for word in first.split()[1:]]
    sheets = [word[: -len(".csv")] + ".sheet" if word.endswith(".csv") else word for word in texts]
    for words in (texts, sheets):
        yield reported(program + words, expected)


def main(program):
    if not program:
        sys.exit(__doc__)
    found, wrong = [], 0
    for tried, pattern in ((of_sheet, "*.sheet"), (of_text, "*.csv"), (of_capture, "*.capture"), (of_command, "path-*.txt"), (of_command, "urgent-*.txt")):
        files = sorted(SAMPLES.glob(pattern))
        found.append(len(files))
        wrong += sum(sum(tried(program, file)) for file in files)
    print("%d sample sheets, %d texts, %d captures, %d paths, %d runs with urgent requests first, %d reports differ" % (*found, wrong))
    return 1 if wrong or 0 in found else 0


if __name__ == "__main__":
    sys.exit(main(sys.argv[1:]))
