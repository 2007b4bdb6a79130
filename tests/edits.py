"""Every must-fail edit is one that `rt` can try: lines `#`, `file:`, `old:` and `new:` alone, since a second line of a text would be left out;
each old text stands once in its file; and something changes. `rt must-fail` says so as well, but late.
"""

import pathlib
import sys

ROOT = pathlib.Path(__file__).resolve().parent.parent


def troubles(edit):
    """What is wrong with an edit, whose pairs are made one after the other, each in the file named last."""
    crate = edit.parent.parent
    texts, name, old = {}, None, None
    for line in edit.read_text().splitlines():
        if line.startswith("file: "):
            name = line[len("file: "):]
            texts.setdefault(name, (crate / name).read_text())
        elif line.startswith("old: "):
            old = line[len("old: "):]
            if texts[name].count(old) != 1:
                yield "its old text stands %d times in %s: %s" % (texts[name].count(old), name, old)
                return
        elif line == "new:" or line.startswith("new: "):
            texts[name] = texts[name].replace(old, line[len("new: "):])
        elif line and not line.startswith("#"):
            yield "a line that is none of an edit: %s" % line
    if all(text == (crate / name).read_text() for name, text in texts.items()):
        yield "it changes nothing"


def main():
    edits = sorted(ROOT.glob("crates/*/must-fail/*.edit"))
    wrong = ["%s: %s" % (edit.relative_to(ROOT), trouble) for edit in edits for trouble in troubles(edit)]
    for line in wrong:
        print(line)
    print("%d edits, %d wrong" % (len(edits), len(wrong)))
    return 1 if wrong else 0


if __name__ == "__main__":
    sys.exit(main())
