"""Every name that docs/CLAIMS.md and docs/IDLE.md cite stands in the tree.

A must-fail label is a word with underscores that no specs or proofs declare; a name of a definition or a theorem is written `File.name`
behind a crate's name and a colon, and a function `crate::name`.
"""

import pathlib
import re
import sys

ROOT = pathlib.Path(__file__).resolve().parent.parent
CRATES = ROOT / "crates"
DOCS = ["CLAIMS.md", "IDLE.md"]


def missing_functions(text):
    for crate, name in sorted(set(re.findall(r"`(\w+)::(\w+)`", text))):
        code = "".join(path.read_text() for path in (CRATES / crate / "src").glob("*.rt"))
        if not re.search(r"(fn|struct|enum) %s\b" % name, code):
            yield "%s::%s" % (crate, name)


def of_must_fail(text):
    """What stands behind `Must fail:`, up to the next line that begins an item of its own."""
    return re.findall(r"(?ms)^ *- Must fail:(.*?)(?=^- |^\*\*|^#|\Z)", text)


def missing_labels(text):
    labels = {path.stem for path in CRATES.glob("*/must-fail/*.edit")}
    functions = set(re.findall(r"::(\w+)", text)) | {path.name for path in CRATES.iterdir()}
    code = "".join(path.read_text() for path in CRATES.glob("*/src/*.rt"))
    stated = {word for path in CRATES.glob("*/*/*.antt") for word in re.findall(r"[\w']+", path.read_text())}
    crates = {path.name for path in CRATES.iterdir()}
    word = r"\b[a-z0-9]+(?:_[a-zA-Z0-9]+)+\b"
    for found in sorted(set(re.findall(word, text))):
        if found in labels or found in functions or found in stated or re.search(r"fn %s\b" % found, code):
            continue
        yield "must-fail edit %s" % found
    # behind `Must fail:` a word is an edit's name, whatever else is called so
    for item in of_must_fail(text):
        for found in sorted(set(re.findall(word, item)) - labels - crates):
            yield "must-fail edit %s" % found


def files_of(crate, name):
    return list(CRATES.glob("%s/*/%s.antt" % (crate, name)))


def names_cited(text):
    """Each crate with what is cited of it: behind its name and a colon, up to the next crate, a semicolon or the item's end."""
    crates = "|".join(path.name for path in CRATES.iterdir())
    items = re.sub(r"\n +(?!- )", " ", text)
    return re.findall(r"(?<![\w`:])(%s): ((?:(?!(?<![\w`:])(?:%s): )[^|;\n])*)" % (crates, crates), items)


def missing_names(text):
    for crate, names in names_cited(text):
        files = []
        for part in re.split(r"[,;] ", names):
            word = part.strip().split(" ")[0].rstrip(".")
            found = re.match(r"([A-Z]\w*)\.([\w-]+)$", word)
            if found:
                files, name = files_of(crate, found.group(1)), found.group(2)
            elif files_of(crate, word):
                files, name = files_of(crate, word), None
            else:
                name = word if re.match(r"[\w-]+$", word) else None
                if name and not (files and ("_" in name or name[0].isupper())):
                    continue
            body = "".join(path.read_text() for path in files)
            if found and not files or name and not re.search(r"(?<![\w-])%s(?![\w-])" % re.escape(name), body):
                yield "%s: %s" % (crate, word)


def main():
    wrong = []
    for doc in DOCS:
        text = (ROOT / "docs" / doc).read_text()
        for find in (missing_functions, missing_labels, missing_names):
            wrong += ["%s cites %s, which is not there" % (doc, name) for name in find(text)]
    for line in wrong:
        print(line)
    print("%s: %d names missing" % (", ".join(DOCS), len(wrong)))
    return 1 if wrong else 0


if __name__ == "__main__":
    sys.exit(main())
