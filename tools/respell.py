#!/usr/bin/env python3
"""Spells this repository's own definitions and lemmas as today's Rattle does: words in snake case.

usage: respell.py [--list] [FOLDER]      FOLDER is the top of the repository, or the one where the call is made

Run once, behind Rattle's own port.py. It turns camelCase and dashes to underscores in names that specs/ and proofs/*.antt declare, where they
are declared, imported and used: in .antt files, and in `ghost use` lines and clauses of .rt files. Functions, types and fields of src/ keep
their names, and so do the names that Rattle makes for a function's proof, whose parts a dash joins. Where two names would fall together in a
file, APART says what the second is called. --list prints each name with its new spelling and changes nothing.
"""

import collections
import glob
import os
import re
import sys

NAME = r"[^\s(){}.;,@\"«»\[\]\\|]+"
TOKEN = re.compile(r"--[^\n]*|\"(?:[^\"\\\n]|\\.)*\"|" + NAME + r"|.|\n")
DECLARED = re.compile(
    r"^( *)((?:(?:abbrev|unfoldable|opaque|pub|data|record|instance|type) )*)(" + NAME + r")((?: +\{[^{}\n]*\}| +\([^()\n]*\))*) :(?=\s)", re.M
)
USE = re.compile(r"(?m)^\s*(?:pub )?(?:ghost )?(?:pub )?use ([^\s;{]+?)(?:\.\{([^}]*)\})?(?: as ([^\s;]+))?\s*;?$")
RECORD = re.compile(r"(?m)^( *)(?:\w+ )*record [^\n]*where\n((?:\1 +.*\n|\n)*)")
# Rattle makes what stands behind these.
MADE = {"goal", "tie", "c", "Goals", "Tie"}
# Old name to new, where the plain spelling would meet another name in some file.
LAWS = """at-place in-ns stream-met count-of longest-of in-range first-unmet late-at report-by accepts-by head-of is-setting is-first new-length
    record-in variable-of period-at period-of bit-or bit-and bit-xor"""
SNAKE_LAWS = "above_at met_at has_word in_bytes is_digit in_rows"
APART = {n: re.sub("-", "_", n) + "_law" for n in (LAWS + " " + SNAKE_LAWS).split()}
APART |= {"tooLong": "is_too_long", "oneMore": "one_more_of", "foundAt": "found_of", "met-before": "meets_before"}


def snake(name):
    words = re.sub(r"(?<=[a-z0-9])([A-Z])", lambda m: "_" + m[1].lower(), name)
    return re.sub(r"(?<=[^\W_])-(?=[^\W_])", "_", words)


def turns(name):
    return bool(re.match(r"[a-z]", name)) and snake(name) != name


def read(path):
    with open(path, encoding="utf-8", newline="") as f:
        return f.read()


def shared_files(top):
    """The files whose declarations others can name: specs/ and the lemma files, not the folders of one function's proof."""
    return sorted(glob.glob(f"{top}/crates/*/specs/*.antt") + glob.glob(f"{top}/crates/*/proofs/*.antt"))


def all_files(top):
    for folder in ("specs", "proofs", "src"):
        found = glob.glob(f"{top}/crates/*/{folder}/**/*", recursive=True)
        yield from sorted(p for p in found if p.endswith((".antt", ".rt")))


def crates_of(top):
    return set(os.listdir(os.path.join(top, "crates")))


def declared(text):
    return {m[3] for m in DECLARED.finditer(text)}


def imports(text, crates):
    """What a file imports: names of this repository, names of libraries, and the names by which it calls whole modules of the repository."""
    own, other, modules = set(), set(), set()
    for m in USE.finditer(text):
        path, names, alias = m[1], m[2], m[3]
        steps = path.split(".")
        ours = steps[0] == "Rattle" and len(steps) > 1 and steps[1] in crates
        made = steps[-1] in ("Tie", "TheVariants", "Statement") or "proofs" in steps and steps[-1] in ("Goals", "Given")
        if alias and ours and not made:
            modules.add(alias)
        for name in (names or steps[-1]).split(","):
            name = name.strip().split(" as ")[-1].strip()
            (own if ours and not made else other).add(name)
    return own, other, modules


def plan(top):
    """Each name that the repository declares with the files that do, and old name to new for those that turn."""
    names = collections.defaultdict(set)
    for path in shared_files(top):
        for name in declared(read(path)):
            names[name].add(path)
    return names, {n: APART.get(n) or snake(n) for n in names if n in APART or turns(n)}


def fields_of(top):
    found = set()
    for path in shared_files(top):
        for block in RECORD.finditer(read(path)):
            found |= {m[3] for m in DECLARED.finditer(block[2])}
    return found


def respelled(text, turned, fields, crates, declares):
    own, other, modules = imports(text, crates)
    mine = declared(text) if declares else set()
    known = mine | (own - other)
    tokens = [m[0] for m in TOKEN.finditer(text)]

    def near(i, step):
        i += step
        while 0 <= i < len(tokens) and tokens[i].isspace():
            i += step
        return tokens[i] if 0 <= i < len(tokens) else ""

    out = []
    for i, t in enumerate(tokens):
        if t in turned:
            behind_dot = i > 1 and tokens[i - 1] == "."
            head = tokens[i - 2] if behind_dot else ""
            if behind_dot:
                whole = bool(re.match(r"[A-Z]", head)) or head in modules
                turn = head not in MADE and (t in fields or whole)
            else:
                label = t in fields and near(i, 1) == "=" and near(i, -1) in ("{", ";")
                turn = t in known or label
            t = turned[t] if turn else t
        elif t.startswith("--"):
            t = re.sub(r"[a-z]+[A-Z]\w*", lambda m: turned[m[0]] if m[0] in known and m[0] in turned else m[0], t)
        out.append(t)
    return "".join(out)


def main(argv):
    rest = [a for a in argv if not a.startswith("--")]
    top = rest[0] if rest else "."
    crates = crates_of(top)
    names, turned = plan(top)
    if "--list" in argv:
        print("\n".join(f"{n}\t{turned[n]}" for n in sorted(turned)))
        return 0
    fields = fields_of(top)
    for path in all_files(top):
        text = read(path)
        new = respelled(text, turned, fields, crates, path.endswith(".antt") and os.path.basename(os.path.dirname(path)) in ("specs", "proofs"))
        if new != text:
            with open(path, "w", encoding="utf-8", newline="") as f:
                f.write(new)
    return 0


if __name__ == "__main__":
    raise SystemExit(main(sys.argv[1:]))
