#!/usr/bin/env python3
"""Counts the places of docs/DESIGN-PASS.md in crates/*/src, of the work tree or of a commit:

    tools/places.py [COMMIT] [--list POINT]

With --list it prints each place of a point. What a pattern finds is a place to look at, not a fault."""
import re
import subprocess
import sys


def sources(commit):
    """The text of each source file, by its path."""
    if commit:
        names = subprocess.run(
            ["git", "ls-tree", "-r", "--name-only", commit, "crates"],
            stdout=subprocess.PIPE, text=True, check=True).stdout.split()
        names = [n for n in names if re.fullmatch(r"crates/\w+/src/\w+\.rt", n)]
        read = lambda n: subprocess.run(
            ["git", "show", f"{commit}:{n}"], stdout=subprocess.PIPE, text=True, check=True).stdout
    else:
        names = subprocess.run(
            ["git", "ls-files", "crates/*/src/*.rt"], stdout=subprocess.PIPE, text=True, check=True).stdout.split()
        read = lambda n: open(n).read()
    return {n: read(n) for n in sorted(names)}


def lines(files, pattern, comments=False):
    """The lines with a pattern, as path:number:text."""
    found = []
    for name, text in files.items():
        for k, line in enumerate(text.split("\n"), 1):
            if line.lstrip().startswith("//") and not comments or line.startswith("ghost use"):
                continue
            if re.search(pattern, line):
                found.append(f"{name}:{k}:{line.strip()}")
    return found


HEAD = re.compile(r"^(?:pub(?:\(crate\))? )?(?:extern \"C\" )?fn (\w+)[^(]*\(", re.M)


def heads(files):
    """Each function: path, name, its parameters, its clauses."""
    for name, text in files.items():
        for m in HEAD.finditer(text):
            depth, at = 1, m.end()
            while depth:
                depth += {"(": 1, ")": -1}.get(text[at], 0)
                at += 1
            end = re.compile(r"^\{|\{$", re.M).search(text, at)
            inside = text[m.end():at - 1]
            parameters = [p.strip() for p in re.split(r",(?![^\[(<]*[\])>])", inside) if p.strip()]
            clauses = re.findall(r"^    requires (?:\w+ )?\{ (.*) \}$", text[at:end.start() if end else at], re.M)
            yield name, m.group(1), parameters, clauses


def enums(files):
    """Enums, other than those of the program's commands and the like, in which one case is what was wanted and the others say why not."""
    found = []
    for name, text in files.items():
        for m in re.finditer(r"^(?:pub(?:\(crate\))? )?enum (\w+) \{\n(.*?)^\}", text, re.M | re.S):
            cases = re.findall(r"^    (\w+)", m.group(2), re.M)
            if {"Refused", "Bad", "Nothing"} & {*cases} and len(cases) <= 3:
                found.append(f"{name}:{m.group(1)}: {' '.join(cases)}")
    return found


NONE = r"\b(?:0|16) (?:for none|if there is none|where there is none|if none|if it is none|where no\b|for no\b|where a number is too big)"


def counts(files):
    many = [f"{n}:{f}: {len(p)} parameters" for n, f, p, c in heads(files) if len(p) > 7]
    alike = {}
    for n, f, p, c in heads(files):
        for clause in c:
            alike.setdefault(re.sub(r"\.(now|old|new|entry)\b", "", clause), []).append(f"{n}:{f}")
    shared = [f"{len(v)} functions: {k}" for k, v in alike.items() if len(v) > 2]
    runs = [f"{n}:{f}" for n, f, p, c in heads(files)
            if any(re.match(r"out: &mut \[u8", x) for x in p) and any(x == "at: usize" for x in p)]
    return {
        "1a answers as enums of their own": enums(files),
        "1b a number that stands for none": lines(files, NONE, comments=True),
        "1c numbers for kinds, buses, refusals, statuses": lines(
            files, r"\b(?:kind|bus|no|number|status): u8\b|^(?:pub )?const (?:ACCEPTED|REFUSED|FAILED|UNWRITTEN): u8|-> u8$|\bk: usize\)|const [A-Z_]+: usize = \d+;$"),
        "3 loops by while": lines(files, r"^\s*(?:while|loop)\b"),
        "4 the larger, the lesser, one more, by hand": lines(
            files, r"^(?:pub(?:\(crate\))? )?fn (?:larger|smaller|less|fit|shorter|end_of|one_more|next_line|index_of|gateways_of|masters_of|walks_of|is_number|number_of|shifted|wide|narrow|clear|copy)\("),
        "5a functions of more than seven parameters": many,
        "5b a fact in the requires of three functions or more": shared,
        "6a a buffer and a place in it": runs,
        "6b runs beside one another": [f"{n}:{f}" for n, f, p, c in heads(files)
                                      if sum(bool(re.search(r"&(?:mut )?\[\w+", x)) for x in p) > 3],
        "7 a switch by a number": lines(files, r"^\s*match (?:number|kind|bus|byte|i % 4|cell)\b"),
    }


def main():
    words = sys.argv[1:]
    listed = words[words.index("--list") + 1] if "--list" in words else None
    commit = words[0] if words and not words[0].startswith("--") else None
    for point, places in counts(sources(commit)).items():
        if listed is None:
            print(f"{len(places):4}  {point}")
        elif point.startswith(listed):
            print("\n".join(places))


if __name__ == "__main__":
    main()
