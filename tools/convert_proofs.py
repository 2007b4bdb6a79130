#!/usr/bin/env python3
"""Turns the proofs of a crate from the old form, one Proof.antt for each function, into Invariants.antt and Answers.antt.

usage: convert_proofs.py [--all] [--walks] [--keep-old FOLDER] CRATE_FOLDER [FUNCTION ..]
       convert_proofs.py --mend CRATE_FOLDER
       convert_proofs.py --copy FOLDER_OF_CRATES

CRATE_FOLDER is a folder of crates/ whose source and specs/ are accepted already. The script asks `rt check --old-names` for the names
that goals and steps had and have, and rewrites proofs/F for each function F (or only for the functions that are named). Old files are
copied to FOLDER/CRATE/F (/tmp/oldproofs by default). An answer that only says `search rules`, `omega arith` or `refl` is left out, since
the check finds such proofs itself; with --all those stay. Nothing is proved here: run `rt check` afterwards. What could not be turned is
marked by a comment that begins with '-- TODO', just above the answer that it stands in. A proof that has no goals but walks the code by
hand is left as it is; with --walks it is taken away (its copy stays), and the check then says what is left to prove.

--mend runs `rt check` on a crate that was turned, and goes by what it says until nothing more is to mend: where a record has no field `1`
it writes the name of that field, and where a tuple is to be a record it writes the record.

--copy writes `#[derive(Clone, Copy)]` in place of `#[derive(Drop)]` on each struct and enum of the crates that holds only numbers, shared
references and other such types, as the old kit copied them without a word.

What is turned:
  * `tie.Need-X`, the goal of an answer, becomes `goal.Y`, and the answer takes Y's name;
  * `c.before.before.f.result` becomes `c.g.result`, where g is the new name of the step f;
  * an invariant or measure, a function of the values one by one, becomes a function of `l`: `l.x`, and `l.initial.x` for what changes;
  * a lemma at a place, `(c : tie.Else2) -> ..`, becomes a lemma over `Else-x`, and an answer passes it `(goal.at.GOAL c).Else-x`;
  * `⊎_elim (λ w. A) (λ w. B) c.if1.branch` becomes `elim c.if-x.branch [ then-x w ↦ A | else-x w ↦ B ]`;
  * numbered clauses (`.requires.1`, `.ensures.0`) become named ones, where the source names them.
"""

import glob
import json
import os
import re
import shutil
import subprocess
import sys
import tempfile

WORD = r"[^\s(){}.;,@\"\[\]\\]+"
TOKEN = re.compile(r"--[^\n]*|\"(?:[^\"\\]|\\.)*\"|" + WORD + r"(?:\." + WORD + r")*")
SIMPLE = re.compile(r"^(\(?\s*(search rules|omega arith|refl|tt|cc|grind arith)\s*\)?[\s,()]*)+$")


def norm(name):
    """The spelling under which an old name is looked up: the old kit wrote its own dashes where this one keeps the source's `_`."""
    return name.replace("_", "-").replace("«", "").replace("»", "")


def read(path):
    with open(path, encoding="utf-8") as it:
        return it.read()


# ---- The contracts of all crates, for the names of clauses and of `&mut` parameters.


def functions_of(folder):
    """For each function of the sources below, by crate and name: the names of its clauses by kind, and its `&mut` parameters."""
    out = {}
    for path in glob.glob(os.path.join(folder, "*", "src", "**", "*.rt"), recursive=True):
        crate = os.path.relpath(path, folder).split(os.sep)[0]
        text = re.sub(r"//[^\n]*", "", read(path))
        for m in re.finditer(r"\bfn\s+(\w+)\s*(?:<[^>]*>)?\s*\(", text):
            at, depth = m.end(), 1
            while depth:
                depth += {"(": 1, ")": -1}.get(text[at], 0)
                at += 1
            params = text[m.end() : at - 1]
            changed = [p.group(1) for p in re.finditer(r"(\w+)\s*:\s*&(?:'\w+\s+)?mut\b", params)]
            if re.match(r"\s*&(?:'\w+\s+)?mut\s+self", params):
                changed.insert(0, "self")
            clauses = {"requires": [], "ensures": []}
            # The clauses stand between the parameters and the body, each in braces of its own.
            rest = at
            while True:
                c = re.compile(r"[^{}]*?\b(requires|ensures)\s*(\w*)\s*\{").match(text, rest)
                if not c:
                    break
                clauses[c.group(1)].append(c.group(2))
                rest, depth = c.end(), 1
                while depth:
                    depth += {"{": 1, "}": -1}.get(text[rest], 0)
                    rest += 1
            out[crate + "::" + m.group(1)] = out[m.group(1)] = (clauses, changed)
    return out


# ---- One function's names.


class Names:
    def __init__(self, listed, functions, crate, function):
        self.functions, self.crate, self.function = functions, crate, function
        self.places = listed["places"]
        self.new_places = listed["places_by_name"]
        self.arms = listed["arms"]
        self.typed = listed["typed"]
        self.at = {norm(p[0]): i for i, p in enumerate(self.places)}
        self.needs = {norm(old): new for old, new in listed["needs"]}
        self.asked = {norm(old[0]): at[0] for old, at in zip(listed["needs"], listed["asked_at"])}
        self.loops = {norm(old): (new, vs, changed) for ((old, new), vs), changed in zip(listed["loops"], listed["changed"])}

    def need(self, old):
        """The old goal's name as the list has it: the old files write `overflow-` before some."""
        old = norm(old)
        for it in (old, re.sub(r"^(overflow|nonzero)-", "", old)):
            if it in self.needs:
                return it
        return None

    def parent(self, i):
        of = self.places[i][1]
        return None if of is None else self.at[norm(of)]

    def chain(self, i):
        while i is not None:
            yield i
            i = self.parent(i)

    def step(self, i, old):
        """The place on the way to place i whose step has this old name."""
        for j in self.chain(i):
            if self.places[j][2][0] and norm(self.places[j][2][0]).lower() == norm(old).lower():
                return j
        return None


def clause_at(names, fields):
    """Which clause `.0`, `.1.0`, `.1.1` .. is, and what follows: three clauses and more stood as pairs within pairs."""
    n, k = len(names), 0
    if n < 2 or not fields or not fields[0].isdigit():
        return None
    if n > 2 and len(fields) > 1 and fields[0] == "1" and fields[1] in ("0", "1"):
        while k < n - 1 and k < len(fields) and fields[k] == "1":
            k += 1
        if k == n - 1:
            return names[k], fields[k:]
        if k < len(fields) and fields[k] == "0":
            return names[k], fields[k + 1 :]
        return None
    i = int(fields[0])
    return (names[i], fields[1:]) if i < n else None


def by_clause(functions, key, kind, fields):
    """Turns the numbers after `.requires` or `.ensures` into the names of clauses, where there are several and all have names."""
    of = functions.get(key)
    names = of[0][kind] if of else []
    found = clause_at(names, fields) if names and all(names) else None
    return [found[0], *found[1]] if found else fields


def by_param(of, fields):
    """Turns the place in a list of pairs (`1.1.0`) into a name."""
    k = 0
    while k < len(fields) and fields[k] == "1":
        k += 1
    end = fields[k + 1 :] if k < len(fields) and fields[k] == "0" else fields[k:]
    if k < len(of):
        return [of[k], *end]
    return None


# ---- One file.


def items_of(text):
    """The head comment, the `use` lines, and the items, each with the comment above it."""
    lines = text.split("\n")
    head, uses, items = [], [], []
    i = 0
    while i < len(lines) and lines[i].startswith("--"):
        head.append(lines[i])
        i += 1
    pending = []
    while i < len(lines):
        line = lines[i]
        if line.startswith("use "):
            while line.count("{") > line.count("}"):
                i += 1
                line += " " + lines[i].strip()
            uses.append(line)
            i += 1
            continue
        if not line.strip():
            i += 1
            continue
        if line.startswith("--"):
            pending.append(line)
            i += 1
            continue
        m = re.match(r"((?:abbrev|unfoldable|pub|opaque)\s+)*(" + WORD + r")\s*:(\s|$)", line)
        starts = m or re.match(r"(data|record|module|ruleset|infix\w*)\s", line) or not items
        if starts:
            items.append([pending, m.group(2) if m else None, [line]])
        else:
            items[-1][2] += [*pending, line]
        pending = []
        i += 1
        while i < len(lines) and (lines[i][:1] in (" ", "\t") or not lines[i].strip()):
            if lines[i].strip():
                items[-1][2].append(lines[i])
            elif i + 1 < len(lines) and lines[i + 1][:1] == " ":
                items[-1][2].append(lines[i])
            i += 1
    if pending:
        items.append([pending, None, []])
    return head, uses, [(c, n, "\n".join(b)) for c, n, b in items]


def type_of(body):
    """What stands between the first `:` and the line of the first equation."""
    m = re.search(r":\s*(.*?)(?=\n\S|\Z)", body, re.S)
    return m.group(1).strip() if m else ""


class Turned:
    """Turns one item whose record `c` is at a known place."""

    def __init__(self, names, goal):
        self.names, self.goal = names, goal
        self.env, self.elsewhere, self.todo = {}, set(), []

    def place_word(self, i):
        self.elsewhere.add(self.names.new_places[i])
        return self.names.new_places[i]

    def path(self, i, fields):
        """The new path for old fields read at place i."""
        n = self.names
        first, rest = fields[0], fields[1:]
        own = n.crate + "::" + n.function
        if first == "requires":
            return ["requires", *by_clause(n.functions, own, "requires", rest)]
        if first in ("args", "well_formed", "ranges", "lifetimes"):
            return fields
        # An arm of a match may have another name for what it says.
        for j in n.chain(i):
            arm = n.arms[j]
            for new, old, path in arm[2] if arm else []:
                if norm(old) == norm(first) and path and [norm(it) for it in rest[: len(path)]] == [norm(it) for it in path]:
                    return [arm[0], new, *rest[len(path) :]]
        j = n.step(i, first)
        if j is None:
            self.todo.append("no step `%s` is known on the way there" % first)
            return fields
        new, callee, labels = n.places[j][2][1], n.places[j][3], n.places[j][4]
        if n.arms[j]:
            new = n.arms[j][0]
        if rest and rest[0] == "given":
            for var, step in n.typed[j]:
                if norm(step) == norm(first):
                    return ["type_inv", var, *rest[1:]]
            self.todo.append("what `%s.%s` says is now in a field with a name of its own" % (first, ".".join(rest)))
        if rest and rest[0] in ("ensures",) and callee:
            rest = ["ensures", *by_clause(n.functions, callee, "ensures", rest[1:])]
        if rest and rest[0] in ("new", "auto") and callee and n.functions.get(callee):
            named = by_param(n.functions[callee][1], rest[1:])
            if named:
                rest = [rest[0], *named]
        olds = {norm(a): b for a, b in labels if isinstance(a, str)}
        return [new, *[olds.get(norm(it), it) for it in rest]]

    def expression(self, token, alone_is_alias):
        """A token that begins with a known record, turned."""
        parts = token.split(".")
        base, rest = parts[0], parts[1:]
        i = self.env[base]
        while rest and rest[0] == "before":
            up = self.names.parent(i)
            if up is None:
                self.todo.append("`%s` goes further back than the code does" % token)
                return token, i
            i, rest = up, rest[1:]
        if rest:
            return ".".join([base, *self.path(i, rest)]), None
        if alone_is_alias:
            return base, i
        word = self.place_word(i)
        if self.goal:
            return "(goal.at.%s %s).%s" % (self.goal, base, word), i
        if i == self.env[base]:
            return base, i
        self.todo.append("a lemma needs the record `%s` out of `%s`" % (word, base))
        return "%s.%s" % (base, word), i

    def text(self, text):
        out, last = [], 0
        for m in TOKEN.finditer(text):
            token = m.group(0)
            base = token.split(".")[0]
            if token.startswith(("--", '"')) or base not in self.env:
                continue
            before = text[: m.start()]
            bound = re.search(r"let\s+(" + WORD + r")\s*=\s*$", before)
            after = re.match(r"\s+in\b", text[m.end() :])
            # A variable that is bound anew, as in `λ c.`, is not the record.
            if re.search(r"λ[^.()]*$", before) or text[m.end() : m.end() + 2] == " :":
                continue
            if re.match(r"\s*(" + WORD + r"\s+)*=(\s|$)", text[m.end() :]) and "\n" in before[-len(before) :] and not before.split("\n")[-1].startswith(" "):
                continue
            new, place = self.expression(token, bool(bound and after))
            if bound and after and place is not None:
                self.env[bound.group(1)] = place
            out += [text[last : m.start()], new]
            last = m.end()
        return "".join(out) + text[last:]


def balanced(text, at):
    depth, i = 0, at
    while i < len(text):
        depth += {"(": 1, ")": -1}.get(text[i], 0)
        i += 1
        if depth == 0:
            return i
    return i


def branches(text, used):
    """`⊎_elim (λ w. A) (λ w. B) c.if-x.branch`, on a step that has its new name, as an `elim` by name."""
    at = 0
    while True:
        at = text.find("⊎_elim (λ ", at)
        if at < 0:
            return text
        a = text.index("(", at)
        b = balanced(text, a)
        m = re.compile(r"\s*\(λ ").match(text, b)
        if m:
            b2 = text.index("(", b)
            e = balanced(text, b2)
            p = re.compile(r"\s*(" + WORD + r")\.((?:if|match)[^\s.]*)\.branch").match(text, e)
            one = re.match(r"\(λ (" + WORD + r")\.\s*(.*)\)$", text[a:b], re.S)
            two = re.match(r"\(λ (" + WORD + r")\.\s*(.*)\)$", text[b2:e], re.S)
            if p and one and two and p.group(2).startswith("if-"):
                of = p.group(2)[3:]
                used |= {"then-" + of, "else-" + of}
                made = "elim %s.%s.branch [ then-%s %s ↦ %s | else-%s %s ↦ %s ]" % (p.group(1), p.group(2), of, one.group(1), one.group(2), of, two.group(1), two.group(2))
                text = text[:at] + made + text[p.end() :]
        at += 1


def used_imports(uses, body, own):
    """The old `use` lines, without the names that the body does not have."""
    words = set(re.findall(WORD, body)) | set(re.findall(r"[^\s(){}.;,\[\]]+", body))
    for m in re.finditer(WORD, body):
        words.add(m.group(0).strip("«»"))
    out = []
    for line in uses:
        m = re.match(r"use (\S+?)\.\{(.*)\}$", line.strip())
        if not m:
            if re.search(r"\.(Statement|Tie)\b", line):
                continue
            m2 = re.match(r"use (\S+) as (\S+)$", line.strip())
            name = m2.group(2) if m2 else line.split(".")[-1].strip()
            if re.search(r"(?<![\w.])" + re.escape(name) + r"\.", body):
                out.append(line)
            continue
        if re.search(r"\.(Statement|Tie)$", m.group(1)) and own in m.group(1):
            continue
        keep = []
        for it in m.group(2).split(","):
            it = it.strip()
            name = it.split(" as ")[-1].strip()
            bits = [b for b in name.split("◌") if b] if "◌" in name else [name]
            if name == "Dec" or (name in ("[]", "⊥", "⊤") and name in body) or all(b in words or ("◌" in name and b in body) for b in bits):
                keep.append(it)
        if keep:
            out.append("use %s.{%s}" % (m.group(1), ", ".join(keep)))
    return out


def substitute(text, names):
    """Puts paths for variables, but not for a word after a dot or for one that is bound in the text again."""
    bound = set()
    for m in re.finditer(r"λ\s+([^.]*?)\.(?=\s)", text):
        bound |= set(re.findall(WORD, m.group(1)))
    for m in re.finditer(r"\(((?:" + WORD + r"\s+)+):\s", text):
        bound |= set(m.group(1).split())
    clash = {it for it in bound if it in names}

    def one(m):
        parts = m.group(0).split(".")
        if m.group(0).startswith(("--", '"')) or parts[0] not in names or parts[0] in clash:
            return m.group(0)
        return ".".join([names[parts[0]], *parts[1:]])

    return TOKEN.sub(one, text), clash


def turn(text, names, crate, function, keep_all):
    module = "Rattle.%s.proofs.%s" % (crate, function)
    head, uses, items = items_of(text)
    invariants, answers, kinds = [], [], []
    for comment, name, body in items:
        of = type_of(body)
        m = re.match(r"tie\.((invariant|decreases)[-\w]*)", of)
        need = re.match(r"tie\.Need-(" + WORD + r")", of)
        if re.search(r"=\s*tie\.close\b|statement M\b", body):
            continue
        if m:
            invariants.append((comment, name, body, m.group(1)))
        elif need:
            kinds.append(("answer", comment, name, body, need.group(1)))
        else:
            kinds.append(("lemma", comment, name, body, None))
    loop_words = {it[1] for it in invariants}
    strip_loops = lambda t: re.sub(r"(tie\." + WORD + r")((?:\s+(?:" + "|".join(map(re.escape, loop_words or {"-"})) + r"))+)", r"\1", t)

    made_invariants = []
    for comment, name, body, old in invariants:
        kind, _, loop = old.partition("-")
        found = names.loops.get(norm(loop))
        if not found:
            made_invariants.append("-- TODO: no loop `%s` is known; the old text:\n%s" % (loop, "\n".join("-- " + it for it in body.split("\n"))))
            continue
        new, vs, changed = found
        eq = re.search(r"^" + re.escape(name) + r"((?:[ \t]+[^\s=:]+)*)[ \t]+=(.*)\Z", body, re.S | re.M)
        binders = eq.group(1).split()
        paths = ["l.initial." + v if ch else "l." + v for v, ch in zip(vs, changed)] + ["l." + v for v, ch in zip(vs, changed) if ch]
        todo = ""
        if len(binders) != len(paths):
            todo = "-- TODO: the old invariant has %d variables, and %d are known: %s\n" % (len(binders), len(paths), " ".join(paths))
        right, clash = substitute(eq.group(2), {b: p for b, p in zip(binders, paths) if b != "_"})
        if clash:
            todo += "-- TODO: bound again below, so not turned: %s\n" % ", ".join(sorted(clash))
        unfolding = "".join(it + "\n" for it in body.split("\n") if it.startswith("unfolding"))
        label = "%s-%s" % (kind, new)
        made_invariants.append("%s%sabbrev pub %s : goal.%s\n%s%s l =%s" % ("".join(c + "\n" for c in comment), todo, label, label, unfolding, label, right))

    local = {n: names.needs[names.need(need)] for k, _, n, _, need in kinds if k == "answer" and names.need(need)}
    bodies = "\n".join(it[3] for it in kinds)
    made, used_places, used_cases = [], set(), set()
    for kind, comment, name, body, need in kinds:
        body = strip_loops(body)
        todo = []
        if kind == "answer":
            goal = names.needs.get(names.need(need))
            if goal is None:
                print("    %s: the goal `%s` is not asked any more" % (function, need))
                continue
            eq = re.search(r"^" + re.escape(name) + r"((?:[ \t]+[^\s=:]+)*)[ \t]+=(.*)\Z", body, re.S | re.M)
            uses_elsewhere = len(re.findall(r"(?<![^\s(),])" + re.escape(name) + r"(?![^\s(),])", bodies)) > 2
            opens = re.search(r"^unfolding ", body, re.M)
            if not keep_all and SIMPLE.match(eq.group(2).strip()) and not uses_elsewhere and not opens:
                continue
            binders = eq.group(1).split()
            work = Turned(names, goal)
            at = names.at.get(norm(names.asked[names.need(need)]))
            if binders and at is not None:
                work.env[binders[0]] = at
            unfolding = "".join(it + "\n" for it in body.split("\n") if it.startswith("unfolding"))
            right = work.text(eq.group(2))
            left = [binders[0] if binders else "c"]
            text_of = "pub %s : goal.%s\n%s%s %s =%s" % (goal, goal, unfolding, goal, " ".join(left), right)
            if len(binders) > 1 and re.search(r"(?<![\w.])" + re.escape(binders[1]) + r"(?!\w)", right):
                work.todo.append("`%s` is no argument now" % binders[1])
        else:
            work = Turned(names, None)
            for m in re.finditer(r"\((" + WORD + r")\s*:\s*tie\.(" + WORD + r")\)", body):
                at = names.at.get(norm(m.group(2)))
                if at is None:
                    work.todo.append("no place `%s` is known" % m.group(2))
                    continue
                work.env[m.group(1)] = at
            # The name that the equation gives the record may be another.
            order = [names.at.get(norm(m)) for m in re.findall(r"\(" + WORD + r"\s*:\s*tie\.(" + WORD + r")\)", body)]
            eq = re.search(r"^" + re.escape(name or "-") + r"((?:[ \t]+[^\s=:]+)+)[ \t]+=", body, re.M)
            if order and eq and order[0] is not None:
                work.env.setdefault(eq.group(1).split()[0], order[0])

            def place(m):
                at = names.at.get(norm(m.group(1)))
                return "tie." + m.group(1) if at is None else work.place_word(at)

            text_of = re.sub(r"tie\.(" + WORD + r")", place, work.text(body))
        text_of = branches(text_of, used_cases)
        todo = sorted(set(work.todo))
        # Answers that others cite by their old name.
        for old, new in local.items():
            if old != new and kind == "lemma" and False:
                text_of = text_of.replace(old, new)
        used_places |= work.elsewhere
        made.append("".join(c + "\n" for c in comment) + "".join("-- TODO: %s\n" % t for t in todo) + text_of)

    head = [re.sub(r"\s*Assumes nothing\.$", "", it) for it in head]
    head = [it for it in head if it.strip("- ")]
    out = {}
    own = module + "."
    if made_invariants:
        body = "\n\n".join(made_invariants)
        # A lemma of the file that the invariant names goes to the head of Invariants.antt; Answers.antt imports it from there.
        lines = used_imports(uses, body, own) + ["use %s.Given as goal" % module]
        out["Invariants.antt"] = "\n".join(head + lines) + "\n\n" + body + "\n"
    if made:
        body = "\n\n".join(made)
        lines = used_imports(uses, body, own) + ["use %s.Goals as goal" % module]
        more = sorted({p for p in used_places if re.search(r":\s*" + re.escape(p) + r"[\s)]", body)} | used_cases)
        if more:
            lines.append("use %s.Goals.{%s}" % (module, ", ".join(more)))
        out["Answers.antt"] = "\n".join(([] if made_invariants else head) + lines) + "\n\n" + body + "\n"
    return out


def add_tactic(crate_folder):
    """Writes `#![tactic(auto)]` below the head comment of the crate's root file, where it is not there."""
    for name in ("lib.rt", "main.rt"):
        path = os.path.join(crate_folder, "src", name)
        if not os.path.exists(path):
            continue
        text = read(path)
        if "#![tactic" in text:
            continue
        lines = text.split("\n")
        i = 0
        while i < len(lines) and (lines[i].startswith("//") or lines[i].startswith("#!")):
            i += 1
        lines[i:i] = ["#![tactic(auto)]"] + ([""] if i < len(lines) and lines[i].strip() else [])
        with open(path, "w", encoding="utf-8") as it:
            it.write("\n".join(lines))


NO_FIELD = re.compile(
    r"^(\./\S+?\.antt):(\d+):(\d+): error: [^\n]*(?:\n  [^\n]*)?has no field `(\d+)`[^\n`]*\n?[^\n`]*(?:the fields? that can be named here (?:are|is)|its fields? (?:are|is)) ([^\n]*)",
    re.M,
)
WHOLE = re.compile(r"^help: `(\S+)` asks a record with a field for each clause or ghost field. .* replace this answer with answers named ([^;\n]*);", re.M)
UNEQUAL = re.compile(r"^(\./\S+?\.antt):(\d+):(\d+): error: `(\S+?)`: (?=(?:[^\n]*\n)(?:  [^\n]*\n)*  expected type `\S*\.Asks-)", re.M)
FURTHER_IN = re.compile(r"^(\./\S+?\.antt):(\d+):(\d+): error: [^\n]*\n?[^\n]*A record further in has one: write `\.(\S+)` in place of `\.(\S+)`", re.M)
NO_TUPLE = re.compile(r"^(\./\S+?\.antt):(\d+):(\d+): error: [^\n]*a value of [^\n]*\n\s+is built with `record \{ ([^}]*) \}`, not as a tuple", re.M)


def parts_of(text, at):
    """The parts of the tuple whose parenthesis stands at a place, and where it ends."""
    depth, parts, start, i = 0, [], at + 1, at
    while i < len(text):
        if text[i] in "([{":
            depth += 1
        elif text[i] in ")]}":
            depth -= 1
            if depth == 0:
                break
        elif text[i] == "," and depth == 1:
            parts.append(text[start:i])
            start = i + 1
        i += 1
    last = text[start:i]
    return [it.strip() for it in [*parts, *([last] if last.strip() else [])]], i + 1


def mended(text, at, kind, found):
    """The text with one place mended, or None."""
    at += text[at : at + 1] == "."
    if kind == "further":
        new, old = found
        return text[:at] + new + text[at + len(old) :] if text.startswith(old, at) else None
    if kind == "wrap":
        # The rest of the answer is one term for all clauses: its parts are the clauses.
        end = re.compile(r"\n(?=\S)|\Z").search(text, at).start()
        while text[at:end].endswith("\n"):
            end -= 1
        n = len(found)
        parts = ["r." + ("1." * k + "0" if k < n - 1 else ".".join(["1"] * k)) for k in range(n)] if n > 2 else ["r.0", "r.1"]
        made = "let r = %s in record { %s }" % (text[at:end].strip(), "; ".join("%s = %s" % it for it in zip(found, parts)))
        return text[:at] + made + text[end:]
    if kind == "field":
        digit, fields = found
        names = re.findall(r"`([^`]*)`", fields)
        number = re.compile(r"\d+").match(text, at)
        if not number or number.group(0) != digit:
            return None
        # After `new` and `auto` a number is a place in a list of pairs: 0, 1.0, 1.1.0 ..
        listed = re.search(r"\.(new|auto)\.$", text[:at])
        pairs = re.compile(r"((?:1\.)*)0").match(text, at)
        nested = re.compile(r"\d+(?:\.\d+)*").match(text, at).group(0).split(".")
        if not listed and len(names) > 2 and clause_at(names, nested):
            name, rest = clause_at(names, nested)
            return text[:at] + ".".join([name, *rest]) + text[at + len(".".join(nested)) :]
        index, end = int(digit), number.end()
        if listed and pairs:
            index, end = pairs.group(1).count("1"), pairs.end()
        return text[:at] + names[index] + text[end:] if index < len(names) else None
    names = re.findall(r"(\S+) = …", found[0])
    if text[at : at + 1] != "(":
        return None
    parts, end = parts_of(text, at)
    while len(parts) < len(names) and parts and parts[-1].startswith("(") and parts_of(parts[-1], 0)[1] == len(parts[-1]):
        parts = [*parts[:-1], *parts_of(parts[-1], 0)[0]]
    if len(parts) < len(names) or not names:
        return None
    parts = [*parts[: len(names) - 1], ", ".join(parts[len(names) - 1 :])] if len(parts) == len(names) else [*parts[: len(names) - 1], "(" + ", ".join(parts[len(names) - 1 :]) + ")"]
    # What stands after a dot, as `(..).1`, is no record that is built here.
    if text[end : end + 1] == ".":
        return None
    line = text[text.rfind("\n", 0, at) + 1 : at]
    pad = " " * (len(line) - len(line.lstrip(" ")) + 2)
    made = "record {\n" + "".join("%s%s = %s;\n" % (pad, n, it) for n, it in zip(names, parts)) + pad[2:] + "}"
    if not pad[2:]:
        made = made[:-1] + "  }"
    return text[:at] + made + text[end:]


def mend(folder):
    """Puts a field's name for its number, and a record for a tuple, as the check names the fields."""
    wrapped = set()
    for _ in range(15):
        said = subprocess.run(["rt", "check", "--allow-holes"], cwd=folder, capture_output=True, text=True)
        said = said.stdout + said.stderr
        found = {(*m.groups()[:3], "field", m.groups()[3:]) for m in NO_FIELD.finditer(said)}
        found |= {(*m.groups()[:3], "further", m.groups()[3:]) for m in FURTHER_IN.finditer(said)}
        found |= {(*m.groups()[:3], "tuple", m.groups()[3:]) for m in NO_TUPLE.finditer(said)}
        whole = {m.group(1): [it.strip(" `")[len(m.group(1)) + len("-clause-") :] for it in m.group(2).split(",")] for m in WHOLE.finditer(said)}
        for m in UNEQUAL.finditer(said):
            if m.group(4) in whole and (m.group(1), m.group(4)) not in wrapped:
                wrapped.add((m.group(1), m.group(4)))
                found.add((*m.groups()[:3], "wrap", tuple(whole[m.group(4)])))
        done = 0
        # From the last place of a file to the first, so that a mend moves no place that is still to come.
        for path, line, column, kind, rest in sorted(found, key=lambda it: (it[0], -int(it[1]), -int(it[2]))):
            at = os.path.join(folder, path)
            if "proofs/" not in path or not path.endswith(("/Answers.antt", "/Invariants.antt")):
                continue
            text = read(at)
            lines = text.split("\n")
            place = sum(len(it) + 1 for it in lines[: int(line) - 1]) + int(column) - 1
            new = mended(text, place, kind, rest)
            if new is None or new == text:
                continue
            with open(at, "w", encoding="utf-8") as it:
                it.write(new)
            done += 1
        if not done:
            break
        print("mended %d places" % done)


def derive_copy(folder):
    """Writes `#[derive(Clone, Copy)]` for `#[derive(Drop)]` on each struct and enum that holds only numbers, shared references and the like."""
    types, plain = {}, set("u8 u16 u32 u64 u128 usize i8 i16 i32 i64 i128 isize bool char".split())
    declared = re.compile(r"#\[derive\(Drop\)\]\n(pub )?(struct|enum) (\w+)(<[^>]*>)?\s*([({][^;]*?(?:\);|\n\}))", re.S)
    for path in glob.glob(os.path.join(folder, "*", "src", "**", "*.rt"), recursive=True):
        for m in declared.finditer(read(path)):
            body = re.sub(r"//[^\n]*|\bghost [^\n]*", "", m.group(5))
            types[m.group(3)] = (path, m, re.sub(r"\b\w+\s*:(?!:)", "", body) if m.group(2) == "struct" else body)
    copied, changed = set(), True
    while changed:
        changed = False
        for name, (path, m, body) in types.items():
            if name in copied or "&mut" in body or re.search(r"&'\w+ mut", body):
                continue
            if m.group(2) == "enum":
                inner = " ".join(re.findall(r"\(([^)]*)\)|\{([^}]*)\}", body[1:-1]) and [" ".join(it) for it in re.findall(r"\(([^)]*)\)|\{([^}]*)\}", body[1:-1])] or [])
                inner = re.sub(r"\b\w+\s*:(?!:)", "", inner)
            else:
                inner = re.sub(r"\bpub\b(\([^)]*\))?", "", body)
            inner = re.sub(r"&(?:'\w+\s+)?", "", inner)
            words = set(re.findall(r"(?<!')\b[A-Za-z_]\w*\b", re.sub(r";\s*\w+\]", "]", re.sub(r"'\w+", "", inner)))) - {"str"}
            if all(it in plain or it in copied for it in words):
                copied.add(name)
                changed = True
    for path in {types[it][0] for it in copied}:
        text = read(path)
        new = declared.sub(lambda m: m.group(0).replace("#[derive(Drop)]", "#[derive(Clone, Copy)]", 1) if m.group(3) in copied else m.group(0), text)
        with open(path, "w", encoding="utf-8") as it:
            it.write(new)
        print("Clone, Copy: %s: %s" % (path, ", ".join(sorted(it for it in copied if types[it][0] == path))))


def main():
    args = sys.argv[1:]
    if args[:1] == ["--copy"]:
        derive_copy(os.path.abspath(args[1]))
        return
    if args[:1] == ["--mend"]:
        mend(os.path.abspath(args[1]))
        return
    keep_all, walks = "--all" in args, "--walks" in args
    args = [it for it in args if it not in ("--all", "--walks")]
    keep_old = "/tmp/oldproofs"
    if "--keep-old" in args:
        at = args.index("--keep-old")
        keep_old = args[at + 1]
        del args[at : at + 2]
    if not args:
        sys.exit(__doc__)
    folder = os.path.abspath(args[0])
    crate, only = os.path.basename(folder), set(args[1:])
    add_tactic(folder)
    functions = functions_of(os.path.dirname(folder))
    listed = tempfile.mkdtemp()
    said = subprocess.run(["rt", "check", "--generated", listed, "--old-names"], cwd=folder, capture_output=True, text=True)
    path = os.path.join(listed, "names.json")
    if not os.path.exists(path):
        sys.exit("rt check gave no names:\n" + said.stdout + said.stderr)
    names = {k: v for k, v in json.loads(read(path)).items() if ".Lts" in k}
    for proof in sorted(glob.glob(os.path.join(folder, "proofs", "**", "Proof.antt"), recursive=True)):
        inner = os.path.relpath(os.path.dirname(proof), os.path.join(folder, "proofs"))
        function = inner.replace(os.sep, ".")
        if only and function not in only:
            continue
        key = "Rattle-%s-proofs.%s.Lts" % (crate, function)
        text = read(proof)
        if "Tie as tie" not in text and walks:
            os.makedirs(os.path.join(keep_old, crate, inner), exist_ok=True)
            shutil.move(proof, os.path.join(keep_old, crate, inner, "Proof.antt"))
            if not os.listdir(os.path.dirname(proof)):
                os.rmdir(os.path.dirname(proof))
            print("%s: the walk by hand is taken away" % function)
            continue
        if key not in names or "Tie as tie" not in text:
            print("left as it is: %s (%s)" % (proof, "no names" if key not in names else "no `tie`"))
            continue
        kept = os.path.join(keep_old, crate, inner)
        os.makedirs(kept, exist_ok=True)
        shutil.copy(proof, kept)
        out = turn(text, Names(names[key], functions, crate, function.split(".")[-1]), crate, function, keep_all)
        os.remove(proof)
        for name, made in out.items():
            with open(os.path.join(os.path.dirname(proof), name), "w", encoding="utf-8") as it:
                it.write(made)
        if not out:
            os.rmdir(os.path.dirname(proof))
        todo = sum(it.count("-- TODO") for it in out.values())
        print("%s: %s%s" % (function, ", ".join(out) or "no file needed", ", %d to do" % todo if todo else ""))


main()
