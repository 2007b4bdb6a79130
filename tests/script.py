"""Try the script `plan` on a small tree whose kit and program are scripts too: when it builds, what it says meanwhile, and how it ends.

    script.py
"""

import os
import pathlib
import pty
import re
import shutil
import stat
import subprocess
import sys
import tempfile
import time

ROOT = pathlib.Path(__file__).resolve().parent.parent

# A kit whose last check takes a moment, notes that it was asked, and makes a program of two crates.
RT = """#!/bin/sh
home=$(cd "$(dirname "$0")/.." && pwd)
case $1 in
doc) echo "$home/START-HERE.md" ;;
version) cat "$home/KIT-ID" ;;
lib) [ ! -e "$home/broken" ] || { echo "logic=not-proved"; exit 1; } ;;
run)
    echo checked >>"$home/checks"
    sleep 0.4
    mkdir -p out
    cp "$home/program" out/planner
    touch out/planner.stamp
    ;;
esac
"""
# A program that shows its words and its input, and ends as it is told to.
PROGRAM = """#!/bin/sh
echo "words:$*"
cat
case ${SAYS-0} in stopped) kill -9 $$ ;; esac
exit "${SAYS-0}"
"""


def executable(path, text):
    path.parent.mkdir(parents=True, exist_ok=True)
    path.write_text(text)
    path.chmod(path.stat().st_mode | stat.S_IXUSR)


class Tree:
    def __init__(self, folder):
        self.home, self.root = folder / "kit", folder / "a tree"
        executable(self.home / "bin" / "rt", RT)
        executable(self.home / "program", PROGRAM)
        (self.home / "KIT-ID").write_text("kit of the test\n")
        self.root.mkdir()
        shutil.copy(ROOT / "plan", self.root / "plan")
        shutil.copytree(ROOT / "tools", self.root / "tools")
        for name in ("planner_io/src/help.rt", "planner/src/main.rt"):
            (self.root / "crates" / name).parent.mkdir(parents=True)
            shutil.copy(ROOT / "crates" / name, self.root / "crates" / name)
        (self.root / "crates/common").mkdir()
        (self.root / "crates.txt").write_text("common:\nplanner: common io\nother: common\n")
        self.environment = dict(os.environ, PATH="%s:%s" % (self.home / "bin", os.environ["PATH"]))
        self.environment.pop("PLAN_BUILD", None)

    def checks(self):
        asked = self.home / "checks"
        return len(asked.read_text().splitlines()) if asked.exists() else 0

    def start(self, *words, script=None, **more):
        environment = dict(self.environment, **more)
        return subprocess.Popen(
            [script or str(self.root / "plan"), *words], stdin=subprocess.PIPE, stdout=subprocess.PIPE,
            stderr=subprocess.PIPE, env=environment, cwd="/", text=True)

    def run(self, *words, given="", **more):
        started = self.start(*words, **more)
        out, err = started.communicate(given)
        return out, err, started.returncode


def wait_a_tick():
    """So that what follows is newer by any clock of a file system."""
    time.sleep(0.05)


def at_once(tree, many):
    started = [tree.start("a.sheet") for _ in range(many)]
    return [one.communicate("") + (one.returncode,) for one in started]


def on_a_terminal(tree):
    """Called with no word by someone at a terminal."""
    controller, terminal = pty.openpty()
    done = subprocess.run(
        [str(tree.root / "plan")], stdin=terminal, stdout=subprocess.PIPE, stderr=subprocess.PIPE, env=tree.environment,
        text=True, timeout=20, check=False)
    os.close(terminal)
    os.close(controller)
    return done.stdout, done.stderr, done.returncode


def without_a_program(tree):
    out, err, status = tree.run("--help")
    yield "help before a build", (err, status) == ("", 0) and out.startswith("planner: plans") and "--path" in out
    yield "-h", tree.run("-h") == (out, err, status)
    out, err, status = tree.run("--version")
    yield "versions", (err, status) == ("", 0) and out.splitlines()[0].startswith("planner ") and out.endswith("\nkit of the test\n")
    for word in ("--hlep", "-x", "--pat"):
        told = "planner: unknown option %s; planner --help lists them\n" % word
        yield "unknown " + word, tree.run(word) == ("", told, 2)
    told = "planner: unknown option -\\x1b[2J\\x5c; planner --help lists them\n"
    yield "an unknown word is shown", tree.run("a.sheet", "-\x1b[2J\\") == ("", told, 2)
    out, err, status = on_a_terminal(tree)
    yield "no word on a terminal", (out, status) == ("", 2) and "planner SHEET" in err and "samples/pnet-two-masters.csv" in err
    out, err, status = tree.run("a.sheet", PLAN_BUILD="never")
    yield "no program and no build", (out, status) == ("", 2) and err.startswith("plan: ")
    with open("/dev/full", "w") as full:
        done = subprocess.run([str(tree.root / "plan"), "--help"], stdout=full, stderr=subprocess.PIPE, env=tree.environment, text=True, check=False)
    yield "help on a full disk", done.returncode == 3 and len(done.stderr.splitlines()) == 1
    yield "none of these was a build", tree.checks() == 0


def builds(tree):
    out, err, status = tree.run("a.sheet", "b.capture")
    yield "the first build", (out, status) == ("words:a.sheet b.capture\n", 0) and tree.checks() == 1
    yield "says how far it is", re.search(r"plan: proved 1 of 2: common \(\d+ s\)\nplan: proved 2 of 2: planner \(\d+ s\)\n", err) is not None
    yield "a built tree", tree.run("a.sheet") == ("words:a.sheet\n", "", 0) and tree.checks() == 1
    yield "no word reads standard input", tree.run(given="bytes\n") == ("words:\nbytes\n", "", 0)
    yield "a command is handed on", tree.run("--path", "9", "-x") == ("words:--path 9 -x\n", "", 0)
    yield "-- is handed on", tree.run("--", "-a.sheet") == ("words:-- -a.sheet\n", "", 0)
    ends = at_once(tree, 6)
    yield "six at once", ends == [("words:a.sheet\n", "", 0)] * 6 and tree.checks() == 1
    link = tree.root.parent / "link"
    link.symlink_to(tree.root / "plan")
    yield "by a symbolic link", tree.run("a.sheet", script=str(link)) == ("words:a.sheet\n", "", 0)
    (tree.root / "crates/planner/out/plan.proved").unlink()
    yield "built by hand", tree.run("a.sheet") == ("words:a.sheet\n", "", 0) and tree.checks() == 1


def due(tree, name, change):
    wait_a_tick()
    change()
    wait_a_tick()
    before = tree.checks()
    ends = at_once(tree, 3)
    good = all((out, status) == ("words:a.sheet\n", 0) for out, _, status in ends)
    yield "%s: one builds and the others wait" % name, good and tree.checks() == before + 1
    yield "%s: and that once" % name, tree.run("a.sheet")[2] == 0 and tree.checks() == before + 1


def changes(tree):
    source = tree.root / "crates/planner/src/main.rt"
    yield from due(tree, "a newer source", lambda: source.write_text("// changed\n"))
    yield from due(tree, "a source that was removed", source.unlink)
    older = tree.root.parent / "older.txt"
    older.write_text("common:\nplanner: common\n")
    os.utime(older, (1, 1))
    yield from due(tree, "another crates.txt, with an old date", lambda: os.rename(older, tree.root / "crates.txt"))
    identity = tree.home / "KIT-ID"

    def other_kit():
        identity.write_text("another kit\n")
        os.utime(identity, (1, 1))

    yield from due(tree, "another kit", other_kit)
    yield from due(tree, "a program that is gone", (tree.root / "crates/planner/out/planner").unlink)


def failures(tree):
    (tree.home / "broken").touch()
    (tree.root / "crates.txt").touch()
    wait_a_tick()
    for _ in range(2):
        out, err, status = tree.run("a.sheet")
        yield "what cannot be proved", (out, status) == ("", 2) and "not-proved" in err and "plan: " in err
    yield "the program as it is", tree.run("a.sheet", PLAN_BUILD="never") == ("words:a.sheet\n", "", 0)
    (tree.home / "broken").unlink()
    for status in range(4):
        yield "status %d" % status, tree.run("a.sheet", SAYS=str(status))[2] == status
    for said in ("stopped", "4", "126", "255"):
        out, err, status = tree.run("a.sheet", SAYS=said)
        yield "a program that ends with %s" % said, status == 2 and err.endswith("could not be run to its end\n")
    words = [str(tree.root / "plan"), "a.sheet"]
    closed = subprocess.run(["sh", "-c", '"$@" >&-', "sh", *words], stderr=subprocess.PIPE, env=tree.environment, text=True, check=False)
    yield "standard output closed", closed.returncode == 3 and len(closed.stderr.splitlines()) == 1
    without = dict(tree.environment, PATH="/usr/bin:/bin")
    done = subprocess.run(words, stdout=subprocess.PIPE, stderr=subprocess.PIPE, env=without, text=True, check=False)
    yield "no kit on the path", done.returncode == 2 and done.stdout == "" and done.stderr.startswith("plan: ")
    words[1] = "--version"
    done = subprocess.run(words, stdout=subprocess.PIPE, stderr=subprocess.PIPE, env=without, text=True, check=False)
    yield "no version of a kit", done.returncode == 2 and done.stdout == "" and done.stderr.startswith("plan: ")


def main():
    tried, wrong = 0, 0
    with tempfile.TemporaryDirectory() as folder:
        tree = Tree(pathlib.Path(folder))
        for part in (without_a_program, builds, changes, failures):
            for name, good in part(tree):
                tried += 1
                if not good:
                    wrong += 1
                    print("plan: %s" % name)
    print("the script plan: %d cases, %d wrong" % (tried, wrong))
    return 1 if wrong else 0


if __name__ == "__main__":
    sys.exit(main())
