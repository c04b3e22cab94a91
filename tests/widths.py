#!/usr/bin/env python3
"""Tests the widths of ./judge on small tables against trying every value, and the search with judges of its own.

    tests/widths.py JUDGE

JUDGE is the script ./judge. Every value is tried with the judge of the independent program. The last line is 'N passed, 0 failed'.
"""
import io
import os
import random
import subprocess
import sys
import tempfile

sys.dont_write_bytecode = True
ROOT = os.path.dirname(os.path.dirname(os.path.realpath(__file__)))
sys.path[:0] = [os.path.join(ROOT, "tools"), os.path.join(ROOT, "tests")]

import independent  # noqa: E402
from desk import files, progress, tables, widths  # noqa: E402

counts = {True: 0, False: 0}


def verdict(name, good):
    counts[good] += 1
    if not good:
        print("failed:", name)


# ---- Every value, on small tables ----

def still_strict(table, number, side, value):
    rows = list(table.rows)
    row = list(rows[number])
    row[independent.U if side == "u" else independent.V] = value
    rows[number] = tuple(row)
    if len(set(rows)) < len(rows):
        return False  # two equal transitions answer one request
    return independent.judge(independent.Table(table.states, table.initial, rows)) == ("strict",)


def tried_one_by_one(table, number):
    """The least u and the greatest v, every value being tried; and that none beyond them is strict again."""
    row = table.rows[number]
    lows = [still_strict(table, number, "u", value) for value in range(row[independent.U], 0, -1)]
    highs = [still_strict(table, number, "v", value) for value in range(row[independent.V], 4096)]
    for answers in (lows, highs):
        if sorted(answers, reverse=True) != answers:
            raise SystemExit("widening made a table strict")
    return row[independent.U] - sum(lows) + 1, row[independent.V] + sum(highs) - 1


def side_by_side(rng):
    """Two guards of one input, with or without room between, and a step back."""
    a, b, c, d = sorted(rng.sample(range(1, rng.choice((12, 60, 4000))), 4))
    c = rng.choice((b, c))
    return independent.Table(2, 0, [(0, 0, 1, 1, a, b, rng.randint(1, 9)), (0, 0, 2, 1, c, d, rng.randint(1, 9)),
                                    (1, 0, 3, 0, *independent.guard_of(rng, 5, 5), rng.randint(1, 9))])


def like_letters(rng):
    """A slow response, then a quick one with the same letter, which may overtake it, and a step back with either letter."""
    return independent.Table(2, 0, [(0, 0, 1, 1, *independent.guard_of(rng, 30, 9), rng.randint(10, 25)),
                                    (1, 0, 1, 0, *independent.guard_of(rng, 5, 30), rng.randint(1, 9)),
                                    (1, 1, rng.randint(1, 2), 0, *independent.guard_of(rng, 30, 9), rng.randint(1, 9))])


def only_like(table):
    """Is a strict table one in which responses with like letters come in either order?"""
    rows = [row[:independent.OUTPUT] + (number,) + row[independent.OUTPUT + 1:] for number, row in enumerate(table.rows)]
    return independent.judge(independent.Table(table.states, table.initial, rows)) != ("strict",)


def small_tables():
    """Strict tables whose ends are stopped by turning, by splits, by nothing; small and great bounds; like letters."""
    shapes = (side_by_side, independent.shape_pair, like_letters, independent.shape_wide, side_by_side, independent.shape_tiny)
    for seed in range(2000):
        rng = random.Random(f"widths {seed}")
        table = shapes[seed % len(shapes)](rng)
        if 2 <= len(table.rows) <= 4 and independent.judge(table) == ("strict",):
            yield seed, table


def compare(judge, most):
    stopped = {"split": 0, "turning": 0, "none": 0}
    done = like = 0
    for seed, table in small_tables():
        if done == most:
            break
        done += 1
        like += only_like(table)
        reach = independent.reachable(table)
        wanted = []
        for number, row in enumerate(table.rows):
            if row[independent.FROM] in reach:
                wanted.append("%d %d %d" % ((number,) + tried_one_by_one(table, number)))
        with tempfile.NamedTemporaryFile() as file:
            file.write(independent.write_file(table))
            file.flush()
            got = subprocess.run([judge, "--widths", file.name], stdout=subprocess.PIPE, check=False)
            verdict(f"table {seed}: every value", (got.returncode, got.stdout.decode()) ==
                    (0, "".join(line + "\n" for line in wanted)))
            said = subprocess.run([judge, "--widths", "--explain", file.name], stdout=subprocess.PIPE, check=False).stdout.decode()
            for word, sign in (("split", "split, "), ("turning", "turning, "), ("none", "there is no ")):
                stopped[word] += said.count(sign)
    verdict(f"ends of all sorts were met: {stopped}", min(stopped.values()) >= 3)
    verdict(f"tables in which like letters change places were met: {like}", like >= 2)


# ---- Judges of our own ----

class Pretended:
    """Answers by the guard of transition 0."""

    def __init__(self, answer):
        self.say = answer
        self.asked = []

    def answer(self, data):
        t = tables.read_file(data).transitions[0]
        self.asked.append((t.u, t.v))
        return self.say(t.u, t.v)


TABLE = tables.Table(1, 0, [tables.Transition(0, 0, 0, 0, 2000, 2010, 5)])


def ends(answer):
    judge = Pretended(answer)
    found, = widths.found(judge, TABLE)
    return (found.low.value, found.high.value), judge


def pretended():
    value, judge = ends(lambda u, v: b"strict\n" if u >= 1234 and v <= 3456 else b"refused 5 at 8\n")
    verdict("a refusal is not strict, and the range is halved", value == (1234, 3456) and len(judge.asked) <= 40)
    verdict("each end has two answers", {(1234, 2010), (1233, 2010), (2000, 3456), (2000, 3457)} <= set(judge.asked))
    value, judge = ends(lambda u, v: b"strict\n")
    verdict("the widest there are", value == (1, 4095) and set(judge.asked) == {(1, 2010), (2000, 4095)})
    # A witness whose guess is wrong must not lead astray: it says that the end is at 1998, which is not so.
    value, judge = ends(lambda u, v: b"strict\n" if u >= 700 else b"turning 1 2\n1 0 1 1\n2 0 2 2\n")
    verdict("a guess that is wrong", value[0] == 700 and {(700, 2010), (699, 2010)} <= set(judge.asked))
    try:
        ends(lambda u, v: b"refused 5 at 8\n")
        verdict("an end that the judge does not confirm", False)
    except files.Trouble as trouble:
        verdict("an end that the judge does not confirm", "can't be confirmed" in str(trouble))


# ---- The bar ----

def bars(times, terminal=False):
    """What is on standard error after a step at each of these seconds."""
    clock = iter([0] + times)
    kept, sys.stderr = sys.stderr, io.StringIO()
    sys.stderr.isatty = lambda: terminal
    try:
        bar = progress.Bar("work", len(times), lambda: next(clock))
        for _ in times:
            bar.step()
        bar.end()
        return sys.stderr.getvalue()
    finally:
        sys.stderr = kept


def bar():
    verdict("no bar within a second", bars([0.1] * 50) == "")
    said = bars([2.0] * 50)
    verdict("a bar after a second, a line for each tenth", said.count("\n") == 10 and said.endswith("50 of 50\n"))
    said = bars([2.0] * 5, True)
    verdict("a bar on a terminal is drawn in one line", said.count("\r") == 6 and "\n" not in said)


def main():
    if len(sys.argv) != 2 or sys.argv[1] in ("-h", "--help"):
        print(__doc__, end="", file=sys.stdout if len(sys.argv) == 2 else sys.stderr)
        return 0 if len(sys.argv) == 2 else 2
    pretended()
    bar()
    compare(sys.argv[1], 10)
    print(f"{counts[True]} passed, {counts[False]} failed")
    return 1 if counts[False] else 0


if __name__ == "__main__":
    sys.exit(main())
