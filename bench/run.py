#!/usr/bin/env python3
"""Measures the built program beside `mawk` doing the same split, filter and print, and checks that the outputs agree.

    bench/run.py [--rows N] [--best N] [--keep FOLDER]

It needs `mawk` and `time` of Debian. Inputs are made by a fixed draw: plain rows, and rows with a quoted text, a million of each unless told otherwise. Of each
run the best of three counts. Printed are the seconds, the peak memory in MiB and the ratio to mawk's seconds (for the
normal form, to those of the stream form). The status is 1 where outputs differ.
"""

import argparse
import collections
import os
import random
import subprocess
import sys
import tempfile
import time

TOP = os.path.dirname(os.path.dirname(os.path.abspath(__file__)))
WINDOW = 10
INSTANT = 500_000

# Rows of numbers alone: the fields are what lies between commas.
PLAIN = r"""NR > 1 && $2 > 0 { print "+ " $1 " " $1 + W " " $2 " " $3 }"""

# Rows whose third field is quoted: its doubled quotes are told as escaped ones.
QUOTED = r"""NR > 1 && $2 > 0 {
    text = substr($0, length($1) + length($2) + 4)
    text = substr(text, 1, length(text) - 1)
    gsub(/""/, "\\\"", text)
    print "+ " $1 " " $1 + W " " $2 " \"" text "\""
}"""


def plain(draw, stamp):
    return f"{stamp},{draw.randrange(-1000, 1000)},{draw.randrange(100000)}\n"


def quoted(draw, stamp):
    return f'{stamp},{draw.randrange(-1000, 1000)},"a, ""{draw.randrange(100000)}"" b"\n'


def make(folder, name, columns, row, rows):
    draw = random.Random(7)
    stamp = 0
    with open(os.path.join(folder, name + ".csv"), "w") as file:
        file.write("at,v,w\n")
        for _ in range(rows):
            stamp += draw.randrange(3)
            file.write(row(draw, stamp))
    with open(os.path.join(folder, name + ".txt"), "w") as file:
        file.write(f'source a from "{name}.csv" ({columns}) window time {WINDOW}\nplan filter((0 < $0), a)\n')
    open(os.path.join(folder, "script.txt"), "w").close()


def once(argv, folder, out):
    # The system counts what this process holds as its child's peak, so that `time` is asked, which is small.
    meter = out + ".meter"
    with open(out, "wb") as file:
        began = time.monotonic()
        done = subprocess.run(["time", "-q", "-o", meter, "-f", "%M", *argv], cwd=folder, stdout=file, stderr=subprocess.DEVNULL)
        seconds = time.monotonic() - began
    with open(meter) as file:
        return seconds, int(file.read()) / 1024, done.returncode


def best(argv, folder, out, times):
    runs = [once(argv, folder, out) for _ in range(times)]
    if any(run[2] for run in runs):
        sys.exit(f"{argv} ended with status {runs[0][2]}")
    return min(run[0] for run in runs), max(run[1] for run in runs)


def lines(path):
    with open(path) as file:
        return file.read().splitlines()


def normal_of(results):
    """The normal form of results, by a sweep over each tuple's changes."""
    changes = collections.defaultdict(collections.Counter)
    for line in results:
        _, start, end, row = line.split(" ", 3)
        changes[row][int(start)] += 1
        changes[row][int(end)] -= 1
    periods = set()
    for row, at in changes.items():
        copies, since = 0, 0
        for instant in sorted(i for i, n in at.items() if n):
            if copies:
                periods.add(f"= {since} {instant} {copies} {row}")
            copies, since = copies + at[instant], instant
    return periods


def valid_at(results, instant):
    fields = (line.split(" ", 3) for line in results)
    return sorted(row for _, start, end, row in fields if int(start) <= instant < int(end))


def report(name, seconds, memory, ratio, same):
    print(f"{name:22} {seconds:7.3f} s {memory:7.1f} MiB {ratio:6.2f}  {'same' if same else 'DIFFERENT'}", flush=True)
    return same


def measure(program, folder, name, awk, times):
    def out(form):
        return os.path.join(folder, f"{name}.{form}")

    def run(form, *words):
        return best([program, *words], folder, out(form), times)

    query, script = name + ".txt", "script.txt"
    peer = best(["mawk", "-F,", "-v", f"W={WINDOW}", awk, name + ".csv"], folder, out("mawk"), times)
    results = lines(out("mawk"))
    report(f"{name}: mawk", *peer, 1.0, True)
    stream = run("stream", "run", query, script)
    good = report(f"{name}: stream", *stream, stream[0] / peer[0], lines(out("stream")) == results + ["end"])
    normal = run("normal", "run", query, script, "--form", "normal")
    periods = lines(out("normal"))
    good &= report(f"{name}: normal", *normal, normal[0] / stream[0], len(periods) == len(set(periods)) and set(periods) == normal_of(results))
    answer = run("at", "at", query, str(INSTANT))
    good &= report(f"{name}: at {INSTANT}", *answer, answer[0] / peer[0], sorted(lines(out("at"))) == valid_at(results, INSTANT))
    return good


def main():
    options = argparse.ArgumentParser(description=__doc__.splitlines()[0])
    options.add_argument("--rows", type=int, default=1_000_000)
    options.add_argument("--best", type=int, default=3)
    options.add_argument("--keep", help="where the inputs and outputs stay")
    given = options.parse_args()
    program = os.path.join(TOP, "crates", "pipes", "out", "pipes")
    if not os.path.exists(program):
        sys.exit(f"{program} is not built: run ./pipes once")
    with tempfile.TemporaryDirectory() as scratch:
        folder = given.keep or scratch
        os.makedirs(folder, exist_ok=True)
        make(folder, "plain", "v int, w int", plain, given.rows)
        make(folder, "quoted", "v int, s text", quoted, given.rows)
        good = measure(program, folder, "plain", PLAIN, given.best)
        good &= measure(program, folder, "quoted", QUOTED, given.best)
    return 0 if good else 1


if __name__ == "__main__":
    sys.exit(main())
