#!/usr/bin/env python3
"""Counts the instructions of both cards and prints the tables of docs/BENCHMARK.md.

  count.py [--olders N] [--emulator QEMU] [--nm NM] [--remark TEXT] PROGRAM DAY OBJECT..

PROGRAM is count.c, linked. It calls `work_begins` and `work_ends` around each piece of work: what lies between is counted,
and nothing of the start or of the preparation. Counted are the instructions of the cards' functions, which OBJECT..
(plain.o and the archives) define, and of memcpy and its kin, which they call; not those of the program that gives the
orders. With --olders PROGRAM has so many older proved cards too.

With --emulator PROGRAM runs under that qemu-x86_64, which logs each instruction's address. Without, it runs under
valgrind's callgrind.
"""

import argparse
import bisect
import collections
import itertools
import os
import re
import shutil
import subprocess
import sys
import tempfile

CALLS = ("start", "receive", "join", "leave", "route", "lost", "lookup_label", "lookup_name", "free_labels", "save", "restore")
BOX_CALLS = ("serve",)
GROUPS = {"": "counted", "routes": "a route order for a root of", "made": "an event of a made day", "box": "an octet through the box"}
PROFILED = ("an event of an ordinary day", "a route order that moves 64 trees", "a loss that ends 64 branches",
            "a restore of a full card")
DEAREST = 10
BEGINS, ENDS = "work_begins", "work_ends"
# memcpy and its kin, in each of the forms from which the C library chooses when a program starts
MEMORY = re.compile(r"_*(mem(cpy|move|set|cmp|chr)|mempcpy)(_.*)?$")
# no `rep movsb`, of which the emulator logs each round
CPU = "max,-erms,-fsrm"


def run_text(*words):
    # functions of shared libraries are found when the program starts, and not when first called
    environment = os.environ | {"LD_BIND_NOW": "1"}
    return subprocess.run(words, check=True, stdout=subprocess.PIPE, text=True, env=environment).stdout


class Symbols:
    """Where the functions of a program lie."""

    def __init__(self, nm, program, objects):
        lines = (line.split(None, 2) for line in run_text(nm, *objects).splitlines())
        wanted = {BEGINS, ENDS, *(words[2] for words in lines if len(words) == 3 and words[1] in "tTwW")}
        self.at = {}
        for line in run_text(nm, "-S", program).splitlines():
            words = line.split(None, 3)
            if len(words) == 4 and words[2] in "tTwW" and (words[3] in wanted or MEMORY.match(words[3])):
                self.at[int(words[0], 16)] = (int(words[1], 16), words[3])
        self.starts = sorted(self.at)

    def ranges(self):
        return ",".join(f"{start:#x}+{max(self.at[start][0], 1):#x}" for start in self.starts)

    def trace_of(self, name):
        """What a line of the log has where that function is entered."""
        return b"/%016x/" % next(start for start, (_, held) in self.at.items() if held == name)

    def name(self, address):
        return self.at[self.starts[bisect.bisect_right(self.starts, address) - 1]][1]


def address_of(line):
    """Of a line `Trace 0: 0x.. [cs/address/flags/..] function`."""
    return int(line.split(b"/", 2)[1], 16)


def parts_of(log, begins, ends):
    """How often each line stands in each piece of work."""
    parts = []
    for line in log:
        if begins in line:
            parts.append(collections.Counter(itertools.takewhile(lambda line: ends not in line, log)))
    return parts


def emulated(args, side, part):
    """For each piece of work, the instructions of each function."""
    symbols = Symbols(args.nm, args.program, args.objects)
    with tempfile.TemporaryDirectory() as folder:
        log = os.path.join(folder, "log")
        os.mkfifo(log)
        words = [args.emulator, "-cpu", CPU, "-one-insn-per-tb", "-d", "nochain,exec", "-dfilter", symbols.ranges(),
                 "-D", log, args.program, side, part, args.day]
        with subprocess.Popen(words, stdout=subprocess.PIPE, text=True) as running:
            with open(log, "rb") as lines:
                parts = parts_of(lines, symbols.trace_of(BEGINS), symbols.trace_of(ENDS))
            said = running.stdout.read()
    if running.returncode != 0:
        sys.exit(said or f"{args.program} ended with {running.returncode}")
    return said, [by_function(symbols, part) for part in parts]


def by_function(symbols, lines):
    functions = collections.Counter()
    for line, times in lines.items():
        name = symbols.name(address_of(line))
        functions[name] += 0 if name == BEGINS else times
    return functions


def read_callgrind(file):
    """The instructions of each function, where the part ends a piece of work."""
    functions, current, skip, works = collections.Counter(), "", False, False
    with open(file, encoding="utf-8", errors="replace") as lines:
        for line in lines:
            if line.startswith("desc: Trigger:"):
                works = line.rstrip().endswith(ENDS)
            elif line.startswith("fn="):
                current = line[3:].strip().partition("'")[0]
            elif line.startswith("calls="):
                skip = True
            elif re.match(r"[0-9]+ [0-9]+$", line):
                functions[current] += 0 if skip else int(line.split()[1])
                skip = False
    return functions if works else None


def grinded(args, side, part):
    """As emulated; a part in which nothing is counted is not written, and no piece of work is such a part."""
    with tempfile.TemporaryDirectory() as folder:
        out = os.path.join(folder, "out")
        prefix, calls = "plain" if side == "plain" else "card", BOX_CALLS if part == "box" else CALLS
        words = ["valgrind", "-q", "--tool=callgrind", f"--callgrind-out-file={out}", "--compress-strings=no",
                 "--compress-pos=no", *(f"--toggle-collect={prefix}_{call}" for call in calls),
                 f"--dump-before={BEGINS}", f"--dump-before={ENDS}", args.program, side, part, args.day]
        said = run_text(*words)
        files = sorted((f for f in os.listdir(folder) if f.startswith("out.")), key=lambda f: int(f[4:]))
        parts = [read_callgrind(os.path.join(folder, f)) for f in files]
    return said, [part for part in parts if part is not None]


class Work:
    """A piece of work, and the instructions of each function, done once."""

    def __init__(self, line, functions):
        self.row, self.column, done = line.split("\t")
        self.functions = {name: count / int(done) for name, count in functions.items()}
        self.all = sum(self.functions.values())


def count(args, side, part):
    """Of the card, or of the box: a call of the box may make one of the card, which is then not counted twice."""
    said, parts = emulated(args, side, part) if args.emulator else grinded(args, side, part)
    lines = said.splitlines()
    if any(line.count("\t") != 2 for line in lines) or len(parts) != len(lines):
        sys.exit(f"{side}: {len(lines)} pieces of work and {len(parts)} counts\n{said}")
    return [Work(line, part) for line, part in zip(lines, parts)]


def show(number):
    if number == 0:
        return ""
    return f"{number:,.0f}" if number >= 1000 else f"{number:.1f}".removesuffix(".0")


def print_table(head, rows):
    print("| " + " | ".join(head) + " |")
    print("|---" * len(head) + "|")
    for row in rows:
        print("| " + " | ".join(row) + " |")
    print()


def print_work(works, group, said):
    rows = []
    for work in works["proved"]:
        alike = {side: next((w.all for w in works[side] if (w.row, w.column) == (work.row, work.column)), 0) for side in works}
        if work.column == group:
            rows.append((work.row, *(show(number) for number in alike.values()), f"{work.all / alike['plain']:.2f}"))
    print_table((said, *works, "ratio"), rows)


def print_growth(works, unit, said):
    cells = {}
    for proved, plain in zip(works["proved"], works["plain"]):
        if unit in proved.column:
            cells.setdefault(proved.row, {})[proved.column] = f"{show(proved.all)} / {show(plain.all)}"
    columns = list(next(iter(cells.values())))
    print(f"Proved / plain, {said}:\n")
    print_table(("once", *columns), [(row, *(by[c] for c in columns)) for row, by in cells.items()])


def print_dearest(work):
    print(f"The dearest functions of the proved card, {work.row}:\n")
    dearest = sorted((item for item in work.functions.items() if item[1] > 0), key=lambda item: -item[1])[:DEAREST]
    print_table(("function", "instructions", "share"),
                [(f"`{name}`", show(count), f"{100 * count / work.all:.0f} %") for name, count in dearest])


def main():
    parser = argparse.ArgumentParser(description=__doc__.splitlines()[0])
    parser.add_argument("--olders", type=int, default=0)
    parser.add_argument("--emulator")
    parser.add_argument("--nm", default="nm")
    parser.add_argument("--remark", default="")
    parser.add_argument("program")
    parser.add_argument("day")
    parser.add_argument("objects", nargs="+")
    args = parser.parse_args()
    if not args.emulator and not shutil.which("valgrind"):
        sys.exit("count: no valgrind here, which is needed where there is no emulator")
    sides = ("proved", *(f"older {i + 1}" for i in range(args.olders)), "plain")
    works = {side: count(args, side, "card") + count(args, side, "box") for side in sides}
    print(f"Instructions, not times{args.remark and '; '}{args.remark}.\n")
    for group, said in GROUPS.items():
        print_work(works, group, said)
    print_growth(works, "tree", "names with 7 octets of opaque value")
    print_growth(works, "octets", "8 trees, whose names have so many octets of opaque value")
    for work in works["proved"]:
        if work.row in PROFILED:
            print_dearest(work)


if __name__ == "__main__":
    main()
