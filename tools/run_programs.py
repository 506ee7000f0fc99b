#!/usr/bin/env python3
"""Run a folder of programs in every way there is, and compare what they print and how they end.

    tools/run_programs.py [--program P] [--qemu] [--schemes] [--least-heap] [--steps N] FOLDER..

Each program is FOLDER/NAME.scm. Beside it may stand NAME.in (its input), NAME.out (the bytes of its output),
NAME.end (its text on standard error without the line end: nothing, `error K at L:C`, `storage` or `io`) and
NAME.heap (the heap that it is compiled with). It is run by `run`, by `compile` and `emulate` and, with --qemu, by
qemu-riscv64 on the image; all of these must agree, and with NAME.out and NAME.end where these are there. With
--schemes it is also run by the plain Schemes that are installed (csi, chezscheme, gsi), whose output must be the
same where the program ends without an error; what these Schemes cannot say, as storage, is not compared. With
--least-heap the least heap with which the program does not stop for storage is found and printed, and with that
heap it must run as before. The exit status is 0 where nothing differs, 1 where something does, and 2 where there
is no program to run or none to run it with.
"""

import argparse
import pathlib
import shutil
import subprocess
import sys
import tempfile

LEAST_HEAP, MOST_HEAP = 4096, 1 << 30
SCHEMES = {"csi": ["csi", "-q", "-b"], "chezscheme": ["chezscheme", "--script"], "gsi": ["gsi"]}


class Ran:
    """What a run printed, and how it ended."""

    def __init__(self, output, end, status):
        self.output, self.end, self.status = output, end, status

    def __eq__(self, other):
        return (self.output, self.end, self.status) == (other.output, other.end, other.status)

    def __str__(self):
        return f"status {self.status}, end {self.end!r}, output {self.output[:200]!r}"


def ran(words, given, limit):
    """Run a command on its input."""
    try:
        done = subprocess.run(words, input=given, capture_output=True, timeout=limit)
    except subprocess.TimeoutExpired as over:
        return Ran(over.stdout or b"", "no end in time", None)
    return Ran(done.stdout, done.stderr.decode("latin-1").rstrip("\n"), done.returncode)


def beside(source, suffix):
    """The bytes of the file beside a source, or None."""
    path = source.with_suffix(suffix)
    return path.read_bytes() if path.exists() else None


def expected_status(end):
    """The status that goes with a text on standard error."""
    return 0 if end == "" else {"storage": 2, "io": 3}.get(end, 1)


class Ways:
    """The ways in which a program is run."""

    def __init__(self, options, folder):
        self.options, self.image = options, str(pathlib.Path(folder) / "image")

    def options_of(self, heap):
        return ["--heap", str(heap)] if heap else []

    def run(self, source, given, heap):
        steps = ["--steps", str(self.options.steps)]
        return ran([self.options.program, "run", str(source), *steps, *self.options_of(heap)], given, self.options.limit)

    def compiled(self, source, heap):
        return ran([self.options.program, "compile", str(source), self.image, *self.options_of(heap)], b"", self.options.limit)

    def emulated(self, given):
        return ran([self.options.program, "emulate", self.image, "--steps", str(self.options.steps)], given, self.options.limit)

    def in_qemu(self, given):
        return ran(["qemu-riscv64", self.image], given, self.options.limit)


def all_ways(ways, source, given, heap):
    """Each way's name with what it ran to."""
    yield "run", ways.run(source, given, heap)
    compiled = ways.compiled(source, heap)
    if compiled.status != 0:
        yield "compile", compiled
        return
    yield "emulate", ways.emulated(given)
    if ways.options.qemu:
        yield "qemu", ways.in_qemu(given)


def least_heap(ways, source, given):
    """The least heap, a multiple of 16, with which the program does not stop for storage."""
    fits = lambda units: ways.run(source, given, units * 16).end != "storage"
    low, high = LEAST_HEAP // 16, MOST_HEAP // 16
    if fits(low):
        return LEAST_HEAP
    if not fits(high):
        return None
    while high - low > 1:
        middle = (low + high) // 2
        low, high = (low, middle) if fits(middle) else (middle, high)
    return high * 16


def check(ways, source):
    """The lines that say what is wrong with a program's runs."""
    given = beside(source, ".in") or b""
    heap = beside(source, ".heap")
    heap = int(heap) if heap else None
    results = list(all_ways(ways, source, given, heap))
    first = results[0][1]
    for name, result in results[1:]:
        if result != first:
            yield f"{name}: {result}, but run: {first}"
    output, end = beside(source, ".out"), beside(source, ".end")
    if output is not None and first.output != output:
        yield f"run: {first}, but expected output {output[:200]!r}"
    if end is not None:
        text = end.decode("latin-1").rstrip("\n")
        if (first.end, first.status) != (text, expected_status(text)):
            yield f"run: {first}, but expected end {text!r}"
    if ways.options.schemes and first.status == 0:
        for name, words in SCHEMES.items():
            if shutil.which(words[0]):
                other = ran([*words, str(source)], given, ways.options.limit)
                if other.output != first.output:
                    yield f"{name}: {other}, but run: {first}"
    if ways.options.least_heap and first.status in (0, 1, 3):
        least = least_heap(ways, source, given)
        print(f"{source}: least heap {least}")
        result = ways.run(source, given, least)
        if result != first:
            yield f"run with heap {least}: {result}, but run: {first}"


def main():
    parser = argparse.ArgumentParser(description=__doc__, formatter_class=argparse.RawDescriptionHelpFormatter)
    parser.add_argument("folders", nargs="+", type=pathlib.Path)
    parser.add_argument("--program", default="./lakdumis")
    parser.add_argument("--qemu", action="store_true")
    parser.add_argument("--schemes", action="store_true")
    parser.add_argument("--least-heap", action="store_true")
    parser.add_argument("--steps", type=int, default=10**9)
    parser.add_argument("--limit", type=float, default=120, help="seconds for each run")
    options = parser.parse_args()
    for needed in [options.program] + ["qemu-riscv64"] * options.qemu:
        if not shutil.which(needed):
            parser.error(f"{needed} is not there, or cannot be executed")
    sources = sorted(path for place in options.folders for path in place.glob("*.scm"))
    if not sources:
        parser.error("the folders have no programs")
    wrong = 0
    with tempfile.TemporaryDirectory() as folder:
        ways = Ways(options, folder)
        for source in sources:
            for line in check(ways, source):
                wrong += 1
                print(f"{source}: {line}")
    print(f"{len(sources)} programs, {wrong} differences")
    return 1 if wrong else 0


if __name__ == "__main__":
    sys.exit(main())
