#!/usr/bin/env python3
"""Compare what `facts` prints with the tables that stand beside the programs.

    tools/check_facts.py [--program P] [FOLDER..]     (tables)

Each program NAME.scm of a folder is solved with 1, 2, 7 and 32 workers, and the text must be that of NAME.facts, byte
for byte. The exit status is 0 where nothing differs.
"""

import argparse
import pathlib
import subprocess
import sys

TOP = pathlib.Path(__file__).resolve().parent.parent
WORKERS = ["1", "2", "7", "32"]


def differences(program, source):
    """With how many workers the table of a source differs from that beside it."""
    wanted = source.with_suffix(".facts").read_bytes()
    for workers in WORKERS:
        done = subprocess.run([program, "facts", str(source), "--workers", workers], capture_output=True, check=False)
        if done.returncode != 0 or done.stdout != wanted:
            yield workers


def main():
    parser = argparse.ArgumentParser(description=__doc__, formatter_class=argparse.RawDescriptionHelpFormatter)
    parser.add_argument("--program", default=str(TOP / "lakdumis"))
    parser.add_argument("folders", nargs="*", type=pathlib.Path, default=[TOP / "tables"])
    options = parser.parse_args()
    sources = sorted(source for folder in options.folders for source in folder.glob("*.scm"))
    if not sources:
        parser.error("the folders have no programs")
    wrong = 0
    for source in sources:
        for workers in differences(options.program, source):
            print(f"{source}: another table with {workers} workers")
            wrong += 1
    print(f"{len(sources)} programs, {wrong} differences")
    return 1 if wrong else 0


if __name__ == "__main__":
    sys.exit(main())
