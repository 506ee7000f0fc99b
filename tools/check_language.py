#!/usr/bin/env python3
"""Run the examples of docs/LANGUAGE.md and compare what they print with what stands under them.

    tools/check_language.py [--program P]

A block of scheme is a program, and the block of text after it is its output; where a line of that block begins with
`; ` and a message, the run ends with that message. The exit status is 0 where nothing differs.
"""

import argparse
import pathlib
import re
import subprocess
import sys
import tempfile

TOP = pathlib.Path(__file__).resolve().parent.parent


def examples(text):
    """Each program of the document, with its output and its last message."""
    for program, told in re.findall(r"^```scheme\n(.*?)^```\n```text\n(.*?)^```$", text, flags=re.M | re.S):
        lines = told.split("\n")[:-1]
        message = lines.pop()[2:] if lines and lines[-1].startswith("; ") else ""
        yield program, "\n".join(lines), message


def main():
    parser = argparse.ArgumentParser(description=__doc__, formatter_class=argparse.RawDescriptionHelpFormatter)
    parser.add_argument("--program", default=str(TOP / "lakdumis"))
    program = parser.parse_args().program
    wrong = count = 0
    with tempfile.TemporaryDirectory() as folder:
        source = pathlib.Path(folder) / "example.scm"
        for text, output, message in examples((TOP / "docs" / "LANGUAGE.md").read_text()):
            count += 1
            source.write_text(text)
            done = subprocess.run([program, "run", str(source)], capture_output=True)
            told = done.stdout.decode("latin-1"), done.stderr.decode("latin-1").strip()
            if told != (output, message):
                wrong += 1
                print(f"{text}printed {told}, but the document says {(output, message)}")
    print(f"{count} examples, {wrong} differences")
    return 1 if wrong or not count else 0


if __name__ == "__main__":
    sys.exit(main())
