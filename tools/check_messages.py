#!/usr/bin/env python3
"""See that docs/MESSAGES.md is complete and that its examples are so.

    tools/check_messages.py [--program P]

Every numbered message that the program can print has a section. Each example, a program and the message under it, is
run by `run`, and must print just that message on standard error. The exit status is 0 where all is so.
"""

import argparse
import pathlib
import re
import subprocess
import sys
import tempfile

TOP = pathlib.Path(__file__).resolve().parent.parent
LIMITS = ["source", "nesting", "depth", "rows", "atoms", "table", "rules", "image", "file"]
OTHERS = ["usage", "no memory", "file fault", "spent", "storage", "io"]


def variants(path, enum, without=()):
    """How many variants an enum of the sources has, some of them aside."""
    text = (TOP / "crates" / path).read_text()
    body = re.search(rf"enum {enum} \{{\n(.*?)^\}}", text, flags=re.M | re.S).group(1)
    names = re.findall(r"^    ([A-Z]\w*)", body, flags=re.M)
    return len([name for name in names if name not in without])


def counts():
    """How many numbers each kind of message has."""
    return {
        "refused: read": variants("datum_reader/src/error.rt", "ReadErr", ["TooDeep", "TooLong", "NoMemory"]),
        "refused: form": variants("scheme_expand/src/fault.rt", "Rule"),
        "bad image:": variants("elf_write/src/error.rt", "ElfErr", ["NoMemory"]),
        "trapped": 6,
        "error": variants("scheme_base/src/error.rt", "ErrKind"),
    }


def expected_sections():
    """The headings that the page must have."""
    numbered = [f"{name} {number}" for name, count in counts().items() for number in range(1, count + 1)]
    return numbered + [f"too large: {limit}" for limit in LIMITS] + OTHERS


def sections(text):
    """Each heading of the page with its text."""
    parts = re.split(r"^## (.*)\n", text, flags=re.M)[1:]
    return dict(zip(parts[::2], parts[1::2]))


def example(text):
    """The program of a section and the message under it, if there is one."""
    found = re.search(r"```scheme\n(.*?)```\n\n`(.*?)`", text, flags=re.S)
    return found.groups() if found else None


def main():
    parser = argparse.ArgumentParser(description=__doc__, formatter_class=argparse.RawDescriptionHelpFormatter)
    parser.add_argument("--program", default=str(TOP / "lakdumis"))
    program = parser.parse_args().program
    page = sections((TOP / "docs" / "MESSAGES.md").read_text())
    wrong = [f"no section: {name}" for name in expected_sections() if name not in page]
    wrong += [f"a section of no message: {name}" for name in page if name not in expected_sections()]
    examples = 0
    with tempfile.TemporaryDirectory() as folder:
        source = pathlib.Path(folder) / "example.scm"
        for name, text in page.items():
            if example(text):
                examples += 1
                program_text, message = example(text)
                source.write_text(program_text)
                done = subprocess.run([program, "run", str(source)], capture_output=True)
                told = done.stderr.decode("latin-1").strip()
                if told != message:
                    wrong.append(f"{name}: {told!r}, but the page says {message!r}")
    print("\n".join(wrong + [f"{len(page)} sections, {examples} examples, {len(wrong)} wrong"]))
    return 1 if wrong else 0


if __name__ == "__main__":
    sys.exit(main())
