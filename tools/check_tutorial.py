#!/usr/bin/env python3
"""Run the commands of a document and compare what they print with what stands under them.

    tools/check_tutorial.py [DOCUMENT..]     (docs/TUTORIAL.md)

A block that begins with ```scheme NAME is written to the file NAME. In a block that begins with ```console each line
after `$ ` is a command, and the lines up to the next are what it prints, on either channel. The commands run in one
folder, with the top of the repository first on PATH. The exit status is 0 where nothing differs.
"""

import os
import pathlib
import re
import subprocess
import sys
import tempfile

TOP = pathlib.Path(__file__).resolve().parent.parent


def blocks(text):
    """The fenced blocks of a document: what stands after the fence, and the text."""
    return re.findall(r"^```([^\n]*)\n(.*?)^```$", text, flags=re.M | re.S)


def commands(text):
    """Each command of a console block with what it is to print."""
    for part in re.split(r"^\$ ", text, flags=re.M)[1:]:
        command, _, wanted = part.partition("\n")
        yield command, wanted


def check(document):
    """The lines that say what differs in a document."""
    path = f"{TOP}{os.pathsep}{os.environ['PATH']}"
    with tempfile.TemporaryDirectory() as folder:
        for kind, text in blocks(document.read_text()):
            name, _, file = kind.partition(" ")
            if name == "scheme" and file:
                (pathlib.Path(folder) / file).write_text(text)
            if name == "console":
                for command, wanted in commands(text):
                    done = subprocess.run(command, shell=True, cwd=folder, env={**os.environ, "PATH": path},
                                          stdout=subprocess.PIPE, stderr=subprocess.STDOUT)
                    told = done.stdout.decode("latin-1")
                    if told != wanted:
                        yield f"{document}: $ {command}\n{told}but the document says\n{wanted}"


def main():
    documents = [pathlib.Path(name) for name in sys.argv[1:]] or [TOP / "docs" / "TUTORIAL.md"]
    wrong = [line for document in documents for line in check(document)]
    print("\n".join(wrong + [f"{len(documents)} documents, {len(wrong)} differences"]))
    return 1 if wrong else 0


if __name__ == "__main__":
    sys.exit(main())
