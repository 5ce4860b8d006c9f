#!/usr/bin/env python3
"""check_quotes.py [DOCUMENT..]: checks that what a document quotes of definitions stands so in the file that it names.

A quote is a fenced block that begins with ```antt. Its file is the last one that was named before, as `crates/NAME/specs/FILE.antt` or `crates/NAME/src/FILE.rt`.
Its lines have to follow each other there; indentation is taken off on both sides. A line `..` stands for lines that are left out. Without a document
docs/PROMISE.md is checked. The status is 1 where a quote is not found, or a document quotes nothing."""
import pathlib
import re
import sys
import textwrap

TOP = pathlib.Path(__file__).resolve().parent.parent
NAMED = re.compile(r"`(crates/[\w/]+\.(?:antt|rt))`")
LEFT_OUT = ".."


def quotes_of(document):
    """The quotes of a document: the number of the line, the file that is named, the lines."""
    named, lines, start = None, None, 0
    for number, line in enumerate(document.read_text().splitlines(), 1):
        if lines is None:
            named = (NAMED.findall(line) or [named])[-1]
            if line.startswith("```antt"):
                lines, start = [], number
        elif line.startswith("```"):
            yield start, named, lines
            lines = None
        else:
            lines.append(line)


def pieces_of(lines):
    """The pieces of a quote between the lines that stand for what is left out."""
    piece = []
    for line in lines:
        if line.strip() == LEFT_OUT:
            yield piece
            piece = []
        else:
            piece.append(line)
    yield piece


def place_of(piece, lines, begin):
    """The line behind the first place of the piece among these lines, from a line on."""
    wanted = textwrap.dedent("\n".join(piece)).strip()
    for at in range(begin, len(lines) - len(piece) + 1):
        if textwrap.dedent("\n".join(lines[at:at + len(piece)])).strip() == wanted:
            return at + len(piece)
    return None


def is_found(lines, path):
    """Whether the pieces of a quote stand in the file, one behind the other."""
    source = path.read_text().splitlines()
    at = 0
    for piece in pieces_of(lines):
        at = place_of(piece, source, at)
        if at is None:
            return False
    return True


def check(document):
    """How many quotes the document has, and a line for each that is not found."""
    count, faults = 0, []
    for number, named, lines in quotes_of(document):
        count += 1
        path = TOP / named if named else None
        if path is None or not path.is_file() or not is_found(lines, path):
            faults.append(f"{document}:{number}: not so in {named}: {lines[0] if lines else 'nothing'}")
    return count, faults


def main():
    failed = False
    for document in [pathlib.Path(name) for name in sys.argv[1:]] or [TOP / "docs" / "PROMISE.md"]:
        count, faults = check(document)
        print("\n".join(faults + [f"{document}: {count - len(faults)} of {count} quotes stand in the files that they name"]))
        failed = failed or bool(faults) or count == 0
    sys.exit(1 if failed else 0)


if __name__ == "__main__":
    main()
