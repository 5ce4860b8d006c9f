#!/usr/bin/env python3
"""uncited.py [--cut]: prints the libraries that a line of crates.txt names and no file of its crate cites; then the status is 1.

With --cut these names are taken out of the lines. Each changed line has its crate proved again, and all above it."""
import pathlib
import re
import sys

TOP = pathlib.Path(__file__).resolve().parent.parent
CITING = {".rt", ".antt", ".edit"}


def words_of(crate):
    """All words of a crate's files."""
    files = [file for part in ("src", "specs", "proofs", "more-edits") for file in (TOP / "crates" / crate / part).rglob("*") if file.suffix in CITING]
    return {word for file in files for word in re.findall(r"\w+", file.read_text())}


def parted(line):
    """What stands before the colon of a line, and the libraries behind it: those that are cited, and those that are not."""
    head, libraries = line.split(":")
    words = words_of(head.split()[0])
    named = libraries.split()
    return head, [name for name in named if name in words], [name for name in named if name not in words]


def main(cuts):
    lines, uncited = [], 0
    for line in (TOP / "crates.txt").read_text().splitlines():
        if line and not line.startswith("#"):
            head, cited, more = parted(line)
            line = " ".join([f"{head}:", *cited])
            if more:
                uncited += len(more)
                print(f"{head.split()[0]} cites no {', '.join(more)}")
        lines.append(line)
    if cuts:
        (TOP / "crates.txt").write_text("\n".join(lines) + "\n")
    print(f"{uncited} names without a citation")
    return 1 if uncited else 0


if __name__ == "__main__":
    sys.exit(main("--cut" in sys.argv[1:]))
