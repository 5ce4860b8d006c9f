#!/usr/bin/env python3
"""cut_record.py RECORD LINES PROGRAM..: cuts the record at each place of its last so many lines, and lets each PROGRAM retrace it.

Right is `same N` with status 0, N the whole pairs of lines that are left. Prints each answer that is not."""
import subprocess
import sys

HEADER_LINES = 7


def pairs_left(text):
    """The whole pairs of lines behind the settings."""
    lines = text.count(b"\n") - HEADER_LINES
    return (lines - 1 if text.endswith(b"\nend\n") else lines) // 2


def main():
    with open(sys.argv[1], "rb") as record:
        text = record.read()
    lines, programs = int(sys.argv[2]), sys.argv[3:]
    first = len(text) - sum(len(line) + 1 for line in text.split(b"\n")[-lines - 1 :]) + 1
    wrong = 0
    for place in range(max(first, 0), len(text) + 1):
        left = text[:place]
        want = (0, f"same {pairs_left(left)}\n")
        for program in programs:
            run = subprocess.run([*program.split(" "), "retrace"], input=left, capture_output=True)
            found = (run.returncode, run.stdout.decode())
            if found != want:
                wrong += 1
                print(f"cut at {place}: {program} answers {found}, not {want}")
    print(f"{len(text) + 1 - first} cuts, from {pairs_left(text[:first])} to {pairs_left(text)} pairs: {wrong} answers not right")
    return 1 if wrong else 0


if __name__ == "__main__":
    sys.exit(main())
