#!/usr/bin/env python3
"""long_schedule.py MEGABYTES [KIND]: writes a schedule of so many megabytes (at most 16, of 1,048,576 bytes each).

KIND `nudge` is nudges of one host, the shortest events. KIND `raw` is messages to a host that are none, of 20 bytes.
KIND `ask` is requests that are never given."""
import sys

LINES = {"nudge": "nudge h1\n", "raw": "raw h1 " + "00" * 20 + "\n", "ask": "ask c0 020161\n"}
HEAD = f"minbft schedule 2\nf 1\nk 4\nclients 1\nsecret {'07' * 32}\nfaulty\n"


def main():
    size = int(sys.argv[1]) * 1048576
    line = LINES[sys.argv[2] if len(sys.argv) > 2 else "nudge"]
    count = (size - len(HEAD)) // len(line)
    sys.stdout.write(HEAD + line * count)


if __name__ == "__main__":
    main()
