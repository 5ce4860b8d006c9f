#!/usr/bin/env python3
"""make_journal.py RECORD FILE: the journal that the node of a record has kept, from the events of the record.

So the bytes of a node's journal can be compared with those of another hand, and a long journal be had from the record of a long run."""
import sys

from journal import file_of

HEADER_LINES = 7


def main():
    with open(sys.argv[1], encoding="ascii") as record:
        lines = record.read().split("\n")
    events = lines[HEADER_LINES:-1:2]
    with open(sys.argv[2], "wb") as journal:
        journal.write(file_of(lines[:HEADER_LINES], [line for line in events if line != "end"]))


if __name__ == "__main__":
    main()
