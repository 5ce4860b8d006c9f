#!/usr/bin/env python3
"""refuse_disk.py CONFIG RECEIVES LIBRARY PROGRAM..: a node with a journal whose N-th call of the disk fails, for each N until none does.

LIBRARY is disk_calls.c, built. Each call is refused once with nothing done and once, where it is a write, with the first half of its bytes left. The node
makes so many receives, and nothing arrives. Right is status 14 where a call was refused and 9 behind them all, and then a node over the same journal
whose record begins with the events of the first record, and with at most one more before its own. Prints what is not, and the number of calls."""
import os
import subprocess
import sys
import tempfile

from crash_images import events_in, make_journal
from wire import Config


def run(program, config, folder, receives, setting):
    node = subprocess.run([*program.split(" "), "node", "0", str(receives), "journal"], input=config.text.encode(), capture_output=True, cwd=folder,
                          env={**os.environ, **setting})
    return node.returncode, events_in(node.stdout)


def try_call(program, config, receives, setting):
    """The status and the events of a node whose call is refused, those of a node behind it, and how many calls the first one made."""
    with tempfile.TemporaryDirectory() as folder:
        count = os.path.join(folder, "count")
        make_journal(program, config, folder, {})
        first = run(program, config, folder, receives, {**setting, "DISK_COUNT": count})
        again = run(program, config, folder, 1, {})
        with open(count, encoding="ascii") as made:
            return first, again, int(made.read())


def is_right(first, again, is_refused):
    beyond = len(again[1]) - 1 - len(first[1])
    return first[0] == (14 if is_refused else 9) and again[0] == 9 and again[1][: len(first[1])] == first[1] and 0 <= beyond <= 1


def try_all(program, config, receives, library, half):
    number, wrong = 0, 0
    while True:
        number += 1
        setting = {"LD_PRELOAD": os.path.realpath(library), "DISK_AT": str(number), **half}
        first, again, made = try_call(program, config, receives, setting)
        if not is_right(first, again, number <= made):
            wrong += 1
            print(f"{program}, call {number} of the disk: {first}, then {again}")
        if number > made:
            print(f"{program}: {made} calls {'with half of each write ' if half else ''}refused in turn, {wrong} not right")
            return wrong


def main():
    with open(sys.argv[1], encoding="ascii") as text:
        config = Config(text.read())
    receives, library, programs = int(sys.argv[2]), sys.argv[3], sys.argv[4:]
    wrong = [try_all(program, config, receives, library, half) for program in programs for half in ({}, {"DISK_HALF": "1"})]
    return 1 if any(wrong) else 0


if __name__ == "__main__":
    sys.exit(main())
