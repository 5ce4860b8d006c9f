#!/usr/bin/env python3
"""refuse.py PROGRAM SCHEDULE REPORT [MOST]: replays a schedule, and refuses its N-th allocation, read or write, for each N in turn.

Each is tried with the one call refused, and with all behind it refused too. Right is the report with status 0, or status 4
(allocation), 5 (read) or 6 (write) with at most a beginning of the report. Of a read and a write standard error has a line, unless that write is refused
too. At most MOST numbers of a kind are tried, evenly spread.
Prints each other answer and, of each kind, how often each status came."""
import collections
import os
import subprocess
import sys
import tempfile

HERE = os.path.dirname(os.path.abspath(__file__))
STATUS = {"allocation": 4, "read": 5, "write": 6}
TOLD = {"read": b"minbft: reading failed: ", "write": b"minbft: writing failed: "}


def run(program, text, kind, number, lasting, tell=None):
    setting = {**os.environ, "LD_PRELOAD": os.path.join(HERE, "refuse.so"), "REFUSE": kind, "REFUSE_AT": str(number)}
    if lasting:
        setting["REFUSE_ALL"] = "1"
    if tell:
        setting["REFUSE_TELL"] = tell
    return subprocess.run([program, "replay"], input=text, capture_output=True, env=setting)


def calls_made(program, text, kind):
    with tempfile.NamedTemporaryFile() as tell:
        run(program, text, kind, 0, False, tell.name)
        return int(tell.read())


def is_right(kind, ended, report):
    if ended.returncode == 0:
        return ended.stdout == report
    begun = report.startswith(ended.stdout) if kind == "write" else not ended.stdout
    return ended.returncode == STATUS[kind] and begun and is_told(kind, ended.stderr)


def is_told(kind, said):
    return not said or (kind in TOLD and said.startswith(TOLD[kind]) and said.count(b"\n") == 1)


def try_kind(program, text, report, kind, most):
    calls = calls_made(program, text, kind)
    step, wrong, statuses = max(1, calls // most), 0, collections.Counter()
    numbers = sorted({*range(1, calls + 1, step), calls, calls + 1})
    for number in numbers:
        for lasting in (False, True):
            ended = run(program, text, kind, number, lasting)
            statuses[ended.returncode] += 1
            if not is_right(kind, ended, report):
                wrong += 1
                print(f"{kind} {number} {'and all behind' if lasting else ''}: status {ended.returncode}, {ended.stdout[:80]} {ended.stderr[:200]}")
    print(f"{kind}: {calls} calls, {len(numbers)} numbers tried, statuses {dict(sorted(statuses.items()))}, {wrong} not right")
    return wrong


def main():
    program, most = sys.argv[1], int(sys.argv[4]) if len(sys.argv) > 4 else 500
    with open(sys.argv[2], "rb") as schedule, open(sys.argv[3], "rb") as report:
        text, report = schedule.read(), report.read()
    wrong = [try_kind(program, text, report, kind, most) for kind in STATUS]
    return 1 if any(wrong) else 0


if __name__ == "__main__":
    sys.exit(main())
