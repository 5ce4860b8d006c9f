#!/usr/bin/env python3
"""many_clusters.py PROGRAM CONFIG COUNT: runs `PROGRAM cluster 2000` so many times, in a folder of its own each.

A run is right where its status is 0, its lines are those of a key-value store kept here, and PROGRAM retraces the
record of each host as its own steps. Where datagrams are lost on purpose a node may get none of its STOPs: then it is ended after
five seconds and the status is 18, which is `told` here where its record lacks the line `end`, and no fault. Prints each run that is not right,
how many were told so, the least, middle and greatest time, and the least and middle of the processor time of the client program with its nodes.
A run that takes over a minute is ended, and is `late`.

A request that was sent again may come to stand in two slots, of which the second executes nothing. So where a library is loaded that loses
datagrams (LD_PRELOAD), positions need only rise; else they are the numbers of the operations."""
import os
import resource
import signal
import subprocess
import sys
import tempfile
import time

from wire import Config, expected_lines

LIMIT = 60


def retraced(program, folder, hosts):
    """What is wrong with the records, as a list of words."""
    wrong = []
    for host in range(hosts):
        with open(os.path.join(folder, f"node-{host}.record"), "rb") as record:
            run = subprocess.run([*program, "retrace"], stdin=record, capture_output=True, text=True)
        if run.returncode != 0 or not run.stdout.startswith("same "):
            wrong.append(f"record {host}: status {run.returncode} {run.stdout.strip()}")
    return wrong


def are_right(lines, config):
    """Whether these are the lines of all results."""
    wanted = expected_lines(config)
    if "LD_PRELOAD" not in os.environ:
        return lines == wanted
    found = [line.split() for line in lines]
    positions = [int(words[2]) for words in found]
    return [words[:2] + words[3:] for words in found] == [line.split()[:2] + line.split()[3:] for line in wanted] and all(
        low < high for low, high in zip(positions, positions[1:])
    )


def lacks_end(folder, hosts):
    """Whether the record of some host lacks its last line."""
    for host in range(hosts):
        with open(os.path.join(folder, f"node-{host}.record"), "rb") as record:
            if not record.read().endswith(b"\nend\n"):
                return True
    return False


def processor_seconds():
    used = resource.getrusage(resource.RUSAGE_CHILDREN)
    return used.ru_utime + used.ru_stime


def ended(program, folder, config):
    """The status and the lines of a run; the status is `late` where it was ended with its nodes."""
    run = subprocess.Popen(
        [*program, "cluster", "2000"],
        cwd=folder,
        stdin=subprocess.PIPE,
        stdout=subprocess.PIPE,
        text=True,
        start_new_session=True,
    )
    try:
        lines, _ = run.communicate(config.text, timeout=LIMIT)
        return run.returncode, lines.splitlines()
    except subprocess.TimeoutExpired:
        os.killpg(run.pid, signal.SIGKILL)
        return "late", run.communicate()[0].splitlines()


def one_run(program, config):
    with tempfile.TemporaryDirectory() as folder:
        start, used = time.monotonic(), processor_seconds()
        status, lines = ended(program, folder, config)
        seconds = (time.monotonic() - start, processor_seconds() - used)
        told = status == 18 and lacks_end(folder, config.hosts)
        wrong = [] if status == 0 or told else [f"status {status}"]
        if not are_right(lines, config):
            wrong.append(f"lines {lines[:5]}")
        return seconds, told, wrong + retraced(program, folder, config.hosts)


def main():
    program = sys.argv[1].split(" ")
    with open(sys.argv[2], encoding="ascii") as text:
        config = Config(text.read())
    count, times, bad, deaf = int(sys.argv[3]), [], 0, 0
    for number in range(1, count + 1):
        seconds, told, wrong = one_run(program, config)
        times.append(seconds)
        deaf += told
        if wrong:
            bad += 1
            print(f"run {number}: {'; '.join(wrong)}")
    walls, used = sorted(wall for wall, _ in times), sorted(used for _, used in times)
    half = count // 2
    print(f"{count} runs, {bad} not right, {deaf} told of a node without a STOP; seconds {walls[0]:.3f} {walls[half]:.3f} {walls[-1]:.3f}; of the processor {used[0]:.3f} {used[half]:.3f}")
    return 1 if bad else 0


if __name__ == "__main__":
    sys.exit(main())
