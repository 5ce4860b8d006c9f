#!/usr/bin/env python3
"""time_journal.py PROGRAM CONFIG [TIMES]: what a journal costs a node.

First the config's operations are asked of three nodes, TIMES times without journals and with them in turn: how many are answered in a second, by median.
Then they are asked of three nodes without journals again and again, under numbers that rise, until host 0's record has 100,000 events, so that none of these was
for nothing. From its first 1,000, its first 10,000 and its first 100,000 journals are made, as its own journal would have them; host 0 opens each, and receives
once: the seconds that it takes, the processor's, the most memory, and the bytes of the journal and of the record. Prints these, and ends by 0 where each
operation was answered, each node heard its STOP, and each opening ended by its budget."""
import argparse
import os
import statistics
import subprocess
import sys
import tempfile
import time
from itertools import cycle, islice

from by_hand import Client, ended, start
from journal import file_of
from make_journal import HEADER_LINES
from restart_nodes import Host
from wire import Config, stop

SIZES = (1_000, 10_000, 100_000)
SPENT = 9
EVENTS_OF_ONE = 3
"""How many events of host 0 an operation is at least: its REQUEST and two COMMITs."""
REQUEST = "given 01"
LOOKS_EACH = 0.005


def rate(nodes, config):
    """How many operations a second are answered by nodes that have begun, and whether all was right."""
    client = Client(config)
    begun = time.monotonic()
    answers = [client.ask(operation) for operation in config.operations]
    seconds = time.monotonic() - begun
    for _ in range(3):
        client.tell(stop(config))
    client.socket.close()
    statuses = [ended(node) for node in nodes]
    return len(answers) / seconds, None not in answers and statuses == [0, 0, 0]


def without(program, config, folder):
    return rate([start(program, number, config, folder) for number in range(3)], config)


def with_journals(program, config, folder):
    hosts = [Host(program, number, config, folder) for number in range(3)]
    return rate([host.node for host in hosts], config)


def most_memory(process):
    """The most resident memory that a process had, in kB; 0 where it has ended. What the system tells behind its end counts the memory of who started it too."""
    with open(f"/proc/{process}/status", encoding="ascii") as lines:
        return next((int(line.split()[1]) for line in lines if line.startswith("VmHWM")), 0)


def opening(program, config, file, folder):
    """The status of a node that opens this file and receives once, its seconds, the processor's, its most memory in kB, and the length of its record."""
    path, record = os.path.join(folder, "long.journal"), os.path.join(folder, "long.record")
    with open(path, "wb") as journal:
        journal.write(file)
    with open(record, "wb") as output:
        begun = time.monotonic()
        node = subprocess.Popen([*program.split(" "), "node", "0", "1", path], stdin=subprocess.PIPE, stdout=output)
        node.stdin.write(config.text.encode())
        node.stdin.close()
        memory, process = 0, 0
        while not process:
            memory = max(memory, most_memory(node.pid))
            time.sleep(LOOKS_EACH)
            process, status, used = os.wait4(node.pid, os.WNOHANG)
    seconds = time.monotonic() - begun
    return os.waitstatus_to_exitcode(status), seconds, used.ru_utime + used.ru_stime, memory, os.path.getsize(record)


def long_run(program, config, folder):
    """The settings and the events of host 0's record of as many operations as it takes, and whether all was right."""
    nodes, path = [start(program, number, config, folder) for number in range(3)], os.path.join(folder, "node-0.record")
    client, right, begun = Client(config), True, 0
    while begun < SIZES[-1]:
        asked = (SIZES[-1] - begun) // EVENTS_OF_ONE + 1
        right &= None not in [client.ask(operation) for operation in islice(cycle(config.operations), asked)]
        begun = (sum(1 for _ in lines_of(path)) - HEADER_LINES) // 2
    for _ in range(3):
        client.tell(stop(config))
    client.socket.close()
    right &= [ended(node) for node in nodes] == [0, 0, 0]
    lines = list(lines_of(path))
    return lines[:HEADER_LINES], lines[HEADER_LINES::2], right


def lines_of(path):
    with open(path, encoding="ascii") as record:
        yield from (line.rstrip("\n") for line in record)


def tell_opening(words, config, settings, events):
    """Opens a journal of these events, prints what it took, and tells whether the node ended by its budget."""
    with tempfile.TemporaryDirectory() as folder:
        long = file_of(settings, events)
        status, seconds, processor, memory, record = opening(words.program, config, long, folder)
    asked = sum(line.startswith(REQUEST) for line in events)
    took = f"{seconds:.2f} s, {processor:.2f} s of the processor, {memory >> 10} MiB"
    print(f"{len(events)} events, {asked} requests among them, {len(long)} bytes: status {status}, {took}, a record of {record} bytes")
    return status == SPENT


def main():
    parser = argparse.ArgumentParser()
    parser.add_argument("program")
    parser.add_argument("config")
    parser.add_argument("times", type=int, nargs="?", default=3)
    words = parser.parse_args()
    with open(words.config, encoding="ascii") as text:
        config = Config(text.read())
    right, rates = True, {without: [], with_journals: []}
    for _ in range(words.times):
        for way, found in rates.items():
            with tempfile.TemporaryDirectory() as folder:
                answered, good = way(words.program, config, folder)
                found.append(answered)
                right &= good
    print(f"{len(config.operations)} operations a second: {statistics.median(rates[without]):.0f} without journals, {statistics.median(rates[with_journals]):.0f} with")
    with tempfile.TemporaryDirectory() as folder:
        settings, events, all_right = long_run(words.program, config, folder)
    right &= all_right
    for size in SIZES:
        right &= tell_opening(words, config, settings, events[:size])
    return 0 if right else 1


if __name__ == "__main__":
    sys.exit(main())
