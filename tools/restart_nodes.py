#!/usr/bin/env python3
"""restart_nodes.py [--audit PROGRAM] CONFIG TIMES PROGRAM..: three nodes with journals, of which one is ended by signal 9 and started again, so often.

Host H is started by the H-th PROGRAM (words behind it: `node H 1000000 PATH`). While a client asks the config's operations again and again, a node is drawn,
ended at a random moment and started from its journal, with a record of its own each time. Right is: each result is that of a key-value store kept here, at
positions that rise; each record begins with all whole pairs of lines of those before, or ended while it wrote them, but for the last; each PROGRAM retraces
that; and, where a program is named that audits, it finds in no last record two messages of a host with one counter. Prints what is not, and how long the nodes
took to come back."""
import argparse
import os
import random
import signal
import subprocess
import sys
import tempfile
import threading
import time

from by_hand import Client, ended
from wire import Config, expected_lines, stop

HEADER_LINES = 7
EVENTS = "1000000"
LATE = 30


class Host:
    """One host: its node, its journal and the record of each of its runs."""

    def __init__(self, program, number, config, folder):
        self.program, self.number, self.config, self.folder = program.split(" "), number, config, folder
        self.journal, self.records, self.back = os.path.join(folder, f"journal-{number}"), [], []
        subprocess.run([*self.program, "journal", str(number), self.journal], input=config.text.encode(), check=True)
        self.start()

    def start(self):
        begun = time.monotonic()
        self.records.append(os.path.join(self.folder, f"node-{self.number}-{len(self.records)}.record"))
        with open(self.records[-1], "wb") as record:
            self.node = subprocess.Popen([*self.program, "node", str(self.number), EVENTS, self.journal], stdin=subprocess.PIPE, stdout=record)
        self.node.stdin.write(self.config.text.encode())
        self.node.stdin.close()
        while self.node.poll() is None and os.path.getsize(self.records[-1]) == 0 and time.monotonic() < begun + LATE:
            time.sleep(0.001)
        self.back.append(time.monotonic() - begun)

    def restart(self):
        self.node.send_signal(signal.SIGKILL)
        self.node.wait()
        self.start()

    def pairs(self, number):
        """The whole pairs of lines of a record."""
        with open(self.records[number], encoding="ascii") as record:
            lines = record.read().split("\n")[HEADER_LINES:]
        return list(zip(lines[0:-1:2], lines[1:-1:2]))

    def lost(self):
        """The runs whose record does not begin as the longest one before. One that ended while it wrote that beginning is shorter; the last may not be."""
        known, wrong = [], []
        for number in range(len(self.records)):
            pairs = self.pairs(number)
            both = min(len(known), len(pairs))
            if pairs[:both] != known[:both] or (both < len(known) and number == len(self.records) - 1):
                wrong.append(number)
            known = max(known, pairs, key=len)
        return wrong

    def answer(self, program, *words):
        with open(self.records[-1], "rb") as record:
            run = subprocess.run([*program, *words], stdin=record, capture_output=True, text=True)
        return run.returncode, run.stdout.strip()


def restart_all(hosts, times, chance, done):
    for _ in range(times):
        time.sleep(chance.uniform(0.01, 0.3))
        chance.choice(hosts).restart()
    done.set()


def ask_until(config, client, done):
    """The lines of the results while nodes are started again, and of one round more of the operations."""
    lines = []
    for _ in iter(done.is_set, True):
        lines += ask_all(config, client)
    return lines + ask_all(config, client)


def ask_all(config, client):
    answers = [client.ask(operation) for operation in config.operations]
    return [f"result {answer[0]} {answer[1].hex()}" if answer else "no answer" for answer in answers]


def wanted_results(config, count):
    """The results of the operations again and again."""
    config.operations = config.operations * (count // len(config.operations))
    return [line.split(" ")[-1] for line in expected_lines(config)]


def not_right(config, lines):
    """The lines with another result than that of the store, and those whose position is not above the one before. Where a LOG
    raises a primary's stable position over a request that it ordered and did not execute, the request still waits there and is ordered again, at a position
    more, where it changes nothing. So positions may leave one out."""
    words = [line.split(" ") for line in lines]
    others = [line for line, want in zip(lines, wanted_results(config, len(lines))) if line.split(" ")[-1] != want]
    places = [int(word[1]) if word[0] == "result" else 0 for word in words]
    return others + [line for line, before, here in zip(lines[1:], places, places[1:]) if here <= before]


def audit_all(hosts, program):
    return [(host.number, of, answer) for host in hosts for of in range(len(hosts)) for answer in [host.answer(program.split(" "), "audit", str(of))] if answer[0] not in (0, 13)]


def main():
    parser = argparse.ArgumentParser()
    parser.add_argument("--audit")
    parser.add_argument("config")
    parser.add_argument("times", type=int)
    parser.add_argument("programs", nargs=3)
    words = parser.parse_args()
    with open(words.config, encoding="ascii") as text:
        config = Config(text.read())
    with tempfile.TemporaryDirectory() as folder:
        hosts = [Host(program, number, config, folder) for number, program in enumerate(words.programs)]
        client, done = Client(config), threading.Event()
        killer = threading.Thread(target=restart_all, args=(hosts, words.times, random.Random(words.times), done))
        killer.start()
        lines = ask_until(config, client, done)
        killer.join()
        for _ in range(3):
            client.tell(stop(config))
        statuses = [ended(host.node) for host in hosts]
        lost = [(host.number, host.lost()) for host in hosts if host.lost()]
        retraced = [host.answer(host.program, "retrace") for host in hosts]
        doubles = audit_all(hosts, words.audit) if words.audit else []
        sizes = [os.path.getsize(host.journal) for host in hosts]
    wrong, last = not_right(config, lines), lines[-1].split(" ")[1]
    slowest = max(second for host in hosts for second in host.back)
    print(f"{words.times} restarts, {len(lines)} answers, the last at position {last}, {len(wrong)} not right {wrong[:3]}; lost {lost}; statuses {statuses}")
    print(f"retraced {retraced}; audits that blame {doubles}; journals of {sizes} bytes; the slowest start {slowest:.2f} s")
    return 1 if wrong or lost or doubles or any(status != 0 for status in statuses) or any(answer[0] != 0 for answer in retraced) else 0


if __name__ == "__main__":
    sys.exit(main())
