#!/usr/bin/env python3
"""crash_images.py CONFIG COUNT LIBRARY PROGRAM..: a real run of a node with a journal, and so many images that a crash may leave of it, each opened.

LIBRARY is disk_calls.c, built. The first PROGRAM runs as host 0 of the config's system while a client asks the config's operations of it alone: its
disk's calls are told. Then moments of the run are sampled, and for each an image; each PROGRAM opens it. Right is a record that begins with all events
that were acknowledged at that moment, in order, and then at most the one that was being appended; of a journal that was not made yet, also status 17.
Prints each answer that is not right, and their number."""
import collections
import os
import subprocess
import sys
import tempfile

from by_hand import Client
from journal import calls_of, crashes_of
from wire import Config

HEADER_LINES = 7


def events_in(record):
    """The events of a record: every second line behind its settings, where both lines of a pair are whole."""
    lines = record.decode().split("\n")[HEADER_LINES:]
    return [lines[at] for at in range(0, len(lines) - 2, 2)]


def run_node(program, config, folder, receives, setting=None):
    return subprocess.Popen([*program.split(" "), "node", "0", str(receives), "journal"], stdin=subprocess.PIPE,
                            stdout=subprocess.PIPE, cwd=folder, env={**os.environ, **(setting or {})})


def make_journal(program, config, folder, setting):
    subprocess.run([*program.split(" "), "journal", "0", "journal"], input=config.text.encode(), cwd=folder, check=True,
                   env={**os.environ, **setting})


def told_by(program, library, config):
    """What a node did to its disk while a client asked it."""
    with tempfile.TemporaryDirectory() as folder:
        setting = {"LD_PRELOAD": os.path.realpath(library), "DISK_TELL": os.path.join(folder, "told")}
        make_journal(program, config, folder, setting)
        node = run_node(program, config, folder, len(config.operations) + 20, setting)
        node.stdin.write(config.text.encode())
        node.stdin.close()
        head = node.stdout.read1(1)
        client = Client(config)
        for number, operation in enumerate(config.operations, 1):
            client.ask_once(operation)
        client.socket.close()
        node.stdout.read()
        node.wait()
        with open(setting["DISK_TELL"], "rb") as told:
            return calls_of(told.read())


def answer(program, config, image):
    """The status of a node that opens an image and makes one receive, and the events of its record."""
    with tempfile.TemporaryDirectory() as folder:
        with open(os.path.join(folder, "journal"), "wb") as journal:
            journal.write(image)
        node = run_node(program, config, folder, 1)
        record, _ = node.communicate(config.text.encode())
        return node.returncode, events_in(record)


def is_right(status, events, known, next_event, is_made):
    if not is_made and status == 17:
        return True
    return status == 9 and events[:-1] in (known, known + next_event)


def main():
    with open(sys.argv[1], encoding="ascii") as text:
        config = Config(text.read())
    count, library, programs = int(sys.argv[2]), sys.argv[3], sys.argv[4:]
    calls = told_by(programs[0], library, config)
    wrong, found = 0, collections.Counter()
    for known, next_event, image, is_made in crashes_of(calls, count, 1):
        for program in programs:
            status, events = answer(program, config, image)
            more = len(events) - 1 - len(known) if status == 9 else "bad journal"
            found[more] += 1
            if not is_right(status, events, known, next_event, is_made):
                wrong += 1
                print(f"{program}: status {status}, {len(events)} events, {len(known)} acknowledged: {image[:80].hex()}")
    print(f"{len(calls)} calls of the disk, {count} images; events beyond the acknowledged: {dict(found)}; {wrong} not right")
    return 1 if wrong else 0


if __name__ == "__main__":
    sys.exit(main())
