"""Journals of nodes: their bytes and what these say, what was done to a disk, and what a crash may leave of it."""
import hashlib
import random
import struct

HEAD = 44
GIVEN, PATIENCE, NUDGE = 1, 2, 3
NAMES = {PATIENCE: "patience", NUDGE: "nudge"}
KINDS = {name: kind for kind, name in NAMES.items()}


def record_of(line):
    """The record of an event by its line in a record, without a gate."""
    kind, given = (KINDS[line], b"") if line in KINDS else (GIVEN, bytes.fromhex(line.removeprefix("given ")))
    return struct.pack(">IB", len(given), kind) + given


def file_of(settings, events):
    """The journal of the host of a record's settings with these events, each by its line."""
    words = {name: value for name, value in (line.split(" ") for line in settings[1:])}
    numbers = bytes(int(words[name]) for name in ("f", "k", "clients", "id"))
    head = b"MBJOURN1" + numbers + hashlib.sha256(bytes.fromhex(words["secret"])).digest()
    return head + b"".join(b"\1" + record_of(line) for line in events) + b"\0"


def events_of(file):
    """The events of a journal up to the first gate that isn't 1, each as its line in a record. The file ends behind a gate."""
    events, gate = [], HEAD
    while file[gate] == 1:
        size, kind = struct.unpack(">IB", file[gate + 1 : gate + 6])
        given = file[gate + 6 : gate + 6 + size]
        events.append(f"given {given.hex()}" if kind == GIVEN else NAMES[kind])
        gate += 6 + size
    return events


class Disk:
    """The bytes at the last sync, the ranges that were written since, and the bytes as they read."""

    def __init__(self):
        self.synced, self.written, self.reads = b"", [], b""

    def write(self, at, data):
        old = self.reads.ljust(at, b"\0")
        self.reads = old[:at] + data + old[at + len(data) :]
        self.written.append((at, at + len(data)))

    def sync(self):
        self.synced, self.written = self.reads, []

    def image(self, chance):
        """Bytes that a crash may leave: any in the ranges that were written and past the synced length, and any length that a write reached."""
        longest = max([len(self.synced)] + [end for _, end in self.written])
        size = chance.randint(len(self.synced), longest)
        image = bytearray(self.synced.ljust(size, b"\0"))
        wild = [*range(len(self.synced), size), *(place for at, end in self.written for place in range(at, min(end, size)))]
        for place in wild:
            as_read = self.reads[place] if place < len(self.reads) else 0
            image[place] = chance.choice([as_read, as_read, 0, 1, chance.randrange(256)])
        return bytes(image)


def calls_of(told):
    """What was done to a disk, as disk_calls.so tells it: writes with their place and bytes, and syncs, which are None."""
    calls, place = [], 0
    while place < len(told):
        if told[place : place + 1] == b"S":
            calls.append(None)
            place += 1
            continue
        at, size = struct.unpack("<QQ", told[place + 1 : place + 17])
        calls.append((at, told[place + 17 : place + 17 + size]))
        place += 17 + size
    return calls


def crashes_of(calls, count, seed):
    """So many moments, sampled: what is acknowledged, the event that is being appended or None, and an image of that moment."""
    chance = random.Random(seed)
    last = Disk()
    for call in calls:
        last.sync() if call is None else last.write(*call)
    every = events_of(last.reads)
    moments = sorted(chance.randrange(len(calls)) for _ in range(count))
    disk, done = Disk(), 0
    for moment in moments:
        for call in calls[done : moment + 1]:
            disk.sync() if call is None else disk.write(*call)
        done = moment + 1
        known = events_of(disk.synced) if len(disk.synced) > HEAD else []
        yield known, every[len(known) : len(known) + 1], disk.image(chance), len(disk.synced) > HEAD
