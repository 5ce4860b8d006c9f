#!/usr/bin/env python3
"""flood.py CONFIG COUNT PROGRAM..: three nodes by these programs; sends host 1 so many datagrams that are no pieces.

Prints its resident memory before and behind them, how many the system dropped before they reached it, and whether the
cluster still answers as a key-value store kept here."""
import os
import random
import socket
import struct
import sys
import tempfile
import time

from by_hand import Client, ask_all, ended, start
from wire import Config, expected_lines, stop

TARGET = 1
LONGEST = 65507


def status_kilobytes(process, word):
    with open(f"/proc/{process}/status", encoding="ascii") as lines:
        return next(int(line.split()[1]) for line in lines if line.startswith(word))


def queue_of(port):
    """(bytes that wait, datagrams dropped) of the socket at this port."""
    with open("/proc/net/udp", encoding="ascii") as lines:
        for row in (line.split() for line in lines):
            if row[1].endswith(f":{port:04X}"):
                return int(row[4].split(":")[1], 16), int(row[-1])
    raise SystemExit("the node has no socket")


def no_piece(draw):
    """A datagram that breaks one rule of pieces."""
    head = lambda sender, index, count: struct.pack(">BIHH", sender, draw.getrandbits(32), index, count)
    rows = [
        b"",
        draw.randbytes(draw.randrange(1, 10)),
        head(0, 0, 0) + draw.randbytes(20),
        head(0, 0, 129) + draw.randbytes(20),
        head(2, 5, 5) + draw.randbytes(20),
        head(2, 0, 2) + draw.randbytes(draw.randrange(1, 2000)),
        head(draw.randrange(3, 255), 0, 1) + draw.randbytes(50),
        head(0, 0, 1) + draw.randbytes(32769),
        head(0, 0, 2) + draw.randbytes(draw.randrange(32769, LONGEST - 9)),
    ]
    return rows[draw.randrange(len(rows))]


def flood(port, count):
    draw = random.Random(7)
    thrower = socket.socket(socket.AF_INET, socket.SOCK_DGRAM)
    # Building long random bytes each time would be the slow part.
    shots = [no_piece(draw) for _ in range(500)]
    for number in range(count):
        thrower.sendto(shots[number % len(shots)], ("127.0.0.1", port))
        while number % 4 == 3 and queue_of(port)[0] > 60000:
            time.sleep(0.0005)


def main():
    with open(sys.argv[1], encoding="ascii") as text:
        config = Config(text.read())
    count, programs = int(sys.argv[2]), sys.argv[3:]
    with tempfile.TemporaryDirectory() as folder:
        nodes = [start(program, host, config, folder) for host, program in enumerate(programs)]
        process, port = nodes[TARGET].pid, config.port + TARGET
        time.sleep(0.5)
        before = status_kilobytes(process, "VmRSS")
        flood(port, count)
        time.sleep(0.5)
        behind = status_kilobytes(process, "VmRSS")
        dropped = queue_of(port)[1]
        client = Client(config)
        lines = ask_all(config, client, nodes, None)
        for _ in range(3):
            client.tell(stop(config))
        statuses = [ended(node) for node in nodes]
    right = lines == expected_lines(config)
    print(f"{count} sent, {dropped} dropped by the system; resident {before} kB before, {behind} kB behind; answers right: {right}; statuses {statuses}")
    return 0 if right and statuses == [0, 0, 0] else 1


if __name__ == "__main__":
    sys.exit(main())
