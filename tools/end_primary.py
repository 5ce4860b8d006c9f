#!/usr/bin/env python3
"""end_primary.py [--words WORDS] [--delay MS] PROGRAM F TIMES LOAD..: how long clients wait for their next result where the primary ends.

So often 2F + 1 new nodes are started, clients ask them operations, and the primary is ended by signal 9 while it is at work. A client's time goes from the
signal to the result of the first request that it asked behind it. LOAD is one of these:

- `repeat`: one client, which sends the request that waits again each 30 milliseconds
- `stranger`: one client, and a datagram that is no piece, each 20 milliseconds to each host
- `useless`: one client, and each 20 milliseconds to each host a message of the highest host that is of no use, and of which no host needs the tag to make it:
  in turn a RESEND that asks for nothing, a request that was answered long ago, and bytes that are no message. Where F is above 1, this host has no node
- `clients N`: so many clients, each with a request that waits, and sends it again each 200 milliseconds, as in all loads but the first

WORDS are those of a node behind PROGRAM, `node H 1000000` where they aren't said. H stands for its number, PATH for its journal. With `--delay` each datagram
takes so many milliseconds (relay.py).

Prints a line for each run, and at the end the worst time, the middle one, and how many were above two seconds; who has no result in 60 seconds is `never`. The
status is 0 where each result was that of the service, each client had one, and each node that was left ended by 0."""
import argparse
import os
import random
import socket
import statistics
import struct
import subprocess
import sys
import tempfile
import threading
import time

from running import NODE, SEND_AGAIN, Clients, Node, inside_of, made_config
from wire import pieces, request

RELAY = os.path.join(os.path.dirname(os.path.abspath(__file__)), "relay.py")
LIMIT, LONG, REPEATED = 60, 2, 0.03
DISTURBS_EACH = 0.02
FIRST_ANSWERS, LONGEST_WORK = 50, 30


class Disturber(threading.Thread):
    """Sends each host a datagram each 20 milliseconds, until it is told to end."""

    def __init__(self, config, datagrams):
        super().__init__(daemon=True)
        self.config, self.datagrams, self.over = config, datagrams, threading.Event()
        self.thrower = socket.socket(socket.AF_INET, socket.SOCK_DGRAM)

    def run(self):
        for datagram in self.datagrams:
            for host in range(self.config.hosts):
                self.thrower.sendto(datagram, ("127.0.0.1", self.config.port + host))
            if self.over.wait(DISTURBS_EACH):
                return


def no_pieces():
    while True:
        yield b"?"


def useless(config, host):
    """Pieces of a host's messages of no use."""
    nowhere = struct.pack(f">{1 + config.hosts}Q", *[1 << 62] * (1 + config.hosts))
    messages = [b"\x0c" + bytes([host]) + nowhere, request(config, 0, 1, b"\2\1a"), b"\xff"]
    number = 0
    while True:
        yield from pieces(host, number, messages[number % len(messages)])
        number += 1


def disturbance(config, load):
    """The datagrams that come beside those of clients, or None."""
    return {"stranger": no_pieces(), "useless": useless(config, config.hosts - 1)}.get(load)


def is_silent(config, load, host):
    """Whether this host has no node."""
    return load == "useless" and config.faults > 1 and host == config.hosts - 1


def times_behind(clients, end):
    """Of each client how long after `end` it had the result of a request that it asked behind it, or None."""
    times = [None] * len(clients.all)

    def all_done():
        for client, asker in enumerate(clients.all):
            if times[client] is None and asker.last is not None and asker.last > end:
                times[client] = time.monotonic() - end
        return None not in times

    clients.work(LIMIT, all_done)
    return times


class Relay:
    """The ways between hosts and clients, where they take time."""

    def __init__(self, config, delay):
        self.words = [sys.executable, RELAY, str(config.port), str(config.hosts), str(delay)]
        self.is_there = delay > 0

    def __enter__(self):
        self.process = subprocess.Popen(self.words) if self.is_there else None

    def __exit__(self, *_):
        if self.process:
            self.process.kill()
            self.process.wait()


def one_run(words, count, load):
    """The times of the clients, the statuses of the nodes that were left, what was wrong, and how many results came before the end."""
    config = made_config(words.faults, count)
    with tempfile.TemporaryDirectory() as folder, Relay(config, words.delay):
        own = [inside_of(config, host) if words.delay else config for host in range(config.hosts)]
        nodes = [Node(words.program, words.words, host, own[host], folder) for host in range(config.hosts) if not is_silent(config, load, host)]
        clients = Clients(config, count, REPEATED if load == "repeat" else SEND_AGAIN)
        disturber = Disturber(config, disturbance(config, load) or iter(()))
        clients.ask_all()
        worked = clients.work(LONGEST_WORK, lambda: clients.answered() >= FIRST_ANSWERS + count)
        disturber.start()
        clients.work(random.uniform(0, 0.3))
        before = clients.answered()
        nodes[0].kill()
        times = times_behind(clients, time.monotonic())
        disturber.over.set()
        disturber.join()
        statuses = clients.stop(nodes[1:])
    return times, statuses, clients.wrong() + ([] if worked else ["it did not come to its work"]), before


def told(times):
    return " ".join(f"{one:.2f}" if one is not None else "never" for one in sorted(times, key=lambda one: one or LIMIT))


def read_words():
    parser = argparse.ArgumentParser()
    parser.add_argument("--words", default=NODE)
    parser.add_argument("--delay", type=float, default=0)
    parser.add_argument("program")
    parser.add_argument("faults", type=int)
    parser.add_argument("times", type=int)
    parser.add_argument("load", choices=("repeat", "stranger", "useless", "clients"))
    parser.add_argument("count", type=int, nargs="?", default=1)
    return parser.parse_args()


def main():
    words = read_words()
    every, right = [], True
    for number in range(1, words.times + 1):
        times, statuses, wrong, before = one_run(words, words.count, words.load)
        every += times
        right &= not wrong and not any(statuses)
        seen = times if len(times) <= 4 else [min(times, key=lambda one: one or LIMIT), max(times, key=lambda one: one or LIMIT)]
        print(f"run {number}: ended behind {before} results; the next ones behind {told(seen)} s; statuses {statuses}" + (f"; wrong {wrong[:3]}" if wrong else ""), flush=True)
    came = [one for one in every if one is not None]
    long, never = sum(one > LONG for one in came), len(every) - len(came)
    middle = f"worst {max(came):.2f} s, middle {statistics.median(came):.2f} s" if came else "no result"
    print(f"f = {words.faults}, {words.load} {words.count}: {words.times} runs, {len(every)} times: {middle}, {long} above {LONG} s, {never} never")
    return 0 if right and not never else 1


if __name__ == "__main__":
    sys.exit(main())
