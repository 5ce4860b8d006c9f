#!/usr/bin/env python3
"""big_messages.py [--words WORDS] PROGRAM [COUNT]: long messages to nodes that work, and a host that was away.

- `in pieces`: COUNT (100, where none is said) messages each of 200 kB, 1 MB and 4 MB are sent to host 1 of three, under the number of host 2, which has no node. Behind each
  fourth piece the sender waits a millisecond. Meanwhile a client asks hosts 0 and 1. Which messages came whole, host 1's record tells
- `was away`: three nodes with journals. Host 2 is ended by signal 9, eight clients ask 2,000 operations, of 500 keys with values of 400 bytes, and then host 2 is
  started again. It needs a LOG of up to 140 kB and a state of some 200 kB. Once there is one operation each tenth of a second behind that, and once all clients go
  on asking. Host 2 has caught up with its first reply to a request that was asked behind its start

WORDS are those of a node with a journal behind PROGRAM, `node H 1000000 PATH` where they aren't said. H stands for its number, PATH for its journal.

Prints how many messages came, and how long it took to catch up; who has not in 60 seconds is `never`. The status is 0 where all messages came, host 2 caught up
within ten seconds, each result was that of the service, and each node ended by 0."""
import argparse
import os
import socket
import sys
import tempfile
import threading
import time

from running import KEEPING_NODE, NODE, Clients, Node, made_config
from wire import pieces, read_reply

SIZES = (200_000, 1_000_000, 4_000_000)
FOURTH, PAUSE = 4, 0.001
ASKED, ASKING, VALUE, KEYS = 2000, 8, 392, 4096 // 8
LIMIT, SOON, EACH = 60, 10, 0.1
NO_KIND = b"\xff"


class Sender(threading.Thread):
    """Sends long messages in paced pieces, one each `each` seconds or later."""

    def __init__(self, config, size, count):
        super().__init__(daemon=True)
        self.port, self.host, self.size, self.count = config.port + 1, config.hosts - 1, size, count
        self.thrower = socket.socket(socket.AF_INET, socket.SOCK_DGRAM)

    def run(self):
        for number in range(self.count):
            message = NO_KIND + number.to_bytes(4, "big") * (self.size // 4)
            for place, piece in enumerate(pieces(self.host, number, message[: self.size]), 1):
                self.thrower.sendto(piece, ("127.0.0.1", self.port))
                if place % FOURTH == 0:
                    time.sleep(PAUSE)
            time.sleep(PAUSE)


def long_lines(path, size):
    """How many messages of this size a record has."""
    wanted, found = len("given ") + 2 * size, 0
    with open(path, "rb") as record:
        for line in record:
            found += len(line.rstrip()) == wanted
    return found


def in_pieces(words, size):
    """How many long messages came, and whether all else was right."""
    config = made_config(1)
    with tempfile.TemporaryDirectory() as folder:
        nodes = [Node(words.program, NODE, host, config, folder) for host in range(config.hosts - 1)]
        clients, sender = Clients(config), Sender(config, size, words.count)
        clients.ask_all()
        sender.start()
        clients.work(600, lambda: not sender.is_alive())
        clients.work(1)
        answered = clients.all[0].answered
        statuses = clients.stop(nodes)
        came = long_lines(nodes[1].record, size)
    print(f"in pieces: of {words.count} messages of {size} bytes {came} came, beside {answered} results; wrong {clients.wrong()[:3]}; statuses {statuses}", flush=True)
    return came == words.count and not clients.wrong() and not any(statuses)


class Watched(Clients):
    """Clients that note when a host's first reply came to a request that was asked behind a moment."""

    def watch(self, host):
        self.host, self.since, self.caught_up = host, time.monotonic(), None

    def receive(self, hosts=None):
        got = super().receive(hosts)
        if got and self.caught_up is None:
            message, asker = got
            reply = read_reply(self.config, asker.client, message)
            if reply and reply[0] == self.host and reply[1] == asker.number and asker.asked > self.since:
                self.caught_up = time.monotonic()
        return got


def ask_now_and_then(clients):
    """Asks one operation each tenth of a second, until the host has caught up."""
    end = time.monotonic() + LIMIT
    while clients.caught_up is None and time.monotonic() < end:
        clients.ask(0)
        clients.await_answer(0, LIMIT)
        later = time.monotonic() + EACH
        while clients.caught_up is None and time.monotonic() < later:
            clients.receive()


def was_away(words, is_busy):
    config = made_config(1, ASKING)
    with tempfile.TemporaryDirectory() as folder:
        nodes = [Node(words.program, words.words, host, config, folder) for host in range(config.hosts)]
        clients = Watched(config, ASKING, size=VALUE, keys=KEYS)
        clients.watch(config.hosts - 1)
        nodes[-1].kill()
        clients.ask_all()
        worked = clients.work(600, lambda: clients.answered() >= ASKED) and clients.finish(LIMIT)
        clients.watch(config.hosts - 1)
        nodes[-1].start()
        begun, before = time.monotonic(), clients.answered()
        if is_busy:
            clients.ask_all()
            clients.work(LIMIT, lambda: clients.caught_up is not None)
        else:
            ask_now_and_then(clients)
        seconds = clients.caught_up and clients.caught_up - begun
        answered = clients.answered() - before
        statuses = clients.stop(nodes)
        sizes = [os.path.getsize(node.journal) for node in nodes]
    took = ("" if worked else "not all was answered before, ") + (f"behind {seconds:.2f} s" if seconds is not None else f"never in {LIMIT} s")
    asked = "asked on" if is_busy else "asked now and then"
    print(f"was away, {asked}: caught up {took} and {answered} results; journals of {sizes} bytes; wrong {clients.wrong()[:3]}; statuses {statuses}", flush=True)
    return worked and seconds is not None and seconds <= SOON and not clients.wrong() and not any(statuses)


def read_words():
    parser = argparse.ArgumentParser()
    parser.add_argument("--words", default=KEEPING_NODE)
    parser.add_argument("program")
    parser.add_argument("count", type=int, nargs="?", default=100)
    return parser.parse_args()


def main():
    words = read_words()
    right = [in_pieces(words, size) for size in SIZES] + [was_away(words, is_busy) for is_busy in (False, True)]
    return 0 if all(right) else 1


if __name__ == "__main__":
    sys.exit(main())
