#!/usr/bin/env python3
"""strangers.py [--words WORDS] PROGRAM COUNT: sends three nodes with journals so many datagrams of strangers, as fast as they take them.

A stranger has no secret, and saw what went between hosts and clients. First a client asks a hundred operations. Then each datagram goes to a host that is drawn, and
is, as it is drawn: bytes at random; a piece of a message at random under a host's number; a message that a host was given, once more as it was, or with a few bytes
changed; or, so seldom that they are a third of all, one of the 128 pieces of a message of 4 MB. Then the client asks once more, and then a hundred operations.

WORDS are those of a node behind PROGRAM, `node H 1000000 PATH` where they aren't said. H stands for its number, PATH for its journal. A node by these keeps each
message that is whole. Where WORDS are others, `--most N` says how many bytes a journal may grow while the datagrams come.

Prints how long they took and how many the system dropped, how journals and resident memory of the nodes grew, how long the next result took, and the statuses.
The status is 0 where that came within two seconds, each result was that of the service, each node ended by 0, and no journal grew by more than that."""
import argparse
import os
import random
import socket
import struct
import sys
import tempfile
import time

from flood import queue_of
from running import KEEPING_NODE, Clients, Node, made_config
from wire import CLIENT_PEER, PIECE, pieces

ASKED, AT_ONCE, LIMIT = 100, 2, 60
LONGEST_MESSAGE = 4 << 20
LONG_ONE_IN = 384
"""Of so many draws one is a long message, which has 128 pieces."""
FULL = 100_000
"""How many bytes may wait at a node."""


def messages_of(record):
    """The messages that a host was given, by its record."""
    with open(record, encoding="ascii") as lines:
        return [bytes.fromhex(line.split()[1]) for line in lines if line.startswith("given ")]


def changed(draw, message):
    """The message with some bytes changed."""
    other = bytearray(message)
    for _ in range(draw.randrange(1, 4)):
        other[draw.randrange(len(other))] ^= 1 << draw.randrange(8)
    return bytes(other)


class Stranger:
    """Draws datagrams out of what it saw."""

    def __init__(self, config, seen, seed):
        self.draw, self.seen, self.number = random.Random(seed), seen, 0
        self.senders = [*range(config.hosts), CLIENT_PEER]

    def pieces_of(self, message):
        self.number += 1
        return pieces(self.draw.choice(self.senders), self.number, message)

    def bytes_at_random(self):
        return [self.draw.randbytes(self.draw.randrange(1, 2000))]

    def message_at_random(self):
        return self.pieces_of(self.draw.randbytes(self.draw.randrange(1, 2000)))

    def again(self):
        return self.pieces_of(self.draw.choice(self.seen))

    def other(self):
        return self.pieces_of(changed(self.draw, self.draw.choice(self.seen)))

    def long(self):
        return self.pieces_of(bytes([self.draw.randrange(1, 17)]) + self.draw.randbytes(PIECE) * (LONGEST_MESSAGE // PIECE - 1))

    def next(self):
        """The datagrams of one draw."""
        if self.draw.randrange(LONG_ONE_IN) == 0:
            return self.long()
        return self.draw.choice((self.bytes_at_random, self.message_at_random, self.again, self.other))()


class Thrower:
    """Sends datagrams to hosts, each only once the host has room for it."""

    def __init__(self, config, count):
        self.config, self.left = config, count
        self.socket = socket.socket(socket.AF_INET, socket.SOCK_DGRAM)

    def throw(self, host, datagrams):
        port = self.config.port + host
        for datagram in datagrams[: self.left]:
            while queue_of(port)[0] > FULL:
                time.sleep(0.0005)
            self.socket.sendto(datagram, ("127.0.0.1", port))
            self.left -= 1


def throw_all(config, seen, count):
    """Sends all, and gives how many seconds it took."""
    begun, stranger, thrower = time.monotonic(), Stranger(config, seen, count), Thrower(config, count)
    while thrower.left:
        thrower.throw(stranger.draw.randrange(config.hosts), stranger.next())
    return time.monotonic() - begun


def sizes(nodes):
    return [os.path.getsize(node.journal) for node in nodes], [node.resident() for node in nodes]


def ask_some(clients):
    """Asks so many operations, and tells whether all were answered."""
    for _ in range(ASKED):
        clients.ask(0)
        if clients.await_answer(0, LIMIT) is None:
            return False
    return True


def read_words():
    parser = argparse.ArgumentParser()
    parser.add_argument("--words", default=KEEPING_NODE)
    parser.add_argument("--most", type=int)
    parser.add_argument("program")
    parser.add_argument("count", type=int)
    return parser.parse_args()


def grown(name, unit, before, behind):
    return f"{name} grew from {before} to {behind} {unit}"


def main():
    words, config = read_words(), made_config(1)
    with tempfile.TemporaryDirectory() as folder:
        nodes = [Node(words.program, words.words, host, config, folder) for host in range(config.hosts)]
        clients = Clients(config)
        worked = ask_some(clients)
        seen = messages_of(nodes[1].record)
        journals, resident = sizes(nodes)
        seconds = throw_all(config, seen, words.count)
        dropped = [queue_of(config.port + host)[1] for host in range(config.hosts)]
        clients.ask(0)
        answer = clients.await_answer(0, LIMIT)
        later_journals, later_resident = sizes(nodes)
        worked &= ask_some(clients)
        statuses = clients.stop(nodes)
    most = max(behind - before for before, behind in zip(journals, later_journals))
    print(f"{words.count} datagrams in {seconds:.0f} s, dropped by the system {dropped}")
    print(grown("journals", "bytes", journals, later_journals))
    print(grown("resident memory", "kB", resident, later_resident))
    came = f"behind {answer:.3f} s" if answer is not None else f"not in {LIMIT} s"
    print(f"the next result came {came}, then {ASKED} more: {worked}; wrong {clients.wrong()[:3]}; statuses {statuses}")
    is_right = worked and answer is not None and answer <= AT_ONCE and not clients.wrong() and not any(statuses)
    return 0 if is_right and (words.most is None or most <= words.most) else 1


if __name__ == "__main__":
    sys.exit(main())
