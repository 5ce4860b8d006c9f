#!/usr/bin/env python3
"""lying_primary.py LIE POSITION PROGRAM.. node HOST EVENTS: a faulty host, whose trusted part works, in the place of a node.

It is PROGRAM's node, at ports of its own (200 above the config's), and all that it is sent and sends is passed on. Once it orders
POSITION or a later one, the LIE is stamped behind that PREPARE, with the counters that follow, and sent. Of what the node stamps
from there on nothing is sent, so no counter is used twice. Who asks for it is told the lie again.

LIE is one of these; the other batch is that of its PREPARE before:

- `again`: a PREPARE of the other batch at the same position
- `split`: likewise, but the last host gets that one alone, and the others the first alone
- `skip`: a PREPARE at the position behind the next one
- `left`: a VIEW_CHANGE, and then a PREPARE in the view that it has left
- `vote`: a COMMIT of the other batch, which names its own PREPARE of the first
- `change`: two VIEW_CHANGEs to one view
- `announce`: a NEW_VIEW, which it may not or not again announce
- `enter`: an ENTER, which is for backups
- `open`, `join`: an OPEN of a view, a JOIN at a position, with certificates that nobody made
- `checkpoint`: a CHECKPOINT at a position that is none for it
- `twice`: the other batch at the same position with the same counter. This one needs a trusted part that is broken

Reads a config and writes the node's record, as a node does. Says on standard error what an audit of this host has to say."""
import hashlib
import os
import select
import socket
import struct
import subprocess
import sys
from dataclasses import dataclass

from wire import CLIENT_PORT, Config, Joiner, keyed, pieces

BESIDE = 200
LONGEST = 32778
WAIT = 0.05
PREPARE, COMMIT, CHECKPOINT, VIEW_CHANGE, NEW_VIEW, ENTER, OPEN, JOIN, LOG = 2, 3, 5, 7, 8, 9, 10, 11, 13
LIES = ("again", "split", "skip", "left", "vote", "change", "announce", "enter", "open", "join", "checkpoint", "twice")
STAMPED = (PREPARE, COMMIT, CHECKPOINT, VIEW_CHANGE, NEW_VIEW, ENTER, OPEN, JOIN)
NOTHING = bytes(32)
"""The digest, or the certificate, of nothing."""


def numbers(*values):
    return struct.pack(f">{len(values)}Q", *values)


def counter_of(stamped):
    return struct.unpack(">Q", stamped[-40:-32])[0]


@dataclass
class Prepare:
    """A PREPARE that a node sent."""

    view: int
    position: int
    batch: bytes
    counter: int
    certificate: bytes

    @classmethod
    def read(cls, message):
        return cls(*struct.unpack(">QQ", message[2:18]), message[18:-41], counter_of(message), message[-32:])


@dataclass
class Said:
    """What is to be stamped: a body, or the digest of one, or neither."""

    kind: int
    head: bytes
    body: bytes = b""
    digest: bytes = b""

    def stamped(self, config, host, counter):
        digest = hashlib.sha256(self.body).digest() if self.body else self.digest
        bare = hashlib.sha256(bytes([self.kind]) + self.head + digest).digest()
        identifier = bytes([host]) + numbers(counter)
        certificate = keyed(keyed(config.secret, b"U"), b"U" + identifier + bare)
        form = bytes([self.kind, 1 if self.body else 0])
        return form + self.head + (self.body or self.digest) + identifier + certificate


class Lies:
    """What each lie says behind a PREPARE of a host, which has the batch of another one at hand."""

    def __init__(self, config, host, prepare, other):
        self.config, self.host, self.prepare, self.other = config, host, prepare, other

    def table(self):
        """Of each lie the rule that its last message breaks, and what is stamped."""
        view, position = self.prepare.view, self.prepare.position
        left = Said(VIEW_CHANGE, numbers(view + 1), digest=NOTHING)
        again = self.ordered(view, position)
        own = view or self.config.hosts + self.host  # a view above 0 of which it is the primary
        return {
            "again": (6, [again]),
            "split": (6, [again]),
            "skip": (6, [self.ordered(view, position + 2)]),
            "left": (6, [left, self.ordered(view, position + 1)]),
            "vote": (7, [self.vote()]),
            "change": (1, [left, left]),
            "announce": (2, [Said(NEW_VIEW, numbers(own, 0, 0) + NOTHING, digest=NOTHING)]),
            "enter": (3, [Said(ENTER, numbers(own, 1) + NOTHING)]),
            "open": (4, [Said(OPEN, self.evidence(own), digest=NOTHING)]),
            "join": (5, [Said(JOIN, numbers(view) + (self.evidence(view) if view else b"") + self.stable())]),
            "checkpoint": (8, [self.checkpoint(position * self.config.interval + 1)]),
            "twice": (6, [again]),
        }

    def ordered(self, view, position):
        return Said(PREPARE, numbers(view, position), body=self.other)

    def vote(self):
        prepare = self.prepare
        named = numbers(prepare.view, prepare.position, prepare.counter) + prepare.certificate
        return Said(COMMIT, named, body=self.other)

    def checkpoint(self, position):
        no_floors = bytes(self.config.hosts)
        return Said(CHECKPOINT, numbers(position) + NOTHING, body=no_floors)

    def evidence(self, view):
        backups = [host for host in range(self.config.hosts) if host != view % self.config.hosts]
        members = b"".join(bytes([host]) + numbers(1) + NOTHING for host in backups[: self.config.faults])
        return numbers(view, 0, 0) + NOTHING + NOTHING + numbers(1) + NOTHING + members

    def stable(self):
        members = b"".join(bytes([host]) + numbers(1) + NOTHING + NOTHING for host in range(self.config.faults + 1))
        return numbers(self.config.interval) + NOTHING + members


class Liar:
    """What a host tells others in the place of what its node sends."""

    def __init__(self, config, host, lie, position):
        self.config, self.host, self.lie, self.position = config, host, lie, position
        self.last, self.whole, self.lies = None, b"", []

    def see(self, message):
        """A PREPARE of the node. The first from the position on makes it lie."""
        prepare = Prepare.read(message)
        if self.lies or (self.last and prepare.counter <= self.last.counter):
            return
        if self.last and prepare.position >= self.position:
            self.tell(prepare, self.last.batch)
            self.whole = message
        self.last = prepare

    def tell(self, prepare, other):
        rule, said = Lies(self.config, self.host, prepare, other).table()[self.lie]
        first = prepare.counter + (self.lie != "twice")
        self.lies = [one.stamped(self.config, self.host, first + number) for number, one in enumerate(said)]
        verdict = f"h{self.host} {counter_of(self.lies[-1])}"
        print(f"double {verdict}" if self.lie == "twice" else f"illegal {verdict} {rule}", file=sys.stderr, flush=True)

    def told(self, to):
        """The PREPARE and the lie, as far as they go to this host."""
        if self.lie != "split":
            return [self.whole, *self.lies]
        last = self.config.hosts - (2 if self.host == self.config.hosts - 1 else 1)
        return self.lies if to == last else [self.whole]

    def sent(self, message, to):
        """The messages that go to a host where the node sends this one."""
        if message[0] == PREPARE:
            self.see(message)
        if not self.lies or message[0] not in (*STAMPED, LOG):
            return [message]
        if message[0] == LOG or counter_of(message) == self.last.counter:
            return self.told(to)
        return [message] if counter_of(message) < self.last.counter else []


def bound(port):
    taken = socket.socket(socket.AF_INET, socket.SOCK_DGRAM)
    taken.bind(("127.0.0.1", port))
    return taken


def started(words, config, record=None):
    """The node, which ends where this script does. Its record goes to a file, where one is given."""
    node = subprocess.Popen(words, stdin=subprocess.PIPE, stdout=record, env={**os.environ, "MINBFT_STARTED_BY": str(os.getpid())})
    text = config.text.replace(f"\nport {config.port}\n", f"\nport {config.port + BESIDE}\n")
    node.stdin.write(text.encode())
    node.stdin.close()
    return node


class Wire:
    """The sockets of a host, and those that its node takes for the others'."""

    def __init__(self, config, liar):
        self.port, self.liar, self.count = config.port, liar, 0
        self.outside = bound(config.port + liar.host)
        others = [host for host in range(config.hosts) if host != liar.host]
        self.inside = {bound(config.port + BESIDE + peer): peer for peer in (*others, CLIENT_PORT)}
        self.joiners = {peer: Joiner() for peer in others}

    def send(self, datagram, peer):
        self.outside.sendto(datagram, ("127.0.0.1", self.port + peer))

    def pass_on(self, ready):
        datagram = ready.recv(LONGEST)
        peer = self.inside.get(ready)
        if peer is None:
            self.send(datagram, BESIDE + self.liar.host)
        elif peer == CLIENT_PORT:
            self.send(datagram, peer)
        else:
            self.say(self.joiners[peer].push(datagram), peer)

    def say(self, message, peer):
        for one in self.liar.sent(message, peer) if message else []:
            for piece in pieces(self.liar.host, self.count, one):
                self.send(piece, peer)
            self.count += 1

    def close(self):
        for one in (self.outside, *self.inside):
            one.close()


def main():
    lie, position, words = sys.argv[1], int(sys.argv[2]), sys.argv[3:]
    config = Config(sys.stdin.read())
    wire = Wire(config, Liar(config, int(words[-2]), lie, position))
    node = started(words, config)
    while node.poll() is None:
        for ready in select.select([wire.outside, *wire.inside], [], [], WAIT)[0]:
            wire.pass_on(ready)
    return node.returncode


if __name__ == "__main__":
    sys.exit(main())
