#!/usr/bin/env python3
"""long_rows.py cluster CONFIG: what arrives and what is sent in a long run of a client program, as a file `outside` of crates/mb_program_tests.
long_rows.py node RECORD: what arrives at a node whose record this is, likewise. The record is to be an outside program's.

The replies are made here, with right tags: mostly of two hosts in turn, now and then with a quiet, a reply again, or one of another number before them."""
import struct
import sys

from wire import CLIENT_PEER, Config, Store, client_key, keyed, pieces, request, stop, text16


def reply(config, host, number, result):
    said = bytes([host, 0]) + struct.pack(">QQ", number, number) + text16(result)
    return b"\x04" + said + keyed(client_key(config, 0), b"R" + said)


class Client:
    """What a client program sends, and what comes to it."""

    def __init__(self, config):
        self.config, self.sent, self.lines = config, 0, []
        self.numbers = [0] * config.hosts

    def to_all(self, message):
        for host in range(self.config.hosts):
            self.lines += [f"sends {host} {piece.hex()}" for piece in pieces(CLIENT_PEER, self.sent, message)]
        self.sent += 1

    def arrives(self, host, message):
        self.lines += [f"arrives {piece.hex()}" for piece in pieces(host, self.numbers[host], message)]
        self.numbers[host] += 1

    def asks(self, number, operation, result):
        asked = request(self.config, 0, number, operation)
        self.to_all(asked)
        first, second = number % self.config.hosts, (number + 1) % self.config.hosts
        if number % 7 == 0:
            self.lines.append("quiet")
            self.to_all(asked)
        self.arrives(first, reply(self.config, first, number, result))
        if number % 5 == 0:
            self.arrives(first, reply(self.config, first, number, result))
        if number % 11 == 0:
            self.arrives(second, reply(self.config, second, number + 1, result))
        self.arrives(second, reply(self.config, second, number, result))


def cluster(config):
    client, store = Client(config), Store()
    for number, operation in enumerate(config.operations, 1):
        client.asks(number, operation, store.apply(operation))
    for _ in range(3):
        client.to_all(stop(config))
    text = "".join(f"{line}\n" for line in client.config.text.splitlines())
    assert text == client.config.text
    starts = [f"starts node {host} 100000 < config > node-{host}.record" for host in range(config.hosts)]
    waits = [f"waits {host} 0" for host in range(config.hosts)]
    return [f"opens {config.port} {CLIENT_PEER}", *client.lines, *starts, *waits]


def node(record):
    """Each message that was given arrives from one sender, a piece at a time; each nudge and each lost patience is a quiet."""
    rows = [line.split(" ") for line in record.splitlines()]
    words = {row[0]: row[1] for row in rows[1:7]}
    lines, number = [f"opens {words['port']} {words['id']}"], 0
    for row in rows[7:]:
        if row[0] == "given":
            lines += [f"arrives {piece.hex()}" for piece in pieces(CLIENT_PEER, number, bytes.fromhex(row[1].replace("-", "")))]
            number += 1
        elif row[0] in ("nudge", "patience"):
            lines.append("quiet")
    return lines


def main():
    with open(sys.argv[2], encoding="ascii") as text:
        given = text.read()
    lines = cluster(Config(given)) if sys.argv[1] == "cluster" else node(given)
    print("\n".join(lines))


if __name__ == "__main__":
    main()
