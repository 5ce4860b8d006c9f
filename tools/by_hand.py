#!/usr/bin/env python3
"""by_hand.py CONFIG PROGRAM..: starts host H by the H-th PROGRAM (words behind it: `node H 1000000`) and is its client.

Options before CONFIG: `--kill H N` ends host H by signal 9 behind the N-th answer. `--retrace PROGRAM` retraces each
record that is whole. Prints the result lines where they aren't those of a key-value store kept here, the hosts' statuses,
and how many operations a second were answered. Status 0 where all answers are right, and all hosts that were not killed ended by 0."""
import argparse
import os
import signal
import socket
import subprocess
import sys
import tempfile
import time

from wire import CLIENT_PEER, CLIENT_PORT, Config, Joiner, expected_lines, pieces, read_reply, request, stop

LONGEST = 32778
WAIT = 0.2
"""Seconds until a request is sent again: several quiets of a host, so that a primary which orders nothing soon loses its view."""
TURNS = 2000
EVENTS = "1000000"


class Client:
    """Client 0 over a socket of its own port."""

    def __init__(self, config):
        self.config, self.number, self.sent = config, 0, 0
        self.joiner = Joiner()
        self.socket = socket.socket(socket.AF_INET, socket.SOCK_DGRAM)
        self.socket.bind(("127.0.0.1", config.port + CLIENT_PORT))
        self.socket.settimeout(WAIT)

    def tell(self, message):
        for host in range(self.config.hosts):
            for piece in pieces(CLIENT_PEER, self.sent, message):
                self.socket.sendto(piece, ("127.0.0.1", self.config.port + host))
        self.sent += 1

    def receive(self):
        """A reply, or None; a request that waits is sent again at each quiet."""
        try:
            return self.joiner.push(self.socket.recv(LONGEST))
        except socket.timeout:
            self.tell(self.waiting)
        return None

    def ask_once(self, operation):
        """Sends the next request, and waits for nothing."""
        self.number += 1
        self.waiting = request(self.config, 0, self.number, operation)
        self.tell(self.waiting)

    def ask(self, operation):
        """The position and the result that f+1 hosts told alike, or None."""
        self.ask_once(operation)
        told = {}
        for _ in range(TURNS):
            message = self.receive()
            reply = message and read_reply(self.config, 0, message)
            if not reply or reply[1] != self.number:
                continue
            told.setdefault(reply[2:], set()).add(reply[0])
            if len(told[reply[2:]]) > self.config.faults:
                return reply[2:]
        return None


def start(program, host, config, folder, said=None):
    """A node that has begun its record, which is node-H.record in a folder. What it says on standard error goes to a file, where one is given."""
    output = os.path.join(folder, f"node-{host}.record")
    with open(output, "wb") as record:
        node = subprocess.Popen([*program.split(" "), "node", str(host), EVENTS], stdin=subprocess.PIPE, stdout=record, stderr=said)
    try:
        node.stdin.write(config.text.encode())
        node.stdin.close()
    except BrokenPipeError:
        pass  # It ended before it read its config; its status tells why.
    while node.poll() is None and os.path.getsize(output) == 0:
        time.sleep(0.001)
    return node


def ended(node):
    """The status of a node that was told to stop; `late` where it goes on, and then it is ended."""
    try:
        return node.wait(timeout=10)
    except subprocess.TimeoutExpired:
        node.kill()
        node.wait()
        return "late"


def ask_all(config, client, nodes, kill):
    lines = []
    for number, operation in enumerate(config.operations, 1):
        answer = client.ask(operation)
        lines.append(f"result {number} {answer[0]} {answer[1].hex()}" if answer else f"no answer to {number}")
        if kill and number == kill[1]:
            nodes[kill[0]].send_signal(signal.SIGKILL)
    return lines


def retrace(program, folder, hosts):
    for host in range(hosts):
        with open(os.path.join(folder, f"node-{host}.record"), "rb") as record:
            run = subprocess.run([*program.split(" "), "retrace"], stdin=record, capture_output=True, text=True)
        print(f"record {host}: status {run.returncode} {run.stdout.strip()}")


def main():
    parser = argparse.ArgumentParser()
    parser.add_argument("--kill", nargs=2, type=int)
    parser.add_argument("--retrace")
    parser.add_argument("config")
    parser.add_argument("programs", nargs="+")
    words = parser.parse_args()
    with open(words.config, encoding="ascii") as text:
        config = Config(text.read())
    with tempfile.TemporaryDirectory() as folder:
        nodes = [start(program, host, config, folder) for host, program in enumerate(words.programs)]
        client = Client(config)
        begun = time.monotonic()
        lines = ask_all(config, client, nodes, words.kill)
        seconds = time.monotonic() - begun
        for _ in range(3):
            client.tell(stop(config))
        statuses = [ended(node) for node in nodes]
        if words.retrace:
            retrace(words.retrace, folder, config.hosts)
    differing = [(line, want) for line, want in zip(lines, expected_lines(config)) if line != want]
    print(f"{len(lines)} answers, {len(differing)} not right {differing[:3]}; statuses {statuses}; {len(lines) / seconds:.0f} a second")
    killed = words.kill[0] if words.kill else None
    bad_ends = [status for host, status in enumerate(statuses) if status != 0 and host != killed]
    return 1 if differing or bad_ends else 0


if __name__ == "__main__":
    sys.exit(main())
