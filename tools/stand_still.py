#!/usr/bin/env python3
"""stand_still.py PROGRAM [LEAD..]: worlds of three hosts in which one is faulty and no answer came any more, on nodes that run.

- `one executed`: of host 0, the primary, the first CHECKPOINT and all behind it reach host 2 alone, and it ends behind the next PREPARE. So host 2 has executed
  the request, answers it and waits for nothing, and host 1 can't get it. Right is: the client has its result within 10 seconds behind that
- `lead LEAD` (3, where none is said): the faulty host 2 tells host 1 alone a wish for a view far ahead, and a client asks host 1 alone, until that has lost
  patience so often that it stands in view LEAD. Then the client asks all. Right is: the client has its result within 60 seconds behind that

Prints a line for each world: how long it took, or that no result came. The status is 0 where each came in its time and each node ended by 0."""
import os
import select
import socket
import struct
import sys
import tempfile
import threading
import time

from lying_primary import CHECKPOINT, LOG, PREPARE, STAMPED, VIEW_CHANGE, Prepare, Wire, started
from running import LONGEST, NODE, Clients, Node, made_config
from wire import Joiner, keyed, pieces

INTERVAL = 4
SOON, LATER, PATIENT = 10, 60, 300
TRIES = 5
FAR = (1 << 63) - 2
ELSEWHERE = "it did not come to that world"


class Withholder:
    """Host 0, of which what it stamps from its first CHECKPOINT on goes to the last host alone."""

    host = 0

    def __init__(self, config):
        self.last, self.has_begun, self.is_over = config.hosts - 1, False, False

    def sent(self, message, to):
        self.has_begun |= message[0] == CHECKPOINT
        if not self.has_begun or message[0] not in (*STAMPED, LOG):
            return [message]
        self.is_over |= message[0] == PREPARE and Prepare.read(message).position == INTERVAL + 1 and to == self.last
        return [message] if to == self.last else []


class EndingPrimary(threading.Thread):
    """The node of host 0 behind a withholder, which ends with its last PREPARE."""

    def __init__(self, program, config, folder):
        super().__init__(daemon=True)
        self.withholder, self.given_up = Withholder(config), threading.Event()
        self.wire = Wire(config, self.withholder)
        with open(os.path.join(folder, "node-0.record"), "wb") as record:
            self.node = started([*program.split(" "), *NODE.replace("H", "0").split(" ")], config, record)

    def run(self):
        while not self.withholder.is_over and not self.given_up.is_set():
            for ready in select.select([self.wire.outside, *self.wire.inside], [], [], 0.05)[0]:
                self.wire.pass_on(ready)
                if self.withholder.is_over:
                    break
        self.node.kill()
        self.node.wait()
        self.wire.close()


def let_all_execute(clients):
    """Waits for a second, asking nothing."""
    end = time.monotonic() + 1
    while time.monotonic() < end:
        clients.receive()


def one_executed(program, config, folder):
    """How long the result of the request took that one host executed, the nodes' statuses, and what was wrong."""
    primary = EndingPrimary(program, config, folder)
    nodes = [Node(program, NODE, host, config, folder) for host in range(1, config.hosts)]
    clients = Clients(config)
    primary.start()
    for _ in range(INTERVAL):
        clients.ask(0)
        clients.await_answer(0, LATER)
    let_all_execute(clients)
    clients.ask(0)
    seconds = clients.await_answer(0, LATER)
    primary.given_up.set()
    primary.join()
    wrong = [] if primary.withholder.is_over else [ELSEWHERE]
    return seconds, clients.stop(nodes), clients.wrong() + wrong


def far_wish(config, host):
    said = bytes([host]) + struct.pack(">Q", FAR)
    return b"\x06" + said + keyed(keyed(config.secret, b"U"), b"W" + said)


class SilentHost:
    """The last host, which hears the others and says one thing."""

    def __init__(self, config):
        self.config, self.host, self.joiner = config, config.hosts - 1, Joiner()
        self.socket = socket.socket(socket.AF_INET, socket.SOCK_DGRAM)
        self.socket.bind(("127.0.0.1", config.port + self.host))
        self.socket.setblocking(False)

    def say(self, message, to):
        for piece in pieces(self.host, 0, message):
            self.socket.sendto(piece, ("127.0.0.1", self.config.port + to))

    def views(self):
        """The views of the VIEW_CHANGEs that came since the last call."""
        while True:
            try:
                message = self.joiner.push(self.socket.recv(LONGEST))
            except BlockingIOError:
                return
            if message and message[0] == VIEW_CHANGE:
                yield struct.unpack(">Q", message[2:10])[0]


def led(program, config, folder, lead):
    """How long the result took once all were asked, the nodes' statuses, and what was wrong."""
    silent = SilentHost(config)
    nodes = [Node(program, NODE, host, config, folder) for host in range(config.hosts - 1)]
    clients = Clients(config)
    clients.ask(0)
    clients.await_answer(0, PATIENT)
    silent.say(far_wish(config, silent.host), 1)
    clients.ask(0, hosts=[1])
    end = time.monotonic() + PATIENT
    while lead not in silent.views() and time.monotonic() < end:
        clients.receive(hosts=[1])
    wrong = [] if time.monotonic() < end else [ELSEWHERE]
    begun = time.monotonic()
    clients.send(0)
    seconds = clients.await_answer(0, LATER)
    silent.socket.close()
    return seconds and time.monotonic() - begun, clients.stop(nodes), clients.wrong() + wrong


def in_a_world(run, program, *words):
    """One run, and another one where it did not come to its world, as where the view changed on a full machine before."""
    for _ in range(TRIES):
        with tempfile.TemporaryDirectory() as folder:
            found = run(program, made_config(1, interval=INTERVAL), folder, *words)
        if ELSEWHERE not in found[-1]:
            break
    return found


def tell(world, limit, run, *words):
    seconds, statuses, wrong = in_a_world(run, *words)
    came = f"the result came behind {seconds:.2f} s" if seconds is not None else f"no result in {LATER} s"
    print(f"{world}: {came}; statuses {statuses}" + (f"; wrong {wrong}" if wrong else ""), flush=True)
    return seconds is not None and seconds <= limit and not any(statuses) and not wrong


def main():
    program, leads = sys.argv[1], [int(word) for word in sys.argv[2:]] or [3]
    right = tell("one executed", SOON, one_executed, program)
    for lead in leads:
        right &= tell(f"lead {lead}", LATER, led, program, lead)
    return 0 if right else 1


if __name__ == "__main__":
    sys.exit(main())
