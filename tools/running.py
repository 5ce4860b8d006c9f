"""Nodes that run, and clients that ask them, for scripts that end, disturb or watch nodes."""
import os
import random
import signal
import socket
import subprocess
import time

from wire import CLIENT_PEER, CLIENT_PORT, Config, Joiner, Store, pieces, read_reply, request, stop, text16

NODE, KEEPING_NODE = "node H 1000000", "node H 1000000 PATH"
"""The words of a node without and with a journal."""
ENDS_WITH_THIS = {**os.environ, "MINBFT_STARTED_BY": str(os.getpid())}
"""By this variable a node knows which process started it, and ends where that does."""
PORTS = range(41_000, 46_600)
INSIDE, APART = 200, 10
"""How far above a system's ports those of nodes lie that a script stands before, and how far these are apart."""
LONGEST = 32778
SEND_AGAIN = 0.2
LATE = 30


def is_free(port):
    with socket.socket(socket.AF_INET, socket.SOCK_DGRAM) as taken:
        try:
            taken.bind(("127.0.0.1", port))
        except OSError:
            return False
    return True


def free_port(hosts):
    """A port from which on so many are free, with that of the client program, and those of nodes inside."""
    beside = [*range(hosts), CLIENT_PORT, *range(INSIDE, INSIDE + APART * hosts), *range(INSIDE + CLIENT_PORT, INSIDE + CLIENT_PORT + APART * hosts)]
    while True:
        port = random.choice(PORTS)
        if all(is_free(port + one) for one in beside):
            return port


def made_config(faults, clients=1, interval=16):
    port = free_port(2 * faults + 1)
    return Config(f"minbft config 2\nf {faults}\nk {interval}\nclients {clients}\nsecret {'07' * 32}\nport {port}\n")


def inside_port(port, host):
    """The port of the config of a host's own node, which a script stands before."""
    return port + INSIDE + APART * host


def inside_of(config, host):
    return Config(config.text.replace(f"\nport {config.port}\n", f"\nport {inside_port(config.port, host)}\n"))


class Node:
    """The node of a host, which PROGRAM runs by the words of a pattern: in these H is the host's number, and PATH that of its journal, which is made first."""

    def __init__(self, program, pattern, host, config, folder):
        self.program, self.host, self.config, self.folder, self.runs = program.split(" "), host, config, folder, 0
        self.journal = os.path.join(folder, f"journal-{host}")
        self.words = [{"H": str(host), "PATH": self.journal}.get(word, word) for word in pattern.split(" ")]
        if self.journal in self.words:
            subprocess.run([*self.program, "journal", str(host), self.journal], input=config.text.encode(), check=True)
        self.start()

    def start(self):
        """Starts it, or starts it again, with a record of its own, and waits until that is begun."""
        self.record = os.path.join(self.folder, f"node-{self.host}-{self.runs}.record")
        self.runs += 1
        with open(self.record, "wb") as record:
            self.process = subprocess.Popen([*self.program, *self.words], stdin=subprocess.PIPE, stdout=record, env=ENDS_WITH_THIS)
        self.process.stdin.write(self.config.text.encode())
        self.process.stdin.close()
        latest = time.monotonic() + LATE
        while self.process.poll() is None and os.path.getsize(self.record) == 0 and time.monotonic() < latest:
            time.sleep(0.001)

    def kill(self):
        self.process.send_signal(signal.SIGKILL)
        self.process.wait()

    def ended(self):
        """Its status behind a STOP; `late` where it goes on, and then it is ended."""
        try:
            return self.process.wait(timeout=10)
        except subprocess.TimeoutExpired:
            self.kill()
            return "late"

    def resident(self):
        """Its resident memory in kB."""
        with open(f"/proc/{self.process.pid}/status", encoding="ascii") as lines:
            return next(int(line.split()[1]) for line in lines if line.startswith("VmRSS"))


class Asker:
    """One client: the request that waits, what it was told of it, and the service of its own keys."""

    def __init__(self, config, client, size, keys):
        self.config, self.client, self.size, self.keys = config, client, size, keys
        self.number, self.answered, self.wrong = 0, 0, []
        self.waiting, self.last = None, None
        self.store = Store()

    def next_operation(self):
        """Two puts, a get and a swap of a key that no other client has, then of the next one."""
        turn, key = self.number % 4, bytes([3, self.client]) + (self.number // 4 % self.keys).to_bytes(2, "big")
        value = text16(bytes(self.size) + self.number.to_bytes(8, "big"))
        held = self.store.values.get(key[1:])
        if turn == 2:
            return b"\2" + key
        return b"\1" + key + value if turn != 3 or held is None else b"\4" + key + text16(held) + value

    def ask(self, operation=None):
        self.number += 1
        self.operation = operation or self.next_operation()
        self.waiting = request(self.config, self.client, self.number, self.operation)
        self.told, self.asked = {}, time.monotonic()

    def takes(self, message):
        """Whether this is the reply with which f+1 hosts told one result of the request that waits. One that is not the service's is noted."""
        reply = read_reply(self.config, self.client, message)
        if not reply or reply[1] != self.number or self.waiting is None:
            return False
        self.told.setdefault(reply[2:], set()).add(reply[0])
        if len(self.told[reply[2:]]) <= self.config.faults:
            return False
        self.answered, self.last, self.waiting = self.answered + 1, self.asked, None
        if reply[3] != self.store.apply(self.operation):
            self.wrong.append((self.client, self.number, reply[3].hex()))
        return True


class Clients:
    """So many clients at the one port of the client program. Each asks its next request once it is answered, and sends one that waits again each `again` seconds.
    Values have 8 bytes more than `size`, and each client so many keys."""

    def __init__(self, config, count=1, again=SEND_AGAIN, size=0, keys=7):
        self.config, self.again, self.sent, self.joiner = config, again, 0, Joiner()
        self.all = [Asker(config, client, size, keys) for client in range(count)]
        self.due = [0.0] * count
        self.socket = socket.socket(socket.AF_INET, socket.SOCK_DGRAM)
        self.socket.setsockopt(socket.SOL_SOCKET, socket.SO_RCVBUF, 1 << 22)
        self.socket.bind(("127.0.0.1", config.port + CLIENT_PORT))

    def tell(self, message, hosts=None):
        for host in range(self.config.hosts) if hosts is None else hosts:
            for piece in pieces(CLIENT_PEER, self.sent, message):
                self.socket.sendto(piece, ("127.0.0.1", self.config.port + host))
        self.sent += 1

    def send(self, client, hosts=None):
        self.tell(self.all[client].waiting, hosts)
        self.due[client] = time.monotonic() + self.again

    def ask(self, client, operation=None, hosts=None):
        self.all[client].ask(operation)
        self.send(client, hosts)

    def ask_all(self):
        for client in range(len(self.all)):
            self.ask(client)

    def receive(self, hosts=None):
        """One receive, behind the request that is to be sent again. A reply and its client, or None where none came until the next one is."""
        waiting = [client for client, asker in enumerate(self.all) if asker.waiting]
        first = min(waiting, key=self.due.__getitem__, default=None)
        if first is not None and self.due[first] <= time.monotonic():
            self.send(first, hosts)
        self.socket.settimeout(self.again / len(self.all))
        try:
            message = self.joiner.push(self.socket.recv(LONGEST))
        except socket.timeout:
            return None
        return (message, self.all[message[2]]) if message and message[0] == 4 and message[2] < len(self.all) else None

    def work(self, seconds, is_done=lambda: False):
        """Asks and takes answers for so long, or until it is done. Whether that came."""
        end = time.monotonic() + seconds
        while not is_done():
            if time.monotonic() > end:
                return False
            got = self.receive()
            if got and got[1].takes(got[0]):
                self.ask(got[1].client)
        return True

    def finish(self, seconds):
        """Takes the answers of all requests that wait, and asks no more. Whether all came in so many seconds."""
        end = time.monotonic() + seconds
        while any(asker.waiting for asker in self.all) and time.monotonic() < end:
            got = self.receive()
            if got:
                got[1].takes(got[0])
        return not any(asker.waiting for asker in self.all)

    def answered(self):
        """How many requests were answered."""
        return sum(asker.answered for asker in self.all)

    def await_answer(self, client, seconds, hosts=None):
        """Waits for the answer of one client, which then asks no more: how long it took since it was asked, or None."""
        asker, end = self.all[client], time.monotonic() + seconds
        while time.monotonic() < end:
            got = self.receive(hosts)
            if got and got[1].takes(got[0]) and got[1] is asker:
                return time.monotonic() - asker.asked
        return None

    def wrong(self):
        return [one for asker in self.all for one in asker.wrong]

    def stop(self, nodes):
        """Tells all nodes to stop, three times, and gives their statuses."""
        for _ in range(3):
            self.tell(stop(self.config))
            time.sleep(0.003)
        self.socket.close()
        return [node.ended() for node in nodes]
