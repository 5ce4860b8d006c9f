#!/usr/bin/env python3
"""relay.py PORT HOSTS DELAY [LOSE]: stands between so many hosts and their clients, as a network whose ways take time.

Hosts and the client program have their ports from PORT on, as a config says. But each node has a config of its own, whose port is 200 above that, and 10 more for
each host below it (`inside_of` in tools/running.py makes it). There this script takes the places of all others. Each datagram goes on behind DELAY milliseconds,
in the order in which they came, but for one in LOSE, as it is drawn, where that is said. It goes on until it is ended."""
import random
import select
import socket
import sys
import time
from collections import deque

from running import LONGEST, inside_port
from wire import CLIENT_PORT


def bound(port):
    taken = socket.socket(socket.AF_INET, socket.SOCK_DGRAM)
    taken.setsockopt(socket.SOL_SOCKET, socket.SO_RCVBUF, 1 << 22)
    taken.bind(("127.0.0.1", port))
    taken.setblocking(False)
    return taken


def ways(port, hosts):
    """Each socket that is not a node's or a client's, and the port to which goes on what comes there."""
    found = {}
    for host in range(hosts):
        inside = inside_port(port, host)
        found[bound(port + host)] = inside + host
        found[bound(inside + CLIENT_PORT)] = port + CLIENT_PORT
        found.update((bound(inside + other), inside_port(port, other) + other) for other in range(hosts) if other != host)
    return found


def received(ready):
    """The datagrams that wait at a socket."""
    while True:
        try:
            yield ready.recv(LONGEST)
        except (BlockingIOError, ConnectionRefusedError):
            return


def main():
    port, hosts, delay = int(sys.argv[1]), int(sys.argv[2]), float(sys.argv[3]) / 1000
    lose = int(sys.argv[4]) if len(sys.argv) > 4 else 0
    found, waiting = ways(port, hosts), deque()
    thrower = socket.socket(socket.AF_INET, socket.SOCK_DGRAM)
    while True:
        wait = max(waiting[0][0] - time.monotonic(), 0) if waiting else None
        for ready in select.select([*found], [], [], wait)[0]:
            due = time.monotonic() + delay
            waiting.extend((due, datagram, found[ready]) for datagram in received(ready) if not lose or random.randrange(lose))
        while waiting and waiting[0][0] <= time.monotonic():
            _, datagram, to = waiting.popleft()
            thrower.sendto(datagram, ("127.0.0.1", to))


if __name__ == "__main__":
    main()
