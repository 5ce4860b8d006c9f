#!/usr/bin/env python3
"""end_clusters.py PROGRAM CONFIG [TIMES]: clusters that don't come to their end by themselves, as a user meets them.

CONFIG has f 1 and many operations (tools/make_config.py 2000 45000 > CONFIG). Each cluster has a folder of its own but where it says so.

- `ended by TERM`, INT, HUP, KILL, so often each (20): the client program alone gets the signal in the middle of its operations. The next cluster, with the
  same config, is begun at once. Right is: the next one's results and status 0, and two seconds behind the signal none of the first one's nodes is left.
- `ended as it begins`: the same by KILL, within a tenth of a second, while its nodes are started.
- `two with one config`, `two in one folder` with other ports: the second one begins while the first one works. Right is: the first one's results, and status 7
  or 8 of the second one, before it wrote anything; the first one's records are its own. Where the first one ends within two seconds, the second with the same
  config gets its port and all results too.
- `records that are there`: a cluster in a folder with the records of another one. Right is: status 8, and no byte of them changes.
- `paused`: a node stands still for three seconds near the last results. Right is: the results, status 0, ten seconds at most.
- `deaf`: a node stands still from the middle to the end, and gets its STOPs too late. Right is: the results, status 18, ten seconds at most, no node left.

Prints a line for each kind, with what was not right. The status is 0 where all was right."""
import os
import signal
import subprocess
import sys
import tempfile
import time

from wire import Config, expected_lines

LIMIT = 60
MOST = 10
LEFT = 2
ENDED = "it had ended already"


def children_of(process):
    """The processes that a process started, by their number."""
    try:
        with open(f"/proc/{process}/task/{process}/children", encoding="ascii") as text:
            return [int(word) for word in text.read().split()]
    except OSError:
        return []


def is_there(process):
    """Whether a process goes on. One that has ended and was not waited for does not."""
    try:
        with open(f"/proc/{process}/stat", encoding="ascii") as text:
            return text.read().rsplit(")", 1)[1].split()[0] != "Z"
    except OSError:
        return False


class Cluster:
    """A cluster at work in a folder. Its lines go to a file, so that it never waits for its reader."""

    def __init__(self, program, config, folder):
        self.begun, self.folder = time.monotonic(), folder
        self.path = os.path.join(folder, f"lines-{time.monotonic_ns()}")
        with open(self.path, "wb") as lines:
            self.run = subprocess.Popen(
                [*program, "cluster", "2000"], cwd=folder, stdin=subprocess.PIPE, stdout=lines, stderr=subprocess.DEVNULL
            )
        self.run.stdin.write(config.text.encode())
        self.run.stdin.close()

    def lines(self):
        with open(self.path, encoding="ascii") as text:
            return text.read().splitlines()

    def reaches(self, count):
        """Waits until so many results are written, or it has ended."""
        while len(self.lines()) < count and self.run.poll() is None:
            time.sleep(0.002)

    def nodes(self):
        return children_of(self.run.pid)

    def ended(self):
        """Its status and how long it ran; `late` where it had to be ended."""
        try:
            status = self.run.wait(LIMIT)
        except subprocess.TimeoutExpired:
            self.run.kill()
            status = "late"
        return status, time.monotonic() - self.begun

    def wrong(self, config, wanted):
        """What is not right where this status and all results are wanted."""
        status, seconds = self.ended()
        said = [] if status == wanted else [f"status {status}, no line end: {without_end(self.folder, config.hosts)}"]
        if self.lines() != expected_lines(config):
            said.append(f"{len(self.lines())} lines, not all right")
        if seconds > MOST:
            said.append(f"{seconds:.1f} s")
        return said


def without_end(folder, hosts):
    """The hosts whose records lack their last line."""
    lacking = []
    for host in range(hosts):
        with open(os.path.join(folder, f"node-{host}.record"), "rb") as record:
            if not record.read().endswith(b"\nend\n"):
                lacking.append(host)
    return lacking


def retraced(program, folder, hosts):
    wrong = []
    for host in range(hosts):
        with open(os.path.join(folder, f"node-{host}.record"), "rb") as record:
            run = subprocess.run([*program, "retrace"], stdin=record, capture_output=True, text=True)
        if run.returncode != 0 or not run.stdout.startswith("same "):
            wrong.append(f"record {host}: status {run.returncode} {run.stdout.strip()}")
    return wrong


def next_one(program, config, cluster, which):
    """Ends a cluster and begins the next one at once. What is wrong with that one, and with the nodes that were left."""
    nodes = cluster.nodes()
    os.kill(cluster.run.pid, which)
    ended = time.monotonic()
    cluster.run.wait()
    with tempfile.TemporaryDirectory() as folder:
        late = Cluster(program, config, folder)
        time.sleep(max(0, ended + LEFT - time.monotonic()))
        left = [node for node in nodes if is_there(node)]
        wrong = late.wrong(config, 0) + retraced(program, folder, config.hosts)
        return wrong + ([f"left: {left}"] if left else [])


def ended_by(program, config, which, part):
    with tempfile.TemporaryDirectory() as folder:
        cluster = Cluster(program, config, folder)
        cluster.reaches(part)
        if len(cluster.nodes()) < config.hosts:
            return [f"only {len(cluster.nodes())} nodes when it was ended"]
        return next_one(program, config, cluster, which) + retraced(program, folder, config.hosts)


def ended_early(program, config, which, seconds):
    """It is ended while it starts its nodes, or little later."""
    with tempfile.TemporaryDirectory() as folder:
        cluster = Cluster(program, config, folder)
        time.sleep(seconds)
        return next_one(program, config, cluster, which)


def with_port(config, port):
    return Config("".join(f"port {port}\n" if line.startswith("port ") else line + "\n" for line in config.text.splitlines()))


def two(program, config, other, folder_of_both):
    """The second cluster begins while the first one works."""
    with tempfile.TemporaryDirectory() as first, tempfile.TemporaryDirectory() as second:
        cluster = Cluster(program, config, first)
        cluster.reaches(20)
        late = Cluster(program, other, first if folder_of_both else second)
        status, seconds = late.ended()
        # The first one may have left the port within the two seconds for which the second tries to take it.
        if not folder_of_both and status == 0:
            return late.wrong(other, 0) + cluster.wrong(config, 0)
        wrong = [] if status == (8 if folder_of_both else 7) else [f"status of the second {status}"]
        if late.lines() or seconds > MOST:
            wrong.append(f"the second wrote {len(late.lines())} lines in {seconds:.1f} s")
        return wrong + cluster.wrong(config, 0) + retraced(program, first, config.hosts)


def records_there(program, config):
    with tempfile.TemporaryDirectory() as folder:
        wrong = Cluster(program, config, folder).wrong(config, 0)
        names = [os.path.join(folder, f"node-{host}.record") for host in range(config.hosts)]
        before = [open(name, "rb").read() for name in names]
        again = Cluster(program, config, folder)
        status, _ = again.ended()
        if status != 8 or again.lines():
            wrong.append(f"status of the second {status}, {len(again.lines())} lines")
        if [open(name, "rb").read() for name in names] != before:
            wrong.append("a record changed")
        return wrong


def paused(program, config, host, to_the_end):
    with tempfile.TemporaryDirectory() as folder:
        cluster = Cluster(program, config, folder)
        cluster.reaches(len(config.operations) // 2 if to_the_end else len(config.operations) - 30)
        nodes = cluster.nodes()
        if len(nodes) <= host or not is_there(nodes[host]):
            return [ENDED]
        os.kill(nodes[host], signal.SIGSTOP)
        begun = time.monotonic()
        if not to_the_end:
            time.sleep(3)
            if not is_there(nodes[host]):
                return [ENDED]
            os.kill(nodes[host], signal.SIGCONT)
        status, _ = cluster.ended()
        seconds = time.monotonic() - begun
        wrong = [] if status == (18 if to_the_end else 0) else [f"status {status}"]
        if cluster.lines() != expected_lines(config):
            wrong.append(f"{len(cluster.lines())} lines, not all right")
        if seconds > MOST:
            wrong.append(f"{seconds:.1f} s behind the pause")
        left = [node for node in nodes if is_there(node)]
        return wrong + ([f"left: {left}"] if left else []) + retraced(program, folder, config.hosts)


def paused_in_time(program, config, host, to_the_end):
    """Again where the cluster had ended before the node stood still."""
    for _ in range(10):
        said = paused(program, config, host, to_the_end)
        if said != [ENDED]:
            return said
    return [ENDED]


def tell(kind, tries):
    wrong = [said for said in tries if said]
    print(f"{kind}: {len(tries)} tries, {len(wrong)} not right", flush=True)
    for said in wrong[:5]:
        print(f"    {'; '.join(said)}")
    return not wrong


def main():
    program = sys.argv[1].split(" ")
    with open(sys.argv[2], encoding="ascii") as text:
        config = Config(text.read())
    times = int(sys.argv[3]) if len(sys.argv) > 3 else 20
    middle = len(config.operations) // 2
    right = True
    for which in (signal.SIGTERM, signal.SIGINT, signal.SIGHUP, signal.SIGKILL):
        tries = [ended_by(program, config, which, 1 + middle * number // times) for number in range(times)]
        right &= tell(f"ended by {which.name[3:]}", tries)
    tries = [ended_early(program, config, signal.SIGKILL, number / 200) for number in range(times)]
    right &= tell("ended as it begins", tries)
    other = with_port(config, config.port + 200)
    right &= tell("two with one config", [two(program, config, config, False) for _ in range(3)])
    right &= tell("two in one folder", [two(program, config, other, True) for _ in range(3)])
    right &= tell("records that are there", [records_there(program, config)])
    right &= tell("paused", [paused_in_time(program, config, host, False) for host in range(config.hosts)])
    right &= tell("deaf", [paused_in_time(program, config, 2, True)])
    return 0 if right else 1


if __name__ == "__main__":
    sys.exit(main())
