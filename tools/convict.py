#!/usr/bin/env python3
"""convict.py [options] CONFIG POSITION PROGRAM [LIE..]: clusters with a liar (lying_primary.py), and what the records say of it.

Each LIE (all, where none is named) has a cluster of its own: the liar lies at POSITION or a later one, all other hosts are PROGRAM.

`--liar H`: host H lies, 0 where it isn't said; `--node NODE`: its node is this program. `--kill H N`: host H is ended by signal 9 behind the N-th
answer, so that another one is the primary. `--other OTHER`: this program has to give the same answers over each record. `--keep FOLDER`: the records
are left in FOLDER/LIE.

Right is: each operation has the result of a key-value store kept here; each correct host ends by 0, and its record is retraced. Over the record of a
correct host that was told the lie `audit` of the liar says that very message and rule, over the others that it is in order; over all `audit` of a
correct host says that it is in order or that something is missing, and the fresh slots of `learn` are what the client was answered, position for
position, as far as they go. Prints the verdict of each lie, how many positions each host's record proves, and what is not right."""
import argparse
import os
import subprocess
import sys
import tempfile

from by_hand import Client, ask_all, ended, start
from lying_primary import LIES
from wire import Config, expected_lines, stop

LIAR = os.path.join(os.path.dirname(os.path.abspath(__file__)), "lying_primary.py")
ORDERED, DOUBLE, ILLEGAL, GAP = 0, 3, 12, 13


class Run:
    """A cluster with a liar, from its start to its end: the client's lines, the hosts' statuses, the verdict that is due."""

    def __init__(self, words, config, lie, folder):
        self.words, self.config, self.folder = words, config, folder
        with open(os.path.join(folder, "verdict"), "w+", encoding="ascii") as said:
            nodes = [self.started(host, lie, said) for host in range(config.hosts)]
            client = Client(config)
            self.lines = ask_all(config, client, nodes, words.kill)
            for _ in range(3):
                client.tell(stop(config))
            self.statuses = [ended(node) for node in nodes]
            said.seek(0)
            self.verdict = said.read().strip()
        client.socket.close()
        killed = words.kill[:1] if words.kill else []
        self.correct = [host for host in range(config.hosts) if host not in (words.liar, *killed)]

    def started(self, host, lie, said):
        if host != self.words.liar:
            return start(self.words.program, host, self.config, self.folder)
        liar = f"{sys.executable} {LIAR} {lie} {self.words.position} {self.words.node or self.words.program}"
        return start(liar, host, self.config, self.folder, said)

    def answer(self, host, *words):
        """The status and the output of these words over a host's record, and what another program answers otherwise."""
        answers = []
        for program in filter(None, (self.words.program, self.words.other)):
            with open(os.path.join(self.folder, f"node-{host}.record"), "rb") as record:
                run = subprocess.run([*program.split(" "), *words], stdin=record, capture_output=True, text=True)
            answers.append((run.returncode, run.stdout))
        wrong = [] if answers[0] == answers[-1] else [f"{' '.join(words)} over {host}: {answers}"]
        return *answers[0], wrong

    def wrong_in_run(self):
        wrong = [] if self.verdict else ["it did not lie"]
        found, wanted = ([line.split() for line in lines] for lines in (self.lines, expected_lines(self.config)))
        if [words[:2] + words[3:] for words in found] != [words[:2] + words[3:] for words in wanted]:
            wrong.append("answers not right")
        return wrong + [f"host {host}: status {self.statuses[host]}" for host in self.correct if self.statuses[host] != 0]

    def wrong_in_retrace(self, host):
        status, said, wrong = self.answer(host, "retrace")
        return wrong if status == 0 and said.startswith("same ") else [*wrong, f"retrace of {host}: {status} {said.strip()}"]

    def wrong_in_audits(self, record, is_told):
        wrong = []
        for host in range(self.config.hosts):
            status, said, differs = self.answer(record, "audit", str(host))
            wrong += differs
            if host != self.words.liar:
                is_right = status in (ORDERED, GAP)
            elif is_told:
                is_right = said.strip() == self.verdict and status == (DOUBLE if said.startswith("double") else ILLEGAL)
            else:
                is_right = status == ORDERED
            if not is_right:
                wrong.append(f"audit {host} over {record}: {status} {said.strip()}, due is {self.verdict}")
        return wrong

    def wrong_in_learn(self, record):
        """How many positions are proved, and what is not as the client was answered."""
        status, said, wrong = self.answer(record, "learn")
        rows = [line.split() for line in said.splitlines()]
        slots = [(row[1], row[4], row[6]) for row in rows if row[0] == "slot" and row[5] == "fresh"]
        asked = [(line.split()[2], line.split()[1], one.hex()) for line, one in zip(self.lines, self.config.operations)]
        if status != 0 or slots != asked[: len(slots)]:
            wrong.append(f"learn over {record}: {status}, {len(slots)} slots, not as answered")
        return next((row[1] for row in rows if row[0] == "line"), "none"), wrong


def one_lie(words, config, lie, folder):
    run = Run(words, config, lie, folder)
    wrong, proved = run.wrong_in_run(), []
    for host in range(config.hosts):
        wrong += run.wrong_in_audits(host, is_told=lie != "split" or host == run.correct[-1]) if host in run.correct else []
        wrong += run.wrong_in_retrace(host) if host in run.correct else []
        line, differs = run.wrong_in_learn(host)
        proved.append(line)
        wrong += differs
    print(f"{lie}: {run.verdict}; of {run.lines[-1].split()[2]} positions are proved {' '.join(proved)}", flush=True)
    for said in wrong:
        print(f"    {said[:300]}")
    return not wrong


def read_words():
    parser = argparse.ArgumentParser()
    parser.add_argument("--liar", type=int, default=0)
    parser.add_argument("--node")
    parser.add_argument("--kill", nargs=2, type=int)
    parser.add_argument("--other")
    parser.add_argument("--keep")
    parser.add_argument("config")
    parser.add_argument("position", type=int)
    parser.add_argument("program")
    parser.add_argument("lies", nargs="*", default=LIES, metavar="LIE")
    return parser.parse_args()


def main():
    words = read_words()
    with open(words.config, encoding="ascii") as text:
        config = Config(text.read())
    right = []
    for lie in words.lies:
        with tempfile.TemporaryDirectory() as passing:
            folder = os.path.join(words.keep, lie) if words.keep else passing
            os.makedirs(folder, exist_ok=True)
            right.append(one_lie(words, config, lie, folder))
    print(f"{len(right)} lies, {right.count(False)} not right")
    return 0 if all(right) else 1


if __name__ == "__main__":
    sys.exit(main())
