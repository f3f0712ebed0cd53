#!/usr/bin/env python3
"""Kills hosts and counts: no ticket may be counted twice.

    tests/crashes/kill.py [--kills N] [--seed S] [--epoch E] HOST [HOST ...]

A HOST is a program `HOST TICKETS FOLDER`, as build/gateway. A ticket counts when its line with New has come out of the pipe. A run of a
host is killed with SIGKILL: at a random verdict, at a random time, or before a step on the disk, each step in turn; many with the loss of
all that was not synced (tests/crashes/crash.c). Others stop in good order. After each, the host is started again on the same folder, and
every ticket of the folder is sent again, at the present reading and at a reading near its own stamp. The clock steps forward and back.
After E kills the folder is left to a last run that is not killed, and a new folder is begun. Each start takes one of the hosts at random.

Status 0 if no ticket was counted twice, every run ended by a kill or with status 0, and the runs did what they are meant to.
"""
import argparse
import os
import random
import shutil
import signal
import subprocess
import sys
import tempfile
import time
from collections import Counter

HERE = os.path.dirname(os.path.abspath(__file__))
SHIM = os.path.join(HERE, "..", "..", "build", "crash.so")
# A start takes up to 7 steps, a mark 5, a stop 5.
STEPS = 22
WAYS = ["verdict"] * 4 + ["time"] * 2 + ["step"] * 5 + ["stop"] * 3


class Site:
    """A folder, its clock and its tickets."""

    def __init__(self, folder, chance, totals):
        self.folder, self.chance, self.totals = folder, chance, totals
        self.now = 1_000_000_000
        self.tickets = []
        self.counted = Counter()
        self.last = {}

    def reading(self):
        """The gateway's clock: right, or stepped."""
        step = self.chance.choice([0, 0, 0, self.chance.randrange(-180_000, 180_000)])
        return self.now + step

    def fresh(self, reading):
        """A new ticket: of a meter by the right time, of a neighbour likewise, or of the gateway by its own clock."""
        who = self.chance.choice(["f:1", "f:2", "f:3", "p:8", "p:9", "r"])
        stamp = reading if who == "r" else self.now + self.chance.randrange(-40_000, 9_000)
        ticket = (who, self.chance.randrange(1, 1 << 64), stamp)
        self.tickets.append(ticket)
        return ticket

    def lines(self):
        """What one run is sent: every ticket again, twice, and new ones, in any order of the three."""
        self.now += self.chance.randrange(1_000, 90_000)
        reading = self.reading()
        old = list(self.tickets)
        new = [(reading + at, self.fresh(reading)) for at in range(self.chance.randrange(5, 20))]
        again = [(reading, ticket) for ticket in old]
        then = [(ticket[2] + self.chance.randrange(-9_000, 40_000), ticket) for ticket in old]
        parts = [again, then, new + new]
        self.chance.shuffle(parts)
        lines = [f"{at} {who} {fingerprint} {stamp}" for part in parts for at, (who, fingerprint, stamp) in part]
        return lines + [f"{reading + 1_000} tick"]

    def note(self, line):
        """A line that a host has written."""
        words = line.split()
        if len(words) != 5 or not line.endswith("\n") or not words[0].isdigit():
            self.totals[" ".join(words[:2])] += 1
            return
        ticket, verdict = words[2], words[4]
        self.totals["verdicts"] += 1
        self.last[ticket] = verdict
        if verdict == "New":
            self.counted[ticket] += 1
            if self.counted[ticket] > 1:
                self.totals["twice"] += 1
                if self.totals["twice"] <= 3:
                    print(f"counted twice: {line}", end="")

    def sum_up(self):
        for _, fingerprint, _ in self.tickets:
            ticket = str(fingerprint)
            self.totals["tickets"] += 1
            last = self.last.get(ticket, "not sent")
            self.totals["counted" if self.counted[ticket] else "lost as Late" if last == "Late" else "left " + last] += 1


def environment(chance, way, step):
    """Where a run crashes, and whether it then loses what was not synced. One in four of the others is left to itself."""
    env = dict(os.environ)
    if way == "step" or chance.random() < 0.75:
        env["LD_PRELOAD"] = os.path.abspath(SHIM)
        env["CRASH_LOSES"] = chance.choice("01")
    if way == "step":
        env["CRASH_STEP"] = str(step)
    return env


def run_once(site, host, way):
    """One run of a host; its status."""
    lines = site.lines()
    path = site.folder + ".tickets"
    with open(path, "w") as file:
        file.write("\n".join(lines) + "\n")
    site.totals["runs to a step"] += way == "step"
    step = site.totals["runs to a step"] % STEPS + 1
    process = subprocess.Popen([host, path, site.folder], env=environment(site.chance, way, step), stdout=subprocess.PIPE,
                               stderr=subprocess.PIPE, text=True)
    kill_at = site.chance.randrange(0, len(lines) + 2) if way == "verdict" else None
    if way == "time":
        time.sleep(site.chance.random() * 0.02)
        process.send_signal(signal.SIGKILL)
    for at, line in enumerate(process.stdout):
        if at == kill_at:
            process.send_signal(signal.SIGKILL)
        site.note(line)
    errors = process.stderr.read()
    process.wait()
    os.unlink(path)
    if way == "step" and process.returncode == -signal.SIGKILL:
        site.totals[f"step {step}"] += 1
    if process.returncode not in (0, -signal.SIGKILL):
        site.totals["failed"] += 1
        if site.totals["failed"] <= 3:
            print(f"{host} ended with status {process.returncode}: {errors}", end="")
    return process.returncode


def epoch(hosts, kills, chance, totals, folder):
    """A folder from its first start on, with so many kills."""
    os.mkdir(folder)
    site = Site(folder, chance, totals)
    killed, tries = 0, 0
    while killed < kills and tries < 10 * kills:
        tries += 1
        way = chance.choice(WAYS)
        if run_once(site, chance.choice(hosts), way) == -signal.SIGKILL:
            killed += 1
            totals["killed at a step" if way == "step" else "killed at random"] += 1
    run_once(site, chance.choice(hosts), "stop")
    site.sum_up()
    shutil.rmtree(folder)
    return killed


def main():
    parser = argparse.ArgumentParser()
    parser.add_argument("--kills", type=int, default=100)
    parser.add_argument("--seed", type=int, default=1)
    parser.add_argument("--epoch", type=int, default=25)
    parser.add_argument("hosts", nargs="+")
    given = parser.parse_args()
    chance, totals, started = random.Random(given.seed), Counter(), time.time()
    memory = "/dev/shm" if os.access("/dev/shm", os.W_OK) else None
    killed = 0
    with tempfile.TemporaryDirectory(dir=memory) as place:
        while killed < given.kills and totals["failed"] < 20:
            killed += epoch(given.hosts, min(given.epoch, given.kills - killed), chance, totals, os.path.join(place, "folder"))
    name = " and ".join(os.path.basename(host) for host in given.hosts)
    steps = sum(1 for key in totals if key.startswith("step "))
    print(f"{name}: {killed} kills ({totals['killed at a step']} at {steps} different steps on the disk), {totals['tickets']} tickets, "
          f"{totals['verdicts']} verdicts, {totals['counted']} counted, {totals['twice']} twice, {totals['failed']} runs failed; "
          f"{totals['lost as Late']} lost as Late" + "".join(f", {totals[key]} {key}" for key in sorted(totals) if key.startswith("left"))
          + f"; starts: {totals['started for']} first, {totals['restored whole']} whole, {totals['restored partly:']} partly, "
          f"{totals['nothing to']} fallback; {time.time() - started:.0f} s")
    meant = killed >= given.kills and totals["counted"] > totals["tickets"] / 20 and totals["restored whole"] and totals["nothing to"]
    if not meant:
        print(f"{name}: the runs did not do what they are meant to", file=sys.stderr)
    return 0 if meant and totals["twice"] == 0 and totals["failed"] == 0 else 1


if __name__ == "__main__":
    sys.exit(main())
