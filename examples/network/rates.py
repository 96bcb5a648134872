#!/usr/bin/env python3
"""Measures nodes as processes: events a second with and without a log, the time of a start from a log, and of four over loopback slots a second,
with the entries and the bytes of a slot.

usage: rates.py PROGRAM [--events N] [--slots N]
An event is a fresh PREPARE of a peer, of 292 bytes. Logs lie in TMPDIR.
"""
import argparse
import hashlib
import os
import subprocess
import tempfile
import threading
import time

from hosts import HERE, NAMES, Network


def number(count, size=4):
    return count.to_bytes(size, "big")


def node(place):
    return number(0) + bytes([place]) * 32


def opaque(data):
    return number(len(data)) + data + bytes(-len(data) % 4)


VALUE = opaque(number(1) + number(0) + opaque(b"key") + opaque(b"v" * 24))
SET = hashlib.sha256(number(3) + number(4) + b"".join(map(node, (1, 2, 3, 4))) + number(0)).digest()


def prepare(counter):
    """A PREPARE of bob for slot 1, newer than those of lesser counters."""
    ballot, prepared = number(counter + 1) + VALUE, number(1) + number(counter) + VALUE
    return (number(1) + node(2) + number(1, 8) + number(0) + SET + ballot + prepared + number(0) + number(0) + number(0) + opaque(b"")).hex()


class Process:
    """A node that is given lines. What it took is told by its processor time, to which other work on the machine only adds a little, and by what went by."""

    def __init__(self, program, log):
        words = [program, "node", "run", f"{HERE}/alice.toml"] + (["--log", log] if log else [])
        words += ["--new"] if log and not os.path.exists(log) else []
        self.began = time.monotonic()
        self.process = subprocess.Popen(words, stdin=subprocess.PIPE, stdout=subprocess.PIPE)
        self.read_to(b"ok 0\n")

    def read_to(self, last):
        for line in self.process.stdout:
            if line == last:
                return
        raise SystemExit(f"the process ended before {last}")

    def end(self):
        """Seconds of its processor time, and those that went by."""
        went_by = time.monotonic() - self.began
        self.process.stdin.close()
        self.process.stdout.read()
        used = os.wait4(self.process.pid, 0)[2]
        self.process.returncode = 0
        return used.ru_utime + used.ru_stime, went_by

    def at_once(self, lines):
        """All are written without waiting."""
        writer = threading.Thread(target=lambda: (self.process.stdin.write("".join(lines).encode()), self.process.stdin.flush()))
        writer.start()
        self.read_to(b"ok %d\n" % len(lines))
        writer.join()

    def one_by_one(self, lines):
        for count, line in enumerate(lines, 1):
            self.process.stdin.write(line.encode())
            self.process.stdin.flush()
            self.read_to(b"ok %d\n" % count)


def tell(name, count, process):
    used, went_by = process.end()
    print(f"{name}: {count / used:.0f} events a processor second, {count / went_by:.0f} a second that went by", flush=True)


def events(program, folder, count):
    lines = ["open bob\n"] + [f"recv bob {prepare(counter)}\n" for counter in range(1, count)]
    for log in (None, f"{folder}/log"):
        name = "with a log" if log else "without a log"
        process = Process(program, log)
        process.at_once(lines)
        tell(f"{name}, many lines at once", count, process)
        if log:
            size = os.path.getsize(log)
            used, went_by = Process(program, log).end()
            print(f"a start from {count} events, {size / 1e6:.1f} MB: {1e4 * used / count:.2f} processor seconds for each 10,000, {1e4 * went_by / count:.2f} s that went by", flush=True)
            os.remove(log)
        some = lines[: max(2, count // (20 if log else 4))]
        process = Process(program, log)
        process.one_by_one(some)
        tell(f"{name}, one line at a time", len(some), process)


def slots(program, folder, count, with_log):
    network = Network(program, folder, 1, with_log)
    try:
        network.propose_to(5)
        network.start(NAMES)
        network.wait_for(5)
        began = time.monotonic()
        network.propose_to(count + 5)
        network.wait_for(count + 5)
        went_by = time.monotonic() - began
        with open(f"{folder}/alice.1.told", "rb") as file:
            entries = file.read().count(b"\nfate ")
        size = os.path.getsize(f"{folder}/alice.log") if with_log else 0
        print(f"four nodes {'with' if with_log else 'without'} logs, over loopback: {count / went_by:.1f} slots a second", flush=True)
        print(f"  a slot: {entries / (count + 5):.0f} entries of a journal, {size / 1000 / (count + 5):.1f} kB of a log", flush=True)
    finally:
        network.end()


def main():
    it = argparse.ArgumentParser(description=__doc__, formatter_class=argparse.RawDescriptionHelpFormatter)
    it.add_argument("program")
    it.add_argument("--events", type=int, default=40_000)
    it.add_argument("--slots", type=int, default=100)
    asked = it.parse_args()
    program = os.path.abspath(asked.program)
    with tempfile.TemporaryDirectory() as folder:
        events(program, folder, asked.events)
        for with_log in (True, False):
            os.mkdir(f"{folder}/{with_log}")
            slots(program, f"{folder}/{with_log}", asked.slots, with_log)


if __name__ == "__main__":
    main()
