#!/usr/bin/env python3
"""What becomes of a process and its log where something is wrong: each case with its answer. What a log holds is read here too, by docs/LIVE.md
alone. No case needs more rights than a user has.

usage: logs.py PROGRAM [--every N]
  --every N    a log is cut and changed at each N-th byte only
The last line is 'N passed, M failed'; the status is 0 where none failed.
"""
import argparse
import concurrent.futures
import hashlib
import os
import re
import resource
import signal
import subprocess
import sys
import threading
import time

from hosts import room

CONFIG = """NODE = "alice"
PEERS = ["bob", "carol"]
[NODES]
alice = 1
bob = 2
carol = 3
[QUORUM_SET]
THRESHOLD = 1
VALIDATORS = ["alice"]
"""
VALUE = "00000001" "00000000" "00000001" "61000000" "00000001" "31000000"  # ops(put(a,1))
# what comes with one write is a batch of the log
BATCHES = [
    ["open bob", f"propose 1 {VALUE}"],
    ["recv bob 00", "close bob", "open bob"],
    ["ask bob 2", "open carol"],
    ["recv carol 000000050000000000000001"],
]
LONGEST = 262_144
SECONDS = 60
FIRST = 76  # bytes of a log's first line
UNBEGUN = "fault 9 log isn't begun: --new begins it\n"
CHAIN, NO_EVENT, OTHERWISE = "the chain doesn't fit", "the line says no event", "something else is sent"


def sha256(data):
    return hashlib.sha256(data).digest()


def digest_of_config():
    """The SHA-256 of what that configuration says: the node, all names with their ids, its peers, four capacities of 64, and the quorum set in XDR."""

    def number(count):
        return count.to_bytes(8, "big")

    def named(name, place):
        return number(len(name)) + name + bytes([place]) * 32

    alice, bob, carol = named(b"alice", 1), named(b"bob", 2), named(b"carol", 3)
    quorum_set = bytes.fromhex("00000001" "00000001" "00000000" + "01" * 32 + "00000000")
    return sha256(alice + number(3) + alice + bob + carol + number(2) + bob + carol + 4 * number(64) + quorum_set).hex()


# ---- a log, by docs/LIVE.md


def entry(before, mark, line, sent):
    """The two lines of an entry, and its digest."""
    digest = sha256(before + line + b"\n" + sent)
    return mark + line + b"\n= " + sent.hex().encode() + b" " + digest.hex().encode() + b"\n", digest


def entries(header, data):
    """The whole entries behind the first line, each (mark, line, sent), and what stands behind them."""
    before, found, rest = sha256(header), [], data[len(header) :]
    while True:
        match = re.match(rb"([+ ])([^\n]*)\n= ([0-9a-f]{64}) [0-9a-f]{64}\n", rest)
        if match is None:
            return found, rest
        sent = bytes.fromhex(match[3].decode())
        spelled, digest = entry(before, match[1], match[2], sent)
        if not rest.startswith(spelled):
            return found, rest
        found.append((match[1], match[2], sent))
        before, rest = digest, rest[len(spelled) :]


def spelled(header, found):
    """A log of these entries."""
    before, text = sha256(header), header
    for mark, line, sent in found:
        added, before = entry(before, mark, line, sent)
        text += added
    return text


# ---- processes


class Place:
    """A folder with a configuration and perhaps a log, and the program."""

    def __init__(self, program, folder, config=CONFIG):
        self.program, self.folder = program, folder
        os.makedirs(folder, exist_ok=True)
        with open(f"{folder}/node.toml", "w", encoding="ascii") as file:
            file.write(config)

    def is_begun(self):
        """Whether there is a log with a whole first line."""
        path = f"{self.folder}/log"
        return os.path.isfile(path) and os.path.getsize(path) >= FIRST

    def words(self, with_log=True, more=None):
        """The words of a process: with a log that is begun, or else with a new one, or with these words."""
        words = [self.program, "node", "run", f"{self.folder}/node.toml"]
        if not with_log:
            return words
        return words + ["--log", f"{self.folder}/log"] + (([] if self.is_begun() else ["--new"]) if more is None else more)

    def write(self, data):
        with open(f"{self.folder}/log", "wb") as file:
            file.write(data)

    def read(self):
        with open(f"{self.folder}/log", "rb") as file:
            return file.read()

    def run(self, lines, with_log=True, words=None, **more):
        """The status and the output of a process that is given these lines, or these bytes."""
        return self.run_told(lines, with_log, words, **more)[:2]

    def run_told(self, lines, with_log=True, words=None, **more):
        """The same, and what it told people."""
        data = lines if isinstance(lines, bytes) else "".join(f"{line}\n" for line in lines).encode()
        done = subprocess.run(self.words(with_log, words), input=data, capture_output=True, timeout=SECONDS, check=False, **more)
        return done.returncode, done.stdout.decode("ascii", "replace"), done.stderr.decode("ascii", "replace").replace(f"{self.folder}/", "")

    def begin(self, with_log=True, **more):
        return subprocess.Popen(self.words(with_log), stdin=subprocess.PIPE, stdout=subprocess.PIPE, **more)


class Ended(Exception):
    """A process ended; the last line that it wrote."""


def answer(process, number):
    """What a process writes, up to the answer to the line of this number."""
    lines = []
    while not lines or not re.match(rf"(ok|bad) {number}\b", lines[-1]):
        line = process.stdout.readline().decode()
        if not line:
            raise Ended("".join(lines[-1:]))
        lines.append(line)
    return "".join(lines)


def end(process):
    try:
        process.stdin.close()
    except BrokenPipeError:
        pass
    process.stdout.close()
    return process.wait(SECONDS)


def answers(text):
    """The lines of an output behind the answer to line 0, without the numbers of answers."""
    return re.sub(r"^(ok|bad) \d+", r"\1", text.partition("ok 0\n")[2], flags=re.M)


# ---- counts


class Counts:
    def __init__(self):
        self.passed = self.failed = 0

    def note(self, holds, what):
        if holds:
            self.passed += 1
        else:
            self.failed += 1
            if self.failed <= 20:
                print(f"FAILED: {what if len(what) < 600 else what[:600] + '..'}")

    def same(self, seen, expected, what):
        self.note(seen == expected, f"{what}: seen {seen!r}, expected {expected!r}")


# ---- the log that the cases are made of


class Base:
    """A log that a node wrote in four batches, and how a node stands after each number of its events."""

    def __init__(self, place):
        self.place = place
        process = place.begin()
        self.first, number = answer(process, 0), 0
        for batch in BATCHES:
            process.stdin.write("".join(f"{line}\n" for line in batch).encode())
            process.stdin.flush()
            number += len(batch)
            answer(process, number)
        end(process)
        self.log = place.read()
        self.header = self.log[: self.log.index(b"\n") + 1]
        self.entries, self.rest = entries(self.header, self.log)
        self.stands = [self.stand(count) for count in range(len(self.entries) + 1)]

    def lines(self, count):
        """The lines of so many events, and the closes of what was open then."""
        lines, is_open = [line.decode() for _, line, _ in self.entries[:count]], {"bob": False, "carol": False}
        for line in lines:
            words = line.split()
            # (bytes that are no message end a connection, and its link is open until the host closes it)
            if words[0] in ("open", "close"):
                is_open[words[1]] = words[0] == "open"
        return lines, [f"close {name}" for name in is_open if is_open[name]]

    def stand(self, count):
        """How a node stands that was given so many events, and closes."""
        lines, closes = self.lines(count)
        status, text = self.place.run(lines + closes + ["# here", "state", "report"], with_log=False)
        assert status == 0, text
        return answers(text).split("ok\n", len(lines + closes) + 1)[-1]

    def expected(self, data):
        """What a log that holds this leads to: its fault, or how many events are played."""
        if data != self.header and self.header.startswith(data):
            return 0
        if not data.startswith(self.header):
            return "fault 9 log of another configuration\n"
        found, rest = entries(self.header, data)
        if b"\n+" in rest:
            return f"fault 12 log line {2 * len(found) + 2}: {CHAIN}\n"
        # a mark isn't in a digest: what stands there says where a batch begins, and nothing else
        assert [it[1:] for it in found] == [it[1:] for it in self.entries[: len(found)]]
        return len(found)

    def torn(self, data, count):
        """The line of the torn end of this log, of which so many events are whole."""
        size = len(spelled(self.header, self.entries[:count])) if data.startswith(self.header) else 0
        return f"torn {len(data) - size} {count}\n" if len(data) > size else ""

    def try_log(self, place, data):
        """Whether a process with this log does as is expected; else what it did."""
        expected = self.expected(data)
        place.write(data)
        status, text = place.run(["state", "report"])
        if isinstance(expected, str):
            if (status, text) == (1, expected) and place.read() == data:
                return None
            return f"status {status}, {text!r}, expected {expected!r} and an untouched log"
        lines, closes = self.lines(expected)
        kept, _ = entries(self.header, place.read())
        first = f"ready {expected + len(closes)}\n{self.torn(data, expected)}lowest "
        if status != 0 or not text.startswith(first):
            return f"status {status}, {text!r}, expected {first!r}"
        if answers(text) != self.stands[expected]:
            return f"it stands at {answers(text)!r}, expected {self.stands[expected]!r}"
        if [it[1].decode() for it in kept] != lines + closes:
            return f"the log holds {[it[1] for it in kept]}"
        return None


def try_all(base, program, folder, counts, cases):
    """Many logs, some at once. Each case is a name and its bytes."""
    local, numbers = threading.local(), iter(range(1000))

    def try_one(case):
        if not hasattr(local, "place"):
            local.place = Place(program, f"{folder}/{next(numbers)}")
        return case[0], base.try_log(local.place, case[1])

    with concurrent.futures.ThreadPoolExecutor(max_workers=4) as workers:
        for name, fault in workers.map(try_one, cases):
            counts.note(fault is None, f"{name}: {fault}")


def spoiled(base, every):
    """Logs with one thing wrong."""
    log = base.log
    for end_ in range(0, len(log) + 1, every):
        yield f"cut at byte {end_}", log[:end_]
    for at in range(0, len(log), every):
        yield f"another byte {at}", log[:at] + bytes([log[at] ^ 1]) + log[at + 1 :]
    lines = log.splitlines(keepends=True)
    for at in range(len(lines)):
        yield f"without line {at + 1}", b"".join(lines[:at] + lines[at + 1 :])
        yield f"line {at + 1} twice", b"".join(lines[: at + 1] + lines[at:])
    for at in range(1, len(lines), 2):
        yield f"without entry {at // 2}", b"".join(lines[:at] + lines[at + 2 :])
        yield f"entry {at // 2} twice", b"".join(lines[: at + 2] + lines[at:])
        yield f"entry {at // 2} behind the next", b"".join(lines[:at] + lines[at + 2 : at + 4] + lines[at : at + 2] + lines[at + 4 :])
    for at in range(len(base.entries)):
        mark = b" " if base.entries[at][0] == b"+" else b"+"
        marked = [(mark if place == at else it[0], *it[1:]) for place, it in enumerate(base.entries)]
        yield f"the other mark at entry {at}", spelled(base.header, marked)
    yield "more behind it", log + b"+open bob\n= 00\n"
    yield "a whole batch that doesn't fit", log + log[len(base.header) :]
    yield "no log", b"hello\n"
    yield "an empty line", b"\n"
    yield "a log of another configuration", base.header[:-2] + b"-\n" + log[len(base.header) :]
    yield "a log of another version", b"scp_node 2" + log[10:]


def replayed(base, place, counts):
    """Logs whose digests fit, of events that lead elsewhere or are none."""
    for at in range(len(base.entries)):
        mark, line, sent = base.entries[at]
        for name, why, other in (
            ("something else was sent", OTHERWISE, (mark, line, sha256(b"send bob 00\n"))),
            ("a question", NO_EVENT, (mark, b"state", sha256(b""))),
            ("no line", NO_EVENT, (mark, b"jump", sha256(b""))),
            ("an empty line", NO_EVENT, (mark, b"", sha256(b""))),
        ):
            data = spelled(base.header, base.entries[:at] + [other] + base.entries[at + 1 :])
            place.write(data)
            seen = place.run([])
            counts.same(seen, (1, f"fault 12 log line {2 * at + 2}: {why}\n"), f"{name} at entry {at}")
            counts.same(place.read(), data, f"{name} at entry {at}: the log")


def spells(base, counts):
    """The log of the four batches is as docs/LIVE.md says: its marks, its lines, and the digests of what was sent."""
    counts.same(base.rest, b"", "behind the log's entries")
    counts.same(base.first.split("\n")[0], "ready 0", "the first line of an output")
    marks = [b"+" if place == 0 else b" " for batch in BATCHES for place in range(len(batch))]
    counts.same([it[0] for it in base.entries], marks, "the marks")
    counts.same([it[1].decode() for it in base.entries], [line for batch in BATCHES for line in batch], "the lines")
    _, text = base.place.run([line for batch in BATCHES for line in batch], with_log=False)
    for (_, line, sent), told in zip(base.entries, answers(text).split("ok\n")):
        sends = "".join(it + "\n" for it in told.split("\n") if it.startswith("send "))
        counts.same(sent, sha256(sends.encode()), f"the digest of what was sent of {line}")
    status, text = base.place.run([], with_log=False)
    counts.same((status, text.split("\n")[0]), (0, "ready 0"), "without a log")
    digest = subprocess.run([base.place.program, "node", "check", f"{base.place.folder}/node.toml"], capture_output=True, check=False).stdout
    counts.same(digest.decode(), f"ok {digest_of_config()}\n", "what check prints")
    counts.same(base.header.decode(), f"scp_node 1 {digest_of_config()}\n", "the first line of a log")


# ---- who else has the log, and where it lies


def in_use(place, counts):
    place.write(b"")
    first = place.begin()
    answer(first, 0)
    counts.same(place.run(["state"]), (3, "fault 14 log is in use\n"), "a second process on a log")
    first.stdin.write(b"open bob\n")
    first.stdin.flush()
    counts.same(answer(first, 1), "ok 1\n", "the first one, after a second came")
    first.kill()
    end(first)
    counts.same(place.run([])[1].split("\n")[0], "ready 2", "after the first one was killed")


def elsewhere(program, folder, counts):
    """Logs that can't be opened."""
    place = Place(program, f"{folder}/elsewhere")
    os.mkdir(f"{place.folder}/log")
    counts.same(place.run_told([]), (3, "fault 14\n", "log: it is a directory\n"), "a log that is a folder")
    os.rmdir(f"{place.folder}/log")
    missing = (3, "fault 14 log isn't there: --new makes one\n", "log: there is no such file\n")
    counts.same(place.run_told([], words=[]), missing, "a log that isn't there")
    counts.same(place.run_told([], words=["--at-least", "0"]), missing, "a log that isn't there, and may be without events")
    counts.note(not os.path.exists(f"{place.folder}/log"), "a log that isn't there is made without --new")
    place.words = lambda with_log=True, more=None: [program, "node", "run", f"{place.folder}/node.toml", "--log", f"{place.folder}/nowhere/log", "--new"]
    counts.same(place.run_told([]), (3, "fault 14\n", "nowhere/log: there is no such file\n"), "a new log in a folder that isn't there")


def wanted(base, place, counts):
    """Which log is wanted: a new one, or one that is begun, with at least so many events."""
    for size in (0, 10, FIRST - 1):
        place.write(base.log[:size])
        counts.same(place.run([], words=[]), (1, UNBEGUN), f"a log of {size} bytes, without --new")
        counts.same(place.read(), base.log[:size], f"a log of {size} bytes, without --new: the log")
        status, text, told = place.run_told([], words=["--new"])
        counts.note(status == 0 and text.startswith("ready 0\n" + (f"torn {size} 0\n" if size else "lowest 1\n")), f"a log of {size} bytes, with --new: {text!r}")
        counts.same(told, f"log: its end is torn: {size} bytes were cut off behind 0 events\n" if size else "", f"a log of {size} bytes, with --new: what is told")
    for behind in (b"", base.log[FIRST : FIRST + 50]):
        place.write(base.header + behind)
        counts.same(place.run([], words=["--new"])[1].split("\n")[0], "ready 0", "a new log whose first line is whole")
    count = len(base.entries)
    for words, told in (
        (["--new"], f"fault 9 log has {count} events, expected none\n"),
        (["--at-least", str(count + 1)], f"fault 9 log has {count} events, expected at least {count + 1}\n"),
    ):
        place.write(base.log + b"torn")
        counts.same(place.run([], words=words), (1, told), f"a log of {count} events, with {words}")
        counts.same(place.read(), base.log + b"torn", f"a log of {count} events, with {words}: the log")
    for words in ([], ["--at-least", "0"], ["--at-least", str(count)]):
        place.write(base.log)
        counts.same(place.run([], words=words)[0], 0, f"a log of {count} events, with {words}")
    place.write(base.log[: len(base.log) * 2 // 5])
    found = len(entries(base.header, place.read())[0])
    counts.same(place.run([], words=["--at-least", str(count)]), (1, f"fault 9 log has {found} events, expected at least {count}\n"), "a log that was cut")


def moved(base, place, counts):
    """What becomes of a log while its process runs: what somebody else moves, cuts or writes ends the process before it says anything more."""
    path, aside = f"{place.folder}/log", f"{place.folder}/aside"

    def copied():
        os.rename(path, aside)
        with open(aside, "rb") as file:
            place.write(file.read())

    def appended():
        with open(path, "ab") as file:
            file.write(b"x")

    for name, act in (
        ("moved", lambda: os.rename(path, aside)),
        ("removed", lambda: os.remove(path)),
        ("moved, with a copy in its place", copied),
        ("cut to nothing", lambda: os.truncate(path, 0)),
        ("cut by a byte", lambda: os.truncate(path, os.path.getsize(path) - 1)),
        ("made longer", appended),
    ):
        place.write(base.log)
        process = place.begin(stderr=subprocess.PIPE)
        answer(process, 0)
        act()
        process.stdin.write(b"state\n")
        process.stdin.flush()
        counts.note("lowest" in answer(process, 1), f"a log that was {name}: a question")
        process.stdin.write(b"open bob\n")
        process.stdin.flush()
        counts.same(process.stdout.read().decode(), "fault 14 log was moved\n", f"a log that was {name}: an event")
        told = process.stderr.read().decode()
        process.stderr.close()
        counts.same((end(process), told), (3, f"{path}: it was moved, cut or written by somebody else\n"), f"a log that was {name}")
    if os.path.exists(aside):
        os.remove(aside)


def full_disk(base, place, counts):
    """A log that can't grow: the system refuses to write behind so many bytes, as a full disk would."""

    def limit(size):
        def set_limit():
            signal.signal(signal.SIGXFSZ, signal.SIG_IGN)
            resource.setrlimit(resource.RLIMIT_FSIZE, (size, size))

        return set_limit

    lines = [line for batch in BATCHES for line in batch]
    for size in (0, 10, len(base.header), len(base.header) + 100, len(base.log) - 1):
        place.write(b"")
        process, told = place.begin(preexec_fn=limit(size)), 0
        name, text = f"a disk that is full at {size} bytes", []
        # one line at a time: each is a batch
        for line in [b""] + [f"{line}\n".encode() for line in lines]:
            try:
                process.stdin.write(line)
                process.stdin.flush()
                text.append(answer(process, len(text)))
            except (Ended, BrokenPipeError) as ended:
                counts.same(ended.args[:1], ("fault 14\n",), f"{name}: its last line")
                break
        told = max(len(text) - 1, 0)
        counts.same(end(process), 3, name)
        # of what isn't on the disk nothing was written
        kept, _ = entries(base.header, place.read())
        counts.note(len(kept) >= told, f"{name}: {told} answers of {len(kept)} events")
        status, text = place.run([])
        counts.note(status == 0 and text.startswith("ready "), f"{name}, with room again: status {status}, {text!r}")


# ---- hosts that don't read


def gone(base, place, counts):
    """A host that goes away: what it was to read is lost, and the log has the event."""
    place.write(b"")
    process = place.begin()
    answer(process, 0)
    process.stdout.close()
    process.stdin.write(b"open bob\n")
    process.stdin.flush()
    status = process.wait(SECONDS)
    process.stdin.close()
    counts.note(status == 3, f"a host that closed the output: status {status}")
    counts.same([it[1] for it in entries(base.header, place.read())[0]], [b"open bob"], "the log of a host that closed the output")


def slow(place, counts):
    """A host that writes and doesn't read: the process waits and keeps little, and nothing is lost."""
    place.write(b"")
    process = place.begin()
    answer(process, 0)
    count, sent = 40_000, threading.Event()

    def write():
        for _ in range(count // 100):
            process.stdin.write(b"state\n" * 100)
        process.stdin.flush()
        sent.set()

    writer = threading.Thread(target=write, daemon=True)
    writer.start()
    time.sleep(1)
    with open(f"/proc/{process.pid}/status", encoding="ascii") as file:
        size = int(re.search(r"VmHWM:\s+(\d+)", file.read())[1])
    counts.note(process.poll() is None and not sent.is_set(), "a host that doesn't read: the process doesn't wait")
    counts.note(size < 100_000, f"a host that doesn't read: the process has {size} kB")
    text = answer(process, count)
    counts.same(re.findall(r"^ok (\d+)", text, re.M), [str(it) for it in range(1, count + 1)], "the answers to a host that read late")
    writer.join()
    counts.same(end(process), 0, "a host that read late")


# ---- lines, each with what it is answered behind `bad N`, or None where it is answered by `ok N`

TOO_LONG = "1 expected a line of at most 262144 bytes"
VERB = "1 expected open, close, recv, propose, round, timer, tick, ask, again, state, report, stand or applied"
PEER, END = "expected a peer", "expected the end of the line"
SLOT, DIGITS = "expected a slot, below 2^64", "expected hexadecimal digits, or - for none"
SPACES = "expected one space between words, none before the first and none behind the last"
LINES = [
    (b"# " + b"x" * (LONGEST - 2), None),
    (b"# " + b"x" * (LONGEST - 1), TOO_LONG),
    (b"x" * LONGEST, VERB),
    (b"x" * (LONGEST + 1), TOO_LONG),
    (b"x" * (10 * LONGEST), TOO_LONG),
    (b"", None),
    (b"# a comment", None),
    (b"jump", VERB),
    (b"OPEN bob", VERB),
    (b"open", f"2 {PEER}"),
    (b"open dave", f"2 {PEER}"),
    (b"open alice", f"2 {PEER}"),
    (b"open 2", f"2 {PEER}"),
    (b"open bob carol", f"3 {END}"),
    (b"close", f"2 {PEER}"),
    (b"close bob 1", f"3 {END}"),
    (b"recv", f"2 {PEER}"),
    (b"recv dave 0", f"2 {PEER}"),
    (b"recv bob", f"3 {DIGITS}"),
    (b"recv bob 0", f"3 {DIGITS}"),
    (b"recv bob 0g", f"3 {DIGITS}"),
    (b"recv bob --", f"3 {DIGITS}"),
    (b"recv bob 00 00", f"4 {END}"),
    (b"propose", f"2 {SLOT}"),
    (b"propose 01 -", f"2 {SLOT}"),
    (b"propose -1 -", f"2 {SLOT}"),
    (b"propose +1 -", f"2 {SLOT}"),
    (b"propose 18446744073709551616 -", f"2 {SLOT}"),
    (b"propose 1", f"3 {DIGITS}"),
    (b"propose 1 0x00", f"3 {DIGITS}"),
    (b"propose 1 - -", f"4 {END}"),
    (b"round", f"2 {SLOT}"),
    (b"round one", f"2 {SLOT}"),
    (b"round 1 1", f"3 {END}"),
    (b"timer", f"2 {SLOT}"),
    (b"timer 1.0", f"2 {SLOT}"),
    (b"ballot", f"2 {SLOT}"),
    (b"ballot 1 1", f"3 {END}"),
    (b"tick 1", f"2 {END}"),
    (b"ask", f"2 {PEER}"),
    (b"ask 1 bob", f"2 {PEER}"),
    (b"ask bob", f"3 {SLOT}"),
    (b"ask bob one", f"3 {SLOT}"),
    (b"ask bob 1 1", f"4 {END}"),
    (b"again", f"2 {PEER}"),
    (b"again bob carol", f"3 {END}"),
    (b"state 1", f"2 {END}"),
    (b"report bob", f"2 {END}"),
    (b"stand 1", f"2 {END}"),
    (b"applied", f"2 {SLOT}"),
    (b"applied 1 2", f"3 {END}"),
    (b" open bob", f"1 {SPACES}"),
    (b"open  bob", f"2 {SPACES}"),
    (b"open bob ", f"3 {SPACES}"),
    (b" ", f"1 {SPACES}"),
    (b" # no comment", f"1 {SPACES}"),
    (b"open\tbob", "1 expected one space, no tab"),
    (b"open bob\r", "2 expected no carriage return: a line ends with a line feed alone"),
    (b"open b\xc3\xb6b", "2 expected ASCII"),
    (b"# caf\xc3\xa9", "2 expected ASCII"),
    (b"\xef\xbb\xbfopen bob", "1 expected no byte order mark"),
    (b"open bob\0", f"2 {PEER}"),
    (b"\0", VERB),
]


def lines_of(base, place, counts):
    """What a line is answered that is too long, is none, or isn't ended."""
    for with_log in (False, True):
        place.write(b"")
        status, text = place.run(b"".join(line + b"\n" for line, _ in LINES), with_log)
        seen = text.partition("ok 0\n")[2].split("\n")
        counts.same((status, len(seen)), (0, len(LINES) + 1), "bad lines")
        for number, ((line, expected), told) in enumerate(zip(LINES, seen), 1):
            counts.same(told, f"bad {number} {expected}" if expected else f"ok {number}", f"the line {line[:40]}")
        counts.same(place.read(), base.header if with_log else b"", "the log behind bad lines")


def unended(base, place, counts):
    """A last line without its end is dropped."""
    place.write(b"")
    status, text = place.run(b"open bob\nopen carol")
    counts.same((status, answers(text)), (0, "ok\n"), "a last line without its end")
    counts.same([it[1] for it in entries(base.header, place.read())[0]], [b"open bob"], "the log behind a last line without its end")


def main():
    it = argparse.ArgumentParser(description=__doc__, formatter_class=argparse.RawDescriptionHelpFormatter)
    it.add_argument("program")
    it.add_argument("--every", type=int, default=1)
    asked = it.parse_args()
    program, counts = os.path.abspath(asked.program), Counts()
    with room() as folder:
        base = Base(Place(program, f"{folder}/base"))
        place = Place(program, f"{folder}/place")
        spells(base, counts)
        try_all(base, program, folder, counts, list(spoiled(base, asked.every)))
        replayed(base, place, counts)
        in_use(place, counts)
        elsewhere(program, folder, counts)
        wanted(base, place, counts)
        moved(base, place, counts)
        full_disk(base, place, counts)
        gone(base, place, counts)
        slow(place, counts)
        unended(base, place, counts)
        lines_of(base, place, counts)
    print(f"{counts.passed} passed, {counts.failed} failed")
    sys.exit(1 if counts.failed or not counts.passed else 0)


if __name__ == "__main__":
    main()
