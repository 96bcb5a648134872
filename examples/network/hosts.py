"""Four hosts with their nodes, what they were told, and whether that contradicts itself: what test.py, kills.py and show.py share."""
import argparse
import json
import os
import shutil
import signal
import subprocess
import sys
import tempfile
import time

HERE = os.path.dirname(os.path.abspath(__file__))
AUDITOR = os.path.join(HERE, "../../scripts/auditor")
NAMES = ["alice", "bob", "carol", "dave"]
SECONDS = 120  # so long nothing may move
FINE, CONTRADICTED, STUCK = 0, 1, 2


class Contradiction(Exception):
    """A node took something back, or two nodes applied different values."""


class Stuck(Exception):
    """It didn't go on, or a host or a node ended."""


class Unaudited(Exception):
    """The auditor says something else of the nodes' accounts than it should."""


# ---- statements, by their bytes


class Reader:
    def __init__(self, data):
        self.data, self.at = data, 0

    def take(self, count):
        self.at += count
        return self.data[self.at - count : self.at]

    def number(self, size=4):
        return int.from_bytes(self.take(size), "big")

    def value(self):
        count = self.number()
        return self.take(count + -count % 4)[:count]

    def ballot(self):
        return self.number(), self.value()

    def optional(self):
        """Nothing is less than any ballot."""
        return (1, self.ballot()) if self.number() else (0,)

    def values(self):
        return {self.value() for _ in range(self.number())}


def statement(message):
    """The slot of an envelope's statement, whether it is a nomination, and its place in the order of such statements; None of another message."""
    reader = Reader(message)
    if reader.number() != 1:
        return None
    reader.take(36)
    slot, kind = reader.number(8), reader.number()
    if kind == 0:
        reader.take(32)
        ballot, prepared, prime = reader.ballot(), reader.optional(), reader.optional()
        reader.number()
        return slot, False, (0, ballot, prepared, prime, reader.number())
    if kind == 1:
        ballot, n_prepared, _ = reader.ballot(), reader.number(), reader.number()
        return slot, False, (1, ballot, n_prepared, reader.number())
    if kind == 2:
        return slot, False, (2,)
    reader.take(32)
    return slot, True, (reader.values(), reader.values())


def is_newer(is_nomination, old, new):
    """Of two nominations the one whose lists have all that the other's have, and more; of ballot statements the one that stands behind the other."""
    if is_nomination:
        return old != new and all(before <= after for before, after in zip(old, new))
    return old < new


# ---- what a node wrote


class Told:
    """What a node wrote over its lives, a file for each life."""

    def __init__(self, folder, name):
        self.folder, self.name = folder, name
        self.life, self.file, self.part = 1, None, b""
        self.values, self.origins, self.newest, self.seen, self.events = {}, {}, {}, set(), []
        self.applied, self.last = 0, []

    def read(self, life):
        """What was written since the last time, up to this life. A line that is still being written isn't read, nor one that a kill cut short."""
        self.read_life()
        while self.life < life:
            if self.file is not None:
                self.file.close()
            self.file, self.part, self.life = None, b"", self.life + 1
            self.read_life()

    def read_life(self):
        path = f"{self.folder}/{self.name}.{self.life}.told"
        if self.file is None:
            # (who was killed at once wrote nothing)
            if not os.path.exists(path):
                return
            self.file = open(path, "rb")
        *lines, self.part = (self.part + self.file.read()).split(b"\n")
        for line in lines:
            self.last = self.last[-11:] + [line.decode()]
            self.take(line.decode().split())

    def take(self, words):
        if words[0] in ("send", "again"):
            self.take_message(bytes.fromhex(words[2].replace("-", "")))
        elif words[0] in ("decided", "applied") and len(words) > 2:
            self.take_value(words[0], int(words[1]), words[2], words[3:])
        elif words[0] == "ready":
            self.events.append(int(words[1]))

    def take_value(self, word, slot, value, origin):
        if self.values.setdefault(slot, value) != value:
            raise Contradiction(f"{self.name} was told two values of slot {slot}")
        if word == "applied":
            self.applied = max(self.applied, slot)
        else:
            self.origins[slot] = origin[0]

    def take_message(self, message):
        """Each envelope where it was written first: it is newer than the one before it, of its slot and kind."""
        found = statement(message)
        if found is None or message in self.seen:
            return
        self.seen.add(message)
        slot, is_nomination, new = found
        old = self.newest.get((slot, is_nomination))
        if old is not None and not is_newer(is_nomination, old, new):
            raise Contradiction(f"{self.name} took back what it said of slot {slot}: {message.hex()}")
        self.newest[slot, is_nomination] = new


# ---- processes


def running(session):
    """Whether a process of a session runs: one that only waits to be collected doesn't."""
    for entry in filter(str.isdigit, os.listdir("/proc")):
        try:
            with open(f"/proc/{entry}/stat", encoding="utf-8", errors="replace") as file:
                words = file.read().rpartition(")")[2].split()
        except OSError:
            continue
        if words[3] == str(session) and words[0] not in "ZX":
            return True
    return False


class Network:
    """Four hosts over one folder, each with its node in a session of its own."""

    def __init__(self, program, folder, unit, with_log):
        self.program, self.folder, self.unit, self.with_log = program, folder, unit, with_log
        self.hosts, self.lives = {}, dict.fromkeys(NAMES, 0)
        self.told = {name: Told(folder, name) for name in NAMES}
        for name in NAMES:
            shutil.copy(f"{HERE}/{name}.toml", folder)

    def write(self, name, text):
        with open(f"{self.folder}/{name}.new", "w", encoding="ascii") as file:
            file.write(text)
        os.replace(f"{self.folder}/{name}.new", f"{self.folder}/{name}")

    def propose_to(self, slot):
        self.write("slots", str(slot))

    def hold_down(self, one, other):
        self.write(f"{one}.cut", other)
        self.write(f"{other}.cut", one)

    def let_go(self, one, other):
        os.remove(f"{self.folder}/{one}.cut")
        os.remove(f"{self.folder}/{other}.cut")

    def start(self, names):
        for name in names:
            self.lives[name] += 1
            words = [sys.executable, f"{HERE}/host.py", self.program, self.folder, name, "--life", str(self.lives[name]), "--unit", str(self.unit), "--until-eof"]
            words += [] if self.with_log else ["--no-log"]
            with open(f"{self.folder}/{name}.out", "ab") as out:
                self.hosts[name] = subprocess.Popen(words, stdin=subprocess.PIPE, stdout=out, stderr=out, start_new_session=True)

    def kill(self, names):
        """Hosts and their nodes, all at once. Ends when none of these processes runs."""
        for name in names:
            # (a host that ended isn't collected before, so the number is still its own)
            os.killpg(self.hosts[name].pid, signal.SIGKILL)
        for name in names:
            host = self.hosts.pop(name)
            host.wait()
            host.stdin.close()
            while running(host.pid):
                time.sleep(0.001)

    def end(self):
        self.kill(list(self.hosts))

    def read(self):
        for name in NAMES:
            self.told[name].read(self.lives[name])
        self.compare()

    def compare(self):
        """Whether all were told the same of each slot."""
        values = {}
        for name in NAMES:
            for slot, value in self.told[name].values.items():
                if values.setdefault(slot, value) != value:
                    raise Contradiction(f"two nodes were told different values of slot {slot}, one of them {name}")

    def applied(self, names=None):
        return [self.told[name].applied for name in names or NAMES]

    def wait(self, holds):
        """Until it holds. Where nothing is applied for too long, or a host ended, it is stuck."""
        moved, until = None, 0
        while True:
            self.read()
            if holds():
                return
            now = self.applied()
            if now != moved:
                moved, until = now, time.monotonic() + SECONDS
            if time.monotonic() > until:
                raise Stuck(f"nothing was applied for {SECONDS} seconds: {now}")
            for name, host in self.hosts.items():
                if os.waitid(os.P_PID, host.pid, os.WEXITED | os.WNOHANG | os.WNOWAIT):
                    self.read()
                    raise Stuck(f"the host of {name} ended")
            time.sleep(0.02)

    def wait_for(self, slot, names=None):
        self.wait(lambda: min(self.applied(names)) >= slot)

    def show(self):
        """The last lines of each host, cut short."""
        for name in NAMES:
            print(f"--- {name}, life {self.lives[name]}")
            lines = list(self.told[name].last)
            path = f"{self.folder}/{name}.out"
            if os.path.exists(path):
                with open(path, encoding="utf-8", errors="replace") as file:
                    lines += file.read().split("\n")[-12:]
            for line in lines:
                print(f"    {line if len(line) <= 160 else line[:160] + '..'}")


def judge(network):
    """What holds of all that was told: the number of checks. A contradiction was raised before, where it was read."""
    applied = network.applied()
    if min(applied) != max(applied):
        raise Stuck(f"not all applied as many slots: {applied}")
    for name in NAMES:
        told = network.told[name]
        missing = [slot for slot in range(1, told.applied + 1) if slot not in told.values]
        if missing:
            raise Stuck(f"{name} was told no value of the slots {missing}")
    statements = sum(len(network.told[name].seen) for name in NAMES)
    print(f"all four applied the same {applied[0]} values; none was told two values of a slot, and none of {statements} statements took back another")
    return 3 * len(NAMES)


# ---- accounts


def account_of(network, name):
    """The account of a node that is down, by its log."""
    words = [network.program, "node", "account", f"{network.folder}/{name}.toml", "--log", f"{network.folder}/{name}.log"]
    done = subprocess.run(words, capture_output=True, timeout=SECONDS, check=False)
    if done.returncode != 0:
        raise Unaudited(f"no account of {name}, status {done.returncode}: {(done.stdout + done.stderr).decode()}")
    return json.loads(done.stdout)


def said_of(network, accounts):
    """The status of the auditor, and what it says of these accounts, one of each node."""
    paths = [f"{network.folder}/{name}.account" for name in NAMES]
    for path, account in zip(paths, accounts):
        with open(path, "w", encoding="ascii") as file:
            json.dump(account, file)
    done = subprocess.run([sys.executable, AUDITOR, *paths], capture_output=True, text=True, check=False)
    return done.returncode, (done.stdout or done.stderr[-300:]).strip()


def audit(network):
    """The auditor finds the accounts of the four right. How many checks that is."""
    status, said = said_of(network, [account_of(network, name) for name in NAMES])
    if status != 0 or not said.startswith("ok "):
        raise Unaudited(f"the auditor refuses the accounts: {said}")
    print(f"the auditor of their four accounts: {said}")
    return 1


def audit_changed(network):
    """The control: it refuses them where one byte is another, of a message that one node sent and the next one heard. How many checks that is."""
    one, other, *rest = [account_of(network, name) for name in NAMES]
    link = next(link for link in one["nodes"][0]["links"] if link["peer"] == other["nodes"][0]["id"])
    came = next(link["came"] for link in other["nodes"][0]["links"] if link["peer"] == one["nodes"][0]["id"])
    places = [place for place, message in enumerate(link["sent"]) if message in came]
    place = places[len(places) // 2]
    data = bytearray.fromhex(link["sent"][place])
    data[len(data) // 2] ^= 1
    link["sent"][place] = data.hex()
    status, said = said_of(network, [one, other, *rest])
    if status != 1 or not said.startswith("node "):
        raise Unaudited(f"the auditor finds nothing where one byte of message {place + 1} is another: {said}")
    print(f"and where one byte is another: {said}")
    return 1


def tried(network, act, checks):
    """How many checks passed, and what ended them, if anything did. What isn't read yet may hold a contradiction."""
    passed, fault = 0, None
    try:
        passed = act(network)
    except (Contradiction, Stuck) as it:
        fault = it
    network.end()
    try:
        network.read()
        if fault is None:
            passed += judge(network)
            for check in checks:
                passed += check(network)
    except Contradiction as it:
        fault = fault if isinstance(fault, Contradiction) else it
    except (Stuck, Unaudited) as it:
        fault = it
    return passed, fault


def arguments(text):
    it = argparse.ArgumentParser(description=text, formatter_class=argparse.RawDescriptionHelpFormatter)
    it.add_argument("program")
    it.add_argument("--no-log", action="store_true", help="nodes forget what they said when they are killed: this has to end with status 1")
    it.add_argument("--keep", metavar="FOLDER", help="leaves all files there")
    return it.parse_args()


def room():
    """A folder that goes when it is left, in memory where there is such a place: a kill doesn't take what the system hasn't written to a disk yet."""
    memory = "/dev/shm" if "TMPDIR" not in os.environ and os.access("/dev/shm", os.W_OK) else None
    return tempfile.TemporaryDirectory(dir=memory)


def play(asked, act, *checks, unit=0.1):
    """Plays a test, and ends with its status. `act` is given the network, and answers how many things it did; so is each of the checks, once all
    nodes are down, where they have logs."""
    sys.stdout.reconfigure(line_buffering=True)
    signal.signal(signal.SIGTERM, lambda *_: sys.exit(STUCK))
    kept = None if asked.keep else room()
    folder = asked.keep or kept.name
    os.makedirs(folder, exist_ok=True)
    network = Network(os.path.abspath(asked.program), folder, unit, not asked.no_log)
    try:
        passed, fault = tried(network, act, () if asked.no_log else checks)
        if fault is not None:
            print(f"FAILED: {str(fault)[:400]}")
            network.show()
    finally:
        network.end()
        if kept is not None:
            kept.cleanup()
    print(f"{passed} passed, {0 if fault is None else 1} failed")
    sys.exit(FINE if fault is None else CONTRADICTED if isinstance(fault, Contradiction) else STUCK)
