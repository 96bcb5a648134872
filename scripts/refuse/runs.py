"""Runs a program under refuse.so, and tells what came of it."""

import bisect
import mmap
import os
import resource
import signal
import struct
import subprocess
import tempfile
import time
from dataclasses import dataclass, field

HERE = os.path.dirname(os.path.abspath(__file__))
LIBRARY = f"{HERE}/refuse.so"
WORDS = "is_set base allocations refused made freed reads reads_failed writes writes_failed starts starts_failed ends refused_size frames".split()
FRAMES = 24


@dataclass
class Ended:
    """How a run ended: its exit status (or minus the signal), what it wrote, the library's counts, and whether it hung."""

    status: int
    out: bytes
    err: bytes
    hung: bool
    seconds: float
    counts: dict = field(default_factory=dict)
    frames: list = field(default_factory=list)  # addresses inside the program

    @property
    def kept(self):
        """Blocks that were never given back."""
        return self.counts["made"] - self.counts["freed"]

    @property
    def left(self):
        """Threads that were started and hadn't ended when the program did."""
        return self.counts["starts"] - self.counts["starts_failed"] - self.counts["ends"]


class Room:
    """One worker's files; each of its runs writes over them."""

    def __init__(self, limit=60.0):
        self.limit = limit
        self.folder = tempfile.TemporaryDirectory(prefix="refuse-", dir="/dev/shm")
        at = self.folder.name
        self.out, self.err, self.tells = f"{at}/out", f"{at}/err", f"{at}/tells"
        with open(self.tells, "wb") as it:
            it.write(bytes(4096))
        self.file = open(self.tells, "r+b")
        self.page = mmap.mmap(self.file.fileno(), 4096)
        resource.setrlimit(resource.RLIMIT_CORE, (0, 0))
        resource.setrlimit(resource.RLIMIT_FSIZE, (64 << 20, 64 << 20))
        self.base = {"PATH": "/usr/bin:/bin", "LANG": "C.UTF-8", "LD_PRELOAD": LIBRARY, "REFUSE_TELLS": self.tells}
        # freed memory is written over, and fresh memory isn't zero
        self.base["MALLOC_PERTURB_"] = "165"

    def run(self, words, stdin="/dev/null", **how):
        """Runs the words, with the numbers in `how` in the environment."""
        self.page[:] = bytes(4096)
        env = {**self.base, **{name: str(n) for name, n in how.items()}}
        began = time.monotonic()
        with open(stdin, "rb") as given, open(self.out, "wb") as out, open(self.err, "wb") as err:
            actions = [
                (os.POSIX_SPAWN_DUP2, given.fileno(), 0),
                (os.POSIX_SPAWN_DUP2, out.fileno(), 1),
                (os.POSIX_SPAWN_DUP2, err.fileno(), 2),
            ]
            pid = os.posix_spawn(words[0], words, env, file_actions=actions, setpgroup=0, setsigdef=[signal.SIGPIPE, signal.SIGXFSZ])
        hung = False

        def stop(*_):
            nonlocal hung
            hung = True
            os.kill(pid, signal.SIGKILL)

        signal.signal(signal.SIGALRM, stop)
        signal.setitimer(signal.ITIMER_REAL, self.limit)
        _, ended = os.waitpid(pid, 0)
        signal.setitimer(signal.ITIMER_REAL, 0)
        seconds = time.monotonic() - began
        values = struct.unpack_from(f"<{len(WORDS)}Q", self.page)
        counts = dict(zip(WORDS, values))
        frames = struct.unpack_from(f"<{FRAMES}Q", self.page, 8 * len(WORDS))[: counts["frames"]]
        frames = [it - counts["base"] for it in frames]
        with open(self.out, "rb") as out, open(self.err, "rb") as err:
            return Ended(os.waitstatus_to_exitcode(ended), out.read(), err.read(), hung, seconds, counts, frames)


class Names:
    """The names of a program's functions, by address."""

    def __init__(self, program):
        said = subprocess.run(["nm", "-n", "--defined-only", program], capture_output=True, text=True).stdout
        self.at, self.name = [], []
        for line in said.splitlines():
            words = line.split(" ", 2)
            if len(words) == 3 and words[1] in "tTwW":
                self.at.append(int(words[0], 16))
                self.name.append(words[2])
        self.last = self.at[-1] + 0x10000 if self.at else 0

    def of(self, address):
        place = bisect.bisect_right(self.at, address - 1) - 1
        return self.name[place] if 0 <= place and 0 <= address < self.last else None

    def callers(self, frames, most=6):
        """The innermost callers of a refused allocation, but for the allocator's own."""
        names = [self.of(it) for it in frames]
        names = [it for it in names if it and not it.startswith("rattle_")]
        return " < ".join(names[:most])
