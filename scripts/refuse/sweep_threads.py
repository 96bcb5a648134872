#!/usr/bin/env python3
"""Makes each allocation, read, write and start of a thread of whole runs of scp_line_cli in mode threads fail in turn, and sorts what comes of it.

usage: sweep_threads.py [--jobs N] [--budget SECONDS] [--limit SECONDS] [--only WORD] EXAMPLES.. PROGRAM

EXAMPLES are folders of scripts, PROGRAM is scp_line_cli as it was built. For each script:
  allocation     the k-th allocation is refused, for k = 1, 2, .. until a run makes fewer: which thread it falls to is up to the schedule
  read, write    the k-th fails with EIO
  start          the k-th start of a thread fails
  .. and later   the k-th and all after it
Where that would take longer than the budget, the first 100 are tried, then every so many.

An outcome is one of
  whole          status 0, and the stored report, where the script prints the same in both modes (scripts/lib/one_source); of those in a folder threads/
                 what each node applied, and its state; of the others a report of each node that is asked for
  fault 1, fault 13       that line alone, with the node and the stage that failed, status 3
  fault 14       where a read or a write failed: behind what was written before, status 3
  nothing said   no line (or what was written before), status 3: where all later allocations or writes fail as well
  DEFECT         all else: a hang (no end within the limit), a crash, a thread that hadn't ended when the program did
The last line is 'N runs, M hung, K threads left, D defects', and the status is 1 where there was any of the last three.
"""

import argparse
import collections
import multiprocessing
import os
import re
import subprocess
import sys
import time

from runs import HERE, Room

FIRST = 100
SWEEPS = [
    ("allocation", "allocations", "refused", "REFUSE_AT", {"REFUSE_FOR": 1}),
    ("allocation and later", "allocations", "refused", "REFUSE_AT", {"REFUSE_FOR": 0}),
    ("read", "reads", "reads_failed", "READ_FAILS_AT", {"READ_FAILS_FOR": 1}),
    ("read and later", "reads", "reads_failed", "READ_FAILS_AT", {"READ_FAILS_FOR": 0}),
    ("write", "writes", "writes_failed", "WRITE_FAILS_AT", {"WRITE_FAILS_FOR": 1}),
    ("write and later", "writes", "writes_failed", "WRITE_FAILS_AT", {"WRITE_FAILS_FOR": 0}),
    ("start", "starts", "starts_failed", "START_FAILS_AT", {"START_FAILS_FOR": 1}),
    ("start and later", "starts", "starts_failed", "START_FAILS_AT", {"START_FAILS_FOR": 0}),
]
FAULT_13 = re.compile(rb"fault 13 node [1-8] (reader|pend|slot|apply)\n")


def nodes_of(report):
    """The nodes whose reports stand in the text, in order, or None where the text is no list of reports."""
    if report and not report.endswith(b"end\n"):
        return None
    return [int(it) for it in re.findall(rb"^node ([1-8])$", report, re.M)]


def asked_in(path):
    """The nodes whose reports a script asks for, in order."""
    with open(path) as it:
        return [int(line.split()[1]) for line in it if line.startswith("report ")]


class Wanted:
    """What a script's whole report is."""

    def __init__(self, path):
        with open(path[:-4] + ".report", "rb") as it:
            self.report = it.read()
        self.nodes = asked_in(path)
        said = subprocess.run([f"{HERE}/../lib/one_source", path], capture_output=True, text=True, check=True).stdout
        self.is_same, self.is_agreed = bool(said), os.path.basename(os.path.dirname(os.path.abspath(path))) == "threads"

    def is_whole(self, report):
        if self.is_same:
            return report == self.report
        if self.is_agreed:
            return agreed(report) == agreed(self.report)
        return nodes_of(report) == self.nodes


def agreed(report):
    """The lines of a report that depend on no schedule, where nodes agree."""
    return re.findall(rb"^(?:node|applied|state|end)\b.*$", report, re.M)


def judge(what, wanted, ample, ended):
    """The kind of an outcome, and what was wrong."""
    seen = f"status {ended.status}, out {ended.out[:200]!r}.. of {len(ended.out)} bytes, err {ended.err[:200]!r}"
    if ended.hung:
        return "hung", seen
    if ended.left:
        return "left", f"{ended.left} threads left; {seen}"
    if ended.status < 0 or ended.err:
        return "DEFECT", seen
    if ended.status == 0:
        return ("whole", "") if wanted.is_whole(ended.out) else ("DEFECT", seen)
    if ample.status != 0 and ended.status == ample.status and ample.out.startswith(ended.out):
        return "its own fault", ""
    if ended.status != 3:
        return "DEFECT", seen
    if what.startswith(("allocation", "start")):
        if ended.out == b"fault 1\n":
            return "fault 1", ""
        if FAULT_13.fullmatch(ended.out):
            return "fault 13", ""
        if ended.out == b"" and "later" in what:
            return "nothing said", ""
    elif what.startswith("read") and ended.out == b"fault 14\n":
        return "fault 14", ""
    elif what.startswith("write") and ended.out.endswith(b"fault 14\n"):
        return "fault 14", ""
    elif what == "write and later":
        return "nothing said", ""
    return "DEFECT", seen


def sweep(job):
    """All runs of one script."""
    program, path, budget, limit = job
    room, wanted, found = Room(limit), Wanted(path), collections.Counter()
    words, said = [program, "run", "--mode", "threads"], []
    ample = room.run(words, path)
    kind, wrong = judge("ample", wanted, ample, ample)
    if kind not in ("whole", "its own fault"):
        return path, collections.Counter({("ample", kind): 1}), [f"{path}: {kind}: {wrong}"]
    for what, counted, failed, at, how in SWEEPS:
        count = ample.counts[counted]
        step = max(1, int((count - FIRST) * (ample.seconds + 0.01) / (budget / len(SWEEPS)))) if count > FIRST else 1
        k = 1
        while k < 10 * count + 1000:
            ended = room.run(words, path, **how, **{at: k})
            if not ended.counts[failed]:
                break
            kind, wrong = judge(what, wanted, ample, ended)
            found[what, kind] += 1
            if kind in ("hung", "left", "DEFECT"):
                said.append(f"{path}, {what} k={k}: {kind}: {wrong}")
            k += 1 if k <= FIRST else step
    return path, found, said


def main():
    it = argparse.ArgumentParser()
    it.add_argument("examples", nargs="+")
    it.add_argument("--jobs", type=int, default=2)
    it.add_argument("--budget", type=float, default=60.0)
    it.add_argument("--limit", type=float, default=240.0)
    it.add_argument("--only", default="")
    asked = it.parse_args()
    *folders, program = asked.examples
    scripts = sorted(f"{folder}/{name}" for folder in folders for name in os.listdir(folder) if name.endswith(".scp") and asked.only in name)
    jobs = [(os.path.abspath(program), path, asked.budget, asked.limit) for path in scripts]
    total, cases, began = collections.Counter(), collections.Counter(), time.monotonic()
    with multiprocessing.Pool(asked.jobs, maxtasksperchild=1) as pool:
        for path, found, said in pool.imap_unordered(sweep, jobs, chunksize=1):
            total.update(found)
            cases.update({what for what, _ in found})
            print(f"  {path}: {sum(found.values())} runs", file=sys.stderr, flush=True)
            for one in said[:5]:
                print(one)
            if len(said) > 5:
                print(f"{path}: {len(said) - 5} more such")
    print("| what fails | scripts | runs | outcomes |\n|---|---|---|---|")
    for what in sorted({it for it, _ in total}):
        kinds = {kind: n for (of, kind), n in sorted(total.items()) if of == what}
        print(f"| {what} | {cases[what]} | {sum(kinds.values())} | {', '.join(f'{kind} {n}' for kind, n in kinds.items())} |")
    hung, left, defects = (sum(n for (_, of), n in total.items() if of == kind) for kind in ("hung", "left", "DEFECT"))
    print(f"{time.monotonic() - began:.0f} seconds", file=sys.stderr)
    print(f"{sum(total.values())} runs, {hung} hung, {left} threads left, {defects} defects")
    return 1 if hung or left or defects else 0


if __name__ == "__main__":
    sys.exit(main())
