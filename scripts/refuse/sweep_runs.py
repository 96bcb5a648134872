#!/usr/bin/env python3
"""Makes each allocation, read and write of whole runs of scp_line_cli and scp_bench fail in turn, and sorts what comes of it.

usage: sweep_runs.py [--jobs N] [--budget SECONDS] [--only WORD] [--to FILE] [--bench PROGRAM] EXAMPLES PROGRAM

EXAMPLES is the folder of the scripts, PROGRAM is scp_line_cli as it was built. Each script is run and checked, and a message of each kind
that stands in them is decoded; so are a bad script, one that is too long, a message cut short, and words that ask for nothing. For each:
  allocation     the k-th allocation is refused, for k = 1, 2, .. until a run makes fewer
  .. and later   the k-th and all after it
  read, write    the k-th fails with EIO; .. and later: and all after it; by bytes: where each moves one byte
  short          reads and writes move 1, 2, 3 or 7 bytes at most: the output is just the same
  other errors   the first read or write fails with EINTR, EAGAIN, ENOSPC, EPIPE; a write takes 0 bytes

An outcome is one of
  whole          the ample run's output and status
  fault 1, fault 10, fault 14       that line alone (fault 14: behind what was written before the failing write), status 3
  nothing said   no line (or what was written before), status 3: where all later allocations or writes fail as well
  status alone   no line, or a part of it, and the ample run's status, which isn't 0: its fault's line had no memory or wasn't written
  DEFECT         all else
"""

import argparse
import collections
import json
import multiprocessing
import os
import re
import sys

from runs import HERE, Names, Room

FIRST, STRIDE = 300, 97


def cases_of(examples, room):
    """The name of each case, its words and its standard input."""
    cases, seen = [], {}
    for name in sorted(it for it in os.listdir(examples) if it.endswith(".scp")):
        path = f"{examples}/{name}"
        cases += [(f"run {name}", ["run"], path), (f"check {name}", ["check"], path)]
        with open(path) as it:
            for line in it:
                words = line.split()
                if words[:1] == ["send"] and words[3] != "-":
                    # an envelope's kind of statement stands behind its kind, its node and its slot
                    kind = words[3][:8] + (words[3][96:104] if words[3][:8] == "00000001" else "")
                    seen.setdefault(kind, words[3])
    for kind, word in sorted(seen.items()):
        cases.append((f"decode {kind}", ["decode", word], "/dev/null"))
    envelope = max(seen.values(), key=len)
    cases.append(("decode cut", ["decode", envelope[:-8]], "/dev/null"))
    cases.append(("decode no digits", ["decode", "xy"], "/dev/null"))
    cases.append(("usage", ["play"], "/dev/null"))
    cases.append(("no words", [], "/dev/null"))
    for name, text in (
        ("bad", b"nodes 2 2\nopen 2 1\nsend 2 1 0000\nopen 2 1\nreport 1\n"),
        ("bad digits", b"nodes 2 2\nopen 2 1\nsend 2 1 0g\n"),
        ("bad set", b"nodes 2 2\nset 1 " + b"00" * 12 + b"\n"),
        ("empty", b""),
        ("at the limit", b"#" * 1_048_576),
        ("over the limit", b"#" * 1_048_577),
    ):
        path = f"{room}/{name}"
        with open(path, "wb") as it:
            it.write(text)
        cases += [(f"run {name}", ["run"], path), (f"check {name}", ["check"], path)]
    return cases


def begins(out, whole):
    """Whether the output is the beginning of the whole one, but not all of it."""
    return len(out) < len(whole) and whole.startswith(out)


def judge(what, ample, ended):
    """The kind of an outcome, and what was wrong."""
    seen = f"status {ended.status}, out {ended.out[:200]!r}.. of {len(ended.out)} bytes, err {ended.err[:200]!r}"
    if ended.hung:
        return "DEFECT", f"hung; {seen}"
    if ended.status < 0 or ended.err:
        return "DEFECT", seen
    if (ended.status, ended.out) == (ample.status, ample.out):
        kind = "whole"
    elif what.startswith("allocation"):
        if ended.status == ample.status != 0 and ended.out == b"":
            # the line of the ample run's own fault had no memory
            return ("status alone", "") if ended.kept == ample.kept else ("DEFECT", f"status alone, kept {ended.kept}")
        if ended.status != 3:
            return "DEFECT", seen
        if ended.out == b"fault 1\n":
            kind = "fault 1"
        elif re.fullmatch(rb"fault 10 node [1-8]\n", ended.out):
            kind = "fault 10"
        elif ended.out == b"" and what != "allocation":
            kind = "nothing said"  # no memory for the line either
        else:
            return "DEFECT", seen
    elif what.startswith("read"):
        if (ended.status, ended.out) == (3, b"fault 14\n"):
            kind = "fault 14"
        else:
            return "DEFECT", seen
    elif what.startswith("write"):
        if ample.status != 0:
            # the fault's own line, or that of usage, could not be written: the status stays
            if ended.status == ample.status and begins(ended.out, ample.out):
                kind = "status alone"
            else:
                return "DEFECT", seen
        elif ended.status != 3:
            return "DEFECT", seen
        elif ended.out.endswith(b"fault 14\n") and begins(ended.out[: -len(b"fault 14\n")], ample.out):
            kind = "fault 14"
        elif begins(ended.out, ample.out) and "later" in what:
            kind = "nothing said"
        else:
            return "DEFECT", seen
    else:
        return "DEFECT", seen
    if ended.kept != ample.kept:
        return "DEFECT", f"{kind}, but {ended.kept} blocks kept and not {ample.kept}"
    return kind, ""


def judge_bench(what, ample, ended):
    """The same for scp_bench, which writes a line of each workload when it is done."""
    seen = f"status {ended.status}, out {ended.out[:300]!r}, err {ended.err[:200]!r}"
    if ended.hung or ended.status < 0 or ended.err:
        return "DEFECT", seen
    if (ended.status, ended.out) == (ample.status, ample.out):
        return "whole", ""
    if ended.status == 3 and what.startswith("allocation"):
        line = b"fault 1\n"
        before = ended.out[: len(ended.out) - len(line)]
        if ended.out.endswith(line) and begins(before, ample.out) and (not before or before.endswith(b"\n")):
            return ("fault 1", "") if ended.kept == ample.kept else ("DEFECT", f"fault 1, kept {ended.kept}")
    if ended.status == 3 and what.startswith("write"):
        if ended.out.endswith(b"fault 14\n") and begins(ended.out[: -len(b"fault 14\n")], ample.out):
            return "fault 14", ""
        if begins(ended.out, ample.out) and "later" in what:
            return "nothing said", ""
    if what.startswith("write") and ample.status != 0 and ended.status == ample.status and begins(ended.out, ample.out):
        return "status alone", ""
    return "DEFECT", seen


# what is swept: the count that numbers it, the place and the number in a row, and what holds besides
SWEEPS = [
    ("allocation", "allocations", "REFUSE_AT", {"REFUSE_FOR": 1}),
    ("allocation and later", "allocations", "REFUSE_AT", {"REFUSE_FOR": 0}),
    ("allocation and the next", "allocations", "REFUSE_AT", {"REFUSE_FOR": 2}),
    ("read", "reads", "READ_FAILS_AT", {"READ_FAILS_FOR": 1}),
    ("read and later", "reads", "READ_FAILS_AT", {"READ_FAILS_FOR": 0}),
    ("read by bytes", "reads", "READ_FAILS_AT", {"READ_FAILS_FOR": 1, "READ_MOST": 1}),
    ("write", "writes", "WRITE_FAILS_AT", {"WRITE_FAILS_FOR": 1}),
    ("write and later", "writes", "WRITE_FAILS_AT", {"WRITE_FAILS_FOR": 0}),
    ("write by bytes", "writes", "WRITE_FAILS_AT", {"WRITE_FAILS_FOR": 1, "WRITE_MOST": 1}),
    ("write by bytes and later", "writes", "WRITE_FAILS_AT", {"WRITE_FAILS_FOR": 0, "WRITE_MOST": 1}),
    ("write takes nothing", "writes", "WRITE_FAILS_AT", {"WRITE_FAILS_FOR": 1, "WRITE_FAILS_BY": 0}),
]
OTHERS = [("EINTR", 4), ("EAGAIN", 11), ("ENOSPC", 28), ("EPIPE", 32)]


def sweep(job):
    """All runs of one case."""
    program, name, words, stdin, budget, is_bench = job
    room, names = Room(), Names(program)
    words = [program, *words]
    judged = judge_bench if is_bench else judge
    ample = room.run(words, stdin)
    found = {"case": name, "status": ample.status, "bytes": len(ample.out), "ample_kept": ample.kept, "counts": ample.counts, "seconds": ample.seconds, "sweeps": {}, "said": []}

    def note(sweep, kind, said, k, ended):
        kinds = found["sweeps"].setdefault(sweep, {"runs": 0, "bounded": "", "kinds": {}})
        kinds["runs"] += 1
        kinds["kinds"][kind] = kinds["kinds"].get(kind, 0) + 1
        key = [sweep, kind, said, names.callers(ended.frames) if kind in ("whole", "DEFECT") else ""]
        for one in found["said"]:
            if one[:4] == key:
                one[4] += 1
                one[5] += [k] if len(one[5]) < 20 else []
                return
        found["said"].append([*key, 1, [k]])

    for what, counted, at, how in SWEEPS:
        plain = room.run(words, stdin, **how)
        if (plain.status, plain.out, plain.err) != (ample.status, ample.out, ample.err):
            note(what, "DEFECT", f"with none failing: status {plain.status}, out {plain.out[:200]!r}", 0, plain)
            continue
        count = plain.counts[counted]
        if not count:
            continue
        chosen, bounded = None, ""
        if count * (plain.seconds + 0.002) > budget:
            first, step = min(FIRST, max(20, int(budget / 2 / plain.seconds))), STRIDE
            while (count - first) / step * plain.seconds > budget / 2:
                step += STRIDE
            chosen = [*range(1, min(first, count) + 1), *range(first + step, count + 1, step), count]
            bounded = f"the first {first}, then every {step}th of {count}, and the last"
        k = 0
        for k in chosen or range(1, 10 * count + 1000):
            ended = room.run(words, stdin, **how, **{at: k})
            if not (ended.counts["refused"] or ended.counts["reads_failed"] or ended.counts["writes_failed"]):
                break
            note(what, *judged(what, ample, ended), k, ended)
        if what in found["sweeps"]:
            found["sweeps"][what]["bounded"] = bounded
    for most in (1, 2, 3, 7):
        for what, how in (("reads", {"READ_MOST": most}), ("writes", {"WRITE_MOST": most}), ("both", {"READ_MOST": most, "WRITE_MOST": most})):
            ended = room.run(words, stdin, **how)
            kind, said = judged("short", ample, ended)
            note(f"short {what}", kind, said, most, ended)
    for error, number in OTHERS:
        for what, counted, at, by in (("read", "reads", "READ_FAILS_AT", "READ_FAILS_BY"), ("write", "writes", "WRITE_FAILS_AT", "WRITE_FAILS_BY")):
            if ample.counts[counted]:
                ended = room.run(words, stdin, **{at: 1, by: number})
                note(f"{what} {error}", *judged(what, ample, ended), 1, ended)
    return program, found


def main():
    it = argparse.ArgumentParser()
    it.add_argument("examples")
    it.add_argument("programs", nargs="+")
    it.add_argument("--jobs", type=int, default=2)
    it.add_argument("--budget", type=float, default=40.0)
    it.add_argument("--only", default="")
    it.add_argument("--bench", default=[], action="append")
    it.add_argument("--to", default=f"{HERE}/results")
    asked = it.parse_args()
    os.makedirs(asked.to, exist_ok=True)
    scripts = f"{asked.to}/scripts"
    os.makedirs(scripts, exist_ok=True)
    jobs = []
    for program in asked.programs:
        jobs += [(os.path.abspath(program), *case, asked.budget, False) for case in cases_of(os.path.abspath(asked.examples), scripts)]
    for program in asked.bench:
        for words in ("decode 3", "quorum-shared 5", "quorum-own 5", "quorum-chain 5", "quorum-missing 5", "votes-one 1000", "votes-each 1000", "consensus-4 2", "votes 5", "decode x", ""):
            jobs.append((os.path.abspath(program), f"bench {words}", words.split(), "/dev/null", asked.budget, True))
    jobs = [job for job in jobs if asked.only in job[1]]
    bad = False
    all_found = collections.defaultdict(list)
    with multiprocessing.Pool(asked.jobs, maxtasksperchild=1) as pool:
        for program, found in pool.imap_unordered(sweep, jobs, chunksize=1):
            all_found[program].append(found)
            print(f"  {os.path.basename(program)} {found['case']}: {found['counts']['allocations']} allocations, {sum(it['runs'] for it in found['sweeps'].values())} runs", file=sys.stderr, flush=True)
    for program, cases in all_found.items():
        name = os.path.basename(program)
        with open(f"{asked.to}/{name}.runs.json", "w") as to:
            json.dump(cases, to, indent=1)
        total, bounded = collections.defaultdict(collections.Counter), []
        for found in cases:
            group = found["case"].split()[0]
            for what, one in found["sweeps"].items():
                total[group, what].update(one["kinds"])
                total[group, what].update({"cases": 1})
                bounded += [f"{found['case']}, {what}: {one['bounded']}"] if one["bounded"] else []
        print(f"{name}\n| what | what fails | cases | runs | outcomes |\n|---|---|---|---|---|")
        for (group, what), kinds in sorted(total.items()):
            count = kinds.pop("cases")
            print(f"| {group} | {what} | {count} | {sum(kinds.values())} | {', '.join(f'{kind} {n}' for kind, n in sorted(kinds.items()))} |")
        for one in bounded:
            print(f"bounded: {one}")
        for found in cases:
            shown = collections.Counter()
            for what, kind, said, callers, count, ks in found["said"]:
                if kind == "DEFECT":
                    bad = True
                    shown[what] += 1
                    if shown[what] <= 3:
                        print(f"DEFECT {name} {found['case']}, {what} k={ks} ({count}): {said} [{callers}]")
            for what, count in shown.items():
                if count > 3:
                    print(f"DEFECT {name} {found['case']}, {what}: {count - 3} more such (in the file)")
    return 1 if bad else 0


if __name__ == "__main__":
    sys.exit(main())
