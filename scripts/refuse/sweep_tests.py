#!/usr/bin/env python3
"""Refuses each allocation of each test of a built test program in turn, and sorts what comes of it.

usage: sweep_tests.py [--all-later] [--jobs N] [--budget SECONDS] [--limit SECONDS] [--only WORD] [--to FOLDER] PROGRAM..

A test program lists its tests for --list and runs the one whose name it is given, as `rattle build --test` makes it. A test is run for
k = 1, 2, .. with its k-th allocation refused (--all-later: the k-th and all after it), until a run makes fewer than k. Where that
would take longer than the budget (60 s a test), the first 300 are refused, and then every 97th, or as few as the budget allows.

An outcome is one of
  passes       the test ends well
  want         it ends with an error that tells want of memory
  other error  it ends with another error
  assertion    one of its own assertions stops it
  DEFECT       all else: a signal, another status, a run of over 60 s, a block that an ended test kept or gave back twice
The whole goes to FOLDER/NAME.json (results/), and a table to the standard output. The exit status is 1 where a defect was seen.
"""

import argparse
import collections
import json
import multiprocessing
import os
import re
import sys

from runs import HERE, Names, Room

FIRST, STRIDE = 300, 97
WANT = re.compile(r"^error: .*\b(NoMemory|AllocError|AllocFailed|TryReserveError|OutOfMemory)\b", re.M)


def kind_of(ended):
    """The kind of an outcome, and what it said."""
    err = ended.err.decode(errors="replace")
    if ended.hung:
        return "DEFECT", f"hung over {ended.seconds:.0f} s"
    if ended.status == 0 and ended.out.endswith(b"\ntest result: ok\n"):
        if err:
            return "DEFECT", f"passed, but said {err[:300]}"
        return ("passes", "") if ended.kept == 0 else ("DEFECT", f"passed, but kept {ended.kept} blocks")
    said = " | ".join(it for it in err.splitlines() if it)
    if ended.status == 101 and "the test failed: its result gives status" in err:
        if ended.kept != 0:
            return "DEFECT", f"kept {ended.kept} blocks: {said[:300]}"
        return ("want" if WANT.search(err) else "other error"), said[:300]
    place = re.search(rb"\ntest stopped at (src/tests\S*)\n$", ended.out)
    # (an assertion may have a text of its own, so its place tells it)
    if ended.status == -6 and place:
        return "assertion", f"{place[1].decode()}: {said[:600]}"
    return "DEFECT", f"status {ended.status}: {said[:600]} | out {ended.out[-200:]!r}"


def numbers(allocations, seconds, budget):
    """Which allocations are refused, and in words what was left out."""
    if allocations * seconds <= budget:
        return None, ""
    steps = STRIDE
    first = max(50, min(FIRST, int(budget / 2 / max(seconds, 1e-6))))
    while (allocations - first) / steps * seconds > budget / 2:
        steps += STRIDE
    if first + (allocations - first) / steps >= allocations:
        return None, ""
    return [*range(1, min(first, allocations) + 1), *range(first + steps, allocations + 1, steps)], f"the first {first}, then every {steps}th"


def sweep(job):
    """All runs of one test."""
    program, test, how, budget, limit = job
    room, names = Room(limit), Names(program)
    words = [program, test]
    ample = room.run(words)
    allocations = ample.counts["allocations"]
    kind, said = kind_of(ample)
    found = {"test": test, "allocations": allocations, "seconds": ample.seconds, "ample": kind, "bounded": "", "runs": 0, "kinds": {}, "said": []}
    if kind != "passes":
        found["said"].append([kind, f"with ample memory: {said}", "", 1, [0]])
        found["kinds"] = {"DEFECT": 1}
        return program, found
    chosen, found["bounded"] = numbers(allocations, ample.seconds + 0.002, budget)
    kinds, groups = collections.Counter(), {}

    def one(k):
        ended = room.run(words, REFUSE_AT=k, **how)
        if ended.counts["is_set"] != 1:
            raise SystemExit(f"{program}: the library was not loaded")
        if ended.counts["refused"] == 0:
            return False
        kind, said = kind_of(ended)
        kinds[kind] += 1
        # what passes is grouped by who was refused; what stops by what it says
        key = (kind, said, names.callers(ended.frames) if kind in ("passes", "DEFECT") else "")
        groups.setdefault(key, []).append(k)
        return True

    if chosen is None:
        k = 1
        while one(k):
            k += 1
            if k > 2 * allocations + 1000:
                kinds["DEFECT"] += 1
                groups[("DEFECT", "more allocations with each refusal", "")] = [k]
                break
    else:
        for k in chosen:
            one(k)
    found["runs"] = sum(kinds.values())
    found["kinds"] = dict(kinds)
    found["said"] = [[*key, len(ks), ks[:20]] for key, ks in groups.items()]
    return program, found


def tests_of(program):
    said = Room().run([program, "--list"])
    return re.findall(r"^(\S+): test$", said.out.decode(), re.M)


def main():
    it = argparse.ArgumentParser()
    it.add_argument("programs", nargs="+")
    it.add_argument("--all-later", action="store_true")
    it.add_argument("--jobs", type=int, default=2)
    it.add_argument("--budget", type=float, default=60.0)
    it.add_argument("--only", default="")
    it.add_argument("--limit", type=float, default=60.0)
    it.add_argument("--to", default=f"{HERE}/results")
    asked = it.parse_args()
    os.makedirs(asked.to, exist_ok=True)
    how = {"REFUSE_FOR": 0 if asked.all_later else 1}
    jobs = []
    for program in asked.programs:
        program = os.path.abspath(program)
        with multiprocessing.Pool(1) as pool:
            tests = pool.apply(tests_of, (program,))
        if not tests:
            print(f"{program}: no tests")
        jobs += [(program, test, how, asked.budget, asked.limit) for test in tests if asked.only in test]
    found = collections.defaultdict(list)
    with multiprocessing.Pool(asked.jobs, maxtasksperchild=1) as pool:
        for program, one in pool.imap_unordered(sweep, jobs, chunksize=1):
            found[program].append(one)
            print(f"  {os.path.basename(program)} {one['test']}: {one['allocations']} allocations, {one['kinds']} {one['bounded']}", file=sys.stderr, flush=True)
    kinds = ["passes", "want", "other error", "assertion", "DEFECT"]
    print(f"| program{' (all later ones too)' if asked.all_later else ''} | tests | allocations | refused | {' | '.join(kinds)} | bounded |")
    print("|" + "---|" * (5 + len(kinds)))
    bad = False
    for program, tests in sorted(found.items()):
        name = os.path.basename(program)
        with open(f"{asked.to}/{name}{'.later' if asked.all_later else ''}.json", "w") as to:
            json.dump(tests, to, indent=1)
        total = collections.Counter()
        for one in tests:
            total.update(one["kinds"])
        bounded = "; ".join(f"{one['test']} ({one['allocations']}): {one['bounded']}" for one in tests if one["bounded"])
        row = [name, len(tests), sum(one["allocations"] for one in tests), sum(one["runs"] for one in tests), *(total[it] for it in kinds), bounded]
        print("| " + " | ".join(map(str, row)) + " |")
        for one in tests:
            for kind, said, callers, count, ks in one["said"]:
                if kind == "DEFECT":
                    bad = True
                    print(f"DEFECT {name} {one['test']} k={ks} ({count}): {said} [{callers}]")
    return 1 if bad else 0


if __name__ == "__main__":
    sys.exit(main())
