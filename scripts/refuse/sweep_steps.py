#!/usr/bin/env python3
"""Refuses each allocation of one run in turn, and demands that a refusal within a node's step is told as that node's failure.

usage: sweep_steps.py PROGRAM

PROGRAM is scp_line_cli as it was built. The script is made here: node 1 takes records in one batch, and after it node 2 takes records one by
one, and the value of each has a length of its own. An allocation of just so many bytes is made where a step reads or keeps that value, and nowhere else: reading the
script asks for the digits' bytes, which are more, and a report for its text. From the first such allocation of a node to its last
nothing runs but its steps, so each refusal in that range must print `fault 10 node I`, with that node, and nothing else, with status 3;
between the ranges of the two nodes, where the lines of node 2 are played too, one of the two is named or memory is wanted; farther off a
refusal is the failure of the nearer node or want of memory.
It ends with status 1 where one is told otherwise, or where a node has no such allocation.
"""

import os
import sys
import tempfile

from runs import Room

LENGTHS = {1: (3001, 3005, 3009), 2: (3013, 3017, 3021)}  # of the values that each node takes, in the order of their slots


def value(slot, length):
    """A value of so many bytes, with its length and its padding."""
    return length.to_bytes(4, "big") + bytes([slot]) * length + bytes(-length % 4)


def messages(node):
    """The records of a node, those of node 1 in one batch, as digits."""
    values = [value(slot, length) for slot, length in enumerate(LENGTHS[node], 1)]
    if node == 1:
        return [(b"\0\0\0\7" + (1).to_bytes(8, "big") + len(values).to_bytes(4, "big") + b"".join(values)).hex()]
    return [(b"\0\0\0\6" + slot.to_bytes(8, "big") + it).hex() for slot, it in enumerate(values, 1)]


def script():
    """The lines of both nodes: node 1 takes its messages before node 2 does."""
    lines = ["nodes 2 2"]
    for node, lengths in LENGTHS.items():
        lines.append(f"open {3 - node} {node}")
        lines += [f"ask {node} {3 - node} {slot}" for slot, _ in enumerate(lengths, 1)]
        lines += [f"send {3 - node} {node} {digits}" for digits in messages(node)] + ["settle"]
    return "\n".join([*lines, "report 1", "report 2", ""])


def main(program):
    program, room = os.path.abspath(program), Room()
    with tempfile.NamedTemporaryFile("w", suffix=".scp") as file:
        file.write(script())
        file.flush()

        def run(**how):
            return room.run([program, "run"], file.name, **how)

        ample = run()
        if ample.status != 0:
            print(f"the ample run ended with status {ample.status}: {ample.out[:200]!r}")
            return 1
        ended = {k: run(REFUSE_AT=k) for k in range(1, ample.counts["allocations"] + 1)}

    ranges = {}
    for node, lengths in LENGTHS.items():
        marks = [k for k, it in ended.items() if it.counts["refused_size"] in lengths]
        if not marks:
            print(f"DEFECT: no allocation of node {node}'s steps was found")
            return 1
        ranges[node] = range(marks[0], marks[-1] + 1)
    failures = {node: (3, f"fault 10 node {node}\n".encode()) for node in LENGTHS}
    elsewhere = {(3, b"fault 1\n"), (0, ample.out)}

    def allowed(k):
        """The statuses and outputs that this refusal may have."""
        for node, within in ranges.items():
            if k in within:
                return {failures[node]}
        if k < ranges[1].start:
            return elsewhere | {failures[1]}
        return elsewhere | (set(failures.values()) if k < ranges[2].start else {failures[2]})

    bad = 0
    for k, it in ended.items():
        if (it.status, it.out) not in allowed(k) or it.kept != ample.kept:
            bad += 1
            print(f"DEFECT: allocation {k} of {it.counts['refused_size']} bytes: status {it.status}, {it.out[:80]!r}, {it.kept - ample.kept} blocks kept")
    print(f"{len(ended)} allocations refused in turn: {len(ranges[1])} within the steps of node 1, {len(ranges[2])} within those of node 2, {bad} told wrongly")
    return 1 if bad else 0


if __name__ == "__main__":
    if len(sys.argv) != 2:
        sys.exit(__doc__)
    sys.exit(main(sys.argv[1]))
