#!/usr/bin/env python3
"""Four hosts close slots over loopback. One is killed in the middle, with its node, and comes back from its log; one link is held down for a
while; then all four are killed at once, and started again.

It passes where all applied the same, none was told two values of a slot over its lives, and of each node all envelopes that it wrote, in the
order in which each was written first, are ascending by slot and kind; and where scripts/auditor finds the accounts of the four right, by their
logs, and not so where one byte of them is another. AWAY=30 keeps the killed one away for more than a window of slots.

usage: test.py PROGRAM [--no-log] [--keep FOLDER]
  --no-log is the control: nodes that forget must be found out, by status 1
Statuses: 0 passed, 1 a contradiction, 2 anything else, as that nothing was applied for 120 seconds. The last line is 'N passed, M failed'.
"""
import os
import time

from hosts import NAMES, arguments, audit, audit_changed, play

AWAY = int(os.environ.get("AWAY", "5"))


def act(network):
    began, done = time.monotonic(), 0

    def tell(text):
        nonlocal done
        done += 1
        print(f"{time.monotonic() - began:5.1f} s: {text}")

    first, away, joined, last = 5, 5 + AWAY, 10 + AWAY, 15 + AWAY
    network.propose_to(away)
    network.start(NAMES)
    network.wait_for(first)
    tell(f"all four applied {first} slots")
    network.kill(["carol"])
    rest = ["alice", "bob", "dave"]
    network.wait_for(away, rest)
    tell(f"carol was killed, and the others applied {away}")
    network.hold_down("alice", "bob")
    network.propose_to(joined)
    network.start(["carol"])
    network.wait_for(joined)
    tell(f"carol came back from its log, and all four applied {joined}, while alice and bob had no link")
    network.let_go("alice", "bob")
    network.propose_to(last)
    network.wait(lambda: max(network.applied()) > joined)
    network.kill(NAMES)
    tell(f"all four were killed at once, of whom the first had applied {max(network.applied())}")
    network.start(NAMES)
    network.wait_for(last)
    tell(f"all four came back, and applied {last}")
    return done


if __name__ == "__main__":
    play(arguments(__doc__), act, audit, audit_changed)
