#!/usr/bin/env python3
"""Four hosts close slots over loopback, while one to four of them are killed at random moments, with their nodes, and started again, until 200
were killed. How far they go is counted by slots: on a slow machine it takes longer. It passes where test.py would, whose control it leaves out.

usage: kills.py PROGRAM [--no-log] [--keep FOLDER]
Statuses and last line are those of test.py.
Environment: KILLS=200, how many are killed; SEED, of what is drawn.
"""
import os
import random
import time

from hosts import NAMES, arguments, audit, play

KILLS = int(os.environ.get("KILLS", "200"))
SEED = int(os.environ.get("SEED", "0")) or random.randrange(1, 1 << 32)


def act(network):
    draw, began, killed, turns = random.Random(SEED), time.monotonic(), 0, 0
    network.propose_to(3)
    network.start(NAMES)
    network.wait_for(1)
    while killed < KILLS:
        turns += 1
        top = max(network.applied())
        network.propose_to(top + draw.randint(1, 4))
        # three of four turns wait for a slot; the others kill who has just been started
        if draw.randrange(4):
            network.wait(lambda: max(network.applied()) > top)
        time.sleep(draw.uniform(0, 0.3))
        some = draw.sample(NAMES, min(draw.choice([1, 1, 2, 3, 4, 4]), KILLS - killed))
        network.kill(some)
        killed += len(some)
        if len(some) == 1 and draw.randrange(2):
            # the other three go on without it
            here, rest = max(network.applied()), [name for name in NAMES if name not in some]
            network.propose_to(here + 2)
            network.wait(lambda: max(network.applied(rest)) > here)
        network.start(some)
        if turns % 20 == 0:
            print(f"{killed} were killed, and {max(network.applied())} slots are applied, after {time.monotonic() - began:.1f} s")
    last = max(network.applied()) + 3
    network.propose_to(last)
    network.wait_for(last)
    print(f"{killed} were killed in {turns} turns and {time.monotonic() - began:.1f} s (SEED={SEED})")
    return killed


if __name__ == "__main__":
    play(arguments(__doc__), act, audit)
