#!/usr/bin/env python3
"""Shows a network of four processes over loopback: which slots are closed, with which values and by whom, while one node is killed and comes back.

usage: show.py PROGRAM [--no-log] [--keep FOLDER]
Statuses and last line are those of test.py.
"""
from hosts import NAMES, arguments, play

SLOTS = 12


def opaque(data, at):
    count = int.from_bytes(data[at : at + 4], "big")
    return data[at + 4 : at + 4 + count].decode("ascii"), at + 4 + count + -count % 4


def put_of(value):
    """The key and the value that a host's operation list puts: who proposed it is the first word of the value."""
    data = bytes.fromhex(value)
    key, at = opaque(data, 8)
    return key, opaque(data, at)[0]


class Story:
    """Tells each slot once, when all that run have applied it."""

    def __init__(self, network):
        self.network, self.told = network, 0

    def tell(self, slot, names):
        self.network.propose_to(slot)
        self.network.wait_for(slot, names)
        for number in range(self.told + 1, slot + 1):
            key, value = put_of(self.network.told[names[0]].values[number])
            print(f"slot {number:2}: {key} = {value}, proposed by {value.split()[0]}, applied by {' '.join(names)}")
        self.told = slot

    def tell_back(self, name, first):
        told = self.network.told[name]
        origins = [told.origins.get(slot) for slot in range(first, self.told + 1)]
        votes, records = origins.count("machine"), origins.count("record")
        print(f"{name} has applied the slots {first} to {self.told} too: {votes} by the votes of others, {records} by their records")


def act(network):
    story, rest = Story(network), [name for name in NAMES if name != "carol"]
    network.start(NAMES)
    print(f"{', '.join(NAMES)} run, each a process with its log; a quorum is three of the four")
    story.tell(4, NAMES)
    network.kill(["carol"])
    print("carol is killed (SIGKILL)")
    story.tell(8, rest)
    network.start(["carol"])
    network.wait(lambda: len(network.told["carol"].events) == 2)
    print(f"carol is started again: it plays the {network.told['carol'].events[-1]} events of its log")
    network.wait_for(8)
    story.tell_back("carol", 5)
    story.tell(SLOTS, NAMES)
    return SLOTS


if __name__ == "__main__":
    play(arguments(__doc__), act)
