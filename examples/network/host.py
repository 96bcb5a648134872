#!/usr/bin/env python3
"""Runs one node as a process, and joins it to its peers over TCP on loopback. docs/LIVE.md says which lines go to a node and come from it.

usage: host.py PROGRAM FOLDER NAME [--life N] [--no-log] [--unit SECONDS] [--until-eof]

In FOLDER lie:
  NAME.toml       the configuration
  NAME.log        the log, unless --no-log: a new one, until a node said that it has begun
  NAME.N.told     all that the node wrote in its N-th life, before the host acts on it
  NAME.port       the port on which this host listens, which is the system's; those of its peers it reads in PEER.port
  NAME.cut        names of peers whose links are held down, if it is there
  slots           up to which slot hosts propose; without it there is no end

A frame is its length in four bytes, and so many bytes. Of two nodes the later by name connects. The first frame of each side is its name, each
further one a message. A round n lasts n units, a ballot of counter n lasts n + 1 of them. --until-eof: it ends with
its standard input.
"""
import argparse
import asyncio
import collections
import os
import sys
import time

FRAME = 65_536  # the longest message
WAITS = 1 << 20  # so many bytes may wait for a slow peer
WINDOW = 16  # so many slots are open at once
IDLE = 10_000  # so many journal entries of a peer may change nothing between two applied slots
HELD = 100  # for so many units its link is then held down, at first


def put(key, value):
    """An operation list that puts a key, as the values of docs/SCRIPTS.md are spelled."""
    words = [len(it).to_bytes(4, "big") + it + bytes(-len(it) % 4) for it in (key.encode(), value.encode())]
    return (bytes([0, 0, 0, 1, 0, 0, 0, 0]) + b"".join(words)).hex()


async def read_frame(reader):
    length = int.from_bytes(await reader.readexactly(4), "big")
    if length > FRAME:
        raise ConnectionError
    return await reader.readexactly(length)


def write_frame(writer, frame):
    writer.write(len(frame).to_bytes(4, "big") + frame)


def give_up(text, status=1):
    """Ends the process at once; its node ends with its input."""
    if text:
        print(text, file=sys.stderr, flush=True)
    os._exit(status)


class Host:
    def __init__(self, asked):
        self.asked, self.name = asked, asked.name
        self.peers, self.links, self.timers = [], {}, {}
        self.answers, self.count = collections.deque(), 0
        self.applied, self.proposed, self.moved = 0, 0, time.monotonic()
        self.requested, self.ahead = set(), None
        self.cut, self.slots = set(), None
        self.idle, self.held = collections.Counter(), {}

    def path(self, end, name=None):
        return f"{self.asked.folder}/{name or self.name}.{end}"

    # ---- lines to the node, and what it writes

    def words_of_log(self):
        """A new log, until a life of the node was `ready`; and then one with at least as many events as it said."""
        least = None
        for life in range(1, self.asked.life + 1):
            try:
                with open(self.path(f"{life}.told"), "rb") as file:
                    words = file.readline().split()
            except FileNotFoundError:
                continue
            if len(words) == 2 and words[0] == b"ready":
                least = words[1].decode()
        return ["--log", self.path("log")] + (["--new"] if least is None else ["--at-least", least])

    async def start(self):
        words = [self.asked.program, "node", "run", self.path("toml")] + ([] if self.asked.no_log else self.words_of_log())
        self.told = os.open(self.path(f"{self.asked.life}.told"), os.O_WRONLY | os.O_CREAT | os.O_APPEND, 0o644)
        started = self.promise()
        self.node = await asyncio.create_subprocess_exec(*words, stdin=asyncio.subprocess.PIPE, stdout=asyncio.subprocess.PIPE, limit=1 << 20)
        return started

    def promise(self):
        self.answers.append(asyncio.get_running_loop().create_future())
        return self.answers[-1]

    def tell(self, line):
        """A line for the node. Who awaits it goes on when the node has answered. Many may be under way: one sync of the log serves them all."""
        self.node.stdin.write(line.encode() + b"\n")
        return self.promise()

    async def read(self):
        """All that the node writes. It is on file before anything of it goes on to a peer."""
        while True:
            line = await self.node.stdout.readline()
            if not line.endswith(b"\n"):
                give_up(f"{self.name}: its node ended with status {await self.node.wait()}")
            os.write(self.told, line)
            self.hear(line.decode().split())

    def hear(self, words):
        word = words[0]
        if word in ("send", "again"):
            self.send(words[1], bytes.fromhex(words[2].replace("-", "")))
        elif word == "start":
            self.start_timer(words[1], words[2], int(words[3]))
        elif word == "stop":
            self.stop_timer(words[1], words[2])
        elif word == "applied":
            self.hear_applied(int(words[1]), is_new=True)
        elif word == "applied-count":
            self.hear_applied(int(words[1]), is_new=False)
        elif word == "link" and self.count == 0:
            self.peers.append(words[1])
        elif word == "fate":
            self.hear_fate(words[1], words[-2:])
        elif word == "ok":
            if int(words[1]) != self.count:
                give_up(f"{self.name}: {words} answers another line than {self.count}")
            self.count += 1
            self.answers.popleft().set_result(None)
        elif word == "torn":
            print(f"{self.name}: a torn end of its log was cut off: {words[1]} bytes behind {words[2]} events", file=sys.stderr, flush=True)
        elif word in ("bad", "fault"):
            give_up(f"{self.name}: {' '.join(words)}")

    def hear_applied(self, slot, is_new):
        if slot > self.applied:
            self.applied, self.moved = slot, time.monotonic()
            self.idle.clear()
            self.held.clear()
            if is_new:
                self.propose()
                self.ask_ahead()

    def hear_fate(self, peer, end):
        if end in (["taken", "far-slot"], ["taken", "decided"]):
            # it is further ahead than the window, or answered by a record
            self.ahead = peer
            self.ask_ahead()
        elif end == ["taken", "fresh"] and peer == self.ahead:
            self.ahead = None
        elif end[0] == "closed" and end[1] != "link" and peer in self.links:
            self.links[peer].close()
        if end not in (["taken", "fresh"], ["taken", "decided"]):
            self.hear_idle(peer)

    def hear_idle(self, peer):
        """The link of a peer that fills the journal with what changes nothing is held down, each time for twice as long, until a slot is applied."""
        self.idle[peer] += 1
        if self.idle[peer] % IDLE == 0:
            self.held[peer] = time.monotonic() + self.asked.unit * HELD * 2 ** (self.idle[peer] // IDLE - 1)
            if peer in self.links:
                self.links[peer].close()

    def is_down(self, peer):
        return peer in self.cut or time.monotonic() < self.held.get(peer, 0)

    # ---- timers

    def start_timer(self, kind, slot, number):
        self.stop_timer(kind, slot)
        seconds = self.asked.unit * (number if kind == "round" else number + 1)
        self.timers[kind, slot] = asyncio.get_running_loop().call_later(seconds, self.tell, f"{kind} {slot}")

    def stop_timer(self, kind, slot):
        timer = self.timers.pop((kind, slot), None)
        if timer is not None:
            timer.cancel()

    # ---- links

    def send(self, peer, message):
        writer = self.links.get(peer)
        if writer is None or writer.is_closing():
            return
        write_frame(writer, message)
        if writer.transport.get_write_buffer_size() > WAITS:
            writer.close()

    async def carry(self, peer, reader, writer):
        """One connection with a peer, from its begin to its end."""
        if peer in self.links or self.is_down(peer):
            writer.close()
            return
        self.links[peer] = writer
        self.tell(f"open {peer}")
        self.tell(f"again {peer}")
        try:
            while True:
                message = await read_frame(reader)
                self.tell(f"recv {peer} {message.hex() or '-'}")
                await self.node.stdin.drain()
        except (asyncio.IncompleteReadError, OSError):
            pass
        writer.close()
        # (what is still said to this connection isn't for the next one)
        await self.tell(f"close {peer}")
        del self.links[peer]

    async def accept(self, reader, writer):
        try:
            peer = (await asyncio.wait_for(read_frame(reader), 5)).decode("ascii", "replace")
            write_frame(writer, self.name.encode())
        except (asyncio.IncompleteReadError, asyncio.TimeoutError, OSError):
            peer = None
        if peer in self.peers and peer > self.name:
            await self.carry(peer, reader, writer)
        else:
            writer.close()

    async def connect_once(self, peer):
        with open(self.path("port", peer), encoding="ascii") as file:
            reader, writer = await asyncio.open_connection("127.0.0.1", int(file.read()))
        write_frame(writer, self.name.encode())
        # (the port may by now be another's)
        if await asyncio.wait_for(read_frame(reader), 5) == peer.encode():
            await self.carry(peer, reader, writer)
        writer.close()

    async def connect(self, peer):
        while True:
            try:
                if not self.is_down(peer):
                    await self.connect_once(peer)
            except (asyncio.IncompleteReadError, asyncio.TimeoutError, OSError, ValueError):
                pass
            await asyncio.sleep(0.1)

    async def listen(self):
        server = await asyncio.start_server(self.accept, "127.0.0.1", 0)
        with open(self.path("port.new"), "w", encoding="ascii") as file:
            file.write(str(server.sockets[0].getsockname()[1]))
        os.replace(self.path("port.new"), self.path("port"))

    # ---- what is proposed and asked for

    def is_wanted(self):
        """Whether a further slot is to be closed."""
        return self.slots is None or self.applied < self.slots

    def propose(self):
        """A value for the next slot, once the last one is applied. It has random bytes: a host that forgot its node would propose another."""
        if self.proposed <= self.applied and self.is_wanted():
            self.proposed = self.applied + 1
            self.tell(f"propose {self.proposed} {put(f'k{self.proposed % 100}', f'{self.name} {os.urandom(4).hex()}')}")

    def ask(self, peer, count):
        """The records of so many slots are asked for, each once of a peer."""
        for slot in range(self.applied + 1, self.applied + count + 1):
            if (peer, slot) not in self.requested:
                self.requested.add((peer, slot))
                self.tell(f"ask {peer} {slot}")

    def ask_ahead(self):
        """A peer that is ahead is asked for what it has applied, until what it says is fresh."""
        if self.ahead in self.links:
            self.ask(self.ahead, WINDOW)

    async def watch_silence(self):
        """Where a slot is to be closed, and nothing is applied for five units, the newest statements are said again, and the slot's record is asked for."""
        while True:
            await asyncio.sleep(self.asked.unit)
            if self.is_wanted() and time.monotonic() - self.moved > 5 * self.asked.unit:
                self.moved = time.monotonic()
                for peer in list(self.links):
                    self.tell(f"again {peer}")
                    self.ask(peer, 1)

    async def watch_files(self):
        """Which links are held down, and up to which slot is proposed."""
        while True:
            for path, heard in ((self.path("cut"), self.hear_cut), (f"{self.asked.folder}/slots", self.hear_slots)):
                try:
                    with open(path, encoding="ascii") as file:
                        heard(file.read())
                except FileNotFoundError:
                    pass
            await asyncio.sleep(0.02)

    def hear_cut(self, text):
        self.cut = set(text.split())
        for peer in self.cut & set(self.links):
            self.links[peer].close()

    def hear_slots(self, text):
        self.slots = int(text)
        self.propose()

    async def watch_input(self):
        """Ends with the standard input, so that no host outlives who started it."""
        loop = asyncio.get_running_loop()
        ended = loop.create_future()
        loop.add_reader(0, lambda: os.read(0, 4096) or ended.done() or ended.set_result(None))
        await ended
        give_up("", 0)

    async def run(self):
        started = await self.start()
        reading = asyncio.create_task(self.read())
        await asyncio.wait([reading, started], return_when=asyncio.FIRST_COMPLETED)
        # what was applied and not read before a kill is told now
        self.tell("applied 1")
        await self.listen()
        if not os.path.exists(f"{self.asked.folder}/slots"):
            self.propose()
        rest = [self.watch_silence(), self.watch_files()] + [self.connect(peer) for peer in self.peers if peer < self.name]
        await asyncio.gather(reading, *rest, *([self.watch_input()] if self.asked.until_eof else []))


def main():
    it = argparse.ArgumentParser(description=__doc__, formatter_class=argparse.RawDescriptionHelpFormatter)
    it.add_argument("program")
    it.add_argument("folder")
    it.add_argument("name")
    it.add_argument("--life", type=int, default=1)
    it.add_argument("--no-log", action="store_true")
    it.add_argument("--unit", type=float, default=1)
    it.add_argument("--until-eof", action="store_true")
    asyncio.run(Host(it.parse_args()).run())


if __name__ == "__main__":
    try:
        main()
    except KeyboardInterrupt:
        sys.exit(0)
