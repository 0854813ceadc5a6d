"""Allocations that are refused to a desk that serves a connection, and what its client hears then."""
import collections
import concurrent.futures
import os
import shutil

import heard
import talk
from served import PATIENCE, Server

# So many times a request is sent that isn't answered, or that memory or the store was wanting for.
TRIES = 4


class Served:
    """One desk at a port, of which one allocation is refused, and a client that sends again what wasn't answered."""

    def __init__(self, room, folder, place):
        self.room, self.store, self.place = room, folder / "store.db", place
        self.wanting = self.dropped = 0
        self.connection = self.ended = None

    def run(self, requests):
        """What each request was answered with at last, and the count of allocations; or None where the desk didn't begin to serve."""
        while True:
            told, count = self.run_at_a_port(requests)
            # A port that was free a moment ago may be another desk's now.
            if told is not None or self.ended[0] != 7:
                return told, count

    def run_at_a_port(self, requests):
        ways = {"LD_PRELOAD": str(self.room.library), "REFUSE": str(self.place)}
        with Server([self.room.program], store=self.store, env={**os.environ, **ways}) as server:
            if not server.told.startswith("desk: serving"):
                self.ended = server.process.wait(timeout=PATIENCE), server.told
                return None, 0
            told = [self.ask(server, request) for request in requests]
            if self.connection:
                self.connection.close()
            server.process.terminate()
            _, count = server.process.communicate(timeout=PATIENCE)
        return told, int(count or 0)

    def ask(self, server, request):
        """The last reply to a request; None where the desk never gave one."""
        told = None
        for _ in range(TRIES):
            told = self.once(server, request)
            if told is None:
                self.dropped += 1
                self.connection = None
            elif (told.status, told.body) in ((507, b"memory\n"), (503, b"store-fault\n")):
                self.wanting += 1
            else:
                return told
        return told

    def once(self, server, request):
        try:
            self.connection = self.connection or talk.Connection(server.port)
            return self.connection.say(request)
        except OSError:
            return None


class ServedCase:
    """A stream of requests to a desk over an empty store, with each allocation refused in turn."""

    def __init__(self, room, title, requests):
        self.room, self.title, self.requests = room, title, requests

    def served(self, folder, place=0):
        desk = Served(self.room, folder, place)
        return desk, *desk.run(self.requests)

    def measure(self):
        """The good answers and records, and how many allocations a run makes."""
        folder = self.room.new_folder()
        _, told, count = self.served(folder)
        self.good = [said(it) for it in told]
        self.records = talk.records(folder / "store.db")
        return count

    def refuse_all(self):
        """Refuses each allocation in turn, tells how the runs went, and gives how many were tried."""
        count = self.measure()
        with concurrent.futures.ThreadPoolExecutor(4) as pool:
            ways = collections.Counter(pool.map(self.refuse, range(1, count + 1, self.room.every)))
        shown = ", ".join(f"{count} {way}" for way, count in ways.most_common())
        print(f"{self.title}: {sum(ways.values())} of {count} allocations: {shown}", flush=True)
        self.wrong = ways["wrong"]
        return sum(ways.values())

    def refuse(self, place):
        """Refuses the allocation of this place: how the run went, or `wrong`."""
        folder = self.room.new_folder()
        desk, told, _ = self.served(folder, place)
        way = self.way_of(desk, told)
        fault = self.fault_after(folder) if way else f"{desk.ended} {told and different(told, self.good)}"
        shutil.rmtree(folder)
        if fault:
            print(f"WRONG: {self.title}, allocation {place}: {fault}")
            return "wrong"
        return way

    def way_of(self, desk, told):
        """How a run went, or None where it may not go so."""
        if told is None:
            return f"status {desk.ended[0]} before it serves" if desk.ended[0] in (4, 8) else None
        if [said(it) for it in told] != self.good:
            return None
        if desk.wanting + desk.dropped == 0:
            return "the good answers"
        return "a request refused, and answered when sent again" if desk.wanting else "a connection dropped, and its request answered on the next"

    def fault_after(self, folder):
        """What is wrong with the store behind a run, where all is sent once more and nothing is refused."""
        _, told, _ = self.served(folder)
        kept = talk.records(folder / "store.db")
        return "" if told and kept == self.records else f"; then its records are others: {sorted(set(kept) ^ set(self.records))[:2]}"


def said(reply):
    """What a reply says of the desk, whatever its sender had met before."""
    return heard.said(reply)


def different(told, good):
    """The first reply that is another than the good one."""
    return next(((at, said(it)[-100:]) for at, (it, wanted) in enumerate(zip(told, good)) if said(it) != wanted), None)
