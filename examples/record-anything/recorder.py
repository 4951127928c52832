"""Records any cache from outside, in format 4 of docs/RECORDS.md. README.md says how it is used."""
import itertools
import json
import threading
import time

now = time.monotonic_ns  # one clock for all processes of a machine


class Recorder:
    def __init__(self):
        self.lock = threading.Lock()
        self.loads, self.forgets, self.callers = [], [], {}

    def caller(self):
        """Returns the number of this thread, and the counter of its generations. Loads are of caller 1."""
        with self.lock:
            return self.callers.setdefault(threading.get_ident(), (len(self.callers) + 2, itertools.count(1)))

    def load(self, key):
        """The origin calls this before it reads anything for a value. The value has to name the number that this returns."""
        with self.lock:
            self.loads.append((key, now(), []))
            return len(self.loads)

    def get(self, ask):
        """Calls ask(), which gets a key from the cache and returns the number that the value names."""
        begun = now()
        number = ask()
        self.loads[number - 1][2].append((begun, now(), *self.caller()))

    def forget(self, key, ask):
        """Calls ask(), which forgets the key."""
        begun = now()
        ask()
        self.forgets.append((key, begun, now(), self.caller()[0]))

    def write(self, log):
        """Writes the log, when all threads have ended."""

        def line(kind, by, at, **names):
            print(json.dumps({"e": kind, "by": by, **names, "at": at}), file=log)

        end = now()
        print('{"format":4,"lost":0}', file=log)
        for number, (key, loaded, gets) in enumerate(self.loads, 1):
            if not gets:
                continue  # a history without one of its calls is as legal as with it
            asked = min(loaded, *(get[0] for get in gets))
            line("lead", 1, [asked, loaded], k=key, c=[1, number], own=None)
            for begun, ended, caller, generations in gets:
                line("enter", caller, [begun, ended], k=key, c=[1, number], m=[caller, next(generations)])
            line("settle", 1, [asked, end], c=[1, number], ok=f"load {number}", joiners=len(gets))
            line("handed", 1, [asked, end], c=[1, number])
        for key, begun, ended, caller in self.forgets:
            line("forget", caller, [begun, ended], k=key, closed=None)
