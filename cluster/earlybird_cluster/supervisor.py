"""Starts again what was started in a folder and died: workers, and the Redis of the folder."""
import contextlib
import os
import sys
import time

from . import machine, names

LOOK = 0.1  # seconds between two looks
SOON = 10.0  # seconds: what dies sooner after its start is waited with
FIRST = 0.5  # seconds that are waited, at first
LONGEST = 5.0  # seconds that are waited, at most


class Delays:
    """When what died may be started again: at once, and where it died soon after a start, after a time that doubles."""

    def __init__(self):
        self._started, self._seen, self._wait = {}, {}, {}

    def alive(self, what, now):
        """It was seen running."""
        self._seen[what] = now

    def _lived(self, what):
        return self._seen.get(what, 0.0) - self._started[what] > SOON

    def may(self, what, now):
        """Whether it may be started now."""
        if what not in self._started or self._lived(what):
            return True
        return now - max(self._started[what], self._seen.get(what, 0.0)) >= self._wait[what]

    def note(self, what, now):
        """It was started."""
        if what not in self._started or self._lived(what):
            self._wait[what] = 0.0
        else:
            self._wait[what] = min(LONGEST, max(FIRST, 2 * self._wait[what]))
        self._started[what] = now


def supervise(folder, url, name):
    """Works until nothing is wanted any more."""
    delays, told = Delays(), None
    while True:
        wanted = machine.read_wanted(folder, name)
        if wanted is None:
            return 0
        with contextlib.suppress(ChildProcessError):
            while os.waitpid(-1, os.WNOHANG)[0]:
                pass
        try:
            if wanted["fsync"]:
                _keep(folder, "redis", delays, lambda: machine.start_redis(folder, wanted["fsync"]))
            for part, replica in wanted["workers"]:
                _keep(folder, machine.worker_of(name, part, replica), delays, lambda part=part, replica=replica: machine.start_worker(
                    folder, url, name, part, replica, wanted["program"], wanted["images"]))
            told = None
        except (OSError, names.NotSetUp) as fault:  # no processes, no memory, no place: it may come
            if str(fault) != told:
                told = str(fault)
                _tell(told)
        time.sleep(LOOK)


def _keep(folder, what, delays, start):
    now = time.monotonic()
    if machine.running(folder, what) is not None:
        delays.alive(what, now)
    elif delays.may(what, now) and start():
        delays.note(what, now)
        _tell("%s is started" % what)


def _tell(text):
    print("%s %s" % (time.strftime("%Y-%m-%d %H:%M:%S"), text), file=sys.stderr, flush=True)
