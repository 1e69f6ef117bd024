"""How many messages a second a console takes, and how long its answers take over many."""
import os
import random
import shutil
import tempfile
import time
import urllib.parse

from .machine import Machine
from .page import app_line, system_line

COUNT = 150000
QUERIES = ("", "timed", '"timed out" -jon', "level:error", "failed password", "slow billing", "nothing_of_this_kind")


def least(machine, path):
    """The least of the milliseconds that three answers take."""
    took = []
    for _ in range(3):
        begun = time.perf_counter()
        machine.ask("GET", path)
        took.append((time.perf_counter() - begun) * 1000)
    return min(took)


def measure():
    """Hands in logs by a file, and asks."""
    folder = tempfile.mkdtemp(prefix="earlybird-console-")
    chance = random.Random(1)
    try:
        for name, make in (("plain text", system_line), ("JSON", app_line)):
            path = os.path.join(folder, "%s.log" % name)
            now = time.time()
            with open(path, "wb") as file:
                file.write(b"".join(make(chance, now - 86400 + place * 0.5) + b"\n" for place in range(COUNT)))
            begun = time.monotonic()
            machine = Machine(folder, path)
            while machine.figures()["accepted"] < COUNT:
                time.sleep(0.05)
            print("console: %d lines of %s: %.0f a second" % (COUNT, name, COUNT / (time.monotonic() - begun)), flush=True)
            for query in QUERIES:
                asked = urllib.parse.quote(query)
                paths = ["/search?for=page&k=100&q=" + asked, "/histogram?bars=100&q=" + asked, "/fields?q=" + asked]
                print("console: %r: 100 matches %.0f ms, the axis %.0f ms, fields %.0f ms" % (query, *(least(machine, path) for path in paths)), flush=True)
            machine.end()
    finally:
        for machine in list(Machine.running):
            machine.end()
        shutil.rmtree(folder, ignore_errors=True)
    return 0
