"""A cluster in a folder of its own, what is compared, and who is killed meanwhile."""
import json
import os
import random
import shutil
import signal
import subprocess
import sys
import tempfile

from comparing import FAILED, PASSED, check, wait_for  # noqa: F401 (for the other parts)
from earlybird_cluster import Router, machine, names
from earlybird_cluster.entries import documents_of
from earlybird_cluster.words import ROOT

PROGRAM = os.environ.get("EARLYBIRD_PROGRAM", os.path.join(ROOT, "earlybird"))
COMMAND = machine.COMMAND
WORDS = ["w%d" % number for number in range(400)]


def until(what, seconds=30.0):
    """Waits until it holds, for so long at most. Gives whether it does."""
    return wait_for(True, lambda: bool(what()), seconds)


# ---- what goes in


def make_documents(count, first, rng):
    """Document lines with rising ids, some frequent words and many rare ones; and the last id."""
    number, lines = first, []
    for _ in range(count):
        number += rng.randint(1, 5)
        words = [WORDS[min(int(rng.expovariate(0.02)), len(WORDS) - 1)] for _ in range(rng.randint(1, 12))]
        lines.append(json.dumps({"id": number, "text": " ".join(words)}).encode())
    return lines, number


def make_queries(count, rng):
    """Query lines of all forms: words, and, or, not, phrases, groups, and some that are refused."""
    def word():
        return WORDS[min(int(rng.expovariate(0.03)), len(WORDS) - 1)]

    forms = [
        lambda: word(),
        lambda: "%s %s" % (word(), word()),
        lambda: "%s OR %s" % (word(), word()),
        lambda: "%s -%s" % (word(), word()),
        lambda: '"%s %s"' % (word(), word()),
        lambda: "(%s OR %s) %s" % (word(), word(), word()),
        lambda: "-%s" % word(),
        lambda: '%s -("%s %s" OR %s)' % (word(), word(), word(), word()),
        lambda: "%s (" % word(),
        lambda: "%s OR" % word(),
    ]
    return [("?%d %s" % (rng.choice([1, 3, 10, 100, 1000]), forms[place % len(forms)]())).encode() for place in range(count)]


def numbered(numbers, word="rain"):
    """Documents with these ids, each with this word and one of its own."""
    return [b'{"id":%d,"text":"%b w%d"}' % (number, word.encode(), number) for number in numbers]


def text_of(lines):
    """Lines as they go into a pipe."""
    return b"".join(line + b"\n" for line in lines)


def run_alone(words, documents, queries):
    """What one program prints for the queries after the documents, without the numbers."""
    done = subprocess.run([PROGRAM, *words], input=text_of(documents + queries), stdout=subprocess.PIPE, check=False)
    return [line.split(b" ", 1)[1] for line in done.stdout.splitlines()[:-1]][-len(queries):]


def bare(printed):
    """Printed lines without their numbers."""
    return [line.split(b" ", 1)[1] for line in printed.splitlines()]


def send(process, text):
    """Gives text to a process, which may have ended."""
    try:
        process.stdin.write(text)
        process.stdin.flush()
    except BrokenPipeError:
        pass


def interrupted(lines, place, act):
    """The lines, and something that is done when the line of this place is taken."""
    for number, line in enumerate(lines):
        if number == place:
            act()
        yield line


# ---- what runs


class Stage:
    """A folder, and a cluster in it whose Redis is there or elsewhere."""

    def __init__(self, url=None):
        self.folder = tempfile.mkdtemp(prefix="earlybird-cluster-")
        self.url = url or "unix://" + machine.socket_of(self.folder)
        self._given = ["--redis", url] if url else []

    def __enter__(self):
        return self

    def __exit__(self, *fault):
        if fault[0] is not None:
            for each in sorted(os.listdir(self.folder)):
                if each.endswith(".log"):
                    with open(os.path.join(self.folder, each), "rb") as file:
                        print("%s: %s" % (each, file.read()[-600:].decode(errors="replace")))
        self.command("down")
        check("down ends all", [], [each for each in os.listdir(self.folder) if each.endswith(".pid")])
        shutil.rmtree(self.folder, ignore_errors=True)

    def start(self, *words, text=b""):
        """Starts the command of the cluster."""
        process = subprocess.Popen([sys.executable, "-B", COMMAND, "--folder", self.folder, *self._given, *words], stdin=subprocess.PIPE,
                                   stdout=subprocess.PIPE, stderr=subprocess.PIPE)
        process.stdin.write(text)
        process.stdin.flush()
        return process

    def command(self, *words, text=b""):
        """Runs the command of the cluster: what it prints, its status, and what it says on standard error."""
        done = subprocess.run([sys.executable, "-B", COMMAND, "--folder", self.folder, *self._given, *words], input=text, stdout=subprocess.PIPE,
                              stderr=subprocess.PIPE, check=False)
        return done.stdout, done.returncode, done.stderr.decode(errors="replace")

    def up(self, parts, *more, name="earlybird"):
        """Starts what doesn't run: its status."""
        _, status, said = self.command("--name", name, "up", str(parts), "--program", PROGRAM, "--fsync", "always", *more)
        if status:
            print(said)
        return status

    def redis(self):
        """A client of its Redis."""
        return machine.connect(self.url)

    def router(self, patience=30.0, name="earlybird"):
        """A router; the patience is that of a busy machine."""
        return Router(self.redis(), name, patience)

    def ask_all(self, queries, name="earlybird"):
        """The answers to the queries, without their numbers."""
        return bare(self.command("--name", name, "--patience", "30", "ask", text=text_of(queries))[0])

    def pid(self, what):
        """The process of this name."""
        return machine.running(self.folder, what)

    def signal(self, what, number=signal.SIGKILL):
        """Sends a signal to a process of the folder, and waits until one that is killed is gone."""
        process = self.pid(what)
        if process is not None:
            os.kill(process, number)
            if number == signal.SIGKILL:
                until(lambda: self.pid(what) != process)

    def said(self, what):
        """What a process of the folder wrote."""
        with open(os.path.join(self.folder, what + ".log"), "rb") as file:
            return file.read()

    def documents(self, name="earlybird"):
        """The lines in the logs of a cluster, by partition."""
        redis, found = self.redis(), []
        for tag in names.read_config(redis, name).tags:
            found.append([])
            for _, fields in redis.xrange(names.log(tag)):
                there = documents_of([word for field in fields.items() for word in field])
                found[-1] += there[0].split(b"\n")[:-1] if there else []
        return found


def seeded(seed):
    """Random numbers that are the same in each run."""
    return random.Random(seed)
