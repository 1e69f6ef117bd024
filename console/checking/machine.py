"""A console of its own, requests to it, and what the index program says alone."""
import contextlib
import json
import os
import re
import signal
import socket
import subprocess
import sys
import time
import urllib.parse

from http_client import ask

# a console with limits of a check's own, given as words NAME=NUMBER before its own words
LIMITED = """
import sys
sys.path.insert(0, sys.argv.pop(1))
import earlybird_console.limits, earlybird_web.limits
both = earlybird_console.limits, earlybird_web.limits
for word in sys.argv.pop(1).split():
    name, _, value = word.partition("=")
    where, = (each for each in both if hasattr(each, name))
    setattr(where, name, int(value))
from earlybird_console.command import main
sys.exit(main())
"""
HERE = os.path.dirname(os.path.dirname(os.path.abspath(__file__)))
PROGRAM = os.environ.get("EARLYBIRD_PROGRAM", os.path.join(os.path.dirname(HERE), "earlybird"))
COMMAND = [sys.executable, "-B", os.path.join(HERE, "earlybird-console")]
# the first start may have to build the program, which a machine that checks has done before
STARTS = 60


def children(pid):
    """The numbers of a process's children."""
    found = []
    for each in filter(str.isdigit, os.listdir("/proc")):
        with contextlib.suppress(OSError):
            with open("/proc/%s/stat" % each, encoding="utf-8", errors="replace") as file:
                if int(file.read().rpartition(")")[2].split()[1]) == pid:
                    found.append(int(each))
    return found


def complaints(folder):
    """What consoles wrote of faults that they don't know."""
    found = []
    for name in os.listdir(folder):
        if name.endswith(".log") and name != "driver.log":
            with open(os.path.join(folder, name), encoding="utf-8", errors="replace") as log:
                found += [line for line in log if "Traceback" in line or "never retrieved" in line or "Error" in line]
    return found


def refuse(name):
    """What JSON doesn't have, and Python's has."""
    raise ValueError(name)


def memory(pid):
    """The memory that a process has had at most, in MiB."""
    with open("/proc/%d/status" % pid, encoding="ascii") as file:
        return next(int(line.split()[1]) for line in file if line.startswith("VmHWM")) // 1024


class Machine:
    """One console. All that run are in `running`. `limited` are limits of its own, as NAME=NUMBER with blanks between."""

    running = []

    def __init__(self, folder, *words, name="console", text=b"", limited=None, program=PROGRAM, environment=None):
        self._log = open(os.path.join(folder, name + ".log"), "ab+")
        self._log.seek(0, os.SEEK_END)
        begin = self._log.tell()
        command = [sys.executable, "-B", "-c", LIMITED, HERE, limited] if limited else COMMAND
        self.process = subprocess.Popen([*command, "--program", program, "--listen", "127.0.0.1:0", *words],
                                        stdin=subprocess.PIPE, stderr=self._log, cwd=folder, env=environment)
        self.running.append(self)
        self._input(text)
        self.port = None
        for _ in range(STARTS * 20):
            with open(self._log.name, "rb") as log:
                log.seek(begin)
                found = re.search(rb"http://[^ ]*:(\d+)/", log.read())
            if found or self.process.poll() is not None:
                break
            time.sleep(0.05)
        if found:
            self.port = int(found.group(1))

    def _input(self, text):
        self.process.stdin.write(text)
        self.process.stdin.close()

    @property
    def url(self):
        """Where its page is."""
        return "http://127.0.0.1:%d/" % self.port

    def ask(self, method, path, body=None, **headers):
        """One request: its status and the answer's bytes."""
        return ask(self.port, method, path, body, **headers)

    def value(self, method, path, body=None, **headers):
        """One request: its status and its value."""
        status, data = self.ask(method, path, body, **headers)
        return status, json.loads(data)

    def post(self, lines, source="a request"):
        """Posts lines, and gives the answer's value."""
        return self.value("POST", "/messages?" + urllib.parse.urlencode({"source": source}), b"\n".join(lines))[1]

    def get(self, path, **query):
        """What a path answers: its value, strictly read."""
        _, data = self.ask("GET", path + "?" + urllib.parse.urlencode(query))
        return json.loads(data, parse_constant=refuse)

    def search(self, query, most=50, **more):
        """The matches of a query, or the refusal."""
        told = self.get("/search", q=query, k=most, **more)
        return told.get("matches", told)

    def lines(self, query, most=50, **more):
        """The messages that a query finds as they came, or the refusal."""
        found = self.search(query, most, **more)
        return [each["message"] for each in found] if isinstance(found, list) else found

    def texts(self, query, most=50, **more):
        """Their texts as the page shows them."""
        return [each["text"][:each["main"]] for each in self.search(query, most, **{"for": "page", **more})]

    def figures(self):
        """The figures."""
        return self.value("GET", "/figures")[1]

    def events(self, query, timeout=30):
        """A reader of events, which has begun."""
        return Events(self.port, query, timeout)

    def kill_index(self):
        """Kills the index program, without a word to it."""
        for pid in children(self.process.pid):
            os.kill(pid, signal.SIGKILL)

    def end(self, name=signal.SIGTERM):
        """Ends the console: its status, and whether something that it started is still there."""
        self.running.remove(self)
        started = children(self.process.pid)
        self.process.send_signal(name)
        try:
            status = self.process.wait(20)
        except subprocess.TimeoutExpired:
            self.process.kill()
            status = self.process.wait()
        for _ in range(100):
            left = [pid for pid in started if os.path.exists("/proc/%d" % pid)]
            if not left:
                break
            time.sleep(0.05)
        for pid in left:
            os.kill(pid, signal.SIGKILL)
        self._log.close()
        return status, left


class Events:
    """A reader of events."""

    def __init__(self, port, query, timeout, buffer=None):
        self.socket = socket.socket()
        if buffer:
            self.socket.setsockopt(socket.SOL_SOCKET, socket.SO_RCVBUF, buffer)
        self.socket.settimeout(timeout)
        self.socket.connect(("127.0.0.1", port))
        self.socket.sendall(("GET /events?%s HTTP/1.1\r\nHost: 127.0.0.1:%d\r\n\r\n" % (urllib.parse.urlencode({"q": query}), port)).encode())
        self._file = self.socket.makefile("rb", 4096)
        for line in self._file:
            if line == b"data: {}\n":
                break

    def next(self):
        """The next message."""
        for line in self._file:
            if line.startswith(b"data: "):
                return json.loads(line[6:], parse_constant=refuse)["message"]
        return None

    def close(self):
        """Ends it."""
        self._file.close()
        self.socket.close()
