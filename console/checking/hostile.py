"""Requests that mean harm: each of them leaves the console to others. How long these wait meanwhile is printed. It has to be less than a second
on a machine that has nothing else to do; a machine that checks is busy, so twice that is let through."""
import contextlib
import http.client
import json
import socket
import threading
import time
import urllib.parse

from comparing import check, wait_for

from .machine import Machine, memory

# limits that let a check end soon
LIMITED = "PATIENCE=2 RATE=2000000 IDLE=30"
# seconds that a search of another may take on a busy machine, MiB of memory, and seconds until connections have to be ended
WORST = 2
MEMORY = 300
# seconds that a harmful request itself may take
HARMFUL = 20
BEHIND = 60


class Beside:
    """Another client, which searches all the time: the longest that it waited, and what went wrong."""

    def __init__(self, port):
        self.worst, self.wrong, self.count = 0, [], 0
        self._port = port
        self._ending = threading.Event()
        self._thread = threading.Thread(target=self._run, daemon=True)

    def _run(self):
        while not self._ending.is_set():
            begun = time.monotonic()
            connection = http.client.HTTPConnection("127.0.0.1", self._port, timeout=60)
            try:
                connection.request("GET", "/search?q=zzz&k=1")
                answer = connection.getresponse()
                answer.read()
                if answer.status != 200:
                    self.wrong.append(answer.status)
            except OSError as fault:
                self.wrong.append(repr(fault))
            finally:
                connection.close()
            self.worst = max(self.worst, time.monotonic() - begun)
            self.count += 1
            self._ending.wait(0.02)

    def __enter__(self):
        self._thread.start()
        return self

    def __exit__(self, *_):
        self._ending.set()
        self._thread.join(90)

    def tell(self, name):
        """Compares what it met."""
        print("console: %s: another's search took at most %.2f s" % (name, self.worst), flush=True)
        check("%s: another is answered" % name, (True, []), (self.count > 0, self.wrong[:3]))
        check("%s: and soon" % name, True, self.worst < WORST)


def opened(port, data, count, stack):
    """This number of connections that have sent the data, and read next to nothing."""
    found = []
    for _ in range(count):
        one = stack.enter_context(socket.socket())
        one.setsockopt(socket.SOL_SOCKET, socket.SO_RCVBUF, 4096)
        one.settimeout(20)
        one.connect(("127.0.0.1", port))
        with contextlib.suppress(OSError):
            one.sendall(data)
        found.append(one)
    return found


class Hostile:
    """A console of its own, and what is done to it."""

    def __init__(self, folder):
        self.machine = Machine(folder, name="hostile", limited=LIMITED)
        self.port = self.machine.port
        self.host = b"Host: 127.0.0.1:%d\r\n" % self.port

    def get(self, path, **query):
        """The status of a request, and how long it took."""
        begun = time.monotonic()
        status, _ = self.machine.ask("GET", path + "?" + urllib.parse.urlencode(query))
        return status, time.monotonic() - begun

    def head(self, path, *lines):
        """The first line of the answer to a GET with these lines."""
        with socket.create_connection(("127.0.0.1", self.port), 20) as one:
            one.sendall(b"GET %s HTTP/1.1\r\n%s\r\n\r\n" % (path, b"\r\n".join(lines or (self.host.strip(),))))
            return int(one.makefile("rb").readline().split()[1])

    def gone(self, name):
        """All but those of other clients are ended."""
        check("%s: their connections are ended" % name, True, wait_for(True, lambda: self.machine.figures()["connections"] <= 2, BEHIND))

    def check_marks(self):
        """Marks cost at most as much as a message has words, and have their time."""
        told = self.machine.post([b'{"id":%d,"text":"%s"}' % (number, b"a " * 1000 + b"kk") for number in range(1000)])
        check("long messages are taken", 1000, told["taken"])
        windows = "kk OR " + " OR ".join('"a z%d"~1023' % number for number in range(8))
        others = "kk OR " + " OR ".join('"a b%d kk"~1023' % number for number in range(4))
        with Beside(self.port) as beside:
            for query, most in ((windows, 4), (windows, 500), (others, 500), ('kk OR "%s kk"~1023' % " ".join(["a"] * 7), 500)):
                status, took = self.get("/search", q=query, k=most, **{"for": "page"})
                check("windows over long messages, %d of them" % most, (200, True), (status, took < HARMFUL))
            crowd = [threading.Thread(target=self.get, args=("/search",), kwargs={"q": windows, "k": 500, "for": "page"}) for _ in range(20)]
            for each in crowd:
                each.start()
            for each in crowd:
                each.join(60)
        beside.tell("marks")

    def check_work(self):
        """A query that the index would walk the same places for, again and again, is refused, and says why."""
        for query in ('"%s"~62' % " ".join(["a"] * 64), " OR ".join('"a b"~%d' % number for number in range(2, 30))):
            told = self.machine.get("/search", q=query)
            check("too much work", ("query too large", True), (told.get("error"), "more than 8 times" in told.get("why", "")))
        with Beside(self.port) as beside:
            threads = [threading.Thread(target=self.get, args=("/search",), kwargs={"q": '"%s"~7' % " ".join(["a"] * 8), "k": 500}) for _ in range(10)]
            for each in threads:
                each.start()
            for each in threads:
                each.join(60)
        beside.tell("the work that is left")

    def check_unread(self):
        """Answers that nobody reads are bounded, and end."""
        self.machine.post([b'{"id":%d,"text":"bulk","pad":"%s"}' % (number, b"p" * 8000) for number in range(500)])
        before = memory(self.machine.process.pid)
        with contextlib.ExitStack() as stack, Beside(self.port) as beside:
            for _ in range(6):
                opened(self.port, b"GET /search?q=bulk&k=500 HTTP/1.1\r\n%s\r\n" % self.host, 20, stack)
            time.sleep(1)
            opened(self.port, b"GET /console.css HTTP/1.1\r\n%s\r\n" % self.host * 200, 60, stack)
            self.gone("unread answers")
        beside.tell("unread answers")
        after = memory(self.machine.process.pid)
        print("console: 180 connections that read nothing: memory of %d MiB became at most %d MiB" % (before, after), flush=True)
        check("unread answers: memory", True, after < MEMORY)

    def check_bodies(self):
        """A sender who reads only once all is sent gets an answer, whatever the body is."""
        for name, body, want in (("8 MiB of short lines", b"x\n" * (1 << 22), 413), ("8 MiB of ends", b"\n" * (1 << 23), 413), ("9 MiB", b"x\n" * (9 << 19), 413), ("24 MiB", b"x" * (24 << 20), 413),
                                 ("a line of 8 MiB", b"x" * (1 << 23), 200)):
            begun = time.monotonic()
            with Beside(self.port) as beside:
                connection = http.client.HTTPConnection("127.0.0.1", self.port, timeout=40)
                try:
                    connection.request("POST", "/messages", body)
                    got = connection.getresponse().status
                except OSError as fault:
                    got = repr(fault)
                finally:
                    connection.close()
            check("%s: its answer" % name, (want, True), (got, time.monotonic() - begun < 40))
            beside.tell(name)

    def check_sites(self):
        """Pages of other sites, whose browser runs here, get nothing."""
        mine = b"Host: 127.0.0.1:%d" % self.port
        cases = [((b"Sec-Fetch-Site: cross-site",), 403), ((b"Sec-Fetch-Site: same-site",), 403), ((b"Sec-Fetch-Site: same-origin",), 200), ((b"Sec-Fetch-Site: none",), 200), ((), 200),
                 ((b"Sec-Fetch-Site: cross-site", b"Sec-Fetch-Mode: navigate", b"Sec-Fetch-Dest: document"), 403), ((b"Origin: null",), 403), ((b"Origin: http://example.org",), 403)]
        for lines, want in cases:
            check("a search with %r" % (lines,), want, self.head(b"/search?q=a", mine, *lines))
        check("a link to the page", 200, self.head(b"/", mine, *cases[5][0]))
        check("a frame of the page", 403, self.head(b"/", mine, b"Sec-Fetch-Site: cross-site", b"Sec-Fetch-Mode: navigate", b"Sec-Fetch-Dest: iframe"))
        for host in (b"example.org", b"127.0.0.1:x@evil.example", b"localhost:evil.com", b"localhost.evil.com", b"[::1].evil.com", b"127.0.0.1:1234567", b""):
            check("a request for %r" % host, 421, self.head(b"/search?q=a", b"Host: " + host))
        for host in (b"localhost", b"[::1]:80", b"127.0.0.1:9"):
            check("a request for %r" % host, 200, self.head(b"/search?q=a", b"Host: " + host))

    def check_deep(self):
        """Queries that are deep or long are refused, and nothing else."""
        for path in ("/search", "/events", "/histogram", "/fields", "/export", "/values"):
            for query in ("(" * 5000, "-" * 9000, "a:" * 4000, '"' * 5001, "a OR " * 1500, "since:" * 1000):
                status, took = self.get(path, q=query)
                check("%s of %r.." % (path, query[:6]), (400, True), (status, took < WORST))

    def check_slow(self):
        """Those who send slowly hold nobody."""
        with contextlib.ExitStack() as stack, Beside(self.port) as beside:
            opened(self.port, b"GET / HTTP/1.1\r\nHost: local", 530, stack)
            time.sleep(0.5)
            check("beside 530 half heads", 200, self.get("/search", q="zzz")[0])
            self.gone("half heads")
        beside.tell("half heads")
        with contextlib.ExitStack() as stack, Beside(self.port) as beside:
            slow = opened(self.port, b"POST /messages HTTP/1.1\r\n%sContent-Length: 2000000\r\n\r\n{" % self.host, 520, stack)
            check("beside 520 slow posts", 200, self.get("/search", q="zzz")[0])
            for _ in range(3):
                time.sleep(1)
                for one in slow:
                    with contextlib.suppress(OSError):
                        one.sendall(b" ")
            self.gone("slow posts")
        beside.tell("slow posts")

    def check_events(self):
        """Readers of events that don't read are dropped, and pages that have much to mark wait for each other."""
        with contextlib.ExitStack() as stack, Beside(self.port) as beside:
            opened(self.port, b"GET /events?q=evt HTTP/1.1\r\n%s\r\n" % self.host, 60, stack)
            windows = urllib.parse.quote(" OR ".join('"a b%d"~1023' % number for number in range(7)) + " OR evt").encode()
            opened(self.port, b"GET /events?for=page&q=%s HTTP/1.1\r\n%s\r\n" % (windows, self.host), 60, stack)
            wait_for(120, lambda: self.machine.figures()["readers"])
            for _ in range(4):
                self.machine.post([b'{"id":%d,"text":"evt %s","p":"%s"}' % (number, b"a b0 " * 300, b"p" * 2000) for number in range(400)])
            check("readers that don't read are dropped", True, wait_for(True, lambda: self.machine.figures()["readers"] <= 60, 20))
        beside.tell("readers of events")

    def check_crowd(self):
        """Many who want much to be counted leave others their turn."""
        self.machine.post([b"2026-11-%02dT10:%02d:00Z crowd n%d" % (1 + number % 30, number % 60, number) for number in range(8000)])
        with Beside(self.port) as beside:
            threads = [threading.Thread(target=self.get, args=(path,), kwargs={"q": "crowd", **more}) for _ in range(8)
                       for path, more in (("/histogram", {"bars": 300}), ("/fields", {}), ("/values", {"name": "level"}), ("/export", {"most": 8000}))]
            for each in threads:
                each.start()
            for each in threads:
                each.join(90)
        beside.tell("a crowd")

    def check_names(self):
        """Names and sources are bounded."""
        self.machine.post([json.dumps({"m%d" % (number * 20 + at): at for at in range(20)}).encode() for number in range(400)])
        check("members of any name are found as words", 1, len(self.machine.search('"m7777 17"')))
        check("the console goes on", 200, self.get("/fields")[0])


def check_hostile(folder):
    """All of them."""
    hostile = Hostile(folder)
    for each in (hostile.check_sites, hostile.check_deep, hostile.check_marks, hostile.check_work, hostile.check_slow, hostile.check_unread, hostile.check_bodies,
                 hostile.check_events, hostile.check_crowd, hostile.check_names):
        begun = time.monotonic()
        each()
        print("console: %s took %.1f s" % (each.__name__, time.monotonic() - begun), flush=True)
    check("it ends", (0, []), hostile.machine.end())
