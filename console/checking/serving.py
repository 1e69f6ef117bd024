"""Checks by requests: what is taken, found, counted, shown, told, dropped, and what comes back."""
import concurrent.futures
import contextlib
import gzip
import http.client
import json
import os
import random
import shutil
import signal
import socket
import subprocess
import sys
import threading
import time

from comparing import check, wait_for

from .machine import COMMAND, PROGRAM, Events, Machine
from .messages import ASKED, BASE, DAY, MARKUP, Made, make_harmful

SMALL = ("--keep", "2", "--segments", "1", "--docs", "256", "--terms", "1024")
COUNT = 9000
# those that ask for fields at once: longer than one may read
CROWD = 40
# a journalctl of a check: entries as the journal has them, from behind a cursor
JOURNAL = """#!%s -B
import json, os, sys, time
parent = os.getppid()
start = next((int(word.partition("=")[2]) for word in sys.argv if word.startswith("--after-cursor=")), 0)
for number in range(start + 1, start + 31):
    print(json.dumps({"__CURSOR": str(number), "__REALTIME_TIMESTAMP": str(1793491200000000 + number * 1000000), "PRIORITY": str(number %% 8),
                      "MESSAGE": list(b"bytes of the journal") if number %% 10 == 0 else "entry %%d of the journal" %% number,
                      "_SYSTEMD_UNIT": "ssh.service", "SYSLOG_IDENTIFIER": "sshd"}), flush=True)
while os.getppid() == parent:
    time.sleep(0.1)
"""


def raw(port, data, timeout=20):
    """The first line of the answer to these bytes, as they are."""
    with socket.create_connection(("127.0.0.1", port), timeout) as connection:
        connection.sendall(data)
        return connection.makefile("rb").readline().decode("latin-1").strip()


def tried(words, why):
    """The status of a console that can't be with these words, and whether it says why."""
    done = subprocess.run([*COMMAND, *words], stdin=subprocess.DEVNULL, stderr=subprocess.PIPE, check=False, timeout=60)
    return done.returncode, why in done.stderr


def write(path, lines):
    """Writes lines to a file, packed where its name says so."""
    with (gzip.open if path.endswith(".gz") else open)(path, "wb") as file:
        file.write(b"".join(line + b"\n" for line in lines))


class Served:
    """A console that has taken made messages, in no order of time, from files, a packed one, standard input and requests."""

    def __init__(self, folder):
        self.folder = folder
        chance = random.Random(3)
        self.made = [Made(number, COUNT, chance) for number in range(COUNT)]
        self.harmful, self.harmful_texts = make_harmful()
        self.grows = os.path.join(folder, "grows.log")
        self.texts = os.path.join(folder, "texts.sqlite")
        self.alarms = os.path.join(folder, "alarms.jsonl")
        self.told = os.path.join(folder, "told.jsonl")
        self.machine = None
        self.kept = COUNT

    def start(self, text=b""):
        """Starts the console, or starts it again."""
        command = "sh -c 'cat >> %s'" % self.told
        self.machine = Machine(self.folder, self.grows, os.path.join(self.folder, "other.log"), os.path.join(self.folder, "old.log.gz"), "-", "--texts", self.texts, "--alert-file", self.alarms,
                               "--alert-command", command, text=text)

    def accepted(self, count):
        """Waits until this many messages are accepted."""
        return wait_for(count, lambda: self.machine.figures()["accepted"], 60)

    def take(self):
        """All ways by which lines come."""
        lines = [each.line for each in self.made]
        rest = [each.line for each in self.made if each.number % 5]
        write(os.path.join(self.folder, "other.log"), [each.line for each in self.made if each.number % 5 == 0])
        write(os.path.join(self.folder, "old.log.gz"), rest[:1000])
        open(self.grows, "wb").close()
        begun = time.monotonic()
        self.start(b"".join(line + b"\n" for line in rest[1000:3000]))
        with open(self.grows, "wb") as file:
            for place, line in enumerate(rest[3000:5000]):
                file.write(line[:10])
                if place % 500 == 0:
                    file.flush()
                file.write(line[10:] + b"\n")
        told = self.machine.post(rest[5000:], "a service")
        check("a request is taken", {"read": len(rest) - 5000, "taken": len(rest) - 5000, "refused": 0, "first": []}, told)
        check("files, standard input and requests are taken", len(lines), self.accepted(len(lines)))
        print("console: %d messages in %.1f s, with the start" % (len(lines), time.monotonic() - begun), flush=True)
        sources = {"other.log", "old.log.gz", "grows.log", "standard input", "a service"}
        check("their sources", sources, set(self.machine.figures()["sources"]))

    def model(self, meets, low=0, high=1 << 62):
        """What a query has to find: the newest first, by time."""
        found = [each for each in self.made if meets(each) and low <= each.at < high]
        return [each.number for each in sorted(found, key=lambda each: -each.at)]

    def check_answers(self, name, full=True):
        """Each query finds what it has to, the newest first by the messages' own time, and is counted by it; else only those of the day of the
        made messages, and fewer of them."""
        numbers = {each.line: each.number for each in self.made}
        ranges = [(None, None), (BASE + DAY // 4, BASE + DAY // 2), (BASE + DAY // 2, BASE + DAY // 2 + DAY // 200)] if full else [(BASE, BASE + DAY)]
        for query, meets in ASKED:
            for low, high in ranges:
                bounds = {key: value for key, value in (("from", low), ("to", high)) if value}
                want = self.model(meets, low or 0, high or 1 << 62)
                for most in (1, 7, 120, 500) if full else (50,):
                    got = [numbers.get(each.encode() if isinstance(each, str) else json.dumps(each, ensure_ascii=False).encode()) for each in self.machine.lines(query, most, **bounds)]
                    # (those of one millisecond are in the order in which they came)
                    at = [self.made[number].at if number is not None else None for number in got]
                    check("%s: %r %r, %d" % (name, query, bounds, most), ([self.made[number].at for number in want[:most]], True), (at, set(got) <= set(want)))
                told = self.machine.get("/histogram", q=query, bars=40, **bounds)
                counts = [0] * len(told["counts"])
                for number in want:
                    counts[(self.made[number].at - told["first"]) // told["step"]] += 1
                check("%s: the axis of %r %r" % (name, query, bounds), (counts, len(want)), (told["counts"], told["total"]))

    def check_lines(self):
        """Lines of any kind are messages, and come back as they were."""
        told = self.machine.post(self.harmful, "harm")
        self.kept += told["taken"]
        check("all lines are taken", (len(self.harmful), len(self.harmful), 0), (told["read"], told["taken"], told["refused"]))
        shown = {each["text"][:each["main"]] for each in self.machine.search("source:harm", 100, **{"for": "page"})}
        check("their texts are shown as they are", set(), set(self.harmful_texts) - shown)
        check("a spreadsheet runs nothing", True, b"'=1+1 harm" in self.machine.ask("GET", "/export?q=source:harm&as=csv")[1])
        cases = [
            (b"2026-11-30T10:00:00Z db-1 sshd[812]: Failed password for ERR_TIMEOUT in com.acme.Billing", "timeout billing", {"host": "db-1", "program": "sshd", "pid": "812"}),
            (b'{"@timestamp":"2026-11-30T10:00:00Z","severity":"WARN","message":"slow query","http":{"status":503},"trace-id":"7f"}', 'level:warning http.status:503 trace-id:7f', {"http.status": "503", "trace-id": "7f", "level": "warning"}),
            (b'1796032800 level=error user="north gate" took=1.5', 'user:"north gate" level:error took:1.5', {"user": "north gate", "took": "1.5", "level": "error"}),
        ]
        self.machine.post([line for line, _, _ in cases], "kinds")
        self.kept += len(cases)
        for line, query, fields in cases:
            found = self.machine.search(query, **{"for": "page"})
            check("%r by %s" % (line[:30], query), [(1796032800000, "kinds", True)], [(each["at"], each["source"], fields.items() <= each["fields"].items()) for each in found])
        self.machine.post([b"2026-11-30T11:00:00Z first", b"  at line two of it", b"Traceback"], "stack")
        self.kept += 3
        check("a line without a time is of the one before it", {1796036400000}, {each["at"] for each in self.machine.search("source:stack", **{"for": "page"})})
        ids = [each["id"] for each in self.machine.search("source:stack")]
        told = self.machine.get("/context", id=ids[1], n=1)
        check("the lines around it", (["first", "  at line two of it", "Traceback"], "  at line two of it", "stack"), ([each["text"] for each in told["around"]], told["line"], told["source"]))
        check("no such message", "this message isn't kept (any more)", self.machine.get("/context", id="77")["error"])
        marks = self.machine.search("acme.com OR com.acme", **{"for": "page"})
        check("the parts that match are set off", {"com", "acme"}, {each["text"][begin:end] for each in marks for begin, end in each["marks"]})
        self.machine.post([b'{"msg":"the first trace","trace":"t0x"}'], "traces")
        number = self.machine.value("POST", "/watches", "trace:t1100x")[1]["number"]
        reader = self.machine.events("trace:t1199x")
        self.machine.post([json.dumps({"msg": "traced", "trace": "t%dx" % number, "user": "u%d" % (number % 9)}).encode() for number in range(1200)], "traces")
        self.kept += 1201
        check("a member with a value for each message", (True, False), tuple(name in self.machine.figures()["words_only"] for name in ("trace", "user")))
        check("is found by watches and readers that asked for it before", (1, "t1199x"), (sum(self.machine.figures()["watches"][0]["counts"]), reader.next()["trace"]))
        reader.close()
        self.machine.value("DELETE", "/watches/%d" % number)
        check("is found, by its words", [["t7x"], ["t1100x"]], [[each["trace"] for each in self.machine.lines(query)] for query in ("trace:t7x", "trace:t1100x")])

    def check_fields(self):
        """Fields with their values, and an export."""
        told = self.machine.get("/fields", q="level:error rain")
        want = self.model(lambda each: each.level == "error" and "rain" in each.words)
        check("of how many", min(len(want), 1000), told["of"])
        check("the level stands first", ("level", min(len(want), 1000)), (told["fields"][0]["name"], dict(told["fields"][0]["values"])["error"]))
        values = self.machine.get("/values", q="rain", name="city")["values"]
        counted = {city: len(self.model(lambda each, city=city: "rain" in each.words and each.city == city)) for city, _ in values}
        check("values are counted over all matches", (8, counted), (len(values), dict(values)))
        with concurrent.futures.ThreadPoolExecutor(CROWD) as many:
            told = list(many.map(lambda _: self.machine.get("/fields", q="")["of"], range(CROWD)))
        check("who waits for others' fields has those of all 1,000 matches", [1000] * CROWD, told)
        data = self.machine.ask("GET", "/export?q=level:error&most=100000")[1].splitlines()
        at = [json.loads(line)["id"] for line in data]
        check("an export of all matches, the newest first", (len(self.machine_numbers("level:error")), sorted(at, key=int, reverse=True)), (len(at), at))
        check("an export of some", 1201, self.machine.ask("GET", "/export?most=1200&as=csv&q=-source:harm")[1].count(b"\r\n"))
        check("no such kind", (400, "as is jsonl or csv"), (lambda status, told: (status, told["error"]))(*self.machine.value("GET", "/export?as=xml")))

    def machine_numbers(self, query):
        """The ids of all matches, by ranges of time."""
        ids = set()
        for part in range(48):
            low = BASE + part * DAY // 48
            ids |= {each["id"] for each in self.machine.search(query, 500, **{"from": low, "to": low + DAY // 48})}
        return ids | {each["id"] for each in self.machine.search(query, 500, **{"from": BASE + DAY})}

    def check_refusals(self):
        """What is refused, where and why."""
        for query, column, why in (("(train", 7, "the ( at 1 isn't closed"), ("é ) train", 3, "nothing stands before this"), ('東 "train', 3, "this quote isn't closed"), ("train OR", 9, "something has to follow"),
                                   ("level:error )", 13, "nothing stands before"), ("a.b.c )", 7, "nothing stands before"), ("since:soon", 7, "since: takes 15m"), ("user:", 6, "a value has to stand")):
            told = self.machine.get("/search", q=query)
            check("why %r is refused" % query, ("bad query", column, True), (told["error"], told.get("column"), told.get("why", "").startswith(why)))
        for told, error in (({"q": "(" * 20 + "a" + ")" * 20}, "query too deep"), ({"q": " ".join("w%d" % number for number in range(80)), "from": "1h"}, "query too large"), ({"from": "soon"}, "from is a time, as 15m, 12:00 or 2026-11-30T12:00"),
                            ({"k": "0"}, "k is a number from 1 to 500"), ({"k": "x"}, "k is a number from 1 to 500")):
            check("refused: %s" % error, error, self.machine.get("/search", **told).get("error"))
        check("hints", True, "NOT is written -word" in self.machine.get("/search", q="rain NOT late")["hints"])

    def check_events(self):
        """Readers of events get what meets their query, and all of it."""
        readers = [self.machine.events(query) for query in ("event", "event -level:error", "")]
        lines = [json.dumps({"msg": "an event %d" % number, "level": "error" if number % 2 else "info"}).encode() for number in range(400)]
        self.machine.post(lines)
        self.kept += 400
        wanted = [json.loads(line) for line in lines]
        check("a reader gets all that meet its query, in order", wanted, [readers[0].next() for _ in lines])
        check("and no others", wanted[::2], [readers[1].next() for _ in lines[::2]])
        check("and all messages where it asks for all", wanted, [readers[2].next() for _ in lines])
        for reader in readers:
            reader.close()
        check("readers that went are forgotten", 0, wait_for(0, lambda: self.machine.figures()["readers"]))

    def check_watches(self):
        """A watch counts, and tells where its threshold is reached."""
        body = json.dumps({"query": "watched -not", "name": "the watch", "most": 8, "seconds": 600})
        status, told = self.machine.value("POST", "/watches", body)
        check("a watch", (200, ["number"]), (status, list(told)))
        check("the same watch again", (200, told), self.machine.value("POST", "/watches", body))
        check("a bad watch", (400, "bad query", 3), (lambda status, told: (status, told["error"], told["column"]))(*self.machine.value("POST", "/watches", "é ) x".encode())))
        for bad in ("{", '{"query":1}', '{"query":"a","seconds":0}', '{"query":"a","most":-1}', '{"query":"a","most":true}', "", '{"query":"a","seconds":4000}', "[" * 9000):
            check("no watch: %s" % bad[:30], 400, self.machine.ask("POST", "/watches", bad)[0])
        self.machine.post([b"1796032800 watched long ago"] * 20)
        check("what is old raises no alarm", 0, self.machine.figures()["watches"][0]["alarms"])
        self.machine.post([b'{"msg":"watched %s"}' % (b"not" if number % 3 else b"well") for number in range(30)], "alarming")
        self.kept += 50
        watch = self.machine.figures()["watches"][0]
        check("it counts", ("the watch", "watched -not", 30, 1), (watch["name"], watch["query"], sum(watch["counts"]), watch["alarms"]))
        for path in (self.alarms, self.told):
            got = wait_for(True, lambda path=path: os.path.exists(path) and open(path, "rb").read().endswith(b"\n"))
            check("an alarm is told", True, got)
            if got:
                said = [json.loads(line) for line in open(path, "rb")]
                check("what it says", [("the watch", "watched -not", 8, 600, "alarming", "watched well")],
                      [tuple(each[name] for name in ("watch", "query", "threshold", "seconds", "source", "newest")) for each in said])
        check("no watch to remove", (404, {"error": "no watch"}), self.machine.value("DELETE", "/watches/77"))
        status, text = self.machine.ask("GET", "/metrics")
        lines = text.decode().splitlines()
        for name, value in (("messages_accepted_total", self.kept), ("messages_kept", self.kept), ("index_running", 1), ('watch_alarms_total{watch="%d",name="the watch"}' % watch["number"], 1), ('watch_matches_total{watch="%d",name="the watch"}' % watch["number"], 30)):
            check("a figure for Prometheus: %s" % name, (200, True), (status, "earlybird_%s %d" % (name, value) in lines))

    def check_many(self):
        """200 connections at once, and some more than are taken."""
        found = []

        def ask():
            with contextlib.suppress(OSError, http.client.HTTPException):
                found.append([each["id"] for each in self.machine.search("late train", 20)])

        threads = [threading.Thread(target=ask) for _ in range(200)]
        for thread in threads:
            thread.start()
        for thread in threads:
            thread.join(60)
        want = [each["id"] for each in self.machine.search("late train", 20)]
        check("200 connections at once", (200, True), (len(found), all(each == want for each in found)))

    def check_limits(self):
        """Requests that are too large, or none."""
        port, host = self.machine.port, b"Host: 127.0.0.1:%d\r\n" % self.machine.port
        cases = [
            ("a body that is too large", b"POST /messages HTTP/1.1\r\n%sContent-Length: 9000000\r\n\r\n" % host + b"x" * 100000, 413),
            ("a body of no length", b"POST /messages HTTP/1.1\r\n%sTransfer-Encoding: chunked\r\n\r\n0\r\n\r\n" % host, 411),
            ("a head that is too large", b"GET / HTTP/1.1\r\n%sX: %s\r\n\r\n" % (host, b"x" * 40000), 431),
            ("no request", b"\x16\x03\x01\r\n\r\n", 400),
            ("a bad length", b"POST /messages HTTP/1.1\r\n%sContent-Length: -1\r\n\r\n" % host, 400),
            ("two lengths", b"POST /messages HTTP/1.1\r\n%sContent-Length: 1\r\nContent-Length: 2\r\n\r\nab" % host, 400),
            ("a query that isn't UTF-8", b"GET /search?q=%%ff HTTP/1.1\r\n%s\r\n" % host, 400),
            ("too many parameters", b"GET /search?%s HTTP/1.1\r\n%s\r\n" % (b"&".join(b"a%d=1" % number for number in range(40)), host), 400),
            ("a path out of the page", b"GET /../console.py HTTP/1.1\r\n%s\r\n" % host, 404),
            ("no such path", b"GET /nothing HTTP/1.1\r\n%s\r\n" % host, 404),
            ("a wrong method", b"DELETE /search HTTP/1.1\r\n%s\r\n" % host, 405),
            ("a page of another site", b"POST /messages HTTP/1.1\r\n%sOrigin: http://example.org\r\nContent-Length: 1\r\n\r\nx" % host, 403),
            ("a head alone", b"HEAD / HTTP/1.1\r\n%s\r\n" % host, 200),
            ("HTTP 1.0", b"GET / HTTP/1.0\r\n%s\r\n" % host, 200),
        ]
        for name, data, want in cases:
            check(name, "HTTP/1.1 %d" % want, raw(port, data)[:12])
        check("a body that was begun is passed over", 200, self.machine.ask("GET", "/figures")[0])

    def check_slow_reader(self):
        """A reader that doesn't read is dropped, and the others get all."""
        slow = Events(self.machine.port, "flood", 30, buffer=4096)
        quick = self.machine.events("flood")
        got = []
        reading = threading.Thread(target=lambda: got.extend(quick.next()["n"] for _ in range(6000)))
        reading.start()
        told = self.machine.post([b'{"msg":"flood","n":%d,"pad":"%s"}' % (number, b"flows " * 120) for number in range(6000)])
        self.kept += 6000
        check("6,000 messages beside a reader who doesn't read", 6000, told["taken"])
        reading.join(60)
        check("the other reader got all", list(range(6000)), got)
        check("the slow reader is dropped", 1, wait_for(1, lambda: self.machine.figures()["readers"]))
        slow.close()
        quick.close()

    def check_killed_index(self):
        """The index is killed while messages come: it is started again, and nothing is lost."""
        told = []
        lines = [b'{"msg":"while it is killed %d"}' % number for number in range(4000)]
        posting = threading.Thread(target=lambda: told.append(self.machine.post(lines)))
        posting.start()
        time.sleep(0.05)
        self.machine.kill_index()
        posting.join(60)
        self.kept += 4000
        check("messages beside the index's end are taken", [4000], [each["taken"] for each in told])
        check("and counted", 4000, self.machine.get("/histogram", q='"it is killed"')["total"])
        self.machine.kill_index()
        check("a search waits for the new index", [1], [each["n"] for each in self.machine.lines("n1")])
        self.check_answers("the index killed", False)
        check("the watches are back", ["the watch"], [each["name"] for each in self.machine.figures()["watches"]])

    def check_started_again(self):
        """The console is killed, and started again with what it kept."""
        check("no second console has the file", (3, True), tried(["--program", PROGRAM, "--listen", "127.0.0.1:0", "--texts", self.texts], b"another console has it"))
        self.machine.end(signal.SIGKILL)
        self.start()
        check("killed, it keeps what it took", self.kept, wait_for(self.kept, lambda: self.machine.figures()["kept"]))
        check("and has it in the index", True, wait_for(True, lambda: self.machine.figures()["state"]["index"] == "running"))
        self.check_answers("the console killed", False)
        check("a file isn't read twice", 0, self.machine.figures()["accepted"])
        check("what is known of names is kept", True, "trace" in self.machine.figures()["words_only"])

    def check_rotated(self):
        """Another file comes in the place of the one that grows, and one that wasn't there."""
        with open(self.grows, "ab") as file:
            file.write(b"before it was moved, without an end")
        os.rename(self.grows, self.grows + ".1")
        write(self.grows, [b"another file in its place"])
        check("another file in the place of one that grows", ["another file in its place"], wait_for(["another file in its place"], lambda: self.machine.lines('"another file"')))
        check("the one before is read to its end", ["before it was moved, without an end"], self.machine.lines('"it was moved"'))
        with open(self.grows, "r+b") as file:
            file.truncate(0)
            time.sleep(0.5)
            file.write(b"shorter now\n")
        check("a file that became shorter", ["shorter now"], wait_for(["shorter now"], lambda: self.machine.lines('"shorter now"')))


def check_feed(folder):
    """What the feed drops, its texts are dropped, and no others."""
    chance = random.Random(9)
    made = [Made(number, 3000, chance) for number in range(3000)]
    machine = Machine(folder, "--", *SMALL, name="feed")
    machine.post([each.line for each in made])
    kept = wait_for(True, lambda: machine.figures()["kept"] <= 512 and machine.get("/histogram", q="-nothing")["total"] == machine.figures()["kept"])
    check("the texts of what a feed keeps are kept", True, kept)
    count = machine.figures()["kept"]
    want = sorted(each.at for each in made[-count:])
    got = sorted(each["at"] for each in machine.search("", 500, **{"for": "page"}))
    check("the last that came are kept", want[-500:], got)
    machine.kill_index()
    wait_for(2, lambda: machine.figures()["state"]["starts"])
    check("a feed started again finds what it kept", True, len(machine.search("", 500)) >= 256)
    check("a feed ends", (0, []), machine.end(signal.SIGINT))


def check_token(folder):
    """With a token, each request has to know it."""
    path = os.path.join(folder, "token")
    token = "0123456789abcdef-é"
    with open(path, "w", encoding="utf-8") as file:
        file.write(token + "\n")
    machine = Machine(folder, "--token-file", path, "--", *SMALL, name="token", text=b'{"id":1,"text":"secret"}\n')
    bearer = ("Bearer " + token).encode()
    requests = [("GET", where, None) for where in ("/", "/console.js", "/search?q=secret", "/events?q=secret", "/figures", "/nothing", "/metrics", "/export?q=secret", "/fields", "/histogram", "/values", "/context?id=1")]
    requests += [("POST", "/messages", b"a"), ("POST", "/watches", b"a"), ("DELETE", "/watches/1", None)]
    for method, where, body in requests:
        for without in ({}, {"Authorization": "Bearer 0123456789abcdef-e"}, {"Cookie": "earlybird-console=x"}):
            status, data = machine.ask(method, where, body, **without)
            check("%s %s without the token, %r" % (method, where, without), (401, False), (status, b"secret" in data))
    found = lambda: [each["message"]["text"] for each in json.loads(machine.ask("GET", "/search?q=secret", Authorization=bearer)[1])["matches"]]
    check("with it", ["secret"], wait_for(["secret"], found))
    check("a wrong token in the form", 401, machine.ask("POST", "/token", b"token=nothing")[0])
    connection = http.client.HTTPConnection("127.0.0.1", machine.port, timeout=20)
    connection.request("POST", "/token", b"token=0123456789abcdef-%C3%A9")
    answer = connection.getresponse()
    cookie = answer.getheader("Set-Cookie", "")
    connection.close()
    check("the token in the form", (303, True), (answer.status, "HttpOnly; SameSite=Strict" in cookie and token not in cookie))
    check("then the page is given", 200, machine.ask("GET", "/", Cookie=cookie.split(";")[0])[0])
    check("nothing was taken without it", 1, json.loads(machine.ask("GET", "/figures", Authorization=bearer)[1])["accepted"])
    check("it ends", (0, []), machine.end())


def check_usage(folder):
    """Words that aren't taken, and what says so."""
    path = os.path.join(folder, "token")
    for words, why in ((["run", "--workers", "2"], b"--workers"), (["feed", "--overlap"], b"--overlap"), (["--fields", "a"], b"its fields"), (["--words", "pieces"], b"--words"), (["run", "--json"], b"--json"),
                       (["--id", "seq"], b"--id"), (["feed", "--text=message"], b"--text")):
        check("words that the console can't have: %s" % words, (2, True), tried(["--", *words], why))
    usages = [(["--listen", "0.0.0.0:0"], b"--token-file"), (["--listen", "nowhere"], b"HOST:PORT"), (["--token-file", "/dev/null"], b"16 characters")]
    usages += [(["--cluster", "a"], b"--cluster needs --texts"), (["--cluster", "a", "--texts", path, "--", "run"], b"--cluster needs --texts"),
               (["--redis", "redis://nowhere"], b"--redis says where")]
    for words, why in usages:
        check("usage: %s" % " ".join(words), (2, True), tried(words, why))
    listen = ["--program", PROGRAM, "--listen", "127.0.0.1:0"]
    check("words that the program doesn't take", (3, True), tried([*listen, "--", "--keep", "1"], b"the index program ended with the status 2"))
    check("no such program", (3, True), tried(["--program", "/nothing", *listen[2:]], b"the index program can't be started: No such file"))
    check("a file that is no file of texts", (3, True), tried([*listen, "--texts", path], b"not a database"))


def check_sources(folder):
    """The journal; files that aren't there, can't be read, or are none; an index that refuses what it has no room for."""
    place = os.path.join(folder, "bin")
    os.mkdir(place)
    with open(os.path.join(place, "journalctl"), "w", encoding="utf-8") as file:
        file.write(JOURNAL % sys.executable)
    os.chmod(file.name, 0o755)
    with open(os.path.join(folder, "bad.gz"), "wb") as file:
        file.write(gzip.compress(b"".join(b"line %d of it\n" % number for number in range(200)))[:-8])
    later, texts = os.path.join(folder, "later.log"), os.path.join(folder, "journal.sqlite")
    environment = {**os.environ, "PATH": place + os.pathsep + os.environ["PATH"]}
    words = ["--journal", later, "bad.gz", folder, "--texts", texts, "--", "run", "--segments", "2", "--docs", "256", "--terms", "1024"]
    machine = Machine(folder, *words, name="sources", environment=environment)
    check("entries of the journal", 30, wait_for(30, lambda: len(machine.search("source:journal", 100))))
    check("an entry", [("info", "sshd")], [(each["level"], each["fields"]["program"]) for each in machine.search('"entry 6 of the journal"', **{"for": "page"})])
    check("one of bytes", 3, len(machine.search('"bytes of the journal"')))
    check("a packed file that ends early", 200, wait_for(200, lambda: len(machine.search("source:bad.gz", 500))))
    told = machine.post([b"line %d of a request" % number for number in range(400)])
    check("an index that is full", (400, 282, 118, [("line %d of a request" % number, "full") for number in (282, 283)]),
          (told["read"], told["taken"], told["refused"], [(each["text"], each["refused"]) for each in told["first"][:2]]))
    check("says so, with the line", (118, ("line 399 of a request", "full")), (machine.figures()["refused"]["full"], tuple(machine.figures()["refusals"][-1][name] for name in ("text", "refused"))))
    said = open(os.path.join(folder, "sources.log"), "rb").read()
    for text in (b"later.log: it isn't there yet; it is read as soon as it is", b"bad.gz: it can't be read on", folder.encode() + b": it isn't a regular file"):
        check("it says %r" % text[-30:], 1, said.count(text))
    machine.end(signal.SIGKILL)
    machine = Machine(folder, "--journal", "--texts", texts, name="again", environment=environment)
    check("the journal goes on behind its cursor", 60, wait_for(60, lambda: len(machine.search("source:journal", 100))))
    write(later, [b"later it is there"])
    check("it ends again", (0, []), machine.end())
    shutil.rmtree(place)


def check_pieces(folder):
    """Words are found by their pieces, whatever sign of ASCII joins them; values of fields are whole."""
    machine = Machine(folder, "--", *SMALL, name="pieces")
    machine.post([b'{"msg":"slow com.acme.Billing","user":"a.b"}', b"by mara@example.org"])
    found = [len(machine.search(query)) for query in ("billing", "com.acme", "acme.com", "mara", "example", "user:a.b", "user:a", '"a b"')]
    check("words by their pieces", [1, 1, 0, 1, 1, 1, 0, 1], found)
    marked = [[each["text"][begin:end] for each in machine.search(query, **{"for": "page"}) for begin, end in each["marks"]] for query in ("billing", "mara")]
    check("and what is set off", [["Billing"], ["mara"]], marked)
    check("it ends", (0, []), machine.end())


def check_alarms(folder):
    """Alarms that can't be told: a pipe that nobody reads, a command that isn't there, one that fails."""
    pipe = os.path.join(folder, "pipe")
    os.mkfifo(pipe)
    for name, words, count, said in (("nothing", ["--alert-file", pipe, "--alert-command", "/nothing"], 2, (b"--alert-file: ", b"--alert-command: ")),
                                     ("false", ["--alert-command", "false"], 1, (b"--alert-command ended with the status 1",))):
        machine = Machine(folder, *words, "--", *SMALL, name=name)
        machine.value("POST", "/watches", '{"query":"alarm","most":1,"seconds":3600}')
        machine.post([b"an alarm"] * 3)
        figure = b"earlybird_alarms_failed_total %d\n" % count
        check("alarms that can't be told: %s" % name, True, wait_for(True, lambda machine=machine, figure=figure: figure in machine.ask("GET", "/metrics")[1]))
        log = open(os.path.join(folder, name + ".log"), "rb").read()
        check("it says why", [1] * len(said), [log.count(each) for each in said])
        check("it ends", (0, []), machine.end())
