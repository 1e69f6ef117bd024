"""The console over a cluster: `earlybird-console --cluster`."""
import concurrent.futures
import json
import os
import signal
import subprocess
import sys
import urllib.parse

from earlybird_cluster.words import ROOT
from http_client import ask

from .stage import PROGRAM, Stage, check, until

FIELDS = ",".join("f%d" % number for number in range(8))
THE_CLUSTER = "earlybird-console: the cluster 'earlybird' "
SCRIPT = os.path.join(ROOT, "console", "earlybird-console")


class Console:
    """One console over the cluster of a stage."""

    def __init__(self, stage, texts="texts", *words):
        self._log = open(os.path.join(stage.folder, "console.log"), "wb")
        self.process = subprocess.Popen(
            [sys.executable, "-B", SCRIPT, "--cluster", "earlybird", "--redis", stage.url, "--program", PROGRAM, "--listen", "127.0.0.1:0",
             "--texts", os.path.join(stage.folder, texts), *words], stdin=subprocess.DEVNULL, stderr=self._log, env={**os.environ, "TZ": "UTC"})
        until(lambda: b"http://" in self.said() or self.process.poll() is not None)
        found = self.said().partition(b"http://")[2].split(b"\n")[0].rstrip(b"/")
        self.port = int(found.rsplit(b":", 1)[1]) if found else None

    def said(self):
        """What it wrote on standard error."""
        with open(self._log.name, "rb") as file:
            return file.read()

    def ask(self, method, path, body=None):
        """The status and the value of an answer."""
        status, data = ask(self.port, method, path, body)
        return status, json.loads(data)

    def post(self, lines):
        """Posts lines, and returns what the console reports of them."""
        return self.ask("POST", "/messages?source=a", b"\n".join(lines))[1]

    def found(self, query, most=50):
        """The messages that a query finds, or what is told in place of them."""
        status, told = self.ask("GET", "/search?" + urllib.parse.urlencode({"q": query, "k": most}))
        return [each["message"] for each in told["matches"]] if status == 200 else (status, told)

    def figures(self):
        """What the strip shows."""
        return self.ask("GET", "/figures")[1]

    def watches(self):
        """How many messages met each watch, by its query."""
        return {each["query"]: each["met"] for each in self.figures()["watches"]}

    def end(self, number=signal.SIGTERM):
        """Ends it, and waits for that: its status."""
        self.process.send_signal(number)
        return self.process.wait(60)


def lines_of(numbers, more=b""):
    """Lines of text with times that fall, so that they come in no order of time."""
    form = b"2026-11-30T10:%02d:%02dZ level=%b rain n%d%b"
    return [form % (59 - number // 60 % 60, 59 - number % 60, b"info" if number % 10 else b"error", number, more) for number in numbers]


def texts_of(numbers, more=b""):
    """The same as an answer shows them."""
    return [line.decode() for line in lines_of(numbers, more)]


def refused(stage, texts="texts", *words):
    """How a console ends that can't begin."""
    console = Console(stage, texts, *words)
    return console.process.wait(60), console.said().decode()


def run():
    """All of it."""
    with Stage() as stage:
        check("a console without a Redis", (3, True), _begins(refused(stage), "earlybird-console: Redis: "))
        for words, why in ((("run", "--counts"), THE_CLUSTER + "hasn't the console's fields: earlybird-cluster --name"),
                           (("run", "--fields", FIELDS), "earlybird-console: the programs of the cluster 'earlybird' don't count: earlybird-cluster --name")):
            check("up", 0, stage.up(3, "--", *words))
            check("a cluster of other words", (3, True), _begins(refused(stage), why))
        check("words of a program beside a cluster", (2, True), _has(refused(stage, "texts", "--", "run"), "--cluster needs --texts FILE"))
    with Stage() as stage:
        check("up with the fields", 0, stage.up(3, "--", "run", "--counts", "--fields", FIELDS))
        console = Console(stage)
        check("it listens", True, console.port is not None)
        _found(console)
        _beside(stage, console)
        _faults(stage, console)
        _again(stage, console)


def _begins(found, begin):
    return found[0], found[1].startswith(begin)


def _has(found, part):
    return found[0], part in found[1]


def _found(console):
    """What is handed in is found, the newest by its own time first, counted, told and watched."""
    check("a watch", 200, console.ask("POST", "/watches", b"level:error")[0])
    told = console.post(lines_of(range(1, 3001)))
    check("lines are taken", (3000, 3000, 0), (told["read"], told["taken"], told["refused"]))
    # (the time of number n is that of n modulo 3,600 seconds before 11 o'clock)
    check("the newest by time", texts_of([1, 2, 3]), console.found("rain", 3))
    check("a word that one has", texts_of([1234]), console.found("n1234"))
    check("a field", texts_of([10, 20]), console.found("level:error", 2))
    check("a range of time", texts_of(range(5, 8)), console.found("rain since:2026-11-30T10:59:52Z until:2026-11-30T10:59:55Z"))
    told = console.ask("GET", "/histogram?q=level:error&bars=10")[1]
    check("the axis", (300, 300), (told["total"], sum(told["counts"])))
    # (all but the last 10 minutes of the 50, by a second each)
    told = console.ask("GET", "/histogram?q=rain&bars=6&from=2026-11-30T10:10:00Z&to=2026-11-30T11:00:00Z")[1]
    check("the axis of more than an answer has", ([600, 600, 600, 600, 599], 2999), (told["counts"], told["total"]))
    check("values", {"info": 2700, "error": 300}, dict(console.ask("GET", "/values?q=&name=level")[1]["values"]))
    check("a watch has counted", {"level:error": 300}, console.watches())
    status, told = console.ask("GET", "/search?" + urllib.parse.urlencode({"q": "rain ("}))
    check("a query that is refused", (400, "bad query", 7), (status, told["error"], told["column"]))
    told = console.post([b"x" * 70000 + b" rain", b"rain of a last line"])
    check("a long line is cut and taken", (2, 2), (told["read"], told["taken"]))


def _beside(stage, console):
    """Messages of others in the cluster have no text here, and aren't shown."""
    check("another adds", [], list(stage.router().add([b'{"id":9000000000000000000,"text":"others"}'])))
    check("it isn't shown", [], console.found("others"))


def _faults(stage, console):
    """A partition that nobody serves is told, and no answer is shown without it; messages wait for it, and come once. The same without Redis, and
    after the death of the program beside it."""
    stage.signal("supervisor-earlybird")
    stage.signal("worker-earlybird-1")
    check("a partition is gone", (503, "missing", "the cluster's partition 1 doesn't answer"), _why(console.found("n1234")))
    # (these are some blocks, so that each partition gets one)
    long = b" " + b"p" * 600
    waits = b"doesn't take messages: messages wait: in the log; partition 1 has no worker"
    with concurrent.futures.ThreadPoolExecutor(1) as beside:
        posting = beside.submit(console.post, lines_of(range(3001, 3301), long))
        check("it tells what messages wait for", True, until(lambda: waits in console.said()))
        check("up again", 0, stage.up(3, "--", "run", "--counts", "--fields", FIELDS))
        told = posting.result()
    check("messages waited for it", (300, 0), (told["taken"], told["refused"]))
    check("and are found", texts_of([3300], long), console.found("n3300"))
    stage.signal("redis")
    told = console.post(lines_of(range(3301, 3401)))
    check("and those that came without Redis", (100, 0), (told["taken"], told["refused"]))
    until(lambda: stage.command("status")[1] == 0)
    check("they are found", [texts_of([number]) for number in (3301, 3400)], [console.found("n%d" % number) for number in (3301, 3400)])
    there = sorted(each for part in stage.documents() for each in map(_number, part) if each)
    check("each is in the cluster once", list(range(1, 3401)), there)
    for pid in _children(console.process.pid):
        os.kill(pid, signal.SIGKILL)
    check("the program beside it is started again", True, until(lambda: console.figures()["state"]["starts"] == 2))
    told = console.post(lines_of(range(3401, 3411)))
    check("then it goes on", (10, texts_of([3410])), (told["taken"], console.found("n3410")))
    check("its watch, too", {"level:error": 341}, console.watches())


def _why(found):
    return (found[0], found[1].get("error"), found[1].get("why")) if isinstance(found, tuple) else found


def _number(line):
    words = json.loads(line)["text"].split()
    return next((int(word[1:]) for word in words if word[0] == "n" and word[1:].isdigit()), None)


def _children(process):
    with open("/proc/%d/task/%d/children" % (process, process), encoding="ascii") as file:
        return list(map(int, file.read().split()))


def _again(stage, console):
    """A console that begins again has its messages, by the texts; another one may not use this cluster."""
    check("it ends", 0, console.end())
    said = console.said()
    check("it told when it went on, and met nothing that it doesn't know", (True, False), (b"the cluster goes on" in said, b"Traceback" in said))
    check("another console's texts", (3, True), _begins(refused(stage, "others"), THE_CLUSTER + "and this --texts file don't belong together"))
    console = Console(stage)
    check("it begins again", texts_of([1, 2, 3]), console.found("rain", 3))
    console.post(lines_of([4000]))
    check("and goes on", texts_of([4000]), console.found("n4000"))
    key = int(console.ask("GET", "/search?q=n4000&k=1")[1]["matches"][0]["id"])
    console.end(signal.SIGKILL)
    # (as a message that was on its way then: its number would be that of the next one)
    check("a message on its way", [], list(stage.router().add([b'{"id":%d,"text":"rain way"}' % (key + 1)])))
    console = Console(stage)
    check("also after it was killed", texts_of([4000]), console.found("n4000"))
    # (of the same time)
    console.post(lines_of([7600]))
    check("no other message is taken for one that was on its way", ([], texts_of([7600])), (console.found("way"), console.found("n7600")))
    check("it ends, too", 0, console.end())
    redis = stage.redis()
    redis.delete("earlybird:console")
    check("a cluster without its mark", (3, True), _begins(refused(stage), THE_CLUSTER + "and this --texts file don't belong together"))
    check("and without texts", (3, True), _begins(refused(stage, "new"), THE_CLUSTER + "has messages that this console didn't add"))
