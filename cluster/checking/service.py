"""The cluster over HTTP."""
import contextlib
import json
import os
import signal
import socket
import threading

from http_client import ask

from .stage import Stage, check, numbered, text_of

TOKEN = "a token of a test 0123456789"


class Client:
    """Requests to one service."""

    def __init__(self, stage, *words, patience="30"):
        self.process = stage.start("--patience", patience, "serve", "--listen", "127.0.0.1:0", *words)
        self.port = int(self.process.stderr.readline().decode().rstrip("/\n").rsplit(":", 1)[1])

    def ask(self, method, path, body=None, **head):
        """The status and the body of an answer."""
        return ask(self.port, method, path, body, **head)

    def end(self):
        """Ends it: its status."""
        self.process.send_signal(signal.SIGTERM)
        self.process.communicate(timeout=30)
        return self.process.returncode


def run():
    """All of it."""
    with Stage() as stage:
        check("up", 0, stage.up(2))
        service = Client(stage)
        try:
            _documents(service)
            _queries(service)
            _refused(service)
            _harmful(service)
            _beside(service)
            _faults(stage, service)
            _in_turn(stage, service)
        finally:
            check("a signal ends it", 0, service.end())
        _token(stage)


def _documents(service):
    lines = text_of(numbered(range(1, 2001)) + [b"bad", b'{"id":1}'])
    status, said = service.ask("POST", "/documents?client=web", lines)
    told = json.loads(said)
    check("POST /documents", (200, 2002, 2002, 0, [(2001, "bad line"), (2002, "bad document")], 0),
          (status, told["read"], told["settled"], told["known"], [(each["line"], each["refused"]) for each in told["told"]], told["more"]))
    told = json.loads(service.ask("POST", "/documents?client=web", lines)[1])
    check("the same again", 2002, told["known"])
    check("another input", 409, service.ask("POST", "/documents?client=web", text_of(numbered([5000])))[0])
    told = json.loads(service.ask("POST", "/documents?client=web&first=2003", text_of(numbered(range(2001, 2011)))[:-1])[1])
    check("lines that go on, the last without LF", (10, 2012, 0, []), (told["read"], told["settled"], told["known"], told["told"]))


def _in_turn(stage, service):
    """Small requests one after the other go to one partition each, but not all to the same."""
    statuses = [service.ask("POST", "/documents", numbered([number])[0])[0] for number in range(900001, 900021)]
    there = [sum(900001 <= json.loads(line)["id"] <= 900020 for line in part) for part in stage.documents()]
    check("small requests go to the partitions in turn", ([200] * 20, 20, True), (statuses, sum(there), min(there) >= 5))


def _queries(service):
    status, said = service.ask("POST", "/queries", b"?3 rain\n?2 w7\r\n?5 (\nfoo\n?1 w2010")
    check("POST /queries", (200, [{"line": 1, "seen": 2010, "ids": [2010, 2009, 2008]}, {"line": 2, "seen": 2010, "ids": [7]}, {"line": 3, "refused": "bad query", "column": 5},
                                  {"line": 4, "refused": "bad line"}, {"line": 5, "seen": 2010, "ids": [2010]}]), (status, [json.loads(line) for line in said.splitlines()]))
    status, said = service.ask("POST", "/queries", b"# rain\n#1+1000*3 rain since:10\n#1 rain")
    check("counts", (200, [{"line": 1, "seen": 2010, "count": 2010}, {"line": 2, "seen": 2010, "count": 2000, "buckets": [990, 1000, 10]}, {"line": 3, "refused": "bad number"}]),
          (status, [json.loads(line) for line in said.splitlines()]))
    check("no queries", (200, b""), service.ask("POST", "/queries", b""))


def _refused(service):
    check("more ids than one may ask for", 413, service.ask("POST", "/queries", b"?1000 rain\n" * 101)[0])
    check("more numbers", 413, service.ask("POST", "/queries", b"#0+1*1000 rain\n" * 100)[0])
    check("more queries", 413, service.ask("POST", "/queries", b"?1 a\n" * 1001)[0])
    check("more bytes of queries", 413, service.ask("POST", "/queries", b"x" * 300000)[0])
    told = json.loads(service.ask("POST", "/documents", b"x\n" * 300000)[1])
    check("many refused lines", (10000, 290000, 300000), (len(told["told"]), told["more"], told["read"]))
    check("a long body", 413, service.ask("POST", "/documents", b"", Content_Length=str(1 << 30))[0])
    check("other paths and methods", [404, 405, 405], [service.ask(*each)[0] for each in (("GET", "/x"), ("GET", "/queries"), ("POST", "/status"))])
    check("bad names and numbers", [400] * 4, [service.ask("POST", "/documents?" + each, b"")[0] for each in ("client=a%20b", "client=", "first=0", "first=x")])
    check("pages of others", [403, 421], [service.ask("GET", "/status", Origin="http://evil.example")[0], service.ask("GET", "/status", Host="evil.example")[0]])
    with socket.create_connection(("127.0.0.1", service.port)) as half:
        half.sendall(b"POST /documents HTTP/1.1\r\nHost: localhost\r\nContent-Length: 100\r\n\r\n{")
    check("after half a request", 200, service.ask("GET", "/status")[0])


def _harmful(service):
    """Requests that mean harm: others are answered meanwhile. What the web server does by itself is checked with the console."""
    site = {"Sec_Fetch_Site": "cross-site"}
    check("a page of another site by its browser's word", [403, 403, 200],
          [service.ask("GET", "/status", **site)[0], service.ask("POST", "/queries", b"?1 a\n", **site)[0], service.ask("GET", "/status", Sec_Fetch_Site="same-origin")[0]])
    check("24 MiB by who reads last", 413, service.ask("POST", "/documents", b"x" * (24 << 20))[0])
    with contextlib.ExitStack() as stack:
        for count, text in ((530, b"GET /status HTTP/1.1\r\nHost: local"), (100, b"POST /documents HTTP/1.1\r\nHost: localhost\r\nContent-Length: 2000000\r\n\r\n{")):
            for _ in range(count):
                stack.enter_context(socket.create_connection(("127.0.0.1", service.port), 30)).sendall(text)
        check("beside half heads and slow posts", [200, 200], [service.ask("GET", "/status")[0], service.ask("POST", "/queries", b"?1 a\n")[0]])
        told = json.loads(service.ask("POST", "/documents", b"x\n" * 100000)[1])
        check("a large body beside slow ones", (100000, 100000), (told["read"], told["settled"]))


def _beside(service):
    """Many at once: each is answered, and none gets what is another's."""
    wrong = []

    def one(number):
        first = 10000 + 1000 * number
        told = json.loads(service.ask("POST", "/documents", text_of(numbered(range(first, first + 500))))[1])
        found = json.loads(service.ask("POST", "/queries", b"?1 w%d\n" % (first + 499))[1])
        if told["settled"] != 500 or told["told"] or found["ids"] != [first + 499]:
            wrong.append((told, found))

    threads = [threading.Thread(target=one, args=(number,)) for number in range(20)]
    for each in threads:
        each.start()
    for each in threads:
        each.join()
    check("20 at once", [], wrong[:2])


def _faults(stage, service):
    status, said = service.ask("GET", "/status")
    check("GET /status", (200, 2), (status, len(json.loads(said)["partitions"])))
    status, said = service.ask("GET", "/metrics")
    check("GET /metrics", (200, True, True), (status, b'earlybird_worker_up{cluster="earlybird",partition="1",replica="0"} 1\n' in said,
                                              sum(int(line.split()[1]) for line in said.splitlines() if line.startswith(b"earlybird_worker_documents{")) == 12010))
    hasty = Client(stage, patience="0.5")
    try:
        check("a second service", 200, hasty.ask("GET", "/status")[0])
        stage.signal("supervisor-earlybird")
        stage.signal("redis")
        check("without Redis", [503, 503, 503],
              [hasty.ask(*each)[0] for each in (("GET", "/status"), ("POST", "/queries", b"?1 a\n"), ("POST", "/documents", b'{"id":1,"text":"a"}\n'))])
    finally:
        hasty.end()
    check("up again", 0, stage.up(2))
    check("with Redis again", b'{"line":1,"seen":12010,"ids":[2010]}\n', service.ask("POST", "/queries", b"?1 w2010\n")[1])


def _token(stage):
    path = os.path.join(stage.folder, "token")
    with open(path, "w", encoding="ascii") as file:
        file.write(TOKEN + "\n")
    service = Client(stage, "--token-file", path)
    try:
        check("without the token", [401, 401, 401], [service.ask(*each)[0] for each in (("GET", "/status"), ("GET", "/metrics"), ("POST", "/documents", b""))])
        check("with another one", 401, service.ask("GET", "/status", Authorization="Bearer " + TOKEN + "x")[0])
        check("with the token", 200, service.ask("GET", "/status", Authorization="Bearer " + TOKEN)[0])
    finally:
        service.end()
    check("for others without a token", 2, stage.command("serve", "--listen", "0.0.0.0:0")[1])
