"""Adds are idempotent: lines that are added again under the same client's name are in a log once, whoever died meanwhile; and what
isn't known yet is told as pending."""
import json
import random
import time

from earlybird_cluster import OtherInput, names
from earlybird_cluster.adding import Adder, Block
from earlybird_cluster.lines import blocks_of

from .stage import Stage, check, numbered, send, text_of, until


def run():
    """All of it."""
    with Stage() as stage:
        check("up", 0, stage.up(3))
        _client_dies(stage)
        _names(stage)
        _holes(stage)
        _gap(stage)
        _many(stage)
        _pending(stage)


def once(stage, name, first, last):
    """Each of these ids has to be in the logs once."""
    there = sorted(number for part in stage.documents() for number in (json.loads(line)["id"] for line in part) if first <= number <= last)
    check(name, (last - first + 1, True), (len(there), there == list(range(first, last + 1))))


def _client_dies(stage):
    """`add` is killed midway, several times, and called again with the same input, which comes in other pieces each time."""
    lines = numbered(range(1, 40001))
    text = text_of(lines)
    _, status, said = stage.command("add", "--client", "monday", text=text[:100000])
    check("an input that was cut off within a line", (1, True), (status, "it isn't added" in said))
    for place in (300000, 900000, 1300000):
        adding = stage.start("add", "--client", "monday")
        send(adding, text[:place])
        time.sleep(random.random() / 10)
        adding.kill()
        adding.communicate()
    printed, status, said = stage.command("add", "--client", "monday", text=text)
    check("add, repeated after deaths", (b"", 0, True), (printed, status, "lines were in the logs" in said))
    once(stage, "each line once after deaths", 1, 40000)
    printed, status, said = stage.command("add", "--client", "monday", text=text)
    check("add, repeated once more", (b"", 0, True), (printed, status, "40000 lines were in the logs" in said))
    once(stage, "each line once after that", 1, 40000)
    check("the numbers go on", 0, stage.command("add", "--client", "monday", "--first", "40001", text=text_of(numbered(range(40001, 40011))))[1])
    once(stage, "each line once with those", 1, 40010)


def _names(stage):
    """A client's name belongs to one input, and to one process at a time; without a name nothing is kept."""
    _, status, said = stage.command("add", "--client", "monday", text=text_of(numbered([99999])))
    check("another input of the same name", (2, True), (status, "added another input before" in said))
    check("a name that is none", 2, stage.command("add", "--client", "a b")[1])
    older, newer = stage.router(), stage.router()
    lines = numbered(range(50001, 50101))

    def taken_over():
        yield from lines[:50]
        yield None
        told.extend(newer.add(lines, client="tuesday"))
        yield from lines[50:]

    told, fault = [], None
    try:
        list(older.add(taken_over(), client="tuesday"))
    except OtherInput as other:
        fault = str(other)
    check("the older of two processes of a name ends", ("another process adds as the client 'tuesday'", []), (fault, told))
    once(stage, "each line once of two processes", 50001, 50100)
    redis = stage.redis()
    kept = sorted(redis.keys("*client*"))
    check("nothing is kept of a client without a name", (0, kept), (stage.command("add", text=text_of(numbered([50101])))[1], sorted(redis.keys("*client*"))))
    check("what is kept of the others ends", True, all(0 < redis.ttl(key) <= 7 * 86400 for key in kept))


def _holes(stage):
    """Bad lines between good ones, and what is refused by the program, are told again where the client died before it heard it."""
    lines = [line for number in range(60001, 60301) for line in (b"bad", *numbered([number]), b"", b'{"id":%d}' % number)]
    want = [(4 * place + 1, b"refused", b"bad line") for place in range(300)] + [(4 * place + 4, b"refused", b"bad document") for place in range(300)]
    router = stage.router()
    adding = router.add(lines, client="holes")
    first = tuple(next(adding))
    del adding, router  # its session isn't ended
    told = [tuple(each) for each in stage.router().add(lines, client="holes")]
    check("what was told", ((1, b"refused", b"bad line"), sorted(want)), (first, told))
    there = sorted(json.loads(line)["id"] for part in stage.documents() for line in part if b'"text"' in line and 60001 <= json.loads(line)["id"] <= 60300)
    check("each line once between bad ones", list(range(60001, 60301)), there)


def _gap(stage):
    """A block that no log has, before one that a log has: as where one node of several had no memory for a moment. The same input
    adds it, wherever it goes."""
    redis, lines = stage.redis(), numbered(range(80001, 80101))
    for partition in range(3):
        name = "gap%d" % partition
        tag = names.read_config(redis, "earlybird").tags[partition]
        router = stage.router()
        adder = Adder(router._hub, name)
        adder._start(lines[0])
        block = Block(51, 100, range(51, 101), text_of(lines[50:]))
        block.part, block.previous, block.request = partition, 0, 1
        adder._send([block])
        check("a log has the later lines", 1, redis.zcard(names.blocks(tag, name)))
        told = [list(stage.router().add(lines, client=name)) for _ in range(4)]
        check("the others are added", [[]] * 4, told)
    there = [json.loads(line)["id"] for part in stage.documents() for line in part]
    check("each once by each client", [3] * 100, [there.count(number) for number in range(80001, 80101)])


def _many(stage):
    """Bad lines without end, behind a line of a partition without a worker, wait in bounds; and blocks that wait, too."""
    stage.signal("supervisor-earlybird")
    stage.signal("worker-earlybird-0")
    lines = [line for number in range(90001, 90007) for line in (*numbered([number]), *[b"x"] * 40000)]
    tolds = list(stage.router(0.5).add(lines))
    check("all are told", (240000, True, []), (sum(each.what == b"refused" for each in tolds), any(each.what == b"pending" for each in tolds),
                                               [each for each, other in zip(tolds, tolds[1:]) if each.number > other.number and other.what != b"pending"][:3]))
    text = text_of([b'{"id":%d,"text":"%s"}' % (number, b"long " * 1000) for number in range(91001, 93001)])
    router = stage.router(0.5)
    tolds = list(router.add_blocks(blocks_of(text, 65536)))
    check("more than may wait", (True, True), (len(tolds) > 600, all(each.what == b"pending" for each in tolds)))
    check("up again", 0, stage.up(3))


def _pending(stage):
    """A partition without a worker: its lines are in the log, and pending; later the same input tells what became of them."""
    stage.signal("supervisor-earlybird")
    stage.signal("worker-earlybird-1")
    lines = numbered(range(70001, 76001)) + [b'{"id":1}']
    printed, status, said = stage.command("--patience", "3", "add", "--client", "friday", text=text_of(lines))
    rows = printed.splitlines()
    check("lines of a dead partition", (1, True, True), (status, len(rows) > 0, "pending" in said and "--client friday" in said))
    check("they are pending, not refused", [], [row for row in rows if not row.endswith(b"pending: in the log; partition 1 has no worker") and b"refused: " not in row][:3])
    check("up again", 0, stage.up(3))
    printed, status, _ = stage.command("--patience", "30", "add", "--client", "friday", text=text_of(lines))
    check("later their fate is told", (True, 1), (printed.startswith(b"6001 refused: "), status))
    once(stage, "each line once after it was pending", 70001, 76000)
    answers = stage.ask_all([b"?1 w76000", b"?1 w70001"])
    check("and all are found", [b"76000", b"70001"], [each.split(b": ")[-1] for each in answers])
    stage.signal("redis")
    printed, status, said = stage.command("--patience", "30", "add", text=text_of(numbered([76001])))
    check("Redis is started again by the supervisor", (b"", 0), (printed, status))
    check("nothing runs elsewhere", 3, stage.command("--folder", stage.folder + "/none", "status")[1])
    until(lambda: stage.command("status")[1] == 0)
    redis = stage.redis()
    redis.script_flush()
    check("the scripts are forgotten", [b"76001"], [each.split(b": ")[-1] for each in stage.ask_all([b"?1 w76001"])])
    router = stage.router()
    router.ask(b"?1 w1")
    redis.script_flush()
    check(".. while a router lives", [], list(router.add(numbered([76002]))))
    check("a cluster that isn't there", 2, stage.command("--name", "none", "ask")[1])
    redis.hset(names.config("older"), mapping={"parts": 3, "words": "[]", "retain": 0})
    _, status, said = stage.command("--name", "older", "status")
    check("a cluster of an older version", (2, True), (status, "is of another version" in said))
    check("words that aren't allowed", [2] * 7, [stage.command(*each)[1] for each in (
        ("--redis", "x", "ask"), ("--patience", "nan", "ask"), ("--patience", "0", "ask"), ("--name", "a{b}", "ask"), ("up", "0"), ("add", "--first", "0"), ("ask", "--", "run"))])
