"""The answers of three partitions are those of one program, also where a worker or Redis dies; and those of a feed."""
import subprocess
import threading

from earlybird_cluster.lines import blend, count_of

from .stage import PROGRAM, Stage, bare, check, interrupted, make_documents, make_queries, numbered, run_alone, seeded, text_of, until


REFUSED = [b"no document", b"{", b'{"id":-1,"text":"a"}', b'{"id":7,"text":"%s"}' % (b"a " * 2000), b'{"id":9}', b"{" + b" " * 70000]
# answers that are compared while documents are added
ENOUGH = 32


def run():
    """All of it."""
    rng = seeded(7)
    with Stage() as stage:
        documents, last = make_documents(20000, 0, rng)
        queries = make_queries(200, rng)
        check("up", 0, stage.up(3, "--", "run", "--counts"))
        router = stage.router()
        killed = interrupted(documents, 10000, lambda: stage.signal("worker-earlybird-1"))
        check("add, a worker killed in the middle", [], list(router.add(killed)))
        want = run_alone(["run"], documents, queries)
        check("200 queries", want, stage.ask_all(queries))
        _missing(stage, router, want, queries)
        _refusals(stage)
        more, last = _one_cut(stage, last)
        _counts(stage, documents + more, last - 30000)
        _redis_dies(stage, documents + more, last, queries, rng)
        _feed(stage, documents, queries)


def _missing(stage, router, want, queries):
    """A partition that nobody serves is named."""
    stage.signal("supervisor-earlybird")
    got = [each for place, line in enumerate(queries) for each in [_ask(stage, router, place, line)]]
    check("80 queries before the death of a worker", (want[:80], []), ([each.text for each in got[:80]], [each for each in got[:80] if each.missing]))
    whole = [each for each in zip(want, got) if not each[1].missing]
    check("answers without it name it", True, len(whole) < 200 and all(each.missing in ([], [2]) for each in got))
    check("those that don't are whole", [each[0] for each in whole], [each[1].text for each in whole])
    check("the command names it", [(True, True)] * 2, [(each.startswith(kind), b" missing 2:" in each) for kind, each in zip((b"seen ", b"count "), stage.ask_all([b"?1 w0", b"# w0"]))])
    printed, status, _ = stage.command("status")
    check("status names the killed worker", (True, 1), (b"partition 2: no worker" in printed, status))
    check("up again", 0, stage.up(3))
    check("the same queries after its return", want, stage.ask_all(queries))


def _ask(stage, router, place, line):
    if place == 80:
        stage.signal("worker-earlybird-2")
    return router.ask(line)


def _refusals(stage):
    alone = run_alone(["run"], [], REFUSED)
    printed, status, _ = stage.command("add", text=text_of(REFUSED))
    check("refused lines, as the program refuses them", (alone, 1), (bare(printed), status))
    printed, status, _ = stage.command("add", text=b"x" * 3000000 + b"\n" + text_of(REFUSED[:2]))
    check("a line of 3,000,000 bytes, and its numbers", (b"1 refused: long line\n2 refused: bad line\n3 refused: bad json\n", 1), (printed, status))


def _one_cut(stage, last):
    """While one client adds documents with the ids 1, 2, 3 .. in blocks over all partitions, each answer covers exactly what was
    added first: as many as it saw, and of them the newest."""
    before = stage.router().ask(b"?1 cut").text
    seen = int(before.split()[1][:-1])
    first = (last // 100000 + 1) * 100000
    lines = numbered(range(first + 1, first + 30001), "cut")
    wrong, answers, router = [], 0, stage.router()

    def with_pauses():
        for place, line in enumerate(lines):
            if place % 1000 == 0:
                yield None
                # (so queries come at many of its moments, also where either is slow)
                until(lambda: answers >= ENOUGH * place // len(lines), 5)
            yield line

    adding = threading.Thread(target=lambda: list(stage.router().add(with_pauses())))
    adding.start()
    while adding.is_alive():
        for text, missing in router.ask_many([b"?5 cut"] * 8):
            head, _, ids = text.partition(b":")
            newest = first + int(head.split()[1]) - seen
            want = [newest - place for place in range(5) if newest - place > first]
            answers += 1
            if missing or [int(each) for each in ids.split()] != want:
                wrong.append((text, want))
    adding.join()
    check("answers beside adding are of one cut", [], wrong[:3])
    check("enough of them", True, answers >= ENOUGH)
    return lines, first + 30000


def _counts(stage, documents, first):
    """Counts are sums over the partitions. The 30,000 last documents have the word `cut` and the ids behind `first`, which has nothing."""
    cases = [(b"# cut", b"30000"), (b"#%d+10000*3 cut" % (first + 1), b"30000 10000 10000 10000"), (b"#%d+1*3 cut" % (first - 1), b"30000 0 0 1"), (b"# cut since:%d" % (first + 29998), b"2"),
             (b"#0+%d*1 cut -since:%d" % (first, first + 7), b"7 0"), (b"# w%d" % (first + 12345), b"1"), (b"# -cut", b"20000"), (b"# nothing", b"0"), (b"#18446744073709551615+1*1000 cut", b"30000" + b" 0" * 1000)]
    check("counts", [b"count 50000: " + numbers for _, numbers in cases], stage.ask_all([line for line, _ in cases]))
    refused = [b"#5 cut", b"#1+0*2 cut", b"# cut (", b"#", b"!1 cut"]
    check("counts that are refused", [b"refused: " + why for why in (b"bad number", b"bad number", b"bad query at 8", b"bad query at 2", b"bad line")], stage.ask_all(refused))
    mixed = [line for n in range(60) for line in (b"?3 cut", b"# w%d" % n, b"#%d+5000*7 cut -w%d" % (first, n))]
    check("counts among queries", run_alone(["run", "--counts", "--segments", "32"], documents, mixed), stage.ask_all(mixed))


def _redis_dies(stage, documents, last, queries, rng):
    """Redis is killed while lines are added: the supervisor starts it, and `add` goes on."""
    more, last = make_documents(20000, last, rng)
    router = stage.router()
    check("add, Redis killed in the middle", [], list(router.add(interrupted(more, 12000, lambda: stage.signal("redis")))))
    check("all are settled", len(more), router.settled)
    there = [line for part in stage.documents() for line in part if line not in REFUSED]
    check("each acknowledged document is in the log once", sorted(documents + more), sorted(there))
    want = run_alone(["run", "--segments", "32"], documents + more, queries)
    check("200 queries after the death of Redis", want, stage.ask_all(queries))
    stage.command("--name", "grown", "up", "2", "--program", PROGRAM)
    for times in ("", " again"):
        stage.command("--name", "earlybird", "grow", "--into", "grown")
        check("200 queries over two partitions" + times, want, stage.ask_all(queries, "grown"))


def _feed(stage, documents, queries):
    """A feed's partitions each keep what one feed over the same documents keeps, and their logs are cut."""
    feed = ["feed", "--keep", "2", "--segments", "1", "--docs", "256", "--terms", "1024"]
    if subprocess.run([PROGRAM, *feed], stdin=subprocess.DEVNULL, stdout=subprocess.DEVNULL, stderr=subprocess.DEVNULL, check=False).returncode:
        return
    rng = seeded(9)
    documents, _ = make_documents(20000, 0, rng)
    check("up of a feed", 0, stage.up(2, "--retain", "1000", "--", *feed, name="feed"))
    stage.signal("supervisor-feed")
    parts, lines = [[], []], list(documents)
    router, redis = stage.router(name="feed"), stage.redis()
    for place in range(0, len(lines), 2000):
        check("add to a feed", [], list(router.add(lines[place:place + 2000])))
        for part, tag in enumerate(router.config.tags):
            parts[part] = _more(parts[part], redis, tag)
    alone = [run_alone(feed, [line for _, text in part for line in text.split(b"\n")[:-1]], queries) for part in parts]
    want = [blend([b"1 " + each + b"\n" for each in pair], [count_of(line)])[0] if pair[0].startswith(b"seen") else pair[0] for line, pair in zip(queries, zip(*alone))]
    check("200 queries of a feed", want, stage.ask_all(queries, "feed"))
    check("programs without --counts refuse counts", [b"refused: bad line"], stage.ask_all([b"# w0"], "feed"))
    until(lambda: all(len(part) <= 5000 for part in stage.documents("feed")))
    check("the logs of a feed are cut", [], [len(part) for part in stage.documents("feed") if not 1000 <= len(part) <= 5000])


def _more(there, redis, tag):
    last = there[-1][0] if there else b"-"
    found = redis.xrange("{%s}:log" % tag, b"(" + last if there else "-", "+")
    return there + [(entry, fields[b"d"]) for entry, fields in found]
