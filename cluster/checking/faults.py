"""Nothing poisons a cluster: lines of another form, entries and messages that aren't its own, want of memory, a log that lost its
end, clocks, two workers of a name, words of a program that prints otherwise."""
import json
import os
import shutil
import signal
import subprocess
import sys
import threading
import time

from earlybird_cluster import machine, names

from .stage import COMMAND, PROGRAM, Stage, check, numbered, run_alone, text_of, until


def run():
    """All of it."""
    with Stage() as stage:
        check("up", 0, stage.up(3))
        check("up of a program that prints JSON", (2, True), _refused_words(stage, "run", "--json"))
        check("up of a program that takes no queries", 2, _refused_words(stage, "save")[0])
        check("up of words that aren't allowed", 2, _refused_words(stage, "run", "--docs", "0")[0])
        numbers = _lines(stage)
        _memory(stage, numbers)
        _foreign(stage, numbers)
        _clock(stage, numbers)
        _same_name(stage, numbers)
        _lost_end(stage, numbers)


def _refused_words(stage, *words):
    _, status, said = stage.command("--name", "other", "up", "2", "--program", PROGRAM, "--", *words)
    return status, "doesn't print answers as 'run' does" in said


def seen(stage, numbers, name):
    """The answers to a word that all have, and to one's own word, have to be those of these numbers."""
    newest = sorted(numbers, reverse=True)[:3]
    want = b"seen %d: %s" % (len(numbers), b" ".join(b"%d" % each for each in newest))
    check(name, [want, b"seen %d: %d" % (len(numbers), newest[-1])], stage.ask_all([b"?3 rain", b"?3 w%d" % newest[-1]]))


def _lines(stage):
    """Lines with LF and CR at their ends are lines; with one within they are bad lines, and so is a query."""
    router = stage.router()
    given = [line + end for line, end in zip(numbered(range(1, 31)), [b"", b"\n", b"\r\n", b"\r"] * 8)]
    check("lines with LF and CR at their ends", [], list(router.add(given)))
    bad = [b'{"id":31,"text":"rain"}\n{"id":32,"text":"rain"}', b'{"id":33,\r"text":"rain"}', b'{"id":34,"text":"rain"}\n\n', b'?5 rain\n']
    told = [(each.number, each.what, each.why) for each in router.add([*bad, *numbered([35])])]
    check("lines with LF and CR within", [(number, b"refused", b"bad line") for number in (1, 2, 3, 4)], told)
    texts = [each.text for each in router.ask_many([b"?5 w1\n?5 w2", b"?1 w7\n", b"?1 w7\r?1 w8", b"?1 w8\r\n", b"{}\n?1 w1"])]
    check("queries with LF and CR", [b"refused: bad line", b"seen 31: 7", b"refused: bad line", b"seen 31: 8", b"refused: bad line"], texts)
    numbers = [*range(1, 31), 35]
    seen(stage, numbers, "after lines of another form")
    long = [b"?1 w35" + b" " * 65530, b"?1 w35" + b" " * 65529, b"?1 w35 " + b"a" * 60000, b"?1 w35"] * 3
    check("long queries", stage.ask_all(long), [each.text for each in router.ask_many(long)])
    check("as the program answers them", run_alone(["run"], numbered(numbers), long), stage.ask_all(long))
    return numbers


def _memory(stage, numbers):
    """Redis has no memory for a while: workers live, queries are answered meanwhile, and `add` waits for it."""
    redis = stage.redis()
    redis.config_set("maxmemory", "1")
    time.sleep(2.5)
    seen(stage, numbers, "without memory")
    check("all live without memory", 0, stage.command("status")[1])
    redis.config_set("maxmemory", "0")
    seen(stage, numbers, "with memory again")
    lines = numbered(range(101, 20101))
    adding = stage.start("--patience", "30", "add", text=text_of(lines[:10000]))
    redis.config_set("maxmemory", "1")
    again = threading.Timer(1.0, lambda: redis.config_set("maxmemory", "0"))
    again.start()
    out, _ = adding.communicate(text_of(lines[10000:]))
    again.join()
    check("add beside want of memory", (b"", 0), (out, adding.returncode))
    numbers += range(101, 20101)
    check("each line once after want of memory", sorted(numbers), _numbers(stage))
    redis.config_set("maxmemory", "1")
    printed, status, said = stage.command("--patience", "0.5", "add", text=text_of(numbered([20200])))
    check("no memory for longer than the patience", (b"", 3, True), (printed, status, "OOM" in said and "--client" in said))
    redis.config_set("maxmemory", "0")
    seen(stage, numbers, "after that")


def _numbers(stage):
    return sorted(json.loads(line)["id"] for part in stage.documents() for line in part)


def _foreign(stage, numbers):
    """Entries and messages that no router sent are passed over, and counted."""
    redis, tags = stage.redis(), stage.router().config.tags
    line = b'{"id":9,"text":"rain foreign"}'
    for fields in ({"foo": "bar"}, {"d": line, "r": "x", "i": 1, "n": 1}, {"d": line + b"\n", "r": "x", "n": 1}, {"d": line + b"\n", "r": "x", "i": "y", "n": 1},
                   {"d": line + b"\n\n", "r": "x", "i": 1, "n": 1}, {"d": b"?1 rain\n" + line + b"\n", "r": "", "i": 1, "n": 1}, {"q": "", "r": "rr", "i": "1"},
                   {"d": b"", "r": b"", "i": b"", "n": b""}, {"d": (line + b"\n") * 3000, "r": "", "i": 1, "n": 1}):
        redis.xadd(names.log(tags[1]), fields)
    for message in (b"", b"x", b"1-0 a b\n?1 a\n", b"1-0 x 1 2\n?1 a\n", b"1-0 x 1 1\n?1 a", b"1-0 x 1 1\n{}\n", b"y x 1 1\n?1 a\n", b"99999999999999-0 x 1 1\n?1 a\n",
                    b"1-0 x 1 -1\n", b"1-0 x y 0\n", b"1-0 x 1 65\n" + b"?1 a\n" * 65):
        redis.execute_command("SPUBLISH", names.questions(tags[1], 0), message)
    router = stage.router()
    for message in (b"", b"q", b"q 1 1\n", b"q 99 1\nx\n", b"d 1 1 5\n", b"d 1 1 x\n", b"z"):
        redis.execute_command("SPUBLISH", names.replies(tags[1], router._hub.id), message)
    check("answers beside foreign messages", b"seen %d: 35" % len(numbers), router.ask(b"?1 w35").text)
    seen(stage, numbers, "after foreign entries")
    found = json.loads(stage.command("status", "--json")[0])
    check("they are counted", 19, found["partitions"][1]["workers"][0]["foreign"])
    stage.signal("worker-earlybird-1")
    check("its worker is started again", True, until(lambda: stage.command("status")[1] == 0))
    seen(stage, numbers, "after foreign entries, and a start")
    check("adds go on", [], list(router.add(numbered(range(30001, 30031)))))
    numbers += range(30001, 30031)
    seen(stage, numbers, "after foreign entries, and further ones")


def _clock(stage, numbers):
    """An entry of the far future: a clock that was wrong."""
    redis, router = stage.redis(), stage.router()
    redis.xadd(names.log(router.config.tags[0]), {"d": numbered([30100])[0] + b"\n", "r": "", "i": 1, "n": 1}, id="99999999999999-0")
    numbers.append(30100)
    check("adds after an entry of the future", [], list(router.add([None if number % 7 == 0 else numbered([number])[0] for number in range(30101, 30130)])))
    numbers += [number for number in range(30101, 30130) if number % 7]
    seen(stage, numbers, "after an entry of the future")


def _same_name(stage, numbers):
    """Two workers of a name."""
    second = subprocess.Popen([sys.executable, "-B", COMMAND, "--folder", stage.folder, "worker", "--partition", "0", "--program", PROGRAM],
                              stderr=subprocess.DEVNULL)
    try:
        def both():
            return len([each for each in json.loads(stage.command("status", "--json")[0])["partitions"][0]["workers"] if each["state"] == "ready"]) == 2
        check("both of them are seen", True, until(both))
        more = numbered(range(40001, 42001)) + [b'{"id":5,"text":1}']
        told = [tuple(each) for each in stage.router().add(more)]
        check("what two of a name refuse is told once", [(2001, b"refused", b"bad document")], told)
        numbers += range(40001, 42001)
        router = stage.router()
        wrong = [each for number, each in zip(range(40001, 42001), router.ask_many([b"?3 w%d" % number for number in range(40001, 42001)]))
                 if each != (b"seen %d: %d" % (len(numbers), number), [])]
        check("2,000 answers of two workers of a name", [], wrong[:3])
    finally:
        second.kill()
        second.wait()


def _lost_end(stage, numbers):
    """Redis comes back without the end of its log, and takes other lines before the workers see it."""
    stage.signal("supervisor-earlybird")
    stage.signal("redis")
    kept = os.path.join(stage.folder, "kept")
    shutil.copytree(os.path.join(stage.folder, "appendonlydir"), kept)
    machine.await_redis(stage.folder, machine.start_redis(stage.folder, "always"))
    check("add before the loss", [], list(stage.router().add(numbered(range(50001, 50201)), client="lost")))
    for part in range(3):
        stage.signal("worker-earlybird-%d" % part, signal.SIGSTOP)
    stage.signal("redis")
    shutil.rmtree(os.path.join(stage.folder, "appendonlydir"))
    os.replace(kept, os.path.join(stage.folder, "appendonlydir"))
    machine.await_redis(stage.folder, machine.start_redis(stage.folder, "always"))
    check("add after the loss", [], list(stage.router().add(numbered(range(60001, 60401)), wait=False)))
    for part in range(3):
        stage.signal("worker-earlybird-%d" % part, signal.SIGCONT)
    numbers += range(60001, 60401)
    seen(stage, numbers, "after a loss of the log's end")
    check("what was lost is added again", [], list(stage.router().add(numbered(range(50001, 50201)), client="lost")))
    numbers += range(50001, 50201)
    check("each line once after the loss, and the one that was refused", sorted([*numbers, 5]), _numbers(stage))
    check("the workers say so", True, any(b"the log lost entries" in stage.said("worker-earlybird-%d" % part) for part in range(3)))
