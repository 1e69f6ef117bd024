#!/usr/bin/env python3
"""Measures the cluster on this machine, in turn with one program over a pipe: messages and queries a second, the processor time of
each, the time of one query, and the time to build a partition again. Needs redis-server and Python's module redis:
/usr/bin/python3 bench/cluster.py [--messages N] [--rounds N] [--before FOLDER], where FOLDER has the cluster of version 0.5.0, as commit 7b1faa30
has it, in its folder cluster/: that is measured in turn, too, with a fifth of the messages. The result goes to bench/results/, `cluster-` and the date and commit."""
import argparse
import json
import os
import random
import statistics
import subprocess
import sys
import tempfile
import threading
import time

ROOT = os.path.dirname(os.path.dirname(os.path.abspath(__file__)))
sys.path.insert(0, os.path.join(ROOT, "cluster"))

import result_files  # noqa: E402
from checking.stage import PROGRAM, Stage, until  # noqa: E402
from earlybird_cluster.lines import blocks_of  # noqa: E402
from earlybird_cluster.router import ENTRY  # noqa: E402

WORDS = ["run", "--segments", "24", "--docs", "16384", "--terms", "32768"]
TICK = os.sysconf("SC_CLK_TCK")


def made(count):
    """A text of messages of 10 words, of which the word of rank r comes as often as 1/r; and queries of two words, of rather rare
    ones and of frequent ones."""
    rng = random.Random(11)
    ranks = range(1, 20001)
    weights = [1 / rank for rank in ranks]
    words = rng.choices(ranks, weights, k=10 * count)
    text = b"".join(json.dumps({"id": number + 1, "text": " ".join("w%d" % rank for rank in words[10 * number:10 * number + 10])}).encode() + b"\n"
                    for number in range(count))
    rare = [b"?10 w%d w%d" % (rng.randint(100, 2000), rng.randint(100, 2000)) for _ in range(20000)]
    frequent = [b"?10 w%d w%d" % tuple(rng.choices(ranks, weights, k=2)) for _ in range(20000)]
    return text, rare, frequent


def processor(pid):
    """The seconds of processor time that a process took."""
    with open("/proc/%d/stat" % pid, encoding="ascii") as file:
        fields = file.read().rsplit(")", 1)[1].split()
    return (int(fields[11]) + int(fields[12])) / TICK


def pipe(text, rare, frequent):
    """One program: messages a second, microseconds of its processor time for one, and queries a second of both kinds."""
    program = subprocess.Popen([PROGRAM, *WORDS], stdin=subprocess.PIPE, stdout=subprocess.PIPE)
    found = []
    for lines in (b"", text, b"\n".join(rare) + b"\n", b"\n".join(frequent) + b"\n"):
        queries = lines.count(b"\n") if lines.startswith(b"?") else 0
        writer = subprocess.Popen(["cat"], stdin=subprocess.PIPE, stdout=program.stdin)
        used, begun = processor(program.pid), time.monotonic()
        thread = threading.Thread(target=lambda: writer.communicate(lines + b"?1 w1\n"))
        thread.start()
        for _ in range(queries + 1):
            program.stdout.readline()
        found.append((time.monotonic() - begun, processor(program.pid) - used))
        thread.join()
    program.stdin.close()
    program.wait()
    count = text.count(b"\n")
    return {"messages": count / found[1][0], "all_us": 1e6 * found[1][1] / count, "rare": len(rare) / found[2][0], "frequent": len(frequent) / found[3][0]}


def cluster(parts, text, rare, frequent):
    """A cluster: the same, and the processor time outside the programs, of one query the time in the middle and at the 99th of
    100, and the time in which a partition is built again."""
    count = text.count(b"\n")
    with Stage() as stage:
        stage.command("up", str(parts), "--program", PROGRAM, "--", *WORDS)
        until(lambda: stage.command("status")[1] == 0)
        router = stage.router()
        workers = [row["workers"][0] for row in json.loads(stage.command("status", "--json")[0])["partitions"]]

        def used():
            programs = sum(processor(each["program_pid"]) for each in workers)
            glue = time.process_time() + processor(stage.pid("redis")) + sum(processor(each["pid"]) for each in workers)
            return programs, glue

        found = {}
        programs, glue = used()
        begun = time.monotonic()
        refused = sum(1 for _ in router.add_blocks(blocks_of(text, ENTRY)))
        found["messages"] = count / (time.monotonic() - begun)
        after = used()
        found["all_us"], found["glue_us"] = 1e6 * (sum(after) - programs - glue) / count, 1e6 * (after[1] - glue) / count
        assert refused == 0
        for name, queries in (("rare", rare), ("frequent", frequent)):
            glue, begun = used()[1], time.monotonic()
            answers = sum(1 for each in router.ask_many(queries, cut=True) if not each.missing)
            found[name] = answers / (time.monotonic() - begun)
            found[name + "_us"] = 1e6 * (used()[1] - glue) / answers
        times = []
        for line in rare[:1000]:
            begun = time.monotonic()
            router.ask(line)
            times.append(1000 * (time.monotonic() - begun))
        times.sort()
        found["middle_ms"], found["p99_ms"] = times[500], times[990]
        stage.signal("worker-earlybird-0")
        begun = time.monotonic()
        until(lambda: all(row["workers"][0]["state"] == "ready" for row in json.loads(stage.command("status", "--json")[0])["partitions"]), 600)
        found["again_s"] = time.monotonic() - begun
        return found


# the cluster of version 0.5.0, by its own router and command: messages and queries a second, and the time of one query
BEFORE = """
import json, os, shutil, sys, tempfile, time
source, parts, lines, rare, frequent, *words = sys.argv[1:]
sys.path.insert(0, os.path.join(source, "cluster"))
from checking import PROGRAM, command
from earlybird_cluster import Router, machine
read = lambda path: open(path, "rb").read()
folder, found = tempfile.mkdtemp(prefix="earlybird-cluster-"), {}
try:
    command(folder, "up", parts, "--program", PROGRAM, "--", *words)
    router = Router(machine.connect("unix://" + machine.socket_of(folder)), patience=60)
    lines, begun = read(lines).splitlines(), time.monotonic()
    assert not list(router.add(lines))
    found["messages"] = len(lines) / (time.monotonic() - begun)
    for name, text in (("rare", read(rare)), ("frequent", read(frequent))):
        begun = time.monotonic()
        command(folder, "ask", text=text)
        found[name] = text.count(b"\\n") / (time.monotonic() - begun)
    times = []
    for line in read(rare).splitlines()[:1000]:
        begun = time.monotonic()
        router.ask(line)
        times.append(1000 * (time.monotonic() - begun))
    times.sort()
    found["middle_ms"], found["p99_ms"] = times[500], times[990]
finally:
    command(folder, "down")
    shutil.rmtree(folder, ignore_errors=True)
print(json.dumps(found))
"""


def before(source, parts, text, rare, frequent):
    """The same of that cluster."""
    lines = text.splitlines(keepends=True)
    with tempfile.TemporaryDirectory(prefix="bench-") as folder:
        paths = []
        for name, data in (("lines", b"".join(lines[:len(lines) // 5])), ("rare", b"\n".join(rare[:4000]) + b"\n"), ("frequent", b"\n".join(frequent[:4000]) + b"\n")):
            paths.append(os.path.join(folder, name))
            with open(paths[-1], "wb") as file:
                file.write(data)
        words = [sys.executable, "-B", "-c", BEFORE, source, str(parts), *paths, *WORDS]
        done = subprocess.run(words, stdout=subprocess.PIPE, env={**os.environ, "EARLYBIRD_PROGRAM": PROGRAM}, check=True)
    return json.loads(done.stdout)


def row(who, rows, whole):
    """What a line tells: the medians of all rounds."""
    middle = {name: statistics.median(each[name] for each in rows) for name in rows[0]}
    said = "%s: %d messages a second (%.2f of a pipe)" % (who, middle["messages"], middle["messages"] / whole)
    if "all_us" in middle:
        said += ", %.2f us of processor time for one" % middle["all_us"]
    if "glue_us" in middle:
        said += ", %.2f outside the programs" % middle["glue_us"]
    said += "; %d queries a second of rarer words, %d of frequent ones" % (middle["rare"], middle["frequent"])
    if "rare_us" in middle:
        said += "; %.1f and %.1f us outside the programs" % (middle["rare_us"], middle["frequent_us"])
    if "middle_ms" in middle:
        said += "; one query %.2f ms in the middle, %.2f at the 99th of 100" % (middle["middle_ms"], middle["p99_ms"])
    if "again_s" in middle:
        said += "; partition 0 built again in %.1f s" % middle["again_s"]
    return said


def main():
    """All figures: medians of the rounds, in each of which all take their turn."""
    parser = argparse.ArgumentParser(description=__doc__.split("\n", maxsplit=1)[0])
    parser.add_argument("--messages", type=int, default=300000)
    parser.add_argument("--rounds", type=int, default=3)
    parser.add_argument("--before", metavar="FOLDER", help="a checkout with the cluster of version 0.5.0")
    parser.add_argument("--out", metavar="FILE", help="where the result goes in place of bench/results/")
    given = parser.parse_args()
    if given.before and not os.path.isfile(os.path.join(given.before, "cluster", "checking.py")):
        parser.error("--before: %s has no cluster/checking.py, as version 0.5.0 has; name the folder above cluster/" % given.before)
    material = made(given.messages)
    told = result_files.begun(messages=given.messages, load_before=os.getloadavg()[0], rounds={})
    for _ in range(given.rounds):
        told["rounds"].setdefault("pipe", []).append(pipe(*material))
        for parts in (1, 2, 3):
            told["rounds"].setdefault("%d partitions" % parts, []).append(cluster(parts, *material))
            if given.before:
                told["rounds"].setdefault("%d partitions of 0.5.0" % parts, []).append(before(given.before, parts, *material))
    told["load_after"] = os.getloadavg()[0]
    whole = statistics.median(each["messages"] for each in told["rounds"]["pipe"])
    for who, rows in told["rounds"].items():
        print(row(who, rows, whole))
    print("load %.1f before, %.1f after" % (told["load_before"], told["load_after"]))
    result_files.keep(told, "cluster-", given.out)


if __name__ == "__main__":
    main()
