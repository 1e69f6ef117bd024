#!/usr/bin/env python3
"""Measures what threads share, from C and from Python: searches a second by 0, 1, 2 and 3 threads beside one that adds without a
pause, over the shared index and over the feed; and what one long feed costs: the pauses of its adds, and its memory.

    python3 bench/threads.py [--seconds S] [--feed ADDS] [--json FILE]
    python3 bench/threads.py --check S
    python3 bench/threads.py --table FILE

Builds bench/threads.c against libearlybird.a: that of the folder in EARLYBIRD_LIB, else of crates/eb_c/out (.ci/library makes it),
else of dist/. Each figure is of S seconds of adding, 5 if not said otherwise. Prints a table, and writes JSON, with the machine and the
commit. A search asks for the newest 10 of one of five queries; what it answers is checked by examples/embed, and not here.

With --feed one feed takes so many adds (10,000,000 is a good number), from C, at the usual setting with 4 generations kept, in place of
all that: beside 0, 1, 2 and 3 followers that search without a pause, and one that asks in the middle and sleeps through the rest; first
where an add that begins a generation opens its index, and then where another thread opens it ahead, and it is lent, and that thread
closes what is let go; then a tenth of the adds in each way, at a pace at which opening keeps up, and into one generation that has room
for all: five such runs of each, of which the one is told in full whose longest add took the middle of their processor times, and of
all the longest add, by the clock and by the processor time of the thread that adds, since the machine's own pauses are in the former.
And once 3,500,000 adds at that pace, none searching, of a feed that is lent indexes of the greatest setting for a million documents:
1,009 MiB each, where 1 GiB is the most. It begins three generations, and takes 7 GiB of memory.

Of the pauses of the adds it tells the 50th, the 99th and the 99.9th of 100 and the longest; of the adds that began a generation how
many there were, how many of them had no lent index and opened one, and the longest; and of the memory what is resident after
opening, in the middle, at the end, and once the follower that slept has asked again; and the most at any time.

With --check nothing is measured: for S seconds two followers ask a feed of small generations, which begins some hundred a second, and nap in
between, and each answer is compared with a plain scan. The status is 1 where one was wrong.

--table prints what --json has written as the tables of docs/PERFORMANCE.md, and measures nothing.
"""
import argparse
import itertools
import json
import os
import platform
import subprocess
import sys
import tempfile
import textwrap
import threading
import time

ROOT = os.path.dirname(os.path.dirname(os.path.abspath(__file__)))
SEARCHING = (0, 1, 2, 3)
KINDS = ("shared", "stream")
MESSAGES = 20_000
GREATEST = ("-DSEGMENTS=13", "-DDOCS=76923", "-DTERMS=131072")
GREATEST_ADDS = 3_500_000
QUERIES = ("third", "all", "w7", "all -third", "w7 OR w9")


def library():
    """The folder of the archive."""
    folders = [os.environ.get("EARLYBIRD_LIB"), os.path.join(ROOT, "crates/eb_c/out"), os.path.join(ROOT, "dist")]
    for folder in filter(None, folders):
        if os.path.exists(os.path.join(folder, "libearlybird.a")):
            return folder
    sys.exit("threads: there is no libearlybird.a: .ci/library makes it")


def built(folder, name="threads", setting=()):
    """The program, at the usual setting or at another one."""
    program, flags = os.path.join(folder, name), ["-O2", "-std=c11", "-D_POSIX_C_SOURCE=200809L", "-I" + os.path.join(ROOT, "include"), *setting]
    subprocess.run(["cc", *flags, os.path.join(ROOT, "bench/threads.c"), "-L" + library(), "-learlybird", "-pthread", "-o", program], check=True)
    return program


def built_for_python(folder):
    """The shared library that Python loads."""
    shared = os.path.join(folder, "libearlybird.so")
    whole = ["-Wl,--whole-archive", os.path.join(library(), "libearlybird.a"), "-Wl,--no-whole-archive"]
    subprocess.run(["cc", "-shared", *whole, "-o", shared], check=True)
    return shared


def opened(kind):
    """What adds, and how a thread gets what it searches by."""
    import earlybird

    if kind == "stream":
        leader = earlybird.Leader(12, 4096, 8192, 4)
        return leader, leader.follower
    writer = earlybird.Writer(12, 32768, 8192)
    return writer, writer.reader


def round_of(kind, texts, searches):
    """A round in Python; gives its seconds."""
    adding, make = opened(kind)
    over, ready = threading.Event(), threading.Barrier(len(searches) + 1)

    def search(at):
        search, done = make().search, 0
        ready.wait()
        while not over.is_set():
            search(QUERIES[done % len(QUERIES)], 10)
            done += 1
        searches[at] += done

    threads = [threading.Thread(target=search, args=(at,)) for at in range(len(searches))]
    for it in threads:
        it.start()
    ready.wait()
    begun = time.monotonic()
    for n, text in enumerate(texts):
        adding.add(n, text)
    took = time.monotonic() - begun
    over.set()
    for it in threads:
        it.join()
    return took


def from_python(kind, searching, seconds):
    texts = ["all w%d %s message" % (n % 1000, "other" if n % 3 else "third") for n in range(MESSAGES)]
    searches, took, adds = [0] * searching, 0.0, 0
    while took < seconds:
        took += round_of(kind, texts, searches)
        adds += MESSAGES
    return {"seconds": round(took, 3), "adds": adds, "searches": searches}


def measured(program, seconds):
    """A figure for each language, kind and number of threads that search."""
    for language in ("C", "Python"):
        for kind in KINDS:
            for searching in SEARCHING:
                if language == "C":
                    words = [program, kind, str(searching), str(seconds)]
                    found = json.loads(subprocess.run(words, stdout=subprocess.PIPE, check=True).stdout)
                else:
                    found = from_python(kind, searching, seconds)
                yield {
                    "language": language, "index": kind, "searching": searching,
                    "adds a second": round(found["adds"] / found["seconds"]),
                    "searches a second": round(sum(found["searches"]) / found["seconds"]),
                    **found,
                }


def longest(run):
    """The longest add of a run: by the clock, and by the thread's processor time where that was read."""
    return [run[name]["longest"] for name in ("pauses, ns", "of the processor, ns") if name in run]


def of_one_feed(program, mode, searching, adds, paced=False, times=1, setting="the usual"):
    """A figure of a feed with so many adds: of so many runs the middle one, and the longest add and the turns of each."""
    words = [program, mode, str(searching), str(adds), *(["paced"] if paced else [])]
    runs = [json.loads(subprocess.run(words, stdout=subprocess.PIPE, check=True).stdout) for _ in range(times)]
    found = sorted(runs, key=lambda it: longest(it)[-1])[len(runs) // 2]
    return {
        "language": "C", "index": "one feed", "setting": setting, "searching": searching, "way": mode, "paced": paced,
        "adds a second": round(found["adds"] / found["seconds"]),
        "searches a second": round(sum(found["searches"]) / found["seconds"]),
        **found, "longest of each run, ns": [longest(it) for it in runs], "turns of each run": [it["turns"] for it in runs],
    }


def of_feeds(program, greatest, adds):
    """A figure of a feed with so many adds for each number of threads that search, without and with indexes that are lent; the same at a
    pace with a tenth of the adds; and one of the program with the greatest setting."""
    for mode, searching in itertools.product(("feed", "lent"), SEARCHING):
        yield of_one_feed(program, mode, searching, adds)
    for mode, searching in itertools.product(("feed", "lent", "whole"), (0, 2)):
        yield of_one_feed(program, mode, searching, adds // 10, paced=True, times=5)
    yield of_one_feed(greatest, "lent", 0, GREATEST_ADDS, paced=True, setting="the greatest")


def print_rates(figures):
    print("%-8s %-8s %10s %16s %18s" % ("language", "index", "searching", "adds a second", "searches a second"))
    for it in figures:
        row = (it["language"], it["index"], it["searching"], it["adds a second"], it["searches a second"])
        print("%-8s %-8s %10d %16s %18s" % (*row[:3], *("{:,}".format(number) for number in row[3:])), flush=True)
        yield it


def way(it):
    """How a feed came by its indexes, whether it was paced, and its setting where it isn't the usual one, in words."""
    name = {"feed": "opens them", "lent": "is lent them", "whole": "needs one alone"}[it["way"]]
    return name + (", paced" if it["paced"] else "") + (", at the greatest setting" if it["setting"] == "the greatest" else "")


def large(numbers):
    return ["{:,}".format(number) for number in numbers]


def milliseconds(pauses):
    return ", ".join("%.3f" % (it / 1e6) for it in pauses)


def rates_and_memory(it):
    """What a feed did a second, and its resident memory in MiB."""
    resident = [round(it["resident, KiB"][name] / 1024) for name in ("start", "middle", "end", "most")]
    return [way(it), str(it["searching"]), *large([it["adds a second"], it["searches a second"]]), *large(resident)]


def pauses(it):
    """The pauses of a feed's adds in milliseconds, the longest of each run by the clock and by processor time; and its turns."""
    turns = [turn for turn in it["turns of each run"] if turn["adds"] > 0]
    longest_of_all = [milliseconds(run[at] for run in it["longest of each run, ns"] if len(run) > at) for at in (0, 1)]
    at_turns = [milliseconds(turn[name] for turn in turns if name in turn) for name in ("longest, ns", "of the processor, ns")]
    return [way(it), str(it["searching"]), "%.3f" % (it["pauses, ns"]["99.9th"] / 1e6), *longest_of_all, *at_turns,
            str(it["turns"]["adds"]), ", ".join(str(turn["opened"]) for turn in turns)]


RATES = ("Its indexes", "searching", "adds a second", "searches a second", "MiB at the start", "in the middle", "at the end", "at most")
PAUSES = ("Its indexes", "searching", "an add, 99.9th of 100, ms", "the longest, ms", "its processor time, ms",
          "the longest at a turn, ms", "its processor time, ms", "turns", "of these opened an index")


def print_feeds(figures):
    """Prints what each figure adds to the two tables."""
    for it in figures:
        print(", ".join("%s: %s" % pair for pair in zip(RATES, rates_and_memory(it))))
        print("    " + "; ".join("%s: %s" % pair for pair in list(zip(PAUSES, pauses(it)))[2:] if pair[1]), flush=True)
        yield it


def rows(names, cells):
    """A table with these names, and a row for each of these lists of cells."""
    return ["| " + " | ".join(names) + " |", "|---" * len(names) + "|", *("| " + " | ".join(row) + " |" for row in cells)]


def table(told):
    """A result as the tables of docs/PERFORMANCE.md."""
    machine, figures = told["machine"], told["figures"]
    lines = ["%s, %s, %d cores, commit %s." % (told["date"], machine["processor"], machine["processors"], told["commit"]), ""]
    if "pauses, ns" in figures[0]:
        lines += rows(RATES, map(rates_and_memory, figures))
        said = ("The pauses of the adds. A turn is an add that begins a generation; where no index was lent since the last turn, it opens one"
                " itself. The longest adds, and how many turns opened an index, are those of each run, in the order in which they ran.")
        return "\n".join(lines + ["", textwrap.fill(said, 100), "", *rows(PAUSES, map(pauses, figures))])
    names = {"shared": "the shared index", "stream": "the feed"}
    rates = ("adds a second", "searches a second")
    cells = ([it["language"], names[it["index"]], str(it["searching"]), *large(it[name] for name in rates)] for it in figures)
    return "\n".join(lines + rows(("From", "over", "searching", *rates), cells))


def processor():
    with open("/proc/cpuinfo", encoding="utf-8") as file:
        names = [row.split(":", 1)[1].strip() for row in file if row.startswith("model name")]
    return names[0] if names else platform.processor()


def main():
    options = argparse.ArgumentParser(description="Searches a second beside a thread that adds.")
    options.add_argument("--seconds", type=float, default=5)
    options.add_argument("--feed", type=int, metavar="ADDS")
    options.add_argument("--check", type=float, metavar="S")
    options.add_argument("--json", metavar="FILE")
    options.add_argument("--table", metavar="FILE")
    options = options.parse_args()
    if options.table:
        with open(options.table, encoding="utf-8") as file:
            return print(table(json.load(file)))
    with tempfile.TemporaryDirectory() as folder:
        program = built(folder)
        if options.check:
            sys.exit(subprocess.run([program, "check", "2", str(options.check)]).returncode)
        if options.feed:
            figures = list(print_feeds(of_feeds(program, built(folder, "threads-greatest", GREATEST), options.feed)))
        else:
            os.environ["EARLYBIRD_LIBRARY"] = built_for_python(folder)
            sys.path.insert(0, os.path.join(ROOT, "python/src"))
            figures = list(print_rates(measured(program, options.seconds)))
    commit = subprocess.run(["git", "-C", ROOT, "rev-parse", "--short", "HEAD"], stdout=subprocess.PIPE).stdout.decode().strip()
    machine = {"processor": processor(), "processors": os.cpu_count(), "system": platform.platform(), "python": platform.python_version()}
    if options.json:
        with open(options.json, "w", encoding="utf-8") as file:
            json.dump({"date": time.strftime("%Y-%m-%d"), "commit": commit, "machine": machine, "figures": figures}, file, indent=1)
            file.write("\n")


main()
