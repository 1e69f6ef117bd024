#!/usr/bin/env python3
"""Measures Earlybird beside what a user would pick in its place, on the same messages: SQLite FTS5, Xapian, Groonga and Lucene's
near-real-time reader, as far as they are installed.

    python3 bench/run.py [--documents N] [--queries N] [--seconds S] [--engines NAME ..] [--out FILE]
    python3 bench/run.py --table FILE

Each engine gets a process of its own, one after the other. Of each it measures: the start, to the first answer of an empty index;
messages a second, each of which the next search finds; queries a second by class (a word, And, Or, a phrase, a window, Not), the
newest ten that match; the 50th and the 99th of 100 of the time to answer an And beside a writer at 20,000 messages a second,
counted from when the query was due; and the most memory. The answers of all are compared where they mean the same. It prints JSON,
and writes it to bench/results/ with the date, the machine and the commit; --table prints such a file as the table of
docs/PERFORMANCE.md. Nothing of this runs in the gate. Run it on a machine that does nothing else.
"""
import argparse
import json
import os
import platform
import subprocess
import sys
import textwrap
import time

import result_files
from corpora import KINDS, messages, queries
from engines import ENGINES

WRITER = 20_000
ASKED = 200
COMPARED = 200


def memory_of(pid, what):
    """A row of a process's memory, in MiB."""
    with open("/proc/%d/status" % pid, encoding="utf-8") as file:
        return next(int(line.split()[1]) for line in file if line.startswith(what + ":")) / 1024


def measured(engine, documents, asked, seconds):
    """All figures of one engine, in this process."""
    here = memory_of(os.getpid(), "VmRSS")
    begin = time.perf_counter()
    engine.open()
    engine.search("word", ["z0"])
    figures = {"start, seconds": time.perf_counter() - begin}

    # half of the messages as fast as they go, and the rest at the writer's rate
    half = len(documents) // 2
    begin = time.perf_counter()
    for at in range(0, half, 1000):
        engine.add(documents[at : min(at + 1000, half)])
    engine.search("word", ["z0"])
    figures["messages a second"] = half / (time.perf_counter() - begin)

    rest = documents[half : half + int(WRITER * seconds)]
    waits, lag = paced(engine, rest, asked["and"], seconds)
    figures["beside a writer, 50th of 100, milliseconds"] = 1000 * waits[len(waits) // 2]
    figures["beside a writer, 99th of 100, milliseconds"] = 1000 * waits[len(waits) * 99 // 100]
    figures["beside a writer, behind at the end, milliseconds"] = 1000 * max(lag, 0)
    engine.add(documents[half + len(rest) :])

    figures["answers"], figures["queries a second"] = {}, {}
    for kind in KINDS:
        engine.search_all(kind, asked[kind][:100])
        begin = time.perf_counter()
        answers = engine.search_all(kind, asked[kind])
        spent = time.perf_counter() - begin
        has = answers[0] is not None
        figures["queries a second"][kind] = len(answers) / spent if has else None
        figures["answers"][kind] = answers[:COMPARED] if has else None
    own = engine.pid() == os.getpid()
    figures["memory, MiB"] = memory_of(engine.pid(), "VmHWM") - (here if own else 0)
    engine.close()
    return figures


def paced(engine, documents, asked, seconds):
    """The times from when a query was due to its answer, in order, beside messages at the writer's rate; and how much later than it
    should the last one ended."""
    waits, at = [], 0
    count = int(ASKED * seconds)
    begin = time.perf_counter()
    for number in range(count):
        due = number / ASKED
        while True:
            now = time.perf_counter() - begin
            ready = min(len(documents), int(min(now, due) * WRITER))
            if ready > at:
                engine.add(documents[at:ready])
                at = ready
            elif now >= due:
                break
            else:
                time.sleep(0.0002)
        engine.search("and", asked[number % len(asked)])
        waits.append(time.perf_counter() - begin - due)
    return sorted(waits), time.perf_counter() - begin - count / ASKED


def machine():
    with open("/proc/cpuinfo", encoding="utf-8") as file:
        names = [line.partition(":")[2].strip() for line in file if line.startswith("model name")]
    with open("/proc/meminfo", encoding="utf-8") as file:
        memory = int(file.readline().split()[1]) // 2**20
    return {"processor": names[0] if names else platform.machine(), "cores": len(names), "memory, GiB": memory, "system": platform.platform()}


def compare(results):
    """Of each engine and class, how many answers are those of the first engine; the answers themselves are left out then."""
    first = next(iter(results.values()))["answers"]
    for figures in results.values():
        same = {}
        for kind, answers in figures["answers"].items():
            both = None if answers is None or first[kind] is None else sum(one == other for one, other in zip(first[kind], answers))
            same[kind] = None if both is None else "%d of %d" % (both, len(answers))
        figures["answers"] = same


def table(told):
    """The result as the table of docs/PERFORMANCE.md."""
    engines = told["engines"]
    rows = [["", *(("%s %s" % (name, it["version"])).strip() for name, it in engines.items())], ["---"] * (1 + len(engines))]

    def row(name, values, form="{:,.0f}"):
        rows.append([name, *("-" if value is None else form.format(value) for value in values)])

    row("start, seconds", [it["start, seconds"] for it in engines.values()], "{:.2f}")
    row("messages a second, found at once", [it["messages a second"] for it in engines.values()])
    for kind in KINDS:
        row("queries a second: " + kind, [it["queries a second"][kind] for it in engines.values()])
    for name in ("50th", "99th"):
        row("an And beside a writer, %s of 100, ms" % name, [it["beside a writer, %s of 100, milliseconds" % name] for it in engines.values()], "{:.2f}")
    row("behind the writer at the end, ms", [it["beside a writer, behind at the end, milliseconds"] for it in engines.values()])
    row("most memory, MiB", [it["memory, MiB"] for it in engines.values()])
    head = "%s, %s, %d cores, %d GiB, commit %s; %s messages of 15 words, %s queries a class." % (
        told["date"], told["machine"]["processor"], told["machine"]["cores"], told["machine"]["memory, GiB"], told["commit"][:7],
        "{:,}".format(told["documents"]), "{:,}".format(told["queries"]))
    differ = ["%s, %s: %s" % (name, kind, same) for name, it in engines.items() for kind, same in it["answers"].items()
              if same and len(set(same.split(" of "))) > 1]
    foot = ["Answers that differ from the first column's: " + ("; ".join(differ) or "none") + "."]
    foot += ["Left out: %s." % "; ".join("%s, since %s" % it for it in told["left out"].items())] if told["left out"] else []
    filled = lambda it: textwrap.fill(it, 100, break_on_hyphens=False, break_long_words=False)
    return "\n".join([filled(head), "", *("| " + " | ".join(it) + " |" for it in rows), "", *map(filled, foot)])


def main():
    parser = argparse.ArgumentParser(description=__doc__, formatter_class=argparse.RawDescriptionHelpFormatter)
    parser.add_argument("--documents", type=int, default=200_000)
    parser.add_argument("--queries", type=int, default=5_000)
    parser.add_argument("--seconds", type=float, default=5, help="how long queries are asked beside a writer")
    parser.add_argument("--engines", nargs="+", choices=ENGINES, default=list(ENGINES))
    result_files.takes_files(parser, "measure")
    parser.add_argument("--one", choices=ENGINES, help=argparse.SUPPRESS)
    options = parser.parse_args()
    if options.table:
        return print(table(result_files.read(options.table)))
    if options.one:
        documents = list(enumerate(messages(options.documents), 1))
        asked = {kind: queries(kind, options.queries, [words for _, words in documents[:10_000]]) for kind in KINDS}
        return json.dump(measured(ENGINES[options.one](), documents, asked, options.seconds), sys.stdout)

    told = result_files.begun(machine=machine(), documents=options.documents, queries=options.queries, engines={}, **{"left out": {}})
    for key in options.engines:
        engine = ENGINES[key]()
        why = engine.missing()
        if why:
            told["left out"][engine.name] = why
            continue
        print("measuring %s" % engine.name, file=sys.stderr)
        words = [sys.executable, os.path.abspath(__file__), "--one", key, "--documents", str(options.documents)]
        words += ["--queries", str(options.queries), "--seconds", str(options.seconds)]
        done = subprocess.run(words, stdout=subprocess.PIPE, check=True)
        told["engines"][engine.name] = {"version": engine.version(), **json.loads(done.stdout)}
    compare(told["engines"])
    result_files.keep(told, "", options.out)
    print(table(told))


if __name__ == "__main__":
    main()
