#!/usr/bin/env python3
"""Times the ways to run over the same lines, in turn, on one, two and four processors.

    python3 bench/modes.py [--program FILE] [--times N] [--out FILE]
    python3 bench/modes.py --table FILE

The ways are order mode, --overlap, and so many parts (1, 2 and 4) with and without --overlap; the lines are 100,000 Zipf
documents whose ids rise, alone and with a query after each 1,000. Each runs N times (5), in turn with the others, on each
number of processors by taskset. The time runs from the first byte that the program is given, once it has taken its memory and
waits, to its summary. All have to print the same answers, with --overlap alone but for what its queries see.

The result has the seconds and the processor seconds of each run. The table tells the least and the middle seconds, the middle
processor seconds, and how many times as fast as order mode a way is: the middle over the turns of the seconds of order mode by
those of the way in the same turn, so that what slows the machine for a while counts for both.

Writes JSON to bench/results/ with the date and the commit, and prints it; --table prints such a file as the table of
docs/PERFORMANCE.md. The program is the launcher at the root, if no other is named.
"""
import argparse
import hashlib
import os
import statistics
import textwrap
import threading
import time

import result_files
from corpora import ROOT
from instructions import queries, zipf_lines
from running import give, started

DOCUMENTS = 100_000
EVERY = 1_000
PROCESSORS = {1: "0", 2: "0,1", 4: "0-3"}
SETTING = ["--segments", "12", "--docs", "10000", "--terms", "32768"]
WAYS = {
    "order mode": [],
    "--overlap": ["--overlap"],
    "--parts 1": ["--parts", "1"],
    "--parts 1 --overlap": ["--parts", "1", "--overlap"],
    "--parts 2": ["--parts", "2"],
    "--parts 2 --overlap": ["--parts", "2", "--overlap"],
    "--parts 4": ["--parts", "4"],
    "--parts 4 --overlap": ["--parts", "4", "--overlap"],
}


def spent(process):
    """The processor seconds of a process so far."""
    with open("/proc/%d/stat" % process.pid, encoding="utf-8") as file:
        fields = file.read().rpartition(")")[2].split()
    return (int(fields[11]) + int(fields[12])) / os.sysconf("SC_CLK_TCK")


def seconds(command, text):
    """The seconds and the processor seconds of one run over the text, once it waits for it, and a checksum of what it printed."""
    with started(command) as (process, pipe):
        before, start = spent(process), time.monotonic()
        giving = threading.Thread(target=give, args=(pipe, text, True))
        giving.start()
        printed = bytearray()
        while not printed.rpartition(b"\n")[0].rpartition(b"\n")[2].startswith(b"end: "):
            some = os.read(process.stdout.fileno(), 1 << 16)
            if not some:
                raise SystemExit("ways: there is no summary")
            printed += some
        took, after = time.monotonic() - start, spent(process)
        giving.join()
    return took, after - before, hashlib.sha256(printed).hexdigest()


def texts():
    """The inputs by their names."""
    lines = zipf_lines(DOCUMENTS).splitlines(keepends=True)
    asks = queries("both of two", DOCUMENTS // EVERY).splitlines(keepends=True)
    asked = []
    for at, line in enumerate(lines, 1):
        asked.append(line)
        if at % EVERY == 0:
            asked.append(asks[at // EVERY - 1])
    return {"documents": "".join(lines), "a query after each 1,000": "".join(asked)}


def figures(program, text, times):
    """By processors and ways, the seconds and the processor seconds of each run, in the order of the turns."""
    runs = {count: {way: [] for way in WAYS} for count in PROCESSORS}
    for count, processors in PROCESSORS.items():
        for _ in range(times):
            printed = {}
            for way, words in WAYS.items():
                command = ["taskset", "-c", processors, program, "run", *SETTING, *words]
                took, processor, printed[way] = seconds(command, text.encode())
                runs[count][way].append((took, processor))
            if len({text for way, text in printed.items() if way != "--overlap"}) > 1:
                raise SystemExit("ways: they print different answers")
    return runs


def cells(runs, of_order_mode):
    """Two cells of the table: the seconds of a way, and how many times as fast as order mode it is."""
    took = [seconds for seconds, _ in runs]
    times = [order / own for (order, _), own in zip(of_order_mode, took)]
    said = "%.3f / %.3f (%.2f)" % (min(took), statistics.median(took), statistics.median(processor for _, processor in runs))
    return [said, "%.2f" % statistics.median(times)]


def table(told):
    """The result as the table of docs/PERFORMANCE.md."""
    head = ("%s, commit %s; of %d runs of each in turn the least / the middle seconds (the middle processor seconds), and how many"
            " times as fast as order mode: the middle over the turns of order mode's seconds by its own of the same turn.")
    lines = [textwrap.fill(head % (told["date"], told["commit"][:8], told["times"]), 100), ""]
    heads = ["on 1 processor, s"] + ["on %d, s" % count for count in list(PROCESSORS)[1:]]
    lines.append("| Lines | Way | %s |" % " | ".join("%s | × order mode" % it for it in heads))
    lines.append("|---|---|" + "---|---|" * len(PROCESSORS))
    for name, by_count in told["runs"].items():
        for way in WAYS:
            row = [cell for count in PROCESSORS for cell in cells(by_count[str(count)][way], by_count[str(count)]["order mode"])]
            lines.append("| %s | %s | %s |" % (name, way, " | ".join(row)))
    return "\n".join(lines)


def main():
    parser = argparse.ArgumentParser(description=__doc__.split("\n")[0])
    parser.add_argument("--program", default=os.path.join(ROOT, "earlybird"))
    parser.add_argument("--times", type=int, default=5)
    result_files.takes_files(parser, "time")
    given = parser.parse_args()
    if given.table:
        return print(table(result_files.read(given.table)))
    told = result_files.begun(times=given.times, runs={})
    for name, text in texts().items():
        told["runs"][name] = {str(count): ways for count, ways in figures(given.program, text, given.times).items()}
    result_files.keep(told, "modes-", given.out)
    print(table(told))


if __name__ == "__main__":
    main()
