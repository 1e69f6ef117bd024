#!/usr/bin/env python3
"""Times the program and an index in plain Rust in turn, over the same documents and queries.

    python3 bench/plain_rust.py [--program FILE] [--plain FILE] [--times N] [--out FILE]
    python3 bench/plain_rust.py --table FILE

The plain one is bench/plain: one map from words to lists, unshared, in memory that grows as it needs. It is built here where
--plain names none, which wants cargo and Debian's librust-serde-json-dev and librust-unicode-segmentation-dev. The program is the
launcher at the root, if no other is named.

It times 200,000 documents of each corpus of bench/instructions.py, and 100,000 queries of each of its classes over its 20,000 Zipf
documents: the processor time from the first line that is given to the last answer, without the start and the end of the process.
The process waits for input before, and again after: for the lines that are timed end with a query that nothing matches, of which
the answer tells that all of them were taken; and so do the documents that come before queries. Documents are told once more less
the start: by the processor time of whole runs, less that of runs over an empty input. A system clears the pages that a start takes
sooner where another start has just given them back, so each run over an empty input follows a run of the other program over the
documents, as each whole run does.

Each program runs N times (10), in turn with the other. Both have to print the same answers. The result has the seconds of each run;
the table tells how many a second the least of them makes, and the ratio of the two programs by the least and by the middle run.

Writes JSON to bench/results/ with the date and the commit, and prints it; --table prints such a file as the table of
docs/PERFORMANCE.md.
"""
import argparse
import hashlib
import os
import resource
import statistics
import subprocess
import sys
import tempfile
import textwrap
import threading

import result_files
from corpora import ROOT
from instructions import KINDS, QUERIED, QUERIED_DOCUMENTS, SETTINGS, made_lines, queries, zipf_lines
from running import give, started, wait_for_input

DOCUMENTS = 200_000
QUERIES = 100_000


def build():
    """Builds the plain program, and gives its path."""
    target = os.path.join(tempfile.gettempdir(), "earlybird-plain")
    folder = os.path.join(ROOT, "bench", "plain")
    subprocess.run(["cargo", "build", "--release", "--offline", "--quiet", "--target-dir", target], cwd=folder, check=True)
    return os.path.join(target, "release", "plain")


def of_whole_run(command, path):
    """The processor seconds of one run over the file, and a checksum of what it printed."""
    before = resource.getrusage(resource.RUSAGE_CHILDREN)
    with open(path, "rb") as file:
        done = subprocess.run(command, stdin=file, stdout=subprocess.PIPE, check=True)
    after = resource.getrusage(resource.RUSAGE_CHILDREN)
    took = after.ru_utime + after.ru_stime - before.ru_utime - before.ru_stime
    return took, hashlib.sha256(done.stdout).hexdigest()


def spent(process):
    """The processor nanoseconds of all threads of a process that waits for input."""
    wait_for_input(process)
    total = 0
    for task in os.listdir("/proc/%d/task" % process.pid):
        with open("/proc/%d/task/%s/schedstat" % (process.pid, task), encoding="utf-8") as file:
            total += int(file.read().split()[0])
    return total


def last_line(printed):
    """The last line of what is printed so far, where its end is there."""
    return bytes(printed[printed.rfind(b"\n", 0, -1) + 1:]) if printed.endswith(b"\n") else b""


def take_in(process, pipe, text, printed, number, documents):
    """Gives a text, and reads what is printed until the line of this number, its last one, is answered: over so many documents."""
    giving = threading.Thread(target=give, args=(pipe, text), daemon=True)
    giving.start()
    while not last_line(printed).startswith(b"%d " % number):
        some = os.read(process.stdout.fileno(), 1 << 20)
        if not some:
            raise SystemExit("turns: %s ended before its last answer" % process.args[0])
        printed += some
    if last_line(printed) != b"%d seen %d:\n" % (number, documents):
        raise SystemExit("turns: %s answers %s" % (process.args[0], last_line(printed).decode().strip()))
    giving.join()


def of_lines(command, before, lines):
    """The processor seconds of one process from the first of these lines to the answer of the last, after the lines before, and a
    checksum of what it printed. Each line before is a document."""
    parts = [[*part, "?1 absent\n"] for part in (before, lines) if part]
    documents = number = 0
    printed = bytearray()
    with started(command) as (process, pipe):
        for part in parts:
            start = spent(process)
            number += len(part)
            documents += sum(line.startswith("{") for line in part)
            take_in(process, pipe, "".join(part).encode(), printed, number, documents)
        took = spent(process) - start
        os.close(pipe)
        process.stdout.read()
    return took / 1e9, hashlib.sha256(printed).hexdigest()


def in_turn(commands, times, timed):
    """The seconds of each run of each command, by turns. Ends where their answers differ."""
    runs = [[] for _ in commands]
    for _ in range(times):
        told = [timed(command) for command in commands]
        if len({text for _, text in told}) > 1:
            raise SystemExit("turns: they print different answers")
        for its, (took, _) in zip(runs, told):
            its.append(took)
    return runs


def whole_runs(commands, times, text):
    """The seconds of each whole run of each command over this text, and of each over an empty input."""
    with tempfile.NamedTemporaryFile() as file:
        file.write(text.encode())
        file.flush()
        own, plain = commands
        turn = [(own, file.name), (plain, file.name), (own, os.devnull), (plain, file.name), (plain, os.devnull)]
        runs = [[of_whole_run(*it) for it in turn] for _ in range(times)]
    if len({it[at][1] for it in runs for at in (0, 1, 3)}) > 1:
        raise SystemExit("turns: they print different answers")
    seconds = [[it[at][0] for it in runs] for at in range(len(turn))]
    return {"runs": [seconds[0], seconds[1]], "starts": [seconds[2], seconds[4]]}


def row(name, told):
    """A row of the table: how many a second the least of the runs makes, and the ratio by the least and by the middle."""
    rates = []
    for of_runs in (min, statistics.median):
        starts = [of_runs(runs) for runs in told["starts"]] if "starts" in told else [0, 0]
        rates.append([told["count"] / max(of_runs(runs) - start, 0.001) for runs, start in zip(told["runs"], starts)])
    ratios = ["%.2f" % (own / plain) for own, plain in rates]
    return "| %s |" % " | ".join([name, *(format(round(rate), ",") for rate in rates[0]), *ratios])


def table(told):
    """The result as the table of docs/PERFORMANCE.md."""
    said = ("%s, commit %s; %d runs of each in turn, by processor time from the first line to the last answer; less the start, by that of"
            " whole runs less that of runs over an empty input. The least of the runs counts, and in the last column the middle one.")
    lines = [textwrap.fill(said % (told["date"], told["commit"][:7], told["times"]), 100, break_on_hyphens=False), ""]
    lines += ["| A second | Earlybird | plain Rust | Earlybird to plain Rust | by the middle |", "|---|---|---|---|---|"]
    return "\n".join(lines + [row(name, it) for name, it in told["seconds"].items()])


def main():
    parser = argparse.ArgumentParser(description=__doc__.split("\n")[0])
    parser.add_argument("--program", default=os.path.join(ROOT, "earlybird"))
    parser.add_argument("--plain", help="the plain program, which is built where none is named")
    parser.add_argument("--times", type=int, default=10)
    result_files.takes_files(parser, "time")
    given = parser.parse_args()
    if given.table:
        return print(table(result_files.read(given.table)))
    plain = given.plain or build()
    both = lambda settings: [[given.program, "run", *settings], [plain]]
    timed = lambda settings, before, lines: in_turn(both(settings), given.times, lambda command: of_lines(command, before, lines))
    told = result_files.begun(times=given.times, seconds={})

    def tell(name, count, **runs):
        """Keeps the seconds of each run of Earlybird and of plain Rust."""
        told["seconds"][name] = {"count": count, **runs}
        print(row(name, told["seconds"][name]), file=sys.stderr)

    for name, make in (("Zipf documents", zipf_lines), ("made documents", made_lines)):
        text = make(DOCUMENTS)
        tell(name, DOCUMENTS, runs=timed(SETTINGS, [], text.splitlines(keepends=True)))
        tell(name + " less the start", DOCUMENTS, **whole_runs(both(SETTINGS), given.times, text))
    held = zipf_lines(QUERIED_DOCUMENTS).splitlines(keepends=True)
    for kind in KINDS:
        tell(kind, QUERIES, runs=timed(QUERIED, held, queries(kind, QUERIES).splitlines(keepends=True)))
    result_files.keep(told, "plain-rust-", given.out)
    print(table(told))


if __name__ == "__main__":
    main()
