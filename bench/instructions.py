#!/usr/bin/env python3
"""Counts the instructions of a document and of a query by callgrind, which are the same however busy a machine is.

    python3 bench/instructions.py [--program FILE] [--plain FILE] [--documents N] [--queries N] [--out FILE]
    python3 bench/instructions.py --table FILE

Of each corpus N documents (5,000) in order mode, and of each class N queries (2,000) over the first 20,000 Zipf documents in
twelve segments of 4,000: a rare word, a common one, both of two, one of two, a phrase of two and a window of two. What an empty
input takes, or the documents alone, is taken off. Bytes that one instruction sets to 0 (`rep stos`), which callgrind counts one by
one, are told apart.

With --plain, the same documents and queries by an index in plain Rust (bench/plain, which bench/plain_rust.py builds) stand beside.

Then each class once more over 20,000 documents in one segment, which holds them in live slices, and over the same segment with one
document in the next, which closes it, so that it is read from packed lists. And so of leaps: the word `a` stands in each of these
documents, and another word in each n-th of them; an And of both passes n postings of `a` for each match.

And each class over 10,080 documents in many small segments, 63 of an index and 51 of a feed, of which the last is open; and beside
these an And of two words that some segments have, and none has both.

Prints JSON, and writes it to bench/results/ with the date and the commit; --table prints such a file as the tables of
docs/PERFORMANCE.md. Takes some minutes, and wants valgrind and objdump; it is no part of the gate.
"""
import argparse
import glob
import json
import os
import random
import re
import subprocess
import tempfile
import textwrap

import result_files
from corpora import ROOT, Zipf, made_words

SETTINGS = ["--segments", "12", "--docs", "20000", "--terms", "65536"]
QUERIED = ["--segments", "12", "--docs", "4000", "--terms", "65536"]
QUERIED_DOCUMENTS = 20_000
ONE_SEGMENT = ["--segments", "2", "--docs", "20000", "--terms", "65536"]
SMALL = {  # the words of a run, and how many documents a segment of it has
    "63 segments": (["run", "--segments", "64", "--docs", "160", "--terms", "4096"], 160),
    "a feed": (["feed", "--segments", "48", "--docs", "200", "--terms", "4096"], 200),
}
SMALL_DOCUMENTS = 63 * 160
LEAPS = [1, 3, 10, 30, 100, 1_000, 10_000]
LEAP_QUERIES = 200


def spelled(rank):
    """A word of this rank: some begin with a capital letter, and some have a letter that isn't ASCII."""
    word = "z%d" % rank
    if rank % 20 < 3:
        return "zü%d" % rank
    return word.capitalize() if rank % 9 == 0 else word


def document(number, words):
    return '{"id":%d,"text":"%s"}\n' % (number, " ".join(words))


def zipf_ranks(count):
    """The ranks of the words of Zipf documents."""
    zipf = Zipf(100_000, 1)
    return [[zipf.rank() for _ in range(15)] for _ in range(count)]


def zipf_lines(count):
    return "".join(document(m, map(spelled, ranks)) for m, ranks in enumerate(zipf_ranks(count)))


def made_lines(count):
    return "".join(document(m, made_words(m)) for m in range(count))


def queries(kind, count):
    """Query lines of one class, each for the newest 10."""
    chance = random.Random(3)
    common, rare = lambda: spelled(chance.randrange(20, 200)), lambda: spelled(chance.randrange(5_000, 50_000))
    asked = {
        "a rare word": rare,
        "a common word": common,
        "both of two": lambda: "%s %s" % (common(), common()),
        "one of two": lambda: "%s OR %s" % (common(), common()),
        "a phrase": lambda: '"%s %s"' % (spelled(chance.randrange(0, 20)), common()),
        "a window": lambda: '"%s %s"~5' % (spelled(chance.randrange(0, 20)), common()),
    }[kind]
    return "".join("?10 %s\n" % asked() for _ in range(count))


KINDS = ["a rare word", "a common word", "both of two", "one of two", "a phrase", "a window"]


def apart(count, size):
    """Query lines of two words each that stand in some segments of this many documents, and never both in one."""
    segments = {}
    for m, ranks in enumerate(zipf_ranks(SMALL_DOCUMENTS)):
        for rank in ranks:
            segments.setdefault(rank, set()).add(m // size)
    chance, found = random.Random(4), []
    some = sorted(rank for rank in segments if 200 <= rank < 5_000)
    while len(found) < count:
        one, other = chance.choice(some), chance.choice(some)
        if not segments[one] & segments[other]:
            found.append("?10 %s %s\n" % (spelled(one), spelled(other)))
    return "".join(found)


def leap_lines(count):
    """Documents that all hold `a`, and each n-th of them `b` and n, for each n of the leaps."""
    return "".join(document(m, ["a"] + ["b%d" % n for n in LEAPS if m % n == 0]) for m in range(count))


def filling(file, known={}):
    """The addresses of a file's instructions that set many bytes at once."""
    if file not in known:
        code = subprocess.run(["objdump", "-d", "--no-show-raw-insn", file], stdout=subprocess.PIPE, stderr=subprocess.DEVNULL).stdout.decode()
        known[file] = {int(at, 16) for at in re.findall(r"^\s*([0-9a-f]+):\s+rep stos", code, re.M)}
    return known[file]


def counted(program, words, text):
    """The instructions of a run, and those of them that set bytes."""
    with tempfile.TemporaryDirectory() as folder:
        out = os.path.join(folder, "out")
        how = ["valgrind", "--tool=callgrind", "--dump-instr=yes", "--compress-pos=no", "--compress-strings=no", "--callgrind-out-file=" + out]
        done = subprocess.run([*how, program, *words], input=text.encode(), stdout=subprocess.DEVNULL, stderr=subprocess.PIPE)
        if done.returncode not in (0, 1):
            raise SystemExit(done.stderr.decode())
        every = sets = 0
        file, called = "", False
        with open(out, encoding="utf-8") as lines:
            for line in lines:
                if line.startswith("ob="):
                    file = line[3:].strip()
                elif line.startswith("calls="):
                    called = True
                elif line.startswith("0x"):
                    at, *_, cost = line.split()
                    # (what follows 'calls=' is the cost of what was called, which stands there itself)
                    if not called:
                        every += int(cost)
                        sets += int(cost) if os.path.isfile(file) and int(at, 16) in filling(file) else 0
                    called = False
        return every, sets


def each(more, less, count):
    return {"instructions": round((more[0] - more[1] - less[0] + less[1]) / count), "bytes set": round((more[1] - less[1]) / count)}


def by_each(count, held, asked, given):
    """What the start, a document of each corpus and a query of each class take."""
    start = count(SETTINGS, "")
    before = count(QUERIED, held)
    told = {
        "the start": {"instructions": start[0] - start[1], "bytes set": start[1]},
        "a Zipf document": each(count(SETTINGS, zipf_lines(given.documents)), start, given.documents),
        "a made document": each(count(SETTINGS, made_lines(given.documents)), start, given.documents),
    }
    told.update((kind, each(count(QUERIED, held + text), before, given.queries)) for kind, text in asked.items())
    return told


def live_and_packed(count, held, asked, times):
    """What a query takes over a segment that isn't closed, and over the same one converted, of each of these query texts."""
    told = {}
    last = document(QUERIED_DOCUMENTS, ["last"])
    for state, lines in (("live", held), ("packed", held + last)):
        before = count(ONE_SEGMENT, lines)
        told[state] = {name: each(count(ONE_SEGMENT, lines + text), before, times)["instructions"] for name, text in asked.items()}
    return told


def in_small_segments(count, asked, times):
    """What a query takes over many small segments, of each of these query texts."""
    told, held = {}, zipf_lines(SMALL_DOCUMENTS)
    for name, (words, size) in SMALL.items():
        before = count(words, held)
        texts = {**asked, "both of two, apart": apart(times, size)}
        told[name] = {kind: each(count(words, held + text), before, times)["instructions"] for kind, text in texts.items()}
    return told


def result_before(path):
    """The newest result of the folder that is older than this one, if there is one."""
    older = [it for it in sorted(glob.glob(os.path.join(os.path.dirname(path), "instructions-*.json"))) if it < path]
    if not older:
        return None
    with open(older[-1], encoding="utf-8") as file:
        return json.load(file)


def table(told, before=None):
    """The result as the tables of docs/PERFORMANCE.md, beside one of the program before."""
    number = "{:,}".format
    filled = lambda it: textwrap.fill(it, 100, break_on_hyphens=False, break_long_words=False)
    lines = [filled("%s, commit %s; %s documents of a corpus, %s queries of a class, each for the newest ten."
                    % (told["date"], told["commit"][:7], number(told["documents"]), number(told["queries"]))), ""]
    plain = told.get("plain", {})
    heads = ["What", "instructions", "bytes set to 0"] + ["plain Rust"] * bool(plain)
    lines += ["| %s |" % " | ".join(heads), "|%s" % ("---|" * len(heads))]
    for name, it in told["each"].items():
        cells = [name, number(it["instructions"]), number(it["bytes set"])] + ([number(plain[name]["instructions"])] if plain else [])
        lines.append("| %s |" % " | ".join(cells))
    of_before = ", and by the program before, commit %s" % before["commit"][:7] if before else ""
    lines += ["", filled("Over one segment of 20,000 documents, live and packed%s:" % of_before), ""]
    lines += both_kinds("A query", told["classes"], before and before["classes"])
    lines += ["", filled("An And of a word in each document and one in each n-th, for the newest 100, a match:"), ""]
    lines += both_kinds("n", told["leaps"], before and before["leaps"])
    if "small" in told:
        words = "%s documents in segments of 160, and in a feed with segments of 200; in the last row no segment has both words:"
        lines += ["", filled("Over " + words % number(SMALL_DOCUMENTS)), ""]
        lines += side_by_side("A query", told["small"], before and before.get("small"))
    return "\n".join(lines)


def both_kinds(head, found, before):
    """A table of what was found over live and over packed lists."""
    to_live = {name: "%.2f" % (found["packed"][name] / live) for name, live in found["live"].items()}
    return side_by_side(head, found, before, {"packed to live": to_live})


def side_by_side(head, found, before, more={}):
    """A table of what was found in some states, with more columns, and with what was found before."""
    number = "{:,}".format
    heads = [head, *found, *more] + ["%s before" % state for state in found] * bool(before)
    lines = ["| %s |" % " | ".join(heads), "|%s" % ("---|" * len(heads))]
    for name in next(iter(found.values())):
        cells = [name, *(number(of[name]) for of in found.values()), *(of[name] for of in more.values())]
        cells += [number(before[state][name]) for state in found] if before else []
        lines.append("| %s |" % " | ".join(cells))
    return lines


def main():
    parser = argparse.ArgumentParser(description=__doc__.split("\n")[0])
    parser.add_argument("--program", default=os.path.join(ROOT, "dist", "earlybird"))
    parser.add_argument("--plain", metavar="FILE", help="the program of bench/plain, to be counted beside")
    parser.add_argument("--documents", type=int, default=5_000)
    parser.add_argument("--queries", type=int, default=2_000)
    result_files.takes_files(parser, "count")
    given = parser.parse_args()
    if given.table:
        return print(table(result_files.read(given.table), result_before(given.table)))
    count = lambda settings, text: counted(given.program, ["run", *settings], text)
    told = result_files.begun(documents=given.documents, queries=given.queries)
    held = zipf_lines(QUERIED_DOCUMENTS)
    asked = {kind: queries(kind, given.queries) for kind in KINDS}
    told["each"] = by_each(count, held, asked, given)
    if given.plain:
        told["plain"] = by_each(lambda settings, text: counted(given.plain, [], text), held, asked, given)
    told["classes"] = live_and_packed(count, held, asked, given.queries)
    # each n-th document has the word, so that few matches are there for a great n
    matches = {str(n): min(100, QUERIED_DOCUMENTS // n) for n in LEAPS}
    leaps = live_and_packed(count, leap_lines(QUERIED_DOCUMENTS), {str(n): "?100 a b%d\n" % n * LEAP_QUERIES for n in LEAPS}, LEAP_QUERIES)
    told["leaps"] = {state: {name: round(it / matches[name]) for name, it in whole.items()} for state, whole in leaps.items()}
    told["small"] = in_small_segments(lambda words, text: counted(given.program, words, text), asked, given.queries)
    result_files.keep(told, "instructions-", given.out)
    print(table(told))


if __name__ == "__main__":
    main()
