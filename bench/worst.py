#!/usr/bin/env python3
"""Makes the lines that cost an index the most, and prints the ten slowest by processor time.

    python3 bench/worst.py [--program FILE] [--times N] [--shown N] [--only WORD]

The lines are queries of up to 64 parts, counts, and messages beside 10,000 watches, in all forms: words, And, Or, Not, phrases and
windows, of words that are repeated and of different ones, where they match, match at the very end, and can't match. Each is tried
over few and many documents of 1,024 words, over short ones, and in several settings.

The processor time of lines is that of a whole run with them, told by the system, less that of the run without them: each the least
of N runs (2). Lines that stand behind the same ones are tried together, and then halves of the slowest lines alone, until the
slowest single ones are found, by far fewer runs than there are lines. A line that takes less than some milliseconds isn't told from
none, and nothing here is for comparing programs: that do bench/instructions.py and bench/plain_rust.py. Every line has to be
answered. Nothing of this runs in the gate. The program is the launcher at the root, if no other is named.
"""
import argparse
import heapq
import os
import random
import subprocess
import tempfile

from corpora import ROOT

SETTINGS = {"12 segments": [], "--terms 65536": ["--terms", "65536"], "64 small segments": ["--segments", "64", "--docs", "64", "--terms", "1024"]}
WORDS = 1024  # of a long document, at most
WATCHES = 10_000
PARTS = 64
# the answers that are asked for, and the buckets of a count
MOST, BUCKETS = 1000, 1000


def document(number, words):
    """A document line."""
    return '{"id":%d,"text":"%s"}\n' % (number, " ".join(words))


def texts(count):
    """What the documents are, by name: lists of words, `count` of them where they are long ones, as many words are in 8 times as many short ones."""
    chance = random.Random(84)
    some = ["w%d" % number for number in range(64)]
    return {
        "of a": [["a"] * WORDS] * count,
        "of a, 16 of them": [["a"] * WORDS] * 16,
        "of a, with b at the end": [["a"] * (WORDS - 1) + ["b"]] * count,
        "of a and b in turn": [["a", "b"] * (WORDS // 2)] * count,
        "of 63 a and b in turn": [(["a"] * 63 + ["b"]) * (WORDS // 64)] * count,
        "of 4 a and b in turn": [(["a"] * 4 + ["b"]) * (WORDS // 5)] * count,
        "of 31 a and b, and then c, in turn": [(["a", "b"] * 31 + ["c"]) * (WORDS // 63)] * count,
        "of 64 words in turn": [some * (WORDS // 64)] * count,
        "of 64 words at random": [[chance.choice(some) for _ in range(WORDS)] for _ in range(count)],
        "of 8 words, short": [[chance.choice(["a", "b", *some]) for _ in range(8)] for _ in range(8 * count)],
    }


def joined(parts, sign=" "):
    return sign.join(parts)


def queries():
    """Queries of up to 64 parts, by name."""
    a = lambda count: joined(["a"] * count)
    some = lambda first, last: joined("w%d" % number for number in range(first, last))
    found = {
        "a": "a",
        "63 times a": a(63),
        "62 times a, and b": a(62) + " b",
        "63 words": some(0, 63),
        "62 words, and one that isn't there": some(0, 62) + " nowhere",
        "63 words with OR": joined(("w%d" % number for number in range(63)), " OR "),
        "63 times a with OR": joined(["a"] * 63, " OR "),
        "not 31 words": joined("-w%d" % number for number in range(31)),
        "not one of 62": "-(%s)" % joined(("w%d" % number for number in range(62)), " OR "),
        "not what is nowhere": "-nowhere",
        "21 times a or b": joined(["(a OR b)"] * 21),
        "a phrase of 64 a": '"%s"' % a(64),
        "a phrase of 63 a and b": '"%s b"' % a(63),
        "a phrase of b and 63 a": '"b %s"' % a(63),
        "a phrase of a and b in turn": '"%s"' % joined(["a b"] * 32),
        "a phrase of 64 words": '"%s"' % some(0, 64),
        "a phrase of 64 words, the last before": '"%s w5"' % some(0, 63),
        "20 phrases a a b with OR": joined(['"a a b"'] * 20, " OR "),
        "31 phrases of two words with OR": joined(('"w%d w%d"' % (number, number + 32) for number in range(31)), " OR "),
        "a window that is too short": '"%s"~62' % a(64),
        "3 windows of 21 a, too short": joined(['"%s"~19' % a(21)] * 3, " OR "),
        "7 windows of 8 a, too short": joined(['"%s"~6' % a(8)] * 7, " OR "),
        "31 windows of two words with OR": joined(('"w%d w%d"~1023' % (number + 32, number) for number in range(31)), " OR "),
        "31 windows of a and b": joined(('"a b"~%d' % (number + 2) for number in range(31)), " OR "),
        "31 windows of b and a": joined(('"b a"~%d' % (1023 - number) for number in range(31)), " OR "),
        "8 minuses, nested": "-(" * 8 + "a b" + ")" * 8,
        "since in the middle": a(20) + " since:500 -since:900 " + a(20),
    }
    for reach in (63, 77, 125):
        found["a window of 32 a and b in turn, ~%d" % reach] = '"%s"~%d' % (joined(["a b"] * 32), reach)
    for reach in (63, 64, 77, 125, 128, 1023):
        found["a window of 64 a, ~%d" % reach] = '"%s"~%d' % (a(64), reach)
        found["a window of 63 a and b, ~%d" % reach] = '"%s b"~%d' % (a(63), reach)
        found["a window of b and 63 a, ~%d" % reach] = '"b %s"~%d' % (a(63), reach)
        found["a window of 64 words, ~%d" % reach] = '"%s"~%d' % (some(0, 64), reach)
        found["a window of 64 words backwards, ~%d" % reach] = '"%s"~%d' % (joined("w%d" % number for number in range(63, -1, -1)), reach)
    return found


def groups(count):
    """The lines that stand behind the same ones: what they are, the words of the run, what comes before, and each line with its name."""
    for setting, words in SETTINGS.items():
        for name, documents in texts(count if setting != "64 small segments" else count // 2).items():
            before = "".join(document(number, each) for number, each in enumerate(documents, 1))
            lines = [("?%d of %s" % (MOST, which), "?%d %s\n" % (MOST, query)) for which, query in queries().items()]
            for which in ("a", "63 words with OR", "not what is nowhere", "a window of 64 a, ~1023"):
                lines.append(("buckets of %s" % which, "#0+2*%d %s\n" % (BUCKETS, queries()[which])))
            yield "%s, %d documents %s" % (setting, len(documents), name), ["run", "--counts", *words], before, lines
    for which, query in queries().items():
        before = "".join("!%d %s\n" % (number, query) for number in range(WATCHES))
        lines = [("a message %s" % name, document(1, them[0])) for name, them in texts(1).items() if "16" not in name and "short" not in name]
        yield "%d watches of %s" % (WATCHES, which), ["run", "--watch"], before, lines


def slowest(runs, found, shown):
    """The slowest single lines: of the lines that were tried together the slowest are halved, until they are single."""
    waiting = []

    def tried(name, words, before, lines):
        heapq.heappush(waiting, (-runs.spent_by(words, before, "".join(line for _, line in lines), len(lines)), len(waiting), name, words, before, lines))

    for group in found:
        tried(*group)
    while waiting and shown:
        took, _, name, words, before, lines = heapq.heappop(waiting)
        if len(lines) == 1:
            shown -= 1
            yield -took, "%s: %s" % (name, lines[0][0])
        else:
            half = len(lines) // 2
            tried(name, words, before, lines[:half])
            tried(name, words, before, lines[half:])


class Runs:
    """Runs of the program, and the processor time of those that begin alike, which are measured once."""

    def __init__(self, program, times, folder):
        self.program, self.times = program, times
        self.path = os.path.join(folder, "lines")
        self._before = {}

    def seconds(self, words, text):
        """The least processor seconds of some runs over a text, and what they printed."""
        with open(self.path, "w", encoding="ascii") as file:
            file.write(text)
        least = None
        for _ in range(self.times):
            with open(self.path, "rb") as lines, tempfile.TemporaryFile() as out:
                process = subprocess.Popen([self.program, *words], stdin=lines, stdout=out)
                _, status, usage = os.wait4(process.pid, 0)
                process.returncode = os.WEXITSTATUS(status)
                out.seek(0)
                printed = out.read()
            took = usage.ru_utime + usage.ru_stime
            least = took if least is None else min(least, took)
        return least, printed

    def spent_by(self, words, before, lines, count):
        """The processor seconds that so many lines take behind others."""
        key = hash((*words, before))
        if key not in self._before:
            self._before[key] = self.seconds(words, before)[0]
        took, printed = self.seconds(words, before + lines)
        if lines.startswith("{"):
            answered = b"end: documents %d," % count in printed
        else:
            first = before.count("\n") + 1
            # (the last but the summary)
            rows = printed.splitlines()[-count - 1:-1]
            answered = len(rows) == count and all(row.startswith(b"%d " % (first + at)) and b" refused: " not in row for at, row in enumerate(rows))
        if not answered:
            raise SystemExit("%s: not answered: %.200s" % (words, lines))
        return max(0.0, took - self._before[key])


def main():
    parser = argparse.ArgumentParser(prog="bench/worst.py")
    parser.add_argument("--program", default=os.path.join(ROOT, "earlybird"))
    parser.add_argument("--times", type=int, default=2, metavar="N", help="runs of each, of which the least counts (2)")
    parser.add_argument("--shown", type=int, default=10, metavar="N", help="the lines that are printed (10)")
    parser.add_argument("--documents", type=int, default=1536, metavar="N", help="long documents (1536)")
    parser.add_argument("--only", default="", metavar="WORD", help="the lines alone whose documents or watches have this in their names")
    asked = parser.parse_args()
    with tempfile.TemporaryDirectory(prefix="earlybird-worst-") as folder:
        runs = Runs(asked.program, asked.times, folder)
        found = (group for group in groups(asked.documents) if asked.only in group[0])
        lines = sorted(slowest(runs, found, asked.shown), reverse=True)
    print("| processor time, seconds | a line |\n|---|---|")
    for took, name in lines:
        print("| %.3f | %s |" % (took, name))


if __name__ == "__main__":
    main()
