#!/usr/bin/env python3
"""compare.py BEFORE AFTER [--inputs N] [--repeated N] [--seed N] [--feed PROGRAM]

Runs two builds of the program on the same made inputs, in each way to run, and compares byte for byte what they print, what
they say on their error output, and their status. Ends with 1 at the first difference, and leaves that input in a file.

With --overlap and --workers the bytes of an input settle all but how many messages an answer saw; so there all messages stand
before all queries, which settles that too. --feed names the program that BEFORE is for feeds, where that is one of its own: it
takes the words behind `feed`.

Behind these, AFTER answers N queries (500) of words, phrases and windows of up to 64 terms that repeat few words, over messages
that do so too, and a plain scan says what is to be printed (crates/golden_runs/plain.py).
"""
import argparse
import json
import os
import random
import subprocess
import sys
import tempfile

sys.path.insert(0, os.path.join(os.path.dirname(os.path.abspath(__file__)), "..", "crates", "golden_runs"))
import plain

WORDS = "rain berlin sunset march tram late Straße STRASSE can't believe 🌅 train vienna é e\u0301 ß 42 1,024 a b c d".split()
SETTINGS = [[], ["--segments", "1"], ["--segments=2", "--docs=3"], ["--docs", "40", "--segments", "3"]]


def word(rng):
    return rng.choice(WORDS) if rng.random() < 0.8 else "w%d" % rng.randrange(2000)


def text(rng, most):
    return " ".join(word(rng) for _ in range(rng.randrange(most + 1)))


def message(rng, number):
    pick = rng.random()
    if pick < 0.8:
        made = {"id": number, "text": text(rng, 12)}
        if rng.random() < 0.3:
            made = {"user": "mara", **made, "more": {"text": [1, None, "x"]}}
        return json.dumps(made, ensure_ascii=rng.random() < 0.5)
    return rng.choice([
        '{"id":"7","text":"a"}', '{"text":"a"}', '{"id":7}', '{"id":7,"text":7}', '{"id":-1,"text":"a"}', '{"id":7.0,"text":"a"}',
        '{"id":1e3,"text":"a"}', '{"id":18446744073709551616,"text":"a"}', '{"id":3,"id":4,"text":"x","text":"a"}', '{"id":7,"text":"a"', '{}',
        '{"id":7,"text":"\\ud800"}', '{"id":7,"text":"a"} x', json.dumps({"id": number, "text": text(rng, 1100)}),
        json.dumps({"id": number, "text": "x" * rng.choice([255, 256, 16384, 16385])}), "{",
    ])


def part(rng, depth):
    pick = rng.random()
    if pick < 0.5 or depth == 0:
        return word(rng)
    if pick < 0.6:
        return '"%s"' % text(rng, 3)
    if pick < 0.68:
        return '"%s"~%d' % (text(rng, 3), rng.choice([0, 1, 5, 1023, 1024]))
    if pick < 0.76:
        return "since:%d" % rng.choice([0, 3, 10, 1000, 2**64])
    if pick < 0.84:
        return "-" + part(rng, depth - 1)
    return "(%s)" % asked(rng, depth - 1)


def asked(rng, depth):
    return rng.choice([" ", " OR "]).join(part(rng, depth) for _ in range(rng.randrange(1, 4)))


def query(rng):
    k = rng.choice(["1", "2", "5", "10", "1000", "0", "1001", "0003", "", "x"] if rng.random() < 0.2 else ["1", "3", "10"])
    if rng.random() < 0.05:
        return "?%s %s" % (k, rng.choice(["(" * 17, "a " * 65, "(a", '"a', "OR", "a OR", ")", "~5", "- ", ""]))
    return "?%s %s" % (k, asked(rng, 2))


def watch(rng):
    n = rng.choice(["1", "2", "3", "4294967295", "4294967296", "", "x"])
    return "!" + n if rng.random() < 0.3 else "!%s %s" % (n, asked(rng, 2))


def other(rng):
    return rng.choice([b"", b"", b"x", b"[]", b"!", b"\xff", b"?\xff", b"{\xff", b"?5 a\r", b"\r", b"#", b"y" * 65536, b"y" * 65537, b"{" + b" " * 65536])


def lines(rng, ordered, watches, rising):
    """Lines of an input; in an ordered one no message stands behind a query."""
    made, number = [], 0
    for _ in range(rng.choice([0, 1, 5, 20, 60, 150])):
        number = number + rng.randrange(1, 4) if rising and rng.random() < 0.9 else rng.randrange(1000)
        pick = rng.random()
        if pick < 0.55:
            made.append((0, message(rng, number).encode()))
        elif pick < 0.85:
            made.append((1, query(rng).encode()))
        elif pick < 0.93 and watches:
            made.append((0, watch(rng).encode()))
        else:
            line = other(rng)
            made.append((1 if line.startswith(b"?") else 0, line))
    if ordered:
        made.sort(key=lambda it: it[0])
    end = rng.choice([b"\n", b"\n", b"\r\n"])
    whole = b"".join(line + end for _, line in made)
    return whole[: -len(end)] if made and rng.random() < 0.2 else whole


def case(rng, at):
    """The words of a command line, and the bytes of an input; what is to be loaded has the words that save it before."""
    setting = rng.choice(SETTINGS) + ["--terms", "1024"]
    stats = ["--stats"] if rng.random() < 0.4 else []
    way = ["run", "run", "overlap", "workers", "parts", "watch", "feed", "save", "load", "bench"][at % 10]
    if way == "bench":
        return ["bench", str(rng.randrange(2**64)), str(rng.choice([1, 2, 999, 1000, 1001, 3000]))], b"", None
    if way == "overlap":
        return ["run", "--overlap"] + stats + setting, lines(rng, True, False, False), None
    if way == "workers":
        return ["run", "--workers", str(rng.randrange(1, 5))] + stats + setting, lines(rng, True, False, False), None
    if way == "parts":
        return ["run", "--parts", str(rng.randrange(1, 6))] + stats + setting, lines(rng, False, False, True), None
    if way == "watch":
        return ["run", "--watch"] + stats + setting, lines(rng, False, True, False), None
    if way == "feed":
        return ["feed", "--keep", str(rng.randrange(2, 5))] + setting, lines(rng, False, False, False), None
    if way == "save":
        return ["save"] + setting, lines(rng, False, False, False), None
    if way == "load":
        return ["load"] + stats, lines(rng, False, False, False), ["save"] + setting
    words = ["run"] + stats + setting
    if rng.random() < 0.1:
        words += rng.choice([["--watch", "--overlap"], ["--docs", "0"], ["--terms", "1000"], ["x"], ["--stats=1"], [""]])
    return words, lines(rng, False, False, False), None


FEW = "a b c".split()
HOLDING = [["--terms", "1024"], ["--terms", "1024", "--segments", "64", "--docs", "2"]]


def repeating(rng, count):
    """This many words: units of few words, each some times in a row, and at times another word between."""
    few, made = FEW[: rng.randrange(1, 4)], []
    while len(made) < count:
        unit = [rng.choice(few) for _ in range(rng.choice([1, 1, 2, 2, 3, 5]))]
        made += unit * rng.choice([1, 2, 4, 16, 31, 32, 64])
        made += [rng.choice(FEW)] if rng.random() < 0.7 else []
    return made[:count]


def window(terms, reach):
    """The plain scan of a window: from each place of its first term, each other term at the next place where it is."""

    def last(words, place):
        for term in terms[1:]:
            place = next((at for at in range(place + 1, len(words)) if words[at] == term), None)
            if place is None:
                return None
        return place

    def within(words, place):
        end = last(words, place)
        return end is not None and end - place <= reach

    return lambda doc, words: any(words[place] == terms[0] and within(words, place) for place in range(len(words)))


def repeated_part(rng, most):
    """A part of a query of at most so many terms, how many it has, and its plain scan."""
    terms = repeating(rng, min(most, rng.choice([1, 2, 2, 3, 3, 4, 5, 8, 16, 31, 32, 62, 63, 64])))
    count, told = len(terms), " ".join(terms)
    if count == 1:
        return terms[0], 1, plain.word(terms[0])
    if rng.random() < 0.25:
        return '"%s"' % told, count, plain.phrase(told)
    reach = max(1, min(1023, rng.choice([count - 2, count - 1, count - 1, count, count + 1, count + rng.randrange(count + 1), 2 * count, 1023])))
    return '"%s"~%d' % (told, reach), count, window(terms, reach)


def repeated_query(rng):
    """A query of at most 64 parts, and its plain scan."""
    first, size, scan = repeated_part(rng, 64)
    pick = rng.random()
    if pick < 0.6 or size > 60:
        return first, scan
    second, _, other = repeated_part(rng, 62 - size)
    if pick < 0.75:
        return "%s %s" % (first, second), plain.each(scan, other)
    if pick < 0.9:
        return "%s OR %s" % (first, second), plain.some(scan, other)
    return "%s -%s" % (first, second), plain.each(scan, plain.without(other))


def repeated(rng, asked_for):
    """The words of a command line, the lines of an input with this many queries, and what is to be printed."""
    documents, given, wanted = [], [], []
    for _ in range(rng.randrange(1, 25)):
        documents.append((len(documents) * 7, repeating(rng, rng.choice([1, 2, 5, 40, 63, 64, 65, 200, 1023, 1024]))))
        given.append(plain.LINE % (documents[-1][0], " ".join(documents[-1][1])))
    for _ in range(asked_for):
        told, scan = repeated_query(rng)
        k = rng.choice([1, 3, 1000])
        given.append("?%d %s" % (k, told))
        wanted.append(plain.answer(len(given), documents, k, scan))
        if rng.random() < 0.3:
            documents.append((len(documents) * 7, repeating(rng, rng.choice([2, 64, 300]))))
            given.append(plain.LINE % (documents[-1][0], " ".join(documents[-1][1])))
    wanted.append("end: documents %d, queries %d, refused 0" % (len(documents), asked_for))
    return ["run", *rng.choice(HOLDING)], given, wanted


def differs_from_plain(program, queries, seed):
    """Asks this many queries with repeated words; prints the first answer that a plain scan doesn't come to, and whether there is one."""
    asked_so_far = 0
    while asked_so_far < queries:
        rng = random.Random("repeated %d %d" % (seed, asked_so_far))
        count = min(10, queries - asked_so_far)
        words, given, wanted = repeated(rng, count)
        status, printed, said = run(program, words, "".join(line + "\n" for line in given).encode())
        lines_printed = printed.decode().splitlines()
        if status or said or lines_printed != wanted:
            with tempfile.NamedTemporaryFile("w", prefix="compare-", suffix=".input", delete=False) as left:
                left.write("".join(line + "\n" for line in given))
            print(f"{' '.join(words)} < {left.name}: status {status}, {said!r:.200}")
            for line, plainly in zip(lines_printed, wanted):
                if line != plainly:
                    print(f"printed: {line:.1000}\nplainly: {plainly:.1000}")
                    break
            return True
        asked_so_far += count
    print(f"{queries} queries with repeated words, as a plain scan answers")
    return False


def run(program, words, given):
    ran = subprocess.run([program, *words], input=given, capture_output=True, timeout=120)
    return ran.returncode, ran.stdout, ran.stderr


def main():
    words = argparse.ArgumentParser(description=__doc__, formatter_class=argparse.RawDescriptionHelpFormatter)
    words.add_argument("before")
    words.add_argument("after")
    words.add_argument("--inputs", type=int, default=2000)
    words.add_argument("--repeated", type=int, default=500, metavar="N", help="queries with repeated words (500)")
    words.add_argument("--seed", type=int, default=1)
    words.add_argument("--feed")
    asked_for = words.parse_args()
    counts = {}
    for at in range(asked_for.inputs):
        rng = random.Random(asked_for.seed * 1_000_003 + at)
        words_of, given, saves = case(rng, at)
        if saves:
            image = run(asked_for.before, saves, lines(rng, False, False, False))[1]
            cut = rng.random()
            if cut < 0.1:
                image = image[: rng.randrange(len(image) + 1)]
            elif cut < 0.2 and image:
                spoilt = bytearray(image)
                spoilt[rng.randrange(len(spoilt))] ^= 1 << rng.randrange(8)
                image = bytes(spoilt)
            given = image + given
        program, behind = asked_for.before, words_of
        if words_of[0] == "feed" and asked_for.feed:
            program, behind = asked_for.feed, words_of[1:]
        old, new = run(program, behind, given), run(asked_for.after, words_of, given)
        if old != new:
            with tempfile.NamedTemporaryFile("wb", prefix="compare-", suffix=".input", delete=False) as left:
                left.write(given)
            print(f"input {at} differs: {' '.join(words_of)} < {left.name}")
            for name, a, b in zip(("status", "printed", "said"), old, new):
                if a != b:
                    print(f"{name} before: {a!r:.2000}\n{name} after:  {b!r:.2000}")
            return 1
        key = f"{words_of[0]} {words_of[1]}" if words_of[0] == "run" and words_of[1] in ("--overlap", "--workers", "--parts", "--watch") else words_of[0]
        counts[key] = counts.get(key, 0) + 1
    print(f"{asked_for.inputs} inputs, the same byte for byte: " + ", ".join(f"{key} {n}" for key, n in sorted(counts.items())))
    return int(differs_from_plain(asked_for.after, asked_for.repeated, asked_for.seed))


if __name__ == "__main__":
    sys.exit(main())
