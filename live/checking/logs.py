"""What is found in logs, against a plain look at each line: small programs, so that several follow one another."""
import gzip
import json
import os
import random

from comparing import check
from earlybird_live import documents, loading
from earlybird_logs.marks import met
from earlybird_logs.pieces import apart
from earlybird_logs.query import read
from earlybird_logs.words import words

from .loads import lines_at, loaded, write

VOCABULARY = ["w%d" % n for n in range(40)] + ["Straße", "can't", "a.b", "x:y", "über", "e-mail", "ERR_TIMEOUT"]
QUERIES = ["w1", "w1 w2", "w1 -w2", '"w3 w4"', "w5 OR STRASSE", "-w1 -w2 -w3", '"w6 w7"~4', "can't (w1 OR w2)", "e-mail", "err_timeout", "since:100 w1", "a.b", "b", "timeout", "a b", "x:y a.b", "zzz", "-zzz"]


def made_line(chance):
    """A line: mostly of some words, of which one comes once; else blank, of other bytes, with too many words, or too long."""
    pick = chance.random()
    if pick < 0.04:
        return b""
    if pick < 0.06:
        return b"w1 \xff\xfe latin"
    if pick < 0.07:
        return " ".join("w%d" % (n % 40) for n in range(1200)).encode()
    if pick < 0.075:
        return b"x" * 70000 + b" w1"
    text = " ".join(chance.choices(VOCABULARY, k=chance.randrange(1, 12)))
    return (text + " id%d" % chance.randrange(10**9)).encode() + (b"\r" if pick > 0.97 else b"")


def words_of(line):
    """The words by which a line is found; None of a blank one."""
    text = apart(line.decode("utf-8", "replace"))
    text = text if documents.fits(text) else text[:documents.CUT]
    return [it for _, _, it in words(text)] if line.strip() else None


def found_plainly(texts, query):
    """The numbers of the lines, by the words of each, that meet a query, newest first."""
    tree = read(query, (), apart)
    return [number for number, there in enumerate(texts, 1) if there is not None and met(tree, there, number, {}) is not None][::-1]


def all_of(loader, query):
    """The numbers of all lines that a query finds, newest first."""
    return sorted((it for page in loader.pages(query) for it in page), reverse=True)


def with_small_programs(least, most):
    """Gives the sizes of programs as they were, which these replace."""
    before = loading.LEAST, loading.MOST_PART
    loading.LEAST, loading.MOST_PART = least, most
    return before


def random_logs(folder, rounds):
    """The newest lines, older ones and all, in files with and without an end of the last line, also compressed."""
    before = with_small_programs(1 << 20, 2 << 20)
    for seed in range(rounds):
        chance = random.Random(seed)
        lines = [made_line(chance) for _ in range(chance.randrange(1500, 4000))]
        path = write(os.path.join(folder, "random.log"), b"\n".join(lines) + (b"\n" if seed % 2 else b""))
        if seed % 2:
            with open(path, "rb") as file, gzip.open(path + ".gz", "wb") as packed:
                packed.write(file.read())
            path += ".gz"
        texts = list(map(words_of, lines))
        with loaded([path]) as loader:
            check("seed %d: several programs" % seed, True, len(loader.parts.all) > 1)
            for query in QUERIES:
                want = found_plainly(texts, query)
                check("seed %d, %s: the newest" % (seed, query), want[:20], loader.ask(query, 20)[1])
                if len(want) > 20:
                    check("seed %d, %s: older ones" % (seed, query), want[20:40], loader.ask(query, 20, want[19])[1])
                check("seed %d, %s: all" % (seed, query), want, all_of(loader, query))
                check("seed %d, %s: how many" % (seed, query), (loader.ask(query, 1)[0], len(want)), loader.count(query))
            some = sorted(chance.sample(range(1, len(lines) + 1), 50))
            check("seed %d: lines again" % seed, [(at, lines[at - 1][:-1] if lines[at - 1].endswith(b"\r") else lines[at - 1]) for at in some],
                  [(line, data) for _, _, line, data in loader.blocks.lines(some)])
            check("seed %d: nothing was lost, and no fault" % seed, (0, None), (loader.lost, loader.fault))
    loading.LEAST, loading.MOST_PART = before


def dropped(folder):
    """With so little memory that the oldest go, a plain look finds there what is left; and nothing of the others is held."""
    before = with_small_programs(1 << 20, 1 << 20)
    lines = [made_line(random.Random(n)) for n in range(6000)]
    path = write(os.path.join(folder, "random.log"), b"\n".join(lines) + b"\n")
    with loaded([path], memory=3 << 20) as loader:
        first = loader.parts.first
        check("the oldest were dropped", True, loader.parts.dropped > 0 and first > 1)
        got, want = all_of(loader, "w1"), found_plainly(map(words_of, lines), "w1")
        check("from there on all are there", [it for it in want if it >= first], [it for it in got if it >= first])
        check("and what is older is a match", [], [it for it in got if it not in want])
        check("what is there is counted", len(got), loader.count("w1")[1])
        check("blocks of dropped lines are forgotten", [], lines_at(loader, [1]))
        check("and others aren't", [lines[it - 1][:-1] if lines[it - 1].endswith(b"\r") else lines[it - 1] for it in got], list(reversed(lines_at(loader, got[::-1]))))
    loading.LEAST, loading.MOST_PART = before


def json_lines(folder):
    """Members as text and as fields."""
    rows = [{"at": n, "level": ["info", "error"][n % 2], "message": "w%d of %d" % (n % 7, n), "deep": {"a": [n]}} for n in range(3000)]
    path = os.path.join(folder, "a.jsonl")
    write(path, "".join(json.dumps(it) + "\n" for it in rows) + "{broken w1\nplain w1\n" + json.dumps({"message": 5, "level": "w1"}) + "\n")
    with loaded([path]) as loader:
        check("JSON: fields of the first lines", True, "level" in loader.fields)
        check("JSON: a field", [n + 1 for n in range(2999, 2999 - 40, -2)], loader.ask("level:error", 20)[1])
        check("JSON: lines that are none are texts", [3003, 3002, 3001], loader.ask("w1", 3)[1])
        check("JSON: members beside the text are words of it", [3000], loader.ask("at 2999", 5)[1])
        check("JSON: all", 3003, loader.ask("w1", 1)[0])
        # (429 rows, 1, 8 .. 2997, and the three lines behind them; each second row; behind line 2990 the rows 2990 and 2997, and the three)
        counted = [loader.count(*asked)[1] for asked in (("w1",), ("level:error",), ("-level:error",), ("w1", 2990), ("w1 level:none",))]
        check("JSON: counts", [432, 1500, 1503, 5, 0], counted)
    write(path, "".join(json.dumps({"id": 7, "text": "w1 %d" % n, "user": "Mara"}) + " \n" for n in range(50)))
    with loaded([path]) as loader:
        check("JSON: ids of their own are members like others", list(range(50, 30, -1)), loader.ask("w1 user:mara", 20)[1])
    with loaded([path], text="user") as loader:
        check("JSON: --text", 50, len(loader.ask('"mara"', 100)[1]))
    other = write(os.path.join(folder, "b.log"), "w1 of b\n")
    with loaded([path, other]) as loader:
        check("several files: one as a field", ([51], 51), (loader.ask("w1 file:b.log", 5)[1], loader.ask("w1", 1)[0]))
    with loaded([path, other], fields="user") as loader:
        check("several files: one beside fields that are named", [50], loader.ask("w1 file:a.jsonl user:mara", 1)[1])
