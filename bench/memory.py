#!/usr/bin/env python3
"""How many messages a size of --memory holds: in `run` those before the first that is refused as full, in `feed` those that are kept at the
end. Messages have 15 words, the same at each run: by Zipf's law of 100,000 words, and lines of a log, of which one word never comes again.
Prints the rows of docs/MANUAL.md: bench/memory.py [SIZE..] [--most N]"""
import argparse
import itertools
import os
import random
import subprocess
import threading

PROGRAM = os.path.join(os.path.dirname(os.path.dirname(os.path.abspath(__file__))), "earlybird")
WORDS = 15


def by_zipf(chance):
    """Messages of 15 words by Zipf's law: of 100,000 words."""
    weights = list(itertools.accumulate(1 / at for at in range(1, 100001)))
    while True:
        yield " ".join("w%d" % at for at in chance.choices(range(100000), cum_weights=weights, k=WORDS))


def of_a_log(chance):
    """Lines of a log of 15 words: programs, levels, users, numbers, and an id of each request."""
    for at in itertools.count():
        yield "%s %s user u%d request r%d took %d ms from 10.0.%d.%d path /p%d status %d" % (
            chance.choice(["api", "web", "db", "queue"]), chance.choice(["info", "info", "info", "warning", "error"]), chance.randrange(5000), at, chance.randrange(2000),
            chance.randrange(8), chance.randrange(256), chance.randrange(300), chance.choice([200, 200, 200, 404, 500]))


def held(words, texts, most):
    """How many messages are held."""
    program = subprocess.Popen([PROGRAM, *words], stdin=subprocess.PIPE, stdout=subprocess.PIPE)
    first = []

    def read():
        for line in program.stdout:
            if not first and b"full" in line:
                first.append(int(line.split()[0]) - 1)
            if line.startswith(b"end:"):
                first.append(int(line.split()[-1]))

    reading = threading.Thread(target=read)
    reading.start()
    for number, text in enumerate(itertools.islice(texts, most), 1):
        program.stdin.write(b'{"id":%d,"text":"%s"}\n' % (number, text.encode()))
        if first:
            break
    program.stdin.close()
    reading.join()
    full = first[0] if first and words[0] == "run" and first[0] else None
    return first[-1] if words[0] == "feed" else full


def main():
    """Prints the rows."""
    parser = argparse.ArgumentParser(prog="bench/memory.py")
    parser.add_argument("sizes", nargs="*", default=["64M", "200M", "800M"])
    parser.add_argument("--most", type=int, default=1000000)
    asked = parser.parse_args()
    for command in ("run", "feed"):
        for made in (by_zipf, of_a_log):
            row = [held([command, "--memory", size], made(random.Random(1)), asked.most) for size in asked.sizes]
            print("| `%s`, %s | %s |" % (command, made.__doc__.partition(":")[0].rstrip(".").lower(), " | ".join("over {:,}".format(asked.most) if it is None else "{:,}".format(it) for it in row)), flush=True)


if __name__ == "__main__":
    main()
