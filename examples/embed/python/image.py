"""Writes an image of messages as it adds them, and loads one again:

    image.py save FILE SEGMENTS DOCS TERMS < messages
    image.py load FILE < queries

FILE is what `earlybird save` writes, and `load` prints what `earlybird load` prints, with the same statuses."""
import sys

from earlybird import BadImage, Index, Refused


def lines():
    """The lines of the input without their ends, numbered from 1."""
    for number, line in enumerate(sys.stdin.buffer, 1):
        line = line[:-1] if line.endswith(b"\n") else line
        yield number, line[:-1] if len(line) <= 65536 and line.endswith(b"\r") else line


def save(path, *setting):
    refused = 0
    with Index(*map(int, setting), image=path) as index:
        for _, line in lines():
            try:
                if line:
                    index.add_line(line)
            except Refused:
                refused += 1
    return refused > 0


def load(path):
    try:
        index = Index.load(path)
    except BadImage as why:
        print("image: %s: %s" % (why, why.detail), file=sys.stderr)
        return 7
    queries = refused = 0
    for number, line in lines():
        try:
            if line:
                answer = index.search_line(line)
                queries += 1
                print("%d seen %d:%s" % (number, answer.seen, "".join(" %d" % id for id in answer)))
        except Refused as why:
            refused += 1
            print("%d refused: %s" % (number, why))
    print("end: documents %d, queries %d, refused %d" % (len(index), queries, refused))
    return refused > 0


sys.exit({"save": save, "load": load}[sys.argv[1]](*sys.argv[2:]))
