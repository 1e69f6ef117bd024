"""Does the same as live.py over ids, texts and queries that it reads itself: messages by `json`, and the number of a query."""
import json
import sys

from earlybird import BadQuery, Index, Refused


def main():
    index = Index(*map(int, sys.argv[1:4]))
    queries = refused = 0
    for number, line in enumerate(sys.stdin.buffer.read().decode().split("\n"), 1):
        front = 0
        try:
            if line.startswith("?"):
                wanted, _, query = line[1:].partition(" ")
                front = len("?%s " % wanted)
                answer = index.search(query, int(wanted))
                queries += 1
                print("%d seen %d:%s" % (number, answer.seen, "".join(" %d" % id for id in answer)))
            elif line:
                message = json.loads(line)
                index.add(message["id"], message["text"])
        except Refused as why:
            refused += 1
            # (the program counts columns from the line's front)
            why = BadQuery(why.column + front) if isinstance(why, BadQuery) else why
            print("%d refused: %s" % (number, why))
    print("end: documents %d, queries %d, refused %d" % (len(index), queries, refused))
    return 1 if refused else 0


sys.exit(main())
