"""Reads messages and queries as `earlybird run` does, one a line, and prints the same."""
import sys

from earlybird import Index, Refused


def main():
    index = Index(*map(int, sys.argv[1:4]))
    queries = refused = 0
    for number, line in enumerate(sys.stdin.buffer, 1):
        line = line[:-1] if line.endswith(b"\n") else line
        line = line[:-1] if len(line) <= 65536 and line.endswith(b"\r") else line
        try:
            if line.startswith(b"?"):
                answer = index.search_line(line)
                queries += 1
                print("%d seen %d:%s" % (number, answer.seen, "".join(" %d" % id for id in answer)))
            elif line:
                index.add_line(line)
        except Refused as why:
            refused += 1
            print("%d refused: %s" % (number, why))
    print("end: documents %d, queries %d, refused %d" % (len(index), queries, refused))
    return 1 if refused else 0


sys.exit(main())
