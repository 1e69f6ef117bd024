"""Small pieces by themselves: lines, blends, replies of Redis in pieces, when what died is started again, and a Python without Redis's
module."""
import os
import socket
import subprocess
import sys
import tempfile
import threading

from earlybird_cluster.image import words_for
from earlybird_cluster.lines import MOST, QUERY, blend, blocks_of, count_of, lines_of, refusal_of, whole_line
from earlybird_cluster.supervisor import Delays
from earlybird_cluster.wire import Push, Wire

from .stage import COMMAND, check, seeded


def run():
    """All of it."""
    rng = seeded(19)
    _lines(rng)
    _blends(rng)
    _replies()
    _delays()
    _words()
    _without_module()


def _lines(rng):
    check("lines without their ends", [b"a", b"a", b"a", b"a", b"", b"", None, None, None, None, None],
          [whole_line(line) for line in (b"a", b"a\n", b"a\r\n", b"a\r", b"", b"\n", b"a\nb", b"\na", b"a\rb\n", b"a\n\n", b"a\r\r\n")])
    check("texts of lines", [1, 2, None, None, None, None, None],
          [lines_of(text, b"{") for text in (b"{}\n", b"{}\n{\n", b"", b"{}", b"{}\n\n", b"{}\n?\n", b"\n{}\n")])
    check("texts of lines that ask", [3, None, None], [lines_of(text, *QUERY) for text in (b"?1 a\n# a\n#1+2*3 a\n", b"?1 a\n!1 a\n", b"# a")])
    check("lines that ask", [None, None, b"bad line", b"bad line", b"long line"], [refusal_of(line, QUERY) for line in (b"?1 a", b"# a", b"", b" # a", b"#" * 65537)])
    check("how many numbers a line asks for", [1, 1, 4, 1001, 10000, 1, 1], [count_of(line) for line in (b"#", b"# a", b"#1+2*3 a", b"#0+1*1000 a", b"#0+1*9999 a", b"#5 a", b"#" + b"1" * 60000)])
    check("how many ids a line asks for", [5, 1000, 9999, 0, 0, 0, 0], [count_of(line) for line in (b"?5 a", b"?1000 a", b"?99999999999 a", b"?", b"?-5 a", b"? 5 a", b"{}")])
    wrong = []
    for _ in range(300):
        text = b"".join(b"x" * rng.choice((0, 1, 5, 30)) + b"\n" for _ in range(rng.randint(1, 30)))
        pieces = list(blocks_of(text, 16))
        if b"".join(pieces) != text or not all(piece.endswith(b"\n") and (len(piece) <= 16 or piece.count(b"\n") == 1) for piece in pieces):
            wrong.append((text, pieces))
    check("texts in blocks", [], wrong[:1])


def _blends(rng):
    """The greatest ids of all partitions, as many as were asked for."""
    wrong = []
    for _ in range(300):
        parts, queries = rng.randint(1, 4), rng.randint(1, 5)
        counts = [rng.choice((1, 3, 10)) for _ in range(queries)]
        found = [[sorted(rng.sample(range(1000), rng.randint(0, most)), reverse=True) for most in counts] for _ in range(parts)]
        texts = [b"".join(b"%d seen %d:%b\n" % (place + 7, 100 + part, b"".join(b" %d" % each for each in row)) for place, row in enumerate(rows))
                 for part, rows in enumerate(found)]
        want = [b"seen %d:%b" % (sum(range(100, 100 + parts)), b"".join(b" %d" % each for each in sorted((each for rows in found for each in rows[place]), reverse=True)[:most]))
                for place, most in enumerate(counts)]
        if blend(texts, counts) != want:
            wrong.append((texts, want))
    check("blends", [], wrong[:1])
    texts = [b"4 count 5: 3\n5 seen 5: 9 7\n6 count 5: 3 1 2\n7 refused: bad number\n", b"8 count 6: 4\n9 seen 6: 8\n10 count 6: 4 0 4\n11 refused: bad number\n"]
    check("counts among them are sums", [b"count 11: 7", b"seen 11: 9 8", b"count 11: 7 1 6", b"refused: bad number"], blend(texts, [1, 2, 3, 1]))
    check("counts of one partition", [b"count 5: 3"], blend([b"4 count 5: 3\n"], [1]))
    check("a sum is at most the greatest number", [b"count 2: %d 5 %d" % (MOST, MOST)], blend([b"1 count 1: %d 2 %d\n" % (MOST, MOST - 1), b"1 count 1: 1 3 1\n"], [3]))
    check("a refusal among them", [b"seen 3: 9", b"refused: bad query at 5"], blend([b"4 seen 1:\n5 refused: bad query at 5\n", b"8 seen 2: 9\n9 refused: bad query at 5\n"], [1, 1]))


def _words():
    """What an image is saved with, and loaded: it is read and answers as the partition's program does."""
    words = "run --fields a,b --words=pieces --counts --segments 3 --id seq --text=message --docs=9 --terms 1024 --stats".split()
    check("the words of save", "save --fields a,b --words pieces --segments 3 --id seq --text message --docs 9 --terms 1024".split(), words_for(words, "save"))
    check("the words of load", "load --fields a,b --words pieces --counts --id seq --text message".split(), words_for(words, "load"))
    check("names that look like words", ["load", "--id", "--counts", "--text", "--id"], words_for(["run", "--id", "--counts", "--text=--id"], "load"))


class _Pool:
    """What a Wire asks of a client, over one end of a pair of sockets."""

    def __init__(self, end):
        self.connection_pool, self._sock = self, end

    def make_connection(self):
        """A connection."""
        return self

    def connect(self):
        """It is there."""

    def disconnect(self):
        """Ends it."""
        self._sock.close()


def _replies():
    """Replies that come byte by byte."""
    said = (b"+OK\r\n:-7\r\n$5\r\na\r\nbc\r\n$-1\r\n_\r\n*2\r\n$1\r\nx\r\n*0\r\n%1\r\n$1\r\nk\r\n:1\r\n>2\r\n$1\r\nm\r\n$0\r\n\r\n-ERR no\r\n")
    want = [b"OK", -7, b"a\r\nbc", None, None, [b"x", []], [[b"k", 1]], [b"m", b""]]
    here, there = socket.socketpair()
    wire = Wire(_Pool(here), "")
    sending = threading.Thread(target=lambda: [there.sendall(said[place:place + 1]) for place in range(len(said))])
    sending.start()
    found = [wire.read() for _ in range(9)]
    sending.join()
    check("replies in pieces", (want, "ERR no", True), (found[:8], str(found[8]), isinstance(found[7], Push)))
    wire.close()
    there.close()


def _delays():
    """At once, and where it dies soon after each start, after 0.5, 1, 2, 4, 5 seconds; after a long life at once again."""
    delays, now, waits = Delays(), 100.0, []
    for _ in range(10):
        begun = now
        while not delays.may("a", now):
            now += 0.25
        delays.note("a", now)
        waits.append(now - begun)
        now += 0.25
        delays.alive("a", now)
    check("starts are delayed", [0, 0, 0.5, 1, 2, 4, 5, 5, 5, 5], waits)
    delays.alive("a", now + 20)
    check("after a long life it starts at once", [True, True, False], [delays.may("a", now + 20), delays.note("a", now + 20) or delays.may("a", now + 20), _twice(delays, now + 20)])


def _twice(delays, now):
    delays.note("a", now)
    return delays.may("a", now)


def _without_module():
    """Words are read before the module is asked for."""
    with tempfile.TemporaryDirectory() as folder:
        with open(os.path.join(folder, "redis.py"), "w", encoding="ascii") as file:
            file.write('raise ModuleNotFoundError("no redis", name="redis")\n')

        def told(*words):
            done = subprocess.run([sys.executable, "-B", COMMAND, *words], stdout=subprocess.PIPE, stderr=subprocess.PIPE, text=True, check=False,
                                  env={**os.environ, "PYTHONPATH": folder, "EARLYBIRD_COMMAND": "/a/command"})
            return done.returncode, done.stdout + done.stderr

        code, said = told("up", "--help")
        check("help without the module, and the program by which it was called", (0, True), (code, "(/a/command)" in "".join(said.split())))
        check("words that are wrong, without the module", 2, told("up", "0")[0])
        code, said = told("status")
        check("a command that needs the module", (1, True), (code, "no module 'redis'" in said))
