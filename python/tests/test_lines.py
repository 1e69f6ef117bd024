"""The package beside the program `earlybird run`, over the same lines."""
import os
import random
import shutil
import subprocess
import unittest

from earlybird import Index, Refused

HERE = os.path.dirname(os.path.abspath(__file__))
# the program that EARLYBIRD names, else this checkout's, else the installed one
BESIDE = os.path.join(HERE, "..", "..", "earlybird")
PROGRAM = os.environ.get("EARLYBIRD") or (BESIDE if os.path.exists(BESIDE) else shutil.which("earlybird"))

FIRST = b"""\
{"id":101,"user":"mara","text":"Night train to Vienna leaves at nine"}
{"id":102,"user":"jon","text":"The train is late, again."}
?5 train
{"id":103,"user":"lena","text":"Sunset over the Stra\xc3\x9fe tonight \xf0\x9f\x8c\x85 can't believe it's March"}
{"id":104,"user":"tom","text":"Late sunset, early train"}
?5 train -late
?5 "late sunset" OR strasse
?5 "late train"~3
?5 since:102
?5 (train
?0 train
?5 (((((((((((((((((train
{"id":"105","text":"an id has to be a number"}
{"id":1,
hello
"""


def made_lines(count):
    """Messages of a few words, and queries of all forms among them."""
    pick = random.Random(1)
    word = lambda: "w%d" % min(pick.randrange(200), pick.randrange(200))
    forms = ["%s", "%s %s", "%s OR %s", "%s -%s", '"%s %s"', '"%s %s"~9', "(%s OR %s) %s", "-%s", "%s since:%%d"]
    for at in range(count):
        yield '{"id":%d,"text":"%s"}' % (pick.randrange(2**64), " ".join(word() for _ in range(pick.randrange(12))))
        if at % 3 == 0:
            form = pick.choice(forms)
            query = form % tuple(word() for _ in range(form.replace("%%", "").count("%s")))
            yield "?%d %s" % (pick.randrange(1, 1001), query % pick.randrange(2**64) if "%d" in query else query)


def printed(index, text):
    """What `earlybird run` prints of these lines, said by an index."""
    out, queries, refused = [], 0, 0
    for number, line in enumerate(text.split(b"\n")[:-1], 1):
        try:
            if line.startswith(b"?"):
                answer = index.search_line(line)
                queries += 1
                out.append("%d seen %d:%s" % (number, answer.seen, "".join(" %d" % id for id in answer)))
            elif line:
                index.add_line(line)
        except Refused as why:
            refused += 1
            out.append("%d refused: %s" % (number, why))
    return out + ["end: documents %d, queries %d, refused %d" % (len(index), queries, refused)]


@unittest.skipUnless(PROGRAM, "there is no program earlybird to compare with")
class AsTheProgram(unittest.TestCase):
    def compare(self, text, segments, docs, terms):
        setting = ["--segments", str(segments), "--docs", str(docs), "--terms", str(terms)]
        want = subprocess.run([PROGRAM, "run", *setting], input=text, stdout=subprocess.PIPE).stdout.decode().splitlines()
        got = printed(Index(segments, docs, terms), text)
        # (of long lists unittest would look for the least difference)
        differ = [pair for pair in zip(want, got) if pair[0] != pair[1]]
        self.assertEqual(([], len(want)), (differ[:3], len(got)))

    def test_first_lines(self):
        self.compare(FIRST, 12, 4096, 8192)

    def test_a_full_index(self):
        self.compare(FIRST, 1, 2, 1024)

    def test_many_lines(self):
        self.compare("\n".join(made_lines(3000)).encode() + b"\n", 4, 500, 1024)


if __name__ == "__main__":
    unittest.main()
