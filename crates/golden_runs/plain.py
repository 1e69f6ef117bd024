#!/usr/bin/env python3
"""Writes data/plain.rows: made inputs, and the texts that a plain scan of the accepted documents comes to. Nothing of the index
or of the program is asked. With --check it compares the file instead, and ends with 1 where it differs."""
import os
import sys

FILE = os.path.join(os.path.dirname(os.path.abspath(__file__)), "data", "plain.rows")
LINE = '{"id":%d,"text":"%s"}'


def made(number):
    """The words of a made document of start 0: of each of eight numbers the highest byte of a linear congruence's next one."""
    return ["w%d" % ((6364136223846793005 * (8 * number + at) + 1442695040888963407) % 2**64 >> 56) for at in range(8)]


def word(term):
    return lambda doc, words: term in words


def phrase(text):
    terms = text.split()
    return lambda doc, words: any(words[at:at + len(terms)] == terms for at in range(len(words)))


def each(*parts):
    return lambda doc, words: all(part(doc, words) for part in parts)


def some(*parts):
    return lambda doc, words: any(part(doc, words) for part in parts)


def without(part):
    return lambda doc, words: not part(doc, words)


def answer(number, documents, k, query):
    """The line of an answer over these documents: the newest first."""
    ids = [doc for doc, words in reversed(documents) if query(doc, words)][:k]
    return "%d seen %d:%s" % (number, len(documents), "".join(" %d" % doc for doc in ids))


def row(name, words, cut, given, wanted, status=0):
    """A row; of each line that is wanted the texts that are allowed."""
    out = ["", "row " + name] + ["words " + it for it in words] + ["cut %d" % cut] + ["< " + it for it in given]
    for texts in wanted:
        out += [("> " if texts[0] is it else "| ") + it for it in texts]
    return out + (["status %d" % status] if status else [])


QUERIES = [
    ("?7 w20 OR w108", 7, some(word("w20"), word("w108"))),
    ("?1000 -w1", 1000, without(word("w1"))),
    ("?9 w20 -w46", 9, each(word("w20"), without(word("w46")))),
    ('?5 "w20 w108"', 5, phrase("w20 w108")),
    ("?20 (w1 OR w2) -(w3 OR w4)", 20, each(some(word("w1"), word("w2")), without(some(word("w3"), word("w4"))))),
    ('?3 w20 OR "w108 w196" OR -w5', 3, some(word("w20"), phrase("w108 w196"), without(word("w5")))),
    ("?50 -(-w37)", 50, word("w37")),
    ("?4 w135 w223 OR w214 w46", 4, some(each(word("w135"), word("w223")), each(word("w214"), word("w46")))),
]


def made_query(number):
    first, second = made(number)[:2]
    return "?10 %s %s" % (first, second), 10, each(word(first), word(second))


def in_order():
    """Two hundred documents in five segments, and behind each a made query and one of those above."""
    documents, given, wanted = [], [], []
    for number in range(200):
        documents.append((number, made(number)))
        given.append(LINE % (number, " ".join(made(number))))
        for text, k, query in (made_query(number // 2), QUERIES[number % 8]):
            given.append(text)
            wanted.append([answer(len(given), documents, k, query)])
    wanted.append(["end: documents 200, queries 400, refused 0"])
    return row("queries of each form over five segments", ["run --segments 5 --docs 45 --terms 1024"], 4096, given, wanted)


def in_parts(parts):
    """Twenty-four documents in parts with room for eight each, some of them once more later, and a query behind each."""
    documents, held, given, wanted, refused = [], [0] * parts, [], [], 0
    for number in range(24):
        for doc in [number] + ([number - 2] if number % 7 == 6 else []):
            given.append(LINE % (doc, " ".join(made(doc))))
            reason = None
            if documents and doc <= documents[-1][0]:
                reason = "not rising after %d" % documents[-1][0]
            elif held[doc % parts] == 8:
                reason = "full"
            if reason:
                refused += 1
                wanted.append(["%d refused: %s" % (len(given), reason)])
            else:
                held[doc % parts] += 1
                documents.append((doc, made(doc)))
        text, k, query = made_query(number // 2)
        given.append(text)
        wanted.append([answer(len(given), documents, k, query)])
    wanted.append(["end: documents %d, queries 24, refused %d" % (len(documents), refused)])
    words = "run --parts %d --segments 2 --docs 4 --terms 1024" % parts
    return row("%d parts answer as one history" % parts, [words, words + " --overlap"], 4096, given, wanted, 1)


ASKED = [("d", word("d")), ("c", word("c")), ("a -b", each(word("a"), without(word("b"))))]


def beside():
    """Sixty documents with a query after each, which may see any number of those after it."""
    def words(doc):
        return [name for name, by in (("a", 2), ("b", 3), ("c", 5), ("d", 1)) if doc % by == 0]
    documents, given, wanted = [(doc, words(doc)) for doc in range(60)], [], []
    for doc, terms in documents:
        text, query = ASKED[doc % 3]
        given += [LINE % (doc, " ".join(terms)), "?10 " + text]
        wanted.append([answer(len(given), documents[:seen], 10, query) for seen in range(doc + 1, 61)])
    wanted.append(["end: documents 60, queries 60, refused 0"])
    by = ["run --workers %d --segments 4 --docs 100 --terms 1024" % workers for workers in (1, 2, 5, 16)]
    by.append("run --overlap --segments 4 --docs 20 --terms 1024")
    return row("queries are answered while documents are added", by, 10000, given, wanted)


def image(segments, docs, documents):
    """The lines of an image, which say its bytes."""
    lines = [r"EBIMAGE1\[%08X %08X 00000400]" % (segments, docs)]
    for doc, words in documents:
        terms = "".join(r"\[%04X]%s" % (len(term), term) for term in words)
        lines.append(r"\[01 %016X %04X]" % (doc, len(words)) + terms)
    return [line + "\\" for line in lines] + [r"\[00]" + "\\"]


def saved_and_loaded(segments, docs):
    """Three hundred lines, each tenth of them a query, are saved, and the image is loaded with lines behind it."""
    documents, given = [], []
    for number in range(300):
        words = ["all", "w%d" % (number % 7)]
        if number % 10 == 9:
            given.append("?5 " + words[1])
        else:
            given.append(LINE % (number, " ".join(words)))
            documents.append((number, words))
    documents = documents[:segments * docs]
    lines = image(segments, docs, documents)
    name = "%d segments of %d documents" % (segments, docs)
    words = "save --segments %d --docs %d --terms 1024" % (segments, docs)
    rows = row(name + " are saved", [words], 512, given, [[line] for line in lines], 1)
    last = (1000, ["all", "w3"])
    behind = ["?4 w3", "?7 all w6", LINE % (last[0], " ".join(last[1])), "?2 w3"]
    wanted = [[answer(1, documents, 4, word("w3"))], [answer(2, documents, 7, each(word("all"), word("w6")))]]
    is_full = len(documents) == segments * docs
    if is_full:
        wanted.append(["3 refused: full"])
    else:
        documents.append(last)
    wanted.append([answer(4, documents, 2, word("w3"))])
    wanted.append(["end: documents %d, queries 3, refused %d" % (len(documents), is_full)])
    return rows + row(name + " are loaded", ["load"], 512, lines + behind, wanted, int(is_full))


def main():
    lines = ["# Written by plain.py: made inputs, and what a plain scan of the accepted documents answers."]
    lines += in_order() + in_parts(1) + in_parts(4) + in_parts(16) + beside()
    lines += saved_and_loaded(3, 64) + saved_and_loaded(5, 64) + saved_and_loaded(64, 3)
    text = "\n".join(lines) + "\n"
    if sys.argv[1:] == ["--check"]:
        with open(FILE, encoding="utf-8") as file:
            if file.read() != text:
                print("%s isn't what plain.py writes" % FILE)
                return 1
        return 0
    with open(FILE, "w", encoding="utf-8") as file:
        file.write(text)
    return 0


if __name__ == "__main__":
    sys.exit(main())
