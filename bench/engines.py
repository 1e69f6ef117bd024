"""Engines that answer the newest ten messages that match: Earlybird, and what a user would pick in its place. Each is driven by one
thread; a message is found by each search that follows its `add`."""
import glob
import importlib.util
import json
import os
import shutil
import sqlite3
import subprocess
import sys
import tempfile

from corpora import ROOT

WANTED = 10


class Engine:
    """What is asked of each."""

    name = ""

    def missing(self):
        """Why it isn't tried; None where it is here."""

    def version(self):
        return ""

    def open(self):
        """Begins an empty index."""

    def add(self, messages):
        """Adds messages in order, each an id and its words."""

    def search(self, kind, words):
        """The ids of the newest ten matches, newest first; None where it has no such query, or means something else by it."""

    def search_all(self, kind, queries):
        return [self.search(kind, words) for words in queries]

    def pid(self):
        """The process whose memory counts."""
        return os.getpid()

    def close(self):
        """Ends it."""


def query_text(kind, words):
    """A query in the language of Earlybird."""
    return {
        "word": "%s", "and": "%s %s", "or": "%s OR %s", "phrase": '"%s %s"', "window": '"%s %s"~5', "not": "%s -%s",
    }[kind] % tuple(words)


class Piped(Engine):
    """An engine in a process of its own, which prints a line for each query."""

    def start(self, words):
        self.child = subprocess.Popen(words, stdin=subprocess.PIPE, stdout=subprocess.PIPE)

    def pid(self):
        return self.child.pid

    def line(self, kind, words):
        raise NotImplementedError

    def ids(self, line):
        raise NotImplementedError

    def search(self, kind, words):
        return self.search_all(kind, [words])[0]

    def search_all(self, kind, queries):
        answers = []
        # (so many answers fit a pipe)
        for at in range(0, len(queries), 200):
            some = queries[at : at + 200]
            lines = [self.line(kind, words) for words in some]
            if lines and lines[0] is None:
                return [None] * len(queries)
            self.child.stdin.write("".join(lines).encode())
            self.child.stdin.flush()
            answers += [self.ids(self.child.stdout.readline()) for _ in some]
        return answers

    def close(self):
        self.child.stdin.close()
        self.child.stdout.read()
        self.child.wait()


class Earlybird(Piped):
    name = "Earlybird, a pipe"
    program = os.path.join(ROOT, "dist", "earlybird")
    setting = ("--segments", "12", "--docs", "20000", "--terms", "65536")

    def missing(self):
        return None if os.access(self.program, os.X_OK) else "dist/earlybird isn't there"

    def version(self):
        with open(os.path.join(ROOT, "share/earlybird/version"), encoding="utf-8") as file:
            return file.read().split()[1]

    def open(self):
        self.start([self.program, "run", *self.setting])

    def add(self, messages):
        self.child.stdin.write("".join('{"id":%d,"text":"%s"}\n' % (id, " ".join(words)) for id, words in messages).encode())

    def line(self, kind, words):
        return "?%d %s\n" % (WANTED, query_text(kind, words))

    def ids(self, line):
        return [int(it) for it in line.partition(b":")[2].split()]


class EarlybirdPackage(Engine):
    name = "Earlybird, its Python package"

    def missing(self):
        return None if importlib.util.find_spec("earlybird") else "the package earlybird isn't installed (pip install ./python)"

    def version(self):
        return Earlybird().version()

    def open(self):
        from earlybird import Index

        self.index = Index(*map(int, Earlybird.setting[1::2]))

    def add(self, messages):
        for id, words in messages:
            self.index.add(id, " ".join(words))

    def search(self, kind, words):
        return list(self.index.search(query_text(kind, words), WANTED))


class Sqlite(Engine):
    name = "SQLite FTS5"

    def missing(self):
        try:
            sqlite3.connect(":memory:").execute("CREATE VIRTUAL TABLE messages USING fts5(text)")
        except sqlite3.OperationalError:
            return "this sqlite3 has no FTS5"
        return None

    def version(self):
        return sqlite3.sqlite_version

    def open(self):
        self.base = sqlite3.connect(":memory:")
        self.base.execute("CREATE VIRTUAL TABLE messages USING fts5(text)")

    def add(self, messages):
        self.base.executemany("INSERT INTO messages(rowid, text) VALUES (?, ?)", ((id, " ".join(words)) for id, words in messages))

    def search(self, kind, words):
        # (its NEAR has no order)
        form = {"word": '"%s"', "and": '"%s" AND "%s"', "or": '"%s" OR "%s"', "phrase": '"%s %s"', "not": '"%s" NOT "%s"'}.get(kind)
        if form is None:
            return None
        asked = "SELECT rowid FROM messages WHERE messages MATCH ? ORDER BY rowid DESC LIMIT %d" % WANTED
        return [row[0] for row in self.base.execute(asked, (form % tuple(words),))]


class Xapian(Engine):
    name = "Xapian"

    def missing(self):
        return None if importlib.util.find_spec("xapian") else "python3-xapian isn't installed"

    def version(self):
        import xapian

        return xapian.version_string()

    def open(self):
        import xapian

        self.xapian = xapian
        # in memory, where there is such a folder
        self.folder = tempfile.TemporaryDirectory(dir="/dev/shm" if os.path.isdir("/dev/shm") else None)
        self.base = xapian.WritableDatabase(os.path.join(self.folder.name, "base"), xapian.DB_CREATE_OR_OVERWRITE)

    def add(self, messages):
        for id, words in messages:
            document = self.xapian.Document()
            for at, word in enumerate(words, 1):
                document.add_posting(word, at)
            self.base.replace_document(id, document)

    def search(self, kind, words):
        xapian = self.xapian
        form = {
            "word": (xapian.Query.OP_AND,), "and": (xapian.Query.OP_AND,), "or": (xapian.Query.OP_OR,), "not": (xapian.Query.OP_AND_NOT,),
            "phrase": (xapian.Query.OP_PHRASE, 2), "window": (xapian.Query.OP_PHRASE, 6),
        }[kind]
        if kind in ("phrase", "window"):
            query = xapian.Query(form[0], list(words), form[1])
        elif kind == "not":
            query = xapian.Query(form[0], xapian.Query(words[0]), xapian.Query(words[1]))
        else:
            query = xapian.Query(form[0], list(words))
        enquire = xapian.Enquire(self.base)
        enquire.set_weighting_scheme(xapian.BoolWeight())
        enquire.set_docid_order(xapian.Enquire.DESCENDING)
        enquire.set_query(query)
        return [match.docid for match in enquire.get_mset(0, WANTED)]

    def close(self):
        self.base.close()
        self.folder.cleanup()


class Groonga(Piped):
    name = "Groonga"

    def missing(self):
        return None if shutil.which("groonga") else "groonga isn't installed"

    def version(self):
        return subprocess.run(["groonga", "--version"], stdout=subprocess.PIPE).stdout.decode().split()[1]

    def open(self):
        self.folder = tempfile.TemporaryDirectory(dir="/dev/shm" if os.path.isdir("/dev/shm") else None)
        self.start(["groonga", "-n", os.path.join(self.folder.name, "base")])
        for command in (
            "table_create Messages TABLE_HASH_KEY UInt64",
            "column_create Messages text COLUMN_SCALAR Text",
            "table_create Words TABLE_PAT_KEY ShortText --default_tokenizer TokenDelimit",
            "column_create Words messages COLUMN_INDEX|WITH_POSITION Messages text",
        ):
            self.child.stdin.write((command + "\n").encode())
            self.child.stdin.flush()
            self.child.stdout.readline()

    def add(self, messages):
        rows = json.dumps([{"_key": id, "text": " ".join(words)} for id, words in messages])
        self.child.stdin.write(("load --table Messages\n%s\n" % rows).encode())
        self.child.stdin.flush()
        self.child.stdout.readline()

    def line(self, kind, words):
        # (its near search has no order)
        form = {"word": "%s", "and": "%s %s", "or": "%s OR %s", "phrase": '\\"%s %s\\"', "not": "%s - %s"}.get(kind)
        if form is None:
            return None
        # (a word that stands nowhere is no part of others)
        how = "--match_columns text --match_escalation_threshold -1 --output_columns _key --sort_keys -_key --limit %d" % WANTED
        return 'select Messages --query "%s" %s\n' % (form % tuple(words), how)

    def ids(self, line):
        return [row[0] for row in json.loads(line)[1][0][2:]]

    def close(self):
        super().close()
        self.folder.cleanup()


class Lucene(Piped):
    """Its near-real-time reader, which is opened anew before a query where messages came; by bench/Lucene.java."""

    name = "Lucene, near real time"

    def jars(self):
        named = os.environ.get("LUCENE_CLASSPATH")
        return [named] if named else sorted(glob.glob("/usr/share/java/lucene*core*.jar"))[-1:]

    def missing(self):
        if not (shutil.which("java") and shutil.which("javac")):
            return "there is no java and javac"
        return None if self.jars() else "liblucene8-java isn't installed"

    def version(self):
        return os.path.basename(self.jars()[0])

    def open(self):
        self.folder = tempfile.TemporaryDirectory()
        path = ":".join([*self.jars(), self.folder.name])
        source = os.path.join(ROOT, "bench", "Lucene.java")
        subprocess.run(["javac", "-cp", path, "-d", self.folder.name, source], check=True)
        self.start(["java", "-Xmx2g", "-cp", path, "Lucene", str(WANTED)])

    def add(self, messages):
        self.child.stdin.write("".join("%d\t%s\n" % (id, " ".join(words)) for id, words in messages).encode())

    def line(self, kind, words):
        return None if kind == "window" else "?%s\t%s\n" % (kind, "\t".join(words))

    def ids(self, line):
        return [int(it) for it in line.split()]

    def close(self):
        super().close()
        self.folder.cleanup()


ENGINES = {it.__name__.lower(): it for it in (Earlybird, EarlybirdPackage, Sqlite, Xapian, Groonga, Lucene)}

if __name__ == "__main__":
    for key, engine in ENGINES.items():
        print(key, engine().missing() or engine().version(), file=sys.stderr)
