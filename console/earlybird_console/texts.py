"""The messages themselves, by their numbers: in SQLite, in a file or in memory."""
import sqlite3
import time

from earlybird_logs import message

FORM = 2
TABLES = """
CREATE TABLE messages (seq INTEGER PRIMARY KEY, at INTEGER NOT NULL, source INTEGER NOT NULL, line BLOB NOT NULL);
CREATE INDEX messages_of_source ON messages (source, seq);
CREATE TABLE sources (number INTEGER PRIMARY KEY, name TEXT NOT NULL UNIQUE);
CREATE TABLE names (name TEXT PRIMARY KEY, words_only INTEGER NOT NULL);
CREATE TABLE watches (number INTEGER PRIMARY KEY, query TEXT NOT NULL, name TEXT NOT NULL, most INTEGER NOT NULL, seconds INTEGER NOT NULL);
CREATE TABLE places (path TEXT PRIMARY KEY, file TEXT NOT NULL, place INTEGER NOT NULL);
"""
COLUMNS = "seq, at, source, line"
# how a file of the form before becomes one of this: its messages had the time at which they were taken, and no source
BEFORE = "earlier messages"
OLD = ("ALTER TABLE messages RENAME TO old_messages", "ALTER TABLE watches RENAME TO old_watches", "ALTER TABLE places RENAME TO old_places")
MOVED = ("INSERT INTO watches SELECT number, query, query, 0, 60 FROM old_watches", "INSERT INTO places SELECT path, file, place FROM old_places",
         "DROP TABLE old_messages", "DROP TABLE old_watches", "DROP TABLE old_places")
# seconds for another console to end
PATIENCE = 1


class TextsFault(Exception):
    """The file of the texts can't be used."""


def reason(fault):
    """Why SQLite refused, in words."""
    return "another console has it" if "locked" in str(fault) else str(fault)


class Texts:
    """The texts: (number, time of the message in milliseconds, number of its source, line as it came). No number is given twice. `oldest` and
    `newest` are the least and the greatest number, 0 where there is none."""

    def __init__(self, path=":memory:"):
        try:
            self._base = sqlite3.connect(path, isolation_level=None, timeout=PATIENCE)
            self._base.execute("PRAGMA locking_mode = EXCLUSIVE")
            self._base.execute("PRAGMA journal_mode = WAL")
            self._base.execute("PRAGMA synchronous = NORMAL")
            self._base.execute("BEGIN EXCLUSIVE")
            form = self._base.execute("PRAGMA user_version").fetchone()[0]
            if form == 0 and not self._base.execute("SELECT 1 FROM sqlite_master").fetchone():
                self._make_tables()
            elif form == 1:
                self._take_over()
            elif form != FORM:
                raise TextsFault("%s is no file of texts of this console" % path)
            self._base.execute("COMMIT")
        except sqlite3.Error as fault:
            raise TextsFault("%s: %s" % (path, reason(fault))) from fault
        self.count, self.newest, self.oldest = self._base.execute(
            "SELECT count(*), coalesce(max(seq), 0), coalesce(min(seq), 0) FROM messages").fetchone()
        self.sources = dict(self._base.execute("SELECT number, name FROM sources"))
        self._numbers = {name: number for number, name in self.sources.items()}
        # (name, whether its values are found by their words alone)
        self.names = [(name, bool(only)) for name, only in self._base.execute("SELECT name, words_only FROM names")]

    def _make_tables(self):
        for table in filter(str.strip, TABLES.split(";")):
            self._base.execute(table)
        self._base.execute("PRAGMA user_version = %d" % FORM)

    def _take_over(self):
        """Makes of a file of form 1 one of this form."""
        for statement in OLD:
            self._base.execute(statement)
        self._make_tables()
        now, names = time.time() * 1000, set()
        self._base.execute("INSERT INTO sources VALUES (1, ?)", (BEFORE,))
        for seq, at, line in self._base.execute("SELECT seq, at, line FROM old_messages ORDER BY seq"):
            said = message.read(line, now)
            names.update(said.fields)
            self._base.execute("INSERT INTO messages VALUES (?, ?, 1, ?)", (seq, said.when or at, line))
        self._base.executemany("INSERT OR IGNORE INTO names VALUES (?, 0)", [(name.casefold(),) for name in sorted(names)[:1000]])
        for statement in MOVED:
            self._base.execute(statement)

    def close(self):
        """Ends the use of the file."""
        self._base.close()

    def source(self, name):
        """The number of a source, which becomes one where it is none yet."""
        if name not in self._numbers:
            number = len(self.sources) + 1
            self._base.execute("INSERT INTO sources VALUES (?, ?)", (number, name))
            self.sources[number], self._numbers[name] = name, number
        return self._numbers[name]

    def add(self, rows, places, names=()):
        """Keeps messages, how far files are read, and (name, whether its words alone are found): all or nothing of it."""
        try:
            self._base.execute("BEGIN")
            self._base.executemany("INSERT INTO messages VALUES (?, ?, ?, ?)", rows)
            if places:
                self._base.executemany("INSERT OR REPLACE INTO places VALUES (?, ?, ?)", places)
            if names:
                self._base.executemany("INSERT OR REPLACE INTO names VALUES (?, ?)", names)
            self._base.execute("COMMIT")
        except sqlite3.Error as fault:
            raise TextsFault("a text can't be kept: %s" % fault) from fault
        if rows:
            # (one that was too long at first comes behind later ones)
            self.oldest = min(self.oldest or rows[0][0], min(rows)[0])
            self.count += len(rows)
            self.newest = max(self.newest, max(rows)[0])

    def after(self, seq, count):
        """At most `count` messages after this number, in the order of their numbers."""
        return self._base.execute("SELECT %s FROM messages WHERE seq > ? ORDER BY seq LIMIT ?" % COLUMNS, (seq, count)).fetchall()

    def times(self):
        """The number and time of all, in the order of their numbers."""
        return self._base.execute("SELECT seq, at FROM messages ORDER BY seq")

    def one(self, seq):
        """One message, or None."""
        return self._base.execute("SELECT %s FROM messages WHERE seq = ?" % COLUMNS, (seq,)).fetchone()

    def size(self, numbers):
        """The bytes of all messages of these numbers together."""
        return self._base.execute("SELECT coalesce(sum(length(line)), 0) FROM messages WHERE seq IN (%s)" % ",".join(map(str, numbers))).fetchone()[0]

    def around(self, seq, source, count):
        """At most `count` messages of a source before a number and as many behind it, in order, that one among them."""
        before = self._base.execute("SELECT %s FROM messages WHERE source = ? AND seq < ? ORDER BY seq DESC LIMIT ?" % COLUMNS, (source, seq, count)).fetchall()
        behind = self._base.execute("SELECT %s FROM messages WHERE source = ? AND seq >= ? ORDER BY seq LIMIT ?" % COLUMNS, (source, seq, count + 1)).fetchall()
        return before[::-1] + behind

    def drop(self, below, most):
        """Drops the messages before a number, at most `most` of them; gives what they were, (number, time)."""
        gone = self._base.execute("SELECT seq, at FROM messages WHERE seq < ? ORDER BY seq LIMIT ?", (below, most)).fetchall()
        if gone:
            self._base.execute("DELETE FROM messages WHERE seq <= ?", (gone[-1][0],))
            self.count -= len(gone)
            self.oldest = (self.from_here(0) or (0,))[0]
        return gone

    def drop_one(self, seq):
        """Drops one message."""
        self.count -= self._base.execute("DELETE FROM messages WHERE seq = ?", (seq,)).rowcount

    def from_here(self, seq):
        """The first message from this number on, (number, time), or None."""
        return self._base.execute("SELECT seq, at FROM messages WHERE seq >= ? ORDER BY seq LIMIT 1", (seq,)).fetchone()

    def watches(self):
        """The watches that are kept: (number, query, name, threshold, seconds)."""
        return self._base.execute("SELECT number, query, name, most, seconds FROM watches ORDER BY number").fetchall()

    def keep_watch(self, *watch):
        """Keeps a watch."""
        self._base.execute("INSERT OR REPLACE INTO watches VALUES (?, ?, ?, ?, ?)", watch)

    def drop_watch(self, number):
        """Drops a watch."""
        self._base.execute("DELETE FROM watches WHERE number = ?", (number,))

    def place(self, path):
        """How far a file was read: which file it was, and the bytes; or None."""
        return self._base.execute("SELECT file, place FROM places WHERE path = ?", (path,)).fetchone()
