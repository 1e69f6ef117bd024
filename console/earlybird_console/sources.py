"""Where lines come from but requests: standard input, files that grow, and the journal. Files that have lines already are read side by side, by
the times of their lines, so that they come in nearly in the order of time."""
import asyncio
import gzip
import os
import stat
import sys
import threading
import time
import zlib

from earlybird_logs import message

from .lines import Splitter

PIECE = 1 << 16
PAUSE = 0.2
# lines of a piece in which a time is looked for
LOOKED_AT = 20
JOURNAL = ["journalctl", "--follow", "--output=json", "--no-pager"]
# entries that are read where no earlier console read any, and seconds until a journalctl that ended is started again
JOURNAL_LINES = 20000
AGAIN = 5
# what reading a file can come to
FAULTS = (OSError, EOFError, zlib.error)


def say(text):
    """Says something on standard error."""
    print("earlybird-console: %s" % text, file=sys.stderr, flush=True)


async def read_input(console):
    """Hands in the lines of standard input until its end. A thread reads it, since files can't be waited for."""
    loop = asyncio.get_running_loop()
    ended = loop.create_future()

    def read():
        splitter = Splitter()
        try:
            while True:
                piece = os.read(0, PIECE)
                lines = splitter.take(piece) if piece else splitter.last()
                if lines:
                    asyncio.run_coroutine_threadsafe(console.hand_in(lines, "standard input"), loop).result()
                if not piece:
                    break
            loop.call_soon_threadsafe(lambda: ended.done() or ended.set_result(None))
        except (OSError, RuntimeError, asyncio.CancelledError) as fault:
            say("standard input: %s" % fault)

    threading.Thread(target=read, daemon=True).start()
    await ended


class Followed:
    """A file that grows. It is read from where an earlier console with the same texts was, or from its beginning; where another file replaces
    it, or it has become shorter, from the beginning again, once the file before is read to its end. A file of gzip is read once."""

    def __init__(self, console, path, name):
        self._console = console
        self._path = os.path.abspath(path)
        self._source = name
        self._file = None
        self._name = None
        self._place = 0
        self._splitter = Splitter()
        self._packed = path.endswith(".gz")
        self._lines = []
        self._said = None
        self.time = 0
        if not os.path.exists(path):
            self._say("it isn't there yet; it is read as soon as it is")

    def _say(self, what):
        """Says it, once."""
        if what != self._said:
            say("%s: %s" % (self._path, what))
        self._said = what

    def _there(self):
        """The file of this path now, its name and size; None where it is none that can be followed."""
        try:
            there = os.stat(self._path)
        except OSError as fault:
            if not isinstance(fault, FileNotFoundError):
                self._say(fault.strerror)
            return None
        if not stat.S_ISREG(there.st_mode):
            self._say("it isn't a regular file; a pipe goes to standard input")
            return None
        return "%d:%d" % (there.st_dev, there.st_ino), there.st_size

    def _open(self):
        """Goes on to another file in the place of the open one, or to the first; whether there may be something to read."""
        there = self._there()
        if not there or self._file and (self._packed or there[0] == self._name and there[1] >= self._place):
            return False
        first = self._file is None
        if not first:
            # (what was written before it was moved away, and its last line, which has no end)
            piece = self._read()
            if piece:
                self._take(piece)
                return True
            self._lines += self._splitter.last()
        try:
            opened = gzip.open(self._path, "rb") if self._packed else open(self._path, "rb")
        except OSError as fault:
            self._say(fault.strerror)
            return False
        if not first:
            self._file.close()
        kept = self._console.texts.place(self._path) if first else None
        self._file, self._name, self._splitter = opened, there[0], Splitter()
        self._place = kept[1] if kept and kept[0] == there[0] and (self._packed or kept[1] <= there[1]) else 0
        try:
            self._file.seek(self._place)
        except FAULTS as fault:
            self._say_unread(fault)
        return True

    def _say_unread(self, fault):
        self._say("it can't be read on: %s" % (getattr(fault, "strerror", None) or fault))

    def _read(self):
        """What comes next of the file that is open."""
        try:
            return self._file.read1(PIECE) if self._file else b""
        except FAULTS as fault:
            self._say_unread(fault)
            return b""

    def _take(self, piece):
        self._place += len(piece)
        self._lines += self._splitter.take(piece)

    def load(self):
        """Reads some lines, and finds their first time; whether there are any."""
        while not self._lines:
            piece = self._read()
            if piece:
                self._take(piece)
            elif self._packed and self._file:
                # (at its end its last line has none)
                self._lines, self._splitter = self._splitter.last(), Splitter()
                break
            elif not self._open():
                break
        if not self._lines:
            return False
        now = time.time() * 1000
        self.time = next((when for when in (message.read(line, now).when for line in self._lines[:LOOKED_AT]) if when), self.time)
        return True

    async def hand_in(self):
        """Hands in what was read."""
        lines, self._lines = self._lines, []
        await self._console.hand_in(lines, self._source, (self._path, self._name, self._place - self._splitter.behind))

    async def run(self):
        """Hands in its lines, as they come."""
        while True:
            if self.load():
                await self.hand_in()
                await asyncio.sleep(0)
            else:
                await asyncio.sleep(PAUSE)


async def follow(console, paths):
    """Hands in the lines of files: first what they have, the oldest piece first, then what comes."""
    names = [os.path.basename(path) for path in paths]
    files = [Followed(console, path, name if names.count(name) == 1 else path) for path, name in zip(paths, names)]
    waiting = [each for each in files if each.load()]
    while waiting:
        first = min(waiting, key=lambda each: each.time)
        await first.hand_in()
        await asyncio.sleep(0)
        if not first.load():
            waiting.remove(first)
    await asyncio.gather(*(each.run() for each in files))


def cursor_of(line):
    """The place in the journal that an entry names, or None."""
    cursor = (message.members_of(line) or {}).get("__CURSOR")
    return cursor if isinstance(cursor, str) else None


async def read_journal(console):
    """Hands in the entries of the journal, from behind the last one that was kept."""
    while True:
        kept = console.texts.place("journal")
        words = [*JOURNAL, "--after-cursor=%s" % kept[0] if kept else "--lines=%d" % JOURNAL_LINES]
        try:
            process = await asyncio.create_subprocess_exec(*words, stdin=asyncio.subprocess.DEVNULL, stdout=asyncio.subprocess.PIPE, start_new_session=True)
        except OSError as fault:
            return say("journalctl: %s" % fault.strerror)
        splitter = Splitter()
        try:
            while True:
                piece = await process.stdout.read(PIECE)
                if not piece:
                    break
                lines = [line for line in splitter.take(piece) if line]
                if lines:
                    cursor = cursor_of(lines[-1])
                    await console.hand_in(lines, "journal", ("journal", cursor, 0) if cursor else None)
                await asyncio.sleep(0)
        finally:
            if process.returncode is None:
                process.kill()
            status = await process.wait()
        say("journalctl ended with the status %s and is started again" % status)
        await asyncio.sleep(AGAIN)
