"""The index program over a pipe: lines in, and what it prints out, by the numbers of its lines."""
import fcntl
import os
import re
import subprocess
import threading
from queue import SimpleQueue

MARK = b"?1 a\n"  # a query whose answer says that all lines before it are settled, and how many documents there are
ANSWER = re.compile(rb"\d+ seen (\d+):")
PIPE = 262144  # bytes that may wait in a pipe: a query waits behind these, and one write of documents
SIZE_OF_PIPE = 1031  # F_SETPIPE_SZ


class ProgramEnded(Exception):
    """The index program ended: its words aren't allowed, its memory ran out, it was killed, or it prints what no index does."""


def fault_of(words):
    """What is wrong with a program and its words, or None: it has to end without a fault, and to print answers as `run` does."""
    tried = subprocess.run(words, input=MARK, stdout=subprocess.PIPE, check=False)
    if tried.returncode != 0:
        return "ends with %d" % tried.returncode
    return None if tried.stdout.startswith(b"1 seen 0:\n") else "doesn't print answers as 'run' does"


class Program:
    """One index. What is put in at once ends with a query line. So its output ends with the line of that number; `settled` is
    called with all of it, in order, on a thread of its own, and `ended` with what ended the program."""

    def __init__(self, words, settled, ended, image=None):
        self._process = subprocess.Popen(words, stdin=subprocess.PIPE, stdout=subprocess.PIPE, start_new_session=True)
        self._in, self._out = self._process.stdin.fileno(), self._process.stdout.fileno()
        for pipe in (self._in, self._out):
            fcntl.fcntl(pipe, SIZE_OF_PIPE, PIPE)
        self._settled, self._ended = settled, ended
        self._under_way = SimpleQueue()
        self.number, self.pid = 0, self._process.pid
        if image is not None:
            with open(image, "rb") as file:
                while True:
                    piece = file.read(1 << 20)
                    if not piece:
                        break
                    self._write(piece)
        threading.Thread(target=self._follow, daemon=True).start()

    def _follow(self):
        try:
            self._read()
        except Exception as fault:  # whatever it is, the worker must not live on without its ears
            self._ended(repr(fault))
            raise

    def _write(self, text):
        try:
            rest = memoryview(text)
            while rest:
                rest = rest[os.write(self._in, rest):]
        except OSError as broken:
            raise ProgramEnded("it ended with %d" % self._process.wait()) from broken

    def put(self, text, lines, what):
        """Gives the program a text of `lines` lines, each with its LF, the last one a query. `what` comes back with their output."""
        first = self.number
        self.number += lines
        self._under_way.put((first, self.number, what))
        self._write(text)

    def _read(self):
        held = b""
        while True:
            there = self._under_way.get()
            if there is None:
                return
            first, last, what = there
            begin, seek, end = b"%d " % last, 0, -1
            while True:
                place = 0 if held.startswith(begin) else held.find(b"\n" + begin, seek)
                if place >= 0:
                    end = held.find(b"\n", place + 1)
                    if end >= 0:
                        break
                    seek = place
                else:
                    seek = max(0, len(held) - len(begin) - 1)
                more = os.read(self._out, 1 << 18)
                if not more:
                    self._ended("it ended with %d" % self._process.wait())
                    return
                held = held + more if held else more
                if not held[:1].isdigit():
                    self._ended("it printed %.60r" % held)
                    return
            out, held = held[:end + 1], held[end + 1:]
            self._settled(first, what, out)

    def memory(self):
        """The bytes of memory that the program has; 0 where it ended."""
        try:
            with open("/proc/%d/statm" % self.pid, encoding="ascii") as file:
                return int(file.read().split()[1]) * os.sysconf("SC_PAGE_SIZE")
        except OSError:
            return 0

    def ended(self):
        """What ended the program; None while it runs."""
        status = self._process.poll()
        return None if status is None else "it ended with %d" % status

    def close(self):
        """Ends the program."""
        self._process.kill()
        self._process.wait()
        self._under_way.put(None)
