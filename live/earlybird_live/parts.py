"""The index: programs one after the other, of which the newest takes lines. Where it is full another begins, and where all take more memory
than they may, the oldest ends. An answer is that of all, newest first."""
import collections
import fcntl
import heapq
import json
import subprocess
import threading

MOST = 1000
# (a pipe that takes more at once means fewer turns between the programs; a query waits for no more than this)
SET_PIPE, PIPE = 1031, 1 << 18
ENDED = {2: "it doesn't take these words", 4: "write fault", 5: "there is no memory for it", 70: "it isn't built"}


class Refused(Exception):
    """The index refuses a query: why, and the column, counted in bytes from 1, or None."""

    def __init__(self, name, column=None):
        super().__init__(name)
        self.name = name
        self.column = column


class Gone(Exception):
    """A program of the index ended, or the lines can't be read."""


class Part:
    """One program over pipes, of this many bytes. One thread at a time writes, and one reads what it prints."""

    def __init__(self, words, size):
        self.memory = size
        self.process = subprocess.Popen([*words, "--memory=%dK" % (size >> 10)], stdin=subprocess.PIPE, stdout=subprocess.PIPE, stderr=subprocess.DEVNULL, start_new_session=True)
        try:
            fcntl.fcntl(self.process.stdin, SET_PIPE, PIPE)
        except OSError:
            pass
        self.sent = 0
        # (number, why) of each line that was refused, and whether one was since there was no room
        self.refused = []
        self.full = False
        # how many of its lines came after newer ones, since they were refused at first
        self.late = 0
        self.first = self.last = 0
        self._asked = {}
        # (lines are numbered in the order in which they are written; who reads never waits for who writes)
        self._writing = threading.Lock()
        self._lock = threading.Lock()
        self._runs = collections.deque()
        threading.Thread(target=self._read, daemon=True).start()

    def send(self, data, numbers):
        """Sends lines, each a message with the number in its place."""
        with self._writing:
            with self._lock:
                self._runs.append((self.sent + 1, numbers))
                self.last = max(self.last, numbers[-1] if numbers else 0)
            self.sent += len(numbers)
            self._write(data)

    def _write(self, data):
        try:
            self.process.stdin.write(data)
            self.process.stdin.flush()
        except (BrokenPipeError, ValueError) as fault:
            raise Gone(self._ending()) from fault

    def _ending(self):
        status = self.process.wait()
        return "the index ended: %s" % (ENDED.get(status) or ("signal %d" % -status if status < 0 else "status %d" % status))

    def begin(self, query):
        """Sends a query line; gives what `end` waits for."""
        asked = [threading.Event(), None]
        with self._writing:
            self.sent += 1
            with self._lock:
                self._asked[self.sent] = asked
            self._write(query + b"\n")
        return asked

    def end(self, asked):
        """The answer to a query, as the program tells it with `--json`."""
        asked[0].wait()
        if asked[1] is None:
            raise Gone(self._ending())
        if "refused" in asked[1]:
            raise Refused(asked[1]["refused"], asked[1].get("column"))
        return asked[1]

    def ask(self, query):
        """Both: sends it, and gives its answer."""
        return self.end(self.begin(query))

    def settle(self):
        """Waits until each line that was sent is taken or refused."""
        self.ask(b"?1 a")

    def _read(self):
        for line in self.process.stdout:
            told = json.loads(line)
            number = told.get("line")
            with self._lock:
                asked = self._asked.pop(number, None)
                while number and len(self._runs) > 1 and self._runs[1][0] <= number:
                    self._runs.popleft()
            if asked:
                asked[1] = told
                asked[0].set()
            elif "refused" in told:
                first, numbers = self._runs[0]
                self.refused.append((numbers[number - first], told["refused"]))
                self.full = self.full or told["refused"] == "full"
        with self._lock:
            left, self._asked = self._asked, {}
        for asked in left.values():
            asked[0].set()

    def close(self):
        """Ends the program."""
        self.process.kill()
        self.process.wait()
        for pipe in (self.process.stdin, self.process.stdout):
            try:
                pipe.close()
            except (OSError, RuntimeError, ValueError):
                pass


def bounded(query, before=None, behind=None):
    """A query for numbers below `before` and above `behind`, where these are given."""
    bounds = (b" -since:%d" % (before - 1) if before else b"") + (b" since:%d" % behind if behind else b"")
    return b"(" + query + b")" + bounds if bounds else query


class Parts:
    """All of them. `words` begin a program, and `most` is the most memory in bytes. Its calls come from one thread at a time."""

    def __init__(self, words, most):
        self._words = words
        self._most = most
        self.all = []
        self.begun = 0
        self.dropped = 0
        # from this number on all lines are there
        self.first = 1
        self._spare = None

    def prepare(self, size):
        """Starts the program that is to follow, so that it is there when it is wanted; where there is no room for it yet, nothing."""
        if sum(each.memory for each in self.all) + size <= self._most:
            self._spare = Part(self._words, size)

    def begin(self, size, first):
        """Begins a program of this much memory, whose first line has this number; the oldest end where there is no room for all."""
        part, self._spare = self._spare or Part(self._words, size), None
        while self.all and sum(each.memory for each in self.all) + part.memory > self._most:
            gone = self.all.pop(0)
            gone.close()
            self.dropped += 1
            # (a program that is full for a line may still take a shorter one after it, so older lines are there in part)
            self.first = gone.last + 1
        part.first = first
        self.all.append(part)
        self.begun += 1
        return part

    def oldest(self):
        """No line before this number is there."""
        return min((part.first for part in self.all), default=1)

    def ask(self, query, count, before=None, behind=None):
        """How many messages there are, and the newest `count` that match, newest first: those with a number below `before` and above `behind`,
        where these are given."""
        # (a late line is before newer ones in an answer: asked for as many more, none of the newest is missing)
        told = self._answers([b"?%d " % min(MOST, count + part.late) for part in self.all], query, bounded(query, before, behind))
        return sum(each["seen"] for each in told), heapq.nlargest(count, [it for each in told for it in each["ids"]])

    def count(self, query, behind=None):
        """How many messages there are, and how many of them match: those with a number above `behind`, where it is given."""
        told = self._answers([b"# " for _ in self.all], query, bounded(query, None, behind))
        return sum(each["seen"] for each in told), sum(each["count"] for each in told)

    def _answers(self, heads, query, line):
        """What each program answers to its head and the line, which is the query or begins with it. All work beside each other."""
        begun = [part.begin(head + line) for part, head in zip(self.all, heads)]
        told = []
        for part, head, asked in zip(self.all, heads, begun):
            try:
                told.append(part.end(asked))
            except Refused as fault:
                # (told of the query alone, in which nothing stands before it)
                before_query = len(head) + line.startswith(b"(" + query) * (line != query)
                raise Refused(fault.name, fault.column and max(1, fault.column - before_query)) from None
        return told

    def pages(self, query, behind=None):
        """All that match, of one part after the other, newest first, in pages of at most 1,000."""
        for part in reversed(list(self.all)):
            before = None
            while part in self.all:
                ids = part.ask(b"?%d %s" % (MOST, bounded(query, before, behind)))["ids"]
                if len(ids) == MOST and part.late:
                    yield from self._by_number(part, query, before, behind)
                    break
                yield sorted(ids, reverse=True)
                if len(ids) < MOST or min(ids) == 1:
                    break
                before = min(ids)

    def _by_number(self, part, query, before, behind):
        """The same of a part with late lines, by bounds of 1,000 numbers, since the newest of an answer aren't the greatest numbers there."""
        high = part.last if before is None else before - 1
        while part in self.all and high >= part.first and high > (behind or 0):
            yield sorted(part.ask(b"?%d %s" % (MOST, bounded(query, high + 1, max(high - MOST, behind or 0))))["ids"], reverse=True)
            high -= MOST

    def close(self):
        """Ends all."""
        for part in [*self.all, *([self._spare] if self._spare else [])]:
            part.close()
