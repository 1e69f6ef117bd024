"""One thread adds messages, one packs closed segments, and others search at the same time. Each answer is checked as it comes.
Arguments: how many messages, how many readers. Tells what was done a second on standard error."""
import sys
import threading
import time

from earlybird import BadHandle, Writer

WANTED = 10
QUERIES = [("third", lambda n: n % 3 == 0), ("all", lambda n: True), ("all -third", lambda n: n % 3 != 0), ("w7", lambda n: n % 1000 == 7)]


def text_of(n):
    """Message n has the id n. Each has "all", each third has "third", and each has one of a thousand other words."""
    return "all w%d %s message" % (n % 1000, "other" if n % 3 else "third")


def newest(seen, matches):
    found = []
    while seen and len(found) < WANTED:
        if matches(seen):
            found.append(seen)
        seen -= 1
    return found


class Run:
    """A writer, a converter and readers at work."""

    def __init__(self, messages, readers):
        self.messages, self.added, self.packed, self.over, self.failures, self.searches = messages, 0, 0, False, [], [0] * readers
        self.writer = Writer(12, 32768, 8192)
        self.readers = [self.writer.reader() for _ in range(readers)]

    def guarded(self, work, *arguments):
        try:
            work(*arguments)
        except BaseException as failure:
            self.failures.append(failure)
            self.over = True

    def add_all(self):
        for n in range(1, self.messages + 1):
            if self.over:
                return
            self.writer.add(n, text_of(n))
            self.added = n
        self.over = True

    def pack_all(self):
        while not self.over:
            before, self.packed = self.packed, self.writer.converter.convert()
            if self.packed == before:
                time.sleep(0.001)

    def ask(self, reader, at):
        query, matches = QUERIES[at % len(QUERIES)]
        added, known = self.added, reader.seen
        ids = reader.search(query, WANTED)
        seen = ids.seen
        assert added <= seen and known <= seen, (added, known, seen)
        assert ids == newest(seen, matches), (query, seen, ids)
        return seen

    def search_all(self, at, reader):
        while not self.over:
            self.ask(reader, self.searches[at])
            self.searches[at] += 1

    def run(self):
        threads = [threading.Thread(target=self.guarded, args=(self.add_all,)), threading.Thread(target=self.guarded, args=(self.pack_all,))]
        threads += [threading.Thread(target=self.guarded, args=(self.search_all, at, reader)) for at, reader in enumerate(self.readers)]
        begun = time.monotonic()
        for thread in threads:
            thread.start()
        for thread in threads:
            thread.join()
        seconds = time.monotonic() - begun
        if self.failures:
            raise self.failures[0]
        print("Python, readers %d: %.0f adds a second beside %.0f checked searches a second, %d segments packed"
              % (len(self.readers), self.messages / seconds, sum(self.searches) / seconds, self.packed), file=sys.stderr)

    def close(self):
        """Closes the writer before the readers: these go on."""
        self.writer.close()
        try:
            self.writer.add(0, "closed")
            raise AssertionError("a closed writer adds")
        except BadHandle:
            pass
        for reader in self.readers:
            assert self.ask(reader, 1) == self.messages
            reader.close()


def main():
    numbers = [int(word) for word in sys.argv[1:]]
    run = Run(*numbers) if len(numbers) == 2 else Run(numbers[0] if numbers else 200_000, 3)
    run.run()
    run.close()
    print("right")


main()
