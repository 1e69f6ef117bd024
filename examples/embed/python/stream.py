"""A feed: one thread adds messages over several generations, while others search. Each answer is checked as it comes.
Arguments: how many messages, how many followers. Tells what was done a second on standard error."""
import sys
import threading
import time

from earlybird import BadHandle, Leader

WANTED, SEGMENTS, DOCS, KEEP = 10, 2, 2048, 3
# so many messages, since each segment has room for their words
GENERATION = SEGMENTS * DOCS
QUERIES = [("third", lambda n: n % 3 == 0), ("all", lambda n: True), ("all -third", lambda n: n % 3 != 0), ("w7", lambda n: n % 1000 == 7)]


def text_of(n):
    """Message n has the id n. Each has "all", each third has "third", and each has one of a thousand other words."""
    return "all w%d %s message" % (n % 1000, "other" if n % 3 else "third")


def generation_of(n):
    """The number of a message's generation, from 0."""
    return (n - 1) // GENERATION if n else 0


def newest(seen, held, matches):
    """The newest that match, of the messages of the last `held` generations up to the message `seen`."""
    found, before = [], (generation_of(seen) + 1 - held) * GENERATION
    while seen > before and len(found) < WANTED:
        if matches(seen):
            found.append(seen)
        seen -= 1
    return found


class Run:
    """A leader and followers at work."""

    def __init__(self, messages, followers):
        self.messages, self.begun, self.told, self.packed, self.over, self.failures = messages, 0, 0, 0, False, []
        self.searches, self.missed = [0] * followers, 0
        self.leader = Leader(SEGMENTS, DOCS, 2048, KEEP)
        self.followers = [self.leader.follower() for _ in range(followers)]

    def guarded(self, work, *arguments):
        try:
            work(*arguments)
        except BaseException as failure:
            self.failures.append(failure)
            self.over = True

    def add_all(self):
        for n in range(1, self.messages + 1):
            if self.over:
                return
            self.begun = n
            self.leader.add(n, text_of(n))
            while not self.leader.tell():
                pass
            self.told = n
            if n % GENERATION == 1:
                converter = self.leader.converter()
            elif n % GENERATION == DOCS + 1:
                self.packed += converter.convert()
        self.over = True

    def ask(self, follower, at):
        query, matches = QUERIES[at % len(QUERIES)]
        told, known = self.told, follower.seen
        ids = follower.search(query, WANTED)
        seen, held = ids.seen, follower.held
        assert known <= seen and held == min(KEEP, generation_of(seen) + 1), (known, seen, held)
        assert ids == newest(seen, held, matches), (query, seen, ids)
        if seen >= told:
            return seen
        # a letter that tells of a generation was just replacing the one before it, which wasn't taken yet
        assert generation_of(self.begun) > generation_of(told), (told, seen)
        self.missed += 1
        return self.ask(follower, at)

    def search_all(self, at, follower):
        while not self.over:
            self.ask(follower, self.searches[at])
            self.searches[at] += 1

    def run(self):
        threads = [threading.Thread(target=self.guarded, args=(self.add_all,))]
        threads += [threading.Thread(target=self.guarded, args=(self.search_all, at, follower)) for at, follower in enumerate(self.followers)]
        begun = time.monotonic()
        for thread in threads:
            thread.start()
        for thread in threads:
            thread.join()
        seconds = time.monotonic() - begun
        if self.failures:
            raise self.failures[0]
        print("Python, followers %d: %.0f adds a second over %d generations beside %.0f checked searches a second (%d again), %d segments packed"
              % (len(self.followers), self.messages / seconds, generation_of(self.messages) + 1, sum(self.searches) / seconds, self.missed, self.packed),
              file=sys.stderr)

    def close(self):
        """Closes the leader before the followers: these go on."""
        self.leader.close()
        try:
            self.leader.add(0, "closed")
            raise AssertionError("a closed leader adds")
        except BadHandle:
            pass
        for follower in self.followers:
            assert self.ask(follower, 1) == self.messages
            follower.close()


def main():
    numbers = [int(word) for word in sys.argv[1:]]
    run = Run(*numbers) if len(numbers) == 2 else Run(numbers[0] if numbers else 50_000, 2)
    run.run()
    run.close()
    print("right")


main()
