"""How fast it goes: counts by the second of the last minute, and the times of queries."""
import collections
import time

SPAN = 60
TIMES = 1000
REFUSALS = 20


class Seconds:
    """Counts by the second, of the last minute."""

    def __init__(self, clock=time.monotonic):
        self._clock = clock
        self._counts = collections.deque([0] * SPAN, SPAN)
        self._now = int(clock())

    def _step(self):
        now = int(self._clock())
        for _ in range(min(now - self._now, SPAN)):
            self._counts.append(0)
        self._now = now

    def add(self, count=1):
        """Counts this many now."""
        self._step()
        self._counts[-1] += count

    def counts(self):
        """The counts of the last 60 seconds, this one last."""
        self._step()
        return list(self._counts)

    def rate(self, seconds=5):
        """How many a second, over the last whole seconds."""
        return sum(self.counts()[-1 - seconds:-1]) / seconds


def nearest(times, part):
    """The least of these times that `part` of 100 don't exceed, or None where there is none."""
    ranked = sorted(times)
    return ranked[max(-(-len(ranked) * part // 100), 1) - 1] if ranked else None


class Figures:
    """What the strip of the page shows."""

    def __init__(self):
        self.messages = Seconds()
        self.queries = Seconds()
        self._times = collections.deque(maxlen=TIMES)
        self.accepted = 0
        self.asked = 0
        self.spent = 0.0
        self.refused = collections.Counter()
        self.refusals = collections.deque(maxlen=REFUSALS)

    def accept(self, count):
        """Counts accepted messages."""
        self.accepted += count
        self.messages.add(count)

    def refuse(self, source, text, name):
        """Counts a refused line: where it came from, how it begins, and why."""
        # (a refusal that names a number is one kind for all numbers)
        self.refused[name.rstrip("0123456789").rstrip()] += 1
        self.refusals.append({"source": source, "text": text, "refused": name})

    def answer(self, seconds):
        """Counts an answered query."""
        self.queries.add()
        self.asked += 1
        self.spent += seconds
        self._times.append(seconds)

    def told(self):
        """All of it, for JSON; times in milliseconds."""
        times = {"p%d" % part: nearest(self._times, part) for part in (50, 99)}
        return {
            "messages_per_second": round(self.messages.rate(), 1),
            "accepted": self.accepted,
            "refused": dict(self.refused.most_common()),
            "refusals": list(self.refusals),
            "queries_per_second": round(self.queries.rate(), 1),
            **{name: None if value is None else round(value * 1000, 3) for name, value in times.items()},
        }
