"""The router: a client of a cluster, which adds documents and asks queries."""
from .adding import ENTRY, Adder, OtherInput, Told  # noqa: F401 (for callers)
from .asking import Answer, Asker  # noqa: F401
from .hub import Hub
from .wire import LOST  # noqa: F401


class Router:
    """A client of a cluster. Not to be shared by threads; each may have its own. `redis` is a client of redis-py (`machine.connect`
    makes it of a URL), `patience` the seconds for which Redis, and a partition that lives, is waited for."""

    def __init__(self, redis, name="earlybird", patience=5.0):
        self.name, self.patience = name, patience
        self._hub = Hub(redis, name, patience)
        self._asker = Asker(self._hub)
        self.adder = None  # of the last call of `add`, with its `name`, and what is `settled`, `known` and `unknown`

    @property
    def config(self):
        """What the cluster was when it was last looked at: names.Config."""
        return self._hub.config

    @property
    def settled(self):
        """The number of a line of the last `add`: up to it all are accepted or refused."""
        return self.adder.settled if self.adder else 0

    def alive(self):
        """The partitions that have a worker which lives."""
        return {part for part in range(self._hub.config.parts) if self._hub.lives(part)}

    def add(self, lines, wait=True, progress=None, client=None, first=1):
        """Adds the document lines of an iterable of bytes, in order, numbered from `first` on. A LF or CR at a line's end is
        removed, and a line that holds another one is a bad line. Yields a Told, in order, for each line that isn't accepted:
        `refused` with the program's word, or `bad line` where it doesn't begin with `{`; or `pending` where within the
        patience no worker said what became of it. Without `wait` only those lines are refused of which no worker has to say it.
        Blank lines are numbered and pass. None among the lines says that no line is there at the moment: all before it are
        then put into the log, and settled. `client` is a name under which the same lines may be added again: those that a log
        has are left out. Raises one of LOST where Redis is gone for longer than the patience, and OtherInput where the name
        was used for other lines, or is used elsewhere now."""
        self.adder = Adder(self._hub, client, first)
        return self.adder.add(lines, wait, progress)

    def add_blocks(self, texts, wait=True, progress=None, client=None, first=1):
        """As `add`, of texts of whole lines, each line with its LF; an empty text says that no line is there at the moment."""
        self.adder = Adder(self._hub, client, first)
        return self.adder.add_blocks(texts, wait, progress)

    def ask_many(self, lines, cut=False):
        """Yields an Answer for each query line or count line of an iterable of bytes, in order; lines are taken as by `add`. None among them
        says that no line is there at the moment. With `cut` it is known that no line has a LF. Raises one of LOST where Redis
        is gone for longer than the patience."""
        return self._asker.ask_many(lines, cut)

    def ask(self, line):
        """The Answer to one query line or count line (bytes, as `b"?5 hello"`, `b"# hello"`)."""
        return next(self.ask_many([line]))

    def close(self):
        """Ends the connections."""
        self._hub.close()
