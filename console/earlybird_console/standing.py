"""Standing queries: the watches of the page, and readers of events. Each is a watch of the index program."""
from .alerts import Watch
from .index import Order
from .queries import Refused
from . import limits


class Standing:
    """Those of a console."""

    def __init__(self, console, alerts):
        self.watches = {}
        self._console = console
        self.alerts = alerts
        self._asked = {}
        self._readers = {}
        self._last = 0
        for number, query, name, most, seconds in console.texts.watches():
            try:
                self._asked[number] = console.asking.read(query)
            except Refused:
                # (what an earlier console took and this one doesn't)
                console.texts.drop_watch(number)
                continue
            self.watches[number] = Watch(number, query, name, most, seconds)
            self._last = number

    def lines(self):
        """The lines that set them all."""
        return [b"!%d %s" % (number, asked.text.encode()) for number, asked in self._asked.items()]

    async def _begin(self, asked):
        number = self._last = self._last + 1
        await self._console.asking.begin_watch(number, asked)
        self._asked[number] = asked
        return number

    def _end(self, number):
        self._asked.pop(number, None)
        self._console.send(Order(b"!%d" % number))

    def set_anew(self, names):
        """Sets those queries anew that ask for values of these names, since from now on these are found by their words alone."""
        for number, asked in list(self._asked.items()):
            if any(name in names for name, _ in asked.fields):
                again = self._asked[number] = self._console.asking.read(asked.query)
                # (one line behind the other: no message comes between)
                self._console.send(Order(b"!%d" % number))
                self._console.send(Order(b"!%d %s" % (number, again.text.encode())))
                if number in self._readers:
                    self._readers[number].asked = again

    async def begin_reading(self, asked, make_reader):
        """Begins to tell a reader of the messages that meet a query. Raises Refused."""
        number = await self._begin(asked)
        reader = self._readers[number] = make_reader(number)
        return reader

    def end_reading(self, reader):
        """Ends it."""
        self._readers.pop(reader.number, None)
        self._end(reader.number)

    async def add_watch(self, query, name, most, seconds):
        """Adds a watch of the page, and gives its number. Raises Refused."""
        if len(self.watches) >= limits.WATCHES:
            raise Refused("watches full", None, "there are %d" % limits.WATCHES)
        for number, each in self.watches.items():
            if (each.query, each.name, each.most, each.seconds) == (query, name or query, most, seconds):
                return number
        number = await self._begin(self._console.asking.read(query))
        self.watches[number] = Watch(number, query, name, most, seconds)
        self._console.texts.keep_watch(number, query, name, most, seconds)
        return number

    def remove_watch(self, number):
        """Removes a watch; whether there was one."""
        if self.watches.pop(number, None) is None:
            return False
        self._console.texts.drop_watch(number)
        self._end(number)
        return True

    def tell(self, met):
        """Tells of messages that met standing queries: (number of the query, message)."""
        by_number = {}
        for number, message in met:
            if message.again is None:
                by_number.setdefault(number, []).append(message)
        for number, found in by_number.items():
            if number in self.watches:
                self.alerts.meet(self.watches[number], found, self._console.texts.sources)
            if number in self._readers:
                self._readers[number].meet(found)

    def told(self):
        """For the page."""
        return {"readers": len(self._readers), "watches": [watch.told() for watch in self.watches.values()]}
