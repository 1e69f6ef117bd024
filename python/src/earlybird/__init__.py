"""A real-time search index for messages, in memory and in this process.

    >>> from earlybird import Index
    >>> index = Index()
    >>> index.add(101, "Night train to Vienna leaves at nine")
    >>> index.add(102, "The train is late, again.")
    >>> index.search("train -late", 10)
    Answer([101], seen=2)

Where one thread adds while others search, `Writer` of `earlybird.shared` opens an index that they share, and `Leader` of
`earlybird.stream` a feed that never ends. `Watches` are standing queries. An `Index` or `Writer` with an `image` keeps its messages
in a file, which `load` reads again. `earlybird.refusals` has the reasons why a call did nothing.

A message can be found as soon as `add` returns, and the newest matches come first. Queries are those of the program `earlybird`
(docs/QUERIES.md), and so are the refusals, each an exception of its name. The classes of the three modules are names of this one, too.
"""
from earlybird import refusals, shared, stream
from earlybird._index import Answer, Count, Histogram, Index, Segment
from earlybird._shared import Converter, Reader, Writer
from earlybird._stream import Follower, Leader, Released, Spare
from earlybird._watches import Watches
from earlybird.refusals import *

__version__ = "0.5.0"

# the first page; the other names are those of the modules
__all__ = ["Answer", "Count", "Histogram", "Index", "Refused", "Segment", "Watches", "refusals", "shared", "stream"]
