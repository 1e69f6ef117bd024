"""What a worker says to the routers: published, and published again where Redis went away meanwhile."""
import sys
import time
from collections import deque

from .wire import LOST, Wire, pack

AHEAD = 64  # replies that Redis hasn't confirmed
TRIES = 20  # attempts, in tenths of a second, to reach Redis again; a router asks again for what is lost then


class Replies:
    """The replies of a worker, by a connection of their own. Only the thread that follows its program uses it."""

    def __init__(self, redis, key):
        self._redis, self._key, self._wire = redis, key, None
        self._sent = deque()

    def say(self, channel, text):
        """Publishes a reply to one router, who may hear it twice."""
        packed = pack(b"SPUBLISH", channel, text)
        self._sent.append(packed)
        for _ in range(TRIES):
            try:
                if self._wire is None:
                    self._wire = Wire(self._redis, self._key)
                    packed = b"".join(self._sent)
                self._wire.send(packed)
                while len(self._sent) > AHEAD or self._sent and self._wire.ready():
                    self._wire.replies(1)
                    self._sent.popleft()
                return
            except LOST as lost:
                print("replies: %s" % lost, file=sys.stderr, flush=True)
                if self._wire is not None:
                    self._wire.close()
                self._wire = None
                time.sleep(0.1)
        self._sent.clear()
