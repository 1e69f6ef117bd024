"""Signs of life: a worker answers whoever asks how it is, over a channel, so nothing is kept in Redis, and no clock is compared."""
import json
import sys
import threading
import time
import uuid
from collections import deque

from . import names
from .wire import LOST, Push, Wire, any_ready, is_cluster, node_of, pack

SILENCE = 5.0  # seconds after which the connection is tried
WITHIN = 10.0  # seconds over which a rate is taken


class Rates:
    """Documents and queries a second, over the last ten seconds."""

    def __init__(self):
        self._notes = deque([(time.monotonic(), 0, 0)])

    def note(self, documents, queries):
        """Notes counts, at most once a second."""
        now = time.monotonic()
        if now - self._notes[-1][0] >= 1.0:
            self._notes.append((now, documents, queries))
        while len(self._notes) > 2 and now - self._notes[1][0] > WITHIN:
            self._notes.popleft()

    def of(self, documents, queries):
        """The rates with these counts now."""
        now = time.monotonic()
        begun, first_documents, first_queries = next((each for each in list(self._notes) if now - each[0] <= WITHIN), (now - 1, documents, queries))
        seconds = max(now - begun, 0.1)
        return max(0, round((documents - first_documents) / seconds)), max(0, round((queries - first_queries) / seconds))


class Life(threading.Thread):
    """Answers with what `says` gives, as JSON, whatever Redis does meanwhile."""

    def __init__(self, redis, tag, replica, says):
        super().__init__(daemon=True)
        self._redis, self._tag, self._channel, self._says = redis, tag, names.life(tag, replica), says

    def run(self):
        told = None
        while True:
            try:
                self._answer()
            except Exception as fault:  # whatever it is, who asks must hear something
                if str(fault) != told:
                    told = str(fault)
                    print("signs of life: %s" % told, file=sys.stderr, flush=True)
            time.sleep(0.2)

    def _answer(self):
        wire = Wire(self._redis, names.log(self._tag), pushes=True)
        wire.send(pack(b"SSUBSCRIBE", self._channel))
        try:
            while True:
                if not wire.ready(SILENCE):
                    wire.send(pack(b"PING"))
                found = wire.read()
                if isinstance(found, Push) and found[0] == b"sunsubscribe":
                    return
                if isinstance(found, Push) and found[0] == b"smessage":
                    wire.send(pack(b"SPUBLISH", found[2], json.dumps(self._says()).encode()))
        finally:
            wire.close()


def ask_all(redis, config, seconds=1.0):
    """What the workers of a cluster say: {(part, replica): [what one of this name says]}. One that listens and says nothing
    within the seconds is in the list as None: it hangs, or is stopped. Raises one of LOST where no node answers."""
    found, ears, owing, asker = {}, {}, {}, uuid.uuid4().hex
    for part, tag in enumerate(config.tags[:config.parts]):
        node = None
        try:
            node = node_of(redis, names.log(tag))
            if node not in ears:
                ears[node] = Wire(redis, names.log(tag), pushes=True)
            ear = ears[node]
            for replica in range(config.replicas):
                channel = names.replies(tag, "%s:%d:%d" % (asker, part, replica))
                ear.send(pack(b"SSUBSCRIBE", channel) + pack(b"SPUBLISH", names.life(tag, replica), channel))
                owing[channel] = (part, replica)
                found[part, replica] = []
                while True:
                    said = ear.read()
                    if not isinstance(said, Push):
                        break
                    _take(said, owing, found)
                if isinstance(said, Exception):
                    raise said
                found[part, replica] += [None] * (said - len(found[part, replica]))
        except LOST:
            if not is_cluster(redis):
                raise
            ears.pop(node, None)
    until = time.monotonic() + seconds
    while ears and any(None in each for each in found.values()) and time.monotonic() < until:
        for ear in any_ready(list(ears.values()), 0.05):
            _take(ear.read(), owing, found)
    for ear in ears.values():
        ear.close()
    return found


def _take(said, owing, found):
    if not isinstance(said, Push) or said[0] != b"smessage" or said[1] not in owing:
        return
    there = found[owing[said[1]]]
    try:
        says = json.loads(said[2])
    except ValueError:
        return
    if None in there:
        there[there.index(None)] = says
    else:
        there.append(says)
