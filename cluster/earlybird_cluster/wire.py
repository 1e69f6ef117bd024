"""Connections over which many commands go at once, and in which messages of channels come in order with the replies. redis-py
makes them (address, TLS, user); the commands are packed and the replies read here, since it doesn't speak RESP3 everywhere."""
import select

import redis as client

LOST = (client.exceptions.RedisError, client.exceptions.RedisClusterException)  # whatever Redis answers that isn't a reply
PIECE = 1 << 18  # bytes that are read at once


def pack(*words):
    """A command as Redis reads it; its words are bytes."""
    return b"*%d\r\n%b" % (len(words), b"".join([b"$%d\r\n%b\r\n" % (len(word), word) for word in words]))


def is_cluster(redis):
    """Whether this client is one of a Redis Cluster."""
    return hasattr(redis, "get_node_from_key")


def node_of(redis, key):
    """The name of the node that has a key: one and the same where Redis is no cluster."""
    return redis.get_node_from_key(key).name if is_cluster(redis) else ""


class Push(list):
    """A message that isn't the reply to a command."""


class Wire:
    """One connection to the node of a key. Its timeout, in seconds, is that of each read and write."""

    def __init__(self, redis, key, timeout=15.0, pushes=False):
        if is_cluster(redis):
            redis = redis.get_redis_connection(redis.get_node_from_key(key))
        self._link = redis.connection_pool.make_connection()
        self._link.connect()
        self.socket = self._link._sock
        self.socket.settimeout(timeout)
        self._held, self._place = b"", 0
        if pushes:
            self.call(b"HELLO", b"3")

    def send(self, packed):
        """Sends packed commands."""
        try:
            self.socket.sendall(packed)
        except OSError as fault:
            raise client.exceptions.ConnectionError("the connection ended: %s" % fault) from fault

    def _more(self):
        try:
            found = self.socket.recv(PIECE)
        except OSError as fault:
            raise client.exceptions.ConnectionError("no word from Redis: %s" % fault) from fault
        if not found:
            raise client.exceptions.ConnectionError("Redis ended the connection")
        return found

    def _line(self):
        while True:
            end = self._held.find(b"\r\n", self._place)
            if end >= 0:
                break
            self._held, self._place = self._held[self._place:] + self._more(), 0
        line = self._held[self._place:end]
        self._place = end + 2
        return line

    def _bytes(self, number):
        there = len(self._held) - self._place
        if there < number + 2:
            pieces = [self._held[self._place:]]
            while there < number + 2:
                pieces.append(self._more())
                there += len(pieces[-1])
            self._held, self._place = b"".join(pieces), 0
        found = self._held[self._place:self._place + number]
        self._place += number + 2
        return found

    def read(self):
        """The next reply or message: a number, bytes, None, a list, or an error as an object, which isn't raised."""
        line = self._line()
        kind, rest = line[:1], line[1:]
        if kind == b"$":
            return None if rest == b"-1" else self._bytes(int(rest))
        if kind == b":":
            return int(rest)
        if kind == b"*":
            return None if rest == b"-1" else [self.read() for _ in range(int(rest))]
        if kind == b">":
            return Push([self.read() for _ in range(int(rest))])
        if kind == b"%":
            return [[self.read(), self.read()] for _ in range(int(rest))]
        if kind == b"-":
            return client.exceptions.ResponseError(rest.decode("utf-8", "replace"))
        if kind == b"_":
            return None
        return rest

    def replies(self, number):
        """The next replies, of this number; the first error among them is raised when all are read."""
        found = [self.read() for _ in range(number)]
        for each in found:
            if isinstance(each, Exception):
                raise each
        return found

    def call(self, *words):
        """One command, and its reply."""
        self.send(pack(*words))
        return self.replies(1)[0]

    def ready(self, seconds=0):
        """Whether something is there to be read, after a wait of at most `seconds`."""
        return self._place < len(self._held) or bool(any_ready([self], seconds))

    def buffered(self):
        """Whether something was received that isn't read."""
        return self._place < len(self._held) or bool(getattr(self.socket, "pending", int)())

    def close(self):
        """Ends the connection."""
        self._link.disconnect()


def any_ready(wires, seconds):
    """Those of the connections that have something to be read, after a wait of at most `seconds`."""
    found = [wire for wire in wires if wire.buffered()]
    if found:
        return found
    poll = select.poll()  # not select(), which ends at descriptor 1,023
    for wire in wires:
        poll.register(wire.socket, select.POLLIN)
    there = {number for number, _ in poll.poll(1000 * seconds)}
    return [wire for wire in wires if wire.socket.fileno() in there]
