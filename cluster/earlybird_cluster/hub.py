"""The connections of one client to all nodes that its cluster lies on, and the messages that come to it."""
import itertools
import time
import uuid
from collections import deque

import redis as client

from . import names, scripts
from .wire import LOST, Wire, any_ready, is_cluster, node_of, pack

LOOK = 1.0  # seconds after which the configuration is read again before documents are put
SLOW = 10.0  # seconds, at least, after which a Redis that doesn't answer is lost
RETRY = 0.25  # seconds between attempts to reach a node of a Redis Cluster that is gone


class Hub:
    """Where the partitions of a cluster are, and a connection for commands and one for messages to each node. Where Redis is
    no cluster, its loss is raised; of a Redis Cluster a partition whose node is gone has none."""

    def __init__(self, redis, name, patience):
        self.redis, self.name, self.patience = redis, name, patience
        self.id = uuid.uuid4().hex
        self.requests = itertools.count(1)
        # whose turn the next block is (of all adds of this client: many small ones would else go to one partition)
        self.turns = itertools.count(int(self.id[:6], 16))
        self.takers = {}  # first byte of a message: what takes it
        self.strange = 0  # messages that nobody could take
        self.times = 0  # that it connected
        self.config, self.node, self._nodes, self._tried = None, {}, {}, {}
        self._open = deque()  # commands whose replies weren't read
        self.connect()

    # ---- connections

    def connect(self):
        """Anew, as after a fault."""
        self.close()
        self.times += 1
        if is_cluster(self.redis):
            self.redis.nodes_manager.initialize()
        self.learn()
        if not self._nodes:
            raise client.exceptions.ConnectionError("no node of the Redis Cluster that has a partition answers")

    def close(self):
        """Ends all connections."""
        for wire, ear in self._nodes.values():
            wire.close()
            ear.close()
        self.node, self._nodes, self._tried = {}, {}, {}
        self._open.clear()

    def learn(self):
        """Reads the configuration, and connects to nodes that are new in it."""
        try:
            self.config, self._looked = names.read_config(self.redis, self.name), time.monotonic()
        except LOST:
            if self.config is None or not is_cluster(self.redis):
                raise
            self._looked = time.monotonic()  # its node is gone; what was read before holds until it is back
        for part in range(self.config.parts):
            if part not in self.node:
                self._reach(part)

    def look(self):
        """Reads the configuration again, if it is long ago."""
        if time.monotonic() - self._looked > LOOK:
            self.learn()

    def _reach(self, part):
        tag, node = self.config.tags[part], None
        try:
            node = node_of(self.redis, names.log(tag))
            if node not in self._nodes:
                if time.monotonic() - self._tried.get(node, -1e9) < RETRY:
                    return
                self._tried[node] = time.monotonic()
                timeout = max(SLOW, 2 * self.patience + 1)
                wire = Wire(self.redis, names.log(tag), timeout)
                for script in scripts.ALL:
                    wire.call(b"SCRIPT", b"LOAD", script)
                self._nodes[node] = wire, Wire(self.redis, names.log(tag), timeout)
            self.node[part] = node
            self._nodes[node][1].send(pack(b"SSUBSCRIBE", names.replies(tag, self.id)))
        except LOST:
            self._lose(node)
            if not is_cluster(self.redis):
                raise

    def _lose(self, node):
        for each in self._nodes.pop(node, ()):
            each.close()
        self.node = {part: other for part, other in self.node.items() if other != node}

    def reach_again(self):
        """Of a Redis Cluster: tries the nodes that are gone, with what the others know of where their partitions are now."""
        gone = [part for part in range(self.config.parts) if part not in self.node]
        if gone and is_cluster(self.redis) and time.monotonic() - self._tried.get(None, -1e9) > RETRY:
            self._tried[None] = time.monotonic()
            try:
                self.redis.nodes_manager.initialize()
            except LOST:
                return
            for part in gone:
                self._reach(part)

    # ---- commands

    def send(self, commands):
        """Sends commands, as (part, words), those of one node at once. Gives what `finish` takes."""
        sent, found = {}, [None] * len(commands)
        for place, (part, words) in enumerate(commands):
            sent.setdefault(self.node.get(part), []).append((place, pack(*words)))
        for node, each in list(sent.items()):
            try:
                if node is None:
                    raise client.exceptions.ConnectionError("the node of partition %d is gone" % commands[each[0][0]][0])
                self._nodes[node][0].send(b"".join([packed for _, packed in each]))
            except LOST as fault:
                self._fail(node, fault, found, sent.pop(node))
        ticket = found, {node: (self._nodes[node][0], [place for place, _ in each]) for node, each in sent.items()}
        self._open.append(ticket)
        return ticket

    def finish(self, ticket):
        """The replies to commands that were sent, in order, errors as objects. A partition whose node is gone, or goes, has the
        fault as its reply; where Redis is no cluster it is raised."""
        while any(each is ticket for each in self._open):
            found, sent = self._open.popleft()
            for node, (wire, places) in sent.items():
                try:
                    for place in places:
                        found[place] = wire.read()
                except LOST as fault:
                    self._fail(node, fault, found, [(place, None) for place in places])
                if is_cluster(self.redis) and any(isinstance(found[place], Exception) for place in places):
                    self._lose(node)  # it may have moved, or begun anew
        return ticket[0]

    def run(self, commands):
        """Sends commands, and gives their replies."""
        return self.finish(self.send(commands))

    def _fail(self, node, fault, found, each):
        self._lose(node)
        if not is_cluster(self.redis):
            raise fault
        for place, _ in each:
            if found[place] is None:
                found[place] = fault

    def listens(self, part, channel):
        """Whether a channel of a partition has a listener."""
        found = self.run([(part, (b"PUBSUB", b"SHARDNUMSUB", channel))])[0]
        return not isinstance(found, Exception) and found[1] > 0

    def lives(self, part):
        """Whether a worker of the partition lives, whatever it does."""
        return any(self.listens(part, names.life(self.config.tags[part], replica)) for replica in range(self.config.replicas))

    # ---- messages

    def receive(self, seconds):
        """Takes in the messages that are there, and waits this time for one where none is. True where one came."""
        came = False
        ears = {ear: node for node, (_, ear) in self._nodes.items()}
        for ear in any_ready(list(ears), seconds):
            try:
                while True:
                    found = ear.read()
                    if isinstance(found, Exception):
                        raise found
                    if found[0] == b"smessage":
                        came = True
                        self._take(found[2])
                    elif found[0] == b"sunsubscribe":  # the partition is on another node now
                        raise client.exceptions.ConnectionError("a partition has moved")
                    if not ear.ready():
                        break
            except LOST:
                self._lose(ears[ear])
                if not is_cluster(self.redis):
                    raise
        if not ears:
            time.sleep(seconds)
        return came

    def _take(self, message):
        try:
            self.takers[message[:1]](message)
        except (KeyError, ValueError, IndexError):
            self.strange += 1
