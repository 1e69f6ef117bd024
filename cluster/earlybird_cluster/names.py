"""The keys and channels in Redis. All of one cluster begin with its name, so that one Redis can serve several. Those of a
partition share one hash tag, so in a Redis Cluster they lie on one node, and one script can use them."""
import json
import re
from collections import namedtuple

Config = namedtuple("Config", "parts words retain replicas tags epoch add safe")
Config.__doc__ = """What a cluster is: `tags` are the hash tags of its partitions; documents go to the partitions in the list
`add`, while a query asks the first `parts`; `words` are the program's; `retain` is the least number of documents that a log
keeps (0: all); `replicas` are the workers of a partition; `epoch` rises with each change; `safe` is how many replicas of Redis
must have a document before it is acknowledged."""

NAME = re.compile(r"[A-Za-z0-9_.-]{1,64}\Z")  # of a cluster or of a client


def config(name):
    """A hash: what Config says."""
    return "%s:config" % name


def log(tag):
    """A stream: the documents of a partition in the order in which its indexes take them. An entry has many lines."""
    return "{%s}:log" % tag


def end(tag):
    """A hash: `id` of the last entry that a router put into a log, how many `entries` and `lines` were put there, and `cut`:
    the entry behind which a worker needs an image."""
    return "{%s}:end" % tag


def epoch(tag):
    """The epoch below which queries are turned away."""
    return "{%s}:epoch" % tag


def client(tag, name):
    """A hash: which `session` may add under a client's name, the number of its `last` line in this log, up to which line all
    is `settled`, and the `mark` of its first line."""
    return "{%s}:client:%s" % (tag, name)


def blocks(tag, name):
    """A sorted set: a client's blocks in a log behind its settled line, each by the number of its last line."""
    return "{%s}:blocks:%s" % (tag, name)


def questions(tag, replica):
    """A channel: queries to one worker, while it has read its log."""
    return ("{%s}:ask:%d" % (tag, replica)).encode()


def life(tag, replica):
    """A channel: who publishes here is answered by one worker, whatever it does."""
    return ("{%s}:life:%d" % (tag, replica)).encode()


def replies(tag, router):
    """A channel: replies of a partition to one router."""
    return ("{%s}:to:%s" % (tag, router)).encode()


class NotSetUp(Exception):
    """There is no cluster of this name in this Redis, or it is another one than asked for."""


def read_config(redis, name):
    """What Redis has of a cluster: Config. NotSetUp where it isn't there, or is of another form."""
    found = redis.hgetall(config(name))
    if not found:
        raise NotSetUp("there is no cluster '%s' in this Redis: 'earlybird-cluster up N' sets it up" % name)
    try:
        return Config(int(found[b"parts"]), json.loads(found[b"words"]), int(found[b"retain"]), int(found[b"replicas"]),
                      json.loads(found[b"tags"]), int(found[b"epoch"]), json.loads(found[b"add"]), int(found[b"safe"]))
    except (KeyError, ValueError) as fault:
        raise NotSetUp("the cluster '%s' in this Redis is of another version; set one up under another --name, and add its messages again" % name) from fault


def words_of(redis, name):
    """The words of the program: those of the cluster that is there, else those of an index that counts, too."""
    found = redis.hget(config(name), "words")
    return ["run", "--counts"] if found is None else json.loads(found)


def tags_of(redis, name, parts):
    """A hash tag a partition. In a Redis Cluster they are chosen so that the partitions lie on the nodes in turn."""
    if not hasattr(redis, "get_node_from_key"):
        return ["%s:%d" % (name, part) for part in range(parts)]
    nodes = sorted(node.name for node in redis.get_primaries())
    tags = []
    for part in range(parts):
        tried = 0
        while True:
            tag = "%s:%d:%d" % (name, part, tried)
            if redis.get_node_from_key(log(tag)).name == nodes[part % len(nodes)]:
                break
            tried += 1
        tags.append(tag)
    return tags


def write_config(redis, name, parts, words, retain=None, replicas=None, safe=None):
    """Sets a cluster up. One that is there keeps its partitions, and what is None here."""
    before = read_config(redis, name) if redis.exists(config(name)) else None
    if before and before.parts != parts:
        raise NotSetUp("the cluster '%s' has %d partitions: 'earlybird-cluster grow --to M' gives it more" % (name, before.parts))
    if before is None:
        before = Config(parts, words, 0, 1, tags_of(redis, name, parts), 0, list(range(parts)), 0)
    _write(redis, name, before._replace(words=words, retain=before.retain if retain is None else retain,
                                        replicas=before.replicas if replicas is None else replicas, safe=before.safe if safe is None else safe))


def _write(redis, name, wanted):
    fields = {key: value if isinstance(value, int) else json.dumps(value) for key, value in wanted._asdict().items()}
    redis.hset(config(name), mapping=fields)


def begin_growth(redis, name, parts):
    """Names the partitions that a cluster is to have besides, so that their workers can start. Nobody asks them yet. Gives
    what the cluster is; one whose growth was broken off goes on with it."""
    found = read_config(redis, name)
    if parts < found.parts or (parts == found.parts and parts - 1 in found.add):
        raise NotSetUp("the cluster '%s' has %d partitions already" % (name, found.parts))
    if len(found.tags) < parts:
        found = found._replace(tags=found.tags + tags_of(redis, name, parts)[len(found.tags):])
        _write(redis, name, found)
    return found


def end_growth(redis, name, parts, seal):
    """Has queries ask all partitions from now on, and only then documents go to the new ones. No query that is sent after the
    first step misses the new ones: each partition turns away queries of an older epoch, and their router reads this anew."""
    found = read_config(redis, name)
    old = max(found.add) + 1
    found = found._replace(parts=parts, epoch=found.epoch + 1)
    _write(redis, name, found)
    for tag in found.tags[:parts]:
        redis.set(epoch(tag), found.epoch)
    _write(redis, name, found._replace(add=list(range(old if seal else 0, parts))))
