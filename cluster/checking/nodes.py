"""A Redis Cluster of three nodes, one of which is killed; and a Redis with a replica, without which it takes no lines."""
import json
import os
import shutil
import signal
import socket
import subprocess
import tempfile
import time

import redis as client


from .stage import Stage, check, make_documents, make_queries, numbered, run_alone, seeded, text_of, until


def run():
    """All of it."""
    _cluster()
    _replicated()


class Node:
    """A Redis on a free port of this machine."""

    def __init__(self, folder, number, *words):
        self.port, self.folder, self.words = _free_port(), os.path.join(folder, str(number)), words
        os.makedirs(self.folder)
        self.start()

    def start(self):
        """Starts it."""
        self.process = subprocess.Popen(["redis-server", "--port", str(self.port), "--bind", "127.0.0.1", "--save", "", "--appendonly", "yes",
                                         "--appendfsync", "always", "--dir", self.folder, *self.words], stdout=subprocess.DEVNULL)
        self.redis = client.Redis("127.0.0.1", self.port)
        until(self.answers)

    def answers(self):
        """Whether it does."""
        try:
            return self.redis.ping()
        except client.exceptions.RedisError:
            return False

    def kill(self):
        """Kills it."""
        self.process.kill()
        self.process.wait()


def _free_port():
    """A port that nobody has, with room for that of the cluster's bus 10,000 above."""
    while True:
        with socket.socket() as one, socket.socket() as two:
            one.bind(("127.0.0.1", 0))
            port = one.getsockname()[1]
            if 20000 < port < 55000:
                try:
                    two.bind(("127.0.0.1", port + 10000))
                    return port
                except OSError:
                    pass
            elif port >= 55000:
                for port in range(21000 + os.getpid() % 9000, 55000):
                    try:
                        with socket.socket() as three:
                            three.bind(("127.0.0.1", port))
                            two.bind(("127.0.0.1", port + 10000))
                            return port
                    except OSError:
                        continue


def _cluster():
    folder = tempfile.mkdtemp(prefix="earlybird-nodes-")
    nodes = []
    try:
        for number in range(3):
            nodes.append(Node(folder, number, "--cluster-enabled", "yes", "--cluster-node-timeout", "1500", "--cluster-require-full-coverage", "no"))
        for number, node in enumerate(nodes):
            node.redis.execute_command("CLUSTER", "ADDSLOTSRANGE", 16384 * number // 3, 16384 * (number + 1) // 3 - 1)
            node.redis.execute_command("CLUSTER", "SET-CONFIG-EPOCH", number + 1)
        for node in nodes[1:]:
            node.redis.execute_command("CLUSTER", "MEET", "127.0.0.1", nodes[0].port)
        check("a Redis Cluster of three nodes", True, until(lambda: all(node.redis.execute_command("CLUSTER", "NODES").count(b"connected") == 3 and
                                                                        b"cluster_state:ok" in _info(node) for node in nodes)))
        with Stage("cluster+" + ",".join("redis://127.0.0.1:%d" % node.port for node in nodes)) as stage:
            _serves(stage, nodes)
    finally:
        for node in nodes:
            node.kill()
        shutil.rmtree(folder, ignore_errors=True)


def _info(node):
    found = node.redis.execute_command("CLUSTER", "INFO")
    return found if isinstance(found, bytes) else b"cluster_state:%b" % found["cluster_state"].encode()


def _serves(stage, nodes):
    rng = seeded(17)
    check("up on it", 0, stage.up(3))
    documents, last = make_documents(10000, 0, rng)
    queries = make_queries(100, rng)
    check("add to it", [], list(stage.router().add(documents)))
    want = run_alone(["run"], documents, queries)
    check("its answers", want, stage.ask_all(queries))
    lengths = [sum(node.redis.xlen(key) for key in node.redis.keys("*:log")) for node in nodes]
    check("each node has a log", True, all(lengths))
    router = stage.router()
    nodes[1].kill()
    answers = [router.ask(line) for line in queries[:10]]
    check("answers without a node name its partition", [1], sorted({len(each.missing) for each in answers}))
    more = numbered(range(last + 1, last + 3001), "later")
    lines = text_of(more)
    printed, status, said = stage.command("--patience", "1", "add", "--client", "later", text=lines)
    check("add without a node", (b"", 3, True), (printed, status, "is gone; up to line 0 " in said and "--client later" in said))
    nodes[1].start()
    printed, status, said = stage.command("--patience", "30", "add", "--client", "later", text=lines)
    check("add with it again", (b"", 0), (printed, status) if status == 0 else (printed, said))
    there = sorted(json.loads(line)["id"] for part in stage.documents() for line in part)
    check("each line once", sorted([json.loads(line)["id"] for line in documents + more]), there)
    router = stage.router()
    want = run_alone(["run"], documents + more, queries)
    check("whole answers again", True, until(lambda: not router.ask(b"?1 later").missing))
    check("and the right ones", want, stage.ask_all(queries))


def _replicated():
    folder = tempfile.mkdtemp(prefix="earlybird-nodes-")
    nodes = []
    try:
        nodes.append(Node(folder, "master", "--min-replicas-to-write", "1", "--min-replicas-max-lag", "2", "--repl-diskless-sync-delay", "0"))
        nodes.append(Node(folder, "replica", "--replicaof", "127.0.0.1 %d" % nodes[0].port))
        check("a replica", True, until(lambda: nodes[0].redis.info("replication")["connected_slaves"] == 1 and
                                       nodes[1].redis.info("replication")["master_link_status"] == "up"))
        with Stage("redis://127.0.0.1:%d" % nodes[0].port) as stage:
            check("up with --safe 1", 0, stage.up(1, "--safe", "1"))
            check("add with a replica", [], list(stage.router().add(numbered(range(1, 2001)))))
            check("it has the log", 2000, _lines(nodes[1].redis))
            nodes[1].process.send_signal(signal.SIGSTOP)
            printed, status, said = stage.command("--patience", "2", "add", "--client", "safe", text=text_of(numbered(range(2001, 3001))))
            check("add without a replica", (3, 1000), (status, printed.count(b" pending: ")))
            time.sleep(2.5)
            _, status, said = stage.command("--patience", "0.5", "add", text=text_of(numbered([5000])))
            check("the master takes no lines then", (3, True), (status, "replicas" in said))
            nodes[1].process.send_signal(signal.SIGCONT)
            printed, status, said = stage.command("--patience", "30", "add", "--client", "safe", text=text_of(numbered(range(2001, 3001))))
            check("add with the replica again", (b"", 0), (printed, status) if status == 0 else (printed, said))
            there = sorted(json.loads(line)["id"] for part in stage.documents() for line in part)
            check("each line once", list(range(1, 3001)), there)
    finally:
        for node in nodes:
            node.kill()
        shutil.rmtree(folder, ignore_errors=True)


def _lines(redis):
    return sum(fields[b"d"].count(b"\n") for key in redis.keys("*:log") for _, fields in redis.xrange(key))


