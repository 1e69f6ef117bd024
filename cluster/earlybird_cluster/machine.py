"""A cluster on this machine: Redis in a folder of its own, where none is given, and the workers as processes."""
import contextlib
import fcntl
import json
import logging
import os
import signal
import subprocess
import sys
import time

import redis as client

from . import names

COMMAND = os.path.join(os.path.dirname(os.path.dirname(os.path.abspath(__file__))), "earlybird-cluster")

TIMEOUT = 15.0  # seconds after which a Redis that doesn't answer is lost

# The settings of a Redis that `up` starts: no port, so that only users of this machine who may read the folder reach it.
REDIS = ["redis-server", "--port", "0", "--appendonly", "yes", "--save", "", "--maxmemory-policy", "noeviction", "--daemonize", "no"]


def socket_of(folder):
    """Where the Redis of a folder listens."""
    return os.path.join(folder, "redis.sock")


def connect(url):
    """A client of Redis, of a URL as `redis://`, `rediss://` (TLS) or `unix://`; with `cluster+` before it URLs of some nodes
    of a Redis Cluster, with commas between. Raises one of LOST where no node of a Redis Cluster answers, ValueError where it
    is no URL."""
    if url.startswith("cluster+"):
        logging.getLogger("redis.cluster").setLevel(logging.CRITICAL)
        seeds = url[len("cluster+"):].split(",")
        for place, each in enumerate(seeds, 1):
            try:
                return client.RedisCluster.from_url(each, socket_timeout=TIMEOUT, socket_connect_timeout=TIMEOUT)
            except client.exceptions.RedisClusterException as lost:
                if place == len(seeds):
                    raise client.exceptions.ConnectionError("no node of the Redis Cluster answers") from lost
    if url.startswith("unix:"):
        return client.Redis.from_url(url, socket_timeout=TIMEOUT)
    return client.Redis.from_url(url, socket_timeout=TIMEOUT, socket_connect_timeout=TIMEOUT)


def older_redis(redis):
    """The version of a Redis that is too old for sharded channels; None for one that isn't."""
    found = redis.info("server")
    version = str(found["redis_version"] if "redis_version" in found else next(iter(found.values()))["redis_version"])
    return version if int(version.split(".")[0]) < 7 else None


# ---- processes


def worker_of(name, part, replica):
    """The name of a worker's process."""
    return "worker-%s-%d" % (name, part) + ("-%d" % replica if replica else "")


def supervisor_of(name):
    """The name of the process that starts a cluster's workers again."""
    return "supervisor-%s" % name


def _file(folder, what, kind):
    return os.path.join(folder, "%s.%s" % (what, kind))


def running(folder, what):
    """The process of this name that was started in the folder, if it still runs."""
    try:
        with open(_file(folder, what, "pid"), encoding="ascii") as file:
            number = int(file.read())
        with open("/proc/%d/cmdline" % number, "rb") as file:
            words = file.read()
    except (OSError, ValueError):
        return None
    return number if folder.encode() in words and (b"redis-server" in words or b"earlybird-cluster" in words) else None


@contextlib.contextmanager
def lock(folder):
    """Only one process at a time starts or ends what runs in the folder."""
    os.makedirs(folder, mode=0o700, exist_ok=True)
    with open(os.path.join(folder, "lock"), "w", encoding="ascii") as file:
        fcntl.flock(file, fcntl.LOCK_EX)
        yield


def _start(folder, what, words, environment=None):
    with open(_file(folder, what, "log"), "ab") as log:
        process = subprocess.Popen(words, stdin=subprocess.DEVNULL, stdout=log, stderr=log, start_new_session=True, env=environment)
    with open(_file(folder, what, "pid"), "w", encoding="ascii") as file:
        file.write(str(process.pid))
    return process


def start_redis(folder, fsync):
    """Starts Redis in the folder, where it doesn't run. Gives its process where it was started."""
    if len(socket_of(folder)) > 100:
        raise names.NotSetUp("the folder's name is too long for a socket in it: %s" % folder)
    with lock(folder):
        if running(folder, "redis") is not None:
            return None
        return _start(folder, "redis", [*REDIS, "--unixsocket", socket_of(folder), "--unixsocketperm", "700", "--dir", folder, "--appendfsync", fsync])


def await_redis(folder, process):
    """Waits until the Redis of the folder has read its log."""
    redis = connect("unix://" + socket_of(folder))
    for _ in range(600):
        try:
            redis.ping()
            return
        except client.exceptions.RedisError:
            if process is not None and process.poll() is not None:
                break
            time.sleep(0.1)
    raise names.NotSetUp("redis-server didn't start: see %s" % _file(folder, "redis", "log"))


def start_worker(folder, url, name, part, replica, program, images):
    """Starts a worker, where it doesn't run. The URL goes by the environment, so that no list of processes shows what is in it.
    True where it was started."""
    what = worker_of(name, part, replica)
    with lock(folder):
        if running(folder, what) is not None:
            return False
        words = [sys.executable, "-B", COMMAND, "--folder", folder, "--name", name, "worker", "--partition", str(part), "--replica", str(replica),
                 "--program", program]
        _start(folder, what, words + (["--images", images] if images else []), dict(os.environ, EARLYBIRD_REDIS=url))
        return True


def start_supervisor(folder, url, name):
    """Starts what starts the workers of a cluster again, where it doesn't run."""
    with lock(folder):
        if running(folder, supervisor_of(name)) is None:
            _start(folder, supervisor_of(name), [sys.executable, "-B", COMMAND, "--folder", folder, "--name", name, "supervise"],
                   dict(os.environ, EARLYBIRD_REDIS=url))


def write_wanted(folder, name, wanted):
    """Writes down what is to run in the folder for a cluster: `workers` as [partition, replica], their `program` and `images`,
    and `fsync` where Redis is to run here, too."""
    path = _file(folder, name, "wanted")
    with open(path + ".new", "w", encoding="utf-8") as file:
        json.dump(wanted, file)
    os.replace(path + ".new", path)


def read_wanted(folder, name):
    """What is to run in the folder for a cluster; None where nothing is."""
    try:
        with open(_file(folder, name, "wanted"), encoding="utf-8") as file:
            return json.load(file)
    except (OSError, ValueError):
        return None


def stop(folder, what):
    """Ends a process that was started in the folder, and waits for its end. True where there was one."""
    number = running(folder, what)
    if number is not None:
        os.kill(number, signal.SIGTERM)
        os.kill(number, signal.SIGCONT)
        for _ in range(200):
            if running(folder, what) is None:
                break
            with contextlib.suppress(ChildProcessError):
                os.waitpid(number, os.WNOHANG)
            time.sleep(0.05)
        else:
            os.kill(number, signal.SIGKILL)
    with contextlib.suppress(FileNotFoundError):
        os.remove(_file(folder, what, "pid"))
    return number is not None


def stop_others(folder, name, wanted):
    """Ends the workers of a cluster that aren't wanted any more."""
    for each in os.listdir(folder):
        what = each[:-len(".pid")]
        rest = what[len("worker-%s-" % name):].split("-")
        if each.endswith(".pid") and what.startswith("worker-%s-" % name) and len(rest) <= 2 and all(map(str.isdigit, rest)) and what not in wanted:
            stop(folder, what)


def stop_all(folder):
    """Ends all that was started in the folder: first what starts others, Redis last. Gives their names."""
    found = sorted(each[:-4] for each in os.listdir(folder) if each.endswith(".pid"))
    found.sort(key=lambda each: (not each.startswith("supervisor-"), each == "redis"))
    for each in os.listdir(folder):
        if each.endswith(".wanted"):
            os.remove(os.path.join(folder, each))
    return [each for each in found if stop(folder, each)]
