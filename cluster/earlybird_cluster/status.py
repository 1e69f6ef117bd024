"""How a cluster is: its workers, its logs and its Redis, as a table of figures, as JSON and as text of Prometheus."""
from . import names
from .life import ask_all
from .wire import LOST, is_cluster

METRICS = {
    "worker_up": ("gauge", "1 where the worker answers"), "worker_ready": ("gauge", "1 where it has read its log, and takes queries"),
    "worker_documents": ("gauge", "documents in its index"), "worker_lag_entries": ("gauge", "entries of the log that it hasn't read"),
    "worker_foreign_total": ("counter", "entries and messages that were passed over"), "worker_queries_total": ("counter", "queries that it answered"),
    "worker_program_bytes": ("gauge", "memory of its program"), "log_entries": ("gauge", "entries in the log"),
    "log_bytes": ("gauge", "memory of the log in Redis"), "log_lines_total": ("counter", "lines that were put into the log"),
    "redis_used_bytes": ("gauge", "memory that Redis uses"), "redis_most_bytes": ("gauge", "memory that Redis may use, 0 where it has no bound"),
}


def gather(redis, name):
    """What `status` tells, as a dictionary. Raises NotSetUp, and one of LOST where Redis is gone."""
    config = names.read_config(redis, name)
    said, parts = ask_all(redis, config), []
    for part in range(config.parts):
        tag = config.tags[part]
        row = {"partition": part, "reachable": True, "entries": 0, "bytes": 0, "lines": 0, "put": 0, "cut": None, "workers": []}
        try:
            end = redis.hgetall(names.end(tag))
            row.update(entries=redis.xlen(names.log(tag)), bytes=redis.memory_usage(names.log(tag)) or 0, lines=int(end.get(b"lines", 0)),
                       put=int(end.get(b"entries", 0)), cut=end[b"cut"].decode() if b"cut" in end else None)
        except LOST:
            if not is_cluster(redis):
                raise
            row["reachable"] = False
        for replica in range(config.replicas):
            for says in said.get((part, replica)) or [{}]:
                state = "silent" if says is None else "none" if not says else "ready" if says["ready"] else "building"
                worker = {"replica": replica, "state": state, **(says or {})}
                if says:
                    worker["lag"] = max(0, row["put"] - says["entries"])
                row["workers"].append(worker)
        parts.append(row)
    return {"cluster": name, "program": config.words, "retain": config.retain, "replicas": config.replicas, "safe": config.safe,
            "redis": _memory(redis), "partitions": parts}


def _memory(redis):
    try:
        found = redis.info("memory")
    except LOST:
        if not is_cluster(redis):
            raise
        found = {}
    nodes = [found] if "used_memory" in found else [each for each in found.values() if isinstance(each, dict)]
    return {"used": sum(each["used_memory"] for each in nodes), "most": sum(each.get("maxmemory", 0) for each in nodes)}


def whole(found):
    """Whether each worker answers."""
    return all(each["state"] in ("ready", "building") for row in found["partitions"] for each in row["workers"])


def table(found):
    """Lines for people."""
    lines = ["cluster %s: %d partitions, earlybird %s%s; Redis uses %d MB%s" % (
        found["cluster"], len(found["partitions"]), " ".join(found["program"]),
        ", at least %d documents in each log" % found["retain"] if found["retain"] else "", found["redis"]["used"] >> 20,
        " of %d" % (found["redis"]["most"] >> 20) if found["redis"]["most"] else "")]
    for row in found["partitions"]:
        for each in row["workers"]:
            who = "partition %d" % row["partition"] + (" replica %d" % each["replica"] if found["replicas"] > 1 else "")
            log = "%d entries in its log, %d MB" % (row["entries"], row["bytes"] >> 20) if row["reachable"] else "its node of Redis is gone"
            if each["state"] == "none":
                lines.append("%s: no worker; %s" % (who, log))
            elif each["state"] == "silent":
                lines.append("%s: its worker doesn't answer; %s" % (who, log))
            else:
                reads = "all read" if each["lag"] == 0 else "reading on, %d entries behind" % each["lag"]
                lines.append("%s: worker %d on %s, %d documents, %s, %d documents and %d queries a second, %d MB%s; %s" % (
                    who, each["pid"], each["host"], each["documents"], reads, each["documents_a_second"], each["queries_a_second"],
                    each["program_bytes"] >> 20, ", %d foreign entries passed over" % each["foreign"] if each["foreign"] else "", log))
    return "".join(line + "\n" for line in lines)


def prometheus(found):
    """The figures as text of Prometheus."""
    rows = {metric: [] for metric in METRICS}
    cluster = 'cluster="%s"' % found["cluster"]
    rows["redis_used_bytes"].append((cluster, found["redis"]["used"]))
    rows["redis_most_bytes"].append((cluster, found["redis"]["most"]))
    for row in found["partitions"]:
        part = cluster + ',partition="%d"' % row["partition"]
        for metric, key in (("log_entries", "entries"), ("log_bytes", "bytes"), ("log_lines_total", "lines")):
            rows[metric].append((part, row[key]))
        for replica in range(found["replicas"]):
            one = next(each for each in row["workers"] if each["replica"] == replica)
            labels = part + ',replica="%d"' % replica
            there = one["state"] in ("ready", "building")
            rows["worker_up"].append((labels, int(there)))
            for metric, key in (("worker_ready", "ready"), ("worker_documents", "documents"), ("worker_lag_entries", "lag"), ("worker_foreign_total", "foreign"),
                                ("worker_queries_total", "queries"), ("worker_program_bytes", "program_bytes")):
                if there:
                    rows[metric].append((labels, int(one[key])))
    text = []
    for metric, (kind, says) in METRICS.items():
        text += ["# HELP earlybird_%s %s\n# TYPE earlybird_%s %s\n" % (metric, says, metric, kind)]
        text += ["earlybird_%s{%s} %d\n" % (metric, labels, value) for labels, value in rows[metric]]
    return "".join(text)
