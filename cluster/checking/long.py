"""Many messages, while workers and Redis are killed again and again: each is in the log once, and all answers are right."""
import random
import threading
import time

from earlybird_cluster import LOST, names

from .stage import Stage, check, send, text_of, until


def run(messages=1000000, kills=20):
    """Adds this number of messages with `appendfsync always`, and kills workers and Redis in turn, this number of times."""
    with Stage() as stage:
        large = messages > 100000
        setting = ["--segments", "24", "--docs", "16384", "--terms", "32768"] if large else []
        check("up", 0, stage.up(3, "--replicas", "1" if large else "2", "--", "run", *setting))
        lines = [b'{"id":%d,"text":"all w%d x%d y%d"}' % (number, number % 977, number % 89, number) for number in range(1, messages + 1)]
        text = text_of(lines)
        killed, killer = [], None
        begun, adds, status = time.monotonic(), 0, 3
        while status == 3:  # Redis was away for longer than the patience
            if killer is None:
                killer = threading.Thread(target=_kill, args=(stage, kills, messages, killed))
                killer.start()
                adding = stage.start("add", "--client", "long")  # the client dies, too
                send(adding, text[:len(text) // 3])
                adding.kill()
                adding.communicate()
            printed, status, said = stage.command("--patience", "30", "add", "--client", "long", text=text)
            adds += 1
            if status == 3:
                print("cluster: %s" % said.strip())
        seconds = time.monotonic() - begun
        check("all are added", (b"", 0), (printed, status) if status == 0 else (printed[:300], said))
        killer.join()
        check("all are alive", True, until(lambda: stage.command("status")[1] == 0, 120))
        there = [line for part in stage.documents() for line in part]
        check("each message once", (len(lines), True), (len(there), set(there) == set(lines)))
        rng, queries, want = random.Random(3), [], []
        for number in range(1500):
            number, most, w, x = rng.randint(1, messages), rng.choice((1, 10, 1000)), rng.randint(0, 976), rng.randint(0, 88)
            queries += [b"?%d y%d" % (most, number), b"?%d w%d x%d" % (most, w, x)]
            both = [each for each in range(messages - (messages - w) % 977, 0, -977) if each % 89 == x]
            want += [b"seen %d:%b" % (messages, b"".join(b" %d" % each for each in found[:most])) for found in ([number], both)]
        check("%d answers after it" % len(queries), want, stage.ask_all(queries))
        print("cluster: %d messages in %.0f s, %d kills (%d of Redis), %d adds" % (messages, seconds, len(killed), killed.count("redis"), adds))


def _kill(stage, kills, messages, killed):
    """Each time that as many more lines are in the logs."""
    whom = ["worker-earlybird-%d%s" % (part, replica) for part in range(3) for replica in ("", "-1")]
    rng, redis, last = random.Random(5), stage.redis(), time.monotonic()
    tags = names.read_config(redis, "earlybird").tags
    while len(killed) < kills:
        time.sleep(0.01)
        try:
            lines = sum(int(redis.hget(names.end(tag), "lines") or 0) for tag in tags)
        except LOST:
            continue
        if lines >= messages * (len(killed) + 1) // (kills + 1) or time.monotonic() - last > 60:
            what = "redis" if len(killed) % 2 else rng.choice(whom)
            if stage.pid(what) is not None:
                stage.signal(what)
                killed.append(what)
                last = time.monotonic()
