"""Two partitions of two workers each: while they are killed and stopped, no answer is without a partition, and none is wrong."""
import signal
import threading
import time

from .stage import Stage, check, make_documents, make_queries, run_alone, seeded, until

QUERIES = 30000


def run():
    """All of it."""
    rng = seeded(11)
    with Stage() as stage:
        check("up with replicas", 0, stage.up(2, "--replicas", "2"))
        documents, _ = make_documents(10000, 0, rng)
        check("add", [], list(stage.router().add(documents)))
        queries = make_queries(300, rng)
        want = run_alone(["run"], documents, queries)
        done = threading.Event()
        harm = threading.Thread(target=_harm, args=(stage, done))
        harm.start()
        wrong, missing, longest, last = 0, 0, 0.0, time.monotonic()
        router = stage.router()
        asked = (queries[place % 300] for place in range(QUERIES))
        for place, answer in enumerate(router.ask_many(asked)):
            now = time.monotonic()
            longest, last = max(longest, now - last), now
            missing += bool(answer.missing)
            wrong += answer.text != want[place % 300]
        asked = 0
        while not done.is_set():  # the harm took longer than the queries
            for place, answer in enumerate(router.ask_many(queries)):
                asked += 1
                missing += bool(answer.missing)
                wrong += answer.text != want[place]
        harm.join()
        check("%d answers while workers are killed and stopped" % QUERIES, (0, 0), (wrong, missing))
        print("cluster: %d answers, the longest pause %.0f ms" % (QUERIES + asked, 1000 * longest))
        check("all are alive again", True, until(lambda: stage.command("status")[1] == 0))
        check("the same queries", want, stage.ask_all(queries))


def _harm(stage, done):
    time.sleep(0.2)
    stage.signal("worker-earlybird-0-1")
    time.sleep(0.5)
    until(lambda: stage.command("status")[1] == 0)
    stage.signal("worker-earlybird-0")
    stage.signal("worker-earlybird-1-1", signal.SIGSTOP)
    time.sleep(1.5)
    stage.signal("worker-earlybird-1-1", signal.SIGCONT)
    until(lambda: stage.command("status")[1] == 0)
    done.set()
