"""Compares clusters with one `earlybird run` over the same documents, while workers, Redis and clients are killed, stopped and fed
what isn't theirs. `check` calls it; with words it runs those parts alone, and `long [MESSAGES [KILLS]]` runs for long."""
import concurrent.futures
import sys
import time

from . import answers, console, faults, growing, images, long, nodes, repeats, replicas, service, units
from .stage import FAILED, PASSED

PARTS = {"units": units.run, "answers": answers.run, "faults": faults.run, "repeats": repeats.run, "replicas": replicas.run, "growing": growing.run, "images": images.run,
         "nodes": nodes.run, "service": service.run, "console": console.run, "kills": lambda: long.run(60000, 4)}


def one(name):
    """One part."""
    begun = time.monotonic()
    PARTS[name]()
    print("cluster: %s in %.1f s" % (name, time.monotonic() - begun), flush=True)


def main():
    """All parts, or those that are named."""
    if sys.argv[1:2] == ["long"]:
        long.run(*[int(word) for word in sys.argv[2:]])
    else:
        with concurrent.futures.ThreadPoolExecutor(1) as beside:
            # (it waits for most of its time)
            console_too = beside.submit(one, "console") if not sys.argv[1:] else None
            for name in sys.argv[1:] or [name for name in PARTS if name != "console"]:
                one(name)
            if console_too:
                console_too.result()
    print("%d passed, %d failed" % (len(PASSED), len(FAILED)))
    return 1 if FAILED else 0


if __name__ == "__main__":
    sys.exit(main())
