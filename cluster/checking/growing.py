"""A cluster grows while documents are added and queries asked: each answer has all that was acknowledged before it."""
import json
import threading
import time

from earlybird_cluster.hub import LOOK

from .stage import PROGRAM, Stage, check, numbered

DOCUMENTS = 60000


def run():
    """All of it."""
    with Stage() as stage:
        check("up", 0, stage.up(1))
        lines, told, acknowledged = numbered(range(1, DOCUMENTS + 1)), [], [0]
        grown = threading.Event()

        def slowly():
            for place, line in enumerate(lines):
                if place % 1000 == 0:
                    yield None
                    if place == DOCUMENTS // 2:
                        grown.wait(60)
                        time.sleep(1.5 * LOOK)  # in which the router sees it
                yield line

        def progress(number):
            acknowledged[0] = number

        adding = threading.Thread(target=lambda: told.extend(stage.router().add(slowly(), progress=progress)))
        adding.start()
        growth, said = threading.Thread(target=lambda: (said.append(stage.command("grow", "--to", "3", "--program", PROGRAM)), grown.set())), []
        growth.start()
        wrong, router, number = [], stage.router(), 0
        while adding.is_alive() or growth.is_alive():
            before = acknowledged[0]
            for text, missing in router.ask_many([b"?3 rain"] * 8):
                head, _, ids = text.partition(b":")
                seen = int(head.split()[1])
                number += 1
                if missing or seen < before or [int(each) for each in ids.split()] != list(range(seen, max(0, seen - 3), -1)):
                    wrong.append((before, text, missing))
        adding.join()
        growth.join()
        check("grow", (b"", 0), said[0][:2])
        check("lines while it grows", [], told)
        check("%s answers while it grows" % ("enough" if number >= 24 else number), [], wrong[:3])
        parts = stage.documents()
        check("three partitions have documents", [True] * 3, [len(part) > 0 for part in parts])
        check("each document once", list(range(1, DOCUMENTS + 1)), sorted(json.loads(line)["id"] for part in parts for line in part))
        check("to fewer partitions", 2, stage.command("grow", "--to", "2", "--program", PROGRAM)[1])
        check("up with another number", 2, stage.command("up", "2", "--program", PROGRAM)[1])
        check("grow with --seal", 0, stage.command("grow", "--to", "4", "--seal", "--program", PROGRAM)[1])
        check("add to the new one alone", [], list(stage.router().add(numbered(range(100001, 100101)))))
        check("it has them", 100, len(stage.documents()[3]))
        check("up of all", 0, stage.up(4))
