"""Totals and axes of a few messages whose numbers are worked out by hand, far more of them than an answer has ids."""
import json
import os
import random

from comparing import check

from .machine import Machine
from .messages import BASE

SECOND, MINUTE = 1000, 60_000
# 1,200 in the third minute, one a millisecond; 300 in one millisecond of the sixth
MANY = [(BASE + 2 * MINUTE + each, "many") for each in range(1200)] + [(BASE + 5 * MINUTE, "same")] * 300
# the last millisecond of a minute and the first of the next, the first of the first minute, the one before it, and the one behind the tenth
EDGES = [(BASE + 3 * MINUTE - 1, "edge"), (BASE + 3 * MINUTE, "edge"), (BASE, "edge"), (BASE - 1, "edge"), (BASE + 10 * MINUTE, "edge")]
ZONE = "Asia/Kolkata"


def check_counts(folder):
    """Counts are exact, whatever the order in which messages came, and bars begin and end where they say."""
    # (half an hour beside the hours of others, so that bars of hours don't begin where those of UTC do)
    machine = Machine(folder, name="counts", environment={**os.environ, "TZ": ZONE})
    messages = MANY + EDGES
    random.Random(5).shuffle(messages)
    told = machine.post([json.dumps({"time": at, "msg": "tick", "kind": kind}).encode() for at, kind in messages])
    check("they are taken", 1505, told["taken"])
    ten = {"from": BASE, "to": BASE + 10 * MINUTE, "bars": 11}
    for name, asked, want in (
            ("ten minutes", {"q": "tick", **ten}, (BASE, MINUTE, [1, 0, 1201, 1, 0, 300, 0, 0, 0, 0], 1503)),
            ("a field", {"q": "tick kind:edge", **ten}, (BASE, MINUTE, [1, 0, 1, 1, 0, 0, 0, 0, 0, 0], 3)),
            ("all messages", {"q": "", **ten}, (BASE, MINUTE, [1, 0, 1201, 1, 0, 300, 0, 0, 0, 0], 1503)),
            ("a minus", {"q": "-kind:edge", **ten}, (BASE, MINUTE, [0, 0, 1200, 0, 0, 300, 0, 0, 0, 0], 1500)),
            ("no match", {"q": "tock", **ten}, (BASE, MINUTE, [0] * 10, 0)),
            ("a first bar and a last one that are cut", {"q": "tick", "from": BASE + 35 * SECOND, "to": BASE + 2 * MINUTE + 600, "bars": 11},
             (BASE + 30 * SECOND, 10 * SECOND, [0] * 9 + [600], 600)),
            ("bars of a millisecond", {"q": "tick", "from": BASE + 3 * MINUTE - 1, "to": BASE + 3 * MINUTE + 2, "bars": 4}, (BASE + 3 * MINUTE - 1, 1, [1, 1, 0], 2)),
            ("one bar", {"q": "kind:same", "from": BASE + 5 * MINUTE, "to": BASE + 5 * MINUTE + 1, "bars": 2}, (BASE + 5 * MINUTE, 1, [300], 300)),
            ("a bar that begins before 1970", {"q": "tick", "from": "1970-01-01T00:00:01Z", "to": "2100-01-01T00:00Z", "bars": 3},
             (-19800 * SECOND, 25550 * 86400 * SECOND, [1505, 0], 1505))):
        got = machine.get("/histogram", **asked)
        check("counts by hand: %s" % name, want, tuple(got.get(each) for each in ("first", "step", "counts", "total")))
    check("the total without a range", 1505, machine.get("/histogram", q="tick")["total"])
    values = machine.get("/values", q="tick", name="kind")["values"]
    check("values, over all matches", [["many", 1200], ["same", 300], ["edge", 5]], values)
    values = machine.get("/values", q="tick", name="kind", **{"from": BASE, "to": BASE + 3 * MINUTE})["values"]
    check("values of a range", [["many", 1200], ["edge", 2]], values)
    for query, error, column in (("tick OR", "bad query", 8), ("kind:same )", "bad query", 11), (" ".join("w%d" % each for each in range(70)), "query too large", None)):
        told = machine.get("/histogram", q=query)
        check("what isn't counted: %.20r" % query, (error, column), (told.get("error"), told.get("column")))
    check("it ends", (0, []), machine.end())
