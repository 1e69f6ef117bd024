"""The figures as Prometheus reads them."""
KIND = "text/plain; version=0.0.4; charset=utf-8"


def labelled(name, labels):
    """A name with its labels."""
    inner = ",".join('%s="%s"' % (label, str(each).replace("\\", "\\\\").replace('"', '\\"').replace("\n", "\\n")) for label, each in labels.items())
    return "earlybird_%s%s" % (name, "{%s}" % inner if inner else "")


def metrics(console, server):
    """All of them, as text."""
    figures, watches, lines = console.figures, console.standing.told()["watches"], []

    def put(name, kind, text, *values):
        lines.extend(["# HELP earlybird_%s %s" % (name, text), "# TYPE earlybird_%s %s" % (name, kind)])
        lines.extend("%s %s" % (labelled(name, labels), value) for labels, value in values)

    put("messages_accepted_total", "counter", "Messages that the index took.", ({}, figures.accepted))
    put("messages_refused_total", "counter", "Messages that the index refused.", *(({"why": name}, count) for name, count in figures.refused.items()))
    put("messages_kept", "gauge", "Messages that are kept.", ({}, console.texts.count))
    put("index_starts_total", "counter", "How often the index was started.", ({}, console.state["starts"]))
    put("index_running", "gauge", "Whether the index runs.", ({}, int(console.state["index"] == "running")))
    put("queries_total", "counter", "Queries that were answered.", ({}, figures.asked))
    put("query_seconds_total", "counter", "Seconds that they took.", ({}, round(figures.spent, 6)))
    # (two watches can have one name, and no two their number)
    named = [({"watch": str(each["number"]), "name": each["name"]}, each) for each in watches]
    put("watch_matches_total", "counter", "Messages that met a watch.", *((labels, each["met"]) for labels, each in named))
    put("watch_alarms_total", "counter", "Alarms of a watch.", *((labels, each["alarms"]) for labels, each in named))
    put("alarms_failed_total", "counter", "Alarms that the file or the command didn't take.", ({}, console.standing.alerts.failed))
    put("connections", "gauge", "Open connections.", ({}, len(server.connections)))
    put("connections_ended_total", "counter", "Connections that the console ended.", *(({"why": name}, count) for name, count in server.ended.items()))
    return "\n".join(lines) + "\n"
