"""Images of partitions, logs that are cut up to them, and workers that start from them."""
import os
import shutil

from .stage import PROGRAM, Stage, check, make_documents, make_queries, run_alone, seeded, until


def run():
    """All of it."""
    rng = seeded(13)
    with Stage() as stage:
        folder = os.path.join(stage.folder, "images")
        words = ["run", "--words", "pieces", "--counts"]
        check("up", 0, stage.up(2, "--replicas", "2", "--images", folder, "--", *words))
        documents, last = make_documents(8000, 0, rng)
        documents[17] = b'{"id":18,"text":"com.acme.billing"}'
        queries = make_queries(100, rng) + [b"?5 billing", b"# billing", b"# acme OR w3", b"?5 acme.billing"]
        check("add", [], list(stage.router().add(documents)))
        check("cut without an image", (1, True), _cut_without(stage, folder))
        entries = []
        for round_ in range(2):
            for part in range(2):
                printed, status, said = stage.command("image", "--partition", str(part), "--images", folder, "--cut", "--program", PROGRAM)
                check("image and cut", (0, True), (status, b"the log begins at entry" in printed) if status == 0 else said)
            entries.append([len(part) for part in stage.documents()])
            more, last = make_documents(6000, last, rng)
            documents += more
            check("add after an image", [], list(stage.router().add(more)))
            del round_
        check("the logs are short", True, all(each < 2000 for row in entries for each in row))
        want = run_alone(words, documents, queries)
        check("a word by its piece, and how many have it", [b"seen 20000: 18", b"count 20000: 1"], want[100:102])
        for part in range(2):
            for replica in ("", "-1"):
                stage.signal("worker-earlybird-%d%s" % (part, replica))
        check("all start again", True, until(lambda: stage.command("status")[1] == 0))
        check("answers from images and logs", want, stage.ask_all(queries))
        _bad(stage, folder, want, queries)


def _cut_without(stage, folder):
    os.makedirs(folder, exist_ok=True)
    elsewhere = os.path.join(stage.folder, "elsewhere")
    _, status, said = stage.command("image", "--partition", "0", "--images", elsewhere, "--cut", "--program", PROGRAM)
    return status, "has no image; nothing is cut" in said


def _bad(stage, folder, want, queries):
    """An image that is damaged is put aside, and without one a worker doesn't serve a log that was cut."""
    one = next(each for each in os.listdir(folder) if each.startswith("earlybird.0."))
    path, kept = os.path.join(folder, one), os.path.join(stage.folder, "kept.image")
    shutil.copy(path, kept)
    with open(path, "r+b") as file:
        file.seek(3)
        file.write(b"????")
    stage.signal("worker-earlybird-0")
    check("a damaged image is put aside", True, until(lambda: os.path.exists(path + ".bad")))
    check("no worker without an image", True, until(lambda: b"an image of it is needed" in stage.said("worker-earlybird-0")))
    check("the other one serves meanwhile", want, stage.ask_all(queries))
    os.replace(kept, path)
    check("with the image all start", True, until(lambda: stage.command("status")[1] == 0, 60))
    stage.signal("worker-earlybird-0-1")
    check("answers after that", want, stage.ask_all(queries))
    check("an image of a feed", 1, _feed(stage, folder))


def _feed(stage, folder):
    stage.command("--name", "feed", "up", "1", "--program", PROGRAM, "--", "feed", "--segments", "1", "--docs", "256", "--terms", "1024")
    return stage.command("--name", "feed", "image", "--partition", "0", "--images", folder, "--program", PROGRAM)[1]
