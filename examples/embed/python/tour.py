"""Fields, a watch, a count and an image: what this prints is tour.txt, as the programs of the same name in the other languages do."""
import os
import tempfile

from earlybird import Index, Watches

LINES = (
    b'{"id":100,"text":"com.acme.billing failed","level":"error"}',
    b'{"id":130,"text":"payment went through","level":"info"}',
    b'{"id":160,"text":"billing failed again","level":"error"}',
)

with tempfile.TemporaryDirectory() as folder:
    # the image keeps the messages that the index accepts
    image = os.path.join(folder, "messages.image")
    index = Index(1, 1000, 1024, fields=["level"], words="pieces", image=image)
    with index, Watches(fields=["level"], words="pieces") as watches:
        # each message tells which watches it matches
        watches.set(7, "level:error billing")
        for at, line in enumerate(LINES):
            matching = watches.tell_line(line)
            index.add_line(line)
            for number in matching:
                print("message %d matches watch %d" % (at, number))

        # a word by one of its pieces, and a field
        print("found:", *index.search("acme OR level:info"))

        # how many there are, and when: the ids are times
        histogram = index.histogram("level:error", start=100, width=60, number=2)
        print("errors: %d, by the minute:" % histogram.total, *histogram.buckets)

    # the image, which is whole now, makes another index
    with Index.load(image, fields=["level"], words="pieces") as again:
        print("from the image:", *again.search("failed"))
