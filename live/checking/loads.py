"""A loader without a command, and the files that it reads."""
import argparse
import contextlib
import os

from earlybird_live.loading import Loader

ROOT = os.path.dirname(os.path.dirname(os.path.dirname(os.path.abspath(__file__))))
PROGRAM = os.path.join(ROOT, "earlybird")


def write(path, text, mode="wb"):
    """Writes a file."""
    with open(path, mode) as file:
        file.write(text if isinstance(text, bytes) else text.encode())
    return path


@contextlib.contextmanager
def loaded(paths, descriptor=None, **more):
    """A loader that has read all that was there."""
    asked = argparse.Namespace(**{"follow": False, "fields": None, "text": None, "memory": 1 << 30, **more})
    loader = Loader(paths, descriptor, asked, [PROGRAM])
    loader.start()
    loader.loaded.wait(120)
    try:
        yield loader
    finally:
        if loader.parts:
            loader.parts.close()


def lines_at(loader, numbers):
    """The lines of these numbers, as they are read again."""
    return [data for _, _, _, data in loader.blocks.lines(numbers)]
