"""Images of partitions: what `earlybird save` writes of the documents up to an entry of the log, so that a worker loads them and
reads only the rest of the log. The next image is the last one and, behind its documents, those that came since."""
import os
import subprocess
import zlib
from collections import namedtuple

from . import names, scripts
from .entries import documents_of, entry_key, text_of
from .life import ask_all
from .wire import Wire

HEAD = 20  # bytes of an image before its documents; the end is one byte 0
READING = ("--fields", "--words", "--id", "--text")  # how lines are read: of `save`, and of `load`, which answers besides
SETTING = ("--segments", "--docs", "--terms")
ENTRIES = 64  # that are read at once

Image = namedtuple("Image", "path last sum whole")
Image.__doc__ = """A file; the id of the last entry of the log that is in it, as bytes; and the check sums of that entry and of the file."""


class NoImage(Exception):
    """An image can't be made, or a log can't be cut by one."""


def words_for(words, which):
    """The words of `save` or of `load` for those of `run`."""
    wanted = READING + SETTING if which == "save" else READING
    found, rest = [which], iter(words[1:])
    for word in rest:
        name, sign, value = word.partition("=")
        if name in READING + SETTING and not sign:
            value = next(rest, "")
        if name in wanted:
            found += [name, value]
        elif word == "--counts" and which == "load":
            found.append(word)
    return found


def newest(folder, name, part):
    """The newest image of a partition of a cluster in a folder, or None."""
    found = []
    begin = "%s.%d." % (name, part)
    for each in os.listdir(folder) if folder and os.path.isdir(folder) else []:
        pieces = each[len(begin):].split(".")
        if each.startswith(begin) and len(pieces) == 4 and pieces[3] == "image":
            try:
                milliseconds, _, place = pieces[0].partition("-")
                found.append(((int(milliseconds), int(place)), Image(os.path.join(folder, each), pieces[0].encode(), int(pieces[1], 16), int(pieces[2], 16))))
            except ValueError:
                continue  # not one of ours
    return max(found)[1] if found else None


def sum_of(path):
    """The check sum of a file."""
    found = 0
    with open(path, "rb") as file:
        while True:
            piece = file.read(1 << 20)
            if not piece:
                return found
            found = zlib.crc32(piece, found)


def is_good(image):
    """Whether a file is as it was written."""
    return sum_of(image.path) == image.whole


def make(redis, name, part, program, folder):
    """Makes an image of what the log of a partition holds, from the last image and the log behind it, and gives it. NoImage
    where the program keeps no images, or the log doesn't go on from the last image; OSError where it can't be written."""
    config = names.read_config(redis, name)
    if not 0 <= part < config.parts:
        raise NoImage("the partitions of '%s' are 0 to %d" % (name, config.parts - 1))
    if config.words[0] != "run":
        raise NoImage("'%s' keeps no images, 'run' does" % config.words[0])
    tag = config.tags[part]
    os.makedirs(folder, exist_ok=True)
    before = newest(folder, name, part)
    if before and not is_good(before):
        raise NoImage("the image %s is damaged" % before.path)
    last, check = (before.last, before.sum) if before else (b"0-0", 0)
    cut = redis.hget(names.end(tag), "cut")
    if cut is not None and entry_key(last) < entry_key(cut):
        raise NoImage("the log of partition %d begins after entry %s, and no image in %s goes up to there" % (part, cut.decode(), folder))
    if before and not redis.xrange(names.log(tag), last, last):
        raise NoImage("the image %s isn't one of this log" % before.path)
    wire = Wire(redis, names.log(tag), pushes=True)
    fresh = os.path.join(folder, "%s.%d.%d.new" % (name, part, os.getpid()))
    try:
        with open(fresh + ".tail", "wb") as tail:
            saver = subprocess.Popen([program, *words_for(config.words, "save")], stdin=subprocess.PIPE, stdout=tail)
            while True:
                found = wire.call(b"XREAD", b"COUNT", b"%d" % ENTRIES, b"STREAMS", names.log(tag).encode(), last)
                if not found:
                    break
                for last, fields in found[0][1]:
                    there = documents_of(fields)
                    if there:
                        saver.stdin.write(there[0])
                check = zlib.crc32(text_of(fields))
            saver.stdin.close()
            if saver.wait() not in (0, 1):
                raise NoImage("'save' ended with %d" % saver.returncode)
        _join(before and before.path, fresh + ".tail", fresh)
        whole = sum_of(fresh)
        made = Image(os.path.join(folder, "%s.%d.%s.%08x.%08x.image" % (name, part, last.decode(), check, whole)), last, check, whole)
        os.replace(fresh, made.path)
    finally:
        wire.close()
        for each in (fresh, fresh + ".tail"):
            if os.path.exists(each):
                os.remove(each)
    if before and before.path != made.path:
        os.remove(before.path)
    return made


def _join(before, tail, whole):
    """Writes one image of two: the last one without its end, and the later one without its head."""
    with open(whole, "wb") as out:
        if before:
            with open(before, "rb") as old:
                size = os.path.getsize(before) - 1
                while size:
                    piece = old.read(min(size, 1 << 20))
                    out.write(piece)
                    size -= len(piece)
        with open(tail, "rb") as new:
            if before:
                new.read(HEAD)
            while True:
                piece = new.read(1 << 20)
                if not piece:
                    break
                out.write(piece)
        out.flush()
        os.fsync(out.fileno())


def cut(redis, name, part):
    """Cuts the log of a partition up to the oldest image that its workers can start from: gives the entry, and how many were
    removed. NoImage where some worker doesn't say that it has one."""
    config = names.read_config(redis, name)
    said, lasts = ask_all(redis, config), []
    for replica in range(config.replicas):
        says = said.get((part, replica)) or [None]
        if None in says or not all(each["newest_image"] for each in says):
            raise NoImage("replica %d of partition %d doesn't live, or has no image; nothing is cut" % (replica, part))
        lasts += [each["newest_image"].encode() for each in says]
    last, tag = min(lasts, key=entry_key), config.tags[part]
    wire = Wire(redis, names.log(tag))
    try:
        wire.call(b"SCRIPT", b"LOAD", scripts.CUT)
        return last, wire.call(*scripts.call(scripts.CUT, [names.log(tag), names.end(tag)], [last, b"image"]))
    finally:
        wire.close()
