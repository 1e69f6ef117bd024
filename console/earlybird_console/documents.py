"""The document that the index gets of a message.

Its id is the message's key: the message's time in milliseconds, times 2^21, and its number among all messages modulo 2^21. So ids rise with
the time of messages, whatever the order in which they come, `since:` is a bound of time, and no two of 2^21 messages in a row share one.

Its fields are eight, and a name chooses one of them: there the document has `name:value`. So any name can be asked for."""
import functools
import json
import zlib
from json.encoder import encode_basestring as quoted

from earlybird_logs.fields import MOST_VALUES
from earlybird_logs.pieces import apart

LOW = 21
# this number of messages in a row have keys of their own
SPAN = 1 << LOW
SLOTS = tuple("f%d" % number for number in range(8))
# bytes of a value, and characters of a name that is a field's
LONGEST_VALUE = 128
LONGEST_NAME = 64


def key_of(when, number):
    """The id of a message of this time, in milliseconds since 1970, and this number."""
    return when << LOW | number & SPAN - 1


def first_key(when):
    """The least id of this time and later ones."""
    return when << LOW


def time_of(key):
    """The time of an id."""
    return key >> LOW


def number_of(key, newest):
    """The number of a message among the last 2^21, of which this one is the newest."""
    return newest - ((newest - key) & SPAN - 1)


@functools.lru_cache(10000)
def slot_of(name):
    """The field of the index program that has a name's values."""
    return SLOTS[zlib.crc32(name.encode("utf-8", "replace")) % len(SLOTS)]


def term_of(name, value):
    """What a document has there for a name and a value."""
    return "%s:%s" % (name, value.replace('"', "'"))


def fits(term):
    """Whether the index takes a value of a field."""
    return term.isascii() and len(term) <= LONGEST_VALUE or len(term.casefold().encode("utf-8", "replace")) <= LONGEST_VALUE


def slots(said, source, words_only=()):
    """The members of a document that are fields: those of a message that says this, and its source; of these names the words alone."""
    found = {}
    for name, value in (*said.fields.items(), ("source", source)):
        name = name.casefold()
        if name in words_only or len(name) > LONGEST_NAME:
            continue
        term = term_of(name, value)
        if fits(term):
            values = found.setdefault(slot_of(name), [])
            if len(values) < MOST_VALUES:
                values.append(term)
    return found


def document(key, said, source, words_only=(), cut=apart):
    """The line that the index gets. `cut` makes of a text the one whose words count."""
    members = "".join([',"%s":[%s]' % (slot, ",".join(map(quoted, values))) for slot, values in slots(said, source, words_only).items()])
    return ('{"id":%d,"text":%s%s}' % (key, quoted(cut(said.text)), members)).encode("utf-8", "replace")


def shorter(line):
    """A document again with half its text, and with no fields where little is left."""
    members = json.loads(line)
    text = members["text"]
    if len(text) < 200:
        members = {"id": members["id"], "text": text[:100]}
    else:
        members["text"] = text[:len(text) // 2]
    return json.dumps(members, ensure_ascii=False).encode("utf-8", "replace")
