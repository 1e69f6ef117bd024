"""Why a query may have found nothing."""
import re

from earlybird_logs.fields import values_of
from earlybird_logs.hints import meant
from earlybird_logs.message import members_of, read_members
from earlybird_logs.pieces import apart
from earlybird_logs.words import words

# how much of the newest lines is looked through, and in how many lines
REACH, MOST_LINES = 1 << 22, 200


def hints(query, loader):
    """What to write instead, in at most some lines."""
    bare = re.sub(r'"[^"]*"(~\d+)?', " ", query)
    told = meant(query)
    names = loader.fields or ()
    for name in dict.fromkeys(re.findall(r"(?<![\w.:])([A-Za-z0-9_]+)[:=](?=\S)", bare)):
        if name not in names and name != "since":
            told.append("%s is no field%s" % (name, "; these are: " + ", ".join(names) if names else "; --fields names some"))
    if not told:
        for _, _, word in words(apart(bare))[:4]:
            found = within(word, loader)
            if found:
                told.append('"%s" is no word of its own here, but is within %s' % (word, " and ".join(found)))
    return told[:4]


def within(word, loader):
    """The first two words of the newest lines that a word is within, or fields whose value it is; none where it is a word itself."""
    found, asked, left = [], word.encode("utf-8", "replace"), MOST_LINES
    for lines in loader.blocks.newest(REACH):
        for line in reversed(lines):
            if asked not in line.lower():
                continue
            left -= 1
            members = members_of(line)
            text = line.decode("utf-8", "replace") if members is None else read_members(members, loader.text).text
            for begin, end, each in words(apart(text[:4000])):
                if each == word:
                    return []
                if word in each and text[begin:end] not in found:
                    found.append(text[begin:end])
            for name in loader.fields or ():
                if members and word in values_of(members.get(name)) and "the field %s:%s" % (name, word) not in found:
                    found.append("the field %s:%s" % (name, word))
            if len(found) > 1 or not left:
                return found[:2]
    return found
