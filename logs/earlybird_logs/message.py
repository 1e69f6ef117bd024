"""A line of any log as a message: its time, what it says, how grave it is, and its fields."""
import json
import re

from . import times

# characters of a text, and of a value that is a field; and the most fields of a message
LONGEST = 8000
SHORT = 100
MOST_FIELDS = 64

TIMES = ("time", "timestamp", "@timestamp", "ts", "datetime", "date", "t", "asctime", "@t")
TEXTS = ("message", "msg", "text", "log", "event", "body", "@m")
LEVELS = ("level", "severity", "lvl", "loglevel", "log.level", "levelname", "@l")
GRAVE = {}
for common, all_names in (
    ("critical", "critical crit fatal panic emerg emergency alert"), ("error", "error err eror severe failure"), ("warning", "warning warn"),
    ("notice", "notice"), ("info", "info information informational"), ("debug", "debug dbg"), ("trace", "trace verbose")):
    GRAVE.update(dict.fromkeys(all_names.split(), common))
PRIORITIES = ("critical", "critical", "critical", "error", "warning", "notice", "info", "debug")
PINO = {10: "trace", 20: "debug", 30: "info", 40: "warning", 50: "error", 60: "critical"}
IN_TEXT = re.compile(r"\b(?:(TRACE|DEBUG|INFO|NOTICE|WARN(?:ING)?|ERR(?:OR)?|CRIT(?:ICAL)?|FATAL|PANIC|EMERG|ALERT)\b|(?:level|lvl|severity)=\"?(\w+))|"
                     r"\[(trace|debug|info|notice|warn(?:ing)?|error|crit|fatal|alert|emerg)\]")
LOGGED_BY = re.compile(r"(\S{1,64}) ([\w./@-]{1,48})(?:\[(\d{1,10})\])?: ")
PAIR = re.compile(r'(?:^|[ ,(])([A-Za-z_][\w.-]{0,31})=(?:"([^"\n]{0,100})"|([^\s",)]{1,100}))')
JOURNAL = {"PRIORITY": "", "MESSAGE": "", "_SYSTEMD_UNIT": "unit", "SYSLOG_IDENTIFIER": "program", "_PID": "pid", "_HOSTNAME": "host",
           "_COMM": "command", "_TRANSPORT": "transport", "_UID": "uid"}


class Said:
    """What a line says. `when` is its time, or None. `text` is for the index and to be shown: its first `main` characters are the message
    itself, and the others are its members, as name=value."""

    __slots__ = ("when", "text", "main", "level", "fields")

    def __init__(self, when, text, level, fields, rest=()):
        self.when = when
        self.level = level
        self.fields = fields
        self.main = min(len(text), LONGEST)
        more = ["%s=%s" % (name, value if " " not in value else '"%s"' % value) for name, value in rest]
        self.text = " ".join([text, *more])[:LONGEST] if more else text[:LONGEST]


def members_of(line):
    """The members of the JSON object that a line is, in bytes; None where it is none."""
    if not line.startswith(b"{"):
        return None
    try:
        found = json.loads(line.decode())
    except (ValueError, RecursionError):
        return None
    return found if isinstance(found, dict) else None


def read(line, now):
    """What a line says, in bytes; `now` is the present in milliseconds since 1970."""
    members = members_of(line)
    return read_text(line.decode("utf-8", "replace"), now) if members is None else read_members(members)


def read_text(line, now):
    """What a line of text says, without the stamp that it begins with."""
    when, begin = times.stamp(line, now)
    text = line[begin:] if begin else line
    fields = {}
    if begin:
        found = LOGGED_BY.match(text)
        if found:
            host, program, pid = found.groups()
            fields["host"], fields["program"] = host, program
            if pid:
                fields["pid"] = pid
    if "=" in text:
        for name, quoted, bare in PAIR.findall(text):
            if len(fields) < MOST_FIELDS:
                fields[name] = quoted or bare
    level = None
    found = IN_TEXT.search(text, 0, 160)
    if found:
        level = GRAVE.get((found.group(1) or found.group(2) or found.group(3)).lower())
        if level:
            fields["level"] = level
    return Said(when, text, level, fields)


def plain(value):
    """A short string, a number or a boolean as a text; None for any other value."""
    if isinstance(value, str):
        return value if len(value) <= SHORT and "\n" not in value else None
    if isinstance(value, bool):
        return "true" if value else "false"
    if isinstance(value, (int, float)):
        try:
            return str(value)
        except ValueError:
            return None
    return None


def level_of(value):
    """The level that a member names, or None."""
    if isinstance(value, str):
        return GRAVE.get(value.strip().lower())
    return PINO.get(value) if isinstance(value, int) else None


def read_members(members, text_name=None):
    """What a JSON object says, the text in the member of this name where one is given."""
    if "MESSAGE" in members and "__REALTIME_TIMESTAMP" in members:
        members = from_journal(members)
    fields, rest, when, level, text, named = {}, [], None, None, None, ()
    for name in TIMES:
        if name in members:
            when = times.of_member(members[name])
            if when is not None:
                named = (name,)
                break
    for name in LEVELS:
        if name in members:
            level = level_of(members[name])
            if level:
                break
    for name in (text_name,) if text_name else TEXTS:
        if isinstance(members.get(name), str):
            text = members[name]
            named = (*named, name)
            break
    pairs = []
    for name, value in members.items():
        if isinstance(value, dict):
            pairs += [("%s.%s" % (name, below), each) for below, each in value.items()]
        elif name not in named:
            pairs.append((name, value))
    for name, value in pairs:
        short = plain(value)
        if short is None:
            rest.append((name, value if isinstance(value, str) else json.dumps(value, ensure_ascii=False)[:LONGEST]))
        else:
            rest.append((name, short))
            if len(fields) < MOST_FIELDS:
                fields[name] = short
    if level:
        fields["level"] = level
    return Said(when, text or "", level, fields, rest)


def from_journal(entry):
    """The members of an entry of the journal that say something."""
    message = entry["MESSAGE"]
    if isinstance(message, list):
        message = bytes(each for each in message if isinstance(each, int) and 0 <= each < 256).decode("utf-8", "replace")
    members = {"time": entry["__REALTIME_TIMESTAMP"], "message": message if isinstance(message, str) else ""}
    priority = str(entry.get("PRIORITY", ""))
    if priority in ("0", "1", "2", "3", "4", "5", "6", "7"):
        members["level"] = PRIORITIES[int(priority)]
    for name, value in entry.items():
        named = JOURNAL.get(name, None if name.startswith("_") else name.lower())
        if named and named not in members:
            members[named] = value
    return members
