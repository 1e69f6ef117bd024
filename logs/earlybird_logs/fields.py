"""Members that a query asks for by name, as docs/FORMATS.md has them: for the marks alone, since the index answers."""

# the most values of a list
MOST_VALUES = 16


def names_of(words):
    """The names that the words of the index program list after --fields."""
    for place, word in enumerate(words):
        name, joined, value = word.partition("=")
        if name == "--fields":
            return tuple((value if joined else "".join(words[place + 1:place + 2])).split(","))
    return ()


def begun_name(run, names):
    """The listed name that a run of a query begins with, a colon right behind it; None where there is none."""
    return next((name for name in names if run.startswith(name + ":")), None)


def value_asked(query, place, rest):
    """The value that a query asks for, folded, and the place behind it: `rest` is the text behind the colon up to `place`, and where
    that is nothing, a quoted value may follow."""
    if not rest and query.startswith('"', place):
        end = query.find('"', place + 1)
        end = len(query) if end < 0 else end
        return query[place + 1:end].casefold(), end + 1
    return rest.casefold(), place


def text_of(value):
    """A string, a whole number or a boolean as a text, folded; None for any other value."""
    if isinstance(value, bool):
        return "true" if value else "false"
    if isinstance(value, int) and -(1 << 63) <= value < 1 << 64:
        return str(value)
    return value.casefold() if isinstance(value, str) else None


def values_of(member):
    """The values of a member, folded: its own, or those of a list of at most 16; none where one of them is of another kind."""
    texts = [text_of(value) for value in (member if isinstance(member, list) else [member])]
    return texts if len(texts) <= MOST_VALUES and None not in texts else []
