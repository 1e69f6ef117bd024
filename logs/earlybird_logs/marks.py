"""The words of a message by which it meets a query: for the marks in a shown message."""
from .fields import values_of
from .words import words


def places_of(asked, window, there):
    """The places of the words of a phrase, or of a window of this many places, wherever it is met among the words that are there.

    From each place of its first word the nearest of each next word is taken. These places only rise from one first word to the next, so
    each word of the query passes once over the message, whatever the window: the work is at most the words of the query times those of
    the message."""
    if not asked:
        return set()
    if len(asked) == 1:
        return {place for place, word in enumerate(there) if word == asked[0]}
    if window is None:
        width = len(asked)
        return {place for first in range(len(there) - width + 1) if there[first] == asked[0] and there[first:first + width] == asked
                for place in range(first, first + width)}
    wanted = set(asked)
    at = {}
    for place, word in enumerate(there):
        if word in wanted:
            at.setdefault(word, []).append(place)
    if len(at) < len(wanted):
        return set()
    lists, steps, found = [at[word] for word in asked], [0] * len(asked), set()
    for first in lists[0]:
        chain, before = [first], first
        for number in range(1, len(asked)):
            places, step = lists[number], steps[number]
            while step < len(places) and places[step] <= before:
                step += 1
            steps[number] = step
            if step == len(places):
                # (none is left for any later first word either)
                return found
            before = places[step]
            if before > first + window:
                break
            chain.append(before)
        if len(chain) == len(asked):
            found.update(chain)
    return found


def met(tree, there, number, members):
    """The places of the words by which a message with these words, this id and these members meets a query, or None where it doesn't."""
    kind, value = tree
    if kind == "text":
        return places_of(value[0], value[1], there) or None
    if kind == "since":
        return set() if number > value else None
    if kind == "field":
        return set() if value[1] in values_of(members.get(value[0])) else None
    if kind == "not":
        if value[0] == "not":
            return met(value[1], there, number, members)
        return set() if met(value, there, number, members) is None else None
    found, some = set(), False
    for part in value:
        places = met(part, there, number, members)
        if places is not None:
            found |= places
            some = True
        elif kind == "and":
            return None
    return found if some else None


def marks(tree, text, number, members, fold=str):
    """The marked words of a message that meets a query: [from, to] in characters, in order; None where it doesn't meet it. A field that it
    meets marks nothing. `fold` is that of the query, and keeps each character's place."""
    there = words(fold(text))
    places = met(tree, [word for _, _, word in there], number, members)
    return None if places is None else [[there[place][0], there[place][1]] for place in sorted(places)]
