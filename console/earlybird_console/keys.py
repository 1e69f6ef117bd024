"""The ids of the messages that are kept, in order: where a time stands among all."""
import array
import bisect

# as many late or dropped ones are put in or taken out one by one; for more of them all are put in order anew
FEW = 64


class Keys:
    """Ids of 63 bits. They mostly come in order, so most are added at the end."""

    def __init__(self, keys=()):
        self._keys = array.array("Q", sorted(keys))
        self._late, self._dropped = [], set()

    def add(self, keys):
        """Adds ids."""
        keys = sorted(keys)
        if keys and (not self._keys or keys[0] > self._keys[-1]):
            self._keys.extend(keys)
        else:
            self._late += keys

    def drop(self, keys):
        """Drops ids."""
        self._dropped.update(keys)

    def all(self):
        """All of them, in order. The array is the keys' own."""
        if len(self._late) + len(self._dropped) > FEW:
            kept = (each for each in self._keys if each not in self._dropped) if self._dropped else self._keys
            late = (each for each in self._late if each not in self._dropped)
            self._keys = array.array("Q", sorted([*kept, *late]))
        else:
            for key in self._late:
                bisect.insort(self._keys, key)
            for key in self._dropped:
                place = bisect.bisect_left(self._keys, key)
                if place < len(self._keys) and self._keys[place] == key:
                    del self._keys[place]
        self._late, self._dropped = [], set()
        return self._keys
