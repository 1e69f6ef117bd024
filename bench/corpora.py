"""Messages and queries that are the same on every machine."""
import bisect
import os
import random

ROOT = os.path.dirname(os.path.dirname(os.path.abspath(__file__)))
VOCABULARY = 100_000


def made_words(document):
    """The eight words of a made document with start 0 (docs/FORMATS.md)."""
    words = []
    for at in range(8):
        x = (6364136223846793005 * (8 * document + at) + 1442695040888963407) % 2**64
        words.append("w%d" % (x >> 56))
    return words


class Zipf:
    """Words by rank, the word of rank r with the weight 1/r."""

    def __init__(self, vocabulary, seed):
        self.random = random.Random(seed)
        self.sums = []
        total = 0.0
        for rank in range(1, vocabulary + 1):
            total += 1.0 / rank
            self.sums.append(total)

    def rank(self):
        return bisect.bisect_left(self.sums, self.random.random() * self.sums[-1])

    def word(self):
        return "z%d" % self.rank()

    def words(self, count):
        return [self.word() for _ in range(count)]


def messages(count):
    """So many messages of 15 words, each a list of words."""
    zipf = Zipf(VOCABULARY, 1)
    return [zipf.words(15) for _ in range(count)]


KINDS = ("word", "and", "or", "phrase", "window", "not")


def queries(kind, count, among):
    """So many queries of a kind, each a list of one or two words: drawn as those of messages are; those of a phrase stand side by
    side in one of these messages, and those of a window in their order, the last at most 5 words after the first."""
    zipf, pick = Zipf(VOCABULARY, 2), random.Random(3)
    made = []
    while len(made) < count:
        if kind in ("phrase", "window"):
            words = pick.choice(among)
            at = pick.randrange(len(words) - 1)
            apart = 1 if kind == "phrase" else pick.randrange(1, 6)
            words = [words[at], words[min(at + apart, len(words) - 1)]]
        else:
            words = zipf.words(1 if kind == "word" else 2)
        if len(set(words)) == len(words):
            made.append(words)
    return made
