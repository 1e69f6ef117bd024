"""What somebody may have meant who writes a query as other programs read it."""
import re

SIGNS = (("AND", "all parts of a query have to match: leave AND out"), ("NOT", "NOT is written -word"), ("&&", "leave && out"), ("||", "|| is written OR"),
         ("or", "OR has capitals, else it is a word"))


def meant(query):
    """What to write instead of signs that a query doesn't have, outside of quotes."""
    bare = re.sub(r'"[^"]*"(~\d+)?', " ", query)
    told = ["no sign stands for the rest of a word: whole words are found, in any case of letters"] if "*" in bare or "?" in bare else []
    parts = set(bare.split())
    return told + [what for sign, what in SIGNS if sign in parts]
