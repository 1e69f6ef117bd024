"""The words of a text by the word boundaries of UAX #29, folded, each with its place: for the marks in a shown message alone. The index
cuts by tables of its own; this follows the rules by what `unicodedata` knows."""
import re
import unicodedata

BEGINS = re.compile("[\\w\u203f\u2040\u2054\u202f\u20dd-\u20e0\u24b6-\u24e9\ufe33\ufe34\ufe4d-\ufe4f\uff3f\u066b]")
SIGNS = {}
for signs, name in (
    (":\u00b7\u0387\u055f\u05f4\u2027\ufe13\ufe55\uff1a", "letters' sign"),
    (",;\u037e\u0589\u060c\u060d\u066c\u07f8\u2044\ufe10\ufe14\ufe50\ufe54\uff0c\uff1b", "numbers' sign"),
    (".\u2018\u2019\u2024\ufe52\uff07\uff0e", "sign"),
    ("'", "quote"),
    ('"', "double quote"),
):
    SIGNS.update(dict.fromkeys(signs, name))
# letters that stand alone, since no rule joins them: the ideographs, Hiragana, and scripts that write no blanks
ALONE = ("HIRAGANA", "CJK", "IDEOGRAPHIC", "HANGZHOU", "THAI ", "LAO ", "MYANMAR", "KHMER", "TAI ", "NEW TAI LUE", "AHOM", "TANGUT", "NUSHU")
OTHER_LETTERS = re.compile(
    "[\u02c2-\u02c5\u02d2-\u02d7\u02de\u02df\u02e5-\u02eb\u02ed\u02ef-\u02ff\u055a-\u055c\u055e\u058a\u05f3\u24b6-\u24e9"
    "\ua708-\ua716\ua720\ua721\ua789\ua78a\uab5b\U0001f130-\U0001f149\U0001f150-\U0001f169\U0001f170-\U0001f189]")
JOINED = {"letter", "hebrew", "number"}
LINKED = JOINED | {"katakana", "link"}
KINDS = {}


def find_kind(char):
    """What a character is to the rules."""
    if char in SIGNS:
        return SIGNS[char]
    category = unicodedata.category(char)
    if category in ("Mn", "Me", "Mc") or char in "\u200c\u200d\uff9e\uff9f" or "\U0001f3fb" <= char <= "\U0001f3ff":
        return "behind"
    if category == "Cf":
        return "other" if char == "\u200b" else "behind"
    if category == "Pc" or char == "\u202f":
        return "link"
    if category == "Nd" or char == "\u066b":
        return "number"
    if OTHER_LETTERS.match(char):
        return "letter"
    if category[0] != "L" and category != "Nl" and char not in "\u309b\u309c\u30a0":
        return "other"
    name = unicodedata.name(char, "")
    if category == "Lo" and name.startswith("HEBREW"):
        return "hebrew"
    if name.startswith(("KATAKANA", "HALFWIDTH KATAKANA")) or "\u3031" <= char <= "\u3035":
        return "katakana"
    return "other" if name.startswith(ALONE) else "letter"


def kind(char):
    """What a character is to the rules."""
    found = KINDS.get(char)
    if found is None:
        found = KINDS[char] = find_kind(char)
    return found


def behind(text, place):
    """The first place from here on that no mark of the letter before it takes."""
    while place < len(text) and kind(text[place]) == "behind":
        place += 1
    return place


def bridges(before, sign, after):
    """Whether a sign between two characters joins them."""
    letters = before in ("letter", "hebrew") and after in ("letter", "hebrew")
    return ((letters and sign in ("letters' sign", "sign", "quote"))
            or (before == after == "number" and sign in ("numbers' sign", "sign", "quote"))
            or (before == after == "hebrew" and sign == "double quote"))


def end_of(text, place):
    """Where the piece that begins here ends."""
    last = kind(text[place])
    place = behind(text, place + 1)
    while place < len(text):
        here = kind(text[place])
        if ((last in JOINED and here in JOINED) or (last == here == "katakana")
                or (here == "link" and last in LINKED) or (last == "link" and here in LINKED)):
            last = here
            place = behind(text, place + 1)
            continue
        after = behind(text, place + 1)
        if after < len(text) and bridges(last, here, kind(text[after])):
            last = kind(text[after])
            place = behind(text, after + 1)
            continue
        if last == "hebrew" and here == "quote":
            place = after
        break
    return place


# the same rules for texts of ASCII alone, at once
PLAIN = re.compile(r"\w+(?:(?:(?<=[A-Za-z])[.':](?=[A-Za-z])|(?<=[0-9])[.',;](?=[0-9]))\w+)*", re.ASCII)


def words(text):
    """The words of a text in order: where each begins and ends, counted in characters, and the word folded. Each character is looked at a
    bounded number of times."""
    if text.isascii():
        return [(each.start(), each.end(), each.group().lower()) for each in PLAIN.finditer(text) if each.group().strip("_")]
    return words_of_any(text)


def words_of_any(text):
    """The same for any text, by the kinds of its characters."""
    found, place = [], 0
    while True:
        begins = BEGINS.search(text, place)
        if not begins:
            return found
        begin, place = begins.start(), end_of(text, begins.start())
        piece = text[begin:place]
        if any(char.isalnum() or OTHER_LETTERS.match(char) for char in piece):
            found.append((begin, place, piece.casefold()))
