"""Made messages and queries, the same at each run, what they have to find, and messages that mean harm."""
import datetime
import json

CITIES = ["Vienna", "Berlin", "Zürich", "Straßburg", "Łódź", "København", "Αθήνα", "Київ", "東京", "서울"]
WORDS = ["rain", "berlin", "late", "train", "gate", "sun", "night"]
LEVELS = ["info", "error", "debug"]
# 2026-11-01 00:00 UTC, and the milliseconds of a day
BASE, DAY = 1793491200000, 86_400_000


class Made:
    """A message: its time, its number among all, its words, level and city, and its line."""

    def __init__(self, number, count, chance):
        self.number = number
        # a third of them at any time, a third falling, a third rising
        self.at = BASE + (chance.randrange(DAY), (count - number) * DAY // count, number * DAY // count)[number % 3]
        self.words = [chance.choice(WORDS) for _ in range(4)]
        self.level = chance.choice(LEVELS)
        self.city = chance.choice(CITIES)
        said = datetime.datetime.fromtimestamp(self.at / 1000, datetime.timezone.utc).strftime("%Y-%m-%dT%H:%M:%S.") + "%03dZ" % (self.at % 1000)
        text = "%s n%d" % (" ".join(self.words), number)
        if number % 2:
            self.line = json.dumps({"time": said, "msg": text, "level": self.level, "city": self.city, "n": number}, ensure_ascii=False).encode()
        else:
            self.line = ("%s [%s] %s city=%s n=%d" % (said, self.level, text, self.city, number)).encode()


def in_a_row(message):
    """Whether rain stands before berlin."""
    return ("rain", "berlin") in zip(message.words, message.words[1:])


# queries, and what they ask of a message
ASKED = [
    ("", lambda each: True), ("rain", lambda each: "rain" in each.words), ("rain -late", lambda each: "rain" in each.words and "late" not in each.words),
    ("level:error", lambda each: each.level == "error"), ("city:vienna -level:info", lambda each: each.city == "Vienna" and each.level != "info"),
    ("(rain OR sun) level:INFO", lambda each: {"rain", "sun"} & set(each.words) and each.level == "info"), ('"rain berlin"', in_a_row),
    ("-level:error -rain", lambda each: each.level != "error" and "rain" not in each.words), ("n:17", lambda each: each.number == 17), ("n17", lambda each: each.number == 17),
    ("source:other.log", lambda each: each.number % 5 == 0), ("nothing_of.this:kind", lambda each: False),
]


MARKUP = [
    "<script>window.harmed=1</script> harm", "<img src=x onerror=window.harmed=1> harm", "</p></li></ol><b>harm</b>",
    "harm &lt;i&gt; &amp; \"quoted\" 'single'", "javascript: harm()", "harm {{7*7}} ${7*7} <!-- --> ]]>",
    "harm \u202e\u2066gnireddib\u2069 \u200f", "harm \u0000\u0007\u001b[31m\u2028\u2029\ufeff", "<style>*{display:none}</style>harm",
    "harm\r\n\r\ndata: {}\nevent: matches", "a\u0301\u0301\u0301 harm \U0001f469\u200d\U0001f4bb\U0001f3fd \U0001f1e6\U0001f1f9",
]
SCRIPTS = [
    "Schöne Grüße aus Köln", "Ελληνικά γράμματα", "Київ і Харків", "שלום עולם צה\"ל ג'ירפה", "السلام عليكم", "हिन्दी में संदेश", "ภาษาไทย",
    "日本語のメッセージ カタカナ", "中文消息", "한국어 메시지", "ქართული", "Հայերեն", "አማርኛ", "தமிழ்", "ខ្មែរ", "မြန်မာ",
    "\U00010330\U00010331 gothic", "ǅungla ŉ ﬁnd İstanbul",
]


def make_harmful():
    """Lines that mean harm, and some that are only strange; all of them are messages. What the page shows of each."""
    lines, texts = [], []
    for text in (*MARKUP, *SCRIPTS):
        lines.append(json.dumps({"text": text, "user": "<b>mara</b>", "<i>name</i>": text, "__proto__": {"harm": 1}, "constructor": [1, 2]}, ensure_ascii=False).encode())
        texts.append(text)
    strange = [
        b'{"id":1,"text":"', b'{"text":"\xff"}', b'{"text":"\\ud800 harm"}', b"{", b"}", b"[1]", b'"text"', b'{"text":null}', b"{}", b'{"text":"a"} x', b"\xef\xbb\xbf{}", b"\x00", b"?5 train",
        b"!5 train", b"#0 train", b'{"a":NaN,"text":"harm"}', b'{"n":' + b"9" * 5000 + b"}", b'{"a":' * 3000, b"[" * 60000, b"<" * 65536, b"a " * 30000, b"harm\r", b'{"text":"harm",\r"a":1}',
        b'{"text":"harm","time":{"a":1},"level":[1]}', b"9" * 300, b'{"time":-1e308,"msg":"harm"}', b'{"time":1e999,"msg":"harm"}', "\u0130\u0130 harm".encode(), b"=1+1 harm",
    ]
    return lines + strange, texts
