"""Checks of the page in a headless browser."""
import json
import os
import random
import time
import urllib.parse

from comparing import check, wait_for

from .browser import KEYS, Browser
from .machine import Machine
from .messages import MARKUP, SCRIPTS, make_harmful

IDS = "return [...document.querySelectorAll('#matches > li')].map(each => each.dataset.id)"
SHOWN = "return [...document.querySelectorAll('#matches .text')].map(each => each.firstElementChild.textContent)"
MARKED = "return [...new Set([...document.querySelectorAll('#matches mark')].map(each => each.textContent.toLowerCase()))].sort()"
TOTAL = "return document.querySelector('#total').textContent"
TEXT = "return document.querySelector(arguments[0]).textContent"
BOX = "const box = document.querySelector(arguments[0]).getBoundingClientRect(); return [box.left, box.top, box.width, box.height]"
ELSEWHERE = "return performance.getEntriesByType('resource').map(each => each.name).filter(each => !each.startsWith(location.origin))"
TOP = "return document.querySelector('#matches > li')?.dataset.id === arguments[0]"
FIELD = "[...document.querySelectorAll('#fields details')].find(each => each.querySelector('b').textContent === '%s')"
SIZES = ((1400, 1000), (390, 800))
MARK = """
const input = document.querySelector(arguments[0]), style = getComputedStyle(input);
const mark = input.parentElement.querySelector('.mirror b'), box = input.getBoundingClientRect(), at = mark.getBoundingClientRect();
const pen = document.createElement('canvas').getContext('2d');
pen.font = style.font;
const before = pen.measureText([...input.value].slice(0, arguments[1] - 1).join('')).width;
const left = box.left + parseFloat(style.borderLeftWidth) + parseFloat(style.paddingLeft) + before;
return [Math.abs(at.left - left) < 2, at.top >= box.bottom - 1 && at.top < box.bottom + 20, at.width > 4, mark.checkVisibility()];
"""
# texts whose contrast with the ground behind them is too little, by the rule of WCAG 2
CONTRAST = """
const light = (color) => {
  const parts = color.match(/[\\d.]+/g).slice(0, 3).map((each) => each / 255).map((each) => (each <= 0.04045 ? each / 12.92 : ((each + 0.055) / 1.055) ** 2.4));
  return 0.2126 * parts[0] + 0.7152 * parts[1] + 0.0722 * parts[2];
};
const ground = (element) => {
  for (let each = element; each; each = each.parentElement) {
    const color = getComputedStyle(each).backgroundColor;
    if (!/, 0\\)$/.test(color)) return color;
  }
  return 'rgb(255, 255, 255)';
};
const bad = new Set();
for (const each of document.querySelectorAll('body *')) {
  if (!each.checkVisibility() || ![...each.childNodes].some((node) => node.nodeType === 3 && node.data.trim())) continue;
  const [one, other] = [light(getComputedStyle(each).color), light(ground(each))].sort((a, b) => b - a);
  if ((one + 0.05) / (other + 0.05) < 4.5) bad.add(each.outerHTML.slice(0, 80));
}
return [...bad];
"""
NAMELESS = """
return [...document.querySelectorAll('input, button, svg, summary, [role=button]')].filter((each) =>
  !(each.getAttribute('aria-label') || each.labels?.length || (['BUTTON', 'SUMMARY'].includes(each.tagName) && each.textContent.trim())))
  .map((each) => each.outerHTML.slice(0, 80));
"""


ANEW = """
const notice = document.querySelector('#notice');
return notice.checkVisibility() && notice.querySelector('span').textContent.startsWith('The index ended and was started again at ');
"""
WHATS = [("info", "request served"), ("info", "payment accepted"), ("debug", "cache hit for session"), ("warn", "slow query on com.acme.billing.InvoiceService"),
         ("error", "TimeoutError: connect to db-1.eu.acme.com timed out"), ("error", "payment refused by gateway")]


def stamp(when):
    """A time in seconds since 1970 as logs have it."""
    return time.strftime("%Y-%m-%dT%H:%M:%S", time.gmtime(when)) + ".%03dZ" % (when % 1 * 1000)


def app_line(chance, when):
    """A line of a service."""
    level, what = chance.choice(WHATS)
    return json.dumps({"ts": stamp(when), "level": level, "msg": what, "service": chance.choice(["billing", "checkout", "auth"]), "host": "web-%d" % chance.randint(1, 4),
                       "status": 500 if level == "error" else 200, "trace_id": "%016x" % chance.getrandbits(64), "user": chance.choice(["mara", "jon", "li", "zo\u00eb"])}).encode()


def system_line(chance, when):
    """A line of a machine."""
    said = chance.choice(["sshd[812]: Failed password for invalid user admin from 203.0.113.%d" % chance.randint(1, 254), "systemd[1]: Started session-%d.scope." % chance.randint(1, 99),
                          "nginx[77]: upstream timed out (110: Connection timed out)"])
    return ("%s web-1 %s" % (stamp(when), said)).encode()


class Page:
    """The page of a console that has taken the logs of two hours."""

    def __init__(self, folder, browser):
        self._browser = browser
        self._folder = folder
        self._chance = random.Random(5)
        now = time.time()
        times = [now - 7200 * (1 - place / 4000) for place in range(4000)]
        for name, make, step in (("app.jsonl", app_line, 1), ("syslog", system_line, 4)):
            with open(os.path.join(folder, name), "wb") as file:
                file.write(b"".join(make(self._chance, when) + b"\n" for when in times[::step]))
        self._machine = Machine(folder, "app.jsonl", "syslog", name="page")
        self._count = 5000
        wait_for(5000, lambda: self._machine.figures()["accepted"], 60)

    def _ids(self, query, most=100, **more):
        return [each["id"] for each in self._machine.search(query, most, **more)]

    def _post(self, text, source="live", **more):
        self._machine.post([json.dumps({"ts": stamp(time.time()), "msg": text, **more}, ensure_ascii=False).encode()], source)

    def _asks(self, query):
        self._browser.type("#query", query, "enter")
        self._browser.wait("return new URLSearchParams(location.search).get('q') === (arguments[0] || null)", query)

    def _shows(self, name, query, most=100, **more):
        want = self._ids(query, most, **more)
        check(name, want, wait_for(want, lambda: self._browser.run(IDS)))
        return want

    def end(self):
        """Ends its console."""
        check("the page's console ends", (0, []), self._machine.end())

    def check_first(self):
        """The newest messages, how many there are, and when they were."""
        run, wait = self._browser.run, self._browser.wait
        begun = time.monotonic()
        self._browser.open(self._machine.url)
        self._shows("the newest messages", "")
        print("console: the page with 100 messages and its axis after %.1f s" % (time.monotonic() - begun), flush=True)
        check("how many there are", "5,000 matches", wait_for("5,000 matches", lambda: run(TOTAL)))
        check("the bars hold them", True, run("return document.querySelectorAll('#chart rect.bar').length") >= 20)
        check("the axis says what it shows", True, " a bar is " in run(TEXT, "#span"))
        row = run("return document.querySelector('#matches .row').innerText.split('\\n')")
        check("a message has its own date and time", True, row[0].startswith(time.strftime("%Y-%m-%d ")))
        check("and its source", True, run(TEXT, "#matches .source") in ("app.jsonl", "syslog"))
        check("messages in one line each", True, run(BOX, "#matches .row")[3] < 30)
        self._browser.click("#full")
        check("or full", "true", run("return document.querySelector('#full').getAttribute('aria-pressed')"))
        self._browser.click("#compact")
        self._browser.click("#more")
        self._shows("more on demand", "", 200)

    def check_searches(self):
        """Queries, by the box and by its address."""
        run = self._browser.run
        for query in ("timeout billing", "acme.com", '"connect to"~2 -jon', "level:error service:billing", "status:500 OR program:sshd", "nothing_of_this_kind"):
            self._asks(query)
            want = self._shows("the page finds %r" % query, query)
            total = "%s match%s" % ("{:,}".format(self._machine.get("/histogram", q=query)["total"]), "es" if len(want) != 1 else "")
            check("and says how many", total, wait_for(total, lambda: run(TOTAL)))
        self._asks("acme.com billing")
        self._asks("slow com.acme")
        check("the words that matched are set off", ["acme", "com", "slow"], wait_for(["acme", "com", "slow"], lambda: run(MARKED)))
        self._browser.open(self._machine.url + "?" + urllib.parse.urlencode({"q": "gateway", "from": "1h"}))
        self._shows("a page is opened with its query and range", "gateway", **{"from": "1h"})
        self._asks("rain NOT sun")
        check("what may have been meant", True, self._browser.wait("return document.querySelector('#hints').textContent.includes('NOT is written -word')"))
        run("document.querySelector('[data-from=\"\"]').click()")

    def check_refusals(self):
        """A refused query says where and why, and leaves all as it is."""
        run, wait = self._browser.run, self._browser.wait
        self._asks("payment")
        before = self._shows("before a refusal", "payment")
        total = "{:,} matches".format(self._machine.get("/histogram", q="payment")["total"])
        check("its total", total, wait_for(total, lambda: run(TOTAL)))
        for query, column, why in (("(train", 7, "the ( at 1 isn't closed"), ("rain )", 6, "nothing stands before"), ("é ü ñ ) x", 7, "nothing"), ("a OR OR b", 6, "OR wants"), ('a.b "train', 5, "this quote isn't closed"),
                                   ("since:x", 7, "since: takes"), ("x " * 30 + "(", 62, "the ( at 61")):
            self._browser.type("#query", query, "enter")
            said = "bad query at %d: %s" % (column, why)
            got = wait_for(True, lambda said=said: run(TEXT, "#refusal").startswith(said))
            check("%r is refused as %r" % (query, said), True, got)
            if len(query) < 30:
                check("its mark stands under the column", [True] * 4, run(MARK, "#query", column))
        check("the list, the total and the address stay", (before, total, "?q=payment"), (run(IDS), run(TOTAL), run("return location.search")))
        self._browser.type("#query", "x")
        check("the refusal goes with the next key", "", wait_for("", lambda: run(TEXT, "#refusal")))
        self._browser.click("#help-button")
        check("help for queries", True, run("return document.querySelector('#help').checkVisibility()"))
        self._browser.click("#help-button")

    def check_narrowing(self):
        """A range by dragging over the axis, by a click on a bar, and back."""
        run, wait = self._browser.run, self._browser.wait
        self._asks("")
        wait("return document.querySelector('#total').textContent === '5,000 matches'")
        step = self._machine.get("/histogram", bars=max(20, min(100, run("return document.querySelector('#chart').clientWidth") // 12)))["step"]
        left, top, width, height = run(BOX, "#chart svg")
        self._browser.drag(left + width * 0.3, top + height / 2, left + width * 0.6, top + height / 2)
        wait("return location.search.includes('to=')")
        asked = dict(urllib.parse.parse_qsl(run("return location.search")[1:]))
        told = self._machine.get("/histogram", **asked)
        total = "{:,} matches".format(told["total"])
        check("a range is dragged", (True, total), (0.2 < told["total"] / 5000 < 0.4, wait_for(total, lambda: run(TOTAL))))
        self._shows("its messages", "", **{name: asked[name] for name in ("from", "to")})
        self._browser.click("#wider")
        wait("return location.search === ''")
        check("back to all", "5,000 matches", wait_for("5,000 matches", lambda: run(TOTAL)))
        run("document.querySelector('#chart').focus()")
        self._browser.press(KEYS["right"] + KEYS["left"])
        self._browser.press(KEYS["left"], KEYS["shift"])
        self._browser.press(KEYS["enter"])
        wait("return location.search.includes('to=')")
        asked = dict(urllib.parse.parse_qsl(run("return location.search")[1:]))
        told = self._machine.get("/histogram", **asked)
        check("two bars are taken by keys", (True, 2 * step), (told["total"] > 0, told["to"] - told["from"]))
        self._browser.click("#wider")
        wait("return location.search === ''")
        run("document.querySelector('[data-from=\"1h\"]').click()")
        check("the last hour", True, wait("return location.search === '?from=1h'"))
        check("has about half", True, wait("const count = Number(document.querySelector('#total').textContent.replace(/\\D/g, '')); return count > 2300 && count < 2600"))
        run("document.querySelector('[data-from=\"\"]').click()")
        wait("return location.search === ''")

    def check_fields(self):
        """Fields with values, to filter in and out by a click."""
        run, wait = self._browser.run, self._browser.wait
        self._asks("")
        check("fields", True, wait("return !!%s" % FIELD % "service"))
        run("%s.querySelector('summary').click()" % FIELD % "service")
        counted = dict(self._machine.get("/values", q="", name="service")["values"])
        script = "return Object.fromEntries([...%s.querySelectorAll('li')].map(each => [each.querySelector('span').textContent, Number(each.querySelector('b').textContent.replace(/\\D/g, ''))]))" % FIELD % "service"
        check("values are counted over all matches", counted, wait_for(counted, lambda: run(script)))
        run("[...%s.querySelectorAll('li')].find(each => each.querySelector('span').textContent === 'auth').querySelector('.sign').click()" % FIELD % "service")
        check("a click filters in", True, wait("return document.querySelector('#query').value === 'service:auth'"))
        self._shows("what is left", "service:auth")
        wait("return !!%s" % FIELD % "level")
        run("[...%s.querySelectorAll('li')].find(each => each.querySelector('span').textContent === 'error').querySelectorAll('.sign')[1].click()" % FIELD % "level")
        check("a click filters out", True, wait("return document.querySelector('#query').value === 'service:auth -level:error'"))
        self._shows("what is left then", "service:auth -level:error")

    def check_one(self):
        """One message: its members, the lines around it, its link."""
        run, wait = self._browser.run, self._browser.wait
        self._asks("program:sshd")
        want = self._shows("messages of a program", "program:sshd")
        run("document.querySelectorAll('#matches .row')[2].focus()")
        self._browser.press(KEYS["enter"])
        check("a message is opened by a key", True, wait("return !!document.querySelector('#matches > li.open .more table')"))
        check("its members", True, run("return [...document.querySelectorAll('.more td')].map(each => each.textContent).join().includes('program,sshd')"))
        run("[...document.querySelectorAll('.more button')].find(each => each.textContent === 'Lines around it').click()")
        check("the lines around it", True, wait("return document.querySelectorAll('.around li').length > 10"))
        check("all of its source", True, run("return [...document.querySelectorAll('.around li')].every(each => !each.textContent.includes('trace_id'))"))
        link = run("return document.querySelector('.more a').href")
        self._browser.open(link)
        check("a link opens it", want[2], wait("return document.querySelector('#matches > li.open')?.dataset.id"))
        self._post("came while one is open", program="sshd")
        check("a list with an open message is held", True, wait("return document.querySelector('#hold').textContent === 'Held: 1 new'"))
        exported = run("return document.querySelector('#as-jsonl').href")
        lines = self._machine.ask("GET", "/" + exported.partition("/")[2].partition("/")[2].partition("/")[2])[1].splitlines()
        check("the export of it", self._machine.get("/histogram", q="program:sshd")["total"], len(lines))
        old = self._ids("", 500)[-1]
        self._browser.open(self._machine.url + "?" + urllib.parse.urlencode({"at": old}))
        check("a link to a message that isn't among the newest opens it, too", old, wait("return document.querySelector('#matches > li.open')?.dataset.id"))

        self._browser.click("#wider")
        self._browser.wait("return !location.search.includes('to=')")

    def check_live(self):
        """Messages that match come into their places while the page is open; and so do those that were held, later."""
        run, wait = self._browser.run, self._browser.wait
        self._asks("live")
        wait("return document.querySelector('#none').checkVisibility()")
        for place in range(30):
            self._post("live %d" % place)
        self._shows("30 live messages", "live")
        self._machine.post([b"2026-01-02T03:04:05Z live and late"], "live")
        self._shows("one that comes late stands where its time is", "live")
        self._browser.press(KEYS["escape"])
        check("Esc holds", "true", run("return document.querySelector('#hold').getAttribute('aria-pressed')"))
        self._post("live and held")
        check("what is held is counted", True, wait("return document.querySelector('#hold').textContent === 'Held: 1 new'"))
        held = self._ids("live")[0]
        check("and not shown", False, run(TOP, held))
        self._browser.press(KEYS["escape"])
        check("until it is followed again", True, wait(TOP, held))
        run("document.activeElement.blur()")
        self._browser.press("/")
        check("the key for the box", "query", run("return document.activeElement.id"))
        self._machine.post([b'{"ts":"%s","msg":"live flood %d"}' % (stamp(time.time()).encode(), number) for number in range(3000)])
        found = self._ids("live", 300)
        check("a flood ends with the newest on top", True, wait(TOP, found[0]))
        got = run(IDS)
        check("and without a gap", found[:len(got)], got)

    def check_harmful(self):
        """The text of messages is text."""
        run = self._browser.run
        lines, texts = make_harmful()
        self._machine.post(lines, "harm")
        self._asks("source:harm")
        self._shows("harmful messages are found", "source:harm")
        shown = run(SHOWN)
        check("their texts are shown as they are", [], [text for text in texts if text not in shown])
        tags = set(run("return [...document.querySelectorAll('#matches > li *')].map(each => each.tagName)"))
        check("nothing of them is markup", set(), tags - {"DIV", "TIME", "SPAN", "MARK"})
        run("document.querySelectorAll('#matches .row').forEach(each => each.click())")
        self._browser.wait("return document.querySelectorAll('.more pre').length > 30 && [...document.querySelectorAll('.more pre')].every(each => each.textContent)")
        check("nothing of them ran", None, run("return window.harmed ?? null"))
        check("what they are made of is known", set(), set(run("return [...document.querySelectorAll('#matches > li *')].map(each => each.tagName)"))
              - {"DIV", "TIME", "SPAN", "MARK", "BUTTON", "A", "OL", "TABLE", "TBODY", "TR", "TD", "PRE", "LI"})
        for text in (*MARKUP[:2], *SCRIPTS[:3], *SCRIPTS[4:8]):
            query = 'source:harm "%s"' % text.replace('"', " ")
            self._asks(query)
            self._shows("found: %s" % text, query)
            want = "".join(filter(str.isalnum, text))
            check("all of its words are set off", want, wait_for(want, lambda: "".join(filter(str.isalnum, run("return [...document.querySelector('#matches .text span').querySelectorAll('mark')].map(each => each.textContent).join('')")))))

    def check_watches(self):
        """A watch with a threshold is added, counts, raises its alarm, is chosen and removed."""
        run, wait = self._browser.run, self._browser.wait
        self._browser.type("#watch", "counted -not")
        self._browser.type("#watch-name", "what counts")
        self._browser.type("#watch-most", "5", "enter")
        item = "[...document.querySelectorAll('#watches li')].find(each => each.querySelector('.query').textContent === 'what counts')"
        check("a watch is added", True, wait("return !!(%s)" % item))
        for place in range(9):
            self._post("counted %s" % ("not" if place % 3 == 0 else "well"))
        check("it counts", "6", wait_for("6", lambda: run("return %s.querySelector('b').textContent" % item)))
        said = run("return %s.querySelector('svg').getAttribute('aria-label')" % item)
        check("and what is said of its bars", True, said.startswith("6 matches in the last minute"))
        check("its alarm shows", True, wait("return %s.classList.contains('alarm') && %s.querySelector('.told').textContent.startsWith('alarm at 5 within 60 s; 1 so far')" % (item, item)))
        run("%s.querySelector('.query').click()" % item)
        self._shows("a watch is chosen", "counted -not")
        check("with its query in the box", "counted -not", run("return document.querySelector('#query').value"))
        self._browser.type("#watch", "counted (", "enter")
        check("a bad watch is refused", True, wait("return document.querySelector('#watch-refusal').textContent.startsWith('bad query at 10: the ( at 9')"))
        check("with a mark under its column", [True] * 4, run(MARK, "#watch", 10))
        run("%s.querySelector('.remove').click()" % item)
        check("a watch is removed", True, wait("return !(%s)" % item))
        check("in the console too", [], self._machine.figures()["watches"])

    def check_refused_lines(self):
        """Lines that the index refuses are told, with their texts."""
        run, wait = self._browser.run, self._browser.wait
        machine = Machine(self._folder, "--", "run", "--segments", "1", "--docs", "256", "--terms", "1024", name="small")
        machine.post([b"line %d <b>of</b> many" % number for number in range(300)])
        self._browser.open(machine.url)
        check("refused lines", True, wait("return document.querySelector('#why').checkVisibility()"))
        self._browser.click("#why")
        check("how many, and why", ["44 full"], run("return [...document.querySelectorAll('#kinds li')].map(each => each.textContent)"))
        check("and their texts", ["a request", "full", "line 299 <b>of</b> many"], run("return [...document.querySelectorAll('#refusals tr:first-child td')].map(each => each.textContent)"))
        self._browser.open(self._machine.url)
        machine.end()

    def check_killed(self):
        """The index is killed while the page is open."""
        self._asks("session")
        self._machine.kill_index()
        check("the page says that the index was started again", True, self._browser.wait(ANEW, seconds=40))
        self._post("session behind the index's end")
        wait_for(1, lambda: len(self._ids('"index\'s end"')))
        check("and goes on", True, self._browser.wait(TOP, self._ids('"index\'s end"')[0]))
        self._browser.click("#notice button")
        check("what it said can be dismissed", True, self._browser.wait("return document.querySelector('#notice').hidden"))

    def check_looks(self, pictures):
        """At two widths, in light and dark."""
        run = self._browser.run
        self._asks("timed OR refused")
        self._shows("what is looked at", "timed OR refused")
        run("document.querySelectorAll('#matches .row')[1].click(); document.querySelector('#help-button').click(); document.querySelectorAll('aside details').forEach(each => { each.open = true; })")
        self._browser.wait("return !!document.querySelector('.more pre')?.textContent")
        grounds = set()
        for width, height in SIZES:
            for scheme in ("dark", "light"):
                self._browser.show_as(width, height, scheme)
                self._browser.wait("return innerWidth === arguments[0]", width)
                check("nothing stands out at %d, %s" % (width, scheme), True, run("return document.scrollingElement.scrollWidth <= innerWidth"))
                check("all texts can be read at %d, %s" % (width, scheme), [], run(CONTRAST))
                grounds.add(run("return getComputedStyle(document.body).backgroundColor"))
        check("light and dark", 2, len(grounds))
        check("each box and button has a name", [], run(NAMELESS))
        check("no resource from elsewhere", [], run(ELSEWHERE))
        if pictures:
            self._take_pictures(pictures)

    def _take_pictures(self, folder):
        """The page as the documents show it: over a log of this machine, and over made ones."""
        real = [path for path in ("/var/log/dpkg.log", "/var/log/apt/history.log", "/var/log/alternatives.log") if os.path.exists(path)]
        with open(os.path.join(self._folder, "shop.jsonl"), "wb") as file:
            now = time.time()
            file.write(b"".join(app_line(self._chance, now - 7200 * (1 - place / 4000)) + b"\n" for place in range(4000)))
        machines = [Machine(self._folder, *real, name="real"), Machine(self._folder, "shop.jsonl", "syslog", name="shop")]
        for machine, query, name, most, seconds in ((machines[0], "status half-installed", "", 0, 60), (machines[1], "level:error", "errors", 20, 60), (machines[1], "program:sshd failed", "", 0, 60)):
            machine.value("POST", "/watches", json.dumps({"query": query, "name": name, "most": most, "seconds": seconds}))
        for name, machine, width, height, scheme, asked in (("console", machines[0], 1400, 900, "light", {"q": "installed -half"}),
                                                            ("console-dark", machines[1], 1400, 900, "dark", {"q": "timed OR refused", "from": "2h"}),
                                                            ("console-phone", machines[1], 390, 800, "light", {"q": "timed OR refused", "from": "2h"})):
            self._browser.show_as(width, height, scheme)
            self._browser.open(machine.url + "?" + urllib.parse.urlencode(asked))
            for _ in range(6 if machine is machines[1] else 0):
                machine.post([app_line(self._chance, time.time()) for _ in range(3)], "shop.jsonl")
                time.sleep(0.5)
            self._browser.wait("return document.querySelectorAll('#fields details').length > 0")
            self._browser.run("document.activeElement.blur(); scrollTo(0, 0)")
            time.sleep(2.5)
            self._browser.picture(os.path.join(folder, name + ".png"))
        for machine in machines:
            machine.end()


def check_page(folder, pictures):
    """All of them."""
    browser = Browser(folder)
    try:
        browser.show_as(1400, 1000, "light")
        page = Page(folder, browser)
        for each in (page.check_first, page.check_searches, page.check_refusals, page.check_narrowing, page.check_fields, page.check_one, page.check_live, page.check_harmful, page.check_watches,
                     page.check_refused_lines, page.check_killed, lambda: page.check_looks(pictures)):
            each()
        said = [each for each in browser.complaints() if "400 (Bad Request)" not in each and "404 (Not Found)" not in each]
        check("the browser has nothing to say", [], said)
        page.end()
    finally:
        browser.close()
