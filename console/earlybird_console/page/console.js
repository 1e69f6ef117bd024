// The page: one query and one range of time at a time, their matches, and one stream that brings what comes.
import { ask, at, number, put, showRefusal, stamp } from "./parts.js";
import { anyOpen, begin, count, onFilter, openFirst, putIn, showFound } from "./rows.js";
import { onNarrow, showHistogram } from "./chart.js";
import { onField, showFields } from "./fields.js";
import { showFigures, showUnreachable } from "./figures.js";
import { onChoose, showWatches } from "./watches.js";

const STEP = 100;
const MOST = 500;
const AGAIN = 2000;
const input = at("query");
const hold = at("hold");
const more = at("more");
const address = new URLSearchParams(location.search);
const asked = { q: address.get("q") ?? "", from: address.get("from") ?? "", to: address.get("to") ?? "" };
let pinned = /^\d{1,19}$/.test(address.get("at") ?? "") ? address.get("at") : null;
let sought = false;
let most = STEP;
let stream = null;
let held = null;
let turn = 0;
let wish = 0;
let stale = null;

const words = (rest = {}) => String(new URLSearchParams(Object.entries({ ...asked, ...rest }).filter(([, value]) => value !== "")));
const path = (name, rest) => `${name}?${words(rest)}`;

// the list: a refused query leaves it as it is
async function search() {
  const mine = turn;
  try {
    const { matches, left, hints } = await ask(path("/search", { k: most, for: "page" }));
    if (mine !== turn) return false;
    showRefusal(input, at("refusal"), null);
    put(at("hints"), hints.join("; "));
    showFound(matches);
    const all = matches.length + left < most;
    more.hidden = all || left > 0 || most >= MOST;
    put(at("count"), all ? "" : `the newest ${number(matches.length)}`);
    at("none").hidden = count() > 0;
    put(at("none"), asked.from || asked.to ? "No message in this range matches." : "No message matches.");
    if (pinned && !openFirst(pinned)) {
      if (!sought) {
        // the message of a link that has newer ones above it: the range ends behind it
        sought = true;
        asks({ from: "", to: stamp(Number(BigInt(pinned) >> 21n) + 1) });
        return false;
      }
      at("none").hidden = false;
      put(at("none"), "The message of this link isn't kept any more.");
    }
    pinned = null;
    return true;
  } catch (refusal) {
    if (mine === turn) showRefusal(input, at("refusal"), refusal);
    return false;
  }
}

async function aggregate() {
  const mine = turn;
  stale = null;
  try {
    const told = await ask(path("/histogram", { bars: Math.max(20, Math.min(100, Math.floor(at("chart").clientWidth / 12))) }));
    if (mine === turn) showHistogram(told);
    const fields = await ask(path("/fields"));
    if (mine === turn) showFields(fields);
  } catch { /* the list tells */ }
}
// what came is counted a moment later, and not for each message
function aggregateSoon() {
  if (stale === null && !document.hidden) stale = setTimeout(aggregate, AGAIN);
}

function putAll(matches, all) {
  if (asked.to) return;
  if (putIn(matches, all, most)) more.hidden = most >= MOST;
  at("none").hidden = count() > 0;
}

function take({ matches, count: came }) {
  const all = came === matches.length;
  if (!held && anyOpen()) switchHold();
  if (!held) {
    putAll(matches, all);
    aggregateSoon();
    return;
  }
  held.all = held.all && all && held.matches.length + came <= MOST;
  held.matches = (all ? [...matches, ...held.matches] : matches).slice(0, MOST);
  held.count += came;
  showHold();
}

function showHold() {
  hold.setAttribute("aria-pressed", String(held !== null));
  put(hold, held ? `Held: ${number(held.count)} new` : "Following");
}

function switchHold() {
  const waited = held;
  held = held ? null : { matches: [], count: 0, all: true };
  if (waited) {
    putAll(waited.matches, waited.all);
    if (waited.count) aggregate();
  }
  showHold();
}

// opens the stream of the query, and searches once it has begun, so that no message is missed between the two
function open() {
  stream?.close();
  turn += 1;
  const mine = new EventSource(`/events?${new URLSearchParams({ q: asked.q, for: "page" })}`);
  let begun = false;
  stream = mine;
  mine.addEventListener("begun", async () => {
    begun = true;
    begin();
    if (await search()) aggregate();
  });
  mine.addEventListener("matches", (event) => take(JSON.parse(event.data)));
  mine.addEventListener("figures", (event) => {
    const figures = JSON.parse(event.data);
    showFigures(figures);
    showWatches(figures.watches);
  });
  mine.addEventListener("error", () => {
    if (mine.readyState !== EventSource.CLOSED) {
      showUnreachable();
    } else if (!begun) {
      // the query is refused, or there are too many readers: the search tells
      search();
    } else {
      setTimeout(() => stream === mine && open(), 1000);
    }
  });
}

function show() {
  input.value = asked.q;
  history.replaceState(null, "", words() ? `?${words()}` : "/");
  document.title = asked.q ? `${asked.q} · Earlybird` : "Earlybird";
  for (const each of document.querySelectorAll(".ranges [data-from]")) each.setAttribute("aria-pressed", String(!asked.to && each.dataset.from === asked.from));
  at("wider").hidden = !asked.from && !asked.to;
  for (const kind of ["jsonl", "csv"]) at(`as-${kind}`).href = path("/export", { as: kind });
}

async function asks(changes) {
  const next = { ...asked, ...changes };
  next.q = next.q.trim();
  // a refused query leaves all as it is: list, axis, address, and what comes; of several wishes the last one counts
  wish += 1;
  const mine = wish;
  try {
    await ask(`/search?${new URLSearchParams({ ...next, k: 1 })}`);
  } catch (refusal) {
    if (mine === wish) showRefusal(input, at("refusal"), refusal);
    return;
  }
  if (mine !== wish) return;
  Object.assign(asked, next);
  most = STEP;
  if (held) {
    held = null;
    showHold();
  }
  show();
  open();
}

// a click on a value, or on a time
function filter(part, from, to) {
  if (from !== undefined) asks({ q: part || asked.q, from: stamp(from), to: stamp(to) });
  else if (!asked.q.split(/\s+(?=(?:[^"]*"[^"]*")*[^"]*$)/).includes(part)) asks({ q: `${/\bOR\b/.test(asked.q) ? `(${asked.q})` : asked.q} ${part}` });
}

at("asking").addEventListener("submit", (event) => {
  event.preventDefault();
  asks({ q: input.value });
});
input.addEventListener("input", () => showRefusal(input, at("refusal"), null));
hold.addEventListener("click", switchHold);
more.addEventListener("click", async () => {
  const before = count();
  most = Math.min(most + STEP, MOST);
  await search();
  at("matches").children[before]?.scrollIntoView({ block: "nearest" });
});
for (const each of document.querySelectorAll(".ranges [data-from]")) each.addEventListener("click", () => asks({ from: each.dataset.from, to: "" }));
at("wider").addEventListener("click", () => asks({ from: "", to: "" }));
onNarrow((from, to) => asks({ from: stamp(from), to: stamp(to) }));
onFilter(filter, (id) => `?${words({ at: id })}`);
onField(path);
onChoose((text) => asks({ q: text }));

function density(full) {
  document.querySelector("main").classList.toggle("full", full);
  at("full").setAttribute("aria-pressed", String(full));
  at("compact").setAttribute("aria-pressed", String(!full));
  try { localStorage.setItem("density", full ? "full" : "compact"); } catch { /* it holds for this page */ }
}
at("full").addEventListener("click", () => density(true));
at("compact").addEventListener("click", () => density(false));
try { density(localStorage.getItem("density") === "full"); } catch { density(false); }

function help() {
  const hidden = at("help").hidden;
  at("help").hidden = !hidden;
  at("help-button").setAttribute("aria-expanded", String(hidden));
}
at("help-button").addEventListener("click", help);
document.addEventListener("keydown", (event) => {
  if (event.ctrlKey || event.metaKey || event.altKey) return;
  const typing = event.target instanceof HTMLInputElement;
  if (event.key === "/" && !typing) {
    event.preventDefault();
    input.focus();
    input.select();
  } else if (event.key === "?" && !typing) {
    help();
  } else if (event.key === "Escape") {
    event.preventDefault();
    switchHold();
  }
});
// a page that nobody sees holds no stream
document.addEventListener("visibilitychange", () => {
  if (document.hidden) {
    stream?.close();
    stream = null;
  } else if (!stream) {
    open();
  }
});
show();
open();
