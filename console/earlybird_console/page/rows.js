// The list of messages, newest first by their own times: what a search found, and what came since.
import { ask, at, button, clock, exactly, later, make, put, stamp, when } from "./parts.js";

const LEAST = 200;
const MOST = 1000;
const list = at("matches");
const shown = new Map();
const since = new Set();
let filter = () => {};
let link = () => "";

// a text, counted in characters, with the words that matched set off, and the members behind the message softer
function textOf({ text, marks, main }) {
  const chars = [...text];
  const pieces = [make("span", ""), make("span", "members")];
  let place = 0;
  const add = (to, marked) => {
    while (place < to) {
      const stop = place < main ? Math.min(main, to) : to;
      const piece = chars.slice(place, stop).join("");
      pieces[place < main ? 0 : 1].append(marked ? make("mark", "", piece) : piece);
      place = stop;
    }
  };
  for (const [from, to] of marks) {
    add(from, false);
    add(to, true);
  }
  add(chars.length, false);
  return pieces;
}

const short = { critical: "CRIT", error: "ERROR", warning: "WARN", notice: "NOTICE", info: "INFO", debug: "DEBUG", trace: "TRACE" };

// whether a query can ask for a name
export const canAsk = (name) => /^[^\s()":-][^\s()":]*(:[^\s()":]+)*$/.test(name);

// what a query asks for a member with
export function quoted(name, value) {
  return `${name}:${/[\s()":]/.test(value) || !value ? `"${value.replaceAll('"', "'")}"` : value}`;
}

// the buttons that filter a value in and out
export function signs(name, value) {
  if (!canAsk(name)) return [];
  return [button("sign", "+", () => filter(quoted(name, value)), `Only messages with ${name}:${value}`),
    button("sign", "−", () => filter(`-${quoted(name, value)}`), `No messages with ${name}:${value}`)];
}

async function openRow(item, match) {
  item.classList.add("open");
  const more = make("div", "more");
  item.append(more);
  const members = make("tbody", "");
  for (const [name, value] of [...Object.entries(match.fields), ["source", match.source]]) {
    members.append(make("tr", "", make("td", "", ...signs(name, value)), make("td", "", name), make("td", "", value)));
  }
  const around = make("ol", "around");
  around.hidden = true;
  const line = make("pre", "");
  let size = 10;
  const tell = async () => {
    try {
      const told = await ask(`/context?id=${match.id}&n=${size}`);
      put(line, told.line);
      around.replaceChildren(...told.around.map((each) => {
        const row = make("li", each.id === match.id ? "it" : "", make("time", "", `${clock(each.at)} `), each.text);
        return row;
      }));
    } catch (fault) { put(line, fault.error); }
  };
  const context = button("quiet", "Lines around it", () => {
    if (!around.hidden) size = Math.min(size * 2, 200);
    around.hidden = false;
    put(context, "More of them");
    tell();
  });
  const copy = button("quiet", "Copy the line", async () => {
    await navigator.clipboard?.writeText(line.textContent).catch(() => {});
    put(copy, "Copied");
  });
  const address = make("a", "", "Link");
  address.href = link(match.id);
  const only = button("quiet", "This minute", () => filter("", match.at - 30000, match.at + 30000), "A minute around it, of all sources");
  more.append(make("div", "", `${exactly(match.at)} · `, make("span", "soft", new Date(match.at).toISOString()), " ", context, only, copy, address),
    around, make("table", "", members), line);
  await tell();
}

function toggle(item, match) {
  if (item.classList.contains("open")) {
    item.classList.remove("open");
    item.querySelector(".more").remove();
  } else openRow(item, match);
}

function itemOf(match) {
  const time = make("time", "", when(match.at));
  time.dateTime = stamp(match.at);
  time.title = new Date(match.at).toISOString();
  const text = make("span", "text", ...textOf(match));
  text.dir = "auto";
  const row = make("div", "row", time, make("span", "level", short[match.level] ?? ""), make("span", "source", match.source), text);
  row.tabIndex = 0;
  row.setAttribute("role", "button");
  row.setAttribute("aria-label", `${when(match.at)} ${match.level ?? ""} ${match.source} ${match.text.slice(0, 200)}`);
  const item = make("li", match.level ?? "", row);
  item.dataset.id = match.id;
  item.dataset.marks = String(match.marks);
  row.addEventListener("click", () => { if (!String(getSelection())) toggle(item, match); });
  row.addEventListener("keydown", (event) => {
    if (event.key !== "Enter" && event.key !== " ") return;
    event.preventDefault();
    toggle(item, match);
  });
  return item;
}

function keepItem(match) {
  if (!shown.has(match.id)) shown.set(match.id, itemOf(match));
  return shown.get(match.id);
}

function arrange() {
  const order = [...shown.keys()].sort((one, other) => later(other, one));
  list.replaceChildren(...order.map((id) => shown.get(id)));
}

// from here on all that comes belongs to another search
export function begin() { since.clear(); }

// shows what a search found in place of what is shown, but for what came since it began
export function showFound(matches) {
  const found = new Map(matches.map((each) => [each.id, each]));
  for (const [id, item] of [...shown]) {
    const match = found.get(id);
    // (what another search set off is shown anew)
    if (match ? item.dataset.marks !== String(match.marks) : !since.has(id)) shown.delete(id);
  }
  matches.forEach(keepItem);
  arrange();
}

// puts matches that came into their places; where others came between and aren't told, those below go. Whether some went.
export function putIn(matches, all, most) {
  const before = shown.size;
  if (!all) shown.clear();
  for (const match of matches) {
    if (shown.has(match.id)) continue;
    keepItem(match).classList.add("fresh");
    since.add(match.id);
  }
  const room = Math.min(Math.max(most, LEAST), MOST);
  const order = [...shown.keys()].sort((one, other) => later(other, one));
  order.slice(room).forEach((id) => shown.delete(id));
  if (!all || matches.length > 20) arrange();
  else {
    // (only what is new is moved, so that an open message keeps its place)
    order.slice(0, room).forEach((id, place) => {
      if (list.children[place] !== shown.get(id)) list.insertBefore(shown.get(id), list.children[place] ?? null);
    });
    while (list.children.length > shown.size) list.lastElementChild.remove();
  }
  return order.length > room || (!all && before > 0);
}

export const count = () => shown.size;
export const anyOpen = () => list.querySelector("li.open") !== null;
export function openFirst(id) {
  const item = shown.get(id);
  if (!item) return false;
  item.querySelector(".row").click();
  item.scrollIntoView({ block: "center" });
  return true;
}
export function onFilter(act, address) { filter = act; link = address; }
