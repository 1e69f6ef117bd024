// The column of watches: each with a bar for each second of the last minute.
import { ask, at, make, number, put, showRefusal, when } from "./parts.js";

const SVG = "http://www.w3.org/2000/svg";
const HEIGHT = 20;
const list = at("watches");
const input = at("watch");
const items = new Map();
const alarms = new Map();
let choose = () => {};

function barsOf(count) {
  const svg = document.createElementNS(SVG, "svg");
  svg.setAttribute("viewBox", `0 0 ${count} ${HEIGHT}`);
  svg.setAttribute("preserveAspectRatio", "none");
  svg.setAttribute("role", "img");
  for (let place = 0; place < count; place += 1) {
    const bar = document.createElementNS(SVG, "rect");
    bar.setAttribute("x", place + 0.1);
    bar.setAttribute("width", 0.8);
    svg.append(bar);
  }
  return svg;
}

function itemOf(watch) {
  const query = make("button", "query quiet", watch.name);
  const remove = make("button", "remove quiet", "×");
  const item = make("li", "", make("div", "top", query, make("b"), remove), barsOf(watch.counts.length), make("div", "told"));
  query.type = remove.type = "button";
  query.title = watch.query;
  query.setAttribute("aria-label", `Show the matches of ${watch.query}`);
  remove.setAttribute("aria-label", `Remove the watch ${watch.name}`);
  query.addEventListener("click", () => choose(watch.query));
  remove.addEventListener("click", async () => {
    await ask(`/watches/${watch.number}`, { method: "DELETE" }).catch(() => {});
    item.remove();
    items.delete(watch.number);
    input.focus();
  });
  return item;
}

function draw(item, watch) {
  const { counts } = watch;
  const sum = counts.reduce((all, each) => all + each, 0);
  const most = Math.max(1, ...counts);
  const svg = item.querySelector("svg");
  put(item.querySelector("b"), number(sum));
  svg.setAttribute("aria-label", `${number(sum)} matches in the last minute, at most ${number(Math.max(...counts))} in a second`);
  [...svg.children].forEach((bar, place) => {
    const height = (HEIGHT * counts[place]) / most;
    bar.setAttribute("y", HEIGHT - height);
    bar.setAttribute("height", height);
  });
  const rule = watch.most ? `alarm at ${number(watch.most)} within ${number(watch.seconds)} s` : "counts only";
  put(item.querySelector(".told"), watch.last ? `${rule}; ${number(watch.alarms)} so far, last ${when(watch.last)}` : rule);
  item.classList.toggle("alarm", watch.last !== null && Date.now() - watch.last < 60000);
  const told = alarms.get(watch.number);
  if (told !== undefined && watch.alarms > told && globalThis.Notification?.permission === "granted") {
    new Notification(`Earlybird: ${watch.name}`, { body: `${watch.query}: ${watch.most} within ${watch.seconds} s`, tag: String(watch.number) });
  }
  alarms.set(watch.number, watch.alarms);
}

export function showWatches(watches) {
  const there = new Set(watches.map((each) => each.number));
  for (const [known, item] of items) {
    if (there.has(known)) continue;
    item.remove();
    items.delete(known);
  }
  for (const watch of watches) {
    if (!items.has(watch.number)) {
      items.set(watch.number, itemOf(watch));
      list.append(items.get(watch.number));
    }
    draw(items.get(watch.number), watch);
  }
  put(at("watches-count"), watches.length ? number(watches.length) : "");
  }

export function onChoose(act) {
  choose = act;
}

const wide = matchMedia("(min-width: 62rem)");
const unfold = () => { at("watches-box").open = wide.matches; };
wide.addEventListener("change", unfold);
unfold();

input.addEventListener("input", () => showRefusal(input, at("watch-refusal"), null));
at("watching").addEventListener("submit", async (event) => {
  event.preventDefault();
  if (!input.value.trim()) return;
  try {
    const watch = { query: input.value, name: at("watch-name").value, most: Number(at("watch-most").value), seconds: Number(at("watch-seconds").value) };
    await ask("/watches", { method: "POST", body: JSON.stringify(watch) });
    showRefusal(input, at("watch-refusal"), null);
    input.value = at("watch-name").value = "";
    showWatches((await ask("/figures")).watches);
  } catch (refusal) {
    showRefusal(input, at("watch-refusal"), refusal);
  }
});

// a desktop notification wants somebody's word
const allow = at("allow");
const showAllow = () => { if (globalThis.Notification?.permission !== "default") put(allow, globalThis.Notification?.permission === "granted" ? "(allowed)" : "(not allowed)"); };
allow.addEventListener("click", async () => {
  await globalThis.Notification?.requestPermission();
  showAllow();
});
showAllow();
