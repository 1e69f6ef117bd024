// The time axis: a click takes a bar as the range, a drag takes several; by keys the arrows choose a bar, with Shift several, and Enter takes them.
import { at, clock, day, length, make, number, put, when } from "./parts.js";

const SVG = "http://www.w3.org/2000/svg";
const chart = at("chart");
let shown = null;
let narrow = () => {};
// the bars that keys have chosen: where they began, and where they are
let anchor = null;
let cursor = null;

function draw(name, marks) {
  const element = document.createElementNS(SVG, name);
  for (const [key, value] of Object.entries(marks)) element.setAttribute(key, value);
  return element;
}

const label = (ms, step) => (step >= 86400000 ? day(ms) : step >= 60000 ? clock(ms).slice(0, 5) : step >= 1000 ? clock(ms) : `${clock(ms)}.${String(ms % 1000).padStart(3, "0")}`);

export function showHistogram(told) {
  shown = told;
  anchor = cursor = null;
  const { counts, first, step } = told;
  const most = Math.max(1, ...counts);
  const size = counts.length || 1;
  const svg = draw("svg", { viewBox: `0 0 ${size} 100`, preserveAspectRatio: "none", role: "img",
    "aria-label": `${number(told.total)} matches in ${size} bars of ${length(step)}, at most ${number(most)} in one` });
  counts.forEach((count, place) => {
    const height = count ? Math.max((count / most) * 96, 2) : 0;
    svg.append(draw("rect", { class: "bar", x: place + 0.06, width: 0.88, y: 100 - height, height }));
  });
  svg.append(draw("rect", { class: "at", y: 0, height: 100, width: 0 }), draw("rect", { class: "dragged", y: 0, height: 100, width: 0 }));
  const labels = [];
  const apart = size / Math.max(2, Math.floor(chart.clientWidth / 150));
  const every = [1, 2, 5, 10, 15, 20, 30, 60].find((each) => each >= apart) ?? Math.ceil(apart);
  const many = step * size > 86400000 && step < 86400000;
  for (let place = 0; place < size; place += every) {
    const ms = first + place * step;
    if (place && place > size - every * 0.6) break;
    const element = make("span", "label", many ? `${day(ms).slice(5)} ${clock(ms).slice(0, 5)}` : label(ms, step));
    element.style.left = `${(100 * place) / size}%`;
    labels.push(element);
  }
  const bar = make("span", "told");
  bar.setAttribute("role", "status");
  bar.hidden = true;
  chart.replaceChildren(svg, ...labels, make("span", "most", counts.length ? number(most) : ""), bar);
  put(at("total"), `${number(told.total)} ${told.total === 1 ? "match" : "matches"}`);
  put(at("span"), `${when(told.from)} to ${when(told.to)} · a bar is ${length(step)}`);
}

function placeOf(event) {
  const box = chart.getBoundingClientRect();
  const size = shown.counts.length || 1;
  return Math.min(Math.max(Math.floor(((event.clientX - box.left) / box.width) * size), 0), size - 1);
}

let begun = null;
function mark(kind, one, other) {
  const rect = chart.querySelector(`rect.${kind}`);
  rect.setAttribute("x", Math.min(one, other));
  rect.setAttribute("width", Math.abs(one - other) + 1);
}
function tell(place) {
  const told = chart.querySelector(".told");
  const { counts, first, step } = shown;
  told.hidden = false;
  put(told, `${when(first + place * step)} + ${length(step)}: ${number(counts[place] ?? 0)}`);
  const left = ((place + 0.5) / counts.length) * 100;
  told.style.left = left < 60 ? `${left}%` : "auto";
  told.style.right = left < 60 ? "auto" : `${100 - left}%`;
}
chart.addEventListener("pointerdown", (event) => {
  if (!shown?.counts.length || event.button) return;
  begun = placeOf(event);
  chart.setPointerCapture(event.pointerId);
});
chart.addEventListener("pointermove", (event) => {
  if (!shown?.counts.length) return;
  const place = placeOf(event);
  mark("at", place, place);
  tell(place);
  if (begun !== null) mark("dragged", begun, place);
});
function leave() {
  chart.querySelectorAll("rect.at, rect.dragged").forEach((each) => each.setAttribute("width", 0));
  const told = chart.querySelector(".told");
  if (told) told.hidden = true;
  anchor = cursor = null;
}
chart.addEventListener("pointerleave", leave);
chart.addEventListener("blur", leave);
function take(one, other) {
  const [from, to] = [Math.min(one, other), Math.max(one, other) + 1];
  narrow(Math.max(shown.first + from * shown.step, shown.from), Math.min(shown.first + to * shown.step, shown.to));
}
chart.addEventListener("pointerup", (event) => {
  if (begun === null) return;
  const place = placeOf(event);
  take(begun, place);
  begun = null;
});
chart.addEventListener("keydown", (event) => {
  if (!shown?.counts.length) return;
  const step = { ArrowLeft: -1, ArrowRight: 1 }[event.key];
  if (step) {
    event.preventDefault();
    const last = shown.counts.length - 1;
    cursor = cursor === null ? last : Math.min(Math.max(cursor + step, 0), last);
    if (!event.shiftKey || anchor === null) anchor = cursor;
    mark("dragged", anchor, cursor);
    tell(cursor);
  } else if (event.key === "Enter" && cursor !== null) {
    event.preventDefault();
    take(anchor, cursor);
  }
});
chart.addEventListener("pointercancel", () => { begun = null; });
export function onNarrow(act) { narrow = act; }
