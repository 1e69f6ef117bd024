// Small things of the page. What comes from messages becomes text, never markup.

export const at = (id) => document.getElementById(id);

export const number = (value, digits = 0) =>
  value.toLocaleString("en", { minimumFractionDigits: digits, maximumFractionDigits: digits });

const two = (value) => String(value).padStart(2, "0");
export const day = (ms) => { const d = new Date(ms); return `${d.getFullYear()}-${two(d.getMonth() + 1)}-${two(d.getDate())}`; };
export const clock = (ms) => { const d = new Date(ms); return `${two(d.getHours())}:${two(d.getMinutes())}:${two(d.getSeconds())}`; };
export const when = (ms) => `${day(ms)} ${clock(ms)}`;
const thousandths = (ms) => (ms % 1000 ? `.${String(ms % 1000).padStart(3, "0")}` : "");
export const exactly = (ms) => when(ms) + thousandths(ms);

// a time as the console reads it, of this browser's zone
export function stamp(ms) {
  const away = -new Date(ms).getTimezoneOffset();
  const zone = `${away < 0 ? "-" : "+"}${two(Math.floor(Math.abs(away) / 60))}:${two(Math.abs(away) % 60)}`;
  return `${day(ms)}T${clock(ms)}${thousandths(ms)}${zone}`;
}

// a length of time in words
export function length(ms) {
  for (const [name, size] of [["d", 86400000], ["h", 3600000], ["min", 60000], ["s", 1000]]) if (ms >= size) return `${number(ms / size, ms % size ? 1 : 0)} ${name}`;
  return `${number(ms)} ms`;
}

// ids have 63 bits: compared as texts
export const later = (one, other) => (one.length - other.length) || (one > other ? 1 : one < other ? -1 : 0);

// an element with a class, texts and elements within it
export function make(name, kind, ...inner) {
  const element = document.createElement(name);
  if (kind) element.className = kind;
  element.append(...inner);
  return element;
}

export function button(kind, text, act, label) {
  const element = make("button", kind, text);
  element.type = "button";
  if (label) {
    element.setAttribute("aria-label", label);
    element.title = label;
  }
  element.addEventListener("click", (event) => {
    event.stopPropagation();
    act(event);
  });
  return element;
}

// puts a text where it isn't yet, so that nothing is said or drawn again for no change
export function put(element, text) {
  if (element.textContent !== text) element.textContent = text;
}

// asks the console: its value, or an error with its name and, for a query, the column
export async function ask(path, options) {
  let answer;
  try {
    answer = await fetch(path, options);
  } catch (fault) {
    if (fault.name === "AbortError") throw fault;
    throw { error: "the console can't be reached" };
  }
  const value = await answer.json().catch(() => ({ error: `the console answered ${answer.status}` }));
  if (!answer.ok) throw value;
  return value;
}

// shows a refusal under a box: its name, and a mark under the column
export function showRefusal(input, line, refusal) {
  const mirror = input.parentElement.querySelector(".mirror");
  const column = refusal?.column;
  input.setAttribute("aria-invalid", refusal ? "true" : "false");
  put(line, refusal ? `${refusal.error}${column ? ` at ${column}` : ""}${refusal.why ? `: ${refusal.why}` : ""}` : "");
  mirror.hidden = !column;
  if (column) {
    mirror.firstElementChild.textContent = [...input.value].slice(0, column - 1).join("");
    mirror.scrollLeft = input.scrollLeft;
  }
}
