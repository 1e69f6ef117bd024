// The fields of the matches, with their most frequent values: of the newest 1,000 matches, and of all once a field is unfolded.
import { ask, at, make, number, put } from "./parts.js";
import { signs } from "./rows.js";

const box = at("fields");
const open = new Set(["level", "source"]);
let path = () => "";

function valueOf(name, value, count, of) {
  const bar = make("i", "");
  bar.style.width = `${Math.max(1, Math.round((72 * count) / Math.max(of, 1)))}%`;
  const text = make("span", "", value);
  text.title = value;
  return make("li", "", bar, text, make("b", "", number(count)), ...signs(name, value));
}

async function countAll(field, list, note) {
  try {
    const { values } = await ask(path("/values", { name: field.name }));
    if (!values.length) return;
    const most = Math.max(...values.map((each) => each[1]));
    list.replaceChildren(...values.map(([value, count]) => valueOf(field.name, value, count, most)));
    put(note, "");
  } catch { /* the counts of the newest stay */ }
}

function fieldOf(field, of) {
  const list = make("ul", "", ...field.values.map(([value, count]) => valueOf(field.name, value, count, of)));
  const note = make("span", "", field.distinct > field.values.length ? `${number(field.distinct)} values` : "");
  const summary = make("summary", "", make("b", "", field.name), make("span", "", number(field.distinct)));
  summary.title = `${number(field.distinct)} values in ${number(field.in)} of ${number(of)} messages`;
  const item = make("details", "", summary, list);
  item.open = open.has(field.name);
  let counted = of < 1000;
  const unfold = () => {
    if (item.open && !counted) {
      counted = true;
      countAll(field, list, note);
    }
  };
  item.addEventListener("toggle", () => {
    if (item.open) open.add(field.name);
    else open.delete(field.name);
    unfold();
  });
  if (item.open) unfold();
  return item;
}

export function showFields({ of, fields }) {
  put(at("fields-of"), of < 1000 ? `of ${number(of)} matches` : "of the newest 1,000");
  box.replaceChildren(...fields.map((field) => fieldOf(field, of)));
}
export function onField(address) { path = address; }
const wide = matchMedia("(min-width: 62rem)");
const unfold = () => { at("fields-box").open = wide.matches; };
wide.addEventListener("change", unfold);
unfold();
