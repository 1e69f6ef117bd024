// The strip of figures, the refused lines, and what is said of the index.
import { at, make, number, put, when } from "./parts.js";

const notice = at("notice");
const dismiss = notice.querySelector("button");
const why = at("why");
let unreachable = false;
let last = null;

const milliseconds = (value) => (value === null ? "–" : `${number(value, value < 10 ? 1 : 0)}`);

function say(text, starts) {
  notice.hidden = !text;
  put(notice.querySelector("span"), text);
  dismiss.hidden = !starts;
}

function showState(state) {
  const back = state.of ? `: ${number(state.fed)} of ${number(state.of)} messages are back` : "";
  if (unreachable) say("The console can't be reached. The page tries again.", 0);
  else if (state.index === "starting") say(state.starts ? `The index ended and is started again${back}.` : `The index is starting${back}.`, 0);
  else if (state.starts > 1 && sessionStorage.getItem("dismissed") !== String(state.at)) {
    say(`The index ended and was started again at ${when(state.at)}, with the ${number(state.fed)} messages that were kept.`, state.starts);
  } else say("", 0);
}

export function showFigures(told) {
  last = told;
  unreachable = false;
  const count = Object.values(told.refused).reduce((sum, each) => sum + each, 0);
  put(at("messages"), number(told.messages_per_second, told.messages_per_second < 10 ? 1 : 0));
  put(at("kept"), number(told.kept));
  put(at("times"), told.p50 === null ? "–" : `${milliseconds(told.p50)} / ${milliseconds(told.p99)} ms`);
  put(at("refused"), number(count));
  put(at("sources"), told.sources.join("  "));
  at("sources").title = told.sources.join("\n");
  why.hidden = count === 0;
  if (!at("reasons").hidden) showReasons();
  showState(told.state);
}

export function showUnreachable() {
  unreachable = true;
  showState(last?.state ?? { index: "running", starts: 0 });
}

function showReasons() {
  at("kinds").replaceChildren(...Object.entries(last.refused).map(([name, count]) => make("li", "", make("b", "", number(count)), " ", name)));
  at("refusals").replaceChildren(...[...last.refusals].reverse().map((each) =>
    make("tr", "", make("td", "", each.source), make("td", "", each.refused), make("td", "", each.text))));
}

why.addEventListener("click", () => {
  const open = at("reasons").hidden;
  if (open) showReasons();
  at("reasons").hidden = !open;
  why.setAttribute("aria-expanded", String(open));
});
dismiss.addEventListener("click", () => {
  sessionStorage.setItem("dismissed", last.state.at);
  showState(last.state);
});
