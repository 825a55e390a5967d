// What an answer of the program means: its first line in words, its faults, its trace and its channels, as elements.
import { button, made, rich } from "./elements.js";

const LONGEST = 1000, MOST_CHANNELS = 100;
const PLACE = /^(refused|undecided|limit) (\d+):(\d+) (.*)$/;
const DIFFERENT = /^no (.*) (left|right)$/;
const UNEQUAL = /^refused .* type .* wanted .* word (.*) (left|right)$/;

// What the statuses mean of which the first line says nothing, or too little.
const STATUS = {
  2: "a number is out of its range",
  4: "out of steps: the run has more events than that",
  6: "reading failed",
  7: "writing failed",
  9: "out of memory, which says nothing of the text",
};
const STOPPED = {
  clock: "stopped: it took too long",
  processor: "stopped: it took too much time of the processor",
  output: "stopped: the answer is too long",
};
const MORE = {
  3: "Nothing wrong has passed, but these tasks wait for a partner that doesn't come:",
  4: "The run may be long, or never end: look for a recursion without an end, or give more steps.",
  5: "That says nothing of the two types: a larger budget may decide it, up to 10000.",
};

const firstLine = (text) => text.split("\n", 1)[0];
const clipped = (text) => (text.length > LONGEST ? `${text.slice(0, LONGEST)}…` : text);

// The answer in one line: how it looks, its words, and a code behind them. What stands behind a place is told with the fault.
export function headline(command, { status, text, stopped }) {
  const first = firstLine(text), place = PLACE.exec(first), different = DIFFERENT.exec(first);
  if (stopped) return ["open", STOPPED[stopped] ?? text];
  if (place) return [place[1] === "refused" ? "bad" : "open", `${place[1]} at line ${place[2]}, column ${place[3]}`];
  if (different) return ["open", `no: just the ${different[2]} type performs `, clipped(different[1])];
  if (command === "run" && first.startsWith("result ")) {
    const value = clipped(first.slice("result ".length));
    return status === 3 ? ["open", "the run has ended, and tasks wait; result ", value] : ["good", "result ", value];
  }
  if (status !== 0) return ["open", STATUS[status] ?? (clipped(first) || `no answer, and the status ${status}`)];
  if (command === "show") return ["good", "read; this is its canonical text"];
  return ["good", command === "equiv" && first !== "yes" ? "yes, and this certificate shows it" : clipped(first)];
}

// Whether an exercise is solved, and otherwise what shows that it isn't.
export function judgement(fault) {
  if (!fault) return [];
  const parts = { Tried: fault.tried, Came: fault.came, Wanted: fault.wanted };
  return Object.entries(parts).map(([name, text]) => {
    const line = rich("p", text);
    line.prepend(made("b", `${name}: `));
    return line;
  });
}

// What to do about an answer that is neither a yes nor a fault, and which tasks wait.
export function advice({ status, text, stopped }) {
  if (stopped || !MORE[status]) return [];
  const waits = [...text.matchAll(/^waiting (\S+) at (\S+ \S+)$/gm)].slice(0, MOST_CHANNELS);
  return [made("p", MORE[status]), ...waits.map(([, task, where]) => rich("p", `\`${task}\` waits at \`${where}\``))];
}

// Each fault with its place, what it means and what mends it.
export function faultItems(faults, visit) {
  return faults.map(({ kind, line, column, phrase, means }) => {
    const item = made("li");
    item.append(button(`line ${line}, column ${column}`, () => visit(line, column)), ` ${kind} `, made("code", phrase));
    for (const [cause, cure] of means) {
      item.append(rich("p", cause));
      if (cure) item.append(cureOf(cure));
    }
    return item;
  });
}

function cureOf(cure) {
  const element = rich("p", cure);
  element.className = "cure";
  element.prepend(made("b", "Cure: "));
  return element;
}

// The least trace that just one of two types performs, in a no or in a refusal: a line for each type.
export function traceOf(text) {
  const question = DIFFERENT.exec(firstLine(text)), fault = UNEQUAL.exec(firstLine(text));
  if (!question && !fault) return [];
  const [, labels, side] = question ?? fault, [one, two] = question ? ["left", "right"] : ["found", "wanted"];
  const steps = clipped(labels).split(" ");
  return [
    made("p", "The least trace that just one of the two types performs:"),
    traceLine(one, steps, side === "left"),
    traceLine(two, steps, side === "right"),
  ];
}

function traceLine(name, steps, performs) {
  const line = made("p", "", "steps");
  line.append(made("b", `${name} `));
  steps.forEach((step, nth) => {
    const missing = nth === steps.length - 1 && !performs;
    line.append(nth ? " → " : "", missing ? "not " : "", made("code", step, missing ? "missing" : ""));
  });
  return line;
}

// Each channel with its type and a button to draw it, its history as far as it is shown, and at the end what lies unread in it.
export function channelItems(channels, counts, isEnd, draw) {
  const items = [...channels].slice(0, MOST_CHANNELS).map(([name, { type, colour, passed, unread }]) => {
    const item = made("li"), show = button("Draw", () => draw(type));
    show.setAttribute("aria-label", `Draw the protocol of ${name}`);
    item.append(made("b", name, `colour${colour}`), " : ", made("code", type), " ", show);
    item.append(historyLine(isEnd ? passed : passed.slice(0, counts.get(name)), isEnd ? unread : []));
    return item;
  });
  const more = channels.size - items.length;
  return more ? [...items, made("li", `${more} more channels stand in the whole answer`)] : items;
}

function historyLine(passed, unread) {
  const line = made("p", "", "steps");
  const spaced = (entry, kind) => [made("code", entry, kind), " "];
  const add = (entries, kind) => line.append(...entries.slice(0, LONGEST).flatMap((entry) => spaced(entry, kind)));
  if (!passed.length) line.append("nothing passed ");
  add(passed, "");
  if (passed.length > LONGEST) line.append("… ");
  if (unread.length) line.append("unread ");
  add(unread, "unread");
  return line;
}
