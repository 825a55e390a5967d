// A run as a message sequence chart: a lane downwards for each task, a row for each stamp, an arrow for each message.
import { drawn } from "./elements.js";

const LANE = 150, ROW = 30, LEFT = 80, TOP = 30, FOOT = 70, MOST_EVENTS = 1500, LONGEST = 22;
// The colours of channels, by their numbers, and of what belongs to none. In the dark page.css has others for their classes.
const COLOURS = ["#155f9c", "#a0480e", "#0b6b34", "#7a3e9d", "#a0173a", "#4d6a00", "#006d77", "#7d5200"];
const INK = "#1c1c1c", SOFT = "#5a6070", RED = "#b3162a";

// What a report says: its events, its channels with what passed, which task waits where, and all tasks.
export function read(report) {
  const run = { events: [], channels: new Map(), waits: new Map(), tasks: new Set(["0"]) };
  for (const line of report.split("\n")) {
    const [kind, ...words] = line.split(" ");
    if (kind === "event") run.events.push({ stamp: Number(words[0]), kind: words[1], who: words.slice(2) });
    if (kind === "waiting") run.waits.set(words[0], `${words[2]} ${words[3]}`);
    if (kind === "channel") run.channels.set(words[0], { type: behind(words), colour: run.channels.size % COLOURS.length });
    if (kind === "history") Object.assign(run.channels.get(words[0]), history(behind(words)));
  }
  for (const { kind, who } of run.events) if (kind === "fork") run.tasks.add(who[1]);
  for (const task of run.waits.keys()) run.tasks.add(task);
  nameMessages(run);
  return run;
}

// What stands behind a name and a colon.
const behind = (words) => words.slice(2).join(" ");

// What passed, a character in one piece though it may be a space, and what lies unread behind it.
function history(text) {
  const all = text.match(/[!?]'.+?'(?=\s|$)|\S+/g) ?? [], end = all.indexOf("unread");
  return end < 0 ? { passed: all, unread: [] } : { passed: all.slice(0, end), unread: all.slice(end + 1) };
}

function nameMessages(run) {
  const met = new Map();
  for (const event of run.events.filter((it) => it.kind === "meet")) {
    const channel = event.who[0], nth = met.get(channel) ?? 0;
    met.set(channel, nth + 1);
    event.text = (run.channels.get(channel)?.passed[nth] ?? "").replace(/^[!?+&]/, "");
  }
}

// How many messages have passed over each channel up to a stamp.
export function passedUntil(run, stamp) {
  const counts = new Map([...run.channels.keys()].map((channel) => [channel, 0]));
  for (const event of run.events) {
    if (event.kind === "meet" && event.stamp <= stamp) counts.set(event.who[0], counts.get(event.who[0]) + 1);
  }
  return counts;
}

// Where everything stands. Without `own` the steps that a task makes alone are left out. Where two arrows of one stamp would
// cross, each has a row.
export function layout(run, own) {
  const tasks = [...run.tasks].sort(byPath), lanes = new Map(tasks.map((task, nth) => [task, nth]));
  const wanted = run.events.filter((event) => own || event.kind !== "local"), rows = [];
  const events = wanted.slice(0, MOST_EVENTS).map((event) => {
    const across = event.who.filter((it) => lanes.has(it)).map((it) => lanes.get(it));
    return { ...event, row: rowFor(rows, event.stamp, Math.min(...across), Math.max(...across)) };
  });
  const stamps = [...new Set(rows.map((it) => it.stamp))];
  return { run, tasks, lanes, events, rows, stamps, left: wanted.length - events.length };
}

function byPath(one, two) {
  const [a, b] = [one.split(".").map(Number), two.split(".").map(Number)];
  const nth = a.findIndex((number, at) => number !== b[at]);
  return nth < 0 || nth >= b.length ? a.length - b.length : a[nth] - b[nth];
}

function rowFor(rows, stamp, from, to) {
  let nth = rows.findLastIndex((row) => row.stamp !== stamp) + 1;
  while (rows[nth]?.spans.some(([first, last]) => from <= last && first <= to)) nth++;
  rows[nth] ??= { stamp, spans: [] };
  rows[nth].spans.push([from, to]);
  return nth + 1;
}

export const rowsUntil = (plan, stamp) => plan.rows.filter((row) => row.stamp <= stamp).length;
export const heightOf = (row) => TOP + ROW * row;
const laneOf = (plan, task) => LEFT + LANE * plan.lanes.get(task);

// The picture of what has happened up to a stamp.
export function picture(plan, stamp) {
  const width = 2 * LEFT + LANE * (plan.tasks.length - 1), height = heightOf(plan.rows.length) + FOOT;
  const font = { "font-family": "sans-serif", "font-size": 12 };
  const svg = drawn("svg", { width, height, viewBox: `0 0 ${width} ${height}`, ...font });
  const now = { stamp, rows: rowsUntil(plan, stamp), isEnd: stamp >= (plan.stamps.at(-1) ?? 0) && !plan.left };
  const events = plan.events.filter((event) => event.row <= now.rows);
  const messages = events.filter((event) => event.kind === "meet").length;
  svg.append(drawn("title", {}, `Tasks: ${plan.tasks.length}. Messages: ${messages}.`));
  svg.append(drawn("rect", { class: "paper", width, height, fill: "white" }));
  for (const task of plan.tasks) svg.append(...lane(plan, task, now));
  for (const event of events) svg.append(DRAW[event.kind](plan, event, now));
  return svg;
}

function group(kind, color, ...parts) {
  return drawn("g", { class: kind, color, fill: "currentColor", stroke: "currentColor" }, ...parts);
}

function line(x1, y1, x2, y2, more = {}) {
  return drawn("line", { x1, y1, x2, y2, "stroke-width": 1.5, ...more });
}

// A text with the paper around its letters, so that what it stands on doesn't hide it.
function label(x, y, text, anchor = "middle") {
  const short = text.length > LONGEST ? `${text.slice(0, LONGEST - 1)}…` : text;
  const around = { stroke: "white", "stroke-width": 4, "stroke-linejoin": "round", "paint-order": "stroke" };
  return drawn("text", { class: "label", x, y, "text-anchor": anchor, ...around }, short, drawn("title", {}, text));
}

// A lane begins at its fork, and goes to the row that is reached, or to the last event of its task: behind that it has an end, or
// says where its task waits.
function lane(plan, task, now) {
  const own = plan.events.filter((event) => event.who.includes(task));
  const fork = own.find((event) => event.kind === "fork" && event.who[1] === task);
  if (task !== "0" && (!fork || fork.row > now.rows)) return [];
  const x = laneOf(plan, task), top = heightOf(fork?.row ?? 0), last = own.at(-1)?.row ?? 0, waits = plan.run.waits.get(task);
  const done = last <= now.rows && !plan.left, foot = heightOf(done ? last : now.rows) + 16;
  const parts = [group("lane", SOFT, line(x, top, x, foot)), head(x, top, task)];
  if (waits && now.isEnd) parts.push(waiting(x, foot, heightOf(now.rows) + 40, waits));
  if (done && !waits) parts.push(group("lane", SOFT, line(x - 7, foot, x + 7, foot, { "stroke-width": 3 })));
  return parts;
}

function waiting(x, top, foot, where) {
  const dashed = { "stroke-dasharray": "4 4", "stroke-width": 2 };
  return group("waits", RED, line(x, top, x, foot, dashed), label(x, foot + 16, `waits at ${where}`));
}

const nameOf = (task) => (task === "0" ? "main 0" : task);
const widthOf = (task) => 7 * nameOf(task).length + 14;

function head(x, y, task) {
  const width = widthOf(task), box = { class: "paper", x: x - width / 2, y: y - 10, width, height: 20, rx: 4, fill: "white" };
  const name = drawn("text", { x, y: y + 4, "text-anchor": "middle", stroke: "none" }, nameOf(task));
  return group("ink", INK, drawn("rect", box), name);
}

function arrow(from, to, y, more) {
  const side = Math.sign(to - from), tip = { d: `M${to} ${y}l${-9 * side} -5v10z`, stroke: "none" };
  return [line(from, y, to - 8 * side, y, more), drawn("path", tip)];
}

const strong = (event, now) => ({ "stroke-width": event.stamp === now.stamp ? 3 : 1.5 });

const DRAW = {
  meet(plan, event, now) {
    const [channel, sender, receiver] = event.who, { colour } = plan.run.channels.get(channel);
    const from = laneOf(plan, sender), to = laneOf(plan, receiver), side = Math.sign(to - from), y = heightOf(event.row);
    const words = label((from + to) / 2, y - 6, plan.run.channels.size > 1 ? `${event.text} (${channel})` : event.text);
    const parts = arrow(from + 3 * side, to - 2 * side, y, strong(event, now));
    return group(`message colour${colour}`, COLOURS[colour], ...parts, words);
  },
  fork(plan, event, now) {
    const [from, to] = event.who.map((task) => laneOf(plan, task)), more = { ...strong(event, now), "stroke-dasharray": "4 3" };
    const edge = (Math.sign(to - from) * widthOf(event.who[1])) / 2;
    return group("fork", SOFT, ...arrow(from, to - edge, heightOf(event.row), more));
  },
  new(plan, event) {
    const [task, channel] = event.who, { colour } = plan.run.channels.get(channel);
    const x = laneOf(plan, task), y = heightOf(event.row);
    const words = label(x + 10, y + 4, `new ${channel}`, "start");
    return group(`new colour${colour}`, COLOURS[colour], drawn("circle", { cx: x, cy: y, r: 5 }), words);
  },
  local(plan, event) {
    return group("lane", SOFT, drawn("circle", { cx: laneOf(plan, event.who[0]), cy: heightOf(event.row), r: 2.5 }));
  },
};
