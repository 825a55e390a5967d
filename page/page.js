// The page: it asks the server that has served it, which calls the program, and shows what is answered.
import { advice, channelItems, faultItems, headline, judgement, traceOf } from "./answer.js";
import { heightOf, layout, passedUntil, picture, read, rowsUntil } from "./chart.js";
import * as editor from "./editor.js";
import { by, made, rich } from "./elements.js";

const NUMBERS = ["budget", "steps", "buffer", "workers"], SWITCHES = ["events", "proof"];
const PAUSE = 400, LONGEST_LINK = 100000, LONGEST_BODY = 8000000, LONGEST_SHOWN = 200000;
let groups = [], plan = null, certificate = "", asking = false, again = false, typing = 0, pointing = 0, pointed = 0;

async function call(path, question) {
  const asked = { method: "POST", headers: { "Content-Type": "application/json" }, body: JSON.stringify(question) };
  if (asked.body?.length > LONGEST_BODY) throw new Error("the text is too long");
  const reply = await fetch(path, question ? asked : {}).catch(() => {
    throw new Error("the server gives no answer: is ./playground still there?");
  });
  if (!reply.ok) throw new Error((await reply.text()).trim());
  return reply.json();
}

// The command and its options.

const command = () => document.querySelector("[name=command]:checked").value;

function choose(name) {
  document.querySelector(`[name=command][value=${name}]`).checked = true;
  adapt();
}

// Shows the options of the command alone. A buffer stands neither with workers nor with events.
function adapt() {
  for (const it of document.querySelectorAll("[data-for]")) it.hidden = !it.dataset.for.split(" ").includes(command());
  for (const id of ["workers", "events"]) by(id).disabled = by("buffer").value !== "";
}

function words() {
  const name = command(), all = [name];
  const number = (id, other = "") => { const value = by(id).value || other; if (value) all.push(`--${id}=${value}`); };
  if (["check", "run", "equiv"].includes(name)) number("budget");
  if (name === "run") {
    number("steps", by("steps").placeholder);
    number("buffer");
    if (!by("buffer").value) {
      number("workers");
      if (by("events").checked) all.push("--events");
    }
  }
  if (name === "equiv" && by("proof").checked) all.push("--proof");
  return all;
}

// Asking. One question is on its way at a time, and behind it the newest one.

async function ask() {
  clearTimeout(typing);
  again = asking;
  if (asking) return;
  asking = true;
  setBusy(true);
  try {
    do {
      again = false;
      keepInAddress();
      const asked = words(), text = editor.text(), reply = await answerTo({ words: asked, text });
      if (!again) show(asked, reply, text);
    } while (again);
  } finally {
    asking = false;
    setBusy(false);
  }
}

const setBusy = (busy) => by("found").setAttribute("aria-busy", busy);

async function answerTo(question) {
  const wrong = NUMBERS.find((id) => question.words.some((word) => word.startsWith(`--${id}=`)) && !by(id).checkValidity());
  try {
    if (wrong) throw new Error(`${wrong}: ${by(wrong).validationMessage}`);
    return await call("ask", question);
  } catch (error) {
    return { status: -1, text: error.message, stopped: null, faults: [] };
  }
}

function show(asked, reply, text) {
  tell(headline(asked[0], reply), [...traceOf(reply.text), ...advice(reply)], faultItems(reply.faults, editor.visit));
  showWhole(asked, reply);
  showRun(asked[0] === "run" && !reply.stopped && reply.text.startsWith("result ") ? read(reply.text) : null);
  if (text === editor.text()) editor.paint(reply.faults);
}

// Shows a headline, and what is told below it, in place of what stood there.
function tell([kind, words, code], more = [], faults = []) {
  by("answer").className = kind;
  by("answer").replaceChildren(words, ...(code === undefined ? [] : [made("code", code)]));
  by("trace").replaceChildren(...more);
  by("faults").replaceChildren(...faults);
  for (const id of ["protocol", "chart", "audit", "draw-question"]) by(id).hidden = true;
  by("channels").replaceChildren();
}

function showWhole(asked, { text, faults }) {
  const lines = text.trimEnd().split("\n").length;
  by("shell").textContent = `./freest ${asked.join(" ")} < FILE`;
  by("said").textContent = text.length > LONGEST_SHOWN ? `${text.slice(0, LONGEST_SHOWN)}…` : text;
  by("whole").open = lines > 1 && asked[0] !== "run";
  certificate = asked.includes("--proof") && lines > 1 ? text : "";
  by("audit").hidden = !certificate;
  by("draw-question").hidden = asked[0] !== "equiv" || faults.length > 0;
}

// A run: the chart as far as the slider goes, and the channels with what passed until then.

function showRun(run) {
  by("chart").hidden = !run?.events.length;
  if (run) newLayout(run);
}

function newLayout(run) {
  plan = layout(run, by("own").checked);
  by("until").max = plan.stamps.length;
  by("until").value = plan.stamps.length;
  showUntil();
}

function showUntil() {
  const count = Number(by("until").value), isEnd = count === plan.stamps.length, stamp = count ? plan.stamps[count - 1] : 0;
  const svg = picture(plan, stamp), told = `${stamp} of ${plan.stamps.at(-1) ?? 0}`;
  svg.setAttribute("role", "img");
  by("lanes").replaceChildren(svg, ...(plan.left ? [made("p", `${plan.left} more events aren't drawn.`)] : []));
  by("now").textContent = told;
  by("until").setAttribute("aria-valuetext", `stamp ${told}`);
  by("save").href = `data:image/svg+xml;charset=utf-8,${encodeURIComponent(new XMLSerializer().serializeToString(svg))}`;
  by("channels").replaceChildren(...channelItems(plan.run.channels, passedUntil(plan.run, stamp), isEnd, drawType));
}

// Brings the row that is reached into view.
function scrollToRow() {
  const box = by("lanes");
  box.scrollTop = heightOf(rowsUntil(plan, plan.stamps[by("until").value - 1] ?? 0)) - box.clientHeight / 2;
}

// The type at the cursor, and protocols as pictures.

async function showType() {
  const mine = ++pointed, text = editor.text(), alias = editor.aliasAtCursor();
  const found = alias ? { name: alias } : await call("type", { ...editor.placeOfCursor(), text }).catch(() => null);
  if (mine !== pointed) return;
  by("type").textContent = alias ? `type ${alias}` : found ? `${found.name} : ${found.type}` : "";
  by("draw").hidden = !alias && !isProtocol(found?.type ?? "");
  by("draw").onclick = () => (alias ? drawProtocol({ alias, text }) : drawType(found.type));
}

const isProtocol = (type) => /[!?+&]|Close|Wait/.test(type) && !/->|^forall/.test(type);

// The variables of a type as the program writes them, `a1`, `a2`, .., bound in front of it.
function withVariables(type) {
  const variables = [...new Set(type.match(/\ba\d+\b/g))];
  return variables.length ? `forall ${variables.map((name) => `${name}:1S`).join(", ")}. ${type}` : type;
}

const drawType = (type) => drawProtocol({ text: withVariables(type) });

async function drawProtocol(question) {
  const box = by("protocol");
  try {
    const { svg } = await call("draw", question);
    const image = made("img"), save = made("a", "Save SVG");
    URL.revokeObjectURL(box.querySelector("a")?.href);
    image.src = save.href = URL.createObjectURL(new Blob([svg], { type: "image/svg+xml" }));
    image.alt = `Protocol ${question.alias ?? question.text}`;
    save.download = "protocol.svg";
    await image.decode();
    box.replaceChildren(image, save);
  } catch (error) {
    box.replaceChildren(made("p", error.message));
  }
  box.hidden = false;
  box.scrollIntoView({ block: "nearest" });
}

// Examples, exercises and links: all that is asked stands in the fragment of the address.

function keepInAddress() {
  const kept = new URLSearchParams({ command: command() });
  for (const id of NUMBERS) if (by(id).value) kept.set(id, by(id).value);
  for (const id of SWITCHES) if (by(id).checked !== by(id).defaultChecked) kept.set(id, by(id).checked ? "yes" : "no");
  if (by("examples").value) kept.set("example", by("examples").value);
  kept.set("text", editor.text());
  const fits = `${kept}`.length <= LONGEST_LINK;
  history.replaceState(null, "", fits ? `#${kept}` : location.pathname);
  return fits;
}

function open() {
  const kept = new URLSearchParams(location.hash.slice(1));
  if (!kept.has("text")) return take(kept.get("example")) || take("message.fst") || choose("check");
  for (const id of NUMBERS) by(id).value = kept.get(id) ?? "";
  for (const id of SWITCHES) by(id).checked = kept.has(id) ? kept.get(id) === "yes" : by(id).defaultChecked;
  introduce(example(kept.get("example")));
  begin(["check", "run", "equiv", "show", "audit"].find((name) => name === kept.get("command")) ?? "check", kept.get("text"));
}

const example = (name) => groups.flatMap(([, items]) => items).find((it) => it.name === name);

function take(name) {
  const found = example(name);
  if (!found) return false;
  for (const id of NUMBERS) by(id).value = "";
  introduce(found);
  begin(found.command, found.text);
  return true;
}

function introduce(found) {
  by("examples").value = found?.name ?? "";
  by("task").replaceChildren(...rich("p", found?.about ?? "").childNodes);
  by("judge").hidden = !found?.exercise;
}

function begin(name, text) {
  choose(name || "equiv");
  editor.write(text);
  editor.paint([]);
  if (isAsked()) return ask();
  tell(["open", "write your answers into the text, and ask whether it is solved"]);
  setBusy(false);
}

// Whether the text is asked about by itself. That of some exercises is no program and no question.
const isAsked = () => example(by("examples").value)?.command !== "";

async function judge() {
  const { exercise } = example(by("examples").value);
  setBusy(true);
  try {
    const fault = await call("judge", { exercise, text: editor.text() });
    tell(fault ? ["open", "not solved"] : ["good", "solved"], judgement(fault));
  } catch (error) {
    tell(["open", error.message]);
  }
  setBusy(false);
}

function list(items) {
  by("examples").replaceChildren(new Option("(your own)", ""), ...items.map(([label, examples]) => {
    const group = Object.assign(made("optgroup"), { label });
    group.append(...examples.map((it) => new Option(it.name, it.name)));
    return group;
  }));
}

async function copyLink() {
  const fits = keepInAddress(), copied = fits && await navigator.clipboard.writeText(location.href).then(() => true, () => false);
  by("linked").textContent = copied ? "copied" : fits ? "the link is in the address bar" : "the text is too long for a link";
}

function answerInView() {
  ask();
  by("answer").scrollIntoView({ block: "nearest" });
}

function listen() {
  by("text").addEventListener("input", () => {
    editor.paint([]);
    clearTimeout(typing);
    if (by("live").checked && isAsked()) typing = setTimeout(ask, PAUSE);
  });
  document.addEventListener("selectionchange", () => {
    clearTimeout(pointing);
    if (editor.hasCursor() && ["check", "run", "show"].includes(command())) pointing = setTimeout(showType, PAUSE);
  });
  document.addEventListener("keydown", (event) => {
    if (event.key !== "Enter" || !(event.ctrlKey || event.metaKey)) return;
    event.preventDefault();
    answerInView();
  });
  for (const it of document.querySelectorAll("#commands input, #options input")) {
    it.addEventListener("change", () => { adapt(); ask(); });
  }
  by("until").addEventListener("input", () => { showUntil(); scrollToRow(); });
  by("own").addEventListener("input", () => newLayout(plan.run));
  by("ask").addEventListener("click", answerInView);
  by("link").addEventListener("click", copyLink);
  by("judge").addEventListener("click", judge);
  by("audit").addEventListener("click", () => begin("audit", certificate));
  by("draw-question").addEventListener("click", () => drawProtocol({ text: editor.text() }));
  by("examples").addEventListener("change", () => take(by("examples").value) || introduce());
  window.addEventListener("hashchange", open);
}

async function start() {
  listen();
  adapt();
  try {
    const found = await call("start");
    groups = found.groups;
    list(groups);
    by("about").textContent = found.about;
    open();
  } catch (error) {
    by("answer").textContent = error.message;
  }
}

start();
