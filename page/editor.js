// The editor: a text area whose letters are transparent, above the same text in colours, with line numbers beside it.
// Places are as the program tells them: a line and a column from 1, the column counted in bytes.
import { by, made } from "./elements.js";

const TOKEN = /--.*|'(?:\\.|[^'\\\n])'|[\p{L}_][\p{L}\p{M}\p{N}\p{Pc}']*|\d+|\s+|./gu;
const WORDS = new Set("data type forall rec match with case of let in if then else not".split(" "));
const MOVES = new Set("new send receive select fork close wait".split(" "));
const MOST_COLOURED = 200000;
const area = by("text");

function colour(token) {
  if (token.startsWith("--")) return "comment";
  if (WORDS.has(token)) return "word";
  if (MOVES.has(token)) return "move";
  if (/^\d|^'/.test(token)) return "value";
  return /^[A-Z!?]/.test(token) ? "type" : "";
}

export const text = () => area.value;

export function write(all) {
  area.value = all;
  area.setSelectionRange(0, 0);
  area.scrollTo(0, 0);
}

export function offsetOf(line, column) {
  const lines = text().split("\n");
  const before = lines.slice(0, line - 1).reduce((sum, it) => sum + it.length + 1, 0);
  const bytes = new TextEncoder().encode(lines[line - 1] ?? "").slice(0, column - 1);
  return Math.min(before + new TextDecoder().decode(bytes).length, text().length);
}

export function placeOfCursor() {
  const lines = text().slice(0, area.selectionStart).split("\n");
  return { line: lines.length, column: new TextEncoder().encode(lines.at(-1)).length + 1 };
}

// The name at the cursor where it is one of a type that the text declares, or nothing.
export function aliasAtCursor() {
  const at = area.selectionStart, declared = [...text().matchAll(/^type\s+([A-Z][\p{L}\p{N}_']*)/gmu)].map((it) => it[1]);
  const before = /[\p{L}\p{N}_']*$/u.exec(text().slice(0, at))[0], behind = /^[\p{L}\p{N}_']*/u.exec(text().slice(at))[0];
  return declared.find((name) => name === before + behind);
}

export const hasCursor = () => document.activeElement === area;

export function visit(line, column) {
  const at = offsetOf(line, column);
  area.focus();
  area.setSelectionRange(at, at);
  const height = parseFloat(getComputedStyle(area).lineHeight);
  area.scrollTop = Math.max(0, (line - 4) * height);
}

// Shows the text in colours. A mark has a line, a column and a phrase.
export function paint(marks) {
  const places = new Map(marks.map((mark) => [offsetOf(mark.line, mark.column), mark.phrase]));
  by("colours").replaceChildren(coloured(text(), places));
  by("numbers").replaceChildren(numbers(text().split("\n").length, new Set(marks.map((mark) => mark.line))));
  follow();
}

function coloured(all, places) {
  const parts = document.createDocumentFragment();
  const tokens = all.length > MOST_COLOURED ? [{ 0: all, index: 0 }] : all.matchAll(TOKEN);
  for (const { 0: token, index } of tokens) {
    const place = [...places.keys()].find((at) => at >= index && at < index + token.length);
    parts.append(place === undefined ? plain(token) : marked(token, places.get(place)));
  }
  if (places.has(all.length)) parts.append(marked(" ", places.get(all.length)));
  parts.append("\n");
  return parts;
}

function plain(token) {
  const kind = colour(token);
  return kind ? made("span", token, kind) : token;
}

function marked(token, phrase) {
  return Object.assign(made("mark", token, colour(token)), { title: phrase });
}

function numbers(count, markedLines) {
  const parts = document.createDocumentFragment();
  let unmarked = "";
  for (let line = 1; line <= count; line++) {
    if (markedLines.has(line)) {
      parts.append(unmarked, made("span", `${line}`, "marked"));
      unmarked = "\n";
    } else {
      unmarked += `${line}\n`;
    }
  }
  parts.append(unmarked);
  return parts;
}

function follow() {
  by("colours").style.transform = `translate(${-area.scrollLeft}px, ${-area.scrollTop}px)`;
  by("numbers").style.transform = `translateY(${-area.scrollTop}px)`;
}

// A new line begins with the spaces of the one above it, as a declaration that goes on has to begin with one.
function indent(event) {
  if (event.key !== "Enter" || event.ctrlKey || event.metaKey || event.isComposing) return;
  const line = text().slice(0, area.selectionStart).split("\n").at(-1);
  event.preventDefault();
  document.execCommand("insertText", false, `\n${/^ */.exec(line)[0]}`);
}

area.addEventListener("scroll", follow);
area.addEventListener("keydown", indent);
