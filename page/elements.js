// Elements and pictures. A text becomes a text node, never HTML.

export const by = (id) => document.getElementById(id);

export function made(name, text = "", kind = "") {
  return Object.assign(document.createElement(name), { textContent: text, className: kind });
}

export function button(text, act) {
  return Object.assign(made("button", text), { type: "button", onclick: act });
}

// An element with a text in which code stands between backquotes.
export function rich(name, text) {
  const element = made(name);
  element.append(...text.split(/`(.*?)`/).map((piece, nth) => (nth % 2 ? made("code", piece) : piece)));
  return element;
}

// An element of a picture, with its attributes and its text or parts.
export function drawn(name, attributes, ...parts) {
  const element = document.createElementNS("http://www.w3.org/2000/svg", name);
  for (const [attribute, value] of Object.entries(attributes)) element.setAttribute(attribute, value);
  element.append(...parts);
  return element;
}
