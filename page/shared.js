// Elements, pictures and numbers.

const $ = (id) => document.getElementById(id);

function node(tag, attributes = {}, ...inside) {
  const made = document.createElement(tag);
  for (const [name, value] of Object.entries(attributes)) {
    if (value !== false && value !== undefined) made.setAttribute(name, value === true ? "" : value);
  }
  made.append(...inside.filter((part) => part !== null && part !== undefined && part !== false));
  return made;
}

const times = (n) => n === 1 ? "once" : n === 2 ? "twice" : n + " times";
const hex4 = (n) => "0x" + n.toString(16).padStart(4, "0");

const SVG = "http://www.w3.org/2000/svg";

function draw(tag, attributes = {}, ...inside) {
  const node = document.createElementNS(SVG, tag);
  for (const [name, value] of Object.entries(attributes)) node.setAttribute(name, value);
  node.append(...inside);
  return node;
}

// Control characters are shown as their pictures.
const shown = (text) => text.replace(/[\0-\x08\x0b-\x1f]/g, (c) => String.fromCharCode(0x2400 + c.charCodeAt(0))).replace(/\x7f/g, "\u2421");
const lines_of = (text) => text.replace(/\n$/, "").split("\n");
