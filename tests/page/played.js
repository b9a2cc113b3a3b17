// Plays the refused routines of a page of `geos explain --html`, and puts what the page says in its place.
const wrong = [];
const plain = (one) => (one ? one.innerText.replace(/\s+/g, " ").trim() : "nothing");
const in_part = (part, selector) => part.querySelector(selector);
const press = (node, key) => node.dispatchEvent(new KeyboardEvent("keydown", { key, bubbles: true, cancelable: true }));

// The colours of a style sheet's palette, by their names; the second one is the dark one.
function palettes() {
  const rules = [...document.styleSheets].flatMap((sheet) => [...sheet.cssRules]);
  const dark = rules.filter((rule) => rule instanceof CSSMediaRule && /dark/.test(rule.conditionText)).flatMap((rule) => [...rule.cssRules]);
  return [rules, dark].map((from) => from.find((rule) => rule.selectorText === ":root").style);
}

// The brightness of a colour, as contrasts are defined by it.
function brightness(colour) {
  const made = document.body.appendChild(document.createElement("i"));
  made.style.color = colour;
  const parts = getComputedStyle(made).color.match(/[\d.]+/g).slice(0, 3).map((part) => part / 255);
  made.remove();
  const [r, g, b] = parts.map((part) => part <= 0.04045 ? part / 12.92 : ((part + 0.055) / 1.055) ** 2.4);
  return 0.2126 * r + 0.7152 * g + 0.0722 * b;
}

function contrast(one, other) {
  const [low, high] = [brightness(one), brightness(other)].sort((a, b) => a - b);
  return (high + 0.05) / (low + 0.05);
}

const PAIRS = [["--ink", "--card"], ["--ink", "--bad-wash"], ["--bad", "--card"], ["--bad", "--bad-wash"], ["--warm", "--card"], ["--warm", "--warm-wash"], ["--good", "--card"], ["--soft", "--card"]];

// Whether what a play shows can be read, in light and in dark colours.
function test_colours() {
  for (const [n, palette] of palettes().entries()) {
    const colour = (name) => palette.getPropertyValue(name).trim();
    const hues = [...document.styleSheets].flatMap((sheet) => [...sheet.cssRules]).filter((rule) => /^\.hue\d$/.test(rule.selectorText ?? ""));
    const backs = hues.map((rule) => ["--ink", rule.style.background.replace("var(--chunk)", colour("--chunk"))]);
    for (const [front, back] of [...PAIRS, ...backs]) {
      const ratio = contrast(colour(front), back.startsWith("--") ? colour(back) : back);
      if (!(ratio >= 4.5)) wrong.push(`${front} on ${back} in palette ${n}: ${ratio}`);
    }
  }
}

// The play of a routine by the keyboard: opens it before its first step, goes to its end, back and on, and returns what the page says at the end.
function play(button) {
  button.focus();
  if (document.activeElement !== button || button.tabIndex !== 0) wrong.push("the button has no focus");
  button.click();
  const panel = in_part(button.parentNode, ".play");
  const status = in_part(panel, ".place");
  const [, last] = /^Step 0 of (\d+)\. (?:Before the first step|A fault)/.exec(status.textContent) ?? [];
  const at = (place) => { if (!status.textContent.startsWith(`Step ${place} of ${last}.`)) wrong.push(`step ${place} is missing: ${status.textContent}`); };
  if (!panel.contains(document.activeElement)) wrong.push("the panel has no focus");
  for (const [key, place] of [["End", +last], ["ArrowLeft", Math.max(0, last - 1)], ["ArrowRight", +last], ["Home", 0], ["ArrowLeft", 0], ["End", +last], ["ArrowRight", +last]]) {
    press(document.activeElement, key);
    at(place);
  }
  // Each step is drawn once.
  press(document.activeElement, "Home");
  for (let place = 0; place < Math.min(last, 50); place++) press(document.activeElement, "ArrowRight");
  press(document.activeElement, "End");
  if (!/not the machine/.test(in_part(panel, ".note").textContent)) wrong.push("the page does not say that it is a picture");
  return panel;
}

function told_of(part) {
  const panel = play(in_part(part, ".play-button"));
  const words = in_part(panel, "input").value;
  const fault = in_part(panel, ".fault");
  const moved = [...new Set([...plain(in_part(panel, ".place")).matchAll(/chunk \d+ of block \d+ (?:of the file )?moved from \d+ to \d+/g)].map(([one]) => one))];
  const rows = fault ? [...fault.querySelectorAll("tbody tr")].map((row) => [...row.cells].map(plain).join(", ")) : [];
  const said = fault ? [...fault.querySelectorAll("p")].map(plain) : [plain(in_part(panel, ".place"))];
  return [part.dataset.routine + (words && ` ${words}`), ...said, ...rows, ...moved].join(" / ");
}

const parts = [...document.querySelectorAll(".routine")].filter((part) => in_part(part, ".play-button"));
const told = parts.map(told_of);
const typed = in_part(document, ".play input");
if (typed) {
  typed.value = "1 x";
  in_part(document, ".play form").requestSubmit();
  if (plain(in_part(document, ".play .wrong")) !== "'x' is no number") wrong.push("words that are no numbers");
}
test_colours();
window.tell(`${told.join(" // ") || "no play"}, ${wrong.slice(0, 3).join("; ") || "all agree"}`);
