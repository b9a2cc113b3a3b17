// Goes through the examples of the laboratory, and compares what the page shows with what geos prints, and steps with those of its traces.
const differs = [];
let [runs, calls, struck] = [0, 0, 0];
// How many steps of a call are compared at most.
const MOST_COMPARED = 60;

// When the library has been loaded.
const loaded = () => new Promise((done) => {
  const look = () => (window.laboratory ? done(window.laboratory) : setTimeout(look, 20));
  look();
});

// When another page than the one that is shown now has been shown.
const next_page = () => new Promise((done) => {
  const frame = document.getElementById("explained");
  frame.contentWindow.is_old = true;
  const look = () => {
    const { contentWindow, contentDocument } = frame;
    const is_shown = !contentWindow.is_old && contentDocument?.getElementById("verdict")?.textContent;
    if (is_shown) done(contentDocument);
    else setTimeout(look, 20);
  };
  look();
});

// What the page printed, a line for each word.
const printed = () => [...document.querySelectorAll("#output li")].map((item) => {
  const said = item.querySelector(".printed")?.textContent ?? item.textContent;
  return said === "\u2013" ? "" : said.startsWith("refused") ? said + "\n" : said.split(" ").join("\n") + "\n";
}).join("");

function choose(name) {
  const list = document.getElementById("example");
  list.value = name;
  list.dispatchEvent(new Event("change"));
}

async function look_at(example) {
  const next = next_page();
  choose(example.name);
  const page = await next;
  const verdict = page.getElementById("verdict").textContent;
  if (verdict.split(/[:,]/)[0] !== example.verdict) differs.push(`${example.name}: ${verdict}`);
  if (document.getElementById("run").disabled !== (example.verdict !== "accepted")) differs.push(`${example.name}: the button`);
  if (example.verdict !== "accepted") return;
  document.getElementById("run").click();
  runs++;
  if (printed() !== example.printed) differs.push(`${example.name}: ${printed().slice(0, 40)}`);
  if (example.traced) step_through(example);
}

const steps_part = (selector) => document.querySelector("#steps " + selector);

// The words and counters that the steps show. A counter that is 0 may be left out.
function registers() {
  const shown = new Map([...steps_part(".registers").textContent.matchAll(/([wk]\d) (\d+)/g)].map(([, name, value]) => [name, +value]));
  return (letter, count) => Array.from({ length: count }, (_, n) => shown.get(letter + n) ?? 0).join();
}

function press(key) {
  steps_part(".slider").dispatchEvent(new KeyboardEvent("keydown", { key, bubbles: true, cancelable: true }));
}

// The text of the elements of the steps that a selector finds.
const said_by = (selector) => [...document.querySelectorAll("#steps " + selector)].map((one) => one.textContent);

// The bytes that a table shows. Rows that are left out are zeros.
function bytes_in(table) {
  const bytes = [];
  for (const row of table.rows) {
    const from = row.cells[0].textContent;
    if (/^\d+$/.test(from)) [...row.cells].slice(1, -1).forEach((cell, n) => { bytes[+from + n] = cell.textContent; });
  }
  return (from, count) => Array.from({ length: count }, (_, n) => bytes[from + n] ?? "00").join("");
}

// The blocks that the steps show, by their names: for each chunk its handle, its place in the region, its length and its bytes.
function blocks_shown() {
  return new Map([...document.querySelectorAll("#steps .block")].map((part) => {
    const [, name, place] = /^(.*): \d+ bytes at (\d+) /.exec(part.querySelector("h3").textContent);
    const bytes = bytes_in(part.querySelector("table"));
    const chunks = [...part.querySelectorAll(".chunks span")].map((one) => /(\d+): (\d+) bytes?(?: at (\d+))?/.exec(one.textContent).slice(1).map(Number));
    return [name, chunks.filter(([, len]) => len).map(([chunk, len, at]) => [chunk, +place + at, len, bytes(at, len)].join(" ")).join("; ")];
  }));
}

// What the steps show of slots, of pointers that are not stale, and of the blocks in slots.
function memory_shown() {
  const slots = said_by(".registers > span").flatMap((said) => /^s(\d) (.*)$/.exec(said) ? [said] : []);
  const pointers = said_by(".pointer:not(.stale)").map((said) => said.replace(/^(p\d) .*, at/, "$1 at"));
  const blocks = blocks_shown();
  const names = new Set(slots.map((said) => said.slice(3)));
  return [...slots, ...pointers, ...[...names].map((name) => `${name}: ${blocks.get(name)}`)].join(", ");
}

// The same from the page of `geos trace --html`.
function memory_traced({ steps, states, blocks, explained }, place) {
  const known = explained.split("\n").find((line) => line.startsWith(steps[place].line + "\t")).split(" ; ").pop();
  const [state, all] = [states[place], [0, 1, 2, 3]];
  const name = (owner, handle) => `block ${handle}${owner ? " of the file" : ""}`;
  const held = all.filter((n) => known.includes(`s${n}=`)).map((n) => [n, name(state[13 + 2 * n], state[14 + 2 * n])]);
  const good = all.filter((n) => known.includes(`p${n}=`)).map((n) => `p${n} at ${state[21 + 2 * n]}`);
  const chunks = (wanted) => blocks.filter(([step, owner, handle]) => step <= place && name(owner, handle) === wanted).pop()[5].filter(([, , len]) => len);
  return [...held.map(([n, said]) => `s${n} ${said}`), ...good, ...[...new Set(held.map(([, said]) => said))].map((said) => `${said}: ${chunks(said).map((chunk) => chunk.join(" ")).join("; ")}`)].join(", ");
}

// Whether the page shows what geos traced before a step, counted from 0.
function compare_step(name, traced, place) {
  const { steps } = traced;
  const now = document.getElementById("explained").contentDocument.querySelector(".lines .next .n")?.textContent;
  const wanted = place < steps.length ? String(steps[place].line) : undefined;
  if (now !== wanted) differs.push(`${name}: line ${now} instead of ${wanted} at step ${place}`);
  const said = `step ${place} of ${steps.length}`;
  if (steps_part(".slider").getAttribute("aria-valuetext") !== said || !steps_part(".place").textContent.toLowerCase().startsWith(said + ".")) differs.push(`${name}: ${said} is not said`);
  const of = registers();
  if (place && (of("w", 8) !== steps[place - 1].words.join() || of("k", 4) !== steps[place - 1].counters.join())) differs.push(`${name}: registers at step ${place}`);
  const output = steps.slice(0, place).filter(({ did }) => did.startsWith("out ")).map(({ did }) => did.slice(4));
  if ((steps_part(".out")?.textContent ?? "") !== ["output", ...output].join(" ").replace(/^output$/, "")) differs.push(`${name}: output at step ${place}`);
  if (place < steps.length && memory_shown() !== memory_traced(traced, place)) differs.push(`${name}: at step ${place} ${memory_shown()} instead of ${memory_traced(traced, place)}`);
  struck += document.querySelectorAll("#steps .pointer.stale s").length;
}

// Steps through the first call by keys and the slider, and plays all others.
function step_through({ name, traced }) {
  document.getElementById("step").click();
  const list = document.getElementById("call");
  if (document.activeElement !== steps_part(".slider")) differs.push(`${name}: the steps have no focus`);
  const { length } = traced.steps;
  if (!/^The proved machine/.test(steps_part(".note").textContent)) differs.push(`${name}: the page does not say whose steps it shows`);
  for (let place = 0; place <= Math.min(length, MOST_COMPARED); place++) {
    if (place) press("ArrowRight");
    compare_step(name, traced, place);
  }
  for (const [key, place] of [["End", length], ["ArrowRight", length], ["ArrowLeft", length - 1], ["Home", 0]]) {
    press(key);
    compare_step(name, traced, place);
  }
  steps_part(".slider").value = 1;
  steps_part(".slider").dispatchEvent(new Event("input"));
  compare_step(name, traced, 1);
  for (const { value } of list.options) {
    list.value = value;
    list.dispatchEvent(new Event("change"));
    calls++;
    if (steps_part(".bad")) differs.push(`${name}: ${steps_part(".bad").textContent}`);
    if (steps_part(".place")) press("End");
    else if (!/can't be lent/.test(document.getElementById("steps").textContent)) differs.push(`${name}: no steps of call ${value}`);
  }
}

// No steps of an old text stay.
function test_old_steps() {
  document.getElementById("script").dispatchEvent(new Event("input"));
  if (!document.getElementById("steps-part").hidden || steps_part(".play")) differs.push("old steps stay");
}

// Of a call with many steps, the page says how many it leaves out.
async function test_long_call() {
  const next = next_page();
  document.getElementById("language").value = "asm";
  document.getElementById("script").value = "call main";
  document.getElementById("text").value = "routine main public budget 20003\n        SETK k0 20000\na:      LOOP k0 a\n        RET\n";
  document.getElementById("language").dispatchEvent(new Event("change"));
  await next;
  document.getElementById("step").click();
  press("End");
  if (!/\b10000 of 20003 steps/.test(steps_part(".cut").textContent)) differs.push("steps that are left out");
  if (registers()("k", 1) !== "10001" || !steps_part(".place").textContent.startsWith("Step 10000 of 10000.")) differs.push(`the last step that is shown: ${steps_part(".place").textContent}`);
}

// A source with a fault is faulty at its line, and one without is accepted.
async function test_sources() {
  document.getElementById("language").value = "tkv";
  for (const [source, verdict] of [["pub fn f() {\n    out(n)?;\n}\n", "faulty at line 2"], ["pub fn f() {\n    out(2)?;\n}\n", "accepted"]]) {
    const next = next_page();
    document.getElementById("text").value = source;
    document.getElementById("language").dispatchEvent(new Event("change"));
    const page = await next;
    const said = document.getElementById("verdict").textContent;
    if (said !== verdict) differs.push(`${source}: ${said}`);
    const is_shown = page.body.textContent.includes(verdict === "accepted" ? "OUT" : "column 9");
    if (!is_shown) differs.push(`${source}: the page does not show it`);
  }
}

loaded().then(async (laboratory) => {
  const { texts, examples } = window.expected;
  for (const { name, text, explained } of texts) {
    document.getElementById("text").value = text;
    const { said, line } = laboratory.judge();
    const effects = line === 0 ? laboratory.effects().map((one) => `; effects of ${one.routine}: ${one.said}\n`).join("") : "";
    if (said + effects !== explained) differs.push(name);
  }
  for (const example of examples) await look_at(example);
  test_old_steps();
  await test_long_call();
  await test_sources();
  window.tell(`${texts.length} texts, ${examples.length} examples, ${runs} runs, ${calls} calls, ${struck ? "stale pointers" : "no stale pointer"}, ${differs.slice(0, 3).join("; ") || "all agree"}`);
}).catch((fault) => window.tell(`${fault}`));
