// Goes through a page of a run, and puts what it finds in the place of the page.
const run = JSON.parse(document.getElementById("run").textContent);
const player = window.player;
const differs = [];
const times = [];

const cut = document.getElementById("cut").textContent;

const register = (name) => document.querySelector(`[data-register="${name}"]`).childNodes[1].textContent;
const words = () => run.states[0].slice(1, 9).map((_, n) => +register("w" + n));

function press(key) {
  const from = performance.now();
  document.dispatchEvent(new KeyboardEvent("keydown", { key, bubbles: true }));
  // Makes the browser lay out the page.
  document.body.getBoundingClientRect();
  times.push(performance.now() - from);
}

function compare(place) {
  const state = run.states[Math.min(place, run.states.length - 1)];
  const line = run.text ? null : String(state[0]);
  const current = document.querySelector('[aria-current="step"] .n')?.textContent;
  const is_line = place >= run.states.length || current === run.traced.split("\n")[place].split(/\s/)[0];
  if (words().join() !== state.slice(1, 9).join()) differs.push(`words at ${place}`);
  if (!is_line) differs.push(`line at ${place}: ${current} and ${line}`);
  for (const frame of document.querySelectorAll("#region .frame")) look_at_frame(frame, place + run.skipped);
}

// A frame is dashed if its block is not locked, and double if its block is one of the file.
function look_at_frame(frame, step) {
  if (frame.style.display === "none") return;
  const [name] = frame.querySelector("title").textContent.split(",");
  const [, owner, , locks] = run.blocks.filter(([n, owner, handle]) => n <= step && (owner ? "file block " : "block ") + handle === name).pop();
  const [outer, inner] = [...frame.querySelectorAll("rect")].map((rect) => getComputedStyle(rect));
  if ((outer.strokeDasharray !== "none") !== (locks === 0) || (inner.display !== "none") !== (owner === 1)) differs.push(`the frame of ${name} at ${step}`);
}

// The places of a block in the run.
function places_of(name) {
  const rows = run.blocks.filter(([, owner, handle]) => (owner ? "file block " : "block ") + handle === name);
  return new Set(rows.map((row) => row[6]));
}

// A stale pointer is struck out, and the page says that its chunk is freed if a locked block has it no more.
function look_at_stale(cell) {
  const [, chunk, name] = /chunk (\d+) of ((?:file )?block \d+)/.exec(cell.querySelector("s")?.textContent ?? "") ?? [];
  const [, , , locks, , chunks] = run.blocks.filter(([n, owner, handle]) => n <= player.place + run.skipped && (owner ? "file block " : "block ") + handle === name).pop() ?? [];
  const is_freed = locks > 0 && !chunks.some(([handle]) => handle === +chunk);
  if (!chunk || is_freed !== cell.textContent.includes("freed its chunk")) differs.push(`stale: ${cell.textContent}`);
}

// Each step in the list at the top is one after which the page says the same, and blocks were at both places.
function look_at_moments() {
  for (const item of document.querySelectorAll("#moments li")) {
    const button = item.querySelector("button");
    if (!button) continue;
    button.click();
    const said = item.textContent.slice(button.textContent.length).trim().split("; ");
    const done = document.getElementById("done").textContent;
    if (button.textContent !== document.getElementById("where").textContent.split(" of ")[0] || !said.every((part) => done.includes(part))) differs.push(`${item.textContent}: ${done}`);
    for (const [, name, from, to] of item.textContent.matchAll(/((?:file )?block \d+) moved from (\d+) to (\d+)/g)) {
      if (!places_of(name).has(+from) || !places_of(name).has(+to)) differs.push(item.textContent);
    }
    const stale = said.flatMap((part) => /^(p\d(?:, p\d)*) (?:is|are) stale/.exec(part)?.[1].split(", ") ?? []);
    for (const name of stale) look_at_stale(document.querySelector(`[data-register="${name}"]`));
  }
}

function walk() {
  // Steps on and back from some places, or through all of a short run.
  const last = player.run.last;
  const every = Math.max(1, Math.floor(last / 60));
  for (let place = 0; place < last; place += every) {
    player.go(place);
    compare(place);
    press("ArrowRight");
    compare(place + 1);
    press("ArrowLeft");
    compare(place);
  }
  press("End");
  compare(last);
  const output = [...document.querySelectorAll("#output span")].map((span) => span.textContent).join();
  const outputs = run.skipped ? run.output.slice(run.output.length - player.run.words.length) : run.output;
  if (player.run.whole && output !== outputs.join()) differs.push("output");
  if (run.states.length < run.steps && !cut.includes(`${run.skipped + 1} to ${run.skipped + run.states.length} of ${run.steps}`)) differs.push("what is left out");
  look_at_moments();
  press("Home");
  const can = document.querySelectorAll("#lines .can");
  can[can.length - 1].click();
  if (player.place === 0 && can.length > 1) differs.push("a click on a line");
  times.sort((a, b) => a - b);
  // The processor may be busy, so the quickest tenth counts.
  const least = times[Math.floor(times.length / 10)];
  const quick = least < 50 ? "quick" : `slow: ${least} ms`;
  window.tell(`${last} places, ${differs.slice(0, 3).join("; ") || "all agree"}, ${quick}`);
}

if (run.states.length) walk();
else window.tell(`0 places, ${cut}`);
