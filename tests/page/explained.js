// Looks through a page of `geos explain --html`, and puts what it finds in the place of the page.
const objects = window.objects;
const differs = [];
const text_of_node = (one) => (one ? one.textContent : "");
const faults = objects.filter((object) => object.kind === "error" || object.kind === "warning");
const plain = (text) => text.replace(/\s+/g, " ").trim();

// Each finding is there once, below its line, with its sentence.
const shown_findings = [...document.querySelectorAll(".finding")];
if (shown_findings.length !== faults.length) differs.push(`${shown_findings.length} findings of ${faults.length}`);
faults.forEach((finding, n) => {
  const item = document.getElementById("F" + n);
  const said = text_of_node(item?.querySelector(".said")) + (item?.querySelector(".cure") ? ": " + text_of_node(item.querySelector(".cure")) : "");
  if (plain(said) !== plain(window.shown_as(finding.message))) differs.push(`finding ${n}: ${said}`);
  let line = item?.previousElementSibling;
  while (line?.classList.contains("finding")) line = line.previousElementSibling;
  const place = objects[0].shows === "listing" ? finding.pc : finding.line;
  if (place !== null && text_of_node(line?.querySelector(".n")) !== String(place)) differs.push(`place of finding ${n}`);
});

// Lines are those that the program printed, with what it knows there.
const printed = window.text.replace(/\n$/, "").split("\n");
const rows = [...document.querySelectorAll(".lines > li:not(.finding)")];
const known = rows.map((row) => [...row.querySelectorAll(".known, .steps")].map(text_of_node).join(", ").replace(/^, /, ""));
const wanted = printed.filter((line) => / ; [^;]*\bsteps?$/.test(line)).map((line) => line.split(" ; ").pop().replace(/^\S+ \d+: /, ""));
const found = known.filter((one) => one);
if (found.join("\n") !== wanted.map((one) => one.replace(/,? ?([^,]*steps?)$/, (all, steps, at) => (at ? ", " : "") + steps)).join("\n")) differs.push(`known: ${found[0]}`);

// Effects, graphs and links.
for (const { routine, effects } of objects.filter((object) => object.kind === "effects")) {
  const part = document.querySelector(`[data-routine="${CSS.escape(routine)}"]`);
  const tags = [...(part?.querySelectorAll(".effect") ?? [])].map(text_of_node).join();
  if (tags !== effects && !(effects === "none" && tags === "no effects")) differs.push(`effects of ${routine}: ${tags}`);
}
const code = rows.filter((row) => row.querySelector(".steps")).length;
const drawn = document.querySelectorAll("svg .row-text").length;
if (objects[0].shows !== "faulty" && code !== drawn) differs.push(`${drawn} instructions are drawn of ${code}`);
const lost = [...document.querySelectorAll('a[href^="#"]')].filter((link) => !document.getElementById((link.getAttribute("href")).slice(1)));
if (lost.length) differs.push(`${lost.length} links lead nowhere`);

// The key N goes from finding to finding, and from the last one to the first.
const times = [];
const presses = shown_findings.length ? Math.max(10, Math.min(shown_findings.length, 20)) : 0;
for (let n = 0; n < presses; n++) {
  const from = performance.now();
  document.dispatchEvent(new KeyboardEvent("keydown", { key: "n", bubbles: true }));
  document.body.getBoundingClientRect();
  times.push(performance.now() - from);
  if (document.activeElement !== shown_findings[n % shown_findings.length]) differs.push("key N");
}
// The processor may be busy, so the quickest key counts.
const quick = (!times.length || Math.min(...times) < 50) ? "quick" : "slow";
window.tell(`${rows.length} lines, ${drawn} instructions, ${shown_findings.length} findings, ${differs.slice(0, 3).join("; ") || "all agree"}, ${quick}`);
