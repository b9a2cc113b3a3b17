// The page.

const explained = new Explained($("text").textContent, lines_of($("data").textContent).map((line) => JSON.parse(line)));
const is_listing = explained.page.shows === "listing";
const place_word = is_listing ? "pc" : "line";
const program = program_of(explained);

// A text in which places of other lines are links.
function linked(text) {
  return shown(text).split(/(\b(?:lines?|LOOP|CALL) \d+\b)/).map((part) => {
    const found = /^lines? (\d+)$/.exec(part);
    const line = found && !is_listing ? explained.by_number.get(found[1]) : null;
    return line ? node("a", { href: "#" + line.id }, part) : part;
  });
}

function finding_item(finding) {
  const { message, cure, rule } = finding;
  const is_parted = cure && message.endsWith(": " + cure);
  const said = is_parted ? message.slice(0, -cure.length - 2) : message;
  const name = rule || (finding.kind === "warning" ? "warning" : "fault");
  return node("li", { class: "finding " + finding.kind, id: finding.id, tabindex: "-1" },
    node("span", { class: "rule" }, name), " ", node("span", { class: "said" }, ...linked(said)),
    is_parted ? node("span", { class: "cure" }, ...linked(cure)) : null,
    RULES[rule] ? node("small", { class: "means" }, [`${rule} requires: ${RULES[rule]}.`, MEANINGS[rule]].join(" ").trim()) : null);
}

// The line of a routine, with its name in bold.
function code_cell(line) {
  if (!line.routine) return code_of(line.code);
  const [, before, rest] = /^(\s*routine\s+)(.*)$/s.exec(line.code) || [null, line.code, ""];
  const name = line.routine.name;
  return node("span", { class: "code" }, before, node("b", {}, shown(name)), ...code_of(rest.slice(name.length)).childNodes);
}

function line_items(line) {
  const kind = line.findings.some((f) => f.kind === "error") ? "refused" : line.causes.length ? "cause" : line.findings.length ? "warned" : false;
  const why = line.causes.map((f) => node("a", { href: "#" + f.id }, `${place_word} ${f.at ? f.at.number : ""}`));
  const links = why.length ? node("span", { class: "why" }, "why ", ...why.flatMap((link, n) => n ? [", ", link] : [link]), " is refused") : null;
  const remarks = line.steps ? [known_of(line.known), node("span", { class: "steps" }, line.steps)] : [];
  const kinds = [kind, !line.steps && "plain"].filter((name) => name).join(" ");
  const item = node("li", { id: line.number ? line.id : false, class: kinds || false },
    node("span", { class: "n" }, line.number), code_cell(line), ...remarks, links);
  return [item, ...line.findings.map(finding_item)];
}

function loop_item({ head, end, counter, steps, most }) {
  const each = steps === null ? "" : `: ${steps} step${steps === 1 ? "" : "s"} an iteration`;
  const often = most === null ? "" : `, at most ${most} iteration${most === 1 ? "" : "s"}`;
  return node("li", {}, node("b", {}, `${place_word}s ${head.number}\u2013${end.number}`), ` loop by ${counter}${each}${often}`);
}

function graph_part(routine, labels) {
  const graph = new Graph(routine, labels);
  if (!graph.code.length) return null;
  const loops = graph.loops.length ? node("ul", { class: "loops", "aria-label": "Loops" }, ...graph.loops.map(loop_item)) : null;
  const kinds = new Set(graph.edges.map((edge) => edge.kind));
  const key = [["jump", "jump"], ["refusal", "if refused"], ["loop", "loop"]].filter(([kind]) => kinds.has(kind));
  const open = window.innerWidth > 900 || explained.routines.length === 1;
  return node("aside", {}, node("details", { open }, node("summary", {}, "Control flow"), loops, graph.svg,
    node("p", { class: "key", "aria-hidden": "true" }, ...key.map(([kind, said]) => node("span", { class: kind }, said)))));
}

const tag = (text, kind = "") => node("span", { class: ("tag " + kind).trim() }, text);

function routine_part(routine, labels) {
  const effects = explained.effects.get(routine.name);
  const tags = [routine.is_public ? tag("public", "held") : null, routine.budget ? tag("budget " + shown(routine.budget)) : null,
    ...(effects === undefined ? [] : effects.split(",").map((effect) => tag(effect === "none" ? "no effects" : effect, "effect")))];
  const heading = routine.name ? node("h2", {}, shown(routine.name), ...tags) : null;
  const lines = node("ol", { class: "lines", "aria-label": "Lines, with what is known before each instruction, and the steps that are left" }, ...routine.lines.flatMap(line_items));
  const play = program && play_part(program, routine);
  return node("section", { class: "routine", "data-routine": routine.name }, heading, play, node("div", { class: "pair" }, lines, graph_part(routine, labels)));
}

const counted = (n, word) => `${n} ${word}${n === 1 ? "" : "s"}`;

function show_verdict() {
  const errors = explained.findings.filter((f) => f.kind === "error").length + explained.more;
  const warnings = explained.findings.length - explained.findings.filter((f) => f.kind === "error").length;
  const is_faulty = explained.page.shows === "faulty";
  const said = is_faulty ? `not assembled: ${counted(errors, "fault")}` : errors ? `refused: ${counted(errors, "finding")}` : "accepted";
  $("verdict").textContent = said + (warnings ? `, ${counted(warnings, "warning")}` : "");
  $("verdict").className = errors ? "bad" : warnings ? "warm" : "good";
  const legend = legend_of(explained.lines).join("; ");
  $("about").textContent = is_faulty ? "" : `Beside each instruction is what the verifier knows before it runs, and how many steps are left at most.${legend && ` ${legend}.`}`;
}

// The most findings in the list at the top.
const MOST_LISTED = 12;

function list_findings() {
  const items = explained.findings.slice(0, MOST_LISTED).map((f) => node("li", { class: f.kind }, node("a", { href: "#" + f.id },
    node("span", { class: "place" }, f.at ? `${place_word} ${f.at.number}` : "text"), node("span", { class: "rule" }, f.rule || ""),
    node("span", { class: "said" }, shown(f.message.split(": ")[0])))));
  const rest = explained.findings.length - items.length;
  if (rest > 0) items.push(node("li", { class: "rest quiet" }, `${rest} more, at their lines`));
  if (explained.more > 0) items.push(node("li", { class: "rest quiet" }, `${explained.more} more, which the page leaves out`));
  if (explained.findings.length > 1) $("findings").replaceChildren(node("ol", {}, ...items));
  $("findings").hidden = explained.findings.length < 2;
}

// Goes to the next or the previous finding.
function go_along(is_on) {
  const items = [...document.querySelectorAll(".finding")];
  const now = items.indexOf(document.activeElement);
  const next = items[now < 0 ? is_on ? 0 : items.length - 1 : (now + (is_on ? 1 : items.length - 1)) % items.length];
  next?.focus({ preventScroll: true });
  next?.scrollIntoView({ block: "center" });
}

function show_page() {
  document.title = "geos explain \u2013 " + shown(explained.page.file);
  $("name").textContent = shown(explained.page.file);
  const labels = new Set(explained.lines.flatMap((line) => line.labels));
  $("help").hidden = explained.findings.length < 2;
  const loose = explained.findings.filter((finding) => !finding.at);
  const top = loose.length ? node("ol", { class: "lines" }, ...loose.map(finding_item)) : null;
  $("main").replaceChildren(...[top, ...explained.routines.map((routine) => routine_part(routine, labels))].filter((part) => part));
  show_verdict();
  list_findings();
  document.addEventListener("keydown", (event) => {
    if (event.ctrlKey || event.altKey || event.metaKey || event.target instanceof HTMLInputElement) return;
    if (event.key === "n" || event.key === "p") go_along(event.key === "n");
  });
  // The lines are new, so the browser looks for the place in the address again.
  if (location.hash) document.getElementById(decodeURIComponent(location.hash.slice(1)))?.scrollIntoView();
}

show_page();
