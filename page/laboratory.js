// The laboratory: a text or a source that is explained as one types, and a script that the machine runs.

const given = JSON.parse($("given").textContent);
// How many milliseconds after a key the text is explained.
const REST = 120;
// What an instruction's place is called.
const place_word = "line";

const decoded = (base64) => Uint8Array.from(atob(base64), (c) => c.charCodeAt(0));

async function unpacked(base64) {
  const packed = new Blob([decoded(base64)]).stream().pipeThrough(new DecompressionStream("gzip"));
  return new Uint8Array(await new Response(packed).arrayBuffer());
}

// The objects of the page of `explain`, from what it prints of a text.
function objects_of(said) {
  const found = [];
  let line = null;
  for (const row of said.split("\n")) {
    const numbered = /^(\d+)\t/.exec(row);
    const refused = /^; refused by (V\d+): (.*)$/.exec(row);
    const fault = /^(?:line|at line) (\d+)(?:: |, )(.*)$/.exec(row);
    if (numbered) line = +numbered[1];
    else if (refused) found.push({ kind: "error", line, rule: refused[1], message: refused[2], cause_line: cause_of(refused[2], line) });
    else if (fault) found.push({ kind: "error", line: +fault[1], message: fault[2] });
  }
  return found;
}

// The first other line that a sentence names.
function cause_of(message, line) {
  const named = [...message.matchAll(/\bline (\d+)/g)].map((one) => +one[1]);
  return named.find((other) => other !== line) ?? null;
}

// Effects in the words of --grant, as the page has them.
function effects_object({ kind, routine, said }) {
  return { kind, routine, effects: said.split(", ").map((effect) => effect.replaceAll(" ", "-")).join(",") };
}

const escaped = (text) => text.replace(/&/g, "&amp;").replace(/</g, "&lt;").replace(/\r/g, "&#13;");

// The page of an explained text, which has some of the scripts of this page.
function whole_page({ before, between, after }) {
  const playing = $("playing").textContent.replace(/^\s*"use strict";\n/, "");
  return { before, between, after: after.replace("/* playing */\n", () => playing) };
}

class Laboratory {
  constructor(library, page) {
    [this.library, this.page] = [library, whole_page(page)];
    [this.text, this.timer] = ["", 0];
  }

  get is_source() {
    return $("language").value === "tkv";
  }

  choose(name) {
    const example = given.examples.find((one) => one.name === name);
    $("language").value = name.endsWith(".tkv") ? "tkv" : "asm";
    $("text").value = example.text;
    $("script").value = example.script;
    this.explain();
    this.clear();
  }

  clear() {
    $("output").replaceChildren();
    $("blocks").replaceChildren();
    this.close_steps();
  }

  close_steps() {
    $("steps").replaceChildren();
    $("steps-part").hidden = true;
    this.mark(null);
  }

  // Marks the line of the next instruction in the explained text.
  mark(number) {
    const page = $("explained").contentDocument;
    page?.querySelectorAll(".lines .next").forEach((line) => line.classList.remove("next"));
    const line = number === null ? null : page?.getElementById("L" + number);
    line?.classList.add("next");
    line?.scrollIntoView({ block: "nearest" });
  }

  // Explains the text when no key has been pressed for a while.
  explain_soon() {
    clearTimeout(this.timer);
    this.timer = setTimeout(() => this.explain(), REST);
  }

  // What is said of what is written, and the line of its first fault, or 0. `text` is the assembly text that is explained and run: what is
  // written, or what a source is compiled to.
  judge() {
    const written = $("text").value;
    const fault = this.is_source ? this.library.explain_source(written) : { line: 0 };
    this.text = this.is_source && fault.line === 0 ? this.library.compiled(written) : written;
    return fault.line === 0 ? this.library.explain(this.text) : fault;
  }

  explain() {
    const { said, line } = this.judge();
    const effects = line === 0 ? this.effects() : [];
    const is_text = /^\d+\t/m.test(said);
    this.is_accepted = line === 0;
    const objects = [{ kind: "page", file: $("example").value, shows: is_text ? "text" : "faulty" }, ...objects_of(said), ...effects.map(effects_object)];
    const data = objects.map((object) => JSON.stringify(object) + "\n").join("");
    const frame = $("explained");
    const top = frame.contentWindow?.scrollY || 0;
    frame.onload = () => frame.contentWindow.scrollTo(0, top);
    frame.srcdoc = this.page.before + escaped(is_text ? said : this.text) + this.page.between + escaped(data) + this.page.after;
    $("verdict").textContent = line === 0 ? "accepted" : is_text ? `refused at line ${line}` : `faulty at line ${line}`;
    $("verdict").className = line === 0 ? "good" : "bad";
    for (const id of ["run", "step"]) $(id).disabled = line !== 0;
    this.close_steps();
  }

  // The effects of each routine of a text that is accepted.
  effects() {
    return this.with_kernel((kernel, image) => {
      const names = [...this.text.matchAll(/^[ \t]*routine[ \t]+(\S+)/gm)].map((found) => found[1]);
      return names.map((name) => ({ kind: "effects", routine: name, said: kernel.effects(image, name) }));
    });
  }

  // What `work` returns of a new kernel with the image of the text.
  with_kernel(work, kernel = new ProvedKernel(this.library)) {
    try {
      return work(kernel, kernel.load(this.library.assemble(this.text)));
    } finally {
      kernel.close();
    }
  }

  // The slots that each public routine borrows, by its `in` lines.
  borrows() {
    const found = new Map();
    let name = null;
    for (const line of this.text.split("\n")) {
      const words = line.split(";")[0].trim().split(/\s+/);
      if (words[0] === "routine") {
        name = words[2] === "public" ? words[1] : null;
        if (name) found.set(name, []);
      } else if (words[0] === "in" && name) {
        for (const item of words.slice(1)) if (/^s[0-3]=vm!?@/.test(item)) found.get(name).push(+item[1]);
      }
    }
    return found;
  }

  // Runs the script. Returns its commands and the slots that routines borrow, or nothing if a line is bad.
  run() {
    this.clear();
    if (!this.is_accepted) return null;
    try {
      const commands = read_script($("script").value);
      const borrows = this.borrows();
      this.with_kernel((kernel, image) => {
        const run = new ScriptRun(kernel, image, borrows);
        for (const command of commands) show_command(command, run.printed(command));
        show_blocks(kernel);
      });
      return { commands, borrows };
    } catch (fault) {
      $("output").append(node("li", { class: "fault" }, fault.message));
      return null;
    }
  }

  // Runs the script, and lists its calls to step through.
  step() {
    const script = this.run();
    const calls = script ? [...script.commands.keys()].filter((n) => script.commands[n].call) : [];
    if (!calls.length) return;
    const lines = $("script").value.split("\n");
    $("call").replaceChildren(...calls.map((n) => node("option", { value: n }, `${script.commands[n].line}: ${lines[script.commands[n].line - 1].split(";")[0].trim()}`)));
    $("call").onchange = () => this.show_steps(script, +$("call").value);
    $("steps-part").hidden = false;
    this.show_steps(script, calls[0]);
    $("steps").querySelector(".slider")?.focus();
  }

  show_steps(script, number) {
    this.mark(null);
    const program = program_of_text(this.text);
    const noted = this.with_kernel((kernel, image) => noted_call(kernel, image, script, number), new NotingKernel(this.library));
    const steps = noted && new ProvedSteps(program, this.library.lines(this.text), noted);
    $("steps").replaceChildren(steps ? new ProvedPlay(program, steps, script.commands[number].call.name, (line) => this.mark(line)).panel
      : node("p", { class: "quiet" }, "A block can't be lent, so the routine does not begin."));
  }
}

function show_command(command, printed) {
  const said = printed.join(" ");
  const differs = command.expected !== null && command.expected !== said;
  const name = command.commit || command.call.name;
  $("output").append(node("li", {}, node("span", { class: "n" }, command.line), name,
    node("span", { class: differs ? "printed differs" : "printed" }, differs ? `expected ${command.expected || "nothing"}, printed ${said || "nothing"}` : said || "\u2013")));
}

function chunk_part(bytes, chunk) {
  const head = node("h3", {}, `chunk ${chunk}`, node("small", {}, `${bytes.length} bytes`));
  const table = node("table", { class: "bytes" }, ...byte_rows([...bytes].slice(0, MOST_DRAWN), () => ""));
  return node("div", { class: "chunk", style: `--hue: ${line_of(chunk)}` }, head, table);
}

function block_part(kernel, block, name, tags) {
  const chunks = kernel.list("llist", block).map((chunk) => chunk_part(kernel.chunk(block, chunk), chunk));
  return node("section", {}, node("h2", {}, name), ...tags.map((said) => node("span", { class: "tag" }, said)), ...chunks);
}

// The blocks of memory and of the file, as the kernel has them.
function show_blocks(kernel) {
  for (const handle of kernel.list("mlist")) {
    if (kernel.call("mlock", [], handle)[0]) continue;
    $("blocks").append(block_part(kernel, handle, `memory block ${handle}`, []));
    kernel.call("unlock", [], handle);
  }
  for (const handle of kernel.list("vlist")) {
    const [, user_id] = kernel.call("vuid", [16], handle);
    const [, marked] = kernel.call("marked", [16], handle);
    const tags = [`user ID ${user_id}`, ...(marked ? ["marked as changed"] : [])];
    const items = kernel.list("ilist", handle);
    const is_locked = kernel.call("vlock", [], handle)[0] === 0;
    const part = is_locked ? block_part(kernel, VM + handle, `file block ${handle}`, tags)
      : node("section", {}, node("h2", {}, `group ${handle}`), node("span", { class: "tag" }, `${items.length} items`));
    $("blocks").append(part);
    if (is_locked) kernel.call("unlock", [], VM + handle);
  }
  if (!$("blocks").children.length) $("blocks").append(node("p", { class: "quiet" }, "There are none."));
}

async function begin() {
  const library = await Library.load(await unpacked(given.module), given.reasons);
  const laboratory = new Laboratory(library, given.page);
  window.laboratory = laboratory;
  $("example").append(...given.examples.map(({ name }) => node("option", {}, name)));
  $("example").addEventListener("change", () => laboratory.choose($("example").value));
  $("text").addEventListener("input", () => laboratory.explain_soon());
  $("language").addEventListener("change", () => laboratory.explain());
  $("run").addEventListener("click", () => laboratory.run());
  $("step").addEventListener("click", () => laboratory.step());
  $("script").addEventListener("input", () => laboratory.close_steps());
  document.addEventListener("keydown", (event) => {
    if (event.key === "Enter" && event.ctrlKey) laboratory.run();
  });
  laboratory.choose(given.examples[0].name);
}

begin().catch((fault) => {
  $("verdict").textContent = `This browser can't run the library: ${fault.message}`;
  $("verdict").className = "bad";
});
