// A play of a routine in the model: its steps, with memory as it is before and after each.

/** Removes the mark of the next line. */
const unmark_line = () => document.querySelectorAll(".lines .next").forEach((line) => line.classList.remove("next"));
const hue_class = (chunk) => `hue${(chunk - TABLE) / 2 % HUES.length}`;
const changed_if = (is_changed, text) => node("span", { class: is_changed ? "changed" : false }, text);

// The steps of one routine, which a reader goes through by buttons, a slider or keys.
class Play {
  /** @param {Program} program */
  constructor(program) {
    [this.program, this.place] = [program, 0];
    this.said = node("p", { class: "place", role: "status" });
    this.body = node("div", { class: "picture" });
  }

  /**
   * @param {string} label what a screen reader calls the panel
   * @param {...Node} before what comes before the steps
   */
  make_panel(label, ...before) {
    this.panel = node("section", { class: "play", "aria-label": label }, ...before, this.buttons(), this.slider_part(), this.said, this.body);
    this.panel.addEventListener("keydown", (event) => this.press(event));
  }

  buttons() {
    const button = (text, label, go) => {
      const made = node("button", { type: "button", "aria-label": label }, text);
      made.addEventListener("click", go);
      return made;
    };
    this.on = button("Next \u203a", "Next step", () => this.go(this.place + 1));
    this.to_end = button("", "", () => this.go(this.last));
    return node("p", { class: "steps-of-play" },
      button("\u00ab Start", "To the start", () => this.go(0)), " ", button("\u2039 Back", "Step back", () => this.go(this.place - 1)), " ",
      this.on, " ", this.to_end, " ", node("span", { class: "quiet" }, "Keys: arrows, Home, End"));
  }

  slider_part() {
    this.slider = node("input", { type: "range", class: "slider", min: 0, max: 0, step: 1, "aria-label": "Step" });
    this.slider.addEventListener("input", () => this.go(+this.slider.value));
    return this.slider;
  }

  /** Whether keys in an element mean something else. */
  types_in(element) {
    return element instanceof HTMLInputElement && element !== this.slider;
  }

  press(event) {
    const places = { ArrowRight: this.place + 1, ArrowLeft: this.place - 1, Home: 0, End: this.last };
    if (this.types_in(event.target) || event.ctrlKey || event.altKey || event.metaKey || !(event.key in places)) return;
    event.preventDefault();
    this.go(places[event.key]);
  }

  /** Plays it to its end, and goes to its begin. */
  begin() {
    const machine = this.machine_at(MOST_PLAYED);
    [this.last, this.end] = [machine.steps, machine];
    this.slider.max = this.last;
    this.to_end.textContent = machine.fault ? "Fault \u00bb" : "End \u00bb";
    this.to_end.setAttribute("aria-label", machine.fault ? "To the fault" : "To the end");
    this.go(0);
  }

  /** @returns {Machine} the machine after some steps */
  machine_at(place) {
    const machine = this.start();
    while (machine.steps < place && machine.step());
    return machine;
  }

  go(place) {
    this.place = Math.max(0, Math.min(this.last, place));
    const before = this.machine_at(this.place - 1);
    const now = this.place === this.last ? this.end : this.machine_at(this.place);
    this.show_place(before, now);
    this.slider.value = this.place;
    this.slider.setAttribute("aria-valuetext", `step ${this.place} of ${this.last}`);
    const is_fault = this.place === this.last && now.fault;
    this.body.replaceChildren(...[is_fault && this.fault_part(now), this.registers(before, now), this.output(before, now), ...this.blocks(before, now)].filter((part) => part));
    this.mark_line(now);
  }

  /** Marks the line of the next instruction among the lines of the text. */
  mark_line(machine) {
    unmark_line();
    if (machine.next && !machine.has_returned) document.getElementById(machine.next.line.id)?.classList.add("next");
  }

  show_place(before, now) {
    const done = this.place ? before.next : null;
    const did = done ? `${with_capital(line_words(done))}: ${step_words(before, now).join("; ") || "no change"}.` : this.start_words();
    const next = now.is_over ? this.end_words(now) : this.place === MOST_PLAYED ? "The play ends here." : `Next: ${line_words(now.next)}.`;
    this.said.replaceChildren(node("b", {}, `Step ${this.place} of ${this.last}. `), did, " ", node("span", { class: now.fault ? "bad" : "quiet" }, next));
  }

  start_words() {
    const comes = this.end.fault && this.last ? ` The fault comes after step ${this.last}.` : "";
    return `Before the first step.${comes}`;
  }

  end_words(machine) {
    if (machine.has_returned) return this.return_words();
    const { next, fault: { rule, said } } = machine;
    return `A fault by ${rule}${next && rule !== "V1" ? ` at ${line_words(next)}` : ""}: ${said}.`;
  }

  return_words() {
    return "The routine returns.";
  }

  fault_part(machine) {
    const found = through(machine);
    const target = found && machine.targets[found.pointer];
    if (!found) return node("div", { class: "fault" }, node("p", {}, this.end_words(machine)));
    const since = [this.set_words(target, found), target.stale && this.since_words(found.pointer, target)].filter((said) => said);
    return node("div", { class: "fault" }, node("p", {}, this.end_words(machine)), node("p", { class: "since" }, since.join(" ")),
      target.stale && this.compared(found, target.set), this.effect(machine, found));
  }

  since_words(pointer, target) {
    return `p${pointer} is stale since step ${target.stale.step}: ${this.cause_words(target)}.`;
  }

  /** The instruction that made a pointer stale, and whether it freed the chunk. */
  cause_words({ name, chunk, stale }) {
    const instr = this.program.code[stale.pc];
    const is_freed = FREEING.has(instr.op) && !has_chunk(this.machine_at(stale.step).kernel, name, chunk);
    return `${line_words(instr)}${is_freed ? `, which freed chunk ${chunk}` : ""}`;
  }

  /** When a pointer was set, and where its bytes were then and are now. */
  set_words({ set, at, len }, { pointer, begin }) {
    const when = set ? `in step ${set}` : "before the first step";
    const now = begin === null ? "which are gone" : begin === at ? "which are still there" : `which are at ${begin} now`;
    return `p${pointer} was set ${when} to ${count_bytes(len)} at ${at}, ${now}.`;
  }

  /** What the pointer was set to, beside what lies at its place now. */
  compared({ pointer, at, count, found, lies, meant, meant_at, meant_bytes }, set) {
    const row = (name, meant_cell, found_cell) => node("tr", {}, node("th", { scope: "row" }, name), node("td", {}, meant_cell), node("td", {}, found_cell));
    const is_there = meant_at !== null;
    // The bytes that the pointer led to when it was set: their chunk may be gone.
    const led_to = hex_bytes(this.machine_at(set).kernel.blocks.region.slice(at, at + count));
    return node("table", { class: "compared" },
      node("thead", {}, node("tr", {}, node("th", {}, ""), node("th", { scope: "col" }, `p${pointer} was set to`), node("th", { scope: "col" }, "what is there now"))),
      node("tbody", {}, row("what", meant, lies), row("place in the region", is_there ? String(meant_at) : `${at}, gone`, String(at)),
        row("bytes", is_there ? hex_bytes(meant_bytes) : `${led_to}, gone`, hex_bytes(found))));
  }

  /** What the instruction would do. */
  effect(machine, { at, count, writes, lies, meant_at }) {
    const { op } = machine.next;
    const luck = machine.fault.rule === "V4" && at === meant_at ? " These are the right bytes, by luck." : "";
    return node("p", { class: "effect" }, `${op} would ${writes ? "overwrite" : "read"} ${count_bytes(count)} at ${at}: ${lies}.${luck}`);
  }

  registers(before, now) {
    const is_first = this.place === 0;
    const words = now.words.map((word, n) => node("span", {}, `w${n} `, changed_if(!is_first && word !== before.words[n], String(word))));
    const counters = now.counters.map((left, n) => left || before.counters[n] ? node("span", {}, `k${n} `, changed_if(!is_first && left !== before.counters[n], String(left))) : null);
    const slots = now.held.map((held, n) => held && node("span", {}, `s${n} ${block_words(now.names[n])}`));
    return node("div", { class: "registers" }, ...words, ...counters, ...slots, ...now.targets.map((target, n) => target && this.pointer(now, n, target)));
  }

  pointer(machine, n, target) {
    const said = `p${n} ${meant_words(target)}, at ${machine.spans[n].at}`;
    if (!target.stale) return node("span", { class: "pointer" }, said);
    return node("span", { class: "pointer stale" }, node("s", {}, said), ` stale since ${this.cause_words(target)}`);
  }

  /** The words that are out, the new one marked. */
  output(before, now) {
    const { length } = now.output;
    if (!length) return null;
    const is_new = (n) => this.place > 0 && n >= before.output.length;
    return node("p", { class: "out" }, "output", ...now.output.flatMap((word, n) => [" ", changed_if(is_new(n), String(word))]));
  }

  /** The blocks of slots and of pointers. */
  blocks(before, now) {
    const keys = new Set([...now.names.filter((_, n) => now.held[n]).map(key_of), ...now.targets.filter((target) => target).map(({ name }) => key_of(name))]);
    return now.kernel.blocks.in_order().filter(({ key }) => keys.has(key)).map((entry) => this.block(before, now, entry));
  }

  block(before, now, { key, name, place, size }) {
    const heap = now.kernel.blocks.heap(name);
    const old = before.kernel.blocks.entries.get(key);
    const old_bytes = old && before.kernel.blocks.region.subarray(old.place, old.place + old.size);
    const chunk_at = new Map(heap.chunks().flatMap(({ chunk, at, len }) => Array.from({ length: len }, (_, n) => [at + n, chunk])));
    const marks = this.marks(now, place);
    const kind_of = (i) => [
      chunk_at.has(i) && hue_class(chunk_at.get(i)), this.place && old_bytes && (old_bytes[i] ?? 0) !== heap.bytes[i] && "changed", marks.get(i),
    ].filter((kind) => kind).join(" ") || false;
    const bytes = [...heap.bytes.subarray(0, MOST_DRAWN)];
    return node("div", { class: "block" }, node("h3", {}, `${block_words(name)}: ${size} bytes at ${place} of the region`),
      node("table", { class: "bytes" }, node("tbody", {}, ...byte_rows(bytes, kind_of))), this.key_of_chunks(heap));
  }

  key_of_chunks(heap) {
    const chunks = heap.chunks().map(({ chunk, at, len }) => node("span", { class: hue_class(chunk) }, `chunk ${chunk}: ${count_bytes(len)}${len ? ` at ${at} of the block` : ""}`));
    return node("p", { class: "chunks" }, ...chunks.flatMap((one) => [one, " "]));
  }

  /** Marks of bytes of a block: those that a stale pointer leads to, and those that it was meant for. */
  marks(machine, place) {
    const marks = new Map();
    machine.targets.forEach((target, n) => {
      if (!target) return;
      const put = (at, kind) => Array.from({ length: target.len }, (_, k) => marks.set(at - place + k, kind));
      const now = target.stale ? place_now(machine.kernel, target) : null;
      if (now !== null) put(now, "meant");
      put(machine.spans[n].at, target.stale ? "led" : "good");
    });
    return marks;
  }
}

