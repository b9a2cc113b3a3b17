// Steps through a call of a script. The library tells the state of the machine and memory before each step.

const IS_PROVED = "The proved machine: the library tells registers, slots, pointers, blocks and bytes at each step. This page finds the chunks in the bytes.";

// Which operand of an instruction is the pointer that it sets.
const SETTING = { DEREF: 1, CAELT: 1, ILOCK: 1, MOVP: 0 };
// How many pictures of memory are kept at most.
const MOST_PICTURES = 16;

/** @returns {Program} the routines of a text without faults */
const program_of_text = (text) => new Program(new Explained(text, [{ kind: "page", shows: "faulty" }]).routines);

/** The name of a block by its number in takhvoi.h. */
const name_of = (number) => number < VM ? mem(number) : vm(number - VM);

/** @returns {Blocks} the blocks of the region, by their records in takhvoi.h */
function blocks_of({ places, region }) {
  const blocks = new Blocks(0);
  blocks.region = region;
  for (const { block, at, size, locks } of places) {
    const name = name_of(block);
    blocks.entries.set(key_of(name), { key: key_of(name), name, place: at, size, locks });
  }
  return blocks;
}

// A kernel of the library that notes the steps of a run.
class NotingKernel extends ProvedKernel {
  constructor(library) {
    super(library);
    [this.notes_next, this.noted] = [false, null];
  }

  run(image, routine, words, lent) {
    if (!this.notes_next) return super.run(image, routine, words, lent);
    const call = [image, routine, words, lent];
    const kept = this.library.memory;
    this.noted = { kernel: this, kept, call, ...this.trace(...call, MOST_PLAYED + 1), last: this.memory_now() };
    return { status: DONE, output: this.noted.output };
  }
}

// What the library tells of the steps of a call. Place n is before step n + 1.
class ProvedSteps {
  /**
   * @param {Program} program
   * @param {number[]} lines the line of each instruction
   * @param {object} noted what a NotingKernel noted
   */
  constructor(program, lines, noted) {
    this.noted = noted;
    const by_line = new Map(program.code.map((instr) => [+instr.line.number, instr]));
    this.code = lines.map((line) => by_line.get(line));
    this.last = Math.min(noted.steps, MOST_PLAYED);
    this.pictures = new Map();
    this.outputs = this.output_counts();
    this.settings = [0, 1, 2, 3].map((pointer) => this.settings_of(pointer));
  }

  is_end(place) {
    return place === this.noted.steps;
  }

  /** The state at a place. The last instruction is a RET, which changes nothing of it. */
  state(place) {
    return this.noted.states.at(this.is_end(place) ? place - 1 : place);
  }

  pc(place) {
    return this.noted.states.instruction(this.is_end(place) ? place - 1 : place);
  }

  is_good(pointer, place) {
    return this.noted.states.is_good(this.is_end(place) ? place - 1 : place, pointer);
  }

  instr(place) {
    return this.code[this.pc(place)];
  }

  /** How many words are out at each place. An OUT is refused if too many are. */
  output_counts() {
    const counts = [0];
    for (let place = 0; place < this.last; place++) {
      const is_out = this.instr(place).op === "OUT" && counts[place] < MOST_OUTPUT;
      counts.push(counts[place] + (is_out ? 1 : 0));
    }
    return counts;
  }

  /** The steps, counted from 1, that set a pointer, and since when it is stale. */
  settings_of(pointer) {
    const settings = [];
    let now = null;
    for (let step = 1; step <= this.last; step++) {
      if (this.sets(pointer, step)) settings.push(now = { set: step, stale: null });
      else if (now && !now.stale && !this.is_good(pointer, step)) now.stale = { step, pc: this.pc(step - 1) };
    }
    return settings;
  }

  /** Whether a step set a pointer: otherwise it is refused, and control goes to its label. */
  sets(pointer, step) {
    const { op, operands } = this.instr(step - 1);
    return operands[SETTING[op]] === pointer && this.is_good(pointer, step) && this.pc(step) === this.pc(step - 1) + 1;
  }

  /** @returns {Blocks} memory at a place */
  blocks(place) {
    const { kernel, kept, call, last } = this.noted;
    if (!this.pictures.has(place)) {
      const memory = this.is_end(place) ? last : kernel.library.with_memory(kept, () => kernel.memory_at(...call, place));
      this.pictures.set(place, blocks_of(memory));
      if (this.pictures.size > MOST_PICTURES) this.pictures.delete(this.pictures.keys().next().value);
    }
    return this.pictures.get(place);
  }

  /** @returns {Target | null} what a pointer was set to, up to a place */
  target(pointer, place) {
    const found = this.settings[pointer].findLast(({ set }) => set <= place);
    if (!found) return null;
    const stale = found.stale && found.stale.step <= place ? found.stale : null;
    const target = { ...this.set_to(pointer, found.set), set: found.set, stale };
    return stale && target.element !== null ? { ...target, offset: this.offset(target) } : target;
  }

  /** What a step set a pointer to. */
  set_to(pointer, step) {
    const { op, operands } = this.instr(step - 1);
    const [before, after] = [this.state(step - 1), this.state(step)];
    if (op === "MOVP") return this.target(operands[1], step - 1);
    const [slot, , first, second] = operands.map((n, place) => place > 1 ? before.words[n] : n);
    const [name, chunk] = op === "ILOCK" ? [vm(first), second] : [name_of(before.slots[slot]), first];
    return { name, slot, chunk, element: op === "CAELT" ? second : null, offset: 0, at: after.pointers[pointer], len: after.spans[pointer] };
  }

  /** Where in its chunk the bytes were to which a pointer was set. */
  offset({ name, chunk, at, set }) {
    const blocks = this.blocks(set);
    return at - blocks.entry(name).place - blocks.heap(name).place(chunk).at;
  }

  /** The machine at a place, as a Play shows machines. */
  picture(place) {
    const [state, has_returned] = [this.state(place), this.is_end(place)];
    return {
      steps: place, next: this.instr(place), is_over: has_returned, has_returned, fault: null,
      words: has_returned ? this.noted.words : state.words, counters: state.counters,
      names: state.slots.map(name_of), held: state.held,
      spans: state.pointers.map((at, n) => ({ at, len: state.spans[n] })),
      targets: [0, 1, 2, 3].map((pointer) => this.target(pointer, place)),
      output: this.noted.output.slice(0, this.outputs[place]),
      kernel: { blocks: this.blocks(place) },
    };
  }
}

// The steps of a call of the proved machine.
class ProvedPlay extends Play {
  /**
   * @param {Program} program
   * @param {ProvedSteps} steps
   * @param {string} name the routine
   * @param {(number: string | null) => void} mark marks a line of the text
   */
  constructor(program, steps, name, mark) {
    super(program);
    [this.steps, this.mark] = [steps, mark];
    const all = steps.noted.steps;
    const cut = all > steps.last ? node("p", { class: "cut" }, `The page shows the first ${steps.last} of ${all} steps.`) : null;
    this.make_panel(`Steps of ${name}`, node("p", { class: "note proved" }, IS_PROVED), ...(cut ? [cut] : []));
    this.begin();
  }

  machine_at(place) {
    return this.steps.picture(Math.max(0, Math.min(place, this.steps.last)));
  }

  mark_line(machine) {
    this.mark(machine.has_returned ? null : machine.next.line.number);
  }
}

/** What a kernel notes of a call of a script, or null if a block can't be lent. */
function noted_call(kernel, image, { commands, borrows }, number) {
  const run = new ScriptRun(kernel, image, borrows);
  for (const command of commands.slice(0, number)) run.printed(command);
  kernel.notes_next = true;
  run.printed(commands[number]);
  return kernel.noted;
}
