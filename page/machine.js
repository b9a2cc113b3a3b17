// A program, and a run of it in the model.

// The items of a line `in` or `out`.
const ITEMS = {
  bound: /^w([0-7])<=(\d+)$/,
  slot: /^s([0-3])=(mem|vm|db)(@?)(!?)$/,
  pointer: /^p([0-3])=s([0-3]):(\d+)$/,
};

/**
 * @typedef {{bounds: Map<number, number>, slots: Map<number, {kind: Kind, borrowed: boolean, marked: boolean}>,
 *   pointers: Map<number, {slot: number, len: number}>}} Row what a routine requires at its call, or promises at its return
 * @typedef {{name: string, is_public: boolean, budget: number, entry: Row, exit: Row, start: number, end: number}} Routine
 */

/** @returns {Row} what the line `in` or `out` of a routine says */
function row_of(lines, head) {
  const row = { bounds: new Map(), slots: new Map(), pointers: new Map() };
  for (const item of lines.filter((line) => line.words[0] === head).flatMap((line) => line.words.slice(1))) {
    const bound = ITEMS.bound.exec(item);
    const slot = ITEMS.slot.exec(item);
    const pointer = ITEMS.pointer.exec(item);
    if (bound) row.bounds.set(+bound[1], +bound[2]);
    if (slot) row.slots.set(+slot[1], { kind: slot[2], borrowed: slot[3] === "@", marked: slot[4] === "!" });
    if (pointer) row.pointers.set(+pointer[1], { slot: +pointer[2], len: +pointer[3] });
  }
  return row;
}

// The routines of a text, as the page has them.
class Program {
  /** @param {{name: string, is_public: boolean, budget: string, lines: Line[]}[]} parts */
  constructor(parts) {
    this.labels = new Map();
    /** @type {Routine[]} */
    this.routines = [];
    /** @type {Instr[]} */
    this.code = [];
    for (const part of parts) this.add_routine(part);
    for (const instr of this.code) this.decode(instr);
  }

  add_routine({ name, is_public, budget, lines }) {
    const [routine, start] = [this.routines.length, this.code.length];
    for (const line of lines) {
      for (const label of line.labels) this.labels.set(label, this.code.length);
      if (line.op) this.code.push({ op: line.op, operands: [], target: null, routine, line });
    }
    const most = /^\d+$/.test(budget) ? +budget : Infinity;
    this.routines.push({ name, is_public, budget: most, entry: row_of(lines, "in"), exit: row_of(lines, "out"), start, end: this.code.length });
  }

  decode(instr) {
    const form = INSTRUCTIONS[instr.op][0].split(" ").filter((letter) => letter);
    const words = instr.line.words.slice(1);
    form.forEach((letter, n) => {
      if (letter === "L") instr.target = this.labels.get(words[n]) ?? null;
      else instr.operands.push(letter === "n" ? +words[n] : letter === "R" ? this.number_of(words[n]) : +words[n].slice(1));
    });
  }

  number_of(name) {
    return this.routines.findIndex((routine) => routine.name === name);
  }
}

// A run of a routine. A step at a time, up to a fault, the return or the end of the budget.
class Machine {
  /**
   * @param {Program} program
   * @param {Kernel} kernel
   * @param {number} routine
   * @param {number[]} words
   */
  constructor(program, kernel, routine, words) {
    [this.program, this.kernel] = [program, kernel];
    const { start, budget } = program.routines[routine];
    [this.routine, this.pc, this.budget, this.steps] = [routine, start, budget, 0];
    this.words = [0, 1, 2, 3, 4, 5, 6, 7].map((n) => words[n] ?? 0);
    this.counters = [0, 0, 0, 0];
    // Names and spans stay after an unlock, as those of the machine do.
    this.names = [0, 1, 2, 3].map(() => vm(0));
    this.spans = [0, 1, 2, 3].map(() => ({ at: 0, len: 0 }));
    /** @type {(Held | null)[]} */
    this.held = [null, null, null, null];
    /** @type {(Target | null)[]} */
    this.targets = [null, null, null, null];
    this.stack = [];
    this.output = [];
    /** @type {Fault | null} */
    this.fault = null;
    this.has_returned = false;
  }

  get is_over() {
    return this.fault !== null || this.has_returned;
  }

  /** @returns {Instr | undefined} the next instruction */
  get next() {
    return this.program.code[this.pc];
  }

  /** Does the next instruction, if that is no fault. @returns {boolean} whether it was done */
  step() {
    if (this.is_over) return false;
    this.fault = this.next_fault();
    if (this.fault) return false;
    const { op, operands, target } = this.next;
    this.moved_on = false;
    const jumps = this.try_call(INSTRUCTIONS[op][1], operands);
    this.steps++;
    if (!this.moved_on) this.pc = jumps ? target ?? -1 : this.pc + 1;
    return true;
  }

  /** @returns {boolean} whether control goes to the label */
  try_call(does, operands) {
    try {
      return does(this, ...operands) === true;
    } catch (why) {
      if (!(why instanceof Refusal)) throw why;
      this.words[7] = why.number;
      return true;
    }
  }

  /** @returns {Fault | null} */
  next_fault() {
    const { start, end } = this.program.routines[this.routine];
    if (this.pc < start || this.pc >= end) return fault("V1", "control leaves the routine");
    if (this.steps >= this.budget) return fault("V14", "the budget is used up");
    const { op, operands } = this.next;
    return INSTRUCTIONS[op][2]?.(this, ...operands) ?? null;
  }

  set_word(n, value) {
    this.words[n] = value & 0xffff;
  }

  read(at, count) {
    const bytes = this.kernel.blocks.region;
    return count === 1 ? bytes[at] : bytes[at] | bytes[at + 1] << 8;
  }

  write(at, word, count) {
    this.kernel.blocks.region[at] = word;
    if (count === 2) this.kernel.blocks.region[at + 1] = word >> 8;
  }

  copy(to, from, count) {
    this.kernel.blocks.region.copyWithin(to, from, from + count);
  }

  heap(slot) {
    return this.kernel.blocks.heap(this.names[slot]);
  }

  call(routine) {
    this.stack.push({ routine: this.routine, pc: this.pc + 1 });
    [this.routine, this.pc, this.moved_on] = [routine, this.program.routines[routine].start, true];
  }

  return() {
    const frame = this.stack.pop();
    this.has_returned = frame === undefined;
    if (frame) [this.routine, this.pc] = [frame.routine, frame.pc];
    this.moved_on = true;
  }

  put_out(word) {
    require_that(this.output.length < MOST_OUTPUT, REFUSED.full);
    this.output.push(word);
  }

  /** Sets a pointer to a chunk, or to an element of an array. */
  point(pointer, slot, name, chunk, element, least) {
    const find = (heap) => element === null ? heap.place(chunk) : new Arrays(heap).element(chunk, element);
    const { at, len } = this.kernel.place(name, find, least);
    const offset = at - this.kernel.blocks.entry(name).place - this.kernel.blocks.heap(name).place(chunk).at;
    this.spans[pointer] = { at, len };
    this.targets[pointer] = { name, slot, chunk, element, offset, at, len, set: this.steps + 1, stale: null };
  }

  /** The pointers for which a test is true become stale. */
  make_stale(is_stale) {
    this.targets = this.targets.map((target) => {
      return target && !target.stale && is_stale(target) ? { ...target, stale: { step: this.steps + 1, pc: this.pc } } : target;
    });
  }

  chunks_move(name) {
    this.make_stale((target) => key_of(target.name) === key_of(name));
  }

  unlock(slot) {
    this.kernel.blocks.unlock(this.names[slot]);
    this.held[slot] = null;
    this.make_stale((target) => target.slot === slot);
  }
}
