// Memory for a play: blocks with some content, and words with which the routine comes to its fault.

const PLAY_REGION = 1 << 20;
// How many steps are played at most.
const MOST_PLAYED = 10000;
// How many sets of words are tried at most, and how many steps of each.
const [MOST_TRIED, TRIED_STEPS] = [250, 1000];
const TRIED_WORDS = [0, 16, 1, 18, 2];
const MOST_LENT = 8;
const LETTERS = "abcdefghijklmnopqrstuvwxyz";

/**
 * @typedef {{words: number[], lent: number[]}} Given the words of a call, and the handles of the blocks that it lends
 */

// What is thrown if a routine does not begin with what a reader typed.
class Wrong {
  /** @param {string} said */
  constructor(said) {
    this.said = said;
  }
}

/**
 * @param {string} typed what a reader typed, as `16 3 @1`
 * @param {Row} entry the entry row of the routine
 * @returns {Given}
 */
function given_of(typed, entry) {
  const parts = typed.split(/\s+/).filter((part) => part);
  const wrong = parts.find((part) => !/^@?\d+$/.test(part));
  if (wrong) throw new Wrong(`'${wrong}' is no number`);
  const [words, lent] = [parts.filter((part) => part[0] !== "@").map(Number), parts.filter((part) => part[0] === "@").map((part) => +part.slice(1))];
  if (words.length > 8) throw new Wrong("a routine has 8 words at most");
  const high = words.findIndex((word, n) => word > (entry.bounds.get(n) ?? 65535));
  if (high >= 0) throw new Wrong(`w${high} is at most ${entry.bounds.get(high) ?? 65535}`);
  if (lent.some((handle) => handle < 1 || handle > MOST_LENT)) throw new Wrong(`the model makes the blocks @1 to @${MOST_LENT}`);
  return { words, lent };
}

/** @param {Given} given */
const typed_of = ({ words, lent }) => [...words, ...lent.map((handle) => "@" + handle)].join(" ");

/** Fills a block: a chunk of letters, an array of two elements of 4 bytes, and a chunk of 6 capital letters. */
function fill_block(kernel, name, least) {
  const chunk_of = (text) => {
    const chunk = kernel.on_chunks(name, (heap) => heap.alloc(text.length));
    const heap = kernel.blocks.heap(name);
    [...text].forEach((letter, n) => { heap.bytes[heap.place(chunk).at + n] = letter.charCodeAt(0); });
  };
  const count = Math.max(12, least);
  chunk_of(LETTERS.repeat(Math.ceil(count / 26)).slice(0, count));
  const array = kernel.on_chunks(name, (heap) => new Arrays(heap).create(4));
  for (const letters of ["1234", "5678"]) {
    kernel.on_chunks(name, (heap) => new Arrays(heap).append(array, 4));
    const heap = kernel.blocks.heap(name);
    const { at, count: elements } = new Arrays(heap).shape(array);
    [...letters].forEach((letter, n) => { heap.bytes[at + HEADER + 4 * (elements - 1) + n] = letter.charCodeAt(0); });
  }
  chunk_of("ABCDEF");
}

/** The most bytes that a pointer into a slot has at the routine's begin. */
const least_of = (entry, slot) => Math.max(0, ...[...entry.pointers.values()].filter((pointer) => pointer.slot === slot).map(({ len }) => len));

/** Makes blocks of the file for a play, and commits them. */
function make_file_blocks(kernel, count, least, uid) {
  for (let n = 0; n < count; n++) fill_block(kernel, vm(kernel.make_listed(uid)), least);
  kernel.update();
}

/** Makes and locks the block of a slot. @returns {Name} */
function make_slot_block(kernel, { kind, marked }, least) {
  if (kind === "mem") {
    const name = mem(kernel.mnew());
    fill_block(kernel, name, least);
    return name;
  }
  const handle = kernel.make_listed(kind === "db" ? GROUP : 0);
  fill_block(kernel, vm(handle), least);
  kernel.update();
  kernel.blocks.lock(vm(handle));
  if (marked) kernel.mark(handle);
  return vm(handle);
}

/** The slots of the entry row that are borrowed, the lowest first. */
const borrowed_slots = (entry) => [...entry.slots].filter(([, slot]) => slot.borrowed).map(([n]) => n).sort();

/** @returns {Machine} a routine before its first step, with memory as its entry row requires it */
function machine_of(program, number, { words, lent }) {
  const { entry } = program.routines[number];
  const kernel = new Kernel(PLAY_REGION);
  const machine = new Machine(program, kernel, number, words);
  const borrowed = borrowed_slots(entry);
  const handles = borrowed.map((_, n) => lent[n] ?? n + 1);
  if (borrowed.length) make_file_blocks(kernel, Math.max(...handles), Math.max(...borrowed.map((slot) => least_of(entry, slot))), 0);
  for (const [n, slot] of entry.slots) {
    const name = slot.borrowed ? vm(handles[borrowed.indexOf(n)]) : make_slot_block(kernel, slot, least_of(entry, n));
    if (slot.borrowed) kernel.vlock(name.handle);
    [machine.names[n], machine.held[n]] = [name, { kind: slot.kind, borrowed: slot.borrowed }];
  }
  for (const [n, { slot, len }] of entry.pointers) {
    if (machine.held[slot]) machine.point(n, slot, machine.names[slot], 16, null, len);
  }
  machine.targets.forEach((target) => { if (target) target.set = 0; });
  return machine;
}

/** The words that a routine names. */
function words_used(program, { start, end }) {
  const used = new Set();
  for (const { op, operands } of program.code.slice(start, end)) {
    const letters = INSTRUCTIONS[op][0].replace(/ ?L$/, "").split(" ");
    letters.forEach((letter, n) => letter === "w" && used.add(operands[n]));
  }
  return [...used].sort((a, b) => a - b);
}

/** The sets of words to try. If there are many, those with one value come first. */
function* tried_words(used, bounds) {
  const within = (words) => words.map((word, n) => Math.min(word, bounds.get(n) ?? 65535));
  const first = TRIED_WORDS.length ** used.length > MOST_TRIED ? TRIED_WORDS : [];
  for (const value of first) yield within([0, 1, 2, 3, 4, 5, 6, 7].map((n) => used.includes(n) ? value : 0));
  for (let k = 0; k < TRIED_WORDS.length ** used.length; k++) {
    const words = [0, 0, 0, 0, 0, 0, 0, 0];
    used.forEach((n, place) => { words[n] = TRIED_WORDS[Math.floor(k / TRIED_WORDS.length ** place) % TRIED_WORDS.length]; });
    yield within(words);
  }
}

/** @returns {Given} words with which the routine comes to a fault at a refused line, if some of those that are tried do */
function given_for(program, number) {
  const routine = program.routines[number];
  const { entry } = routine;
  const lent = borrowed_slots(entry).map((_, n) => n + 1);
  let [count, other] = [0, null];
  for (const words of tried_words(words_used(program, routine), entry.bounds)) {
    if (count++ >= MOST_TRIED) break;
    const machine = machine_of(program, number, { words, lent });
    while (machine.steps < TRIED_STEPS && machine.step());
    const given = { words: trimmed(words), lent };
    if (machine.fault && machine.next?.line.findings.some(({ kind }) => kind === "error")) return given;
    if (machine.fault && !other) other = given;
  }
  return other ?? { words: [], lent };
}

/** The words without the zeros at their end. */
function trimmed(words) {
  let count = words.length;
  while (count && !words[count - 1]) count--;
  return words.slice(0, count);
}
