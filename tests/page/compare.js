// Runs routines in the model of the page, and compares each step with what the program noted of its run.
const FIRST_CHUNK = 16;
const LAST_CHUNK = 65534;
const MOST_BYTES = 4096;

const hex_of = (bytes) => [...bytes].map((byte) => byte.toString(16).padStart(2, "0")).join("");

function state_of_model(machine) {
  const names = machine.names.flatMap(({ vm: of_file, handle }) => [+of_file, handle]);
  const spans = machine.spans.flatMap(({ at, len }) => [at, len]);
  return [machine.pc, ...machine.words, ...machine.counters, ...names, ...spans];
}

// What the program notes of a block: its owner, handle, locks and mark, its chunks up to a handle if it is locked, its place and its size.
function block_of_model(kernel, name, last) {
  const { blocks, listed } = kernel;
  const locks = blocks.locks(name);
  const marked = +(name.vm && listed.get(name.handle)?.marked === true);
  const chunks = locks ? blocks.heap(name).chunks().filter(({ chunk }) => chunk <= last) : [];
  const [from, size] = [blocks.entry(name)?.place ?? 0, blocks.entry(name)?.size ?? 0];
  // An empty chunk has no place, so the program notes the begin of its block.
  const noted = chunks.map(({ chunk, at, len }) => [chunk, from + at, len, hex_of(blocks.region.slice(from + at, from + at + Math.min(len, MOST_BYTES)))]);
  return [+name.vm, name.handle, locks, marked, noted, from, size];
}

// What the program last noted of the block of a slot.
class View {
  constructor() {
    [this.name, this.highest, this.step, this.text] = ["", LAST_CHUNK, 0, ""];
  }

  // The note of a block, if it is a new one.
  look(kernel, name, step) {
    const key = key_of(name);
    const last = this.name === key ? Math.min(Math.max(this.highest, FIRST_CHUNK) + 2 * (step - this.step), LAST_CHUNK) : LAST_CHUNK;
    const block = block_of_model(kernel, name, last);
    const text = JSON.stringify(block);
    const is_new = text !== this.text;
    [this.name, this.highest, this.step, this.text] = [key, Math.max(0, ...block[4].map(([chunk]) => chunk)), step, text];
    return is_new ? [[step, ...block]] : [];
  }
}

// How a run in the model differs from the program's, or nothing.
function difference({ text, words, region, run }) {
  const program = new Program(new Explained(text, [{ kind: "page", shows: "faulty" }]).routines);
  const machine = new Machine(program, new Kernel(region), program.number_of("main"), words);
  const views = [0, 1, 2, 3].map(() => new View());
  const wanted = run.blocks.map((row) => JSON.stringify(row));
  let row = 0;
  for (let step = 0; step < run.states.length; step++) {
    const line = machine.next?.line.number;
    if (JSON.stringify(state_of_model(machine)) !== JSON.stringify(run.states[step])) return `state ${step} at line ${line}: ${state_of_model(machine)} instead of ${run.states[step]}`;
    const noted = machine.names.flatMap((name, slot) => name.handle ? views[slot].look(machine.kernel, name, step) : []);
    for (const found of noted) {
      if (JSON.stringify(found) !== wanted[row]) return `blocks at ${step}, line ${line}: ${JSON.stringify(found)} instead of ${wanted[row]}`;
      row++;
    }
    if (!machine.step()) return `fault at ${step}, line ${line}: ${machine.fault.said}`;
  }
  if (row !== wanted.length) return "blocks are missing";
  if (machine.output.join() !== run.output.join()) return "output";
  return machine.has_returned && machine.steps === run.steps ? "" : "end";
}

const cases = JSON.parse(document.getElementById("cases").textContent);
const found = cases.map((one) => [one.seed, difference(one)]).filter(([, said]) => said);
const steps = cases.reduce((sum, { run }) => sum + run.states.length, 0);
window.tell(`${cases.length} routines, ${steps} steps, ${found.length ? found.slice(0, 3).map(([seed, said]) => `${seed}: ${said}`).join("; ") : "all agree"}`);
