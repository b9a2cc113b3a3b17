// What there is to say of memory in a play: what lies at a place, what a step did, and what a stale pointer leads to.

const block_words = ({ vm: of_file, handle }) => of_file ? `block ${handle} of the file` : `block ${handle}`;
const hex_bytes = (bytes) => [...bytes].map((byte) => byte.toString(16).padStart(2, "0")).join(" ");
const count_bytes = (n) => n === 1 ? "1 byte" : `${n} bytes`;
/** @param {Instr} instr */
const line_words = ({ line }) => `${place_word} ${line.number}, ${line.text}`;
const with_capital = (text) => text[0].toUpperCase() + text.slice(1);

/** What a byte at an offset of a heap is. */
function part_of_heap(heap, offset) {
  if (offset < TABLE) return "the header";
  if (offset < TABLE + 2 * heap.entries) return `the table entry of chunk ${offset & ~1}`;
  for (const { chunk, at, len } of heap.chunks().filter((one) => one.len)) {
    if (offset >= at && offset < at + len) return `byte ${offset - at} of chunk ${chunk}`;
    if (offset >= at - 2 && offset < at) return `the size word of chunk ${chunk}`;
    if (offset >= at && offset < at - 2 + cost(len)) return `padding after chunk ${chunk}`;
  }
  return part_of_free_chunk(heap, offset);
}

/** What a byte that belongs to no chunk is: a free chunk begins with its size, and the link to the next one. */
function part_of_free_chunk(heap, offset) {
  for (let at = heap.get(FIRST_FREE); at !== 0; at = heap.get(at + 2)) {
    if (offset >= at && offset < at + 2) return "the size word of a free chunk";
    if (offset >= at + 2 && offset < at + 4) return "the link of a free chunk";
  }
  return "a free chunk";
}

/** What lies at a place of the region. @param {Kernel} kernel */
function what_lies_at(kernel, at) {
  const entry = kernel.blocks.in_order().find(({ place, size }) => place <= at && at < place + size);
  return entry ? `${part_of_heap(kernel.blocks.heap(entry.name), at - entry.place)} of ${block_words(entry.name)}` : "no block";
}

// Instructions that free a chunk.
const FREEING = new Set(["LFREE", "IFREE"]);

/** Whether a block is there with a chunk. */
const has_chunk = (kernel, name, chunk) => kernel.blocks.entry(name) !== undefined && kernel.blocks.heap(name).chunks().some((one) => one.chunk === chunk);

/** Where the bytes are now for which a pointer was set, or `null` if they are no longer there. */
function place_now(kernel, { name, chunk, offset, len }) {
  const entry = kernel.blocks.entry(name);
  const found = entry && kernel.blocks.heap(name).chunks().find((one) => one.chunk === chunk);
  return found && offset + len <= found.len ? entry.place + found.at + offset : null;
}

/** What a pointer was set to. @param {Target} target */
function meant_words({ name, chunk, element, offset }) {
  if (element !== null) return `element ${element} of chunk ${chunk} of ${block_words(name)}`;
  return `chunk ${chunk} of ${block_words(name)}${offset ? `, from byte ${offset}` : ""}`;
}

/** @returns {Map<string, {place: number, size: number, name: Name, chunks: Map<number, Place>}>} where blocks and chunks are */
function layout_of(kernel) {
  return new Map(kernel.blocks.in_order().map(({ key, name, place, size }) => {
    const chunks = kernel.blocks.heap(name).chunks().map(({ chunk, at, len }) => [chunk, { at: place + at, len }]);
    return [key, { place, size, name, chunks: new Map(chunks) }];
  }));
}

function chunk_changes(was, now) {
  const said = [];
  for (const [chunk, { at, len }] of now.chunks) {
    const old = was.chunks.get(chunk);
    const name = `chunk ${chunk} of ${block_words(now.name)}`;
    if (!old) said.push(`${name} is new: ${count_bytes(len)} at ${at}`);
    else if (old.len && len && old.at !== at) said.push(`${name} moved from ${old.at} to ${at}`);
    if (old && old.len !== len) said.push(`${name} has ${count_bytes(len)} now, not ${old.len}`);
  }
  for (const chunk of was.chunks.keys()) {
    if (!now.chunks.has(chunk)) said.push(`chunk ${chunk} of ${block_words(now.name)} is free`);
  }
  return said;
}

/** What a step did to blocks and chunks. */
function memory_changes(before, after) {
  const [was, now] = [layout_of(before.kernel), layout_of(after.kernel)];
  const said = [];
  for (const [key, block] of now) {
    const old = was.get(key);
    if (!old) said.push(`${block_words(block.name)} is new: ${count_bytes(block.size)} at ${block.place}`);
    else if (old.size !== block.size) said.push(`${block_words(block.name)} has ${count_bytes(block.size)} now, not ${old.size}`);
    if (old && old.place !== block.place) said.push(`${block_words(block.name)} moved from ${old.place} to ${block.place}`);
    said.push(...chunk_changes(old ?? { chunks: new Map() }, block));
  }
  for (const [key, block] of was) {
    if (!now.has(key)) said.push(`${block_words(block.name)} left the region`);
  }
  return said;
}

/** What a step did to registers and output. */
function register_changes(before, after) {
  const said = [];
  after.words.forEach((word, n) => word !== before.words[n] && said.push(`w${n} = ${word}`));
  after.counters.forEach((left, n) => left !== before.counters[n] && said.push(`k${n} = ${left}`));
  after.held.forEach((held, n) => {
    if (held && !before.held[n]) said.push(`s${n} contains ${block_words(after.names[n])}`);
    if (!held && before.held[n]) said.push(`s${n} is empty`);
  });
  after.targets.forEach((target, n) => {
    const old = before.targets[n];
    if (target && target.set !== old?.set) said.push(`p${n} leads to ${meant_words(target)}, ${count_bytes(target.len)} at ${after.spans[n].at}`);
    else if (target?.stale && !old?.stale) said.push(`p${n} is stale`);
  });
  if (after.output.length > before.output.length) said.push(`output ${after.output[after.output.length - 1]}`);
  return said;
}

/** What an instruction left in memory, if it wrote through a pointer. */
function bytes_changed(before, after) {
  const [was, now] = [before.kernel.blocks.region, after.kernel.blocks.region];
  const from = now.findIndex((byte, n) => byte !== was[n]);
  return from < 0 ? [] : [`${what_lies_at(after.kernel, from)} is ${now[from]}`];
}

/** All that a step did, in words. */
function step_words(before, after) {
  const said = [...register_changes(before, after), ...memory_changes(before, after)];
  return said.length ? said : bytes_changed(before, after);
}

/**
 * @typedef {{pointer: number, at: number, count: number, writes: boolean, found: Uint8Array, lies: string, meant: string,
 *   begin: number | null, meant_at: number | null, meant_bytes: Uint8Array | null}} Through what an access through a pointer leads to, and
 *   what it was meant for; `begin` is where the bytes of the pointer are now
 */

/** @returns {Through | null} what the access of a fault leads to */
function through(machine) {
  const { access } = machine.fault;
  const target = access && machine.targets[access.pointer];
  if (!target) return null;
  const { region } = machine.kernel.blocks;
  const { offset, count, pointer, writes } = access;
  const at = machine.spans[pointer].at + offset;
  const begin = place_now(machine.kernel, target);
  const meant_at = begin === null || offset + count > target.len ? null : begin + offset;
  const bytes = (from) => region.slice(from, from + count);
  const meant_bytes = meant_at === null ? null : bytes(meant_at);
  return { pointer, at, count, writes, found: bytes(at), lies: what_lies_at(machine.kernel, at), meant: meant_words(target), begin, meant_at, meant_bytes };
}
