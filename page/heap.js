// A heap of chunks in the bytes of a block, as docs/HEAPS.md describes it. Each call does what the crate lmem_heap does, byte for byte.

const [BLOCK_SIZE, ENTRIES, FIRST_FREE, TOTAL_FREE, TABLE] = [8, 10, 12, 14, 16];
const NO_BYTE = 0xffff;
const [NEW_BLOCK, MOST_BLOCK] = [64, 65520];

// The numbers of refusals.
const REFUSED = {
  handle: 1, chunk: 2, short: 3, room: 4, handles: 5, big: 6, locked: 7, array: 8, element: 9, full: 10, range: 14, reserved: 15,
};

// What a refused call throws.
class Refusal {
  /** @param {number} number */
  constructor(number) {
    this.number = number;
  }
}

// What a call throws if the block has to grow first.
class NeedMore {
  /** @param {number} size the size in bytes that the block needs */
  constructor(size) {
    this.size = size;
  }
}

/** Throws a refusal unless a condition holds. */
function require_that(holds, number) {
  if (!holds) throw new Refusal(number);
}

/** The bytes that a chunk of n bytes takes. */
const cost = (n) => n === 0 ? 0 : (n + 5) >> 2 << 2;

/**
 * @typedef {{at: number, len: number}} Place where bytes begin, and how many they are
 * @typedef {{link: number, at: number, end: number}} Hole bytes of no chunk, and the word that names the next free chunk
 */

class Heap {
  /** @param {Uint8Array} bytes the bytes of the block */
  constructor(bytes) {
    this.bytes = bytes;
  }

  /** Makes a block of zeros an empty heap. */
  begin(handle) {
    const first = TABLE + 4;
    const free = this.bytes.length - first;
    [handle, TABLE, 0, 0, this.bytes.length, 2, first, free, 0, 0, free, 0].forEach((word, n) => this.put(2 * n, word));
  }

  get(at) {
    return this.bytes[at] | this.bytes[at + 1] << 8;
  }

  put(at, word) {
    this.bytes[at] = word;
    this.bytes[at + 1] = word >> 8;
  }

  entry(i) {
    return this.get(TABLE + 2 * i);
  }

  put_entry(i, word) {
    this.put(TABLE + 2 * i, word);
  }

  get entries() {
    return this.get(ENTRIES);
  }

  /** The index of a chunk's entry. */
  find(chunk) {
    const i = (chunk - TABLE) / 2;
    require_that(chunk >= TABLE && chunk % 2 === 0 && i < this.entries && this.entry(i) !== 0, REFUSED.chunk);
    return i;
  }

  /** @returns {Place} where the bytes of an entry's chunk are in the block */
  place_of(i) {
    const at = this.entry(i);
    return at === NO_BYTE ? { at: 0, len: 0 } : { at, len: this.get(at - 2) - 2 };
  }

  /** @returns {Place} */
  place(chunk) {
    return this.place_of(this.find(chunk));
  }

  /** @returns {(Place & {chunk: number})[]} the chunks by their handles */
  chunks() {
    const all = [];
    for (let i = 0; i < this.entries; i++) {
      if (this.entry(i) !== 0) all.push({ chunk: TABLE + 2 * i, ...this.place_of(i) });
    }
    return all;
  }

  alloc(len) {
    const i = this.lowest_entry();
    const used = this.used + cost(len);
    this.test_room(i === this.entries ? used + 4 : used);
    if (i === this.entries) this.grow_table();
    this.make_chunk(i, len);
    return TABLE + 2 * i;
  }

  free(chunk) {
    this.release(this.find(chunk));
  }

  realloc(chunk, len) {
    this.resize(this.find(chunk), len);
  }

  insert(chunk, at, count) {
    const i = this.find(chunk);
    const { len } = this.place_of(i);
    require_that(at <= len, REFUSED.range);
    this.resize(i, len + count);
    const begin = this.place_of(i).at + at;
    this.move(begin, begin + count, len - at);
    this.clear(begin, count);
  }

  delete(chunk, at, count) {
    const i = this.find(chunk);
    const { at: begin, len } = this.place_of(i);
    require_that(at + count <= len, REFUSED.range);
    this.move(begin + at + count, begin + at, len - (at + count));
    this.resize_chunk(i, len - count);
  }

  /** Moves the chunks together. */
  contract() {
    while (!this.is_compact) this.close_gap();
  }

  /** Makes the bytes free by which the block has grown. */
  enlarge(old_size) {
    this.put(BLOCK_SIZE, this.bytes.length);
    this.give_back(this.hole_at(old_size, this.bytes.length));
  }

  get used() {
    return this.bytes.length - this.get(TOTAL_FREE);
  }

  test_room(used) {
    if (used <= this.bytes.length) return;
    const size = (used + 15) >> 4 << 4;
    require_that(size <= MOST_BLOCK, REFUSED.big);
    throw new NeedMore(size);
  }

  lowest_entry() {
    let i = 0;
    while (i < this.entries && this.entry(i) !== 0) i++;
    return i;
  }

  move(from, to, count) {
    this.bytes.copyWithin(to, from, from + count);
  }

  clear(at, count) {
    this.bytes.fill(0, at, at + count);
  }

  /** Moves chunks, with their entries. */
  move_run(from, end, to) {
    if (from === to) return;
    this.move(from, to, end - from);
    for (let i = 0; i < this.entries; i++) {
      const at = this.entry(i);
      if (from < at && at < end) this.put_entry(i, at - from + to);
    }
  }

  /** Packs the heap, and makes room for two entries. */
  grow_table() {
    this.contract();
    const n = this.entries;
    const [end, at] = [TABLE + 2 * n, this.used];
    this.move_run(end, at, end + 4);
    this.put(end, 0);
    this.put(end + 2, 0);
    this.put(ENTRIES, n + 2);
    this.set_tail(at + 4);
  }

  /** All bytes from here on are one free chunk. */
  set_tail(at) {
    const free = this.bytes.length - at;
    this.put(TOTAL_FREE, free);
    this.put(FIRST_FREE, free ? at : 0);
    if (!free) return;
    this.put(at, free);
    this.put(at + 2, 0);
  }

  make_chunk(i, n) {
    if (this.place_chunk(i, n)) return;
    this.contract();
    this.place_chunk(i, n);
  }

  place_chunk(i, n) {
    if (n === 0) {
      this.put_entry(i, NO_BYTE);
      return true;
    }
    const hole = this.first_fit(cost(n));
    if (hole) this.fill(this.take(hole, cost(n)), i, 0, n);
    return hole !== null;
  }

  release(i) {
    if (this.entry(i) === NO_BYTE) this.put_entry(i, 0);
    else this.give_back(this.hole_of(i));
  }

  resize(i, n) {
    this.test_room(this.used - cost(this.place_of(i).len) + cost(n));
    this.resize_chunk(i, n);
  }

  resize_chunk(i, n) {
    if (n === 0 || this.entry(i) === NO_BYTE) {
      this.release(i);
      this.make_chunk(i, n);
    } else if (!this.resize_beside(i, n) && !this.move_away(i, n)) {
      this.contract();
      this.resize_packed(i, n);
    }
  }

  /** Writes the new length, and zeros after the old bytes. */
  set_length(i, n) {
    const { at, len } = this.place_of(i);
    this.put(at - 2, n + 2);
    this.clear(at + len, Math.max(0, n - len));
  }

  resize_beside(i, n) {
    const { len } = this.place_of(i);
    if (cost(len) === cost(n)) {
      this.set_length(i, n);
      return true;
    }
    const hole = this.hole_of(i);
    const wide = this.widen(hole, cost(n));
    if (wide) this.give_back(this.fill(wide, i, len, n));
    else this.fill(hole, i, len, len);
    return wide !== null;
  }

  move_away(i, n) {
    const found = this.first_fit(cost(n));
    if (!found) return false;
    const hole = this.take(found, cost(n));
    const { at, len } = this.place_of(i);
    const keep = Math.min(len, n);
    this.put_entry(i, hole.at + 2);
    this.put(hole.at, n + 2);
    this.move(at, hole.at + 2, keep);
    this.clear(hole.at + 2 + keep, n - keep);
    this.give_back(this.hole_at(at - 2, at - 2 + cost(len)));
    return true;
  }

  /** Resizes a chunk in a packed heap: the chunks after it move. */
  resize_packed(i, n) {
    const { at, len } = this.place_of(i);
    const [from, until, end] = [at - 2 + cost(len), this.used, at - 2 + cost(n)];
    this.move_run(from, until, end);
    this.set_length(i, n);
    this.set_tail(end + until - from);
  }

  get is_compact() {
    const first = this.get(FIRST_FREE);
    return first === 0 || first + this.get(first) === this.bytes.length;
  }

  /** The chunks after the first free chunk move down, and it joins the next free chunk. */
  close_gap() {
    const first = this.get(FIRST_FREE);
    const [size, next] = [this.get(first), this.get(first + 2)];
    const end = next || this.bytes.length;
    const [more, after] = next ? [this.get(next), this.get(next + 2)] : [0, 0];
    this.move_run(first + size, end, first);
    this.put(end - size, size + more);
    this.put(end - size + 2, after);
    this.put(FIRST_FREE, end - size);
  }

  /** @returns {Hole} a hole, with the word that names the first free chunk after it */
  hole_at(at, end) {
    let link = FIRST_FREE;
    for (let next = this.get(link); next !== 0 && next < at; next = this.get(link)) link = next + 2;
    return { link, at, end };
  }

  /** Removes a chunk, and leaves a hole. */
  hole_of(i) {
    const { at, len } = this.place_of(i);
    this.put_entry(i, 0);
    return this.hole_at(at - 2, at - 2 + cost(len));
  }

  /** @returns {Hole | null} an empty hole before the first free chunk that is large enough */
  first_fit(size) {
    let link = FIRST_FREE;
    for (let next = this.get(link); next !== 0; next = this.get(link)) {
      if (this.get(next) >= size) return { link, at: next, end: next };
      link = next + 2;
    }
    return null;
  }

  /** The front of the hole becomes the chunk of an entry. */
  fill({ link, at, end }, i, keep, n) {
    this.put_entry(i, at + 2);
    this.put(at, n + 2);
    this.clear(at + 2 + keep, Math.max(0, n - keep));
    return { link, at: at + cost(n), end };
  }

  /** Takes from the free chunk after a hole what the hole needs, if that is enough. */
  widen(hole, size) {
    const has = hole.end - hole.at;
    if (has >= size) return hole;
    const is_beside = this.get(hole.link) === hole.end;
    return is_beside && this.get(hole.end) >= size - has ? this.take(hole, size - has) : null;
  }

  /** The front of the free chunk after the hole joins the hole. */
  take({ link, at, end }, size) {
    const [left, next] = [this.get(end) - size, this.get(end + 2)];
    if (left) {
      this.put(end + size, left);
      this.put(end + size + 2, next);
    }
    this.put(link, left ? end + size : next);
    this.put(TOTAL_FREE, this.get(TOTAL_FREE) - size);
    return { link, at, end: end + size };
  }

  /** The hole's bytes are free, one chunk with the free chunks that touch it. */
  give_back(hole) {
    if (hole.at === hole.end) return;
    const is_beside = this.get(hole.link) === hole.end;
    const { link, at, end } = is_beside ? this.take(hole, this.get(hole.end)) : hole;
    const before = link - 2;
    this.put(TOTAL_FREE, this.get(TOTAL_FREE) + end - at);
    if (link !== FIRST_FREE && before + this.get(before) === at) {
      this.put(before, end - before);
      return;
    }
    const next = this.get(link);
    this.put(at, end - at);
    this.put(at + 2, next);
    this.put(link, at);
  }
}
