// The region with its blocks, as docs/BLOCKS.md describes it and the crate block_handles moves them.

const MOST_HANDLES = 1024;
const MOST_LOCKS = 65535;
const LEAST_ROOM = 4096;
// A freed block becomes the gap if it is larger than this share of the other free bytes.
const SHARE = 16;

/**
 * @typedef {{vm: boolean, handle: number}} Name a block's owner, global memory or the file, and its handle
 * @typedef {{key: string, name: Name, place: number, size: number, locks: number}} Entry a block in the region
 * @typedef {{at: number, end: number}} Gap
 */

/** @param {Name} name */
const key_of = ({ vm, handle }) => `${vm ? "file block" : "block"} ${handle}`;

class Blocks {
  /** @param {number} length the length of the region in bytes */
  constructor(length) {
    this.region = new Uint8Array(length);
    /** @type {Map<string, Entry>} */
    this.entries = new Map();
    /** @type {Gap} */
    this.gap = { at: 0, end: length };
    this.free_bytes = length;
  }

  /** The blocks in the order of their places. */
  in_order() {
    return [...this.entries.values()].sort((a, b) => a.place - b.place);
  }

  entry(name) {
    return this.entries.get(key_of(name));
  }

  locks(name) {
    return this.entry(name)?.locks ?? 0;
  }

  /** @returns {Heap} the heap in a block's bytes, which are those of the region */
  heap(name) {
    const { place, size } = this.entry(name);
    return new Heap(this.region.subarray(place, place + size));
  }

  lowest_handle() {
    for (let handle = 1; handle <= MOST_HANDLES; handle++) {
      if (!this.entry({ vm: false, handle })) return handle;
    }
    throw new Refusal(REFUSED.handles);
  }

  lock(name) {
    const entry = this.entry(name);
    require_that(entry, REFUSED.handle);
    require_that(entry.locks < MOST_LOCKS, REFUSED.locked);
    entry.locks++;
  }

  unlock(name) {
    this.entry(name).locks--;
  }

  free(name) {
    const entry = this.entry(name);
    require_that(entry, REFUSED.handle);
    require_that(entry.locks === 0, REFUSED.locked);
    this.entries.delete(entry.key);
    this.join_gap(entry.place, entry.place + entry.size);
    this.free_bytes += entry.size;
  }

  join_gap(from, end) {
    const { gap } = this;
    if (end === gap.at) gap.at = from;
    else if (from === gap.end) gap.end = end;
    else if (end - from > Math.max(gap.end - gap.at, Math.floor(this.free_bytes / SHARE))) this.gap = { at: from, end };
  }

  /** Makes a block of zeros. @returns {boolean} whether there was room */
  make(name, size) {
    if (this.free_bytes < size) return false;
    const key = key_of(name);
    const gap = this.room_for(this.gap, key, size);
    if (!gap) return false;
    this.region.fill(0, gap.at, gap.at + size);
    this.entries.set(key, { key, name, place: gap.at, size, locks: 0 });
    this.gap = { at: gap.at + size, end: gap.end };
    this.free_bytes -= size;
    return true;
  }

  /** Makes a block longer, by zeros. @returns {boolean} whether there was room */
  grow(name, size) {
    const entry = this.entry(name);
    const more = size - entry.size;
    if (this.free_bytes < more) return false;
    const is_before_gap = entry.place + entry.size === this.gap.at;
    const reaching = is_before_gap ? { ...this.gap, at: entry.place } : this.gap;
    const gap = this.room_for(reaching, entry.key, size);
    if (!gap) return false;
    this.move(entry, gap.at);
    this.region.fill(0, gap.at + entry.size, gap.at + size);
    entry.size = size;
    this.gap = { at: gap.at + size, end: gap.end };
    this.free_bytes -= more;
    return true;
  }

  move(entry, to) {
    this.region.copyWithin(to, entry.place, entry.place + entry.size);
    entry.place = to;
  }

  /** @returns {Gap | null} a free range with room for a block, whose own bytes count as free */
  room_for(gap, key, size) {
    if (gap.end - gap.at >= size) return gap;
    const least = Math.max(size, LEAST_ROOM);
    const found = this.next_roomy(this.gap.end, key, least) || this.next_roomy(0, key, least) || this.roomiest(key);
    return found.room < size ? null : this.pack(found, key);
  }

  /** The stretches between locked blocks, with the room in each. */
  stretches(after, but) {
    const found = [];
    let [from, taken] = [after, 0];
    for (const { key, place, size, locks } of this.in_order()) {
      if (place < after || key === but) continue;
      if (locks) {
        found.push({ from, until: place, room: place - from - taken });
        [from, taken] = [place + size, 0];
      } else {
        taken += size;
      }
    }
    const end = this.region.length;
    return [...found, { from, until: end, room: end - from - taken }];
  }

  next_roomy(after, but, least) {
    return this.stretches(after, but).find(({ room }) => room >= least);
  }

  roomiest(but) {
    return this.stretches(0, but).reduce((best, stretch) => stretch.room > best.room ? stretch : best, { from: 0, until: 0, room: 0 });
  }

  /** Moves the blocks of a stretch together. The blocks before the one that grows move down, and those after it up. */
  pack({ from, until }, key) {
    const own = this.entries.get(key);
    const is_within = own && from <= own.place && own.place < until;
    const within = this.in_order().filter(({ place }) => from <= place && place < until);
    const before = is_within ? within.filter(({ place }) => place < own.place) : within;
    let [at, end] = [from, until];
    for (const entry of before) {
      this.move(entry, at);
      at += entry.size;
    }
    if (!is_within) return { at, end };
    for (const entry of within.filter(({ place, key: other }) => place > own.place && other !== key).reverse()) {
      end -= entry.size;
      this.move(entry, end);
    }
    return { at, end };
  }
}
