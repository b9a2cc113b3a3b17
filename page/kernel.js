// Blocks of global memory and of a VM file, as docs/FILES.md describes them. The file is on a device in memory, which never fails.

const AREA = 65536;
const GROUP = 0xff00;

/**
 * @typedef {{uid: number, len: number, marked: boolean}} Listed a block of the current directory
 * @typedef {{uid: number, bytes: Uint8Array}} Kept a block as the device has it
 * @typedef {{blocks: Map<number, Kept>, map_block: number, map_item: [number, number]}} Directory
 */

const mem = (handle) => ({ vm: false, handle });
const vm = (handle) => ({ vm: true, handle });
const empty_directory = () => ({ blocks: new Map(), map_block: 0, map_item: [0, 0] });
/** How many bytes a directory takes in an area. */
const directory_length = (sizes) => sizes.reduce((sum, size) => sum + 6 + size, 8);

class Kernel {
  /** @param {number} region the length of the region in bytes */
  constructor(region) {
    this.blocks = new Blocks(region);
    /** @type {Map<number, Listed>} */
    this.listed = new Map();
    [this.map_block, this.map_item] = [0, [0, 0]];
    /** @type {Directory} */
    this.current = empty_directory();
    /** @type {Directory} */
    this.saved = empty_directory();
  }

  is_group(handle) {
    return this.listed.get(handle)?.uid === GROUP;
  }

  // Room in the region.

  /** Evicts an idle block. @returns {boolean} whether there was one */
  evict(but) {
    const order = this.blocks.in_order();
    const after = order.findIndex(({ place }) => place >= this.blocks.gap.end);
    const turned = after < 0 ? order : [...order.slice(after), ...order.slice(0, after)];
    const idle = turned.find((entry) => entry.key !== but && this.is_idle(entry));
    if (idle) this.blocks.free(idle.name);
    return idle !== undefined;
  }

  /** @param {Entry} entry */
  is_idle({ name, locks }) {
    return name.vm && locks === 0 && this.listed.get(name.handle)?.marked === false;
  }

  /** Evicts idle blocks until there is room. */
  make_room(name, more, is_made) {
    const but = key_of(name);
    while (this.blocks.free_bytes < more && this.evict(but));
    while (!is_made()) require_that(this.evict(but), REFUSED.room);
  }

  make_block(name, size) {
    this.make_room(name, size, () => this.blocks.make(name, size));
  }

  grow(name, size) {
    const old = this.blocks.entry(name).size;
    this.make_room(name, size - old, () => this.blocks.grow(name, size));
    this.blocks.heap(name).enlarge(old);
  }

  /** Does a call on the chunks of a block, again if the block had to grow. */
  on_chunks(name, call) {
    try {
      return call(this.blocks.heap(name));
    } catch (why) {
      if (!(why instanceof NeedMore)) throw why;
      this.grow(name, why.size);
      return call(this.blocks.heap(name));
    }
  }

  // Global memory.

  mnew() {
    const name = mem(this.blocks.lowest_handle());
    this.make_block(name, NEW_BLOCK);
    this.blocks.heap(name).begin(name.handle);
    this.blocks.lock(name);
    return name.handle;
  }

  // The file.

  lowest_listed() {
    for (let handle = 1; handle <= MOST_HANDLES; handle++) {
      if (!this.listed.has(handle)) return handle;
    }
    throw new Refusal(REFUSED.handles);
  }

  make_listed(uid) {
    const handle = this.lowest_listed();
    this.make_block(vm(handle), NEW_BLOCK);
    this.blocks.heap(vm(handle)).begin(handle);
    this.listed.set(handle, { uid, len: NEW_BLOCK, marked: true });
    return handle;
  }

  vnew(uid) {
    require_that(uid !== GROUP, REFUSED.reserved);
    const handle = this.make_listed(uid);
    this.blocks.lock(vm(handle));
    return handle;
  }

  /** Brings a block of the file into memory. */
  bring(handle) {
    const listed = this.listed.get(handle);
    require_that(listed, REFUSED.handle);
    if (this.blocks.entry(vm(handle))) return;
    this.make_block(vm(handle), listed.len);
    this.blocks.heap(vm(handle)).bytes.set(this.current.blocks.get(handle).bytes);
  }

  vlock(handle) {
    require_that(!this.is_group(handle), REFUSED.reserved);
    this.bring(handle);
    this.blocks.lock(vm(handle));
  }

  mark(handle) {
    const listed = this.listed.get(handle);
    if (listed) listed.marked = true;
  }

  free_listed(handle) {
    require_that(this.listed.has(handle), REFUSED.handle);
    require_that(this.blocks.locks(vm(handle)) === 0, REFUSED.locked);
    if (this.blocks.entry(vm(handle))) this.blocks.free(vm(handle));
    this.listed.delete(handle);
    if (this.map_block === handle) this.map_block = 0;
    if (this.map_item[0] === handle) this.map_item = [0, 0];
  }

  vfree(handle) {
    require_that(!this.is_group(handle), REFUSED.reserved);
    this.free_listed(handle);
  }

  vfind(start, uid) {
    require_that(uid !== GROUP, REFUSED.reserved);
    const found = [...this.listed].filter(([handle, listed]) => handle > start && listed.uid === uid).map(([handle]) => handle);
    return found.length ? Math.min(...found) : 0;
  }

  vuid(handle) {
    require_that(this.listed.has(handle), REFUSED.handle);
    return this.listed.get(handle).uid;
  }

  vsetmap(handle) {
    require_that(handle === 0 || this.listed.has(handle), REFUSED.handle);
    require_that(!this.is_group(handle), REFUSED.reserved);
    this.map_block = handle;
  }

  // Commits.

  /** @returns {Directory} the current directory, with the bytes that its blocks have now */
  directory() {
    const handles = [...this.listed.keys()].sort((a, b) => a - b);
    const blocks = new Map(handles.map((handle) => [handle, { uid: this.listed.get(handle).uid, bytes: this.bytes_now(handle) }]));
    return { blocks, map_block: this.map_block, map_item: [...this.map_item] };
  }

  bytes_now(handle) {
    const entry = this.blocks.entry(vm(handle));
    return entry ? this.blocks.region.slice(entry.place, entry.place + entry.size) : this.current.blocks.get(handle).bytes;
  }

  commit(current, saved) {
    const length = ({ blocks }) => directory_length([...blocks.values()].map(({ bytes }) => bytes.length));
    require_that(length(current) + length(saved) <= AREA, REFUSED.big);
    [this.current, this.saved] = [current, saved];
    this.listed = new Map([...current.blocks].map(([handle, { uid, bytes }]) => [handle, { uid, len: bytes.length, marked: false }]));
    [this.map_block, this.map_item] = [current.map_block, current.map_item];
  }

  update() {
    this.commit(this.directory(), this.saved);
  }

  save() {
    const now = this.directory();
    this.commit(now, now);
  }

  revert() {
    this.commit(this.saved, this.saved);
    for (let handle = 1; handle <= MOST_HANDLES; handle++) {
      const entry = this.blocks.entry(vm(handle));
      if (entry?.locks === 0) this.blocks.free(vm(handle));
    }
  }

  // Groups and items.

  gfree(group) {
    require_that(this.is_group(group), REFUSED.handle);
    this.free_listed(group);
  }

  bring_group(group) {
    require_that(this.is_group(group), REFUSED.handle);
    this.bring(group);
  }

  on_group(group, call) {
    this.bring_group(group);
    const result = this.on_chunks(vm(group), call);
    this.mark(group);
    return result;
  }

  /** Locks a group. @returns {Place} the place of an item of it in the region */
  ilock(group, item, least) {
    require_that(!this.is_group(group) || this.blocks.locks(vm(group)) < MOST_LOCKS, REFUSED.locked);
    this.bring_group(group);
    const place = this.place(vm(group), (heap) => heap.place(item), least);
    this.blocks.lock(vm(group));
    return place;
  }

  /** @returns {Place} the place in the region of bytes of a block */
  place(name, find, least) {
    const { at, len } = find(this.blocks.heap(name));
    require_that(len >= least, REFUSED.short);
    return { at: this.blocks.entry(name).place + at, len };
  }

  isetmap(group, item) {
    require_that(group === 0 || this.is_group(group), REFUSED.handle);
    require_that(group !== 0 || item === 0, REFUSED.range);
    this.map_item = [group, item];
  }
}
