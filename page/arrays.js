// Arrays in chunks of a heap, as docs/ARRAYS.md describes them and the crate chunk_array makes them.

const HEADER = 8;

/** @typedef {{at: number, len: number, count: number, size: number}} Shape where an array is, its count, and the size of its elements */

class Arrays {
  /** @param {Heap} heap */
  constructor(heap) {
    this.heap = heap;
  }

  /** @returns {Shape} the array that a chunk's bytes encode */
  shape(chunk) {
    const { at, len } = this.heap.place(chunk);
    const word = (offset) => this.heap.get(at + offset);
    const has_header = len >= HEADER && word(4) === 0 && word(6) === HEADER;
    require_that(has_header, REFUSED.array);
    const shape = { at, len, count: word(0), size: word(2) };
    const fits = shape.size ? len === HEADER + shape.count * shape.size : this.are_offsets(shape);
    require_that(fits, REFUSED.array);
    return shape;
  }

  are_offsets({ at, len, count }) {
    const first = HEADER + 2 * count;
    if (count === 0) return len === first;
    if (first > len || this.heap.get(at + HEADER) !== first) return false;
    for (let i = 1; i < count; i++) {
      if (this.offset(at, i) < this.offset(at, i - 1)) return false;
    }
    return this.offset(at, count - 1) <= len;
  }

  offset(at, i) {
    return this.heap.get(at + HEADER + 2 * i);
  }

  put_offset(at, i, offset) {
    this.heap.put(at + HEADER + 2 * i, offset);
  }

  /** Where an element begins in its chunk. */
  start({ at, len, count, size }, i) {
    if (size) return HEADER + i * size;
    return i < count ? this.offset(at, i) : len;
  }

  /** @returns {Place} an element's place in the block */
  element(chunk, i) {
    const shape = this.shape(chunk);
    require_that(i < shape.count, REFUSED.element);
    const begin = this.start(shape, i);
    return { at: shape.at + begin, len: this.start(shape, i + 1) - begin };
  }

  create(size) {
    const chunk = this.heap.alloc(HEADER);
    this.put_header(chunk, size);
    return chunk;
  }

  put_header(chunk, size) {
    const { at } = this.heap.place(chunk);
    [0, size, 0, HEADER].forEach((word, n) => this.heap.put(at + 2 * n, word));
  }

  clear(chunk) {
    const { len, size } = this.shape(chunk);
    this.heap.delete(chunk, HEADER, len - HEADER);
    this.put_header(chunk, size);
  }

  append(chunk, len) {
    this.insert_at(chunk, this.shape(chunk), this.shape(chunk).count, len);
  }

  insert(chunk, i, len) {
    const shape = this.shape(chunk);
    require_that(i <= shape.count, REFUSED.element);
    this.insert_at(chunk, shape, i, len);
  }

  insert_at(chunk, shape, i, len) {
    const begin = this.start(shape, i);
    const room = shape.size || len + 2;
    require_that(room <= 65535, REFUSED.big);
    this.heap.insert(chunk, begin, room);
    const { at } = this.heap.place(chunk);
    if (!shape.size) this.open_table(at, shape.count, i, begin, len);
    this.heap.put(at, shape.count + 1);
  }

  /** Inserts an element's offset into the table. */
  open_table(at, count, i, begin, len) {
    const here = at + HEADER + 2 * i;
    this.heap.move(here, here + 2, begin - (HEADER + 2 * i));
    this.shift(at, 0, i, 2);
    this.put_offset(at, i, begin + 2);
    this.shift(at, i + 1, count + 1, len + 2);
  }

  shift(at, from, to, by) {
    for (let i = from; i < to; i++) this.put_offset(at, i, this.offset(at, i) + by);
  }

  remove(chunk, i) {
    const shape = this.shape(chunk);
    require_that(i < shape.count, REFUSED.element);
    const begin = this.start(shape, i);
    const len = this.start(shape, i + 1) - begin;
    if (!shape.size) this.close_table(shape, i, begin, len);
    this.heap.put(shape.at, shape.count - 1);
    const room = shape.size || len + 2;
    this.heap.delete(chunk, begin + len - room, room);
  }

  /** Deletes an element's offset from the table. */
  close_table({ at, count }, i, begin, len) {
    const here = HEADER + 2 * i;
    this.heap.move(at + here + 2, at + here, begin - (here + 2));
    this.shift(at, 0, i, -2);
    this.shift(at, i, count - 1, -(len + 2));
  }

  resize(chunk, i, len) {
    const shape = this.shape(chunk);
    require_that(shape.size === 0, REFUSED.array);
    require_that(i < shape.count, REFUSED.element);
    const begin = this.start(shape, i);
    const has = this.start(shape, i + 1) - begin;
    if (len > has) this.heap.insert(chunk, begin + has, len - has);
    else this.heap.delete(chunk, begin + len, has - len);
    this.shift(this.heap.place(chunk).at, i + 1, shape.count, len - has);
  }
}
