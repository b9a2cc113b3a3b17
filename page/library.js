// The library for C as a WebAssembly module. Its addresses have 64 bits, so they are BigInts here.

const DONE = 0;
const SHORT_BUFFER = 115;
// The kind of a step that writes.
const WRITE = 1;
// How many words a run outputs at most, and how many handles a call lists at most here.
const MOST_WORDS = 1024;
const MOST_LISTED = 4096;
const SLOTS = [0, 1, 2, 3];
// How many bytes a state and the place of a block have in takhvoi.h, and how many blocks can be in memory.
const STATE_SIZE = 80;
const PLACE_SIZE = 16;
const MOST_PLACES = 2048;
// How many instructions an image has at most.
const MOST_INSTRUCTIONS = 65536;
// Effects as geos names them, with their bits in takhvoi.h, in the order in which geos prints them.
const EFFECTS = [["output", 1], ...SLOTS.map((slot) => [`reads s${slot}`, 1 << (8 + slot)]), ...SLOTS.map((slot) => [`changes s${slot}`, 1 << (12 + slot)]),
  ["memory", 2], ["locks by handle", 4], ["reads file", 8], ["changes file", 16], ["map", 32], ["commits", 64]];

const utf8 = { bytes: (text) => new TextEncoder().encode(text), text: (bytes) => new TextDecoder().decode(bytes) };

class Library {
  // `reasons` has for each status of takhvoi.h what it says.
  constructor(instance, reasons) {
    [this.exports, this.reasons] = [instance.exports, reasons];
  }

  static async load(bytes, reasons) {
    return new Library((await WebAssembly.instantiate(bytes, {})).instance, reasons);
  }

  // Throws an Error if a call was not done.
  check(status) {
    if (status !== DONE) throw new Error(this.reasons[status] || `error ${status}`);
  }

  get view() {
    return new DataView(this.exports.memory.buffer);
  }

  bytes(at, len) {
    return new Uint8Array(this.exports.memory.buffer, Number(at), len);
  }

  // Gives `work` places for so many bytes each, and frees them afterwards.
  with_room(sizes, work) {
    const places = sizes.map((size) => this.exports.page_alloc(BigInt(Math.max(size, 1))));
    try {
      if (places.includes(0n)) throw new Error("there is no memory");
      return work(...places);
    } finally {
      for (const place of places) this.exports.page_free(place);
    }
  }

  // A copy of the module's memory, which has all that the library knows.
  get memory() {
    return new Uint8Array(this.exports.memory.buffer).slice();
  }

  put_memory(bytes) {
    new Uint8Array(this.exports.memory.buffer).set(bytes);
  }

  // What `work` returns if the module has another memory. Afterwards it has the one that it has now.
  with_memory(bytes, work) {
    const now = this.memory;
    this.put_memory(bytes);
    try {
      return work();
    } finally {
      this.put_memory(now);
    }
  }

  // So many numbers of 16 or 32 bits from a place on.
  numbers(at, bits, count) {
    return Array.from({ length: count }, (_, n) => this.number(at + BigInt(n * bits / 8), bits));
  }

  number(at, bits) {
    const { view } = this;
    return bits === 16 ? view.getUint16(Number(at), true) : bits === 32 ? view.getUint32(Number(at), true) : Number(view.getBigUint64(Number(at), true));
  }

  // What a call of texts or bytes returns: its status, its bytes, and the numbers of 64 bits after them.
  convert(name, text, more = 0) {
    const given = typeof text === "string" ? utf8.bytes(text) : text;
    for (let room = 1 << 16; ; room *= 4) {
      const found = this.with_room([given.length, room, 8 * (1 + more)], (from, into, told) => {
        this.bytes(from, given.length).set(given);
        const places = Array.from({ length: 1 + more }, (_, n) => told + BigInt(8 * n));
        const status = this.exports[name](from, BigInt(given.length), into, BigInt(room), ...places);
        const numbers = places.map((place) => this.number(place, 64));
        return { status, numbers, bytes: status === DONE ? this.bytes(into, numbers[0]).slice() : null };
      });
      if (found.status !== SHORT_BUFFER) return found;
    }
  }

  // What `geos explain` prints of a text, and the line of its first fault, or 0.
  explain(text) {
    const { status, numbers, bytes } = this.convert("takhvoi_explain_text", text, 2);
    this.check(status);
    return { said: utf8.text(bytes), line: numbers[1] };
  }

  // The image of a text, or null if there is none.
  assemble(text) {
    return this.convert("takhvoi_assemble", text).bytes;
  }

  // The first fault of a source of the structured language: its line, or 0 if there is none, and its sentence.
  explain_source(source) {
    const { status, numbers, bytes } = this.convert("takhvoi_explain_source", source, 2);
    this.check(status);
    return { said: utf8.text(bytes), line: numbers[1] };
  }

  // The line of each instruction of a text without faults.
  lines(text) {
    const given = utf8.bytes(text);
    return this.with_room([given.length, 4 * MOST_INSTRUCTIONS, 8], (from, into, told) => {
      this.bytes(from, given.length).set(given);
      this.check(this.exports.takhvoi_lines(from, BigInt(given.length), into, BigInt(MOST_INSTRUCTIONS), told));
      return this.numbers(into, 32, this.number(told, 64));
    });
  }

  // The listing of the image of a source without a fault.
  compiled(source) {
    const { status, bytes } = this.convert("takhvoi_compile", source);
    this.check(status);
    return utf8.text(this.convert("takhvoi_list", bytes).bytes);
  }
}

// The states of a machine before steps, as takhvoi_trace tells them.
class States {
  constructor(bytes) {
    this.view = new DataView(bytes.buffer);
  }

  instruction(n) {
    return this.view.getUint32(n * STATE_SIZE, true);
  }

  // Whether the verifier knows where a pointer leads.
  is_good(n, pointer) {
    return (this.view.getUint16(n * STATE_SIZE + 78, true) >> pointer & 1) === 1;
  }

  at(n) {
    const from = n * STATE_SIZE;
    const wide = (offset) => SLOTS.map((k) => this.view.getUint32(from + offset + 4 * k, true));
    const words = (offset, count) => Array.from({ length: count }, (_, k) => this.view.getUint16(from + offset + 2 * k, true));
    const [held] = words(76, 1);
    return { pointers: wide(4), spans: wide(20), slots: wide(36), words: words(52, 8), counters: words(68, 4), held: SLOTS.map((slot) => (held >> slot & 1) === 1) };
  }
}

// A kernel of the library, and its VM file in this page's memory.
class ProvedKernel {
  constructor(library, area = 65536, region = 65536) {
    [this.library, this.region] = [library, region];
    this.at = library.exports.page_alloc(16n);
    library.bytes(this.at, 16).fill(0);
    this.room = library.exports.page_alloc(4096n);
    this.file = new Uint8Array(1024 + 2 * area);
    this.check(library.exports.takhvoi_create(this.at, area, region));
    this.perform();
  }

  close() {
    this.library.exports.takhvoi_close(this.at);
    this.library.exports.page_free(this.at);
    this.library.exports.page_free(this.room);
  }

  check(status) {
    this.library.check(status);
  }

  // A call by its name in takhvoi.h, with numbers of so many bits as its results: the status, then the numbers.
  call(name, bits, ...words) {
    const places = bits.map((_, n) => this.room + BigInt(8 * n));
    const status = this.library.exports["takhvoi_" + name](this.at, ...words, ...places);
    return [status, ...places.map((place, n) => this.library.number(place, bits[n]))];
  }

  // Performs on the file what the kernel has noted.
  perform() {
    for (let number = 0; ; number++) {
      const [status, kind, at, len] = this.call("step", [16, 64, 64], number);
      this.check(status);
      if (!kind) break;
      if (kind !== WRITE) continue;
      const bytes = this.library.with_room([len], (into) => {
        this.check(this.library.exports.takhvoi_step_bytes(this.at, number, 0n, into, BigInt(len)));
        return this.library.bytes(into, len).slice();
      });
      this.file.set(bytes, at);
    }
    this.check(this.call("performed", [])[0]);
  }

  // Loads an image that the verifier accepts, and returns its number.
  load(image) {
    return this.library.with_room([image.length], (from) => {
      this.library.bytes(from, image.length).set(image);
      const [status, number] = this.call("load", [32, 64, 32], from, BigInt(image.length));
      this.check(status);
      return number;
    });
  }

  // What a routine does, as geos says it.
  effects(image, name) {
    const [status, bits] = this.call("effects", [32], image, this.routine(image, name));
    this.check(status);
    return EFFECTS.filter(([, bit]) => bits & bit).map(([said]) => said).join(", ") || "none";
  }

  // The number of a routine, or null.
  routine(image, name) {
    const bytes = utf8.bytes(name);
    return this.library.with_room([bytes.length], (from) => {
      this.library.bytes(from, bytes.length).set(bytes);
      const [status, routine] = this.call("routine", [16], image, from, BigInt(bytes.length));
      return status === DONE ? routine : null;
    });
  }

  // Gives `work` places for the words w0 to w7 and the lent blocks of a call, and then for so many bytes each.
  with_call(words, lent, sizes, work) {
    return this.library.with_room([16, 8, ...sizes], (from, blocks, ...places) => {
      const put = (at, numbers, count) => {
        for (let n = 0; n < count; n++) this.library.view.setUint16(Number(at) + 2 * n, numbers[n] || 0, true);
      };
      put(from, words, 8);
      put(blocks, lent, 4);
      return work(from, blocks, ...places);
    });
  }

  // Runs a routine with the words w0 to w7 and lent blocks: its status and its output.
  run(image, routine, words, lent) {
    return this.with_call(words, lent, [2 * MOST_WORDS, 8], (from, blocks, into, told) => {
      const status = this.library.exports.takhvoi_run(this.at, image, routine, from, blocks, into, BigInt(MOST_WORDS), told, told + 4n);
      const output = this.library.numbers(into, 16, status === DONE ? this.library.number(told, 32) : 0);
      if (status === DONE) this.perform();
      return { status, output };
    });
  }

  // Runs a routine, and returns its words and output, how many steps it took, and at most so many states before them.
  trace(image, routine, words, lent, most) {
    return this.with_call(words, lent, [2 * MOST_WORDS, 8, STATE_SIZE * most], (from, blocks, into, told, noted) => {
      this.check(this.library.exports.takhvoi_trace(this.at, image, routine, from, blocks, into, BigInt(MOST_WORDS), told, told + 4n, 0, noted, BigInt(most)));
      const [count, steps] = this.library.numbers(told, 32, 2);
      const states = new States(this.library.bytes(noted, STATE_SIZE * Math.min(steps, most)).slice());
      return { words: this.library.numbers(from, 16, 8), output: this.library.numbers(into, 16, count), steps, states };
    });
  }

  // What memory has before a step of a run, counted from 0: where blocks are, and the bytes of the region.
  memory_at(image, routine, words, lent, step) {
    return this.with_call(words, lent, [PLACE_SIZE * MOST_PLACES, 8, this.region], (from, blocks, into, told, region) => {
      this.check(this.library.exports.takhvoi_memory_at(this.at, image, routine, from, blocks, step, into, BigInt(MOST_PLACES), told, region, BigInt(this.region)));
      return this.memory_told(into, told, region);
    });
  }

  // What memory has now.
  memory_now() {
    return this.library.with_room([PLACE_SIZE * MOST_PLACES, 8, this.region], (into, told, region) => {
      this.check(this.library.exports.takhvoi_places(this.at, into, BigInt(MOST_PLACES), told));
      this.check(this.library.exports.takhvoi_region(this.at, 0, region, BigInt(this.region)));
      return this.memory_told(into, told, region);
    });
  }

  memory_told(into, told, region) {
    const places = Array.from({ length: this.library.number(told, 32) }, (_, n) => {
      const [block, at, size, locks] = this.library.numbers(into + BigInt(PLACE_SIZE * n), 32, 4);
      return { block, at, size, locks };
    });
    return { places, region: this.library.bytes(region, this.region).slice() };
  }

  // The handles that a call lists.
  list(name, ...words) {
    return this.library.with_room([2 * MOST_LISTED], (into) => {
      const [status, count] = this.call(name, [32], ...words, into, BigInt(MOST_LISTED));
      return status === DONE ? this.library.numbers(into, 16, count) : [];
    });
  }

  // The bytes of a chunk of a block that is locked.
  chunk(block, chunk) {
    const [status, len] = this.call("lsize", [16], block, chunk);
    if (status !== DONE) return new Uint8Array();
    return this.library.with_room([len], (into) => {
      this.check(this.library.exports.takhvoi_read(this.at, block, chunk, 0, into, BigInt(len)));
      return this.library.bytes(into, len).slice();
    });
  }
}
