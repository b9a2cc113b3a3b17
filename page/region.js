// The region: blocks as frames, with chunks and pointers.

// As wide as it is shown, so that letters keep their size.
const WIDTH = window.innerWidth < 900 ? Math.max(320, window.innerWidth - 30) : Math.min(1000, window.innerWidth / 2);
const [TOP, HIGH, EDGE] = [40, 40, 14];
// The width of a letter of a frame's name.
const LETTER = 8;

class Region {
  constructor(run, choose) {
    this.run = run;
    this.choose = choose;
    this.pieces = new Map();
    const blocks = [...run.blocks.values()].flat().map((entry) => entry.block).filter((b) => b.is_there);
    const from = Math.min(...blocks.map((b) => b.from), Infinity);
    const to = Math.max(...blocks.map((b) => b.to), 0);
    this.is_empty = !blocks.length;
    this.from = Math.max(0, Math.floor((from - 24) / 16) * 16);
    this.to = Math.max(this.from + 64, Math.ceil((to + 16) / 16) * 16);
    this.svg = draw("svg", { viewBox: `0 0 ${WIDTH} 150`, role: "img" });
    this.below = draw("g");
    this.above = draw("g");
    this.svg.append(this.axis(), this.below, this.above);
  }

  x(at) {
    return EDGE + (at - this.from) / (this.to - this.from) * (WIDTH - 2 * EDGE);
  }

  axis() {
    const group = draw("g");
    group.append(draw("line", { class: "axis-line", x1: EDGE, x2: WIDTH - EDGE, y1: TOP + HIGH, y2: TOP + HIGH }));
    const parts = WIDTH < 500 ? 4 : 8;
    for (let n = 0; n <= parts; n++) {
      const at = Math.round(this.from + (this.to - this.from) * n / parts);
      group.append(draw("text", { class: "axis", x: this.x(at), y: 142, "text-anchor": n ? n < parts ? "middle" : "end" : "start" }, String(at)));
    }
    return group;
  }

  // A piece that stays while it moves.
  piece(key, make) {
    if (!this.pieces.has(key)) {
      this.pieces.set(key, make());
      this.below.append(this.pieces.get(key));
    }
    return this.pieces.get(key);
  }

  width(from, to) {
    return Math.max(3, this.x(to) - this.x(from));
  }

  put_chunk(block, c, used) {
    const key = block.key + " chunk " + c.chunk;
    const group = this.piece(key, () => {
      const rect = draw("rect", { y: TOP + 6, height: HIGH - 12, rx: 2, fill: fill_of(c.chunk), stroke: line_of(c.chunk) });
      return draw("g", { class: "move" }, draw("title"), rect, draw("text", { class: "handle", y: TOP + 24, "text-anchor": "middle" }));
    });
    const wide = this.width(c.at, c.at + c.len);
    group.style.transform = `translate(${this.x(c.at)}px, 0)`;
    group.children[0].textContent = `chunk ${c.chunk} of ${block.key}: ${c.len} bytes at ${c.at}`;
    group.children[1].setAttribute("width", wide);
    group.children[2].setAttribute("x", wide / 2);
    group.children[2].textContent = wide > 20 ? String(c.chunk) : "";
    used.add(key);
  }

  // A frame, with a name that fits into the room before the next frame.
  put_frame(block, chosen, slots, room, used) {
    const group = this.piece(block.key, () => {
      const outer = draw("rect", { y: TOP, height: HIGH, rx: 4, x: 1 });
      const inner = draw("rect", { class: "inner", y: TOP + 3, height: HIGH - 6, rx: 2, x: 4 });
      const made = draw("g", {}, draw("title"), outer, inner, draw("text", { y: TOP - 7, x: 1 }));
      made.addEventListener("click", () => this.choose(block.key));
      return made;
    });
    const kinds = [block.vm && "vm", !block.locks && "free", block.key === chosen && "chosen"].filter((kind) => kind);
    group.setAttribute("class", ["move", "frame", ...kinds].join(" "));
    group.style.transform = `translate(${this.x(block.from)}px, 0)`;
    group.children[0].textContent = `${block.key}, ${block.locks ? "locked " + times(block.locks) : "not locked: it was here last"}`;
    const wide = this.width(block.from, block.to);
    group.children[1].setAttribute("width", Math.max(1, wide - 2));
    group.children[2].setAttribute("width", Math.max(1, wide - 8));
    const said = block.locks ? [block.key, ...slots].join(" \u2190 ") : `${block.key}, not locked`;
    group.children[3].textContent = [said, block.key, ""].find((name) => name.length * LETTER <= room);
    used.add(block.key);
  }

  // Where a block lay before, and an arrow from there.
  moved(was, now) {
    const [old, to] = [(this.x(was.from) + this.x(was.to)) / 2, (this.x(now.from) + this.x(now.to)) / 2];
    const y = TOP - 3;
    this.above.append(
      draw("rect", { class: "ghost", x: this.x(was.from) + 1, y: TOP, width: this.width(was.from, was.to) - 2, height: HIGH, rx: 4 }),
      draw("path", { class: "path", d: `M${old} ${y}C${old} ${y - 34} ${to} ${y - 34} ${to} ${y - 4}` }),
      draw("path", { class: "tip", d: `M${to - 5} ${y - 8}h10l-5 8z` }),
    );
  }

  // An arrow from a pointer's name to the byte that it leads to.
  pointer(number, target) {
    const kind = target.stale ? "stale" : "good";
    const x = Math.max(EDGE, Math.min(WIDTH - EDGE, this.x(target.at)));
    const [y, low] = [TOP + HIGH, TOP + HIGH + 28];
    const from = Math.max(20, Math.min(WIDTH - 30, x + (number - 1.5) * 26));
    this.above.append(
      draw("path", { class: "arrow " + kind, d: `M${from} ${low}L${x} ${y - 2}m-4 8l4 -8l5 7` }),
      draw("text", { class: "label " + kind, x: from - 8, y: low + 13 }, "p" + number),
    );
  }

  show(place, chosen) {
    const used = new Set();
    const blocks = this.run.blocks_in_memory(place);
    this.above.replaceChildren();
    for (const block of blocks) {
      for (const c of block.chunks) this.put_chunk(block, c, used);
      const next = blocks.map((other) => other.from).filter((from) => from > block.from);
      const room = next.length ? this.x(Math.min(...next)) - this.x(block.from) - 4 : Infinity;
      this.put_frame(block, chosen, this.run.slots_of(block, place), room, used);
      const was = this.run.moved_from(block, place);
      if (was) this.moved(was, block);
    }
    for (const [key, piece] of this.pieces) piece.style.display = used.has(key) ? "" : "none";
    this.run.targets[place].forEach((target, n) => target && this.pointer(n, target));
    const said = blocks.map((b) => `${b.key} at ${b.from} to ${b.to}${b.locks ? "" : ", not locked"}`).join("; ");
    this.svg.setAttribute("aria-label", "The region: " + (said || "no block yet"));
  }
}
