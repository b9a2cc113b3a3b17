// The control-flow graph of a routine. Its nodes are below one another, in the order of the text; jumps on go along lanes on the right,
// and loops on the left.

const [ROW, GAP, LANE, LETTER] = [19, 20, 11, 7.3];

class Graph {
  constructor(routine, labels) {
    this.code = routine.lines.filter((line) => line.op);
    this.names = this.names_of(routine.lines);
    this.edges = this.code.flatMap((line, from) => this.edge_of(line, from, labels));
    this.loops = this.edges.filter((edge) => edge.op === "LOOP" && edge.to <= edge.from).map((edge) => loop_of(this.code, edge.to, edge.from));
    this.nodes = this.nodes_of();
  }

  // The labels of each instruction, also those on lines before it.
  names_of(lines) {
    const names = new Map();
    let waiting = [];
    for (const line of lines) {
      waiting.push(...line.labels);
      if (!line.op) continue;
      names.set(line, waiting);
      waiting = [];
    }
    return names;
  }

  edge_of(line, from, labels) {
    if (!line.target) return [];
    const to = this.code.findIndex((other) => this.names.get(other).includes(line.target));
    const kind = !JUMPS.has(line.op) ? "refusal" : to >= 0 && to <= from ? "loop" : "jump";
    if (to >= 0) return [{ from, to, kind, op: line.op }];
    return labels.has(line.target) ? [{ from, to: null, kind: "outside", op: line.op }] : [];
  }

  // Instructions that run one after another, unless one leaves through its edge.
  nodes_of() {
    const heads = new Set([0, ...this.edges.map((edge) => edge.to)]);
    this.code.forEach((line, n) => LAST.has(line.op) && heads.add(n + 1));
    const nodes = [];
    this.code.forEach((line, n) => heads.has(n) ? nodes.push([line]) : nodes[nodes.length - 1].push(line));
    return nodes;
  }

  // For each target a lane, the nearer the shorter.
  lanes_of(edges) {
    const spans = new Map();
    for (const { from, to } of edges) {
      const span = spans.get(to) || { to, top: to, end: to };
      spans.set(to, { to, top: Math.min(span.top, from), end: Math.max(span.end, from) });
    }
    const lanes = [];
    const found = new Map();
    for (const span of [...spans.values()].sort((a, b) => a.end - a.top - (b.end - b.top))) {
      let lane = lanes.findIndex((taken) => taken.every((other) => span.end < other.top || other.end < span.top));
      if (lane < 0) lane = lanes.push([]) - 1;
      lanes[lane].push(span);
      found.set(span.to, lane);
    }
    return { count: lanes.length, found };
  }

  // The picture.
  get svg() {
    const back = this.edges.filter((edge) => edge.kind === "loop" || edge.to !== null && edge.to <= edge.from);
    const on = this.edges.filter((edge) => edge.to !== null && edge.to > edge.from);
    const [left, right] = [this.lanes_of(back), this.lanes_of(on)];
    const rounds = this.loops.some((loop) => loop.most !== null);
    this.x = 10 + left.count * LANE + (rounds ? 34 : 0);
    const longest = Math.max(...this.code.map((line) => Math.min(line.text.length, 34)));
    const digits = Math.max(...this.code.map((line) => line.number.length));
    this.text_x = this.x + 10 + digits * LETTER;
    this.end = this.text_x + 10 + longest * LETTER;
    this.width = this.end + 16 + right.count * LANE;
    this.drawn = draw("g");
    this.draw_nodes();
    for (const edge of on) this.draw_edge(edge, this.end, LANE * (right.found.get(edge.to) + 1), 1);
    for (const edge of back) this.draw_edge(edge, this.x, -LANE * (left.found.get(edge.to) + 1), -1);
    for (const edge of this.edges.filter((e) => e.to === null)) this.add("path", { class: "edge outside", d: `M${this.end} ${this.y(edge.from)}h14m-4 -4l4 4l-4 4` });
    for (const loop of this.loops) this.draw_rounds(loop, left);
    const svg = draw("svg", { viewBox: `0 0 ${this.width} ${this.height}`, width: this.width, height: this.height, role: "img", "aria-label": this.said }, this.drawn);
    return svg;
  }

  add(tag, attributes, ...inside) {
    this.drawn.append(draw(tag, attributes, ...inside));
  }

  y(n) {
    return this.tops[n] + ROW / 2;
  }

  draw_nodes() {
    this.tops = [];
    let y = 0;
    for (const [k, node_lines] of this.nodes.entries()) {
      const names = this.names.get(node_lines[0]).map((name) => shown(name) + ":").join(" ");
      y += k ? GAP : names ? 16 : 2;
      if (k && !LAST.has(this.nodes[k - 1][this.nodes[k - 1].length - 1].op)) this.draw_fall(y);
      if (names) this.add("text", { class: "label", x: this.x + 26, y: y - 5 }, names.slice(0, 34));
      this.add("rect", { class: "node", x: this.x, y, width: this.end - this.x, height: node_lines.length * ROW + 2, rx: 5 });
      for (const line of node_lines) {
        this.tops.push(y + 1);
        this.draw_row(line, y + 1);
        y += ROW;
      }
      y += 2;
    }
    this.height = y + 4;
  }

  draw_row(line, y) {
    const kind = line.findings.some((f) => f.kind === "error") ? "refused" : line.causes.length ? "cause" : line.findings.length ? "warned" : "";
    const text = line.text.length > 34 ? line.text.slice(0, 33) + "\u2026" : line.text;
    this.add("a", { href: "#" + line.id, tabindex: -1 },
      draw("rect", { class: "row-back " + kind, x: this.x + 1, y, width: this.end - this.x - 2, height: ROW }),
      draw("text", { class: "row-number", x: this.text_x - 6, y: y + 14 }, line.number),
      draw("text", { class: "row-text", x: this.text_x, y: y + 14 }, shown(text)));
  }

  // From the end of a node to the next one.
  draw_fall(y) {
    const x = this.x + 14;
    this.add("path", { class: "edge", d: `M${x} ${y - GAP}V${y - 5}` });
    this.add("path", { class: "head", d: `M${x - 4} ${y - 6}h8l-4 6z` });
  }

  draw_edge({ from, to, kind }, x, wide, sign) {
    const [y, end] = [this.y(from) + 3 * sign, this.y(to) - 4];
    const bend = 4 * Math.sign(end - y);
    const lane = x + wide;
    this.add("path", { class: "edge " + kind, d: `M${x} ${y}H${lane - 4 * sign}q${4 * sign} 0 ${4 * sign} ${bend}V${end - bend}q0 ${bend} ${-4 * sign} ${bend}H${x + 6 * sign}` });
    this.add("path", { class: "head " + kind, d: `M${x + 7 * sign} ${end - 4}v8l${-7 * sign} -4z` });
  }

  // Beside a loop, how often it runs.
  draw_rounds(loop, left) {
    if (loop.most === null) return;
    const [head, end] = [this.code.indexOf(loop.head), this.code.indexOf(loop.end)];
    const x = this.x - LANE * (left.found.get(head) + 1) - 5;
    this.add("text", { class: "rounds", x, y: (this.y(head) + this.y(end)) / 2 + 4 }, "\u00d7" + loop.most);
  }

  // The picture in words.
  get said() {
    const names = (lines) => lines.length > 1 ? `${lines[0].number} to ${lines[lines.length - 1].number}` : lines[0].number;
    const edges = this.edges.filter((edge) => edge.to !== null).map((edge) => `${this.code[edge.from].number} to ${this.code[edge.to].number}${edge.kind === "refusal" ? " if refused" : ""}`);
    return `Control flow: nodes ${this.nodes.map(names).join(", ")}; edges ${edges.join(", ") || "none"}`;
  }
}
