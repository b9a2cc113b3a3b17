// What a text is made of, and what the program found in it.

// Instructions without a label.
const PLAIN = new Set(("LDI MOV ADD SUB AND SHR MULI SETK SETKW CALL RET MUNLOCK LCONTRACT LDB LDW STB STW LDXB LDXW STXB STXW MOVP COPY PLEN " +
  "VDIRTY VUNLOCK VGETMAP IDIRTY IUNLOCK IGETMAP").split(" "));
// Those that jump. Any other one goes to its label if it is refused.
const JUMPS = new Set("JMP BEQ BLT CHK LOOP SNE".split(" "));
// After these the next instruction does not run.
const LAST = new Set(["JMP", "RET"]);

// What the rules require, as `geos help check` says.
const RULES = {
  V1: "control stays within the routine",
  V2: "a known pointer leads into a slot that is not empty",
  V3: "a routine begins as its entry row says",
  V4: "a pointer that is used is not stale",
  V5: "what is read or written lies within the known bytes",
  V6: "a block of a VM file is marked before it is changed",
  V7: "a block is locked into an empty slot",
  V8: "a slot has a block of the required kind",
  V9: "no block of the VM file is locked at a commit",
  V10: "a call gives what the called routine requires",
  V11: "a routine returns with what its exit row says",
  V12: "what is known holds on each path",
  V13: "each step is paid for",
  V14: "the steps are within the budget",
};

// What words of the rules mean.
const MEANINGS = { V4: "A pointer is stale if its bytes may have moved, or may be gone." };

// What items mean of which the page knows some: for each kind the first one, in words.
const KINDS_OF_BLOCKS = { mem: "a block of memory", vm: "a block of the VM file", db: "a group of the VM file" };
const LEGEND = [
  [/\bw\d<=\d+/, (item, [word, most]) => `w${word} is at most ${most}`],
  [/\bs\d=(mem|vm|db)[@!]*/, (item, [slot]) => `slot s${slot} has ${KINDS_OF_BLOCKS[/mem|vm|db/.exec(item)]}`],
  [/\bs\d#s\d/, (item, [one, other]) => `slots s${one} and s${other} have different blocks`],
  [/\bp\d=s\d:\d+/, (item, [pointer, slot, bytes]) => `pointer p${pointer} leads to ${bytes} bytes or more of the block in s${slot}`],
];

function legend_of(lines) {
  return LEGEND.flatMap(([form, said]) => {
    const item = lines.map(({ known }) => form.exec(known)).find((found) => found)?.[0];
    return item ? [`${item}: ${said(item, item.match(/\d+/g))}`] : [];
  });
}

// A line of the page: its number or pc, its code, and what is known there.
class Line {
  constructor(number, code, known, pc) {
    [this.number, this.code, this.pc] = [number, code.replace(/\r$/, ""), pc];
    const steps = /(?:^|, )([^,]*\bsteps?)$/.exec(known);
    this.steps = steps ? steps[1] : "";
    this.known = steps ? known.slice(0, steps.index) : known;
    this.findings = [];
    this.causes = [];
    this.read(this.code.split(";")[0].trim().split(/\s+/).filter((word) => word));
  }

  read(words) {
    this.labels = [];
    while (words.length && words[0].endsWith(":")) this.labels.push(words.shift().slice(0, -1));
    const head = words[0] || "";
    this.routine = head === "routine" ? { name: words[1] || "", is_public: words.includes("public"), budget: words[words.indexOf("budget") + 1] || "" } : null;
    this.op = /^[A-Z]/.test(head) ? head : "";
    this.words = words;
  }

  get text() {
    return this.words.join(" ");
  }

  // The name of the label to which it may go.
  get target() {
    return this.op && !PLAIN.has(this.op) ? this.words[this.words.length - 1] : "";
  }

  get is_blank() {
    return !this.code.trim() && !this.findings.length;
  }

  get id() {
    return "L" + this.number;
  }
}

function line_of_text(line) {
  const { number, code, known } = explained_line(line);
  return number ? new Line(number, code, known, null) : null;
}

function line_of_listing(line) {
  if (line.startsWith(";")) return null;
  const { code, known } = explained_line(line);
  const place = /^(\S+) (\d+): (.*)$/.exec(known);
  return place ? new Line(place[2], code, place[3], +place[2]) : new Line("", code, "", null);
}

const READERS = { text: line_of_text, listing: line_of_listing, faulty: (line, row) => new Line(String(row + 1), line, "", null) };

// All that the page shows.
class Explained {
  constructor(text, objects) {
    [this.page] = objects;
    this.lines = lines_of(text).map(READERS[this.page.shows]).filter((line) => line);
    this.findings = objects.filter((o) => o.kind === "error" || o.kind === "warning");
    this.more = objects.filter((o) => o.kind === "more").reduce((sum, o) => sum + o.count, 0);
    this.effects = new Map(objects.filter((o) => o.kind === "effects").map((o) => [o.routine, o.effects]));
    this.by_number = new Map(this.lines.map((line) => [line.number, line]));
    this.findings.forEach((finding, n) => this.place(finding, n));
    this.routines = this.parts();
  }

  place(finding, n) {
    const is_listing = this.page.shows === "listing";
    finding.at = this.by_number.get(String(is_listing ? finding.pc : finding.line));
    finding.cause = is_listing ? undefined : this.by_number.get(String(finding.cause_line));
    finding.id = "F" + n;
    finding.at?.findings.push(finding);
    if (finding.cause && finding.cause !== finding.at) finding.cause.causes.push(finding);
  }

  // The lines of each routine, with the comments before it.
  parts() {
    const parts = [];
    let part = [];
    for (const line of this.lines) {
      if (line.routine) {
        let from = part.length;
        while (from && !part[from - 1].words.length && !part[from - 1].labels.length) from--;
        if (parts.length) parts[parts.length - 1].lines.push(...part.slice(0, from));
        parts.push({ ...line.routine, lines: [...part.slice(parts.length ? from : 0), line] });
        part = [];
      } else {
        part.push(line);
      }
    }
    if (!parts.length) return [{ name: "", lines: part }];
    parts[parts.length - 1].lines.push(...part);
    for (const { lines } of parts) {
      while (lines[0].is_blank) lines.shift();
      while (lines[lines.length - 1].is_blank) lines.pop();
    }
    return parts;
  }
}

// A loop of a routine: from its label to LOOP, what an iteration costs, and how often it runs.
function loop_of(code, head, end) {
  const counter = code[end].words[1];
  const cost = new RegExp("(\\d*) ?\\b" + counter + "\\b").exec(code[end].steps);
  return { head: code[head], end: code[end], counter, steps: cost ? +(cost[1] || 1) : null, most: most_rounds(code, head, counter) };
}

// How often a loop runs at most, if one instruction sets its counter to a number, or to a word with a bound.
function most_rounds(code, head, counter) {
  const sets = code.filter((line) => /^SETKW?$/.test(line.op) && line.words[1] === counter);
  const before = sets.filter((line) => code.indexOf(line) < head);
  if (!before.length || sets.length > 1) return null;
  const [{ op, words, known }] = before;
  const bound = op === "SETK" ? words[2] : new RegExp("\\b" + words[2] + "<=(\\d+)").exec(known)?.[1];
  return bound === undefined ? null : +bound + 1;
}
