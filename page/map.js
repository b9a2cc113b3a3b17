// A VM file: its two areas, and its blocks as they are and as they were saved.

const SIDES = { current: "As the last commit left it", saved: "As the last save left it" };
const kind_of = (object) => object.kind === "group" || object.kind === "item" ? "group" : "block";

// The file, of the drawing and the objects.
class VmFile {
  constructor(text, objects) {
    this.page = objects[0];
    const lines = lines_of(text);
    const found = /^areas of (\d+) bytes, ([AB]) is read, (\d+) taken$/.exec(lines[0]);
    this.area = { size: +found[1], name: found[2], taken: +found[3] };
    this.sides = { current: this.side(objects, "current"), saved: this.side(objects, "saved") };
    this.find_used(lines);
    this.longest = Math.max(1, ...Object.values(this.sides).flatMap((side) => [...side.blocks.values()].map((block) => block.size)));
  }

  side(objects, directory) {
    const side = { map: {}, blocks: new Map() };
    for (const object of objects.filter((o) => o.directory === directory)) {
      if (object.kind === "map") side.map = object;
      else if (object.size !== undefined && object.uid !== undefined) side.blocks.set(object.handle, { ...object, chunks: [] });
      else side.blocks.get(object.block ?? object.group).chunks.push(object);
    }
    return side;
  }

  // How much of each block is used, as the drawing says.
  find_used(lines) {
    let side = null;
    for (const line of lines.slice(1)) {
      const name = /^(current|saved) map/.exec(line);
      const row = /^\s*(\d+)\s+(\d+|group)\s+\d+\s+(\d+) /.exec(line);
      if (name) side = this.sides[name[1]];
      else if (row && side) side.blocks.get(+row[1]).used = +row[3];
    }
  }
}

const tag = (text, kind = "") => node("span", { class: ("tag " + kind).trim() }, text);
const bar = (part, whole, wide = 100) => {
  const inside = node("span", {});
  inside.style.width = `${whole ? 100 * part / whole : 0}%`;
  const outside = node("div", { class: "bar", "aria-hidden": "true" }, part ? inside : null);
  outside.style.width = `${wide}%`;
  return outside;
};

function area_part(name, { area }) {
  const is_read = name === area.name;
  const said = is_read ? `${area.taken} of ${area.size} bytes are taken` : "the next commit writes here";
  return node("section", { class: "area" + (is_read ? "" : " unread") }, node("h2", {}, `Area ${name} `, node("small", {}, is_read ? "is read" : "")),
    node("p", {}, said), bar(is_read ? area.taken : 0, area.size));
}

// What differs of a block between the two sides.
function changes(block, other) {
  if (!other) return "only here";
  const same = block.uid === other.uid && block.size === other.size && JSON.stringify(block.chunks.map((c) => [c.handle, c.bytes])) === JSON.stringify(other.chunks.map((c) => [c.handle, c.bytes]));
  return same ? "" : "differs from the other side";
}

function chunk_part(chunk, other, map) {
  const [bytes, before] = [bytes_of(chunk.bytes), other ? bytes_of(other.bytes) : null];
  const kind = (i) => [bytes[i] === 0 && "zero", before && bytes[i] !== before[i] && "changed"].filter((name) => name).join(" ") || false;
  const is_map = chunk.kind === "item" && map.group === chunk.group && map.item === chunk.handle;
  const more = chunk.size > bytes.length ? node("p", { class: "quiet" }, `${chunk.size - bytes.length} more bytes are not shown`) : null;
  const part = node("div", { class: "chunk", "data-chunk": String(chunk.handle) },
    node("h3", {}, `${chunk.kind} ${chunk.handle}`, node("small", {}, `${chunk.size} bytes `), is_map ? tag("map item", "map") : null, other ? null : tag("only here", "news")),
    node("table", { class: "bytes" }, ...byte_rows(bytes, kind)), more);
  part.style.setProperty("--hue", line_of(chunk.handle));
  return part;
}

function fill_block(inside, block, other, map) {
  if (inside.childNodes.length) return;
  const chunks = block.chunks.map((chunk) => chunk_part(chunk, other?.chunks.find((o) => o.handle === chunk.handle) ?? (other ? null : chunk), map));
  inside.append(...(chunks.length ? chunks : [node("p", { class: "quiet" }, `It has no ${kind_of(block) === "group" ? "item" : "chunk"}.`)]));
}

// The most blocks of a side that are open at first.
const MOST_OPEN = 6;

function block_part(file, side, block, other, is_open) {
  const difference = changes(block, other);
  const is_same = side === "saved" && !difference;
  const { map } = file.sides[side];
  const inside = node("div", { class: "inside" });
  const part = node("details", { class: "block " + block.kind, "data-block": String(block.handle), open: is_open && !is_same },
    node("summary", {}, node("b", {}, `${block.kind} ${block.handle}`),
      node("span", {}, block.kind === "group" ? null : tag("user ID " + block.uid), map.block === block.handle ? tag("map block", "map") : null, difference ? tag(difference, "news") : is_same ? tag("the same") : null),
      node("span", { class: "size" }, `${block.used} of ${block.size} bytes are used`), bar(block.used, block.size, Math.max(2, 100 * block.size / file.longest))), inside);
  part.addEventListener("toggle", () => part.open && fill_block(inside, block, other, map));
  if (is_open && !is_same) fill_block(inside, block, other, map);
  return part;
}

function side_part(file, name) {
  const [side, other] = [file.sides[name], file.sides[name === "current" ? "saved" : "current"]];
  const { block, group, item } = side.map;
  const blocks = [...side.blocks.values()];
  const about = [`map block ${block ?? "none"}`, `map item ${item === null ? "none" : `${item} of group ${group}`}`].join(", ");
  const parts = blocks.map((each, n) => block_part(file, name, each, other.blocks.get(each.handle), n < MOST_OPEN));
  const none = blocks.length ? null : node("p", { class: "quiet" }, "no block");
  return node("section", { class: "side", "data-side": name }, node("h2", {}, SIDES[name]), node("p", {}, about), ...parts, none);
}

function show_page() {
  const file = new VmFile($("text").textContent, lines_of($("data").textContent).map((line) => JSON.parse(line)));
  document.title = "geos map \u2013 " + shown(file.page.file);
  $("name").textContent = shown(file.page.file);
  $("about").textContent = `two areas of ${file.area.size} bytes`;
  $("help").hidden = false;
  const areas = node("div", { class: "areas" }, area_part("A", file), area_part("B", file));
  $("main").replaceChildren(areas, node("div", { class: "sides" }, side_part(file, "current"), side_part(file, "saved")));
}

show_page();
