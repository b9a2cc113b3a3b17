// Bytes of chunks, and their colours.

// The most bytes of a chunk that are drawn.
const MOST_DRAWN = 1024;
const per_row = () => window.innerWidth < 560 ? 8 : 16;
const letter_of = (byte) => byte >= 32 && byte < 127 ? String.fromCharCode(byte) : "\u00b7";
const bytes_of = (hex) => (hex.match(/../g) || []).slice(0, MOST_DRAWN).map((pair) => parseInt(pair, 16));

// A row of bytes, in hexadecimal digits and as text.
function byte_row(bytes, from, count, kind_of) {
  const cells = [node("th", { scope: "row" }, String(from))];
  for (let i = from; i < from + count; i++) {
    const is_there = i < bytes.length;
    cells.push(node("td", { class: is_there ? kind_of(i) : false }, is_there ? bytes[i].toString(16).padStart(2, "0") : "  "));
  }
  const letters = bytes.slice(from, from + count).map(letter_of).join("");
  return node("tr", {}, ...cells, node("td", { class: "ascii" }, letters));
}

// The rows of bytes; of rows of zeros that did not change only the first one.
function byte_rows(bytes, kind_of) {
  const rows = [];
  const wide = per_row();
  const is_plain = (i) => bytes[i] === 0 && !/changed/.test(kind_of(i));
  for (let from = 0; from < bytes.length; from += wide) {
    rows.push(byte_row(bytes, from, wide, kind_of));
    let end = from;
    while (end < bytes.length && is_plain(end)) end++;
    const more = Math.floor((end - from) / wide) - 1;
    if (more < 2) continue;
    rows.push(node("tr", {}, node("th", {}, "\u22ee"), node("td", { class: "quiet", colspan: wide + 1 }, `${more * wide} more zero bytes`)));
    from += more * wide;
  }
  return rows;
}

// Hues of chunks, in turn by their handles. None is the violet of blocks of the file, or the yellow of changed bytes.
const HUES = [180, 330, 95, 205, 305, 130];
const hue_of = (chunk) => HUES[(chunk - 16) / 2 % HUES.length];
const fill_of = (chunk) => `hsl(${hue_of(chunk)} 65% var(--chunk))`;
const line_of = (chunk) => `hsl(${hue_of(chunk)} 50% var(--chunk-line))`;
