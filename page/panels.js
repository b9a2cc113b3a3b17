// Registers, the bytes of a block, and the text.

function register(name, kind, value, small) {
  return node("div", { class: kind, "data-register": name }, node("b", {}, name), value, small ? node("small", {}, small) : null);
}

// Words or counters, with those marked that the last step changed.
function number_set(letter, now, was) {
  return now.map((n, i) => {
    const made = register(letter + i, n !== was[i] ? "changed" : "", String(n));
    made.title = hex4(n);
    return made;
  });
}

function slot_cell(run, slot, place) {
  const block = run.held(slot, place);
  if (!block) return register("s" + slot, "wide empty", "empty");
  const said = `locked ${times(block.locks)}${block.marked ? ", marked as changed" : ""}`;
  return register("s" + slot, "wide held" + (block.vm ? " vm" : ""), block.key, said);
}

// Where the bytes are now to which a stale pointer was set, if their block is locked.
function where_now(run, target, place) {
  if (!run.block(target.key, place)?.locks) return [];
  const now = run.now_at(target, place);
  return [now === null ? "the chunk is gone" : now === target.at ? "the bytes are still there" : `the bytes are now at ${now}`];
}

function pointer_cell(run, pointer, place) {
  const target = run.targets[place][pointer];
  const name = "p" + pointer;
  if (!target) return register(name, "wide empty", "\u2013");
  const what = (target.element ? target.element + " of " : "") + `chunk ${target.chunk} of ${target.key}`;
  if (!target.stale) return register(name, "wide good", what, `${target.len} bytes at ${target.at}`);
  const { number } = run.steps[target.stale - 1];
  const said = [run.why(target), ...where_now(run, target, place)].join("; ");
  const cell = register(name, "wide stale", node("s", {}, what), `stale since ${run.place_word} ${number}: ${said}`);
  cell.setAttribute("aria-label", `${name} is stale: ${what}, ${said}`);
  return cell;
}

function show_registers(run, place) {
  const [now, was] = [run.state(place), run.state(Math.max(0, place - 1))];
  const set = (...cells) => node("div", { class: "set" }, ...cells);
  $("registers").replaceChildren(
    set(...number_set("w", now.words, was.words)),
    set(...number_set("k", now.counters, was.counters)),
    set(...[0, 1, 2, 3].map((slot) => slot_cell(run, slot, place))),
    set(...[0, 1, 2, 3].map((pointer) => pointer_cell(run, pointer, place))),
  );
}

function chunk_panel(run, block, was, c, place) {
  const old = was?.chunks.find((o) => o.chunk === c.chunk);
  const [bytes, before] = [bytes_of(c.hex), old ? bytes_of(old.hex) : []];
  const at = run.targets[place].filter((t) => t && !t.stale && t.key === block.key && t.chunk === c.chunk);
  const kind_of = (i) => {
    const is_at = at.some((t) => i >= t.at - c.at && i < t.at - c.at + t.len);
    return [bytes[i] === 0 && "zero", old && bytes[i] !== before[i] && "changed", is_at && "at"].filter((kind) => kind).join(" ") || false;
  };
  const moved = old && old.at !== c.at ? node("span", { class: "tag news" }, `moved from ${old.at}`) : null;
  const made = was && !old ? node("span", { class: "tag news" }, "new") : null;
  const more = c.len > bytes.length ? node("p", { class: "quiet" }, `${c.len - bytes.length} more bytes are not shown`) : null;
  const about = node("small", {}, `${c.len} bytes at ${c.at} `);
  const names = run.targets[place].map((t, n) => at.includes(t) ? node("span", { class: "tag" }, "p" + n) : null);
  const panel = node("div", { class: "chunk" }, node("h3", {}, `chunk ${c.chunk}`, about, moved, made, ...names), node("table", { class: "bytes" }, ...byte_rows(bytes, kind_of)), more);
  panel.style.setProperty("--hue", line_of(c.chunk));
  return panel;
}

function show_block(run, place, chosen) {
  const block = run.block(chosen, place);
  if (!block) {
    $("block").replaceChildren(node("p", { class: "quiet" }, run.blocks.size ? "No block is held yet." : "This run holds no block."));
    return;
  }
  const was = place ? run.block(chosen, place - 1) : null;
  const tags = [node("span", { class: "tag" + (block.locks ? " held" : "") }, block.locks ? "locked " + times(block.locks) : "not locked: it may move, or be gone")];
  if (block.marked) tags.push(node("span", { class: "tag news" }, "marked as changed"));
  const moved = run.moved_from(block, place);
  if (moved) tags.push(node("span", { class: "tag news" }, `moved from ${moved.from}`));
  const chunks = block.chunks.map((c) => chunk_panel(run, block, was?.locks ? was : null, c, place));
  const none = block.locks && !chunks.length ? node("p", { class: "quiet" }, "It has no chunk yet.") : null;
  $("block").replaceChildren(node("div", {}, ...tags), ...chunks, none || "");
}

function show_tabs(run, place, chosen, choose) {
  const tabs = run.blocks_at(place).map((block) => {
    const tab = node("button", { role: "tab", "aria-selected": String(block.key === chosen), "aria-controls": "block", class: block.locks ? false : "free" }, block.key);
    tab.addEventListener("click", () => choose(block.key));
    return tab;
  });
  $("tabs").replaceChildren(...tabs);
}

function make_lines(run, go_to_line) {
  const rows = run.lines.map((line, row) => {
    const can = run.places[row].length > 0;
    const kinds = [can && "can", !line.known && "plain"].filter((kind) => kind).join(" ");
    const item = node("li", { class: kinds || false, title: can ? `runs ${times(run.places[row].length)}` : undefined },
      node("span", { class: "n" }, line.number), code_of(line.code), line.known ? known_of(line.known) : null);
    if (can) item.addEventListener("click", () => go_to_line(row));
    return item;
  });
  $("lines").replaceChildren(...rows);
  return rows;
}
