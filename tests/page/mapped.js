// Looks through a page of `geos map --html`, and puts what it finds in the place of the page.
const objects = window.objects;
const differs = [];
for (const part of document.querySelectorAll("details")) part.open = true;
let [blocks, bytes] = [0, 0];

function compare_chunk(part, chunk) {
  const shown = part?.querySelector(`[data-chunk="${chunk.handle}"]`);
  const cells = [...(shown?.querySelectorAll(".bytes td:not(.ascii):not(.quiet)") ?? [])].map((cell) => cell.textContent.trim()).join("");
  const skipped = shown?.querySelector(".bytes .quiet, p.quiet");
  if (!shown || !skipped && cells !== chunk.bytes) differs.push(`${chunk.kind} ${chunk.handle}: ${cells}`);
  bytes += chunk.size;
}

// A block is filled once it is open. A browser without a window may draw no frame, so nothing waits for one.
setTimeout(() => {
  for (const object of objects.filter((one) => one.directory)) {
    const side = document.querySelector(`[data-side="${object.directory}"]`);
    const handle = object.kind === "block" || object.kind === "group" ? object.handle : object.block ?? object.group;
    const part = object.kind === "map" ? side : side?.querySelector(`[data-block="${handle}"]`);
    if (!part) differs.push(`${object.kind} ${handle}`);
    if (object.kind === "chunk" || object.kind === "item") compare_chunk(part, object);
    if (object.kind === "block" || object.kind === "group") blocks++;
  }
  const count = document.querySelectorAll("[data-block]").length;
  if (count !== blocks) differs.push(`${count} blocks of ${blocks}`);
  window.tell(`${blocks} blocks, ${bytes} bytes, ${differs.slice(0, 3).join("; ") || "all agree"}`);
}, 50);
