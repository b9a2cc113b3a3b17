// Lines of a text, with what is known there.

// A line of `geos explain`: its number, its text, and what is known there.
function explained_line(line) {
  const [, number, rest] = /^(\d*)\t?(.*)$/s.exec(line);
  const known = / ; ([^;]*\bsteps?)$/.exec(rest);
  return { number, code: known ? rest.slice(0, known.index) : rest, known: known ? known[1] : "" };
}

// The code of a line, with its comment apart.
function code_of(code) {
  const at = code.indexOf(";");
  const parts = at < 0 ? [shown(code)] : [shown(code.slice(0, at)), node("span", { class: "comment" }, shown(code.slice(at)))];
  return node("span", { class: "code" }, ...parts);
}

function known_of(known) {
  const parts = known.split(/([sp]\d=[^ ,]+)/).map((part) => /^[sp]\d=/.test(part) ? node("span", { class: part[0] }, part) : part);
  return node("span", { class: "known" }, ...parts);
}
