// Goes through the run.

// The most steps that are listed at the top.
const MOST_MOMENTS = 6;

class Player {
  constructor(run) {
    this.run = run;
    this.place = 0;
    this.chosen = null;
    this.follows = true;
    this.timer = null;
    this.rows = make_lines(run, (row) => this.go_to_line(row));
    this.region = new Region(run, (key) => this.choose(key));
    this.marked = [];
    this.head();
    if (!run.states.length) return;
    this.listen();
    this.go(this.place_in_address());
  }

  head() {
    const { run } = this;
    document.title = run.call + " \u2013 " + run.file;
    $("call").textContent = run.call;
    $("about").textContent = `${run.file} \u00b7 ${run.data.steps} steps of a budget of ${run.data.budget}`;
    $("slider").max = run.last;
    const cuts = [];
    const last = run.skipped + run.states.length;
    if (!run.states.length) cuts.push(`The page shows no step: the run has ${run.data.steps}.`);
    else if (last < run.data.steps || run.skipped) cuts.push(`The page shows steps ${run.skipped + 1} to ${last} of ${run.data.steps}: \`geos trace --steps A..B\` chooses others.`);
    if (run.data.blocks_cut) cuts.push("Notes of blocks were too long: those of later steps are left out.");
    $("cut").textContent = cuts.join(" ");
    $("cut").hidden = !cuts.length;
    this.list_moments();
    if (this.region.is_empty) $("region").append(node("p", { class: "quiet" }, "This run holds no block."));
    else $("region").append(this.region.svg);
  }

  // Buttons that go to the steps at which a block moves, or a pointer becomes stale.
  list_moments() {
    const { moments, skipped } = this.run;
    const items = moments.slice(0, MOST_MOMENTS).map(({ place, said }) => {
      const button = node("button", { type: "button" }, `step ${skipped + place}`);
      button.addEventListener("click", () => this.go(place));
      return node("li", {}, button, " ", said.join("; "));
    });
    const more = moments.length - items.length;
    if (more > 0) items.push(node("li", { class: "quiet" }, `${more} more`));
    if (!items.length) items.push(node("li", { class: "quiet" }, "No block moves, and no pointer becomes stale."));
    $("moments").replaceChildren(...items);
    $("moments").hidden = !this.run.states.length;
  }

  listen() {
    const by = (n) => () => this.step(n);
    $("first").onclick = () => this.go(0);
    $("back").onclick = by(-1);
    $("on").onclick = by(1);
    $("last").onclick = () => this.go(this.run.last);
    $("play").onclick = () => this.toggle();
    $("slider").oninput = () => this.go(+$("slider").value);
    document.addEventListener("keydown", (event) => this.key(event));
    window.addEventListener("resize", () => this.show());
  }

  key(event) {
    if (event.ctrlKey || event.altKey || event.metaKey) return;
    const moves = { ArrowLeft: this.place - 1, ArrowRight: this.place + 1, Home: 0, End: this.run.last, PageUp: this.place - 10, PageDown: this.place + 10 };
    if (event.key in moves) this.go(moves[event.key]);
    else if (event.key === "n" || event.key === "p") this.go_along_line(event.key === "n");
    else if (event.key === " " && event.target.tagName !== "BUTTON") this.toggle();
    else return;
    event.preventDefault();
  }

  step(n) {
    this.stop();
    this.go(this.place + n);
  }

  go(place) {
    this.place = Math.max(0, Math.min(this.run.last, place));
    this.follow();
    this.show();
  }

  // The place in the address, as #step=5.
  place_in_address() {
    const found = /^#step=(\d+)$/.exec(location.hash);
    return found ? +found[1] - this.run.skipped : 0;
  }

  // To the next step at a line, or else to the first one.
  go_to_line(row) {
    const places = this.run.places[row];
    this.stop();
    this.go(places.find((place) => place > this.place) ?? places[0]);
  }

  // To the next or the previous step at the line that is next now.
  go_along_line(is_on) {
    const { run, place } = this;
    const places = run.places[run.next_row(place)] || [];
    const found = is_on ? places.find((other) => other > place) : places.filter((other) => other < place).pop();
    this.stop();
    if (found !== undefined) this.go(found);
  }

  choose(key) {
    this.chosen = key;
    this.show();
  }

  toggle() {
    if (this.timer) return this.stop();
    if (this.place >= this.run.last) this.go(0);
    this.timer = setInterval(() => this.place < this.run.last ? this.go(this.place + 1) : this.stop(), 700);
    this.show_play();
  }

  stop() {
    clearInterval(this.timer);
    this.timer = null;
    this.show_play();
  }

  show_play() {
    $("play").textContent = this.timer ? "\u275a\u275a pause" : "\u25b6\ufe0e play";
    $("play").setAttribute("aria-label", this.timer ? "Pause" : "Play");
  }

  // Chooses the block that the last step changed, or one that is held.
  follow() {
    const { run, place } = this;
    const blocks = run.blocks_at(place);
    const changed = blocks.find((b) => b.locks && run.has_changed(b.key, place));
    const still = blocks.find((b) => b.key === this.chosen && b.locks);
    const found = changed || still || blocks.find((b) => b.locks) || blocks[blocks.length - 1];
    this.chosen = found ? found.key : null;
  }

  show() {
    const { run, place } = this;
    $("slider").value = place;
    $("where").textContent = `step ${run.skipped + place} of ${run.data.steps}`;
    $("slider").setAttribute("aria-valuetext", $("where").textContent);
    for (const id of ["first", "back"]) $(id).disabled = place === 0;
    for (const id of ["on", "last"]) $(id).disabled = place === run.last;
    this.show_done();
    this.show_line();
    show_registers(run, place);
    this.region.show(place, this.chosen);
    show_tabs(run, place, this.chosen, (key) => this.choose(key));
    show_block(run, place, this.chosen);
    this.show_commits();
    this.show_output();
  }

  // What the last step did, and what is next.
  show_done() {
    const { run, place } = this;
    const step = place ? run.steps[place - 1] : null;
    const parts = step ? [`${step.number}: ${step.code} `, node("b", {}, step.did)] : [run.skipped ? `After ${run.skipped} steps. ` : "At the start. "];
    for (const said of [...run.moves(place), ...run.stale_since(place)]) parts.push(node("i", {}, ` \u2013 ${said}`));
    $("done").replaceChildren(...parts);
  }

  show_line() {
    const { run, place } = this;
    for (const row of this.marked) {
      row.classList.remove("now", "was");
      row.removeAttribute("aria-current");
    }
    const now = this.rows[run.next_row(place)];
    const was = place ? this.rows[run.row_of(run.steps[place - 1])] : null;
    this.marked = [now, was].filter((row) => row);
    if (was) was.classList.add("was");
    if (!now) return;
    now.classList.add("now");
    now.setAttribute("aria-current", "step");
    this.scroll_to(now);
  }

  // Only the list scrolls, not the page.
  scroll_to(row) {
    const list = $("lines");
    const at = row.offsetTop - list.offsetTop;
    if (at < list.scrollTop + 40 || at > list.scrollTop + list.clientHeight - 60) list.scrollTop = at - list.clientHeight / 2;
  }

  // Changes of the VM file, and commits, up to here.
  show_commits() {
    const commits = this.run.commits.filter((commit) => commit.place <= this.place);
    $("commits-section").hidden = !this.run.commits.length;
    $("commits").replaceChildren(...commits.map((c) => node("span", { class: "tag" + (c.place === this.place ? " news" : "") }, `step ${this.run.skipped + c.place}: ${c.said}`)));
    if (!commits.length) $("commits").append(node("span", { class: "quiet" }, "nothing yet"));
  }

  show_output() {
    const { run, place } = this;
    const count = run.outputs[Math.min(place, run.outputs.length - 1)];
    const is_new = place > 0 && run.outputs[place - 1] < count;
    const words = run.words.slice(0, count).map((word, n) => node("span", { class: is_new && n === count - 1 ? "changed" : false, title: hex4(word) }, String(word)));
    $("output").replaceChildren(...(words.length ? words : [node("i", { class: "quiet" }, "nothing yet")]));
  }
}

window.player = new Player(new Run(JSON.parse($("run").textContent)));
