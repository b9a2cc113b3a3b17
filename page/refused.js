// A play of a refused routine: its steps in the model, up to the fault.

const IS_PICTURE = "A picture by a model, not the machine: geos never runs a text that the verifier refuses.";

/** @returns {Program | null} the program that a page shows, if the model can play it */
function program_of({ page, routines }) {
  if (page.shows === "faulty") return null;
  const lines = routines.flatMap((routine) => routine.lines).filter((line) => line.op);
  const is_known = lines.every(({ op, words }) => INSTRUCTIONS[op]?.[0].split(" ").filter((letter) => letter).length === words.length - 1);
  return is_known && lines.length ? new Program(routines) : null;
}

// The play of a refused routine, in a panel above its lines.
class RefusedPlay extends Play {
  /**
   * @param {Program} program
   * @param {number} number the number of the routine
   */
  constructor(program, number) {
    super(program);
    [this.number, this.given] = [number, given_for(program, number)];
    const name = program.routines[number].name;
    this.make_panel(`A play of ${name}`, node("p", { class: "note" }, IS_PICTURE), this.form_part(name), node("p", { class: "quiet" }, this.made_words()));
    this.begin();
  }

  form_part(name) {
    this.input = node("input", { type: "text", id: `call-${name}`, "aria-label": "Words and lent blocks", value: typed_of(this.given), autocomplete: "off", spellcheck: "false", size: 24 });
    this.wrong = node("span", { class: "wrong", role: "alert" });
    const form = node("form", { class: "call" }, node("label", { for: this.input.id }, `Words w0 to w7, then @ and the handle of each lent block: `),
      this.input, " ", node("button", {}, "Play with these"), " ", this.wrong);
    form.addEventListener("submit", (event) => {
      event.preventDefault();
      this.read();
    });
    return form;
  }

  /** What the model makes before the routine begins. */
  made_words() {
    const { slots } = this.program.routines[this.number].entry;
    if (!slots.size) return "Memory is empty at first, and the VM file is new.";
    return "The block of each slot has three chunks: 16 with letters, 18 with an array of two elements of 4 bytes, and 20 with the letters ABCDEF.";
  }

  read() {
    try {
      this.wrong.textContent = "";
      this.given = given_of(this.input.value, this.program.routines[this.number].entry);
    } catch (why) {
      if (!(why instanceof Wrong)) throw why;
      this.wrong.textContent = why.said;
      return;
    }
    this.begin();
  }

  start() {
    return machine_of(this.program, this.number, this.given);
  }

  return_words() {
    return "The routine returns, without a fault. The verifier looks at all paths and all words: try other words.";
  }
}

/** @returns {RefusedPlay | null} the play of a routine, if the model has room for what its entry row requires */
function play_of(program, number) {
  try {
    return new RefusedPlay(program, number);
  } catch (why) {
    if (why instanceof Refusal) return null;
    throw why;
  }
}

/** The button of a refused routine, and the panel that it opens. */
function play_part(program, routine) {
  const number = program.number_of(routine.name);
  const is_refused = routine.lines.some((line) => line.findings.some(({ kind }) => kind === "error"));
  if (number < 0 || !is_refused) return null;
  const button = node("button", { type: "button", class: "play-button", "aria-expanded": "false" }, "Step to the fault: play this routine in a model");
  const part = node("div", { class: "play-part" }, button);
  button.addEventListener("click", () => {
    const is_open = button.getAttribute("aria-expanded") === "true";
    button.setAttribute("aria-expanded", String(!is_open));
    if (is_open) {
      part.lastChild.remove();
      unmark_line();
      return;
    }
    const play = play_of(program, number);
    part.append(play ? play.panel : node("p", { class: "quiet" }, "The model has no room for the blocks of the entry row."));
    play?.on.focus();
  });
  return part;
}
