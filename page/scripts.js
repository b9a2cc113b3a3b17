// Scripts of calls, as `geos call` and `geos test` read them.

class ScriptFault extends Error {}

const IS_NAME = /^[A-Za-z0-9_]+$/;

// A number, or the name of a stored one.
function script_number(word, names) {
  if (word.startsWith("$")) {
    if (!names.has(word.slice(1))) throw new ScriptFault(`no earlier line defines ${word}: end that line with -> ${word.slice(1)}`);
    return { name: word.slice(1) };
  }
  if (!/^\d+$/.test(word) || +word > 65535) throw new ScriptFault(`${word} is no number up to 65535`);
  return { value: +word };
}

// A line `call NAME NUMBER.. @HANDLE.. -> NAME`.
function script_call(words, names) {
  const call = { name: words[1] || "", words: [], lent: [], stores: null };
  let rest = words.slice(2);
  const arrow = rest.indexOf("->");
  if (arrow >= 0) {
    if (rest.length !== arrow + 2 || !IS_NAME.test(rest[arrow + 1])) throw new ScriptFault("one name follows ->, at the end of the line");
    call.stores = rest[arrow + 1];
    rest = rest.slice(0, arrow);
  }
  for (const word of rest) {
    if (word.startsWith("@")) call.lent.push(script_number(word.slice(1), names));
    else if (call.lent.length) throw new ScriptFault(`${word}: numbers precede blocks`);
    else call.words.push(script_number(word, names));
  }
  if (call.words.length > 8) throw new ScriptFault("a call has at most 8 numbers");
  if (call.stores) names.add(call.stores);
  return call;
}

// A command, with the words that the line has to print, or null for a line without a command.
function script_command(line, names) {
  const [code, wanted] = line.split(";")[0].split("=>");
  const words = code.split(/[ \t\r]+/).filter((word) => word);
  if (!words.length) return null;
  const expected = wanted === undefined ? null : wanted.split(/[ \t\r]+/).filter((word) => word).join(" ");
  if (words[0] === "call") return { expected, call: script_call(words, names) };
  if (["update", "save", "revert"].includes(words[0]) && words.length === 1) return { expected, commit: words[0] };
  throw new ScriptFault(`${words[0]}: a line begins with call, update, save or revert`);
}

// All commands of a script with their line numbers. A bad line throws a ScriptFault that names it.
function read_script(text) {
  const names = new Set();
  return text.split("\n").flatMap((line, n) => {
    try {
      const command = script_command(line, names);
      return command ? [{ ...command, line: n + 1 }] : [];
    } catch (fault) {
      if (fault instanceof ScriptFault) fault.message = `script line ${n + 1}: ${fault.message}`;
      throw fault;
    }
  });
}

const VM = 65536;

// Runs scripts on an image in a kernel of the library.
class ScriptRun {
  // `borrows` has for each public routine the numbers of the slots that it borrows.
  constructor(kernel, image, borrows) {
    [this.kernel, this.image, this.borrows] = [kernel, image, borrows];
    this.names = new Map();
  }

  value({ name, value }) {
    if (name === undefined) return value;
    if (!this.names.has(name)) throw new ScriptFault(`$${name} is undefined, since its call output nothing`);
    return this.names.get(name);
  }

  // The words that a command prints.
  printed(command) {
    if (command.commit) {
      const [status] = this.kernel.call(command.commit, []);
      if (status === 0) this.kernel.perform();
      return status === 0 ? [] : ["refused", status];
    }
    return this.called(command.call);
  }

  called({ name, words, lent, stores }) {
    const routine = this.kernel.routine(this.image, name);
    const slots = this.borrows.get(name);
    if (routine === null || !slots) throw new ScriptFault(`no public routine is named ${name}`);
    if (lent.length !== slots.length) throw new ScriptFault(`${name} borrows ${slots.length} blocks: give a handle after @ for each`);
    const handles = lent.map((one) => this.value(one));
    const refusal = this.lock_all(handles);
    if (stores) this.names.delete(stores);
    if (refusal) return ["refused", refusal];
    const places = [0, 0, 0, 0];
    slots.forEach((slot, n) => { places[slot] = handles[n]; });
    const { status, output } = this.kernel.run(this.image, routine, words.map((one) => this.value(one)), places);
    handles.forEach((handle) => this.kernel.call("unlock", [], VM + handle));
    if (status !== 0) throw new ScriptFault(`${name} takes other words: see its in line`);
    if (stores && output.length) this.names.set(stores, output[0]);
    return output;
  }

  // Locks blocks of the file. If one is refused, unlocks those before it, and returns the refusal.
  lock_all(handles) {
    for (const [n, handle] of handles.entries()) {
      const [status] = this.kernel.call("vlock", [], handle);
      if (status === 0) continue;
      handles.slice(0, n).forEach((earlier) => this.kernel.call("unlock", [], VM + earlier));
      return status;
    }
    return 0;
  }
}
