// The stepper: a run with a slider, its source, registers, memory, calls and console. tools/step --html makes a page of it alone, and
// the page for browsers shows it over its programs. docs/STEPPING.md has what stands in its data.

import { StepMemory } from "./memory.js";

const EVERY = 256; // steps between two kept sets of registers
const TICK = 0, SPOT = 1, OWN = 2, KERNEL = 3, CONSOLE = 4, TOLD = 5, IS_CALL = 6, IS_BAD = 7; // places in a step
const MEMORY_ROWS = 32;
const at = name => document.getElementById(`step-${name}`);

function make(tag, name, text) {
  const it = document.createElement(tag);
  it.className = name;
  it.textContent = text;
  return it;
}

const put = (registers, list) => { for (let i = 0; i < list.length; i += 2) registers[list[i]] = list[i + 1]; };
const names = (list, register) => list.some((it, i) => i % 2 === 0 && it === register);
const hex = value => (value >>> 0).toString(16).padStart(8, "0");

/** Scrolls a pane so far that a line of it is seen. */
function reveal(pane, line, part) {
  const top = line.offsetTop - pane.offsetTop;
  if (top < pane.scrollTop + 4 || top > pane.scrollTop + pane.clientHeight - 40) pane.scrollTop = top - pane.clientHeight / part;
}

/** What is shown of a recording. */
class StepView {
  constructor(data) {
    Object.assign(this, { data, steps: data.steps, kept: [], calls: [], lines: [], file: -1, marked: null });
    this.memory = new StepMemory(data.memory, data.steps);
    this.between = new Map(data.between);
    this.done = this.steps.length ? 1 : 0;
    this.now = data.first;
    this.keep();
    for (const name of ["regs", "calls", "source"]) at(name).replaceChildren();
    this.cells = data.names.map((name, i) => this.cell(name, i));
    this.steps.forEach((it, i) => { if (it[IS_CALL]) this.addCall(it, i + 1); });
    this.ran = data.files.map(() => new Set());
    for (const it of data.spots) if (it[3]) this.ran[it[2]].add(it[3]);
    at("title").textContent = data.title;
    at("slide").max = this.steps.length;
    this.show(0);
  }

  /** Keeps the registers at some places, so that those at any other are found soon. */
  keep() {
    const registers = this.data.first.slice();
    this.steps.forEach((it, i) => {
      if (i % EVERY === 0) this.kept.push(registers.slice());
      put(registers, it[KERNEL]);
      put(registers, it[OWN]);
    });
    if (this.steps.length % EVERY === 0) this.kept.push(registers.slice());
  }

  registers(done) {
    const from = Math.floor(done / EVERY), registers = this.kept[from].slice();
    for (let i = from * EVERY; i < done; i++) {
      put(registers, this.steps[i][KERNEL]);
      put(registers, this.steps[i][OWN]);
    }
    return registers;
  }

  // What is made once

  cell(name, i) {
    const it = make("div", "", "");
    it.append(make("i", "", name), make("span", "", ""), make("em", "", ""));
    it.title = "to its next change";
    it.onclick = event => this.seek(step => names(step[OWN], i) || names(step[KERNEL], i), event.shiftKey);
    at("regs").append(it);
    return it;
  }

  addCall(step, place) {
    const line = make("div", "call" + (step[IS_BAD] ? " bad" : ""), `${step[TICK]}  ${step[TOLD]}`);
    line.onclick = () => this.go(place);
    at("calls").append(line);
    this.calls.push([place, line]);
  }

  /** Shows a file of the source. */
  show(number) {
    if (this.file === number || !this.data.files[number]) return;
    const [name, texts] = this.data.files[number];
    this.file = number;
    this.lines = texts.map((text, i) => {
      const line = make("div", "line" + (this.ran[number].has(i + 1) ? " ran" : ""), "");
      line.append(make("b", "", i + 1), text);
      line.onclick = event => this.seek(step => {
        const spot = this.data.spots[step[SPOT]];
        return spot[2] === number && spot[3] === i + 1;
      }, event.shiftKey);
      return line;
    });
    at("file").textContent = name;
    at("source").replaceChildren(...this.lines);
  }

  // Where it goes

  seek(fits, isBackwards) {
    for (let i = isBackwards ? this.done - 2 : this.done; i >= 0 && i < this.steps.length; i += isBackwards ? -1 : 1) {
      if (fits(this.steps[i])) return this.go(i + 1);
    }
  }

  go(to) {
    this.done = Math.max(0, Math.min(this.steps.length, to));
    const step = this.done ? this.steps[this.done - 1] : null, registers = this.registers(this.done);
    this.memory.go(this.done);
    this.now = registers;
    at("slide").value = this.done;
    this.showWhere(step);
    this.showRegisters(step, registers);
    this.showMemory();
    at("console").textContent = this.data.console.slice(0, step ? step[CONSOLE] : 0);
    at("console").scrollTop = at("console").scrollHeight;
    this.showCalls();
  }

  /** Goes to the next of these steps, counted from 1, or the one before. */
  seekOneOf(places, isBackwards) {
    const found = isBackwards ? places.filter(it => it < this.done).at(-1) : places.find(it => it > this.done);
    if (found) this.go(found);
  }

  /** Goes where a word says: `tick 9`; to the next step at `line 12` or change of `$8`; to the next `slice`, `packet` or `miss`. The answer is
   * whether it is such a word. */
  goTo(word, isBackwards) {
    if (Object.hasOwn(this.data.marks, word.trim())) {
      this.seekOneOf(this.data.marks[word.trim()], isBackwards);
      return true;
    }
    const found = /^(tick|line|)\s*(\S+)$/.exec(word.trim()), number = Number(found?.[2]), register = found ? this.registerOf(found[2]) : -1;
    if (found?.[1] === "tick" && number >= 0) this.go(this.steps.filter(it => it[TICK] <= number).length);
    else if (found?.[1] === "line" && number > 0) this.seek(step => this.data.spots[step[SPOT]][3] === number, isBackwards);
    else if (register >= 0) this.seek(step => names(step[OWN], register) || names(step[KERNEL], register), isBackwards);
    else return false;
    return true;
  }

  /** The place of a register, of its name or its number, both with `$`, or -1. */
  registerOf(word) {
    return word ? this.data.names.findIndex(it => it === word || it.split(" ").some(part => word.startsWith("$") && word.slice(1) === part.replace("$", ""))) : -1;
  }

  // What is shown of a step

  showWhere(step) {
    const where = at("where");
    where.replaceChildren();
    this.marked?.classList.remove("now");
    this.marked = null;
    if (step) {
      const spot = this.data.spots[step[SPOT]];
      where.append(`step ${this.done} of ${this.steps.length}, tick ${step[TICK]}: ${spot[0]} ${spot[1]}  ${spot[4]}  `);
      if (spot[5]) where.append(make("span", "pseudo", `the ${spot[6] === 1 ? "first" : "second"} of the two instructions of \`${spot[5]}\` `));
      if (step[TOLD]) where.append(make("span", "told" + (step[IS_BAD] ? " bad" : ""), `${step[TOLD]} `));
      if (step[KERNEL].length) {
        where.append(make("span", "kernel", `before it the kernel set ${this.data.names.filter((_, i) => names(step[KERNEL], i)).join(", ")}`));
      }
      if (spot[3]) this.mark(spot);
    } else {
      where.append(this.steps.length ? "before the first step" : "no step");
    }
    const isLast = this.done === this.steps.length;
    const between = [...this.between.get(this.done) ?? [], ...isLast ? this.between.get(this.done + 1) ?? [] : []];
    for (const line of between) where.append(make("span", "between", line));
    if (isLast) where.append(make("span", "", ` The end: ${this.data.end}`));
  }

  mark([, , file, line]) {
    this.show(file);
    this.marked = this.lines[line - 1] ?? null;
    if (!this.marked) return;
    this.marked.classList.add("now");
    reveal(at("source"), this.marked, 3);
  }

  showRegisters(step, registers) {
    this.cells.forEach((cell, i) => {
      const value = registers[i], isOwn = step && names(step[OWN], i), isKernel = step && names(step[KERNEL], i);
      cell.children[1].textContent = hex(value);
      cell.children[2].textContent = value | 0;
      cell.className = isOwn ? "new" : isKernel ? "kernel" : "";
    });
  }

  showCalls() {
    let last = null;
    for (const [place, line] of this.calls) {
      line.classList.toggle("later", place > this.done);
      line.classList.toggle("now", place === this.done);
      if (place <= this.done) last = line;
    }
    if (last) reveal(at("calls"), last, 2);
  }

  /** The address that a word says: a number, a label, a register; of no word that of the last change. */
  addressOf(word) {
    if (!word) return this.memory.lastChange() ?? (this.memory.byte(0x10000000) === undefined ? this.now[this.registerOf("$sp")] : 0x10000000);
    if (/^([0-9]+|0x[0-9a-f]{1,8})$/i.test(word)) return Number(word) >>> 0;
    const found = /^([\w.]+)([+-][0-9]+)?$/.exec(word), register = this.registerOf(word);
    if (register >= 0) return this.now[register];
    const label = found && Object.hasOwn(this.data.labels, found[1]) ? this.data.labels[found[1]] : undefined;
    return label === undefined ? undefined : label + Number(found[2] ?? 0) >>> 0;
  }

  /** The label at an address, or before it in the same row. */
  labelsIn(from, to) {
    return Object.entries(this.data.labels).filter(([, it]) => it >= from && it < to).map(([name, it]) => name + (it > from ? `@${it - from}` : "")).join(" ");
  }

  showMemory() {
    const pane = at("memory"), word = at("address").value.trim(), address = this.addressOf(word), rows = [];
    if (address === undefined) {
      pane.replaceChildren(make("div", "word-row", `there is no label ${word}, nor is it an address`));
      return;
    }
    const first = address - address % 16;
    for (let from = first; from < first + 16 * MEMORY_ROWS && from < 2 ** 32; from += 16) {
      const bytes = Array.from({ length: 16 }, (_, i) => this.memory.byte(from + i)), isThere = bytes[0] !== undefined;
      rows.push(isThere ? this.memoryRow(from, bytes) : make("div", "word-row", `${hex(from)}  no page is here`));
      if (!isThere) break;
    }
    pane.replaceChildren(...rows);
  }

  memoryRow(from, bytes) {
    const row = make("div", "word-row", `${hex(from)} `);
    for (let i = 0; i < 16; i += 4) {
      const digits = bytes.slice(i, i + 4).reverse().map(it => it.toString(16).padStart(2, "0")).join("");
      const word = make("span", this.memory.isNew(from + i) ? "new" : "", digits);
      word.title = `${parseInt(digits, 16) | 0} at 0x${hex(from + i)}`;
      row.append(" ", word);
    }
    const letters = bytes.map(it => it >= 32 && it < 127 ? String.fromCharCode(it) : ".").join("");
    row.append(`  ${letters}  `, make("i", "", this.labelsIn(from, from + 16)));
    return row;
  }
}

/** Shows a recording in the markup of step.html. The answer goes to a step; `close` is called where the reader is done. */
export function showSteps(data, close = null) {
  const view = new StepView(data), isCall = step => step[IS_CALL];
  const words = {
    first: () => view.go(0), back: () => view.go(view.done - 1), next: () => view.go(view.done + 1), last: () => view.go(view.steps.length),
    call: () => view.seek(isCall, false), callback: () => view.seek(isCall, true),
  };
  for (const name in words) at(name).onclick = words[name];
  at("slide").oninput = event => view.go(Number(event.target.value));
  at("address").oninput = () => view.showMemory();
  at("goto").onkeydown = event => {
    if (event.key === "Enter") at("goto").classList.toggle("bad", !view.goTo(at("goto").value, event.shiftKey));
  };
  at("close").hidden = !close;
  at("close").onclick = close;
  document.onkeydown = event => {
    if (event.ctrlKey || event.metaKey || event.altKey) return;
    const isField = event.target === at("address") || event.target === at("goto");
    if (isField && event.key !== "Escape") return;
    const many = event.shiftKey ? 10 : 1;
    const keys = {
      ArrowLeft: () => view.go(view.done - many), ArrowRight: () => view.go(view.done + many), Home: words.first, End: words.last, c: words.call,
      C: words.callback, m: () => at("address").focus(), g: () => at("goto").focus(), Escape: () => isField ? event.target.blur() : close?.(),
    };
    if (!Object.hasOwn(keys, event.key)) return;
    event.preventDefault();
    keys[event.key]();
  };
  if (view.addressOf(at("address").value.trim()) === undefined) at("address").value = ""; // of another program
  view.go(view.done);
  return place => view.go(place);
}
