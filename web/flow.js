// How a source in assembly runs, as tools/flow.py finds it: which instruction may follow which, and where a register may have been set.

import { register } from "./source.js";
import { tables } from "./tables.js";

const NEAR = 8; // instructions above a call, among which its number is looked for
const EXIT = 2, CODE = 2, RETURN = 31;

/** The registers that an instruction sets. */
function written(it) {
  if (it.operation === "syscall") return [2, 3];
  if (tables.flow.links.includes(it.operation)) return [RETURN];
  if (tables.flow.noResult.includes(it.operation) && it.operation !== "jalr" || !it.operands.length) return [];
  const number = it.operands[0].startsWith("$") ? register(it.operands[0].replace(/^\$+/, "")) : undefined;
  return number === undefined ? [] : [number];
}

/** The instructions of a source, by their places, and what may follow each. */
export class Flow {
  constructor(source) {
    this.source = source;
    this.order = source.instructions();
    this.places = new Map(this.order.map((it, at) => [it.address, at]));
    this.taken = this.takenLabels();
    const isCall = it => tables.flow.links.includes(it.operation) || it.operation === "jalr";
    this.returns = [...this.order.keys()].filter(at => isCall(this.order[at]) && at + 2 < this.order.length).map(at => at + 2);
    this.next = this.order.map((_, at) => this.followers(at));
  }

  /** The place of the instruction at a label. */
  place(label) {
    const value = this.source.value(label);
    return value === null ? undefined : this.places.get(value);
  }

  /** The places whose address the program has as a value: handlers, and where a register leads. */
  takenLabels() {
    const said = this.order.filter(it => (it.operation === "la" || it.operation === "li") && it.operands.length === 2).map(it => it.operands[1]);
    for (const it of this.source.statements) if (it.operation === ".word") said.push(...it.operands);
    const found = new Set(said.filter(it => !/^[0-9]/.test(it)).map(it => this.place(it)));
    found.delete(undefined);
    return [...found].sort((one, two) => one - two);
  }

  /** Whether a kernel call ends the program: the nearest line above that sets `$2` has exit's number; or for `$v0` SPIM's. */
  isExit(at) {
    const loaded = this.order.slice(Math.max(at - NEAR, 0), at).reverse().find(it => written(it).includes(CODE)), { operation } = this.order[at];
    if (operation !== "syscall" && operation !== "jalr" || !loaded || !["li", "ori", "addi", "addiu"].includes(loaded.operation)) return false;
    const value = this.source.value(loaded.operands.at(-1));
    return value === EXIT && operation === "syscall" || loaded.operands[0] === "$v0" && (value === 10 || value === 17);
  }

  /** Whether an instruction is right after a jump of these. */
  isAfter(at, jumps) {
    const before = this.order[at - 1];
    return before !== undefined && jumps.includes(before.operation) && before.address + before.size === this.order[at].address;
  }

  /** What may run right after an instruction: of one in a delay slot, what its jump leads to. */
  followers(at) {
    const before = this.order[at - 1], { links, branches } = tables.flow, onwards = at + 1 < this.order.length ? [at + 1] : [];
    if (this.order[at].operation === "syscall" && this.isExit(at) || before?.operation === "jalr" && this.isExit(at - 1)) return [];
    if (!this.isAfter(at, [...branches, ...tables.jumps, ...links])) return onwards;
    const goal = before.operands.length ? this.place(before.operands.at(-1)) : undefined;
    const found = before.operation === "jr" ? [...this.taken, ...this.returns] : before.operation === "jalr" ? this.taken : goal === undefined ? [] : [goal];
    return [...found, ...(!["b", "j", "jr"].includes(before.operation) || this.order[at].label ? onwards : [])];
  }

  /** All that is found from these places on, where `more` answers what follows a place. */
  found(begins, more) {
    const found = new Set(), left = [...begins];
    while (left.length) {
      const at = left.pop();
      if (found.has(at)) continue;
      found.add(at);
      left.push(...more(at));
    }
    return found;
  }

  reached(begins) {
    return this.found(begins, at => this.next[at]);
  }

  /** What may run after an instruction in its own function: after a call, what it comes back to. */
  within(at) {
    if (this.isAfter(at, [...tables.flow.links, "jalr"])) return at + 1 < this.order.length && this.comesBack(at - 1) ? [at + 1] : [];
    return this.order[at - 1]?.operation === "jr" && !this.order[at].label ? [] : this.next[at];
  }

  /** Whether a call may come back: what it calls isn't known, or has a `jr`, and it isn't an exit. */
  comesBack(at) {
    if (this.isExit(at)) return false;
    const it = this.order[at], goal = tables.flow.links.includes(it.operation) && it.operands.length ? this.place(it.operands.at(-1)) : undefined;
    return goal === undefined || [...this.reached([goal])].some(place => this.order[place].operation === "jr");
  }

  /** Each call with the `jr $31` that goes back to it, since nothing sets `$31` between the two. */
  lostReturns() {
    const found = [];
    for (const [at, call] of this.order.slice(0, -2).entries()) {
      if (!tables.flow.links.includes(call.operation) || !this.comesBack(at)) continue;
      const kept = this.found([at + 2], place => written(this.order[place]).includes(RETURN) ? [] : this.within(place));
      const jump = [...kept].sort((one, two) => one - two).map(place => this.order[place]).find(it => it.operation === "jr" && it.registers().includes(RETURN));
      if (jump) found.push([call, jump]);
    }
    return found;
  }

  /** The instructions that the program reaches from its begin, and always before this register was set. */
  unset(number) {
    const after = this.order.flatMap((it, at) => written(it).includes(number) ? this.next[at] : []), set = this.reached([...after, ...this.taken]);
    return new Set([...this.reached(this.order.length ? [this.place("start") ?? 0] : [])].filter(at => !set.has(at)));
  }
}
