// The kernel calls of a trace that were answered, as tools/trace_calls.py reads them, and the registers that are looked at of them, from window
// to window of a run. A trace has up to 262,144 lines, so they aren't taken apart.

import { asked, CODE } from "./calls.js";
import { tables } from "./tables.js";

const LAST_ARGUMENT = 8, WORD = " syscall", DIGITS = 8;
const OPERATION = 19, TOLD = OPERATION + WORD.length - 1; // places in a line, after the blank that ends its tick

/** The tick of a line, which begins after this place. */
export function tickAt(text, place) {
  return Number(text.slice(place + 1, text.indexOf(" ", place + 1)));
}

/** The place of the first line after a tick, between those of two lines, the second of which is after it. */
function placeAfter(text, tick, low, high) {
  while (low < high) {
    const middle = text.lastIndexOf("\n", low + high >> 1);
    if (tickAt(text, middle) > tick) high = middle;
    else low = text.indexOf("\n", middle + 1);
  }
  return low;
}

/** What is told of a register whose name ends at a place, or null. */
function toldAt(text, place) {
  const digits = text.slice(place, place + DIGITS);
  return /^[0-9a-f]{8}$/.test(digits) && " \n".includes(text[place + DIGITS]) ? parseInt(digits, 16) : null;
}

/** The place at which the last value of a register is told between two places, or -1. */
export function lastTold(text, number, low, high) {
  const name = ` $${number} `, part = text.slice(low, high);
  for (let at = part.lastIndexOf(name); at >= 0; at = at > 0 ? part.lastIndexOf(name, at - 1) : -1) {
    if (toldAt(text, low + at + name.length) !== null) return low + at + name.length; // `jr $2` has the name too
  }
  return -1;
}

/** What is known of registers along a trace. Places only rise. */
class Registers {
  constructor(text, values) {
    Object.assign(this, { text, values, floor: 0 }); // the floor is where the last transfer entered: what is told before doesn't count
    this.seen = values.map(() => 0); // up to where the lines were looked at for each
  }

  /** A register's value before the line at a place. */
  value(number, place) {
    let low = this.seen[number];
    if (this.floor > low) {
      low = this.floor;
      this.values[number] = null;
    }
    const at = lastTold(this.text, number, low, place);
    if (at >= 0) this.values[number] = toldAt(this.text, at);
    this.seen[number] = Math.max(place, this.seen[number]);
    return this.values[number];
  }
}

/** A kernel call that was answered. */
class Call {
  constructor(tick, address, number, code, place, registers) {
    Object.assign(this, { tick, address, number, code, place, registers });
  }

  argument(at) {
    return this.registers.value(CODE + 2 + at, this.place);
  }

  /** What it asks, in words. */
  asked() {
    return asked(Array.from({ length: LAST_ARGUMENT + 1 }, (_, number) => number < CODE ? null : this.registers.value(number, this.place)));
  }
}

/** The delay slot after the line that ends at a place, -1 where its instruction is no jump, null where there is no line. */
function slotAfter(text, end) {
  const line = /^\d+ ([0-9a-f]{8}) \S{8} (\S+)/.exec(text.slice(text.lastIndexOf("\n", end - 1) + 1, end));
  return line ? tables.branches.includes(line[2]) || tables.jumps.includes(line[2]) ? parseInt(line[1], 16) + 4 : -1 : null;
}

/** Reads the calls of an environment, trace after trace. `entries` are the ticks in which transfers enter it. */
export class CallReader {
  constructor(entries) {
    Object.assign(this, { entries, entered: 0, values: Array(LAST_ARGUMENT + 1).fill(0), slot: -1 });
  }

  /** The calls of a trace. */
  *calls(text) {
    const registers = new Registers(text, this.values);
    let before = text.indexOf("\n");
    for (let at = text.indexOf(WORD); at >= 0; at = text.indexOf(WORD, at + 1)) {
      const place = text.lastIndexOf("\n", at), gap = text.indexOf(" ", place + 1), line = text.slice(gap, text.indexOf("\n", at));
      const tick = Number(text.slice(place + 1, gap)), address = parseInt(line.slice(1, 1 + DIGITS), 16);
      this.enter(registers, tick, before, place);
      before = place;
      if (line.endsWith(" dead") || (slotAfter(text, place) ?? this.slot) === address) continue;
      const number = registers.value(CODE, place), isTold = line.startsWith(" $2 ", TOLD);
      yield new Call(tick, address, number, isTold ? parseInt(line.slice(TOLD + 4, TOLD + 4 + DIGITS), 16) : number, place, registers);
    }
    this.leave(registers, text, before);
  }

  /** Takes the transfers before a line's tick. */
  enter(registers, tick, low, place) {
    const first = this.entered;
    while (this.entered < this.entries.length && this.entries[this.entered] < tick) this.entered++;
    if (this.entered > first) registers.floor = Math.max(registers.floor, placeAfter(registers.text, this.entries[this.entered - 1], low, place));
  }

  /** Keeps what is known at the end of a trace. */
  leave(registers, text, before) {
    const end = text.lastIndexOf("\nend "), last = text.lastIndexOf("\n", end - 1), slot = slotAfter(text, end);
    if (slot !== null) {
      this.enter(registers, tickAt(text, last), before, last);
      this.slot = slot;
    }
    this.values = this.values.map((_, number) => number < CODE ? null : registers.value(number, end));
  }
}
