// Loops without an end, as tools/loops.py finds them: where an environment that lives at the limit has gone round without a kernel call.

import { tickAt } from "./reader.js";
import { address, counted } from "./text.js";

const LEAST_ROUNDS = 8; // steps at each of a loop's addresses, on average, so that it counts as one
const MOST_STRETCHES = 3; // of lines that are named
const DIGITS = 8, OPERATION = 19; // of an address; the place of the instruction after the blank that ends a line's tick

/** The lines of a trace, the last one first: the place before each, its address as digits, and whether it is a SYSCALL. */
function* linesBackwards(text) {
  const first = text.indexOf("\n");
  for (let to = text.lastIndexOf("\nend "); to > first; ) {
    const place = text.lastIndexOf("\n", to - 1), gap = text.indexOf(" ", place + 1);
    yield { place, pc: text.slice(gap + 1, gap + 1 + DIGITS), isCall: text.startsWith("syscall", gap + OPERATION) };
    to = place;
  }
}

/** The few addresses, as digits, at which the last steps of a trace are, each many times, without a call; none where it is no loop. */
export function loopOf(text) {
  const steps = [];
  for (const { pc, isCall } of linesBackwards(text)) {
    if (isCall) break;
    steps.push(pc);
  }
  const half = Math.floor(steps.length / 2), addresses = new Set(steps.slice(0, half));
  return half >= LEAST_ROUNDS * addresses.size ? addresses : new Set();
}

/** Since when an environment goes round at some addresses without a call, by its traces one after another. */
export class Start {
  constructor(addresses) {
    Object.assign(this, { addresses, since: null }); // none where no step of the loop is known yet
  }

  /** Takes the next trace. */
  add(text) {
    let after = -1; // the place before the first line that is of the loop, of those at the end
    for (const { place, pc, isCall } of linesBackwards(text)) {
      if (isCall || !this.addresses.has(pc)) {
        this.since = after < 0 ? null : tickAt(text, after);
        return;
      }
      after = place;
    }
    if (this.since === null && after >= 0) this.since = tickAt(text, after);
  }
}

/** The lines of some addresses, as stretches: `lines 3 to 5`; nothing where some have none. */
function linesOf(addresses, places) {
  const lines = [...addresses].map(it => places.lines.get(it)), files = [...new Set(lines.map(it => it?.file))].sort();
  if (files.includes(undefined)) return "";
  if (files.length > 1) return `lines of ${files.join(" and ")}`;
  const ordered = found => [...new Set(found.map(it => it.number))].sort((one, two) => one - two);
  const numbers = ordered(lines), coded = ordered([...places.lines.values()]), stretches = [];
  for (const it of numbers) {
    const last = stretches.at(-1);
    if (last && coded.indexOf(it) === coded.indexOf(last.at(-1)) + 1) last.push(it);
    else stretches.push([it]);
  }
  const said = stretches.slice(0, MOST_STRETCHES).map(it => it.length > 1 ? `${it[0]} to ${it.at(-1)}` : String(it[0]));
  return `line${numbers.length > 1 ? "s" : ""} ${said.join(" and ")}${stretches.length > MOST_STRETCHES ? " and more" : ""}`;
}

/** What is said of an environment that lives at the limit, where it is at this address. */
export function loopLine({ addresses, since }, places, pc) {
  if (!addresses.has(address(pc)) || since === null) return [];
  const numbers = new Set([...addresses].map(it => parseInt(it, 16))), order = [...numbers].sort((one, two) => one - two);
  const where = linesOf(numbers, places) || `0x${address(order[0])} to 0x${address(order.at(-1))}`;
  return [`   since tick ${counted(since)} it goes round ${where} without a call`];
}
