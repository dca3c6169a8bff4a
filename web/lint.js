// Warns of what assembles and is seldom meant, as tools/lint does.

import { Flow } from "./flow.js";
import { register } from "./source.js";
import { tables } from "./tables.js";
import { address, decoded } from "./text.js";

const isJump = it => tables.branches.includes(it) || tables.jumps.includes(it);
const ZERO = ["$0", "$zero"];
const FIRST = 4, LENGTH = 5; // registers of arguments

/** What can't stand behind a branch or jump. */
function* inSlots(source) {
  const order = source.instructions();
  for (const [at, jump] of order.slice(0, -1).entries()) {
    const slot = order[at + 1], what = slot.operation, { line } = jump;
    if (jump.address + jump.size !== slot.address || !isJump(jump.operation)) continue;
    if (what === "li" || what === "la") {
      yield [slot, `\`${what}\` is two instructions, and stands in the delay slot of line ${line}: only its first half runs before the jump`];
    } else if (what === "syscall") {
      yield [slot, `\`syscall\` stands in the delay slot of line ${line}, where it is no call but the exception Sys`];
    } else if (isJump(what)) {
      yield [slot, `\`${what}\` stands in the delay slot of line ${line}: put a \`nop\` between the two`];
    }
  }
}

/** A program that seems to begin at `main`. */
function* withoutStart(source) {
  if (source.labels.has("main") && !source.labels.has("start")) {
    yield [source.labels.get("main"), "a program begins at `start`, or without it at its first instruction, and not at `main`"];
  }
}

/** Low halves that are negative, or don't fit. */
function* lowHalves(source) {
  for (const it of source.instructions()) {
    if (!tables.signed.includes(it.operation) || !it.operands.length) continue;
    const low = /^lo\((.*)\)(\(\$\w+\))?$/.exec(it.operands.at(-1)), value = low ? source.value(low[1]) : null;
    if (value !== null && value & 0x8000) {
      yield [it, `bit 15 of \`${low[1]}\` (0x${address(value)}) is set, so \`lo(${low[1]})\` is no signed half: write \`la\`, and the offset 0`];
    }
  }
}

/** Whether a call is SPIM's: by the register's name, by a label's address where a number is expected, or by what is unset. */
function isSpim(value, loaded, first, unset, source) {
  const { byName, ofPages, ofLengths } = tables.ofSpim, isV0 = loaded.operands[0] === "$v0";
  if (ofLengths.includes(value)) return unset.includes(LENGTH) && (value === 1 || isV0);
  const isLabel = (ofPages.includes(value) || value === 8) && source.labels.has(first);
  return isLabel || byName.includes(value) && isV0 || ofPages.includes(value) && unset.includes(FIRST);
}

/** Calls by SPIM's numbers. */
function* spimCalls(source) {
  const flow = new Flow(source), without = [FIRST, LENGTH].map(number => [number, flow.unset(number)]);
  let called = [], first = "";
  for (const [at, it] of flow.order.entries()) {
    const written = it.operands[0]?.startsWith("$") ? register(it.operands[0].replace(/^\$+/, "")) : undefined;
    if (["li", "ori", "addi", "addiu"].includes(it.operation) && written === 2) {
      const value = source.value(it.operands.at(-1));
      const isMeant = value in tables.spim && (it.operation === "li" || it.operands.length > 1 && ZERO.includes(it.operands[1]));
      called = isMeant ? [[it, value]] : [];
    } else if (written === FIRST) {
      first = it.operation === "la" ? it.operands.at(-1) : "";
    } else if (it.operation === "syscall") {
      const unset = without.filter(([, places]) => places.has(at)).map(([number]) => number);
      for (const [loaded, value] of called) {
        if (!isSpim(value, loaded, first, unset, source)) continue;
        const [there, here, instead] = tables.spim[value];
        yield [loaded, `call ${value} ${there} in SPIM, and here it ${here}: ${instead}`];
      }
      called = [];
    }
  }
}

/** Calls in a function that doesn't keep the address to which it goes back. */
function* lostReturns(source) {
  for (const [call, jump] of new Flow(source).lostReturns()) {
    yield [call, `\`${call.operation}\` sets \`$31\`, and so the \`${jump.operation} ${jump.operands[0]}\` of line ${jump.line} goes back to here: a `
      + "function that calls another keeps `$31` on the stack"];
  }
}

/** The labels that the program names as handlers, by kind: 0 exceptions, 1 starts, 2 ends. */
function handlers(source) {
  const found = new Map(), values = new Map();
  for (const it of source.instructions()) {
    if ((it.operation === "li" || it.operation === "la") && it.operands.length === 2 && it.registers().length) {
      values.set(it.registers()[0], it.operands[1]);
    } else if (it.operation === "move" && it.operands.length === 2 && ZERO.includes(it.operands[1])) {
      if (it.registers().length) values.set(it.registers()[0], "0");
    } else if (it.operation === "syscall") {
      if (source.value(values.get(2) ?? "") === 8 && source.labels.has(values.get(5))) {
        const kind = source.value(values.get(4) ?? "0") ?? 0;
        if (kind <= 2) found.set(kind, (found.get(kind) ?? new Set()).add(values.get(5)));
      }
      values.delete(2);
    }
  }
  return found;
}

/** The lines of the instructions that can run from this one on, without upcalls. */
function reached(source, first) {
  const order = source.instructions(), places = new Map(order.map((it, at) => [it.address, at]));
  const seen = new Set(), left = [places.get(first.address) ?? order.length];
  while (left.length) {
    for (let at = left.pop(); at < order.length && !seen.has(at); at++) {
      const it = order[at];
      seen.add(at);
      if ((tables.branches.includes(it.operation) || it.operation === "j" || it.operation === "jal") && it.operands.length) {
        const target = places.get(source.value(it.operands.at(-1)));
        if (target !== undefined) left.push(target);
      }
      if (["b", "j", "jr"].includes(it.operation) && at + 1 < order.length) {
        seen.add(at + 1); // the delay slot
        break;
      }
    }
  }
  return new Set([...seen].map(at => order[at].line));
}

/** Registers that a handler changes under the program. */
function* takenRegisters(source) {
  const named = handlers(source), order = source.instructions();
  const taken = new Set([...(named.has(0) ? [1, 26, 27] : []), ...(named.size ? [26] : [])]);
  if (!taken.size || !order.length) return;
  const lines = reached(source, source.labels.get("start") ?? order[0]);
  for (const labels of named.values()) {
    for (const label of labels) for (const line of reached(source, source.labels.get(label))) lines.delete(line);
  }
  for (const it of order) {
    const used = it.registers().filter(register => taken.has(register)).sort((one, two) => one - two);
    if (lines.has(it.line) && used.length) {
      yield [it, `\`$${used[0]}\` is changed whenever a handler that this program names is entered: use another register`];
    }
  }
}

/** The lines that warn of a source, in the order of its lines. */
export function warnings(path, source) {
  const found = [inSlots, withoutStart, lowHalves, spimCalls, lostReturns, takenRegisters].flatMap(way => [...way(source)]);
  found.sort((one, two) => one[0].line - two[0].line);
  return found.flatMap(([it, says]) => [`${path}:${it.line}: ${says}`, `    ${decoded(it.text).trim()}`]);
}
