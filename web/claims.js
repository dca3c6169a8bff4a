// What an environment claims at any tick: packets by its filters, and interrupt lines. No core has that, so it is read of the calls in its
// traces (tools/claim_history.py).

import * as calls from "./calls.js";
import { ATOM_SIZE, matches } from "./filters.js";
import { isCall } from "./instructions.js";
import { Memory } from "./moments.js";
import { readTrace } from "./recording.js";
import { TRANSFERS } from "./refused.js";
import { registersOf } from "./registers.js";
import { tables } from "./tables.js";

const OF_CLAIMS = [calls.FREE, calls.CLAIM, calls.UNCLAIM, calls.HANDLER, calls.LINE];
const NOTHING = { claims: [], lines: [] };

/** The claim that gets a packet, if one does. */
export const claimOf = (held, packet) => held.claims.find(it => matches(it.atoms, packet)) ?? null;

const withoutPage = (held, page) => ({ ...held, claims: held.claims.filter(it => it.page !== page) });

/** What an environment claims, as far as it was asked for. */
export class ClaimHistory {
  constructor({ moments, report }, number) {
    Object.assign(this, { moments, report, number, read: 0, held: [] });
  }

  /** What it has when the events of a tick happen. */
  at(tick) {
    while (this.read < tick) {
      const first = this.read;
      this.read = Math.min(first + tables.limits.traced, this.report.time);
      this.extend(first, this.read);
    }
    return this.held.findLast(it => it.tick < tick) ?? NOTHING;
  }

  /** Reads some ticks. */
  extend(first, last) {
    const isWithin = it => it.kind === "take" && it.env === this.number && it.time >= first && it.time < last;
    const taken = this.report.marks.filter(isWithin).map(it => ({ tick: it.time, number: calls.FREE, page: Number(it.words[3]) }));
    for (const { tick, number, page } of [...taken, ...this.calls(first, last)].sort((one, two) => one.tick - two.tick)) {
      const now = this.held.at(-1) ?? NOTHING;
      this.held.push({ ...(number === calls.FREE ? withoutPage(now, page) : this.afterCall(now, tick, number)), tick });
    }
  }

  /** The calls of some ticks that were granted and concern claims: tick, number and `$4`. */
  calls(first, last) {
    const found = [], isEntry = it => TRANSFERS.includes(it.kind) && Number(it.words[4]) === this.number && it.time >= first;
    if (!this.report.slices.some(it => it.env === this.number && it.start < last && it.end > first)) return found;
    const entries = this.report.marks.filter(isEntry).map(it => it.time);
    let registers = registersOf(this.moments.core(this.number, first));
    for (const row of readTrace(this.moments.trace(this.number, first, last))) {
      while (entries.length && entries[0] < row.tick) registers = registersOf(this.moments.core(this.number, entries.shift() + 1));
      const number = registers[calls.CODE];
      for (const [register, value] of row.told) registers[register] = value;
      const isGranted = row.word !== null && isCall(row.word) && row.told.get(calls.CODE) === 0 && OF_CLAIMS.includes(number);
      if (isGranted) found.push({ tick: row.tick, number, page: registers[calls.FIRST_ARGUMENT] });
    }
    return found;
  }

  /** What it has after a call. Its arguments and its answer are those of the state after it. */
  afterCall(held, tick, number) {
    const core = this.moments.core(this.number, tick + 1), [value, first, second, third] = core.registers.slice(calls.VALUE, calls.VALUE + 4);
    const ways = {
      [calls.CLAIM]: () => {
        const atoms = new Memory(core, new Set()).read(first, second * ATOM_SIZE);
        return { ...held, claims: [...held.claims, { number: value, page: third, atoms, isHandled: false }] };
      },
      [calls.UNCLAIM]: () => ({ ...held, claims: held.claims.filter(it => it.number !== first) }),
      [calls.HANDLER]: () => ({ ...held, claims: held.claims.map(it => it.number === first ? { ...it, isHandled: third !== 0 } : it) }),
      [calls.LINE]: () => ({ ...held, lines: [...held.lines.filter(it => it !== first), ...(second ? [first] : [])] }),
    };
    return ways[number]();
  }
}
