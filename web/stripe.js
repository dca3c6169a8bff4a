// The bindings of an environment that a bind of its own replaced, as tools/replaced_bindings.py finds them.

import { BIND, FREE, UNBIND } from "./calls.js";
import { counted } from "./text.js";

const MOST_CORES = 4; // by which it is made sure that a binding was there, which others may have broken

/** What is bound in an environment's rows, by its own calls. `sees` answers whether it sees a page at a VPN after some ticks. */
export class Stripe {
  constructor(rows, sees) {
    Object.assign(this, { rows, sees, bound: new Map(), found: new Map(), cores: MOST_CORES });
  }

  /** Takes a call, which may be another one, or refused. */
  note(call) {
    if (call.code !== 0 || ![BIND, UNBIND, FREE].includes(call.number)) return;
    const first = call.argument(0), row = first % this.rows;
    if (first === null) return;
    if (call.number === FREE) {
      for (const [at, { page }] of [...this.bound]) if (page === first) this.bound.delete(at);
    } else if (call.number === BIND) {
      this.bind(call, first, row);
    } else if (this.bound.get(row)?.vpn === first) {
      this.bound.delete(row);
    }
  }

  /** Takes a bind that was granted. */
  bind(call, vpn, row) {
    const before = this.bound.get(row)?.vpn ?? vpn, { address, tick } = call;
    this.bound.set(row, { vpn, page: call.argument(1) });
    if (before === vpn) return;
    const known = this.found.get(address);
    if (known) {
      known.times += 1;
    } else if (this.cores) {
      this.cores -= 1;
      if (this.sees(before, tick)) this.found.set(address, { address, tick, vpn, before, times: 1 });
    }
  }

  all() {
    return [...this.found.values()];
  }
}

/** What is said of one. */
export function replacedLine({ address, tick, vpn, before, times }, places, rows) {
  const often = times > 1 ? `, ${counted(times)} times in all` : "", hex = it => `0x${it.toString(16)}`;
  return `   ${places.where(address)}: the bind of VPN ${hex(vpn)} in tick ${counted(tick)} replaced that of VPN ${hex(before)}: `
    + `one row, as they differ by a multiple of ${rows}${often}`;
}
