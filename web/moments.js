// The states of environments of a run after any tick, by the command `core`, and the lines of their traces from any tick on, as
// tools/moments.py has them.

import { tables } from "./tables.js";
import { latin } from "./text.js";

const MOST_CORES = 64, WORD = 4; // cores that are kept, and bytes of a word

/** What the program says of the run of a workshop. */
export class Moments {
  constructor(workshop) {
    Object.assign(this, { workshop, cores: new Map() });
  }

  /** The state of an environment, which lives then, after so many ticks. */
  core(env, tick) {
    const key = `${env} ${tick}`, found = this.cores.get(key) ?? this.workshop.core(tick, env);
    this.cores.delete(key);
    this.cores.set(key, found);
    if (this.cores.size > MOST_CORES) this.cores.delete(this.cores.keys().next().value);
    return found;
  }

  /** The trace of an environment in the ticks from `first` to `last` - 1. */
  trace(env, first, last) {
    return this.workshop.trace(last, env, first);
  }

  /** How many bytes of an environment's console were put in so many ticks. */
  console(env, tick) {
    const said = tick ? new RegExp(`^out ${env} (\\d+) `, "m").exec(latin(this.workshop.written("run", tick))) : null;
    return said ? Number(said[1]) : 0;
  }
}

/** What an environment sees: the bytes of pages by their VPNs, and which of them may be stored to. `kept` has its guaranteed pages. */
export class Memory {
  constructor(core, kept) {
    this.pages = new Map([...core.pages].map(([vpn, page]) => [vpn, page.data.slice()]));
    this.writable = new Set([...core.pages.keys()].filter(vpn => core.pages.get(vpn).isWritable));
    this.bound = [...this.pages.keys()].filter(vpn => !kept.has(vpn));
  }

  /** The bytes from an address on, up to the first one that no page has. */
  read(address, size) {
    const { pageSize } = tables.limits, found = [];
    while (found.length < size) {
      const at = address + found.length >>> 0, page = this.pages.get(Math.floor(at / pageSize));
      if (!page) break;
      found.push(...page.subarray(at % pageSize, at % pageSize + size - found.length));
    }
    return found;
  }

  /** Stores bytes, where a page is that may be stored to. */
  put({ address, data }) {
    const { pageSize } = tables.limits, vpn = Math.floor(address / pageSize);
    if (this.writable.has(vpn)) this.pages.get(vpn).set(data, address % pageSize);
  }

  /** Whether a bound page may be seen at another VPN too: then that has the same bytes. */
  mayBeTwice(vpn) {
    return this.bound.includes(vpn) && this.bound.some(it => it !== vpn && isSame(this.pages.get(it), this.pages.get(vpn)));
  }

  /** What another memory has in place of this one's: a VPN, a place there and the bytes, as long as words differ. Of a page that is gone they
   * are null, and a new page is zeros first. */
  differences(other) {
    const vpns = [...new Set([...this.pages.keys(), ...other.pages.keys()])].sort((one, two) => one - two), found = [];
    for (const vpn of vpns) {
      const before = this.pages.get(vpn), page = other.pages.get(vpn), old = before ?? new Uint8Array(tables.limits.pageSize);
      if (!before || !page) found.push([vpn, 0, page ? [] : null]);
      if (page && !isSame(old, page)) found.push(...stretches(old, page).map(([first, end]) => [vpn, first, page.slice(first, end)]));
    }
    return found;
  }
}

const isSame = (one, two) => one.every((it, at) => it === two[at]);

/** Where words of a page differ: from where to where. */
function stretches(old, page) {
  const found = [];
  for (let at = 0; at < page.length; at += WORD) {
    if ([0, 1, 2, 3].every(it => old[at + it] === page[at + it])) continue;
    if (found.length && found.at(-1)[1] === at) found.at(-1)[1] = at + WORD;
    else found.push([at, at + WORD]);
  }
  return found;
}
