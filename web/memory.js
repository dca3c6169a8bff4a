// The memory of a run at each of a page's steps, forwards and backwards: what is seen at the first one, and what changes.

const PAGE_SIZE = 4096, CONTEXT_VPN = 1, WORD = 4;

const bytesOf = digits => digits.match(/../g)?.map(it => parseInt(it, 16)) ?? [];

/** Memory, at a place among the steps. */
export class StepMemory {
  constructor(pages, steps) {
    Object.assign(this, { steps, done: 0, undo: [], changed: new Set(), pages: new Map() });
    for (const [vpn, digits] of Object.entries(pages)) this.put(Number(vpn), 0, bytesOf(digits));
  }

  /** Puts bytes into a page, which is there from then on. */
  put(vpn, place, bytes) {
    const page = this.pages.get(vpn) ?? new Uint8Array(PAGE_SIZE);
    page.set(bytes, place);
    this.pages.set(vpn, page);
  }

  /** Goes to after so many steps. */
  go(done) {
    while (this.done < done) this.forwards(this.steps[this.done++]);
    while (this.done > done) {
      this.done--;
      for (const [vpn, old] of this.undo.pop()) {
        if (old) this.pages.set(vpn, old);
        else this.pages.delete(vpn);
      }
    }
    this.changed.clear();
    for (const [vpn, place, digits] of (done && this.steps[done - 1][8]) || []) {
      for (let at = 0; digits && at < digits.length / 2; at += WORD) this.changed.add(vpn * PAGE_SIZE + place + at);
    }
  }

  forwards(step) {
    const changes = step[8] ?? [];
    this.undo.push([...new Set(changes.map(([vpn]) => vpn))].map(vpn => [vpn, this.pages.get(vpn)?.slice()]));
    for (const [vpn, place, digits] of changes) {
      if (digits === undefined) this.pages.delete(vpn);
      else this.put(vpn, place, bytesOf(digits));
    }
  }

  /** The byte at an address, or nothing where no page is. */
  byte(address) {
    return this.pages.get(Math.floor(address / PAGE_SIZE))?.[address % PAGE_SIZE];
  }

  /** Whether the last step, or what happened before it, changed the word at an address. */
  isNew(address) {
    return this.changed.has(address - address % WORD);
  }

  /** The address of the last change up to this step, but in the context page; none where there is none. */
  lastChange() {
    for (let at = this.done - 1; at >= 0; at--) {
      const found = (this.steps[at][8] ?? []).find(([vpn, , digits]) => vpn !== CONTEXT_VPN && digits);
      if (found) return found[0] * PAGE_SIZE + found[1];
    }
    return undefined;
  }
}
