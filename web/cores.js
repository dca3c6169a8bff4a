// Core files as `aegis core` writes them, as tools/core_file.py reads them: docs/REPORT.md, "The core".

import { tables } from "./tables.js";

const LOADED = 1, HEADER = 32, WORD = 4; // a type of program headers, and sizes
const NUMBERS = 92, KERNEL_NUMBERS = 296, FIRST_REGISTER = 6; // places in the notes

/** The state of an environment: registers, where it goes on, its handlers, and the bytes of its pages by their VPNs. */
export class Core {
  constructor(file) {
    const view = new DataView(file.buffer, file.byteOffset, file.byteLength), word = at => view.getUint32(at, true), pages = new Map();
    const { pageSize } = tables.limits, first = word(28), notes = word(first + 4);
    for (let header = first; header < first + HEADER * view.getUint16(44, true); header += HEADER) {
      const [kind, place, address, , size, , flags] = Array.from({ length: 7 }, (_, at) => word(header + WORD * at));
      for (let at = 0; kind === LOADED && at < size; at += pageSize) {
        pages.set((address + at) / pageSize, { data: file.subarray(place + at, place + at + pageSize), isWritable: Boolean(flags & 2) });
      }
    }
    const number = at => word(notes + NUMBERS + WORD * at), kernel = at => word(notes + KERNEL_NUMBERS + WORD * at);
    Object.assign(this, { registers: Array.from({ length: 32 }, (_, at) => number(FIRST_REGISTER + at)), lo: number(38), hi: number(39),
      pc: number(40), next: kernel(2), isInSlot: kernel(3) === 1, handlers: Array.from({ length: 5 }, (_, kind) => kernel(6 + kind)), pages });
  }

  /** The word at an address, or null where no page is or it isn't a multiple of 4. */
  word(address) {
    const { pageSize } = tables.limits, page = this.pages.get(Math.floor(address / pageSize)), at = address % pageSize;
    return page === undefined || address % WORD ? null : new DataView(page.data.buffer, page.data.byteOffset + at, WORD).getUint32(0, true);
  }
}
