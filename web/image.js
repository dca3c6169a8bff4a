// The guaranteed pages of each environment of an image, as they are at boot (tools/boot_memory.py).

import { tables } from "./tables.js";

export const CONTEXT_VPN = 1;
const END_OF_STACK = 0x7fff0, FLAT = 0;

/** An environment at boot: where it is entered, the bytes of its pages by VPN, and which may be stored to. */
class Boot {
  constructor(entry) {
    Object.assign(this, { entry, pages: new Map(), writable: new Map() });
  }

  /** A segment: bytes from an address on, of which the file gives the first ones. */
  add(address, data, size, isWritable) {
    const { pageSize } = tables.limits, last = Math.floor((address + size - 1) / pageSize);
    for (let vpn = Math.floor(address / pageSize); vpn <= last; vpn++) {
      const first = Math.max(address, vpn * pageSize), page = this.pages.get(vpn) ?? new Uint8Array(pageSize);
      page.set(data.subarray(first - address, Math.max((vpn + 1) * pageSize - address, 0)), first % pageSize);
      this.pages.set(vpn, page);
      this.writable.set(vpn, (this.writable.get(vpn) ?? false) || isWritable);
    }
  }
}

/** Where an ELF file is entered, and its segments that have bytes in memory. */
function segmentsOf(file) {
  const view = new DataView(file.buffer, file.byteOffset, file.byteLength), first = view.getUint32(28, true), segments = [];
  for (let header = first; header < first + 32 * view.getUint16(44, true); header += 32) {
    const [kind, offset, address, , inFile, size, flags] = Array.from({ length: 7 }, (_, at) => view.getUint32(header + 4 * at, true));
    if (kind === 1 && size) segments.push([address, file.subarray(offset, offset + inFile), size, Boolean(flags & 2)]);
  }
  return [view.getUint32(24, true), segments];
}

/** Reads an image in which there is no fault: its version, its quantum, and its environments at boot. */
export function readImage(file) {
  const view = new DataView(file.buffer, file.byteOffset, file.byteLength), word = at => view.getUint32(at, true);
  const image = { version: file[3] - 48, quantum: word(8), environments: [] };
  let place = 16 + view.getUint16(14, true);
  for (let count = view.getUint16(12, true); count > 0; count--) {
    const [base, stack, , kind, length] = Array.from({ length: 5 }, (_, at) => word(place + 8 + 4 * at));
    const body = file.slice(place + 28, place + 28 + length);
    const [entry, segments] = kind === FLAT ? [base, [[base, body, length, true]]] : segmentsOf(body);
    const boot = new Boot(entry);
    for (const segment of segments) boot.add(...segment);
    const own = [CONTEXT_VPN, ...Array.from({ length: stack }, (_, at) => END_OF_STACK - stack + at)];
    for (const vpn of own) {
      boot.pages.set(vpn, new Uint8Array(tables.limits.pageSize));
      boot.writable.set(vpn, true);
    }
    image.environments.push(boot);
    place += 28 + length;
  }
  return image;
}
