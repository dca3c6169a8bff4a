// Whether a filter matches a packet, as tools/packet_filters.py says it.

export const ATOM_SIZE = 12;

const little = (bytes, at, size) => bytes.slice(at, at + size).reduceRight((value, byte) => value * 256 + byte, 0);

/** Whether a field is within a packet, and has the value under the mask. It has its highest byte first. */
function atomMatches(packet, offset, width, mask, value) {
  if (offset + width > packet.length) return false;
  const field = packet.slice(offset, offset + width).reduce((sum, byte) => sum * 256 + byte, 0);
  return (field & mask) >>> 0 === value;
}

/** Whether a filter, as the bytes of its atoms, matches a packet. */
export function matches(atoms, packet) {
  for (let at = 0; at < atoms.length; at += ATOM_SIZE) {
    if (!atomMatches(packet, little(atoms, at, 2), little(atoms, at + 2, 2), little(atoms, at + 4, 4), little(atoms, at + 8, 4))) return false;
  }
  return true;
}
