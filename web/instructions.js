// What a step does, as far as it isn't in a trace: where it goes on, what it stores, and whether it raises (tools/instructions.py).

export const SYSCALL = 12, BREAK = 13;
const WIDTHS = { 32: 1, 33: 2, 34: 1, 35: 4, 36: 1, 37: 2, 38: 1, 40: 1, 41: 2, 42: 1, 43: 4, 46: 1 }; // of loads and stores, by opcode
export const COPROCESSORS = [16, 17, 18, 19, 49, 50, 51, 57, 58, 59];
const STORES = [40, 41, 42, 43, 46], STORE_LEFT = 42, STORE_RIGHT = 46;

const half = word => (word & 0xffff) << 16 >> 16;
export const opcodeOf = word => word >>> 26;

export function isCall(word) {
  return (word & 0xfc00003f) >>> 0 === SYSCALL;
}

export function isStore(word) {
  return STORES.includes(opcodeOf(word));
}

/** Whether the instruction has a delay slot. */
export function isJump(word) {
  const opcode = opcodeOf(word), operation = word & 63, kind = word >>> 16 & 31;
  return opcode >= 2 && opcode < 8 || opcode === 0 && (operation === 8 || operation === 9) || opcode === 1 && [0, 1, 16, 17].includes(kind);
}

/** Where a jump or a branch goes on after its delay slot, which is at `after`: elsewhere than `pc` + 4 if it is in a slot itself. */
export function target(word, pc, after, registers) {
  const opcode = opcodeOf(word), rs = registers[word >>> 21 & 31], rt = registers[word >>> 16 & 31];
  if (opcode === 0) return rs;
  if (opcode === 2 || opcode === 3) return (pc + 4 & 0xf0000000 | (word & 0x3ffffff) << 2) >>> 0;
  let isTaken;
  if (opcode === 4 || opcode === 5) {
    isTaken = (rs === rt) === (opcode === 4);
  } else if (opcode === 1) {
    isTaken = (rs | 0) < 0 === ((word >>> 16 & 1) === 0);
  } else {
    isTaken = (rs | 0) <= 0 === (opcode === 6);
  }
  return (isTaken ? pc + 4 + 4 * half(word) : after + 4) >>> 0;
}

/** The address that a load or store goes to, where the word is one. */
export function access(word, registers) {
  return WIDTHS[opcodeOf(word)] === undefined ? null : registers[word >>> 21 & 31] + half(word) >>> 0;
}

/** What a store puts: an address, and the bytes from there on. */
export function stored(word, address, registers) {
  const opcode = opcodeOf(word), value = registers[word >>> 16 & 31], at = address % 4;
  const data = [0, 8, 16, 24].map(shift => value >>> shift & 255);
  if (opcode === STORE_LEFT) return { address: address - at, data: data.slice(3 - at) };
  if (opcode === STORE_RIGHT) return { address, data: data.slice(0, 4 - at) };
  return { address, data: data.slice(0, WIDTHS[opcode]) };
}

/** The code of the exception that a step raises, 0 where it retires, null where that depends on `mapped`, which isn't known: it says of the
 * page of an access whether it is there, and whether it may be stored to. */
export function cause(word, pc, registers, mapped) {
  if (word === null) return pc % 4 || pc >>> 31 ? 4 : 2;
  const opcode = opcodeOf(word), operation = word & 63;
  if (opcode === 0 && (operation === SYSCALL || operation === BREAK)) return operation === SYSCALL ? 8 : 9;
  if (COPROCESSORS.includes(opcode)) return 11;
  if (opcode === 0 && (operation === 32 || operation === 34) || opcode === 8) return overflow(word, registers);
  if (WIDTHS[opcode] === undefined) return 0;
  const address = access(word, registers);
  if (address % WIDTHS[opcode] || address >>> 31) return isStore(word) ? 5 : 4;
  if (mapped === null) return null;
  if (!mapped.isThere) return isStore(word) ? 3 : 2;
  return isStore(word) && !mapped.isWritable ? 1 : 0;
}

/** 12 where ADD, ADDI or SUB overflows, 0 where it doesn't. */
function overflow(word, registers) {
  const left = registers[word >>> 21 & 31], right = opcodeOf(word) === 8 ? half(word) : registers[word >>> 16 & 31];
  const isDifference = opcodeOf(word) === 0 && (word & 63) === 34;
  const total = (left | 0) + (isDifference ? -(right | 0) : right | 0);
  return total >= -(2 ** 31) && total < 2 ** 31 ? 0 : 12;
}
