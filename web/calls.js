// The kernel's calls in words, as tools/kernel_calls.py says them: what is asked, and what is answered.

import { tables } from "./tables.js";
import { address } from "./text.js";

export const CODE = 2, VALUE = 3, FIRST_ARGUMENT = 4; // registers
export const PUT = 1, ALLOC = 3, FREE = 4, RECAP = 5, BIND = 6, UNBIND = 7, CONTEXT = 8, CLAIM = 14, UNCLAIM = 15, HANDLER = 16, LINE = 17;
const ANY = 0xffffffff, LARGEST_DECIMAL = 65_535;
const ADDRESS = 1, CHOICE = 2;

/** An argument as it is shown; `?` where it isn't known. */
function argument(kind, value) {
  if (value === null) return "?";
  const how = tables.kinds[kind] ?? 0;
  if (how === CHOICE && value === ANY) return "-1";
  return (how === ADDRESS ? value > 9 : value > LARGEST_DECIMAL) ? `0x${value.toString(16)}` : String(value);
}

/** What a SYSCALL asks, by the registers before it: `claim(0x10000000, 1, 7)`. */
export function asked(registers) {
  const number = registers[CODE];
  if (number === null) return "call ?";
  const call = tables.calls[number];
  if (!call) return `call ${number}`;
  return `${call.name}(${call.arguments.map((kind, at) => argument(kind, registers[FIRST_ARGUMENT + at])).join(", ")})`;
}

/** The name of an answer's code. */
export function answerName(code) {
  return code === null ? "?" : tables.answers[code] ?? "?";
}

/** What a call was answered, by the registers after it: the value of a granted one, or the refusal's name and code. */
export function answered(registers) {
  const code = registers[CODE], value = registers[VALUE];
  if (code === 0) return value === null ? "?" : value < 2 ** 31 ? String(value) : `0x${address(value)}`;
  return `${answerName(code)} (${code === null ? "?" : code})${value ? `, value ${value}` : ""}`;
}
