// What is wrong with the operands of an operation that there is, as tools/refusals.py says it.

import { NAME, register } from "./source.js";
import { tables } from "./tables.js";
import { ofAValue } from "./values.js";

const COUNTS = ["no operands", "one operand", "two operands", "three operands"];

/** What a known operation can't have; nothing where that isn't known. */
export function ofTheOperands(source, said) {
  const name = said.operation, { operands } = said, form = tables.operands[name];
  if (form === undefined) return null;
  if (said.isInstruction && isInData(source, said)) return "An instruction stands in `.text`, and this is `.data`: write `.text` above it.";
  const kinds = form.replace(/[*?]+$/, ""), wanted = kinds.length;
  if (operands.some(it => /[\w)"]\s+[\w$"(-]/.test(it.replace(/"(?:[^"\\]|\\.)*"/g, '""')))) {
    return `A comma is missing: \`${name} ${operands.join(" ").split(/[, ]+/).join(", ")}\`.`;
  }
  const other = ofAKnownName(name, operands);
  if (other) return other;
  if (!/[*?]$/.test(form) && operands.length !== wanted) {
    const told = wanted ? `${COUNTS[wanted]}: ${[...form].map(it => tables.forms[it]).join(", ")}` : COUNTS[0];
    return `\`${name}\` has ${told}.`;
  }
  if (!operands.length && form.endsWith("*")) return `\`${name}\` has one value or more.`;
  for (const [at, operand] of operands.entries()) {
    const kind = form.endsWith("*") ? kinds[at] ?? kinds.at(-1) : form[at];
    const found = kind === undefined ? null : ofAnOperand(name, kind, operand, operands);
    if (found) return found;
  }
  return null;
}

/** What is written in another form elsewhere. */
function ofAKnownName(name, operands) {
  if ((name === "div" || name === "divu") && operands.length === 3) {
    return `\`${name}\` has two operands: \`${name} ${operands[1]},${operands[2]}\` and \`mflo ${operands[0]}\` for the quotient, \`mfhi\` for the rest.`;
  }
  if (name === "jalr" && operands.length === 1) return `\`jalr\` has two operands: \`jalr $31,${operands[0]}\`.`;
  if ((name === "j" || name === "jal") && operands[0]?.startsWith("$")) {
    return `To jump to the address in a register write \`${name === "j" ? "jr " : "jalr $31,"}${operands[0]}\`.`;
  }
  return null;
}

/** What is wrong with one operand where another form is due. */
function ofAnOperand(name, kind, operand, operands) {
  if (kind === "r" && !operand.startsWith("$")) return noRegister(name, operand, operands);
  if (kind === "n" && operand.startsWith("$")) return noNumber(name, operand, operands);
  if (kind === "n" && operand.includes("($")) return `\`${name}\` takes no register in brackets: add it by \`addu\` afterwards.`;
  if (kind === "b" && !operand.endsWith(")")) {
    if (tables.loads.includes(name) && new RegExp(`^${NAME}([+-].*)?$`).test(operand)) {
      return `A load or store names a register in brackets: \`la $1, ${operand}\` and \`${name} ${operands[0]}, 0($1)\`.`;
    }
    return `An address is an offset and a register in brackets, as in \`${name} ${operands[0]}, 0($8)\`.`;
  }
  if (kind === "q" && !operand.startsWith('"')) return "A text stands in quotation marks.";
  if (kind !== "n" && kind !== "b") return null;
  if (/0b[01]+|[0-9]_[0-9]/.test(operand)) return `\`${operand}\` isn't a number here: numbers are decimal, or hexadecimal with \`0x\`.`;
  if (/^-0x/.test(operand)) return "A hexadecimal number has no sign: write it in decimal, or as its 32 bits.";
  return ofAValue(operand);
}

/** Something else where a register is due. */
function noRegister(name, operand, operands) {
  if (register(operand) !== undefined && !/^[0-9]+$/.test(operand)) return `A register is written with \`$\`: \`$${operand}\`.`;
  if (name === "move") return `\`move\` copies a register: for a number or an address write \`li ${operands[0]}, ${operand}\`.`;
  if (name in tables.operands && `${name}i` in tables.operands || name === "addu" || name === "sltu") {
    const withNumber = { add: "addiu", addu: "addiu", sltu: "sltiu" }[name] ?? `${name}i`;
    return `\`${name}\` ${name.startsWith("add") ? "adds" : "has"} registers alone: with a number it is \`${withNumber}\`.`;
  }
  if (name === "sub" || name === "subu") return "With a number it is `addi` or `addiu`, and the number's negative.";
  return `\`${operand}\` should be a register, such as \`$8\`.`;
}

/** A register where a number is due. */
function noNumber(name, operand, operands) {
  if (name === "li" || name === "la") return `To copy a register write \`move ${operands[0]}, ${operand}\`.`;
  if (["sll", "srl", "sra"].includes(name)) return `\`${name}\` shifts by a number: by a register it is \`${name}v\`.`;
  if (/(i|iu)$/.test(name)) {
    return `\`${name}\` has a number last: for a register write \`${name === "sltiu" ? "sltu" : name.replace("i", "")}\`.`;
  }
  return `\`${operand}\` should be a number or a name.`;
}

/** Whether the statement stands in the data, by its text. */
function isInData(source, said) {
  const found = source.statements.find(it => it.text === said.text);
  return found !== undefined && !found.inText;
}
