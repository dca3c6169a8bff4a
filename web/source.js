// Reads sources of the assembler, as tools/source.py does: statements, where they stand, and values.

import { tables } from "./tables.js";

export const TEXT = 0x00400000, DATA = 0x10000000;
export const MARK = "\xef\xbb\xbf"; // that some editors put before a text in UTF-8, a character for each byte
export const NAME = "[A-Za-z_.][A-Za-z0-9_.]*";
const WORD = 2n ** 32n;
const LABEL = new RegExp(`^(${NAME}):`), SUM = new RegExp(`^(${NAME})(?:([+-])(-?[0-9]+|0x[0-9a-fA-F]+))?$`);
const NUMBER = /^(?:-?[0-9]+|0x[0-9a-fA-F]+)$/;
const BLANKS = /^[ \t]+|[ \t]+$/g;

/** The number that digits say, of any size. */
export function number(digits) {
  return digits.startsWith("-") ? -BigInt(digits.slice(1)) : BigInt(digits);
}

export const isNumber = operand => NUMBER.test(operand);
const modulo = value => Number((value % WORD + WORD) % WORD);

/** The number of a register, of its name without the `$`. */
export function register(name) {
  return tables.registers[/^[0-9]+$/.test(name) ? name.replace(/^0+/, "") || "0" : name];
}

/** A line up to the `#` that begins its comment. */
export function withoutComment(line) {
  return /^(?:[^#"]|"(?:[^"\\]|\\.)*"|"(?!.*"))*/.exec(line)[0];
}

/** Operands between commas, those in quoted texts aside. */
function parted(operands) {
  return (operands.match(/(?:[^,"]|"(?:[^"\\]|\\.)*"|")+|(?<=,)(?=,|$)/g) ?? []).map(it => it.replace(BLANKS, ""));
}

/** What a line says, and where it stands. */
export class Statement {
  constructor(line, text, label, operation, operands) {
    Object.assign(this, { line, text, label, operation, operands, inText: true, address: 0, size: 0 });
  }

  get isInstruction() {
    return this.operation !== "" && !this.operation.startsWith(".");
  }

  /** The registers that it names, in order. */
  registers() {
    const words = this.operands.filter(it => !it.startsWith('"')).join(" ").matchAll(/\$(\w+)/g);
    return [...words].map(it => register(it[1])).filter(it => it !== undefined);
  }
}

/** The statements of a source, in order, and the values of its names. */
export class Source {
  constructor() {
    this.statements = [];
    this.names = new Map();
    this.labels = new Map();
  }

  /** The value of an expression, modulo 2^32, as far as it is one and its names have values. */
  value(text) {
    const expression = text.trim(), half = /^(hi|lo)\((.*)\)$/.exec(expression);
    if (half) {
      const inner = this.value(half[2]);
      return inner === null ? null : half[1] === "hi" ? inner >>> 16 : inner & 0xffff;
    }
    if (isNumber(expression)) return modulo(number(expression));
    const sum = SUM.exec(expression);
    if (!sum || !this.names.has(sum[1])) return null;
    const added = sum[2] ? number(sum[3]) : 0n;
    return modulo(BigInt(this.names.get(sum[1])) + (sum[2] === "-" ? -added : added));
  }

  /** Its instructions, in the order in which they stand in the text. */
  instructions() {
    this.order ??= this.statements.filter(it => it.isInstruction && it.inText);
    return this.order;
  }
}

/** A line's statement. */
export function readStatement(count, line) {
  const said = withoutComment(line).replace(BLANKS, ""), label = LABEL.exec(said);
  const rest = label ? said.slice(label[0].length).replace(BLANKS, "") : said;
  const flat = rest.includes('"') ? rest : rest.replaceAll("\t", " "), gap = flat.indexOf(" ");
  const operation = gap < 0 ? flat : flat.slice(0, gap), operands = gap < 0 ? "" : flat.slice(gap + 1).replace(BLANKS, "");
  return new Statement(count, line, label ? label[1] : "", operation, operands.trim() ? parted(operands) : []);
}

/** The statements of a text, each at its place. The mark that some editors put before UTF-8 is passed over. */
export function readSource(text) {
  const source = new Source(), lines = (text.startsWith(MARK) ? text.slice(MARK.length) : text).split("\n");
  if (!lines[lines.length - 1]) lines.pop();
  let places = { text: TEXT, data: DATA }, part = "text";
  lines.forEach((line, at) => {
    const it = readStatement(at + 1, line.endsWith("\r") ? line.slice(0, -1) : line);
    if (it.operation === ".text" || it.operation === ".data") part = it.operation.slice(1);
    it.inText = part === "text";
    it.address = places[part];
    if (it.label && !source.names.has(it.label)) source.names.set(it.label, it.address);
    if (it.label && !source.labels.has(it.label)) source.labels.set(it.label, it);
    if (it.operation === ".equ" && it.operands.length === 2) {
      const value = source.value(it.operands[1]);
      if (value !== null && !source.names.has(it.operands[0])) source.names.set(it.operands[0], value);
    }
    it.size = sizeOf(source, it);
    places[part] += it.size;
    source.statements.push(it);
  });
  return source;
}

/** How many bytes a statement adds to its section. */
function sizeOf(source, it) {
  const { operation, operands } = it, count = operands.length;
  if (it.isInstruction) return operation === "li" || operation === "la" ? 8 : 4;
  const each = { ".word": 4, ".half": 2, ".byte": 1 }[operation];
  if (each) return each * count;
  if ((operation === ".ascii" || operation === ".asciiz") && count) {
    // a source is read with a character for each byte, and Python counts those above 127 as two
    const text = operands[0].slice(1, -1).replace(/\\./g, "x");
    return new TextEncoder().encode(text).length + (operation === ".asciiz" ? 1 : 0);
  }
  const value = (operation === ".space" || operation === ".align") && count ? source.value(operands[0]) : null;
  if (operation === ".space") return value ?? 0;
  return value !== null && value <= 12 ? (2 ** value - it.address % 2 ** value) % 2 ** value : 0;
}
