// What is wrong with a refused line of a source or a schedule, and what to write, as tools/refusals.py says it.

import { nearest } from "./near.js";
import { ofTheOperands } from "./operands.js";
import { isNumber, NAME, number, readStatement, register } from "./source.js";
import { tables } from "./tables.js";
import { counted, decoded, quotedCharacter, wordsOf } from "./text.js";

const STRANGE = /[^\t\r -~]/;

/** What a refusal's name means, of a file of this kind. */
export function meaning(kind, why) {
  return tables.refusals[kind][why] ?? "this name isn't known here";
}

/** What is wrong with a line of a source that is refused for `why`, as far as it can be told. */
export function advice(why, source, line) {
  const said = readStatement(0, line);
  const ways = { UnknownName: unknown, Syntax: syntax, OutOfRange: tooLarge, Undefined: undefinedName, Unaligned: unaligned, Redefined: redefined };
  if (why === "Empty") return "Instructions stand in `.text`, where a source begins.";
  return (ways[why] && ways[why](source, said)) ?? "";
}

function redefined(source, said) {
  const name = said.label || (said.operands[0] ?? ""), first = source.labels.get(name);
  return first ? `\`${name}\` stands in line ${first.line} already.` : `\`${name}\` has a value already.`;
}

/** What is wrong with a line of a schedule that is refused for `why`, as far as it can be told. */
export function eventAdvice(why, line) {
  const odd = STRANGE.exec(line), words = wordsOf(line), { limits } = tables;
  if (odd) return `The line has the character ${wide(odd[0], line)}: outside of comments a schedule is plain ASCII.`;
  if (why === "Syntax") {
    return words.length > 3 && words[1] === "packet" ? "The bytes of a packet stand without blanks between them."
      : "An event is `TIME packet BYTES`, `TIME line NUMBER` or `TIME revoke ENV COUNT GRACE`.";
  }
  if (why === "Hex") {
    if (words[2].startsWith("0x")) return "The digits have no `0x` before them.";
    return /[^0-9a-fA-F]/.test(words[2]) ? "A digit is one of `0` to `9`, `a` to `f` and `A` to `F`." : "Each byte has two digits, and their number is odd.";
  }
  if (why === "Range") {
    const limit = { packet: `a packet has 1 to ${counted(limits.packet)} bytes`, line: `the lines are 0 to ${limits.line}` }[words[1]]
      ?? `so is a grace, an environment at most ${limits.target}, and a count of pages at most ${counted(limits.asked)}`;
    return `A time is at most ${counted(limits.ticks)}, and ${limit}. Numbers are decimal or begin with \`0x\`.`;
  }
  return why === "Order" ? "Events stand in the order of their times." : "";
}

/** The first character beyond ASCII of a line, as UTF-8 has it where the line is that. */
function wide(character, line) {
  const found = character > "\x7f" ? [...decoded(line)].find(it => it.codePointAt(0) > 127) ?? character : character;
  return quotedCharacter(found);
}

/** An operation or a register that there isn't. */
function unknown(_source, said) {
  if (!(said.operation in tables.operands)) return unknownOperation(said);
  const words = said.operands.filter(it => !it.startsWith('"')).join(" ").match(/\$\w*/g) ?? [];
  const bad = words.find(it => register(it.slice(1)) === undefined);
  if (bad === undefined) return null;
  if (/^\$f[0-9]+$/.test(bad)) return `\`${bad}\` is a register of the floating point unit, which the machine lacks.`;
  if (bad.toLowerCase() !== bad) return `Registers are lower case: \`${bad.toLowerCase()}\`.`;
  return `There is no register \`${bad}\`: they are \`$0\` to \`$31\`, or \`$zero\`, \`$at\`, \`$v0\`, \`$a0\`, \`$t0\`, \`$s0\`, \`$sp\`, \`$ra\` and so on.`;
}

function unknownOperation(said) {
  const name = said.operation, { operands } = said;
  if (name.toLowerCase() in tables.operands) return `Operations are lower case: \`${name.toLowerCase()}\`.`;
  if (name in tables.withNumber && operands.length === 3 && isNumber(operands[1])) {
    const [test, added, branch] = tables.withNumber[name], [left, limit, target] = operands;
    return `\`${name}\` isn't built in: write \`${test} $1,${left},${number(limit) + BigInt(added)}\` and \`${branch} $1,$0,${target}\`.`;
  }
  if (name === ".eqv" && operands.length === 1) {
    const [, first, rest] = /^(\S+)(?:\s+([^]*))?$/.exec(operands[0]);
    return `\`.eqv\` isn't built in: write \`.equ ${first}${rest === undefined ? "" : `, ${rest}`}\`.`;
  }
  if (name in tables.nothingFor) return tables.nothingFor[name];
  if (name in tables.instead) return instead(name, [...operands, "...", "...", "..."]);
  if (tables.leftOut.includes(name)) return `\`${name}\` isn't needed here: leave the line out.`;
  if (/^(\w+\.[sd]|[ls]wc1|mt?fc1|mtc1|c\..*|bc1.)$/.test(name)) return "The machine has no floating point unit.";
  const near = nearest(name, Object.keys(tables.operands));
  return `There is no ${name.startsWith(".") ? "directive" : "instruction"} \`${name}\`.` + (near ? ` Did you mean \`${near}\`?` : "");
}

/** What to write in place of an operation of other assemblers. */
function instead(name, operands) {
  let first = "";
  if (tables.ofRegisters.includes(name) && isNumber(operands[2])) {
    first = `\`li $1,${operands[2]}\` and `;
    operands[2] = "$1";
  }
  return `\`${name}\` isn't built in: write ${first}\`${tables.instead[name].replace(/\{([0-2])\}/g, (_, at) => operands[at])}\`.`;
}

/** A line of another form. */
function syntax(source, said) {
  return ofTheLine(said) ?? ofTheOperands(source, said) ?? (said.operation in tables.operands ? null : unknown(source, said));
}

/** What no line may have. */
function ofTheLine(said) {
  const line = said.text.split("#")[0], odd = STRANGE.exec(said.text);
  if (odd) return `The line has the character ${wide(odd[0], said.text)}: outside of comments a source is plain ASCII.`;
  if (line.split('"').length % 2 === 0 && line.split('\\"').length % 2) return "The quoted text doesn't end in this line.";
  const bare = line.replace(/"(?:[^"\\]|\\.)*"/g, '""');
  if (bare.includes(";")) return "`;` has no meaning here: a comment begins with `#`, and each statement has a line of its own.";
  if (bare.includes("//") || bare.includes("/*")) return "A comment begins with `#`.";
  const character = /'(\\?.)'/.exec(bare);
  if (character) return `A character is written as its number: \`${tables.characters[character[1]] ?? character[1].at(-1).charCodeAt(0)}\`.`;
  return repeated(bare) ?? labelled(bare)
    ?? (/\\[^nt0\\"]/.test(line) ? 'In a quoted text only `\\n`, `\\t`, `\\0`, `\\\\` and `\\"` have a backslash.' : null);
}

/** A value that a colon is to repeat. */
function repeated(bare) {
  const found = /(\.word|\.half|\.byte)\s+(-?\w+)\s*:\s*(\d+)\s*$/.exec(bare);
  if (!found) return null;
  const size = BigInt({ ".word": 4, ".half": 2, ".byte": 1 }[found[1]]);
  return found[2] === "0" ? `A value isn't repeated by \`:\`: for ${found[3]} zeros write \`.space ${size * BigInt(found[3])}\`.`
    : `A value isn't repeated by \`:\`: write \`${found[1]}\` with ${found[3]} values, with commas between them.`;
}

/** A label, or a constant, of another form. */
function labelled(bare) {
  if (new RegExp(`^\\s*${NAME}[ \\t]+:`).test(bare)) return "The colon stands directly after the label.";
  if (/^\s*[0-9]\w*:/.test(bare)) return "A label begins with a letter, `_` or `.`.";
  if (new RegExp(`^\\s*${NAME}:\\s*${NAME}:`).test(bare)) return "A line has one label: give the second a line of its own.";
  const equal = new RegExp(`^\\s*(${NAME})\\s*=\\s*(\\S+)`).exec(bare);
  return equal ? `A constant is written \`.equ ${equal[1]}, ${equal[2]}\`.` : null;
}

/** A number that doesn't fit. */
function tooLarge(_source, said) {
  const name = said.operation, { operands } = said;
  if (tables.loads.includes(name) && operands.length === 2) {
    const offset = operands[1].slice(0, Math.max(operands[1].lastIndexOf("("), 0));
    if (offset.startsWith("lo(")) {
      return `Bit 15 of the address is set, so its low half doesn't fit: \`la $1, ${offset.slice(3, -1)}\` and \`${name} ${operands[0]}, 0($1)\`.`;
    }
    return `An offset lies between -32768 and 32767: put the address into a register by \`la $1, ${offset}\`, and write \`0($1)\`.`;
  }
  if (["addi", "addiu", "slti", "sltiu", "andi", "ori", "xori"].includes(name)) {
    const limits = ["andi", "ori", "xori"].includes(name) ? "0 and 65535" : "-32768 and 32767";
    return `The number of \`${name}\` lies between ${limits}: put a larger one into a register by \`li\`.`;
  }
  if (["sll", "srl", "sra"].includes(name)) return "A shift amount lies between 0 and 31.";
  if (name === ".byte" || name === ".half") return `A value of \`${name}\` lies between ${name === ".byte" ? "-128 and 255" : "-32768 and 65535"}.`;
  if (name === ".align") return "`.align N` is for a multiple of 2 to the power of N: `.align 2` for words. N is at most 12.";
  if (name === "lui") return "`lui` has a half word, 0 to 65535: `li` takes a whole word.";
  if (name === "j" || name === "jal" || name.startsWith("b")) return "The target is too far away for a branch, or not in this program.";
  if (said.label === "start") return "The label `start` isn't the address of an instruction.";
  return name === ".space" ? "A section has at most 1,048,576 bytes." : null;
}

/** A name without a value. */
function undefinedName(source, said) {
  const isConstant = said.operation === ".equ";
  const text = said.operands.slice(isConstant ? 1 : 0).map(it => it.replace(/\$\w+|"[^"]*"|0x\w+/g, " ")).join(" ");
  const words = (text.match(new RegExp(NAME, "g")) ?? []).filter(it => it !== "hi" && it !== "lo");
  const missing = words.find(it => !source.names.has(it));
  if (isConstant && words.length) return `\`.equ\` uses names that have a value already: \`${missing ?? words[0]}\` gets none in a line above.`;
  if (missing === undefined) return null;
  if (register(missing) !== undefined) return `A register is written with \`$\`: \`$${missing}\`.`;
  const near = nearest(missing, source.names.keys());
  return `There is no label or constant \`${missing}\`.` + (near ? ` Did you mean \`${near}\`?` : "");
}

/** What doesn't stand at a multiple of its size. */
function unaligned(_source, said) {
  const name = said.operation;
  if (name === ".word" || name === ".half") return `Write \`.align ${name === ".word" ? 2 : 1}\` in a line above, and the label after it.`;
  if (tables.jumps.includes(name) || name.startsWith("b")) return "The target isn't the address of an instruction, which is a multiple of 4.";
  return "Text or bytes stand before it: write `.align 2` above, or put them into `.data`.";
}
