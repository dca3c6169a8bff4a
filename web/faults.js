// Sources as the assembler takes them, and all faults of one, as tools/faults.py finds them: where a line is refused, something that is
// none stands in for it, and the assembler is asked again.

import { advice, meaning } from "./advice.js";
import { nearest } from "./near.js";
import { MARK, NAME, readSource, Statement, withoutComment } from "./source.js";
import { tables } from "./tables.js";
import { bytesOfLatin, latin, quoted } from "./text.js";

const MOST_FAULTS = 10; // that are told
const WITH_BYTES = [".word", ".half", ".byte", ".ascii", ".asciiz", ".space"];
const CONSTANT = new RegExp(`^\\s*(?:\\.(?:equ|eqv|set|equiv)\\s+(${NAME})|(${NAME})\\s*=)`);
const isAscii = text => /^[\x00-\x7f]*$/.test(text);

const withoutMark = text => text.startsWith(MARK) ? text.slice(MARK.length) : text;

/** A line whose comment is ASCII. */
function plainLine(line) {
  if (isAscii(line)) return line;
  const { length } = withoutComment(line), comment = new TextDecoder("utf-8", { ignoreBOM: true }).decode(bytesOfLatin(line.slice(length)));
  return line.slice(0, length) + [...comment].map(it => it > "\x7f" ? "?" : it).join("");
}

/** Bytes with the same lines, in whose comments each character beyond ASCII is a `?`, and without a mark before them. */
export function plain(bytes) {
  const text = withoutMark(latin(bytes));
  return bytesOfLatin(isAscii(text) ? text : text.split("\n").map(plainLine).join("\n"));
}

/** A line without a fault in place of one that is refused: it has the label, the name or the section that the other means, and takes
 * as many bytes. */
function standIn(said, why) {
  const label = said.label && why !== "Redefined" ? `${said.label}: ` : "", name = said.operation;
  if (said.isInstruction && !said.inText) return `${label}.text`;
  if (name.startsWith(".") && !WITH_BYTES.includes(name)) {
    const section = tables.sections[name] || nearest(name, [".text", ".data"]);
    if (section) return `${label}${section}`;
  }
  const constant = CONSTANT.exec(withoutComment(said.text));
  if (constant && why !== "Redefined") return `.equ ${constant[1] ?? constant[2]}, 4`;
  if (said.inText && !name.startsWith(".")) return `${label}${said.size === 8 ? "li $0, 0" : "nop"}`;
  const size = said.size + (why === "Unaligned" ? (4 - said.address % 4) % 4 : 0);
  return size ? `${label}.space ${size}` : label;
}

/** The names that a line uses. */
function namesIn(said) {
  return new Set(said.operands.map(it => it.replace(/\$\w+|"[^"]*"|0x\w+/g, " ")).join(" ").match(new RegExp(NAME, "g")) ?? []);
}

/** Whether a fault only follows from one that is told: a name that is missing once more, or the place of data after others. */
function isSequel({ why }, said, source, before, told) {
  if (why === "Undefined") {
    const missing = [...namesIn(said)].filter(it => !source.names.has(it)), isAgain = missing.length > 0 && missing.every(it => told.has(it));
    for (const it of missing) told.add(it);
    return isAgain;
  }
  const there = before.map(it => source.statements[it.line - 1]).filter(it => it), isData = there.some(it => !it.inText || it.operation.startsWith("."));
  return why === "Empty" && before.length > 0 || why === "Unaligned" && isData;
}

/** The faults of a source, the first of them as the assembler names it. `ask` answers what a text is refused for, or nothing. */
function* foundFaults(bytes, ask) {
  const lines = latin(plain(bytes)).split("\n"), written = withoutMark(latin(bytes)).split("\n"), before = [], told = new Set(), tried = new Set();
  for (let asked = ask(lines.join("\n")); asked; asked = ask(lines.join("\n"))) {
    const [why, line] = asked, source = readSource(lines.join("\n")), said = source.statements[line - 1] ?? new Statement(line, "", "", "", []);
    const fault = { why, line, text: (written[line - 1] ?? "").replace(/\r+$/, ""), advice: advice(why, source, said.text) };
    if (!tried.has(line) && !isSequel(fault, said, source, before, told)) {
      before.push(fault);
      yield fault;
    }
    if (why === "Empty" || !lines[line - 1]) return;
    lines[line - 1] = tried.has(line) ? "" : standIn(said, why);
    tried.add(line);
  }
}

/** At most ten faults of a source by their lines, as what is said of them, and the line of the first. */
export function faultsOf(path, bytes, ask) {
  const found = [];
  let hasMore = false;
  for (const it of foundFaults(bytes, ask)) {
    hasMore = found.length === MOST_FAULTS;
    if (hasMore) break;
    found.push(it);
  }
  found.sort((one, two) => one.line - two.line);
  const lines = found.flatMap(it => [`${path}:${it.line}: ${it.why}: ${meaning("source", it.why)}.`, ...quoted(it.text), ...(it.advice ? [it.advice] : [])]);
  return { lines: [...lines, ...(hasMore ? [`There are more faults than these ${found.length}.`] : [])], line: found[0].line };
}
