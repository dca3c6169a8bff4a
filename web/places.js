// What stands at a program's addresses, as tools/places.py finds it: labels and lines of a source in assembly, the symbols of an ELF
// file that has them. Lines of a program in C want the compiler's own tool, which isn't here.

import { DATA } from "./source.js";
import { address as eight, decoded, utf8 } from "./text.js";

const FIRST_WORDS = { li: "lui", la: "lui", move: "addu", b: "beq", nop: "sll" };
const FAR = 1 << 16;
const SYMBOLS = 2, NO_BITS = 8; // kinds of sections
const ANY_KIND = 0, OBJECT = 1, FUNCTION = 2; // kinds of symbols

/** The labels and lines of a program, by address. */
export class Places {
  constructor(labels = new Map(), lines = new Map(), sources = new Map(), functions = new Map()) {
    Object.assign(this, { labels, lines, sources, functions }); // functions are labels at which a function of C begins
    this.order = [...labels].map(([name, address]) => ({ name, address }));
    this.order.sort((one, two) => one.address - two.address || (one.name < two.name ? -1 : 1));
  }

  /** An address by the label before it and how far it is after that, or nothing. */
  name(address) {
    let from = 0, to = this.order.length;
    while (from < to) {
      const middle = from + to >> 1;
      if (this.order[middle].address <= address) from = middle + 1;
      else to = middle;
    }
    if (from === 0) return "";
    const begin = this.order[from - 1].address;
    if ((begin >= DATA) !== (address >= DATA) || address - begin >= FAR) return "";
    const label = this.order.find(it => it.address === begin).name;
    return address === begin ? label : `${label}+${address - begin}`;
  }

  /** The file and the line of an instruction, or where it is. */
  where(at) {
    const line = this.lines.get(at);
    return line ? `${line.file}:${line.number}` : `at 0x${eight(at)}`;
  }
}

/** Whether the source's instructions stand where the listing has them. */
function fits(program) {
  const order = program.source ? program.source.instructions() : [];
  const first = it => (program.listing.get(it.address) ?? "").slice(18).split(" ")[0];
  return order.length > 0 && order.every(it => first(it) === (FIRST_WORDS[it.operation] ?? it.operation));
}

/** What is known of a program's addresses. */
export function placesOf(program) {
  program.places ??= program.source && fits(program) ? ofSource(program) : ofFile(program);
  return program.places;
}

function ofSource(program) {
  const lines = new Map();
  for (const it of program.source.instructions()) {
    const line = { file: program.shown, number: it.line, text: decoded(it.text).trim() };
    for (let address = it.address; address < it.address + it.size; address += 4) lines.set(address, line);
  }
  const labels = new Map([...program.source.labels].map(([name, it]) => [name, it.address]));
  return new Places(labels, lines, new Map([[program.shown, program.source.statements.map(it => decoded(it.text))]]));
}

/** The symbols of an ELF file that was given as one. */
function ofFile(program) {
  const found = program.source || program.isMade ? [] : [...symbols(program.file)].filter(([name]) => !name.startsWith("_"));
  const labels = new Map(found.map(([name, address]) => [name.split(".")[0], address]));
  const functions = found.filter(([, , type]) => type === FUNCTION).map(([name, address]) => [name.split(".")[0], address]);
  return new Places(labels, new Map(), new Map(), new Map(functions));
}

/** The sections of an ELF file, where it has some. */
function sections(file) {
  const view = new DataView(file.buffer, file.byteOffset, file.byteLength);
  if (file.length < 52 || view.getUint32(0) !== 0x7f454c46 || view.getUint16(4) !== 0x0101) return [];
  const first = view.getUint32(32, true), size = view.getUint16(46, true), count = view.getUint16(48, true);
  if (!first || size !== 40 || first + 40 * count > file.length) return [];
  return Array.from({ length: count }, (_, at) => {
    const word = place => view.getUint32(first + 40 * at + 4 * place, true);
    return { kind: word(1), link: word(6), content: word(1) === NO_BITS ? new Uint8Array(0) : file.subarray(word(4), word(4) + word(5)) };
  });
}

function* symbols(file) {
  const parts = sections(file);
  for (const { kind, link, content } of parts) {
    if (kind !== SYMBOLS || link >= parts.length) continue;
    const view = new DataView(content.buffer, content.byteOffset, content.byteLength), table = parts[link].content;
    for (let at = 0; at + 16 <= content.length; at += 16) {
      const place = view.getUint32(at, true), type = content[at + 12] & 15, part = view.getUint16(at + 14, true);
      const name = utf8(table.subarray(place, table.indexOf(0, place)));
      const isNamed = type === FUNCTION || type === OBJECT || type === ANY_KIND && /^[A-Za-z_]\w*$/.test(name);
      if (part && part < 0xff00 && isNamed) yield [name, view.getUint32(at + 4, true), type];
    }
  }
}
