// What is wrong with a manifest, or with the image that it makes, as tools/programs.py says it: by the line that says it; or, where it
// is made of programs, by the program.

import { meaning } from "./advice.js";
import { manifestAdvice } from "./manifests.js";
import { tables } from "./tables.js";
import { counted, quoted, wordsOf } from "./text.js";

const FIRST_SLOT = 16; // the byte of an image in which the owner of slot 0 stands

/** The lines that say it, and the manifest's line. `made` are programs of which it is made, `content` a file's bytes. */
export function badImage(shown, lines, why, place, made, content) {
  if (why in tables.refusals.manifest) return badManifest(shown, lines, why, place);
  const said = new Map(), programs = [];
  lines.forEach((line, at) => {
    const [first] = wordsOf(line);
    if (first) said.set(first, at + 1);
    if (first === "env") programs.push(at + 1);
  });
  let advice = "", line = said.get("slots") ?? 1;
  if (why === "SlotOwner") {
    const slot = place - FIRST_SLOT, owner = wordsOf(lines[line - 1])[1 + slot];
    advice = `Slot ${slot} is owned by ${owner}, and the environments are counted from 0 to ${programs.length - 1}.`;
  } else if (why === "TooBig") {
    line = said.get("pages") ?? 1;
    advice = "Each environment has a page for its context, those of its program and those of its stack: let `pages` be larger.";
  } else if (why === "TooMany" && programs.length) {
    [line, advice] = tooLarge(lines, programs, content);
    if (made.length) return { lines: [`${made[programs.indexOf(line)].shown}: ${why}: ${meaning("image", why)}.`, advice], line };
  } else if (programs.length) {
    const isFlat = at => ["base", "empty"].includes(why.toLowerCase()) && lines[at - 1].includes("flat");
    line = programs.find(isFlat) ?? programs.at(-1);
  }
  return { lines: [`${shown}:${line}: ${why} at byte ${place} of the image: ${meaning("image", why)}.`, ...quoted(lines[line - 1]), ...(advice ? [advice] : [])], line };
}

function badManifest(shown, lines, why, place) {
  const text = lines[place - 1] ?? "", advice = manifestAdvice(why, lines, place);
  return { lines: [`${shown}:${place}: ${why}: ${meaning("manifest", why)}.`, ...quoted(text), ...(advice ? [advice] : [])], line: place };
}

/** The line of the program that needs most pages, and how many these are. */
function tooLarge(lines, programs, content) {
  const sizes = programs.map(at => sizeOf(content(wordsOf(lines[at - 1]).at(-1)))), size = Math.max(...sizes), { pageSize, mappings } = tables.limits;
  return [programs[sizes.indexOf(size)],
    `It has ${counted(size)} bytes in memory, which are ${counted(Math.ceil(size / pageSize))} pages, and a program has at most ${mappings}.`];
}

/** How many bytes of memory a program has: those of its segments, or of the file where that is no ELF file. */
function sizeOf(file) {
  const view = new DataView(file.buffer, file.byteOffset, file.byteLength);
  if (file.length < 52 || view.getUint32(0) !== 0x7f454c46) return file.length;
  const first = view.getUint32(28, true);
  let total = 0;
  for (let at = 0; at < view.getUint16(44, true) && first + 32 * (at + 1) <= file.length; at++) {
    if (view.getUint32(first + 32 * at, true) === 1) total += view.getUint32(first + 32 * at + 20, true);
  }
  return total;
}
