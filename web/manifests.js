// What is wrong with a line of a manifest, as tools/manifests.py says it.

import { nearest } from "./near.js";
import { tables } from "./tables.js";
import { counted, quotedCharacter, wordsOf } from "./text.js";

const LARGEST = 0xffffffff, MOST_SLOTS = 64;

/** The version that a manifest names, 1 where it names none. */
function versionOf(lines) {
  const named = lines.map(wordsOf).find(it => it.length === 2 && it[0] === "version")?.[1];
  return named === "2" ? 2 : 1;
}

/** A number as a manifest has it. */
function valueOf(word) {
  return /^(0x[0-9a-fA-F]{1,8}|[0-9]{1,10})$/.test(word) ? Number(word) : null;
}

/** Why a line isn't the one that is expected. */
function syntax(lines, place) {
  const line = lines[place - 1], { order, forms } = tables.manifest, all = tables.manifest.lines;
  if (!line?.trim()) return `The manifest ends too early. ${all}`;
  const odd = /[^\t\r -~]/.exec(line), words = wordsOf(line), [first] = words, many = words.length - 1;
  if (odd) return `The line has the character ${quotedCharacter(odd[0])}: outside of comments a manifest is plain ASCII.`;
  if (!order.includes(first)) {
    const near = nearest(first, order);
    return `No line begins with \`${first}\`.${near ? ` Did you mean \`${near}\`?` : ` ${all}`}`;
  }
  if (["version", "pages", "quantum"].includes(first) && many !== 1) return `\`${first}\` has one number, and here are ${many} words.`;
  if (first === "slots" && !(many >= 1 && many <= MOST_SLOTS)) {
    return `\`slots\` has for each slot the number of its owner, or \`-\` for an empty one: 1 to ${MOST_SLOTS} of them, and here are ${many}.`;
  }
  if (first === "env") {
    if (many < 2 || !(words[2] in forms)) {
      return `After \`env NAME\` comes \`elf\` or \`flat\`: \`${forms.elf}\`. STACK is in pages, and ACCEPT a mask of whom it accepts, 0 for nobody.`;
    }
    const form = forms[words[2]], wanted = form.split(" ").length;
    if (words.length !== wanted) {
      return `This line has ${words.length} words, and its form has ${wanted}: \`${form}\`. STACK is in pages, and ACCEPT a mask of whom it accepts.`;
    }
  }
  return `\`${first}\` isn't expected here. ${all}`;
}

/** The numbers of a line: each word, what it is, and its least and most value. */
function parts(words, version) {
  const { limits } = tables, most = limits.versions[version];
  const ways = {
    version: () => [[words[1], "a version", 1, 2]],
    pages: () => [[words[1], `the machine's pages in version ${version}`, limits.leastPages, most.pages]],
    quantum: () => [[words[1], "the ticks of a slice", limits.leastQuantum, limits.mostQuantum]],
    slots: () => words.slice(1).filter(it => it !== "-").map(it => [it, "a slot's owner", 0, most.environments - 1]),
    env: () => [...(words[2] === "flat" ? [[words[3], "BASE, an address", 0, LARGEST]] : []),
      [words.at(-3), "STACK, the pages of its stack", 0, limits.stackPages], [words.at(-2), "ACCEPT, a mask", 0, LARGEST]],
  };
  return ways[words[0]]?.() ?? [];
}

/** Which word of a line is no number, or outside its limits, or no name. */
function wrongWord(lines, place) {
  const words = wordsOf(lines[place - 1]);
  if (words[0] === "env" && !/^[a-z0-9_]{1,8}$/.test(words[1])) return `\`${words[1]}\` isn't a name: that is one to eight of \`a\` to \`z\`, \`0\` to \`9\` and \`_\`.`;
  for (const [word, what, least, most] of parts(words, versionOf(lines))) {
    const number = valueOf(word);
    if (number === null) return `\`${word}\` should be a number, ${what}: a number is decimal or begins with \`0x\`.`;
    if (number < least || number > most) return `\`${word}\` is outside the limits of ${what}: ${least} to ${counted(most)}.`;
  }
  return "";
}

/** What is wrong with the line at a place of a manifest that is refused for `why`. */
export function manifestAdvice(why, lines, place) {
  return why === "Syntax" ? syntax(lines, place) : why === "Range" ? wrongWord(lines, place) : "";
}
