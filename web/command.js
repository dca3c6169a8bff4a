// Any command of the program over the page's files. What a word names and isn't there is made: NAME.elf and NAME.bin of NAME.s, NAME.img
// of NAME.txt, and an empty schedule none.sch. `> NAME` at the end keeps what is written as a file. For `bare` the text of NAME.bin stands
// where a board begins, after 256 bytes of 0.

import { endingOf, Failed, stemOf, Workshop } from "./programs.js";
import { latin, wordsOf } from "./text.js";

const HEADERS = 84; // bytes of an ELF file with one part
const ENTRY = 0x100; // of a board without the kernel, in its file

/** Makes the file that a word names of the page's files, if it can be made. */
function make(run, files, word, isBare) {
  const stem = stemOf(word), source = [".s", ".asm"].map(it => stem + it).find(it => files.has(it)), workshop = new Workshop(run, files);
  if (word === "none.sch") return new Uint8Array(0);
  if ((endingOf(word) === ".elf" || endingOf(word) === ".bin") && source) {
    const { file } = workshop.assembled(source, stem);
    if (endingOf(word) === ".elf") return file;
    return isBare ? Uint8Array.from([...new Uint8Array(ENTRY), ...file.slice(HEADERS)]) : file.slice(HEADERS);
  }
  if (endingOf(word) === ".img" && files.has(`${stem}.txt`)) {
    workshop.prepare([`${stem}.txt`], 0, "");
    return workshop.room.get("try.img");
  }
  return null;
}

/** Runs a command: its status, what it wrote, which files were made for it, and why one couldn't be. `room` are the files of the last run. */
export function perform(run, files, room, text) {
  const [, said, kept] = /^(.*?)(?:\s*>\s*(\S+))?\s*$/.exec(text), words = said.trim().split(/\s+/).filter(it => it), given = new Map(), made = [];
  const named = words.slice(1);
  if (words[0] === "image" && files.has(words[1])) for (const line of latin(files.get(words[1])).split("\n")) named.push(wordsOf(line).at(-1) ?? "");
  try {
    for (const word of new Set(named)) {
      const there = files.get(word) ?? room.get(word), bytes = there ?? make(run, files, word, words[0] === "bare");
      if (bytes) given.set(word, bytes);
      if (bytes && !there) made.push(word);
    }
  } catch (why) {
    if (!(why instanceof Failed)) throw why;
    return { status: why.status, output: new Uint8Array(0), made, lines: why.lines, kept: "" };
  }
  const { status, output } = run(words, given);
  return { status, output, made, lines: [], kept: kept ?? "" };
}
