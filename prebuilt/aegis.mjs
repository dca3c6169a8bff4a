#!/usr/bin/env node
// Runs the program's WebAssembly module on words and files of this machine, for machines on which the native program doesn't
// run: node prebuilt/aegis.mjs WORD... Standard output, the files that are read and the status are those of the program. It
// asks for Node 18 or later.

import fs from "node:fs";
import { Exhausted, load } from "../web/aegis.js";

const FILE_LIMIT = 67_108_864; // the most bytes that a file may have: docs/FORMATS.md
const OUTPUT_FAILED = 5, OUT_OF_MEMORY = 6; // statuses: docs/REPORT.md

/** The words of the command in bytes: they needn't be UTF-8. Where the system doesn't tell its bytes, they are taken as text. */
function wordsOf(count) {
  try {
    const told = fs.readFileSync("/proc/self/cmdline").toString("latin1").split("\0").slice(0, -1);
    return count ? told.slice(-count).map((word) => Buffer.from(word, "latin1")) : [];
  } catch {
    return process.argv.slice(2).map((word) => Buffer.from(word));
  }
}

/** The bytes of a file, of a longer one than may be read no more than show that, or null where it can't be read. A pipe is read to its end. */
function read(name) {
  let file;
  try {
    file = fs.openSync(name, "r");
    const parts = [];
    for (let left = FILE_LIMIT + 1; left > 0; ) {
      const part = Buffer.alloc(Math.min(left, 1 << 20));
      const count = fs.readSync(file, part, 0, part.length, null);
      if (count === 0) break;
      parts.push(part.subarray(0, count));
      left -= count;
    }
    return Buffer.concat(parts);
  } catch {
    return null;
  } finally {
    if (file !== undefined) fs.closeSync(file);
  }
}

/** Runs the words, with each file that the program opens added once it was asked for. */
function perform(program, words) {
  const files = new Map();
  for (;;) {
    const { status, output, wanted } = program(words, [...files.values()]);
    const name = Buffer.from(wanted);
    const key = name.toString("latin1");
    const bytes = name.length && !files.has(key) ? read(name) : null;
    if (bytes === null) return { status, output };
    files.set(key, [name, bytes]);
  }
}

/** Writes all bytes to standard output; whether it took them. */
function write(bytes) {
  for (let at = 0; at < bytes.length; ) {
    try {
      at += fs.writeSync(1, bytes, at);
    } catch (why) {
      if (why.code !== "EAGAIN") return false;
      Atomics.wait(new Int32Array(new SharedArrayBuffer(4)), 0, 0, 1); // a pipe that is full: a millisecond later
    }
  }
  return true;
}

async function main() {
  const program = await load(fs.readFileSync(new URL("aegis.wasm", import.meta.url)));
  try {
    const { status, output } = perform(program, wordsOf(process.argv.length - 2));
    process.exitCode = write(output) ? status : OUTPUT_FAILED;
  } catch (why) {
    if (!(why instanceof Exhausted)) throw why;
    process.stderr.write(`aegis: ${why.message}\n`);
    process.exitCode = OUT_OF_MEMORY;
  }
}

await main();
