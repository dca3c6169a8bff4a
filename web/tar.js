// A hand-in as one file: a tar, which `tar xf` unpacks. It has no time and no owner, so the same files give the same bytes.

import { bytesOfLatin, latin, utf8 } from "./text.js";

const BLOCK = 512, SUM_AT = 148, KIND_AT = 156, MAGIC_AT = 257, NAME = 100;
const REGULAR = ["0", "\0"];

function header(name, size) {
  const block = new Uint8Array(BLOCK), put = (at, text) => block.set(bytesOfLatin(text), at);
  block.set(new TextEncoder().encode(name).subarray(0, NAME));
  put(100, "0000644\0" + "0000000\0" + "0000000\0" + size.toString(8).padStart(11, "0") + "\0" + "00000000000\0" + "        " + "0");
  put(MAGIC_AT, "ustar\0" + "00");
  put(SUM_AT, block.reduce((sum, it) => sum + it, 0).toString(8).padStart(6, "0") + "\0 ");
  return block;
}

/** Files, by their names, as the bytes of a tar. */
export function packTar(files) {
  const blocks = [];
  for (const [name, bytes] of files) {
    const body = new Uint8Array(Math.ceil(bytes.length / BLOCK) * BLOCK);
    body.set(bytes);
    blocks.push(header(name, bytes.length), body);
  }
  blocks.push(new Uint8Array(2 * BLOCK));
  const tar = new Uint8Array(blocks.reduce((total, it) => total + it.length, 0));
  let at = 0;
  for (const it of blocks) {
    tar.set(it, at);
    at += it.length;
  }
  return tar;
}

/** Whether bytes begin as a tar does. */
export const isTar = bytes => latin(bytes.subarray(MAGIC_AT, MAGIC_AT + 5)) === "ustar";

/** The files of a tar by their names without folders. */
export function unpackTar(tar) {
  const files = new Map();
  for (let at = 0; at + BLOCK <= tar.length && tar[at]; ) {
    const name = utf8(tar.subarray(at, at + NAME)).split("\0")[0], size = parseInt(latin(tar.subarray(at + 124, at + 136)), 8) || 0;
    const kind = String.fromCharCode(tar[at + KIND_AT]), stem = name.split("/").at(-1);
    if (REGULAR.includes(kind) && stem && !stem.startsWith(".")) files.set(stem, tar.slice(at + BLOCK, at + BLOCK + size));
    at += BLOCK + Math.ceil(size / BLOCK) * BLOCK;
  }
  return files;
}
