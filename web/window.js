// What the parts of the page have from the browser: elements, files that are saved, bytes as they are shown.

import { counted, latin } from "./text.js";

const MOST_SHOWN = 200_000; // bytes of a report or an output that are shown

export const at = id => document.getElementById(id);

/** Has the browser keep a file outside of the page. */
export function save(name, bytes) {
  const link = document.createElement("a");
  link.href = URL.createObjectURL(new Blob([bytes]));
  link.download = name;
  link.click();
  setTimeout(() => URL.revokeObjectURL(link.href), 10_000);
}

/** Bytes as they are shown: those of a text, or the first ones as digits. */
export function bytesShown(bytes) {
  const part = bytes.subarray(0, MOST_SHOWN), text = latin(part);
  if (/^[\t\n\r -~]*$/.test(text)) return text + (part.length < bytes.length ? `\n.. ${counted(bytes.length - part.length)} bytes more: save has all` : "");
  const digits = [...bytes.subarray(0, 4096)].map(it => it.toString(16).padStart(2, "0")).join(" ");
  return `${digits.replace(/(.{47}) /g, "$1\n")}${bytes.length > 4096 ? "\n.. save has all" : ""}`;
}

/** A frame later, so that the browser shows first what stands there. */
export const frame = () => new Promise(resolve => setTimeout(resolve, 20));
