// Bytes as text, and text as it is shown.

// What moves a cursor, changes a colour or turns the direction of writing; surrogates without a partner.
const CONTROL = /[\x00-\x08\x0b-\x1f\x7f-\x9f\u200e\u200f\u202a-\u202e\u2066-\u2069\ud800-\udfff]/gu;

const hex = (value, digits) => value.toString(16).padStart(digits, "0");

/** A number with commas between its thousands. */
export function counted(value) {
  return String(value).replace(/\B(?=(\d{3})+$)/g, ",");
}

/** An address as eight digits. */
export function address(value) {
  return hex(value >>> 0, 8);
}

/** A text in which each control character but the line's end and the tab is written as its digits. */
export function shown(text) {
  return text.replace(CONTROL, it => it.charCodeAt(0) < 0x100 ? `\\x${hex(it.charCodeAt(0), 2)}` : `\\u${hex(it.charCodeAt(0), 4)}`);
}

/** Bytes as a text with a character for each. */
export function latin(bytes) {
  const pieces = [];
  for (let at = 0; at < bytes.length; at += 8192) pieces.push(String.fromCharCode(...bytes.subarray(at, at + 8192)));
  return pieces.join("");
}

/** Bytes that the program wrote, all of ASCII, as a text. */
export function ascii(bytes) {
  return new TextDecoder("latin1").decode(bytes);
}

/** A text with a character for each byte as these bytes. */
export function bytesOfLatin(text) {
  return Uint8Array.from(text, it => it.charCodeAt(0));
}

/** Bytes that zlib packed, in base64, unpacked. */
export function unpacked(text) {
  const packed = new Blob([bytesOfLatin(atob(text.trim()))]).stream();
  return new Response(packed.pipeThrough(new DecompressionStream("deflate"))).arrayBuffer();
}

/** The length of the UTF-8 character at a place, 0 where the bytes there are none. */
function lengthAt(bytes, at) {
  const first = bytes[at], next = bytes[at + 1];
  if (first < 0x80) return 1;
  const length = first >= 0xc2 && first < 0xe0 ? 2 : first >= 0xe0 && first < 0xf0 ? 3 : first >= 0xf0 && first < 0xf5 ? 4 : 0;
  if (!length || at + length > bytes.length) return 0;
  for (let more = 1; more < length; more++) if ((bytes[at + more] & 0xc0) !== 0x80) return 0;
  const isTooLong = first === 0xe0 && next < 0xa0 || first === 0xf0 && next < 0x90;
  const isNone = first === 0xed && next >= 0xa0 || first === 0xf4 && next >= 0x90;
  return isTooLong || isNone ? 0 : length;
}

/** Bytes as the UTF-8 that they are; those that are none as `\x` and their digits. */
export function utf8(bytes) {
  const decoder = new TextDecoder("utf-8", { ignoreBOM: true });
  let text = "", from = 0, at = 0;
  while (at < bytes.length) {
    const length = lengthAt(bytes, at);
    if (length) {
      at += length;
      continue;
    }
    text += decoder.decode(bytes.subarray(from, at)) + `\\x${hex(bytes[at], 2)}`;
    from = ++at;
  }
  return text + decoder.decode(bytes.subarray(from, at));
}

/** A text with a character for each byte as the UTF-8 that it is. */
export function decoded(text) {
  return /^[\x00-\x7f]*$/.test(text) ? text : utf8(bytesOfLatin(text));
}

/** A line of a file as it is shown, where it has anything. */
export function quoted(line) {
  return line.trim() ? [`    ${decoded(line).trim()}`] : [];
}

/** The words of a line of a manifest or a schedule. */
export const wordsOf = line => line.split("#")[0].split(/\s+/).filter(it => it);

/** A character as Python quotes it. */
export function quotedCharacter(it) {
  const code = it.codePointAt(0);
  if (it === "'") return `"'"`;
  if (it === "\\") return "'\\\\'";
  const named = { 9: "\\t", 10: "\\n", 13: "\\r" }[code];
  return `'${named ?? (code < 32 || code > 126 && code < 161 || code === 173 ? `\\x${hex(code, 2)}` : it)}'`;
}
