// What is worked on: files, and what runs of them; kept by the browser, put into a link, or into one file and out of it.

import { isTar, packTar, unpackTar } from "./tar.js";
import { bytesOfLatin, latin, utf8 } from "./text.js";

const KEEPS = "aegis page: "; // before the names under which the browser keeps edits
const HAND_IN = "HAND-IN"; // the file of a hand-in that says what ran
const OPENED = "opened"; // the name of files that were opened
const LONGEST_LINK = 30_000;
const DEFAULTS = { sources: "", ticks: "1000000", quantum: "100", schedule: "" };

const toBase64 = bytes => btoa(latin(bytes));
const ofBase64 = text => bytesOfLatin(atob(text));

/** The files of a project as texts, or as base64 where they are none. */
function packed(files) {
  return Object.fromEntries([...files].map(([name, bytes]) => [name, isText(bytes) ? utf8(bytes) : { base64: toBase64(bytes) }]));
}

function unpacked(found) {
  return new Map(Object.entries(found).map(([name, it]) => [name, typeof it === "string" ? new TextEncoder().encode(it) : ofBase64(it.base64)]));
}

/** Whether bytes are a text that can be edited: UTF-8 without control characters of others than lines and tabs. */
export function isText(bytes) {
  if (bytes.length > 1 << 20) return false;
  try {
    return !/[\x00-\x08\x0b\x0c\x0e-\x1f]/.test(new TextDecoder("utf-8", { fatal: true }).decode(bytes));
  } catch {
    return false;
  }
}

/** Files, and the words of their run: sources, ticks, quantum, schedule. */
export class Project {
  constructor(id, title, files, words) {
    Object.assign(this, { id, title, files, words: { ...DEFAULTS, ...words }, isEdited: false });
  }

  /** An example, as the page has it, or with the edits that the browser kept. */
  static ofExample(example, texts) {
    const files = unpacked(Object.fromEntries(example.files.map(([name, path]) => [name, texts[path]])));
    const project = new Project(example.id, example.title, files, example.words), kept = read(example.id);
    if (!kept) return project;
    return Object.assign(new Project(example.id, example.title, unpacked(kept.files), kept.words), { isEdited: true });
  }

  /** A project of a link's fragment; nothing where it is none. */
  static ofLink(fragment) {
    const digits = /^#program=([\w-]*)$/.exec(fragment)?.[1];
    if (digits === undefined) return null;
    const { title, files, words } = JSON.parse(utf8(ofBase64(digits.replaceAll("-", "+").replaceAll("_", "/"))));
    return new Project("link", String(title), unpacked(files), words);
  }

  /** A project of files that were opened, of which one may be a hand-in. */
  static ofFiles(opened) {
    const files = new Map();
    for (const [name, bytes] of opened) for (const [own, content] of isTar(bytes) ? unpackTar(bytes) : [[name, bytes]]) files.set(own, content);
    const words = wordsOf(files);
    files.delete(HAND_IN);
    return new Project(OPENED, [...opened.keys()].join(" "), files, words);
  }

  /** The files that were opened last, where the browser kept them; nothing for another name. */
  static ofKept(id) {
    const kept = id === OPENED ? read(id) : null;
    return kept && new Project(OPENED, kept.title, unpacked(kept.files), kept.words);
  }

  /** Has the browser keep the edits. */
  keep() {
    this.isEdited = true;
    write(this.id, { title: this.title, files: packed(this.files), words: this.words });
  }

  forget() {
    write(this.id, null);
  }

  /** The fragment of a link that has the program, or nothing where it is too long for one. */
  link() {
    const text = JSON.stringify({ title: this.title, files: packed(this.files), words: this.words });
    const digits = toBase64(new TextEncoder().encode(text)).replaceAll("+", "-").replaceAll("/", "_").replaceAll("=", "");
    return digits.length > LONGEST_LINK ? "" : `#program=${digits}`;
  }

  /** All files, and a file that says what ran and what its report's SHA-256 was, as one. */
  handIn(digest) {
    const said = `${this.command()}\n${digest ? `sha256 ${digest}  of the report\n` : ""}`;
    return packTar(new Map([[HAND_IN, new TextEncoder().encode(said)], ...this.files]));
  }

  /** The run as a command of a terminal. */
  command() {
    const { sources, ticks, quantum, schedule } = this.words;
    return `tools/try ${sources} --ticks ${ticks} --quantum ${quantum}${schedule ? ` --schedule ${schedule}` : ""}`;
  }
}

/** The words of the run of files: those of a hand-in, or else all sources, or the manifest. */
function wordsOf(files) {
  if (files.has(HAND_IN)) return parsed(utf8(files.get(HAND_IN)).split("\n")[0].split(" ").slice(1));
  const names = [...files.keys()], manifest = names.find(it => it.endsWith(".txt")), programs = names.filter(it => /\.(s|asm|elf)$/.test(it));
  return { sources: manifest ?? programs.join(" "), schedule: names.find(it => it.endsWith(".sch")) ?? "" };
}

function parsed(words) {
  const found = {}, sources = [];
  for (let at = 0; at < words.length; at++) {
    if (words[at].startsWith("--")) found[words[at].slice(2)] = words[++at];
    else sources.push(words[at]);
  }
  return { ...found, sources: sources.join(" ") };
}

// The browser's memory, which may be missing or full: then nothing is kept.

function read(id) {
  try {
    return JSON.parse(localStorage.getItem(KEEPS + id));
  } catch {
    return null;
  }
}

function write(id, value) {
  try {
    if (value) localStorage.setItem(KEEPS + id, JSON.stringify(value));
    else localStorage.removeItem(KEEPS + id);
  } catch {
    return;
  }
}
