// The files of a project in tabs, with line numbers, one of them as text that can be changed.

import { isText } from "./project.js";
import { counted, utf8 } from "./text.js";
import { at } from "./window.js";

const LINE = 20, PADDING = 6; // of the sheet, in pixels

/** A button of a row of tabs. */
function tab(name, title, action) {
  const it = document.createElement("button");
  it.type = "button";
  it.textContent = name;
  it.title = title;
  it.onclick = action;
  return it;
}

/** The editor of a project; `changed` is called after each change. */
export class Editor {
  constructor(changed) {
    Object.assign(this, { changed, project: null, name: "", marked: 0, timer: 0 });
    at("text").oninput = () => this.edit();
    at("text").onscroll = () => this.follow();
  }

  /** Shows another project. */
  show(project, name = "") {
    this.project = project;
    this.open(name || this.first());
  }

  /** The file that is shown first: what runs first, or a source of it. */
  first() {
    const names = [...this.project.files.keys()], [wanted] = this.project.words.sources.split(/\s+/);
    return names.find(it => it === wanted && !it.endsWith(".txt")) ?? names.find(it => /\.(s|asm)$/.test(it)) ?? names[0] ?? "";
  }

  /** Opens a file, at a line of it where one is said. */
  open(name, line = 0) {
    const bytes = this.project.files.get(name) ?? new Uint8Array(0), isEditable = isText(bytes);
    this.name = name;
    at("text").value = isEditable ? utf8(bytes) : `${name} is no text: ${counted(bytes.length)} bytes`;
    at("text").readOnly = !isEditable || !name;
    this.mark(0);
    this.tabs();
    this.number();
    if (line) this.select(line);
  }

  tabs() {
    const names = [...this.project.files.keys()];
    const found = names.map(name => {
      const it = tab(name, `the file ${name}`, () => this.open(name));
      it.setAttribute("role", "tab");
      it.setAttribute("aria-selected", String(name === this.name));
      return it;
    });
    const add = tab("+", "a new file", () => this.add()), rename = tab("rename", "another name for this file", () => this.rename());
    const remove = tab("delete", "delete this file", () => this.remove());
    rename.className = "small";
    remove.className = "small";
    at("tabs").replaceChildren(...found, add, ...(this.name ? [rename, remove] : []));
    found.find(it => it.textContent === this.name)?.scrollIntoView({ block: "nearest", inline: "nearest" });
  }

  // Changes

  edit() {
    this.project.files.set(this.name, new TextEncoder().encode(at("text").value));
    this.mark(0);
    this.number();
    this.changed();
  }

  add() {
    const name = prompt("The new file's name: .s a source, .txt a manifest, .sch a schedule", "new.s")?.trim();
    if (!name || this.project.files.has(name)) return this.open(name || this.name);
    this.project.files.set(name, new Uint8Array(0));
    this.changed();
    this.open(name);
    at("text").focus();
  }

  rename() {
    const name = prompt("Its new name", this.name)?.trim();
    if (!name || this.project.files.has(name)) return;
    this.project.files = new Map([...this.project.files].map(([old, bytes]) => [old === this.name ? name : old, bytes]));
    this.changed();
    this.open(name);
  }

  remove() {
    if (!confirm(`Delete ${this.name}?`)) return;
    this.project.files.delete(this.name);
    this.changed();
    this.open(this.first());
  }

  // Lines

  number() {
    const count = at("text").value.split("\n").length;
    at("gutter").textContent = Array.from({ length: count }, (_, line) => line + 1).join("\n") + "\n\n";
    this.follow();
  }

  follow() {
    at("gutter").scrollTop = at("text").scrollTop;
    at("band").style.top = `${PADDING + (this.marked - 1) * LINE - at("text").scrollTop}px`;
  }

  /** Marks a line, or none. */
  mark(line) {
    this.marked = line;
    at("band").hidden = !line;
    this.follow();
  }

  /** Marks a line, selects it and scrolls to it. */
  select(line) {
    const text = at("text"), lines = text.value.split("\n"), from = lines.slice(0, line - 1).reduce((sum, it) => sum + it.length + 1, 0);
    text.focus({ preventScroll: true });
    text.setSelectionRange(from, from + (lines[line - 1] ?? "").length);
    text.scrollTop = Math.max(0, (line - 1) * LINE - text.clientHeight / 3);
    this.mark(line);
  }
}
