// The page: a project in the editor, its runs, its steps, and any command over its files.

import { load } from "./aegis.js";
import { perform } from "./command.js";
import { Editor } from "./editor.js";
import { drawLedger } from "./ledger.js";
import { Project } from "./project.js";
import { Failed } from "./programs.js";
import { cards } from "./result.js";
import { sha256 } from "./sha256.js";
import { showSteps } from "./step.js";
import { stepData } from "./steps.js";
import { fillTables, tables } from "./tables.js";
import { counted, shown, unpacked } from "./text.js";
import { told } from "./told.js";
import { at, bytesShown, frame, save } from "./window.js";

const WORDS = ["sources", "ticks", "quantum", "schedule"];
const partOf = id => JSON.parse(at(id).textContent);

class Page {
  constructor(run, examples) {
    Object.assign(this, { run, examples: examples.list, texts: examples.texts, found: null, digest: "", output: new Uint8Array(0), project: null });
    this.editor = new Editor(() => this.changed());
    this.visit = { has: name => this.project.files.has(name), place: (name, line) => this.editor.open(name, line), step: env => this.step(env) };
    this.fillExamples();
    this.listen();
    this.openAddress();
  }

  fillExamples() {
    for (const group of new Set(this.examples.map(it => it.group))) {
      const part = document.createElement("optgroup");
      part.label = group;
      part.append(...this.examples.filter(it => it.group === group).map(it => new Option(it.title, it.id)));
      at("examples").append(part);
    }
  }

  listen() {
    at("examples").onchange = () => { location.hash = at("examples").value; };
    window.onhashchange = () => this.openAddress();
    for (const name of WORDS) at(name).oninput = () => this.readWords();
    at("words").onsubmit = event => this.submit(event, () => this.runAll());
    at("step").onclick = () => this.step(Number(at("env").value || 0));
    at("undo").onclick = () => this.undo();
    at("save").onclick = () => save(`${this.project.id.replace(/\W/g, "-")}.tar`, this.project.handIn(this.digest));
    at("open").onclick = () => at("files").click();
    at("files").onchange = () => this.openFiles();
    at("link").onclick = () => this.makeLink();
    at("save-report").onclick = () => save("try.report", this.found.bytes);
    at("command-form").onsubmit = event => this.submit(event, () => this.command());
    at("save-output").onclick = () => save("output", this.output);
    for (const name of ["ends", "report", "command"]) at(`tab-${name}`).onclick = () => this.select(name);
    document.addEventListener("keydown", event => {
      if (at("page").hidden || event.key !== "Enter" || !event.ctrlKey && !event.metaKey) return;
      event.preventDefault();
      if (event.shiftKey) at("step").click();
      else this.runAll();
    });
  }

  submit(event, action) {
    event.preventDefault();
    action();
  }

  // What is worked on

  /** Opens what the address names: an example, or a program of a link. */
  openAddress() {
    let project = null;
    try {
      project = Project.ofLink(location.hash);
    } catch {
      this.say("The link has no program that can be read.");
    }
    const id = decodeURIComponent(location.hash.slice(1)), example = this.examples.find(it => it.id === id) ?? this.examples[0];
    this.show(project ?? Project.ofKept(id) ?? Project.ofExample(example, this.texts));
    at("command-words").value = example.command ?? "";
    if (/^(bare|wire) /.test(at("command-words").value)) this.select("command"); // what these show isn't a run of the kernel alone
  }

  show(project) {
    this.close();
    this.project = project;
    this.list(project);
    at("examples").value = project.id;
    for (const name of WORDS) if (name !== "schedule") at(name).value = project.words[name];
    this.fillSchedules();
    at("env").replaceChildren(new Option("0", "0"));
    this.editor.show(project);
    this.clear();
    this.showEdited();
  }

  /** Puts what was opened, or came by a link, above the examples in the list. */
  list({ id, title }) {
    const known = [...at("examples").options].find(it => it.value === id);
    if (known && !this.examples.some(it => it.id === id)) known.textContent = title;
    if (!known) at("examples").prepend(new Option(title, id));
  }

  fillSchedules() {
    const names = [...this.project.files.keys()].filter(it => it.endsWith(".sch"));
    at("schedule").replaceChildren(new Option("none", ""), ...names.map(it => new Option(it, it)));
    at("schedule").value = names.includes(this.project.words.schedule) ? this.project.words.schedule : "";
  }

  showEdited() {
    at("undo").hidden = !this.project.isEdited || !this.examples.some(it => it.id === this.project.id);
  }

  readWords() {
    for (const name of WORDS) this.project.words[name] = at(name).value.trim();
    this.changed();
  }

  changed() {
    this.digest = "";
    this.project.keep();
    this.fillSchedules();
    this.showEdited();
  }

  undo() {
    const example = this.examples.find(it => it.id === this.project.id);
    this.project.forget();
    this.show(Project.ofExample(example, this.texts));
  }

  async openFiles() {
    const chosen = [...at("files").files], opened = new Map();
    for (const it of chosen) opened.set(it.name, new Uint8Array(await it.arrayBuffer()));
    at("files").value = "";
    if (!opened.size) return;
    const project = Project.ofFiles(opened);
    project.keep();
    history.replaceState(null, "", `#${project.id}`);
    this.show(project);
  }

  makeLink() {
    const link = this.project.link();
    if (!link) return this.say("This is too large for a link: `save all` has all files as one.");
    history.replaceState(null, "", link);
    navigator.clipboard?.writeText(location.href).then(() => this.say("The link is in the clipboard and in the address."), () => this.say("The link is in the address."));
  }

  // Runs

  /** What is wrong with the words of the run, if something is. */
  wrongWord() {
    const { ticks, quantum } = this.project.words, { limits } = tables;
    const isWhole = (word, least, most) => /^[0-9]{1,10}$/.test(word) && Number(word) >= least && Number(word) <= most;
    if (!this.project.words.sources) return "Beside `run` stands what runs: sources, or a manifest.";
    if (!isWhole(ticks, 0, limits.ticks)) return `ticks: ${ticks} isn't a number from 0 to ${counted(limits.ticks)}`;
    return isWhole(quantum, limits.leastQuantum, limits.mostQuantum) ? "" : `quantum: ${quantum} isn't a number from ${limits.leastQuantum} to ${counted(limits.mostQuantum)}`;
  }

  words() {
    const { sources, ticks, quantum, schedule } = this.project.words;
    return { sources: sources.split(/\s+/), ticks: Number(ticks), quantum: Number(quantum), schedule };
  }

  /** Runs, or says why not; what was found. */
  async perform(words) {
    const wrong = this.wrongWord();
    if (wrong) return this.say(wrong);
    this.say("running ..");
    await frame();
    try {
      return told(this.run, this.project.files, words);
    } catch (why) {
      return this.say(`The module ended without an answer: ${why.message}`);
    }
  }

  async runAll() {
    this.clear();
    const found = await this.perform(this.words());
    if (!found) return;
    this.found = found;
    at("ends").replaceChildren(...cards(found, this.visit));
    if (found.failure) {
      if (found.failure.line && this.project.files.has(found.failure.file)) this.editor.open(found.failure.file, found.failure.line);
      return;
    }
    this.digest = sha256(found.bytes);
    at("digest").textContent = `report: sha256 ${this.digest}, ${counted(found.bytes.length)} bytes`;
    at("report-text").textContent = bytesShown(found.bytes);
    at("of-report").hidden = false;
    at("ledger-room").hidden = false;
    drawLedger(at("ledger"), found.report, (env, tick) => this.step(env, tick));
    at("env").replaceChildren(...found.report.environments.map(it => new Option(`${it.number} ${it.name}`, it.number)));
  }

  clear() {
    this.found = null;
    this.digest = "";
    at("ends").replaceChildren();
    at("report-text").textContent = "";
    at("digest").textContent = "";
    at("of-report").hidden = true;
    at("ledger-room").hidden = true;
    this.select("ends");
  }

  say(text) {
    this.select("ends");
    const it = document.createElement("p");
    it.textContent = text;
    at("ends").replaceChildren(it);
    return null;
  }

  select(name) {
    for (const it of ["ends", "report", "command"]) {
      at(it).hidden = it !== name;
      at(`tab-${it}`).setAttribute("aria-selected", String(it === name));
    }
    if (name === "command") at("command-words").focus();
  }

  // Steps

  /** Shows the steps of an environment, of those ticks that a page may have; around a tick, where one is said. */
  async step(env, tick = null) {
    if (!this.found || this.found.failure) await this.runAll();
    const { found } = this;
    if (!found || found.failure) return;
    const title = `${this.project.words.sources}, ${found.report.environments[env].name}, step by step`;
    const data = stepData(found, env, title, tick ?? 0);
    at("page").hidden = true;
    at("stepper").hidden = false;
    window.scrollTo(0, 0);
    const go = showSteps(data, () => this.close());
    if (tick !== null) go(data.steps.filter(it => it[0] <= tick).length);
  }

  close() {
    if (at("stepper").hidden) return;
    at("stepper").hidden = true;
    at("page").hidden = false;
    document.onkeydown = null;
    at("step").focus();
  }

  // Any command

  async command() {
    const text = at("command-words").value.trim();
    at("command-said").textContent = "running ..";
    await frame();
    let said;
    try {
      said = perform(this.run, this.project.files, this.found?.workshop.room ?? new Map(), text);
    } catch (why) {
      at("command-said").textContent = `The module ended without an answer: ${why.message}`;
      return;
    }
    const { status, output, made, lines, kept } = said;
    this.output = output;
    const note = [`status ${status}, ${counted(output.length)} bytes, sha256 ${sha256(output)}`, made.length ? `made for it: ${made.join(" ")}` : "", kept ? `kept as ${kept}` : ""];
    at("command-said").textContent = note.filter(it => it).join("; ");
    at("command-output").textContent = lines.length ? lines.map(shown).join("\n") : bytesShown(output);
    at("save-output").hidden = !output.length;
    if (!kept) return;
    this.project.files.set(kept, output);
    this.changed();
    this.editor.tabs();
  }
}

/** What a browser has where it can run the module. */
const WANTED = ["WebAssembly", "DecompressionStream"];

/** Begins, where the browser has what is needed. */
async function begin() {
  at("stepper").hidden = true;
  const lacking = WANTED.filter(it => !(it in globalThis));
  if (lacking.length) {
    at("ends").textContent = `This browser can't run the page's module: it has no ${lacking.join(" and no ")}. A newer browser has what is missing.`;
    return;
  }
  try {
    fillTables(partOf("tables"));
    const run = await load(await unpacked(at("module").textContent));
    new Page(run, partOf("programs"));
  } catch (why) {
    at("ends").textContent = why instanceof Failed ? why.message : `The page's module can't be run here: ${why.message}`;
  }
}

begin();
