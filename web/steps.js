// Steps of a run as the data that the stepper shows, as tools/step_page.py makes it (docs/STEPPING.md, "As a page").

import { ENTERED, Meanwhile, noteLines, notesBetween } from "./between.js";
import * as calls from "./calls.js";
import { ClaimHistory } from "./claims.js";
import { Follower, handlersAfter } from "./follower.js";
import { readImage } from "./image.js";
import { opcodeOf } from "./instructions.js";
import { Memory, Moments } from "./moments.js";
import { placesOf } from "./places.js";
import { eventsOf, firstAbove, Ordered, Turns } from "./recording.js";
import { K1, registersOf } from "./registers.js";
import { readStatement } from "./source.js";
import { tables } from "./tables.js";
import { address, counted, latin, shown, utf8 } from "./text.js";

const LARGEST_DECIMAL = 9_999, WORD = 2 ** 32;
const REMAPPING = [calls.FREE, calls.BIND, calls.UNBIND]; // calls that change which pages are seen
const PARTS = [42, 46]; // opcodes of stores that put a part of a word
const digitsOf = bytes => [...bytes].map(value => value.toString(16).padStart(2, "0")).join("");
const wordOf = bytes => bytes.reduceRight((value, byte) => value * 256 + byte, 0);

/** A register's value: small ones in decimal, with a sign where it has one. */
function numberShown(value) {
  if (value <= LARGEST_DECIMAL) return String(value);
  return value >= WORD - LARGEST_DECIMAL ? String(value - WORD) : `0x${address(value)}`;
}

/** Register and value by turns, of those that change. */
const changesOf = changes => changes.flatMap(({ register, value }) => [register, value]);

/** The registers that differ after some changes, by their names. */
function registersChanged(changes) {
  return [...changes].sort((one, two) => one.register - two.register).map(it => `${tables.names[it.register]} = ${numberShown(it.value)}`);
}

/** How the environment ended, whose last step was in this tick, if there was one. */
function ending(env, report, last) {
  const who = `${env.number} ${env.name}:`;
  if (last === null) return `${who} no step in ${counted(report.time)} ticks`;
  if (env.life === "live") return `${who} ${report.ending === "limit" ? "alive at the limit" : "alive, without a slot"}, after ${counted(report.time)} ticks`;
  const how = env.life === "exit" ? `exit ${env.why}` : `dead ${env.why}`;
  return `${who} ${how} in tick ${counted(last)}${env.life === "dead" ? `: ${tables.causes[env.why]}` : ""}`;
}

/** The steps of an environment of a run in the ticks that a page may have, from a tick on. Steps are counted from 0 at the start of the run. */
class Steps {
  constructor(run, number, tick) {
    const { report, events } = run, outside = report.marks.filter(it => it.kind === "asked" || it.kind === "take").map(it => it.time);
    Object.assign(this, { run, number, end: report.time, turns: new Turns(report, number), claims: new ClaimHistory(run, number), known: null,
      events: new Ordered(events, it => it[0]), marks: new Ordered(report.marks, it => it.time), slices: new Ordered(report.slices, it => it.start) });
    const last = Math.min(tick + tables.limits.page, this.end);
    this.kept = run.image.environments[number].pages;
    this.env = run.report.environments[number];
    this.disturbed = [...this.events.ticks, ...outside].sort((one, two) => one - two); // ticks in which something happens from outside
    this.first = tick ? this.turns.made(tick - 1) : 0; // how many steps are before these
    this.last = Math.max(last ? this.turns.made(last - 1) : 0, this.first);
    this.before = registersOf(run.moments.core(number, this.first ? this.turns.tick(this.first - 1) + 1 : 0)); // the registers before these
    this.steps = this.last > this.first ? new Follower(run, number, tick, last).followed(this.before) : [];
    this.put = run.moments.console(number, tick);
  }

  at(place) {
    return this.steps[place - this.first];
  }

  /** The memory after so many steps; after its last one, if it died of that, what the step left. */
  memory(done) {
    if (this.known?.done !== done) this.known = { done, memory: this.coreMemory(done) };
    return this.known.memory;
  }

  /** The same by `core`. */
  coreMemory(done) {
    const step = done > this.first ? this.at(done - 1) : null, isDead = step?.row.isDead;
    const memory = new Memory(this.run.moments.core(this.number, done ? this.turns.tick(done - 1) + (isDead ? 0 : 1) : 0), this.kept);
    if (isDead && step.stored) memory.put(step.stored);
    return memory;
  }

  /** Whether a step changes memory by what it stores alone. */
  isPlain(memory, place) {
    const { row, cause, isEnd, number, code, stored } = this.at(place), before = place ? this.turns.tick(place - 1) : -1;
    if (row.isDead || cause || isEnd || REMAPPING.includes(number) && code === 0) return false;
    if (firstAbove(this.disturbed, row.tick, false) > firstAbove(this.disturbed, before, false)) return false;
    if (row.tick > before + 1 && memory.bound.length) return false;
    if (this.turns.begins(place) && this.notes(place).some(it => ENTERED.includes(it.kind))) return false;
    return !stored || !memory.mayBeTwice(Math.floor(stored.address / tables.limits.pageSize));
  }

  /** What is another in memory after a step than before it (`Memory.differences`). */
  memoryChanges(place) {
    const { pageSize } = tables.limits, memory = this.memory(place), { stored } = this.at(place), at = stored ? stored.address - stored.address % 4 : 0;
    if (!this.isPlain(memory, place)) {
      this.known = { done: place + 1, memory: this.coreMemory(place + 1) };
      return memory.differences(this.known.memory);
    }
    const old = stored ? memory.read(at, 4) : [];
    if (stored) memory.put(stored);
    this.known = { done: place + 1, memory };
    const bytes = stored ? memory.read(at, 4) : [];
    return bytes.every((it, byte) => it === old[byte]) ? [] : [[Math.floor(at / pageSize), at % pageSize, bytes]];
  }

  /** What happened to the environment before a step, after the one before it; after the last one where there is no such step. */
  notes(place) {
    const first = place ? this.turns.tick(place - 1) : -1, last = place < this.turns.steps ? this.turns.tick(place) : this.end;
    const before = this.at(place - 1), handlers = this.at(place)?.handlers ?? (before ? handlersAfter(before, before.before) : [0, 0, 0, 0, 0]);
    return notesBetween(this, first, last, handlers);
  }
}

/** What the stepper is given. */
class StepData {
  constructor(steps, program, title) {
    Object.assign(this, { steps, program, title, places: placesOf(program), files: new Map(), spots: new Map(), rows: [], lengths: new Map() });
    const addresses = [...program.listing.keys()].sort((one, two) => one - two);
    this.env = steps.env;
    this.listing = this.places.lines.size ? [] : addresses.map(it => program.listing.get(it));
    this.atListing = new Map(addresses.map((it, at) => [it, at + 1]));
    this.registers = [...steps.before];
  }

  /** An instruction, by its address. */
  spot({ pc, text }) {
    const key = `${pc} ${text}`;
    if (!this.spots.has(key)) {
      const line = this.places.lines.get(pc);
      if (line && !this.files.has(line.file)) this.files.set(line.file, this.files.size);
      const [file, number] = line ? [this.files.get(line.file), line.number] : [0, this.atListing.get(pc) ?? 0];
      this.spots.set(key, this.rows.length);
      this.rows.push([address(pc), this.places.name(pc), file, line || this.listing.length ? number : 0, shown(text), ...this.ofTwo(pc, line)]);
    }
    return this.spots.get(key);
  }

  /** The statement of an instruction, and which of its two this is, where it has two. */
  ofTwo(pc, line) {
    const said = line ? readStatement(0, line.text) : null;
    if (!said || said.operation !== "li" && said.operation !== "la") return [];
    return [shown([said.operation, said.operands.join(", ")].join(" ")), this.places.lines.get(pc - 4)?.number === line.number ? 2 : 1];
  }

  /** The characters of so many bytes of the console. */
  console(length) {
    if (!this.lengths.has(length)) this.lengths.set(length, [...shown(utf8(this.env.console.subarray(0, length)))].length);
    return this.lengths.get(length);
  }

  step(step, at) {
    const { steps } = this, { row, stored, cause, isEnd, kernel, own, asked, answered } = step;
    for (const it of [...kernel, ...own]) this.registers[it.register] = it.value;
    const memory = steps.memoryChanges(steps.first + at).map(([vpn, place, bytes]) => bytes ? [vpn, place, digitsOf(bytes)] : [vpn]);
    const told = answered ? `${asked} = ${answered}` : row.isDead || stored || cause || isEnd ? this.told(step) : "";
    return [row.tick, this.spot(row), changesOf(own), changesOf(kernel), this.console(steps.put + step.put), shown(told), Number(Boolean(asked || row.isDead)),
      Number(Boolean(step.code)), ...(memory.length ? [memory] : [])];
  }

  /** What a step asked, was answered, and changed. */
  told(step) {
    const effects = [step.asked, this.exception(step), registersChanged(step.own).join(", "), this.stored(step), step.row.isDead ? "dead" : ""];
    return effects.filter(it => it).join("; ");
  }

  /** What a step put into memory, as the word or the bytes at its address; of part of a word, all of that. Memory is that after it. */
  stored({ stored, row }) {
    if (!stored) return "";
    const isPart = PARTS.includes(opcodeOf(row.word)), at = isPart ? stored.address - stored.address % 4 : stored.address;
    const data = isPart ? this.steps.known.memory.read(at, 4) : stored.data;
    return `[${this.places.name(at) || `0x${address(at)}`}] = ${numberShown(wordOf(data))}`;
  }

  /** The exception that a step raised: its name, its code, and the bad address if it has one. */
  exception({ cause }) {
    if (!cause) return "";
    return `exception ${tables.exceptions[cause] ?? "?"} (${cause})${cause <= 5 ? ` at 0x${address(this.registers[K1])}` : ""}, to handler`;
  }

  /** What happened before each step, and after the last one of the run, where something did. */
  between() {
    const { steps: { steps, first, last, turns, number, run }, places } = this, meanwhile = new Meanwhile(run.report, number);
    const lines = steps.map(({ row }, at) => {
      const place = first + at, before = place ? turns.tick(place - 1) : null;
      return [at + 1, [...meanwhile.line(before, row.tick), ...noteLines(this.steps.notes(place), places)]];
    });
    const end = last === turns.steps ? [[last - first + 1, noteLines(this.steps.notes(last), places)]] : [];
    return [...lines, ...end].filter(([, it]) => it.length);
  }

  /** The steps with which slices begin, before which packets arrive, and that raise exceptions which a handler takes. */
  marks() {
    const { steps, first, turns } = this.steps, placesOf = fits => steps.flatMap((it, at) => fits(it, first + at) ? [at + 1] : []);
    return { slice: placesOf((_, place) => turns.begins(place)), miss: placesOf(it => it.cause),
      packet: placesOf((_, place) => this.steps.notes(place).some(note => note.kind === "packet")) };
  }

  /** How the environment ended, or that the page does. */
  ending() {
    const { last, turns, run } = this.steps;
    if (last < turns.steps) return `of these steps: a page has at most ${counted(tables.limits.page)} ticks of the run`;
    return ending(this.env, run.report, last ? turns.tick(last - 1) : null);
  }

  all() {
    const { steps, env } = this, first = [...this.registers];
    const pages = [...steps.memory(steps.first).pages].sort(([one], [two]) => one - two).map(([vpn, page]) => [vpn, digitsOf(page).replace(/(00)+$/, "")]);
    const rows = steps.steps.map((it, at) => this.step(it, at));
    const sources = this.listing.length ? [["instructions", this.listing]]
      : [...this.files.keys()].map(name => [name, (this.places.sources.get(name) ?? []).map(shown)]);
    return { title: this.title, labels: Object.fromEntries(this.places.labels), memory: Object.fromEntries(pages), names: tables.names, first,
      spots: this.rows, steps: rows, marks: this.marks(), between: this.between(), files: sources, console: shown(utf8(env.console)), end: this.ending() };
  }
}

/** The stepper's data of an environment of a run that was told: the steps of the ticks that a page may have, with this one in their middle. */
export function stepData(found, number, title, middle = 0) {
  const { workshop, report } = found, image = readImage(workshop.room.get("try.img")), most = tables.limits.page;
  const events = workshop.schedule ? eventsOf(latin(workshop.room.get("try.sch"))).filter(it => it[0] < report.time) : [];
  const tick = Math.max(Math.min(middle - most / 2, report.time - most), 0);
  return new StepData(new Steps({ moments: new Moments(workshop), report, image, events }, number, tick), workshop.programs[number], title).all();
}
