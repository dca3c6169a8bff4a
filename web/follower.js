// Follows an environment through some ticks of a run, from the state at their begin on, by the lines of its trace, the report's rows, and
// those who enter it by transfers (tools/follower.py).

import * as calls from "./calls.js";
import { access, cause, COPROCESSORS, isCall, isJump, isStore, opcodeOf, stored, target } from "./instructions.js";
import { readTrace } from "./recording.js";
import { TRANSFERS } from "./refused.js";
import { AT, ASYNCHRONOUS, ENDS, EXCEPTIONS, K0, K1, registersOf, STARTS } from "./registers.js";
import { tables } from "./tables.js";

const TURN = 0, STEP = 1, GIVEN = 2, END = 3; // what happens, in the order within a tick

/** The registers that differ. */
function differences(old, registers) {
  return registers.map((value, register) => ({ register, old: old[register], value })).filter(it => it.old !== it.value);
}

/** The handlers after a step. `before` are its registers before it. */
export function handlersAfter(step, before) {
  if (step.number !== calls.CONTEXT || step.code !== 0) return step.handlers;
  return step.handlers.map((it, kind) => kind === before[4] ? before[5] : it);
}

/** The environment and those that call it by transfers, or call these. */
function callers(marks, number) {
  const found = [number], rows = marks.filter(it => TRANSFERS.includes(it.kind)).map(it => it.words.map(Number));
  for (const env of found) {
    for (const words of rows) if (words[4] === env && !found.includes(words[3])) found.push(words[3]);
  }
  return found;
}

/** The registers of an environment, where it goes on, and its handlers. */
class Cpu {
  constructor(env, core) {
    Object.assign(this, { env, registers: registersOf(core), pc: core.pc, next: core.next, isInSlot: core.isInSlot, handlers: core.handlers,
      after: null, handed: [] });
  }

  /** Where it goes on at its next start: at the branch, if its delay slot was due. */
  restart() {
    return this.isInSlot ? this.pc - 4 : this.pc;
  }

  continueAt(address) {
    Object.assign(this, { pc: address, next: address + 4 >>> 0, isInSlot: false });
  }

  /** The kernel enters a handler, with other registers. */
  enter(kind, changes) {
    this.after ??= [...this.registers];
    for (const [register, value] of changes) this.registers[register] = value;
    this.continueAt(this.handlers[kind]);
  }
}

/** Follows environments through the ticks from `first` to `last` - 1. */
export class Follower {
  constructor({ moments, report, image }, number, first, last) {
    Object.assign(this, { moments, image, number, first, last, steps: [], put: 0, stepped: "" });
    const isWithin = it => it.time >= first && it.time < last;
    this.marks = report.marks.filter(isWithin);
    this.slices = report.slices.filter(it => it.start >= first && it.start <= last);
    this.cpus = new Map(callers(this.marks, number).map(env => [env, new Cpu(env, moments.core(env, first))]));
    this.ends = new Set(this.marks.filter(it => it.kind === "end").map(it => `${it.env} ${it.time}`));
    this.turns = new Set(this.slices.map(it => `${it.env} ${it.start}`));
    this.whys = report.environments.map(it => it.why);
  }

  /** The steps of the environment. The step before the first one left these registers. */
  followed(after) {
    this.cpus.get(this.number).after = after;
    const found = [];
    const add = (tick, phase, act) => found.push({ tick, phase, order: found.length, act });
    this.addMarks(add);
    for (const it of this.slices) {
      if (it.begun.startsWith("run ") && this.cpus.has(it.env) && it.start < this.last) add(it.start, TURN, () => this.start(this.cpus.get(it.env)));
    }
    for (const [env, cpu] of this.cpus) {
      const rows = readTrace(this.moments.trace(env, this.first, this.last));
      rows.forEach((row, at) => add(row.tick, STEP, () => this.step(cpu, row, rows[at + 1] ?? null)));
    }
    found.sort((one, two) => one.tick - two.tick || one.phase - two.phase || one.order - two.order);
    for (const it of found) it.act();
    return this.steps;
  }

  addMarks(add) {
    for (const { kind, time, env, words } of this.marks) {
      const isTransfer = TRANSFERS.includes(kind), to = kind === "give" || isTransfer ? this.cpus.get(Number(words[4])) : null;
      if (to && !isTransfer) add(time, GIVEN, () => this.start(to));
      else if (to) add(time, GIVEN, () => to.enter(ASYNCHRONOUS + TRANSFERS.indexOf(kind), this.cpus.get(Number(words[3])).handed.entries()));
      else if (kind === "end" && this.cpus.has(env)) add(time, END, () => this.end(this.cpus.get(env), time));
    }
  }

  // What the kernel does between steps

  /** A slice starts. */
  start(cpu) {
    const resume = cpu.restart();
    if (cpu.handlers[STARTS]) cpu.enter(STARTS, [[K0, resume]]);
    else cpu.continueAt(resume);
  }

  /** It is told of the end of its slice, in the tick in which another gave it that: its own step has told it already. */
  end(cpu, tick) {
    if (this.stepped !== `${cpu.env} ${tick}`) cpu.enter(ENDS, [[K0, cpu.restart()]]);
  }

  // Its steps

  step(cpu, row, following) {
    if (cpu.pc !== row.pc) throw new Error(`tick ${row.tick}: the step isn't where the state before it goes on`);
    const before = [...cpu.registers], kernel = cpu.after ? differences(cpu.after, before) : [];
    const own = [...row.told].map(([register, value]) => ({ register, old: before[register], value }));
    const step = { row, before, handlers: cpu.handlers, kernel, own, put: 0, asked: "", answered: "", number: null, code: null, cause: 0, stored: null, isEnd: false };
    cpu.after = null;
    for (const [register, value] of row.told) cpu.registers[register] = value;
    this.stepped = `${cpu.env} ${row.tick}`;
    step.isEnd = this.ends.has(this.stepped) && !row.isDead;
    if (row.word !== null && isCall(row.word) && !cpu.isInSlot) this.call(cpu, step);
    else if (!row.isDead) this.machineStep(cpu, step, following);
    else if (row.word !== null && isStore(row.word) && this.whys[cpu.env] === "excess") step.stored = stored(row.word, access(row.word, before), before);
    if (step.isEnd) cpu.continueAt(cpu.handlers[ENDS]);
    if (cpu.env !== this.number) return;
    if (step.number === calls.PUT && step.code === 0) this.put += Number(step.answered);
    step.put = this.put;
    this.steps.push(step);
  }

  /** A kernel call. */
  call(cpu, step) {
    step.number = step.before[calls.CODE];
    step.asked = calls.asked(step.before);
    cpu.handed = step.before;
    if (!step.row.isDead) {
      step.code = cpu.registers[calls.CODE];
      step.answered = calls.answered(cpu.registers);
      cpu.handlers = handlersAfter(step, step.before);
    }
    cpu.continueAt(step.row.pc + 4);
  }

  /** A step that isn't a kernel call: it retires, or its exception goes to the handler. */
  machineStep(cpu, step, following) {
    const { row: { word, pc }, before } = step;
    step.cause = this.code(cpu, step, following);
    if (step.cause || word === null) return cpu.continueAt(cpu.handlers[EXCEPTIONS]);
    if (isStore(word)) step.stored = stored(word, access(word, before), before);
    const jumps = isJump(word);
    Object.assign(cpu, { pc: cpu.next, next: jumps ? target(word, pc, cpu.next, before) : cpu.next + 4 >>> 0, isInSlot: jumps });
  }

  /** The code of the exception that a step raises, 0 where it retires. */
  code(cpu, step, following) {
    const { row, before } = step, { pages, writable } = this.image.environments[cpu.env];
    if (row.text.startsWith(".word")) return COPROCESSORS.includes(opcodeOf(row.word)) ? 11 : 10;
    const address = row.word !== null ? access(row.word, before) : null, vpn = address === null ? null : Math.floor(address / tables.limits.pageSize);
    const code = cause(row.word, row.pc, before, pages.has(vpn) ? { isThere: true, isWritable: writable.get(vpn) } : null);
    return code === null ? this.codeByRegisters(cpu, step, address, following) : code;
  }

  /** The code of an access to a page that isn't guaranteed: an exception leaves its code, its address and the bad address in registers. Where
   * a step that retires may have left the same, it is looked where the next step is. */
  codeByRegisters(cpu, { row, isEnd }, address, following) {
    const handler = cpu.handlers[EXCEPTIONS], code = cpu.registers[AT] >>> 2 & 31, due = (code << 2 | (cpu.isInSlot ? 1 << 31 : 0)) >>> 0;
    if (!handler || !(isStore(row.word) ? [1, 3] : [2]).includes(code) || cpu.registers[K0] !== (isEnd ? handler : cpu.restart())) return 0;
    if (cpu.registers[AT] !== due || cpu.registers[K1] !== address) return 0;
    const loaded = isStore(row.word) ? -1 : row.word >>> 16 & 31;
    if (isEnd || [...row.told.keys()].some(it => it !== loaded)) return code;
    const goesOn = following !== null && following.tick === row.tick + 1 && !this.turns.has(`${cpu.env} ${row.tick + 1}`);
    return (goesOn ? following.pc : this.moments.core(cpu.env, row.tick + 1).pc) === handler ? code : 0;
  }
}
