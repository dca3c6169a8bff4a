// What a run leaves: the lines of its traces (docs/REPORT.md, "The trace"), the events of its schedule, and whose its ticks are
// (tools/trace_lines.py, tools/timeline.py).

import { HI, LO } from "./registers.js";
import { wordsOf } from "./text.js";

const LINE = /^(\d+) ([0-9a-f]{8}) ([0-9a-f]{8}|-{8}) (.+?)((?: (?:\$\d+|hi|lo) [0-9a-f]{8})*)( dead)?$/;

/** A line of a trace: its word is null where the fetch is refused. `told` are registers that differ, and their values. */
function readRow(line) {
  const [, tick, pc, word, text, told, dead] = LINE.exec(line), words = told.split(" ").slice(1), registers = [];
  for (let at = 0; at < words.length; at += 2) {
    registers.push([{ hi: HI, lo: LO }[words[at]] ?? Number(words[at].slice(1)), parseInt(words[at + 1], 16)]);
  }
  return { tick: Number(tick), pc: parseInt(pc, 16), word: word[0] === "-" ? null : parseInt(word, 16), text, told: new Map(registers), isDead: Boolean(dead) };
}

/** The rows of a whole trace. */
export function readTrace(text) {
  return text.split("\n").slice(1, -3).map(readRow);
}

/** The packets and signals of a schedule: tick, kind, and a packet's bytes or the line. */
export function eventsOf(schedule) {
  const found = [];
  for (const line of schedule.split("\n")) {
    const words = wordsOf(line);
    if (words.length === 3) found.push([Number(words[0]), words[1], words[1] === "packet" ? words[2].match(/../g).map(it => parseInt(it, 16)) : Number(words[2])]);
  }
  return found;
}

/** The first place of a rising list whose number is above another, or is that. */
export function firstAbove(list, number, orIsIt) {
  let from = 0, to = list.length;
  while (from < to) {
    const middle = from + to >> 1;
    if (orIsIt ? list[middle] >= number : list[middle] > number) to = middle;
    else from = middle + 1;
  }
  return from;
}

/** A list in the order of ticks, and a part of it. */
export class Ordered {
  constructor(list, tickOf) {
    Object.assign(this, { list, ticks: list.map(tickOf) });
  }

  /** What is in the ticks from `first` to `last` - 1. */
  within(first, last) {
    return this.list.slice(firstAbove(this.ticks, first, true), firstAbove(this.ticks, last, true));
  }
}

/** The slices of an environment, in each tick of which it makes a step. Its steps are counted from 0. */
export class Turns {
  constructor(report, env) {
    const slices = report.slices.filter(it => it.env === env);
    Object.assign(this, { starts: slices.map(it => it.start), ends: slices.map(it => it.end), before: [], steps: 0 });
    for (const { start, end } of slices) {
      this.before.push(this.steps);
      this.steps += end - start;
    }
  }

  /** The tick of a step. */
  tick(place) {
    const at = firstAbove(this.before, place, false) - 1;
    return this.starts[at] + place - this.before[at];
  }

  /** How many steps were made up to a tick, with that of the tick. */
  made(tick) {
    const at = firstAbove(this.starts, tick, false) - 1;
    return at >= 0 ? this.before[at] + Math.min(tick + 1, this.ends[at]) - this.starts[at] : 0;
  }

  /** Whether a step is the first one of a slice. */
  begins(place) {
    return this.before[firstAbove(this.before, place, true)] === place;
  }
}
