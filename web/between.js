// What happens to an environment between two of its steps, in the lines of tools/step_lines.py.

import { claimOf } from "./claims.js";
import { firstAbove } from "./recording.js";
import { TRANSFERS } from "./refused.js";
import { ASYNCHRONOUS, ENDS, STARTS } from "./registers.js";
import { address, counted } from "./text.js";

const MOST_OTHERS = 3; // slices of others that are told between two steps
const GIFTS = { give: "directed yield", async: "asynchronous transfer", sync: "synchronous transfer" };

/** Who ran while an environment didn't. */
export class Meanwhile {
  constructor(report, env) {
    this.slices = report.slices.filter(it => it.env !== env && it.start < it.end);
    this.ends = this.slices.map(it => it.end);
  }

  /** Who ran between two steps, the first of which was in tick `before`. Before the first step there is no tick. */
  line(before, tick) {
    const first = before === null ? 0 : before + 1, at = firstAbove(this.ends, first, false);
    if (first === tick) return [];
    const others = this.slices.slice(at, at + MOST_OTHERS + 1).filter(it => it.start < tick);
    const ran = others.slice(0, MOST_OTHERS).map(it => `environment ${it.env} ran ${Math.max(it.start, first)} to ${Math.min(it.end, tick) - 1}`);
    const more = others.length > MOST_OTHERS ? [`and others until ${tick - 1}`] : [], stopped = before === null ? [] : [`stopped in tick ${before}`];
    return [ran.length ? `-- ${[...stopped, [...ran, ...more].join(", ")].join("; ")} --` : `-- ${stopped[0] ?? "nobody ran"} --`];
  }
}

function packetArrives(length, { number, isHandled }) {
  return `a packet of ${counted(length)} bytes arrives for claim ${number}${isHandled ? ", whose handler runs" : ""}`;
}

const NOTES = {
  packet: packetArrives,
  line: line => `a signal on interrupt line ${line}`,
  asked: (outstanding, deadline) => `${outstanding} page${outstanding === 1 ? "" : "s"} asked for until tick ${deadline}`,
  take: page => `page ${page} was taken`,
  gives: (kind, target) => `${GIFTS[kind]} to environment ${target}`,
  given: giver => `directed yield from environment ${giver}`,
  start: handler => `start of its slice, upcall to ${handler}`,
  end: handler => `end of its slice, upcall to ${handler}`,
  enter: (caller, kind, handler) => `${GIFTS[TRANSFERS[kind]]} from environment ${caller} to ${handler}`,
};
export const ENTERED = ["start", "end", "enter"]; // those of handlers that were entered: their last word is the handler

/** What happened to an environment between two steps, a line each. */
export function noteLines(notes, places) {
  return notes.map(({ kind, tick, words }) => {
    const handler = words.at(-1), last = [ENTERED.includes(kind) ? places.name(handler) || `0x${address(handler)}` : handler];
    return `-- tick ${tick}: ${NOTES[kind](...words.slice(0, -1), ...last)} --`;
  });
}

const BEFORE = 0, TURN = 1, GIVEN = 2, END = 3; // the order of what happens in a tick; a step is between a turn and a gift

/** What happens to an environment from outside in the ticks from `first` to `last` - 1: each by its tick and the order in it. */
function* outside({ events, marks, number, claims }, first, last) {
  for (const [tick, kind, what] of events.within(first, last)) {
    const held = claims.at(tick), claim = kind === "packet" ? claimOf(held, what) : null;
    if (claim) yield [tick, BEFORE, { kind, tick, words: [what.length, claim] }];
    else if (held.lines.includes(what)) yield [tick, BEFORE, { kind, tick, words: [what] }];
  }
  for (const { kind, time, env, words } of marks.within(first, last)) {
    if (env !== number) continue;
    if (kind === "asked") yield [time, BEFORE, { kind, tick: time, words: [Number(words[3]), Number(words[4])] }];
    if (kind === "take") yield [time, BEFORE, { kind, tick: time, words: [Number(words[3])] }];
  }
}

/** Slices and transfers of these ticks. */
function* inside({ slices, marks, number }, first, last, handlers) {
  const noteOf = (tick, phase, kind, ...words) => [tick, phase, { kind, tick, words }];
  for (const it of slices.within(first, last)) {
    const isTurn = it.env === number && it.begun.startsWith("run ");
    if (isTurn && handlers[STARTS]) yield noteOf(it.start, TURN, "start", handlers[STARTS]);
  }
  for (const { kind, time, env, words } of marks.within(first, last)) {
    const giver = Number(words[3]), to = Number(words[4]), way = TRANSFERS.indexOf(kind);
    if (kind === "end" && env === number) yield noteOf(time, END, kind, handlers[ENDS]);
    if (kind !== "give" && way < 0) continue;
    if (giver === number) yield noteOf(time, GIVEN, "gives", kind, to);
    else if (to === number && way >= 0) yield noteOf(time, GIVEN, "enter", giver, way, handlers[ASYNCHRONOUS + way]);
    else if (to === number) {
      yield noteOf(time, GIVEN, "given", giver);
      if (handlers[STARTS]) yield [time, GIVEN, { kind: "start", tick: time + 1, words: [handlers[STARTS]] }];
    }
  }
}

/** What happened to an environment after the step of tick `first`, up to that of tick `last`. */
export function notesBetween(steps, first, last, handlers) {
  const isWithin = ([tick, phase]) => (tick > first || phase > TURN) && (tick < last || tick === last && phase <= TURN);
  const found = [...outside(steps, first + 1, last + 1), ...inside(steps, Math.max(first, 0), last + 1, handlers)].filter(isWithin);
  return found.sort((one, two) => one[0] - two[0] || one[1] - two[1]).map(it => it[2]);
}
