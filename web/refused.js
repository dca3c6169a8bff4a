// The kernel calls of a run that were refused, as tools/refused_calls.py finds them: which, at which line, with what answer, and how often.

import { answerName, PUT } from "./calls.js";
import { tables } from "./tables.js";
import { counted } from "./text.js";

export const MOST_LINES = 10; // of a run that tell refused calls and replaced bindings
export const TRANSFERS = ["async", "sync"];

/** The refused calls of an environment, in the order of their first ones. */
export class Refused {
  constructor() {
    this.found = new Map();
  }

  /** Takes a call, which may have been granted. */
  note(call) {
    const { address, number, code, tick } = call;
    if (!code) return;
    const key = `${address} ${number} ${code}`, known = this.found.get(key);
    if (known) known.times += 1;
    else this.found.set(key, { address, number, code, tick, asked: call.asked(), times: 1 });
  }

  all() {
    return [...this.found.values()];
  }
}

/** What is said of one. */
export function refusedLine({ address, asked, code, times }, places) {
  const often = times > 1 ? `, ${counted(times)} times` : "";
  return `   ${places.where(address)}: ${asked} was refused: ${code}, ${answerName(code)}${often}`;
}

/** That a console has no room, or little. */
export function consoleLines(env, refused) {
  const size = env.console.length, most = tables.limits.console, has = `   it has ${counted(size)} of the ${counted(most)} bytes that a console holds`;
  const cut = refused.filter(it => it.number === PUT && it.code === tables.consoleFull).map(it => it.tick);
  if (cut.length) return [`${has}: the put of tick ${counted(Math.min(...cut))} had no room, and was refused`];
  return size >= tables.limits.allButFull ? [`${has}: a put that has no room is refused`] : [];
}
