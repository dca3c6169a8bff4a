// What the traces of a run tell of its environments, window by window, as tools/looking.py finds it: the loop in which one is at the limit, the
// calls that were refused, the bindings that were replaced, and the trace of the last steps.

import { loopOf, Start } from "./loops.js";
import { placesOf } from "./places.js";
import { CallReader } from "./reader.js";
import { MOST_LINES, Refused, refusedLine } from "./refused.js";
import { replacedLine, Stripe } from "./stripe.js";
import { tables } from "./tables.js";
import { counted } from "./text.js";
import { busyWindows, entries } from "./windows.js";

/** What is found of an environment. */
function lookedAt(workshop, report, env) {
  const sees = (vpn, ticks) => workshop.core(ticks, env.number)?.pages.has(vpn) ?? false, rows = tables.limits.rows[workshop.version()];
  const reader = new CallReader(entries(report, env.number)), refused = new Refused(), stripe = new Stripe(rows, sees);
  const windows = busyWindows(report, env.number), isCut = env.life === "live" && report.ending === "limit";
  const traceOf = ({ first, end }) => workshop.trace(end, env.number, first), last = traceOf(windows.at(-1)), start = new Start(isCut ? loopOf(last) : new Set());
  for (const window of windows) {
    const text = window === windows.at(-1) ? last : traceOf(window);
    for (const call of reader.calls(text)) {
      refused.note(call);
      stripe.note(call);
    }
    if (start.addresses.size) start.add(text);
  }
  return { loop: start, refused: refused.all(), replaced: stripe.all(), rows, last };
}

/** What is found of each environment. */
export function looked(workshop, report) {
  return report.environments.map(env => lookedAt(workshop, report, env));
}

/** What is said of refused calls and of bindings that were replaced, by environment: at most ten lines of the run. */
export function callLines(found, programs) {
  let left = MOST_LINES;
  return found.map(({ refused, replaced, rows }, at) => {
    const places = refused.length || replaced.length ? placesOf(programs[at]) : null;
    let lines = [...refused.map(it => refusedLine(it, places)), ...replaced.map(it => replacedLine(it, places, rows))];
    if (lines.length > left) {
      const kept = Math.max(left - 1, 0), what = replaced.length ? "were refused or replaced bindings" : "were refused";
      lines = [...lines.slice(0, kept), ...(left ? [`   and ${counted(lines.length - kept)} more calls ${what}`] : [])];
    }
    left -= lines.length;
    return lines;
  });
}
