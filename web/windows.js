// The traces of a run in windows, each of as many ticks as one trace has, as tools/traces.py takes them. A run of the page has at most as many
// ticks as are looked at, so no ticks are left out.

import { tables } from "./tables.js";

const TRANSFERS = ["async", "sync"]; // rows by which an environment is entered with another one's registers

/** How many ticks the run has up to an environment's death, with that of its last step, or up to its end. */
export function lifetime(report, env) {
  const died = report.marks.find(it => ["dead", "exit"].includes(it.kind) && it.env === env);
  return died ? died.time + 1 : report.time;
}

/** The windows in which an environment runs, and the last one of its life, which is as long as a trace can be. */
export function busyWindows(report, env) {
  const most = tables.limits.traced, ticks = lifetime(report, env), last = Math.max(0, ticks - most), found = [];
  const own = report.slices.filter(it => it.env === env && it.start < it.end);
  for (let first = 0; first < last; first += most) {
    const end = Math.min(first + most, last);
    if (own.some(it => it.start < end && it.end > first)) found.push({ first, end });
  }
  return [...found, { first: last, end: ticks }];
}

/** The ticks in which transfers enter an environment. */
export function entries(report, env) {
  return report.marks.filter(it => TRANSFERS.includes(it.kind) && it.env === env).map(it => it.time);
}
