// Says in words how each program of a run ended, as tools/try does.

import { endings, packetLines, revocationLines } from "./ends.js";
import { looked } from "./looking.js";
import { lostLines } from "./lost.js";
import { Failed, Workshop } from "./programs.js";
import { shown } from "./text.js";

/** What a run tells: `warnings`, the lines of lint; `failure`, why it wasn't run; the `report`; of each environment its console, how it
 * ended and what was found of its calls; and `more`, of packets and pages. */
export function told(run, files, { sources, ticks, quantum = 100, schedule = "" }) {
  const workshop = new Workshop(run, files), found = { workshop, warnings: workshop.said, failure: null, report: null, environments: [], more: [] };
  try {
    workshop.prepare(sources, quantum, schedule);
    const report = workshop.report(ticks);
    found.report = report;
    found.bytes = workshop.room.get("try.report");
    found.environments = endings(report, workshop, looked(workshop, report));
    workshop.room.set("try.report", found.bytes);
    found.more = [...packetLines(report), ...revocationLines(report), ...lostLines(workshop, report)];
  } catch (why) {
    if (!(why instanceof Failed)) throw why;
    found.failure = why;
  }
  return found;
}

/** All that is told, as the lines of tools/try. */
export function linesOf(found) {
  const ends = found.environments.flatMap(it => [...it.console, ...it.ended, ...it.refused]);
  return [...found.warnings, ...ends, ...found.more, ...(found.failure ? found.failure.lines : [])].flatMap(it => shown(it).split("\n"));
}

/** Whether all exited with 0, or live. */
export function isWell(found) {
  return !found.failure && found.report.environments.every(it => it.life === "live" || it.life === "exit" && it.why === "0");
}

