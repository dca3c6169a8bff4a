// The packets that full rings lost, as tools/lost_packets.py finds them. No row of a report tells them: each environment has a count in its
// context page.

import { tables } from "./tables.js";
import { counted, latin } from "./text.js";
import { lifetime } from "./windows.js";

/** What is said of them, of each environment that lost some by its count, which it may have stored to. */
export function lostLines(workshop, report) {
  const { arrived, lost } = tables.posts;
  if (!workshop.schedule || !latin(workshop.content("try.sch")).includes("packet")) return [];
  return report.environments.flatMap(({ number, name, life }) => {
    const ticks = lifetime(report, number), core = workshop.core(life === "live" ? ticks : ticks - 1, number), many = core?.word(lost);
    return many ? [`-- ${number} ${name}: ${counted(many)} of ${counted(core.word(arrived))} packets ${many === 1 ? "was" : "were"} lost, since the next buffer of `
      + "the ring was full: store 0 to a buffer's length as soon as its packet is read (counts at 0x1144 and 0x1140)"] : [];
  });
}
