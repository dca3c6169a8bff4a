// Reads the reports of `run`: docs/REPORT.md describes their lines. What is read here was written by the module in this page, so
// nothing is refused: tools/report.py does that.

import { ascii } from "./text.js";

/** A bar: an environment had the ticks from `start` to `end` - 1 in a slot. */
class Slice {
  constructor(slot, env, start, row) {
    Object.assign(this, { slot, env, start, end: 0, begun: row, grace: null });
  }
}

/** What a report says of an environment before the rows. */
export class Environment {
  constructor(number, name, life, why) {
    Object.assign(this, { number, name, life, why, console: new Uint8Array(0), cpu: null, excess: 0, sent: [] });
  }
}

/** The bytes of a console as it is escaped. */
function consoleOf(text) {
  const bytes = [];
  for (let at = 0; at < text.length; at++) {
    if (text[at] !== "\\") {
      bytes.push(text.charCodeAt(at));
    } else if (text[at + 1] === "x") {
      bytes.push(parseInt(text.slice(at + 2, at + 4), 16));
      at += 3;
    } else {
      bytes.push(text[++at] === "n" ? 10 : text.charCodeAt(at));
    }
  }
  return Uint8Array.from(bytes);
}

/** A report as a whole: its head, slices, marks (the rows that are no slices) and holders of slots. */
export class Report {
  constructor(bytes) {
    Object.assign(this, { environments: [], slices: [], marks: [], holders: [], ending: "", time: 0, runner: null, isBooted: false });
    const text = ascii(bytes);
    let from = 0;
    for (let to = text.indexOf("\n"); to >= 0; to = text.indexOf("\n", from)) {
      const line = text.slice(from, to), gap = line.indexOf(" "), word = gap < 0 ? line : line.slice(0, gap);
      from = to + 1;
      const way = `read_${word}`;
      if (this[way]) this[way](line);
      else if (word in ROWS) this.row(word, line);
    }
    if (this.runner) this.close(this.time, "");
  }

  // The head

  read_end(line) {
    const words = line.split(" ");
    if (words.length > 3) return this.row("end", line);
    [, this.ending] = words;
    this.time = Number(words[2]);
  }

  read_env(line) {
    const [, number, name, life, why = ""] = line.split(" ");
    this.environments.push(new Environment(Number(number), name, life, why));
  }

  read_out(line) {
    this.environments.at(-1).console = consoleOf(line.slice(line.indexOf('"') + 1, -1));
  }

  read_cpu(line) {
    const [, , pc, next, slot, high, low] = line.split(" ").map(it => parseInt(it, 16));
    this.environments.at(-1).cpu = { pc, next, isInSlot: slot === 1, high, low, registers: [] };
  }

  read_regs(line) {
    this.environments.at(-1).cpu.registers = [0, ...line.split(" ").slice(2).map(it => parseInt(it, 16))];
  }

  read_sent(line) {
    this.environments.at(-1).sent.push(Number(line.split(" ")[2]));
  }

  // The rows

  row(kind, line) {
    const words = line.split(" "), [, time, slot, env, to] = words.map(Number);
    ROWS[kind](this, { kind, line, words, time, slot, env, to });
  }

  mark(it, env, slot = null) {
    this.marks.push({ kind: it.kind, time: it.time, env, slot, row: it.line, words: it.words });
  }

  /** The runner's slice has the ticks below `end`. */
  close(end, row) {
    this.runner.end = end;
    this.runner.ended = row;
    this.slices.push(this.runner);
    this.runner = null;
  }
}

const given = (report, it) => {
  report.close(it.time + 1, it.line);
  report.runner = new Slice(it.slot, it.to, it.time + 1, it.line);
  report.mark(it, it.to, it.slot);
};
const ROWS = {
  own: (report, { words, time, slot, line }) => {
    const isBoot = !report.isBooted && time === 0, [owner, holder] = words.slice(3).map(it => it === "-" ? null : Number(it));
    report.holders.push({ slot, start: isBoot ? 0 : time + 1, owner, holder, row: line });
  },
  run: (report, it) => {
    report.isBooted = true;
    report.runner = new Slice(it.slot, it.env, it.time, it.line);
  },
  pay: (report, it) => {
    report.isBooted = true;
    report.mark(it, it.env, it.slot);
  },
  give: given,
  async: given,
  sync: given,
  end: (report, it) => {
    report.runner.grace = it.time + 1;
    report.mark(it, it.env, it.slot);
  },
  over: (report, it) => report.mark(it, it.env, it.slot),
  stop: (report, it) => report.close(it.time + 1, it.line),
  dead: (report, it) => {
    report.close(it.time + 1, it.line);
    report.mark({ ...it, kind: report.environments[it.env].life === "exit" ? "exit" : "dead" }, it.env, it.slot);
  },
  asked: (report, it) => {
    report.isBooted = true;
    report.mark(it, it.slot); // its third word is the environment
  },
  take: (report, it) => report.mark(it, it.slot),
  drop: (report, it) => {
    report.isBooted = true;
    report.mark(it, null);
  },
};
