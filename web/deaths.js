// How an environment came where it died, as tools/deaths.py says it: from which calls, by its core, and by which lines, by its trace.

import { lastTold } from "./reader.js";
import { address, counted } from "./text.js";

const SP = 29, RA = 31, RETURN = "jr $31", CALLS = ["jal", "jalr", "bal", "bgezal", "bltzal"];
const CALLED = /^(?:jal|bal|bgezal \$\d+,|bltzal \$\d+,) ?0x([0-9a-f]+)/, ADJUSTED = /^addiu \$29,\$29,(-?\d+)$/, SAVED = /^sw \$31,(-?\d+)\(\$29\)$/;
const STEP = /\n\d+ ([0-9a-f]{8}) /g;
const MOST_FRAMES = 4_096, MOST_SHOWN = 6; // calls that are followed, and that are named
const MOST_LINES = 8; // of the source, before the one at which it died
const LEAST_STEPS = 100; // before a death: the lines of fewer are seen in the source
const BLOCK = 1 << 16; // characters of a trace in which those lines are sought

/** The items without those that are as the one before, each with how many of them follow one another. */
function groups(items) {
  const found = [];
  for (const it of items) {
    if (found.length && found.at(-1)[0] === it) found.at(-1)[1] += 1;
    else found.push([it, 1]);
  }
  return found;
}

/** Finds the calls of an environment that haven't returned, by the code that saves return addresses on the stack. */
class Unwinder {
  constructor(core, program, places, trace) {
    Object.assign(this, { core, trace, texts: new Map([...program.listing].map(([at, line]) => [at, line.slice(18)])) });
    const targets = [...this.texts.values()].map(it => CALLED.exec(it)).filter(it => it).map(it => parseInt(it[1], 16));
    this.functions = [...targets, ...places.functions.values(), Math.min(...this.texts.keys())];
  }

  /** The addresses of the calls, the last one first. */
  calls() {
    const found = [];
    let { pc } = this.core, sp = this.core.registers[SP], rises = true;
    while (rises && found.length < MOST_FRAMES) {
      const { size, saved } = this.frame(pc);
      if (saved === null && (found.length || !this.isActive())) break;
      const back = saved === null ? this.core.registers[RA] : this.core.word(sp + size + saved >>> 0);
      if (back === null || !CALLS.includes((this.texts.get(back - 8) ?? "").split(" ")[0])) break;
      found.push(back - 8);
      rises = saved === null || size > 0;
      [pc, sp] = [back - 8, sp + size];
    }
    return found;
  }

  /** How far a function's stack pointer is below its caller's at an instruction, and where the return address was saved, from the
   * caller's on. */
  frame(pc) {
    if (!this.texts.has(pc)) return { size: 0, saved: null };
    let size = 0, saved = null, whole = { size: 0, saved: null }; // before the stack pointer was set back
    for (let at = Math.max(...this.functions.filter(it => it <= pc)); at < pc; at += 4) {
      const text = this.texts.get(at) ?? "", adjusted = ADJUSTED.exec(text), stored = SAVED.exec(text);
      if (text === RETURN) { // what follows its delay slot comes from elsewhere
        [size, saved] = [Math.max(size, whole.size), whole.saved ?? saved];
        at += 4;
      } else if (adjusted && Number(adjusted[1]) > 0) {
        [whole, size, saved] = [{ size, saved }, 0, null];
      } else if (adjusted) {
        size -= Number(adjusted[1]);
      } else if (stored && saved === null) {
        saved = Number(stored[1]) - size;
      }
    }
    return { size, saved };
  }

  /** Whether the call that set $31 hasn't returned, as far as the trace tells. */
  isActive() {
    const back = this.core.registers[RA], at = Math.max(lastTold(this.trace, RA, 0, this.trace.length), 0);
    return back !== 0 && !new RegExp(`\\n\\d+ ${address(back)} `).test(this.trace.slice(at));
  }
}

/** What is said of the calls. */
function callLine(calls, places) {
  const named = call => {
    const name = places.name(call);
    if (!places.lines.has(call)) return name || `0x${address(call)}`;
    return places.where(call) + (places.functions.size && name ? ` in ${name.split("+")[0]}` : "");
  };
  const all = groups(calls.map(named)), more = all.length > MOST_SHOWN ? [`and ${all.length - MOST_SHOWN} more`] : [];
  const said = all.slice(0, MOST_SHOWN).map(([name, many]) => `from ${name}${many > 1 ? `, ${counted(many)} times` : ""}`);
  return said.length ? [`   called ${[...said, ...more].join(", ")}`] : [];
}

/** What is said of the lines that were run before the last one. */
function linesBefore(trace, places) {
  const steps = [...trace.slice(Math.max(trace.length - BLOCK, 0), trace.lastIndexOf("\nend ")).matchAll(STEP)].map(it => parseInt(it[1], 16));
  const lines = steps.map(it => places.lines.get(it)), found = groups(lines.filter(it => it)).map(([line]) => line);
  const before = (lines.at(-1) ? found.slice(0, -1) : found).slice(-MOST_LINES), isOneFile = new Set(before.map(it => it.file)).size === 1;
  const names = before.map(it => isOneFile ? String(it.number) : `${it.file}:${it.number}`);
  if (!names.length) return [];
  return [names.length > 1 ? `   after lines ${names.slice(0, -1).join(", ")} and ${names.at(-1)}` : `   after line ${names[0]}`];
}

/** All that is said of the way to a death. The trace is that of the environment's last ticks. */
export function howItCame(report, env, core, program, places, trace) {
  const steps = report.slices.filter(it => it.env === env).reduce((sum, it) => sum + it.end - it.start, 0);
  return [...(core ? callLine(new Unwinder(core, program, places, trace).calls(), places) : []), ...(steps > LEAST_STEPS ? linesBefore(trace, places) : [])];
}
