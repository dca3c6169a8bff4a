// How each environment of a run ended, in the words of tools/try.

import { howItCame } from "./deaths.js";
import { callLines } from "./looking.js";
import { loopLine } from "./loops.js";
import { placesOf } from "./places.js";
import { consoleLines } from "./refused.js";
import { DATA } from "./source.js";
import { tables } from "./tables.js";
import { address, counted, shown, utf8 } from "./text.js";

// What begins a line of tools/try: how an environment ended, and what stands below that.
const OWN_LINE = /^(?:-- |   (at 0x|it |and [0-9]|since tick |called from |after lines? |usually: |[0-9a-f]{8} [0-9a-f]{8} |\S+:[0-9]+: ))/;
const MOST_CONSOLE = 200; // lines of a console that are shown
const OF_AN_ACCESS = ["mod", "tlbl", "tlbs", "adel", "ades"];

const many = (count, what = "packet") => `${counted(count)} ${what}${count === 1 ? "" : "s"}`;

/** Where the load or store of a listed instruction goes. */
function addressOf(text, env) {
  const found = /^(\w+) \$\d+,(-?\d+)\(\$(\d+)\)$/.exec(text);
  if (!found || !tables.loads.includes(found[1])) return null;
  return env.cpu.registers[Number(found[3])] + Number(found[2]) >>> 0;
}

/** The instruction at which an environment stands, and the line of its source. */
export function place(program, env, withAddress) {
  const { pc } = env.cpu, line = program.listing.get(pc);
  if (line === undefined) {
    const last = Math.max(...program.listing.keys());
    const why = pc >= DATA ? ["   it jumped out of its text: is the register of a `jr` the address that a call left in it?"]
      : program.listing.size && pc >= last + 4 ? ["   it ran on after its last instruction: a program ends by exit, and a function by `jr $31`"] : [];
    return { lines: [`   at 0x${address(pc)}, where no instruction of the program's text is`, ...why], at: null };
  }
  const at = placesOf(program).lines.get(pc) ?? null, reached = withAddress ? addressOf(line.slice(18), env) : null;
  return {
    lines: [`   ${line}`, ...(at ? [`   ${at.file}:${at.number}: ${at.text}`] : []),
      ...(reached !== null ? [`   it goes to address 0x${address(reached)}`] : []),
      ...(reached !== null && line.endsWith("($28)") && env.cpu.registers[28] === 0 ? [`   it ${tables.noSmallData}`] : [])],
    at,
  };
}

/** The lines of a console, of a long one those at both ends. One that looks like a line of tools/try has its first character as digits. */
function consoleText(bytes) {
  const text = utf8(bytes).replace(/\n+$/, "");
  const escaped = line => `\\x${line.codePointAt(0).toString(16).padStart(2, "0")}${line.slice(line.codePointAt(0) > 0xffff ? 2 : 1)}`;
  const lines = text ? shown(text).split("\n").map(line => OWN_LINE.test(line) ? escaped(line) : line) : [], left = lines.length - MOST_CONSOLE;
  if (left <= 0) return lines;
  const half = MOST_CONSOLE / 2, note = `-- ${counted(left)} lines of the console are left out here: the report of \`--keep DIR\` has all`;
  return [...lines.slice(0, half), note, ...lines.slice(-half)];
}

/** How an environment died in a tick: the lines, and the place in its source. */
function death(report, workshop, env, tick, trace) {
  const program = workshop.programs[env.number], before = workshop.report(tick).environments[env.number];
  // where its slice begins in this tick, a handler of starts may have been entered before the instruction
  const stood = place(program, before, OF_AN_ACCESS.includes(env.why));
  const way = howItCame(report, env.number, workshop.core(tick, env.number), program, placesOf(program), trace);
  const head = `-- ${env.number} ${env.name}: dead ${env.why} in tick ${counted(tick)}: ${tables.causes[env.why]}`;
  return { at: stood.at, ended: [head, ...stood.lines, ...way, `   usually: ${tables.usually[env.why]}`] };
}

/** Each environment's console, how it ended, and what was found of its calls. */
export function endings(report, workshop, looks) {
  const ended = new Map(report.marks.filter(it => it.kind === "dead" || it.kind === "exit").map(it => [it.env, it.time]));
  const { programs } = workshop, calls = callLines(looks, programs);
  return report.environments.slice(0, programs.length).map((env, at) => {
    const who = `-- ${env.number} ${env.name}:`, tick = ended.get(env.number), { loop, refused, last } = looks[at];
    const found = { env, console: consoleText(env.console), refused: [...consoleLines(env, refused), ...calls[at]], tick };
    if (env.life === "live") {
      const how = report.ending === "limit" ? "alive at the limit" : "alive, without a slot", stands = place(programs[at], env, false);
      const round = loop.addresses.size ? loopLine(loop, placesOf(programs[at]), env.cpu.pc) : [];
      return { ...found, ended: [`${who} ${how}, after ${counted(report.time)} ticks`, ...stands.lines, ...round], at: stands.at };
    }
    if (env.life === "exit") return { ...found, ended: [`${who} exit ${env.why} in tick ${counted(tick)}`], at: null };
    return { ...found, ...death(report, workshop, env, tick, last) };
  });
}

/** What was sent, and what nobody claimed. */
export function packetLines(report) {
  const dropped = report.marks.filter(it => it.kind === "drop").length;
  return [...report.environments.filter(it => it.sent.length).map(it => `-- ${it.number} ${it.name}: sent ${many(it.sent.length)}`),
    ...(dropped ? [`-- ${many(dropped)} dropped, which nobody claimed`] : [])];
}

/** Who was asked for pages, and how many were taken. */
export function revocationLines(report) {
  return report.environments.flatMap(({ number, name }) => {
    const [asked, taken] = ["asked", "take"].map(kind => report.marks.filter(it => it.kind === kind && it.env === number).length);
    return asked ? [`-- ${number} ${name}: asked for pages ${many(asked, "time")}, ${many(taken, "page")} taken`] : [];
  });
}
