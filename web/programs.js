// Programs of a run, as tools/programs.py makes them: of sources in assembly or of ELF files, packed into an image by a manifest, and
// run by a schedule. Files are the page's; what is made of them is kept in a room, a Map of names and bytes.

import { eventAdvice, meaning } from "./advice.js";
import { Core } from "./cores.js";
import { faultsOf, plain } from "./faults.js";
import { badImage } from "./images.js";
import { warnings } from "./lint.js";
import { Report } from "./report.js";
import { readSource } from "./source.js";
import { tables } from "./tables.js";
import { ascii, bytesOfLatin, latin, quoted, wordsOf } from "./text.js";

export const USAGE = 2, REFUSED = 3, UNREAD = 4;
const STACK = 4; // pages
const HEADERS = 84; // bytes of an ELF file with one part
const LONGEST_QUOTE = 100; // characters of an event that is shown
export const NO_MANIFEST = "the manifest"; // that is made of sources
const ENDING = /(?:^|[^.])(\.[^.]*)$/;

/** Why nothing was run: a status, lines that say it, and the file and line at which it is. */
export class Failed extends Error {
  constructor(status, lines, file = "", line = 0) {
    super(lines.join("\n"));
    Object.assign(this, { status, lines, file, line });
  }
}

export const endingOf = path => (ENDING.exec(path)?.[1] ?? "").toLowerCase();
export const stemOf = path => path.slice(0, path.length - (ENDING.exec(path)?.[1] ?? "").length);

/** The name and the place of a refusal. */
export function refusal(output) {
  const words = latin(output).trim().split(/\s+/);
  return [words.at(-2), Number(words.at(-1))];
}

/** Makes programs and images of files, and runs them. `run` is a command of the module: `(words, files)`. */
export class Workshop {
  constructor(run, files) {
    Object.assign(this, { command: run, files, room: new Map(), said: [], warned: new Set(), programs: [], schedule: null });
  }

  /** Runs a command over the files of the room and of the page that its words or its manifest name. */
  aegis(...words) {
    const named = new Set(words.slice(1)), given = new Map();
    if (words[0] === "image") for (const line of latin(this.content(words[1])).split("\n")) named.add(wordsOf(line).at(-1) ?? "");
    for (const name of named) {
      const bytes = this.room.get(name) ?? this.files.get(name);
      if (bytes) given.set(name, bytes);
    }
    return this.command(words, given);
  }

  /** A file's bytes, or why there are none. */
  content(path) {
    const bytes = this.room.get(path) ?? this.files.get(path);
    if (!bytes) throw new Failed(UNREAD, [`${path}: there is no such file`]);
    return bytes;
  }

  // From a file to a program

  /** The program of a source in assembly, which is linted first. */
  assembled(path, name) {
    const text = this.content(path), source = readSource(latin(text));
    if (!this.warned.has(path)) this.said.push(...warnings(path, source)); // of a source with a fault too: it may be the fault
    this.warned.add(path);
    const { status, output } = this.asm(plain(text));
    if (status === REFUSED) {
      const { lines, line } = faultsOf(path, text, it => (said => said.status === REFUSED ? refusal(said.output) : null)(this.asm(bytesOfLatin(it))));
      throw new Failed(REFUSED, lines, path, line);
    }
    if (status) throw new Failed(status, [`${path}: \`asm\` ended with ${status}`]);
    this.room.set(`${name}.elf`, output);
    return { name, shown: path, elf: `${name}.elf`, file: output, source, isMade: true, listing: new Map() };
  }

  /** Assembles a text. */
  asm(text) {
    return this.command(["asm", "text.s"], new Map([["text.s", text]]));
  }

  /** The program of an ELF file. */
  taken(path, name) {
    const file = this.content(path);
    this.room.set(`${name}.elf`, file);
    return { name, shown: path, elf: `${name}.elf`, file, source: null, isMade: false, listing: new Map() };
  }

  /** The program of a file, by what its name ends in. */
  made(path, name) {
    const ending = endingOf(path);
    if (ending === ".s" || ending === ".asm") return this.assembled(path, name);
    if (ending === ".elf" || ending === "") return this.taken(path, name);
    if (ending === ".c") throw new Failed(REFUSED, [`${path}: a source in C wants GNU's compiler for MIPS, which isn't in a browser: open the ELF file that it makes.`]);
    throw new Failed(USAGE, [`${path}: a source ends in .s, .asm, .c or .elf, and a manifest, which stands alone, in .txt`]);
  }

  /** Reads what a program executes; an ELF file with a fault is refused. */
  listed(program) {
    const { status, output } = this.command(["list", program.elf], new Map([[program.elf, program.file]]));
    if (status === REFUSED) throw new Failed(REFUSED, badElf(program.shown, program.file, ...refusal(output)));
    if (status) throw new Failed(status, [`${program.shown}: \`list\` ended with ${status}`]);
    for (const line of ascii(output).split("\n")) if (line) program.listing.set(parseInt(line.slice(0, 8), 16), line);
  }

  /** The programs of these files, and a manifest of them. */
  fromSources(paths, quantum) {
    for (const path of paths) {
      const program = this.made(path, nameOf(path, this.programs.map(it => it.name)));
      this.programs.push(program);
      this.listed(program);
    }
    const [version, most] = Object.entries(tables.limits.versions).find(([, it]) => paths.length <= it.environments);
    const lines = [...(version > 1 ? [`version ${version}`] : []), `pages ${most.pages}`, `quantum ${quantum}`, `slots ${paths.map((_, at) => at).join(" ")}`,
      ...this.programs.map(it => `env ${it.name} elf ${STACK} 0 ${it.elf}`)];
    this.room.set("try.txt", bytesOfLatin(lines.map(it => `${it}\n`).join("")));
  }

  /** The programs of a manifest, whose files are the page's, or are made of its sources. */
  fromManifest(path) {
    const text = plain(this.content(path)), made = new Map();
    this.room.set("try.txt", text);
    for (const line of latin(text).split("\n")) {
      const words = wordsOf(line), file = words.at(-1);
      if (words.length < 6 || words[0] !== "env") continue;
      if (!made.has(file)) made.set(file, this.body(file, words[2] === "flat"));
      this.programs.push(made.get(file));
    }
  }

  /** The file of a program that a manifest names. */
  body(file, isFlat) {
    const stem = stemOf(file);
    if (file.includes("/")) throw new Failed(UNREAD, [`${file}: name files beside the manifest, without a folder`]);
    if (!this.files.has(file)) {
      const ending = [".s", ".asm", ".c"].find(it => this.files.has(stem + it));
      if (!ending) throw new Failed(UNREAD, [`${file}: there is no such file, nor ${stem}.s or ${stem}.c to make it of`]);
      const program = this.made(stem + ending, stem);
      if (isFlat && endingOf(file) !== ".elf") {
        this.listed(program);
        this.room.set(file, program.file.slice(HEADERS));
        return program;
      }
      return this.renamed(program, file);
    }
    const program = this.taken(file, stem);
    if (!isFlat) return this.renamed(program, file);
    this.room.set(file, program.file);
    return program;
  }

  /** A program by the name that its manifest gives its file, once it is listed. */
  renamed(program, file) {
    this.listed(program);
    if (file !== program.elf) {
      this.room.delete(program.elf);
      this.room.set(file, program.file);
      program.elf = file;
    }
    return program;
  }

  /** Makes the machine of these sources, or of a manifest: its image and its schedule are in the room. */
  prepare(sources, quantum, schedule) {
    const isManifest = sources[0].endsWith(".txt"), most = tables.limits.environments;
    if (isManifest && sources.length > 1 || sources.length > most) {
      throw new Failed(USAGE, [isManifest ? "a manifest stands alone" : `more than ${most} environments`]);
    }
    if (isManifest) this.fromManifest(sources[0]);
    else this.fromSources(sources, quantum);
    this.pack(isManifest ? sources[0] : NO_MANIFEST);
    this.schedule = schedule || null;
    this.room.set("try.sch", schedule ? plain(this.content(schedule)) : new Uint8Array(0));
  }

  /** Makes the image of the manifest, which is shown as this file. */
  pack(shown) {
    const { status, output } = this.aegis("image", "try.txt");
    if (status === REFUSED) {
      const lines = latin(this.content("try.txt")).split("\n"), [why, place] = refusal(output);
      const found = badImage(shown, lines, why, place, shown === NO_MANIFEST ? this.programs : [], name => this.content(name));
      throw new Failed(REFUSED, found.lines, shown === NO_MANIFEST ? "" : shown, found.line);
    }
    if (status) throw new Failed(status, [`${shown}: \`image\` ended with ${status}`]);
    this.room.set("try.img", output);
  }

  // The run

  /** Runs the machine, and reads its report, which is kept. */
  report(ticks) {
    const { status, output } = this.aegis("run", "try.img", "try.sch", String(ticks));
    if (status === REFUSED && this.schedule) throw this.badSchedule(...refusal(output));
    if (status) throw new Failed(status, [`\`run\` ended with ${status}: ${latin(output).trim()}`]);
    this.room.set("try.report", output);
    return new Report(output);
  }

  /** What is wrong with the schedule, by the line that says it. */
  badSchedule(why, place) {
    const line = latin(this.content("try.sch")).split("\n")[place - 1], more = eventAdvice(why, line);
    return new Failed(REFUSED, [`${this.schedule}:${place}: ${why}: ${meaning("schedule", why)}.`, ...quoted(line.slice(0, LONGEST_QUOTE)),
      ...(more ? [more] : [])], this.schedule, place);
  }

  /** What a command over the image and its schedule writes. */
  written(command, ...words) {
    const { status, output } = this.aegis(command, "try.img", "try.sch", ...words.map(String));
    if (status) throw new Failed(status, [`\`${command}\` ended with ${status}`]);
    return output;
  }

  /** The text of an environment's trace, from a tick on. */
  trace(ticks, env, first = 0) {
    return ascii(this.written("trace", ticks, env, first));
  }

  /** The state of an environment after some ticks, or null where it doesn't live then. */
  core(ticks, env) {
    const { status, output } = this.aegis("core", "try.img", "try.sch", String(ticks), String(env));
    return status ? null : new Core(output);
  }

  /** The image's version, which its magic has: `AEG1` or `AEG2`. */
  version() {
    return Number(String.fromCharCode(this.content("try.img")[3]));
  }
}

/** A name for an environment, of its file's. */
function nameOf(path, names) {
  const stem = stemOf(path).toLowerCase().replace(/[^a-z0-9_]/gu, "_").slice(0, 8) || "program";
  let name = stem;
  for (let count = 2; names.includes(name); count++) name = stem.slice(0, 8 - String(count).length) + count;
  return name;
}

/** What is wrong with an ELF file. */
function badElf(path, file, why, place) {
  const text = latin(file.subarray(0, 512));
  if (text.startsWith("aegis: ")) {
    return [`${path}: ${why}: it isn't an ELF file: it holds the refusal \`${text.split("\n")[0]}\` of an earlier command.`,
      "Mend that file, and chain commands by `&&`, so that the second doesn't run where the first is refused."];
  }
  const isText = ["NotElf", "Short"].includes(why) && /^[\t\n\r -~]*$/.test(text);
  return [`${path}: ${why} at byte ${place}: ${meaning("ELF file", why)}.`,
    ...(isText ? [file.length ? "It is a text: a source ends in `.s` or `.c`, and a manifest in `.txt`." : "The file is empty."] : [])];
}
