// What the script of a page tells of runs, for cases/web/parity.py: for each line of standard input, which names a folder, what runs and
// how long, a line of JSON with the lines of the run and, where an environment is named, its steps. The script, its tables and the
// module are the page's own; there is no document, so the page itself doesn't begin.
//
//     node told.mjs PAGE

import { readdirSync, readFileSync, statSync } from "node:fs";
import { createInterface } from "node:readline";

const page = readFileSync(process.argv[2], "utf8");
const partOf = id => new RegExp(`<script type="[^"]*" id="${id}">([^]*?)</script>`).exec(page)[1];
const nothing = { getElementById: () => ({ textContent: "" }) };
const modules = new Function("document", `${/<script>([^]*?)<\/script>/.exec(page)[1]}; return modules;`)(nothing);
const { aegis, steps, tables, text, told } = modules;
tables.fillTables(JSON.parse(partOf("tables")));
const run = await aegis.load(await text.unpacked(partOf("module")));

/** The files of a folder by their names. */
function filesOf(folder) {
  const names = readdirSync(folder).filter(it => statSync(`${folder}/${it}`).isFile());
  return new Map(names.map(name => [name, new Uint8Array(readFileSync(`${folder}/${name}`))]));
}

for await (const line of createInterface({ input: process.stdin })) {
  const { folder, env, title, ...words } = JSON.parse(line), found = told.told(run, filesOf(folder), words);
  const status = found.failure ? found.failure.status : told.isWell(found) ? 0 : 1;
  const data = env === undefined || found.failure ? null : steps.stepData(found, env, title);
  console.log(JSON.stringify({ status, lines: told.linesOf(found), steps: data }));
}
