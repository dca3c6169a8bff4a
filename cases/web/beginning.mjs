// What a page says where it can't begin, for cases/web/test: where the browser lacks what the names say, or the module is damaged.
//
//     node beginning.mjs PAGE [NAME..]

import { readFileSync } from "node:fs";

const [path, ...lacking] = process.argv.slice(2), page = readFileSync(path, "utf8");
const partOf = id => new RegExp(`<script type="[^"]*" id="${id}">([^]*?)</script>`).exec(page)?.[1] ?? "";
const elements = new Map(), elementOf = id => elements.get(id) ?? elements.set(id, { textContent: partOf(id) }).get(id);
for (const name of lacking) delete globalThis[name];
new Function("document", /<script>([^]*?)<\/script>/.exec(page)[1])({ getElementById: elementOf });
for (let turn = 0; turn < 1_000 && !elementOf("ends").textContent; turn++) await new Promise(resolve => setTimeout(resolve, 10));
console.log(elementOf("ends").textContent);
