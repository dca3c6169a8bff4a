// What the page has from the tools in Python: names, sentences and limits, which tools/web writes as JSON.

/** The tables by their names, once they are filled. */
export const tables = {};

/** Fills the tables. None of their objects has a name of its own that isn't in them, as `constructor`. */
export function fillTables(found) {
  Object.assign(tables, bare(found));
}

function bare(it) {
  if (it === null || typeof it !== "object") return it;
  if (Array.isArray(it)) return it.map(bare);
  return Object.assign(Object.create(null), Object.fromEntries(Object.entries(it).map(([name, value]) => [name, bare(value)])));
}
