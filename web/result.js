// What a run told, as cards: an environment each, with its console and how it ended, in the words of tools/try.

import { colour } from "./ledger.js";
import { shown } from "./text.js";

const PLACE = /^(\s*)([^\s:]+):(\d+):/;
const FEW = 4; // environments that have a card of their own width

function make(tag, name, ...children) {
  const it = document.createElement(tag);
  it.className = name;
  it.append(...children);
  return it;
}

/** A line that was told; one that begins with a file and a line leads there. */
function lineOf(text, visit) {
  const found = PLACE.exec(text), line = make("p", "");
  if (!found || !visit.has(found[2])) {
    line.append(shown(text.trimStart()));
    return line;
  }
  const button = make("button", "place", shown(text.trim()));
  button.type = "button";
  button.onclick = () => visit.place(found[2], Number(found[3]));
  line.append(button);
  return line;
}

function card(kind, lines, visit) {
  return make("div", `card ${kind}`, ...lines.map(it => lineOf(it, visit)));
}

/** An environment's card. */
function environmentCard(it, visit) {
  const { env } = it, [how, ...more] = it.ended, isBad = env.life === "dead" || env.life === "exit" && env.why !== "0";
  const step = make("button", "step", "step");
  step.type = "button";
  step.title = `the steps of ${env.number} ${env.name}`;
  step.onclick = () => visit.step(env.number);
  const head = make("p", `how${isBad ? " bad" : ""}`, make("span", `swatch ${colour(env.number)}`), make("span", "", how.replace(/^-- /, "")), step);
  const console = it.console.length ? [make("pre", "console", it.console.join("\n"))] : [];
  return make("div", `card${env.life === "dead" ? " fails" : it.refused.length ? " warns" : ""}`, head, ...console,
    ...more.map(line => lineOf(line, visit)), ...it.refused.map(line => lineOf(line, visit)));
}

/** The cards of what a run told. `visit` leads to a place, or to the steps of an environment. */
export function cards(found, visit) {
  const cards = found.environments.map(it => environmentCard(it, visit)), pairs = [];
  for (let at = 0; at < found.warnings.length; at += 2) pairs.push(card("warns", found.warnings.slice(at, at + 2), visit));
  return [...pairs, ...(found.failure ? [card("fails", found.failure.lines, visit)] : []),
    ...(cards.length > FEW ? [make("div", "grid", ...cards)] : cards), ...(found.more.length ? [card("", found.more, visit)] : [])];
}
