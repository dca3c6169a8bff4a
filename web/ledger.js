// The ledger in small: a lane for each slot, in which an environment's slices have its colour. What is narrower than a unit is folded
// into it. tools/ledger draws the whole of it.

import { counted } from "./text.js";

const WIDTH = 560, LANE = 16, GAP = 4, LEFT = 26, RIGHT = 12, TOP = 6, FOOT = 20;
const MOST_MARKS = 200, MOST_TICKS_SHOWN = 5;
const SHAPES = { exit: "M-4 0a4 4 0 1 0 8 0a4 4 0 1 0-8 0", dead: "M-4-4 4 4M4-4-4 4", drop: "M0-5V4M-4 0 0 4 4 0" };

/** Makes an element of the picture, in the namespace of its root. */
function maker(root) {
  return (tag, attributes, ...children) => {
    const it = document.createElementNS(root.namespaceURI, tag);
    for (const name in attributes) it.setAttribute(name, attributes[name]);
    it.append(...children);
    return it;
  };
}

export const colour = env => `c${env % 12}`;

/** The pieces of a lane: slices as they are, and narrow ones as columns in which the environment with most ticks is shown. */
function pieces(slices, scale) {
  const found = [];
  let column = null;
  for (const it of slices) {
    const at = Math.floor(it.start * scale);
    if ((it.end - it.start) * scale >= 2) {
      found.push({ env: it.env, start: it.start, end: it.end, many: 1 });
      column = null;
    } else if (column && column.at === at) {
      column.end = it.end;
      column.many += 1;
      if (it.end - it.start > column.most) Object.assign(column, { env: it.env, most: it.end - it.start });
    } else {
      column = { at, env: it.env, start: it.start, end: it.end, many: 1, most: it.end - it.start };
      found.push(column);
    }
  }
  return found;
}

/** Round numbers of ticks for the axis. */
function marksOf(time) {
  const rough = time / MOST_TICKS_SHOWN, unit = 10 ** Math.floor(Math.log10(Math.max(rough, 1)));
  const step = [1, 2, 5, 10].map(it => it * unit).find(it => it >= rough) ?? unit;
  return Array.from({ length: Math.floor(time / step) + 1 }, (_, at) => at * step);
}

/** Draws the ledger of a report into an SVG. `visit` is called with an environment and a tick where a slice is chosen. */
export function drawLedger(svg, report, visit) {
  const draw = maker(svg), titled = text => draw("title", {}, text);
  const slots = [...new Set(report.slices.map(it => it.slot))].sort((one, two) => one - two), time = Math.max(report.time, 1);
  const width = Math.max(svg.clientWidth, WIDTH), scale = (width - LEFT - RIGHT) / time, height = TOP + slots.length * (LANE + GAP) + FOOT, place = tick => LEFT + tick * scale;
  svg.setAttribute("viewBox", `0 0 ${width} ${height}`);
  svg.replaceChildren();
  for (const tick of marksOf(time)) {
    svg.append(draw("path", { class: "axis", d: `M${place(tick)} ${TOP}V${height - FOOT + 3}` }),
      draw("text", { x: place(tick), y: height - 5, "text-anchor": !tick ? "start" : place(tick) > width - 30 ? "end" : "middle" }, counted(tick)));
  }
  slots.forEach((slot, lane) => {
    const y = TOP + lane * (LANE + GAP);
    svg.append(draw("text", { x: LEFT - 6, y: y + 12, "text-anchor": "end" }, String(slot)));
    for (const it of pieces(report.slices.filter(piece => piece.slot === slot), scale)) {
      const many = it.many > 1 ? `${counted(it.many)} slices, most of ` : "", name = report.environments[it.env].name;
      const bar = draw("rect", { class: `bar-of ${colour(it.env)}`, x: place(it.start), y, width: Math.max((it.end - it.start) * scale - 0.4, 0.8), height: LANE },
        titled(`${many}${it.env} ${name}, ticks ${counted(it.start)} to ${counted(it.end - 1)}: a click leads to the step`));
      bar.onclick = () => visit(it.env, it.start);
      svg.append(bar);
    }
  });
  for (const it of report.marks.filter(mark => mark.kind in SHAPES).slice(0, MOST_MARKS)) {
    const lane = it.slot === null ? slots.length - 1 : slots.indexOf(it.slot), y = TOP + lane * (LANE + GAP) + LANE / 2;
    svg.append(draw("path", { class: `mark ${it.kind}`, d: SHAPES[it.kind], transform: `translate(${Math.min(place(it.time + 1), width - 6)} ${y})` }, titled(it.row)));
  }
}
