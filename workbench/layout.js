// Where each thing of the panel is drawn: columns above, wheels below, between them a box for each unit that is used.
// Wires go down, and past other boxes through the gaps between them.
import { byPlace, hubOf, plainTitle } from "./hubs.js";
import { range } from "./svg.js";

/** The width of the whole picture: card, panel and paper have this one scale. */
export const WIDTH = 1250;
const EDGE = 12;
const LANE = 3.2;

/** Where a column of the card is. */
export const columnX = (column) => 32 + 15 * (column - 1);

/** Where a wheel is, if so many share the width. */
export const wheelX = (wheel, wheels) => 25 + (1200 / wheels) * (wheel - 0.5);

const sum = (numbers) => numbers.reduce((all, it) => all + it, 0);

// Places near those that are wanted, in their order, with so much between neighbours: between pushing right and left.
function spread(wanted, apart, from, to) {
  const last = wanted.length - 1;
  const toRight = (places) => places.reduce((all, it, at) =>
    [...all, Math.max(it, at ? all[at - 1] + apart[at] : from)], []);
  const toLeft = (places) => places.reduceRight((all, it, at) =>
    [Math.min(it, at < last ? all[0] - apart[at + 1] : to), ...all], []);
  const [right, left] = [toRight(wanted), toLeft(wanted)];
  return toRight(toLeft(right.map((it, at) => (it + left[at]) / 2)));
}

// How wide a hub's place on its edge is.
function placeOf({ figure, kind, label, unit }) {
  if (figure || unit === "compare" || unit === "first") return kind.startsWith("G") ? 19 : 16;
  return Math.max(13, label.length * 7.4 + 4);
}
const across = (hubs) => sum(hubs.map(placeOf));

// A box for a unit. A counter shows all its digits, a storage unit its places up to the last one that is used.
function boxOf(unit, used, title) {
  const own = used.filter((it) => it.unit === unit);
  const [kind, number] = unit.split(" ");
  const most = Math.max(0, ...own.filter((it) => it.figure).map((it) => it.numbers[1]));
  const figures = kind === "group" ? Number(number[0]) : most;
  const ends = kind === "group" ? ["GE", "GX"] : ["SE", "SX"];
  const names = range(1, figures).flatMap((at) => ends.map((end) => `${end}.${number}.${at}`));
  const hubs = [...new Set([...names, ...own.map((it) => it.name)])].map(hubOf).sort(byPlace);
  const [entries, exits] = [true, false].map((entry) => hubs.filter((it) => it.entry === entry));
  const window = across(entries.filter((it) => it.figure));
  const behind = window ? across(exits.filter((it) => !it.figure)) : 0;
  const width = Math.max(across(entries), across(exits), title.length * 7.6 + behind, 60) + 2 * EDGE;
  const height = window ? 68 : kind === "emitter" ? 42 : 56;
  return { unit, kind, title, entries, exits, figures, window, width, height };
}

// The rows of boxes: counters below those that they are added up from, letters at the bottom.
function rowsOf(boxes, ends) {
  const adds = ends.filter(([from, to]) => from.kind === "GX" && to.kind === "GE" && from.unit !== to.unit);
  const depth = (unit, seen) => seen.includes(unit) ? 0 : Math.max(0, ...adds.filter(([, to]) => to.unit === unit)
    .map(([from]) => depth(from.unit, [...seen, unit]) + 1));
  const depths = new Map(boxes.map(({ unit }) => [unit, depth(unit, [])]));
  const band = ({ kind, unit }) => ({ group: 1 + depths.get(unit), storage: 1, paper: 1, emitter: 40 }[kind] ?? 0);
  const bands = Object.values(Object.groupBy(boxes, band));
  // boxes that don't fit beside one another make rows of about the same width
  return bands.flatMap((own) => {
    const all = sum(own.map((it) => it.width + 14));
    const rows = range(1, Math.ceil(all / (WIDTH - 90))).map(() => []);
    let at = 0;
    for (const box of own.sort((a, b) => a.pull - b.pull)) {
      rows[Math.floor((rows.length * (at + box.width / 2)) / all)].push(box);
      at += box.width + 14;
    }
    return rows;
  });
}

// Puts the boxes of a row beside one another, with room for so many wires in each gap, and their hubs on their edges.
function placeRow({ row, lanes, put, at }) {
  const free = WIDTH - 20 - sum(row.map((it) => it.width)) - 14 * (row.length + 1);
  const lane = Math.max(0, Math.min(LANE, free / Math.max(1, sum(lanes))));
  const gaps = lanes.map((it) => 14 + it * lane);
  const apart = row.map((_, place) => (place ? row[place - 1].width : 0) + gaps[place]);
  const to = WIDTH - 10 - gaps.at(-1) - row.at(-1).width;
  const places = spread(row.map((it) => it.pull - it.width / 2), apart, 10 + gaps[0], to);
  row.forEach((box, place) => {
    box.x = places[place];
    for (const [edge, y] of [[box.entries, box.y], [box.exits, box.y + box.height]]) {
      const plain = edge.filter((it) => !it.figure);
      let x = box.window ? box.x + EDGE : box.x + (box.width - across(edge)) / 2;
      for (const hub of edge) {
        // behind the figures the other hubs stand at the right end
        if (box.window && hub === plain[0]) x = box.x + box.width - EDGE - across(plain);
        put(hub, x + placeOf(hub) / 2, y, at);
        x += placeOf(hub);
      }
    }
  });
}

// Which rows a wire passes, in their order, and where it would like to: on its way down, or beside boxes on its way up.
function passes({ from, to }) {
  if (to.row <= from.row) return range(to.row, from.row).reverse().map((row) => ({ row, wanted: (from.x + to.x) / 2 }));
  const step = (to.x - from.x) / (to.row - from.row);
  return range(from.row + 1, to.row - 1).map((row) => ({ row, wanted: from.x + step * (row - from.row) }));
}

// The gaps of the rows, each with the wires that pass through it: for each wire the gap that is nearest.
function gapsOf(rows, wires) {
  const gaps = rows.map((row) => [...row, null].map((box, at) => {
    const left = at ? row[at - 1].x + row[at - 1].width : 4;
    return { from: left + 5, to: (box ? box.x : WIDTH - 4) - 5, wires: [] };
  }));
  for (const wire of wires) {
    for (const { row, wanted } of passes(wire)) {
      const away = (gap) => Math.max(gap.from - wanted, wanted - gap.to, 0);
      gaps[row].reduce((best, gap) => (away(gap) < away(best) ? gap : best)).wires.push({ wire, row, wanted });
    }
  }
  return gaps;
}

// Gives each wire a lane of its own in its gaps.
function giveLanes(gaps) {
  for (const { from, to, wires } of gaps.flat()) {
    wires.sort((a, b) => a.wanted - b.wanted || a.wire.from.x - b.wire.from.x);
    const lane = Math.min(LANE, (to - from) / Math.max(1, wires.length));
    const places = spread(wires.map((it) => it.wanted), wires.map(() => lane), from, to);
    wires.forEach(({ wire, row }, at) => wire.lanes.set(row, places[at]));
  }
}

// The drawn line of a wire: a curve in each channel between rows, a straight line beside boxes.
function pathOf({ from, to, lanes }, bands) {
  const down = to.row > from.row;
  const round = (number) => Math.round(number * 10) / 10;
  let [x, y] = [from.x, from.y];
  let drawn = `M${round(x)} ${round(y)}`;
  const curve = (toX, toY, bend = (toY - y) / 2, back = -bend) => {
    drawn += `C${[x, y + bend, toX, toY + back, toX, toY].map(round).join(" ")}`;
    [x, y] = [toX, toY];
  };
  for (const row of [...lanes.keys()].sort((a, b) => (down ? a - b : b - a))) {
    const { top, bottom } = bands[row];
    if (down) curve(lanes.get(row), top);
    else if (row === from.row) curve(lanes.get(row), bottom, 22, 22);
    else curve(lanes.get(row), bottom);
    y = down ? bottom : top;
    drawn += `V${round(y)}`;
  }
  if (down) curve(to.x, to.y);
  else curve(to.x, to.y, -22, -22);
  return drawn;
}

/** The picture of a panel: where its boxes, hubs and wires are. `titles` names units, `room` is how high it may be. */
export function layoutOf({ wires, titles, wheels, room }) {
  const ends = wires.map((wire) => wire.split(">").map(hubOf));
  const used = [...new Map(ends.flat().map((it) => [it.name, it])).values()];
  const units = new Set(used.map((it) => it.unit));
  const rails = { SR: columnX, FR: columnX, W: (wheel) => wheelX(wheel, wheels) };
  const title = (unit) => titles.get(unit) ?? plainTitle(unit);
  const boxes = [...units].filter((it) => !rails[it]).map((unit) => boxOf(unit, used, title(unit)));
  const both = ends.flatMap(([from, to]) => [[from, to], [to, from]]).filter(([, other]) => rails[other.unit]);
  for (const box of boxes) {
    const pulls = both.filter(([own]) => own.unit === box.unit).map(([, it]) => rails[it.unit](it.numbers[0]));
    box.pull = pulls.length ? sum(pulls) / pulls.length : 700;
  }
  const rows = rowsOf(boxes, ends);
  const heights = rows.map((row) => Math.max(...row.map((it) => it.height)));
  const top = units.has("FR") ? 66 : 34;
  const free = (room - top - sum(heights) - 48) / (rows.length + 1);
  const gap = Math.max(rows.length > 4 ? 23 : 34, Math.min(rows.length ? 76 : 300, free));
  let y = top;
  const bands = rows.map((row, at) => {
    y += gap;
    row.forEach((box) => Object.assign(box, { y, height: heights[at] }));
    y += heights[at];
    return { top: y - heights[at] - 5, bottom: y + 5 };
  });
  const wheelY = y + gap + 18;
  const hubs = new Map();
  const put = (hub, x, hubY, row) => hubs.set(hub.name, { ...hub, x, y: hubY, row });
  for (const column of range(1, 80)) {
    put(hubOf(`SR.${column}`), columnX(column), 18, -1);
    if (units.has("FR")) put(hubOf(`FR.${column}`), columnX(column), 48, -1);
  }
  for (const wheel of range(1, wheels)) put(hubOf(`W.${wheel}`), wheelX(wheel, wheels), wheelY, rows.length);
  const placed = (lanesOf) => {
    rows.forEach((row, at) => placeRow({ row, lanes: lanesOf(row, at), put, at }));
    const all = ends.map(([from, to]) => ({ from: hubs.get(from.name), to: hubs.get(to.name), lanes: new Map() }));
    return [all, gapsOf(rows, all)];
  };
  // first with equal gaps, to count the wires in each; then with room for these
  const [, first] = placed((row) => [...row, null].map(() => 1));
  const [all, gaps] = placed((_, at) => first[at].map((it) => it.wires.length));
  giveLanes(gaps);
  const paths = new Map(all.map((wire, at) => [wires[at], pathOf(wire, bands)]));
  const names = new Set(used.map((it) => it.name));
  return { boxes, hubs, paths, used: names, next: units.has("FR"), wheels, wheelY, height: wheelY + 30 };
}
