// The panel on the page: its boxes with what they hold, its wires, and those that are lit.
import { WIDTH } from "./layout.js";
import { escaped, path, placeIn, range, rect, tag, written } from "./svg.js";

// The colour of a wire: that of the field it comes from, or of its unit.
function toneOf({ kind, unit, numbers: [first, second = 0] }, fields) {
  if (kind === "SR") return fields.findIndex((it) => first >= it.from && first <= it.to) % 6;
  if (kind === "GX" || kind === "SX") return (first + 3 * second) % 6;
  return unit === "clock" ? 7 : kind === "EM" ? 6 : -1;
}

// What the arrow keys can reach.
const stop = (name, label) => ({ class: name, tabindex: -1, role: "button", "aria-label": escaped(label) });

function boxMarkup({ unit, kind, title, x, y, width, height, window, figures, exits }) {
  const each = window / figures;
  const inside = window ? [
    rect("window", x + 12, y + 16, window, 24, 3), written("title", x + 12, y + 57, title),
    ...range(1, figures).map((at) => written("figure", x + 12 + each * (at - 0.5), y + 34, "")),
  ] : [written("title middle", x + width / 2, y + (kind === "emitter" ? 17 : exits.length ? 32 : 40), title)];
  return tag("g", { ...stop("box", title), "data-unit": unit }, rect("body", x, y, width, height, 6) + inside.join(""));
}

function hubMarkup({ name, words, label, entry, x, y }) {
  const circle = tag("circle", { ...stop("hub", words), "data-hub": name, cx: x, cy: y, r: 4.4 });
  return (label ? written("label", x, y + (entry ? 15 : -6), label) : "") + circle;
}

export class Panel {
  /** `choose` is told the hub, wire or unit that is chosen, or null. */
  constructor(drawing, choose) {
    Object.assign(this, { drawing, choose, layout: null });
    drawing.addEventListener("click", (event) => this.click(event));
    drawing.addEventListener("keydown", (event) => this.key(event));
  }

  /** Draws the panel as it is laid out. */
  draw(layout, fields) {
    const { hubs, paths, used, boxes, next, wheels, wheelY, height } = layout;
    this.layout = layout;
    this.toneOf = (wire) => toneOf(hubs.get(wire.split(">")[0]), fields);
    const tones = Object.entries(Object.groupBy([...paths.keys()], this.toneOf));
    const wires = tones.map(([tone, own]) => path(`wire tone${tone}`, own.map((it) => paths.get(it)).join("")));
    const rail = (y, high) => rect("rail", 8, y, WIDTH - 16, high, 4);
    const ticks = (kind, most, y) =>
      range(1, most / 10).map((it) => written("tick", hubs.get(`${kind}.${10 * it}`).x, y, 10 * it));
    const free = [...hubs.values()].filter((it) => !used.has(it.name)).map((it) => `M${it.x} ${it.y}h0`);
    const columns = next ? "above: this card · below: the next card" : "the columns of the card";
    this.drawing.setAttribute("viewBox", `0 0 ${WIDTH} ${height}`);
    this.drawing.innerHTML = [
      rect("plate", 0, 0, WIDTH, height), rail(6, next ? 54 : 24), rail(wheelY - 12, 24),
      ...ticks("SR", 80, next ? 37 : 42), ...ticks("W", wheels, wheelY - 15),
      written("side", WIDTH - 14, next ? 76 : 58, columns),
      written("side", WIDTH - 14, wheelY + 26, "the print wheels"),
      tag("g", { id: "wires" }, wires.join("")), ...boxes.map(boxMarkup), path("free", free.join("")),
      tag("g", { id: "lit" }),
      ...[...hubs.values()].filter((it) => used.has(it.name)).map(hubMarkup),
    ].join("");
    this.stops = [...this.drawing.querySelectorAll("[tabindex]")];
    this.stops[0]?.setAttribute("tabindex", 0);
    this.boxes = new Map([...this.drawing.querySelectorAll(".box")].map((it) => [it.dataset.unit, it]));
  }

  /** Lights wires: `now` strongly, `also` less; if there are any, the others are dimmed. A way flows. */
  light(now, also, isWay) {
    const { paths } = this.layout;
    const drawn = (wire, name) =>
      tag("path", { class: `lit ${name} tone${this.toneOf(wire)}`, "data-wire": wire, d: paths.get(wire) });
    const lit = (wires, name) => wires.filter((it) => paths.has(it)).map((it) => drawn(it, name)).join("");
    const group = this.drawing.querySelector("#lit");
    group.innerHTML = lit(also, "also") + lit(now, "now");
    group.classList.toggle("flows", isWay);
    this.drawing.querySelector("#wires").classList.toggle("dim", now.length + also.length > 0);
    const hot = new Set([...now, ...also].flatMap((it) => it.split(">")));
    for (const it of this.stops) it.classList.toggle("hot", hot.has(it.dataset.hub));
  }

  /** Shows what the units hold in a cycle, and which of them did something. */
  hold(cycle) {
    for (const [unit, drawn] of this.boxes) {
      const told = cycle?.told.filter((it) => it.unit === unit) ?? [];
      const figures = drawn.querySelectorAll(".figure");
      // (a counter that was read out shows what it gave)
      const none = unit.startsWith("group") ? "0".repeat(figures.length) : "";
      const held = told.find((it) => it.kind === "reads")?.held ?? cycle?.holds.get(unit) ?? none;
      figures.forEach((it, at) => { if (it.textContent !== held[at]) it.textContent = held[at] ?? ""; });
      drawn.classList.toggle("changed", told.length > 0 || Boolean(cycle?.moved.has(unit)));
      drawn.classList.toggle("below", Boolean(cycle?.below.has(unit)));
    }
  }

  click(event) {
    const { hub, unit } = event.target.closest("[data-hub], [data-unit]")?.dataset ?? {};
    const { x, y } = placeIn(this.drawing, event);
    const under = Object.assign(document.createElement("canvas").getContext("2d"), { lineWidth: 12 });
    const isUnder = ([, path]) => under.isPointInStroke(new Path2D(path), x, y);
    const [wire] = !hub && !unit && [...this.layout.paths].find(isUnder) || [];
    this.choose(hub || unit || wire ? { hub, unit, wire } : null);
  }

  // The arrows go to the next box or hub, Enter chooses it.
  key(event) {
    const at = this.stops.indexOf(event.target);
    const step = { ArrowRight: 1, ArrowDown: 1, ArrowLeft: -1, ArrowUp: -1, Enter: 0, " ": 0 }[event.key];
    if (at < 0 || step === undefined) return;
    event.preventDefault();
    event.stopPropagation();
    const near = this.stops.at((at + step) % this.stops.length);
    event.target.setAttribute("tabindex", -1);
    near.setAttribute("tabindex", 0);
    near.focus();
    if (!step) this.choose({ ...near.dataset });
  }
}
