// The picture: the card over the panel over the paper, and the deck beside it. It draws a state, and has none itself.
import { CARD_HEIGHT, cardMarkup, holeY } from "./card.js";
import { WIDTH, columnX, layoutOf } from "./layout.js";
import { Panel } from "./panel.js";
import { Paper } from "./paper.js";
import { isCalm, path, rect, tag } from "./svg.js";

// How much of the room below the card the panel may take, and how many cards of the deck are seen.
const PANEL_PART = 0.66;
const STRIP = 12;

export class Picture {
  constructor(find, choose) {
    Object.assign(this, { find, drawn: new Map() });
    this.panel = new Panel(find("panel"), choose);
    this.paper = new Paper(find("sheet"), find("paper"), (place) => choose(place && { place }));
    const strip = tag("svg", { viewBox: `0 0 ${WIDTH} ${CARD_HEIGHT}` });
    find("cards").innerHTML = tag("button", { type: "button" }, strip).repeat(STRIP);
    this.measure();
  }

  /** Sizes are read when they may have changed; to read them after each change would lay the page out twice. */
  measure() {
    const { clientWidth, clientHeight } = this.find("machine");
    this.room = innerWidth > 760 ? ((clientHeight / clientWidth) * WIDTH - CARD_HEIGHT) * PANEL_PART : 480;
  }

  /** Draws a part only if what it shows has changed: browsers lay out anew whatever was touched. */
  once(part, shown, draw) {
    const wanted = JSON.stringify(shown);
    if (this.drawn.get(part) !== wanted) draw();
    this.drawn.set(part, wanted);
  }

  /** Draws all that follows from the facts and from what is shown of them. */
  draw(state) {
    const { facts, card, cursor, code, at, page, ran, chosen, isPrinting } = state;
    const { cards, fields, panel, titles, cycles, pages } = facts;
    const holes = [...state.holes];
    const count = cards.length;
    const most = Math.max(1, ...panel.wires.map((it) => Number(it.match(/>W\.(\d+)$/)?.[1] ?? 1)));
    const wheels = [60, 80, 120].find((it) => it >= most);
    this.once("panel", [panel.wires, [...titles], fields, wheels, Math.round(this.room / 8)], () => {
      this.panel.draw(layoutOf({ wires: panel.wires, titles, wheels, room: this.room }), fields);
      this.drawn.delete("lit");
    });
    const sheet = (text, number, more) => cardMarkup({
      text, number, fields, code, lit: (column, row) => state.holes.has(`${number}.${column}.${row}`), ...more,
    });
    this.once("card", [cards[card - 1], card, count, fields, holes, cursor], () => {
      const moving = tag("g", { id: "moving" }, sheet(cards[card - 1] ?? "", card, { count, cursor }));
      this.find("card").innerHTML = moving + tag("g", { id: "rays" }) + rect("brushes", 0, 0, WIDTH, 5);
      this.find("card").ariaLabel = count ? `card ${card} of ${count}: ${cards[card - 1]}` : "no card";
      this.drawn.delete("rays");
    });
    const lines = pages[page - 1] ?? [];
    const upTo = cycles.slice(0, at + (isPrinting ? 0 : 1)).filter((it) => it.printed?.page === page);
    const printed = ran ? upTo.map((it) => it.printed.line) : lines.map((_, place) => place + 1);
    const just = cycles[at]?.printed;
    const now = just?.page === page && !isPrinting ? just.line : 0;
    const place = chosen?.place?.page === page ? chosen.place : null;
    this.once("paper", [lines, page, panel.form, wheels, now, printed, place, pages.length], () => {
      const has = (number) => printed.includes(number);
      this.paper.draw({ page, lines, form: panel.form, wheels, now, has, chosen: place }, !isCalm());
      this.find("spoken").textContent = lines.join("\n");
      this.find("leaves").hidden = pages.length < 2;
      this.find("leaf").textContent = `page ${page} of ${pages.length}`;
    });
    const first = Math.max(1, Math.min(card - 4, count - STRIP + 1));
    const seen = cards.slice(first - 1, first + STRIP - 1);
    const involved = new Set(holes.map((it) => Number(it.split(".")[0])));
    // (the buttons stay, so that a click that has begun ends on the same one)
    const strip = [...this.find("cards").children];
    this.once("deck", [seen, first, fields, holes, card], () => strip.forEach((button, at) => {
      const [text, number] = [seen[at], first + at];
      Object.assign(button, { hidden: text === undefined, ariaLabel: `card ${number}: ${text}` });
      button.dataset.card = number;
      button.className = `${number === card ? "on " : ""}${involved.has(number) ? "open" : ""}`;
      button.firstChild.innerHTML = sheet(text ?? "", number, { small: true });
    }));
    this.light(state);
    // (while a cycle lasts, the units hold what they held before it)
    this.panel.hold(isPrinting && at ? { ...cycles[at - 1], told: [] } : cycles[at]);
  }

  /** Lights the wires that are chosen, or those of this point, or those of this cycle, and the ways down the card. */
  light({ chosen, live, point, holes, card }) {
    const own = live?.get(point) ?? [];
    const all = point ? [] : [...new Set([...live?.values() ?? []].flat())];
    const shown = chosen ? [chosen.wires, chosen.below, true] : [own, all, false];
    this.once("lit", shown, () => this.panel.light(...shown));
    const read = own.filter((it) => it.startsWith("SR.")).map((it) => [Number(it.match(/\d+/)[0]), 6]);
    const lit = [...holes].map((it) => it.split(".").map(Number)).filter(([number]) => number === card);
    const rays = point ? read : lit.map(([, column, row]) => [column, holeY(row) + 7]);
    const drawn = rays.map(([column, y]) => `M${columnX(column)} ${y}V${CARD_HEIGHT}`).join("");
    this.once("rays", drawn, () => { this.find("rays").innerHTML = path("", drawn); });
  }

  /** Moves the card so far that a row is under the brushes; without a row it lies in full view. */
  moveCard(rowY, time) {
    const { style } = this.find("moving");
    style.transition = `transform ${time}ms linear`;
    style.transform = `translateY(${rowY ? 4 - rowY : 0}px)`;
  }
}
