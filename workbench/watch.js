// Playing the machine cycle by cycle, and the sentence for each.
import { POINTS } from "./readings.js";
import { CARD_HEIGHT, holeY } from "./card.js";
import { LEVELS } from "./hubs.js";
import { escaped, isCalm } from "./svg.js";
import { titleOf } from "./why.js";

// By speed: how long a point of a cycle takes, and the rest behind a cycle, in thousandths of a second.
const BEATS = [240, 110, 45, 0, 0];
const RESTS = [1100, 650, 380, 240, 40];

const rest = (time) => new Promise((done) => { setTimeout(done, time); });
const plain = (digits) => digits.replace(/^0+(?=\d)/, "");
const isQuiet = ({ kind, printed, told }) => kind !== "Card" && kind !== "RunIn" && !printed?.text && !told.length;

// What a unit did, by the kind of the fact.
const DEEDS = {
  adds: ({ came }) => `adds ${plain(came)}`,
  subtracts: ({ came }) => `takes off ${plain(came)}`,
  reads: ({ held }) => `gives ${plain(held)} and is cleared`,
  turns: ({ held, holds }) => `turns ${held} into ${holds}`,
  tests: ({ below }) => `is ${below ? "" : "not "}below zero`,
  stores: ({ holds }) => `now holds ${holds.trim() || "blanks"}`,
};

// What is done in a cycle, by its kind.
function leadOf({ kind, number, step, printed }) {
  const [prints, level] = [printed?.text, LEVELS[number]];
  return {
    RunIn: "The first card comes to the first brushes: the machine looks one card ahead.",
    Head: `<b>Heading line ${number}</b> ${prints ? "is printed" : "stays empty"}.`,
    Card: `<b>Card ${number}</b> is read${prints ? ", and its line is printed" : ""}.`,
    Prog: prints ? `The <b>${level} total</b> is printed.` : `The ${level} totals, step ${step} of 3.`,
  }[kind];
}

/** The cycle that is seen first: the first total, or else the second card that prints. */
export function firstSight(cycles) {
  const prints = (kind) => cycles.flatMap((it, at) => (it.kind === kind && it.printed?.text ? [at] : []));
  const cards = prints("Card");
  return prints("Prog")[0] ?? cards[1] ?? cards[0] ?? 0;
}

/** The sentence on a cycle. */
export function sentenceOf(facts, at) {
  const cycle = facts.cycles[at];
  if (!facts.good) return "The chart has a slip: <b>Change</b> shows it. The machine stands as it was.";
  if (facts.told) return `The machine stops: ${escaped(facts.told.trim())}.`;
  if (!cycle) return facts.cards.length ? "The machine stands still." : "There is no card yet.";
  const deeds = cycle.told.filter((it) => !/^0+$/.test(it.came ?? "1"))
    .map((it) => `${escaped(titleOf(facts, it.unit))} ${escaped(DEEDS[it.kind](it))}`);
  const told = [...deeds.slice(0, 3), ...(deeds.length > 3 ? [`and ${deeds.length - 3} more`] : [])].join("; ");
  return leadOf(cycle) + (told && ` <span class="deeds">${told[0].toUpperCase()}${told.slice(1)}.</span>`);
}

export class Watch {
  /** `page` has the state, draws it, and finds the live wires of a cycle. */
  constructor(page) {
    Object.assign(this, { page, turn: 0, isPlaying: false });
  }

  get cycles() { return this.page.state.facts.cycles; }
  get speed() { return Number(this.page.find("speed").value) - 1; }

  setPlaying(isPlaying) {
    this.isPlaying = isPlaying;
    this.page.find("play").classList.toggle("playing", isPlaying);
    this.page.find("play").setAttribute("aria-label", isPlaying ? "Pause" : "Play");
  }

  /** Goes to a cycle; what moved before stops. */
  async go(to, isMoving) {
    const { page, cycles } = this;
    const turn = ++this.turn;
    const at = Math.max(0, Math.min(to, cycles.length - 1));
    const cycle = cycles[at];
    if (!cycle) return;
    page.picture.moveCard(0, 0);
    const shown = { at, ran: true, card: Math.max(1, cycle.card), page: cycle.printed?.page ?? page.state.page };
    page.show({ ...shown, live: null, point: null, isPrinting: isMoving });
    const live = await page.findLive(cycle);
    if (turn !== this.turn) return;
    page.state.live = live;
    if (isMoving && BEATS[this.speed] && !isCalm()) await this.points(cycle, turn);
    if (turn === this.turn) page.show({ live, point: null, isPrinting: false });
  }

  // The points of a cycle, one after the other: the rows of a card pass the brushes.
  async points({ kind }, turn) {
    const { picture, state, find } = this.page;
    const beat = BEATS[this.speed];
    const moves = kind === "Card";
    if (moves) picture.moveCard(CARD_HEIGHT + 8, 0);
    await rest(20);
    for (const point of POINTS) {
      if (turn !== this.turn) return;
      state.point = point;
      if (moves) picture.moveCard({ C: CARD_HEIGHT, K: 0 }[point] ?? holeY(Number(point)), beat);
      picture.light(state);
      const row = moves ? `row ${point} passes the brushes` : `moment ${point}`;
      find("point").textContent = { C: "the clock speaks", K: "carries and comparisons" }[point] ?? row;
      await rest(moves || state.live?.get(point) ? beat : beat / 4);
    }
    find("point").textContent = "";
  }

  // The next cycle in which anything is done.
  following(at, way) {
    let next = at + way;
    while (next > 0 && next < this.cycles.length && isQuiet(this.cycles[next])) next += way;
    return next;
  }

  async play() {
    if (this.isPlaying) return this.pause();
    this.setPlaying(true);
    const { cycles, page: { state } } = this;
    const isOver = this.following(state.at, 1) >= cycles.length;
    let next = this.following(state.ran && !isOver ? state.at : -1, 1);
    const goesOn = () => this.isPlaying && cycles === this.cycles && next < cycles.length;
    while (goesOn()) {
      await this.go(next, true);
      if (goesOn()) await rest(RESTS[this.speed]);
      if (state.at !== next) break;
      next = this.following(next, 1);
    }
    this.setPlaying(false);
  }

  pause() {
    this.turn++;
    this.setPlaying(false);
    this.page.find("point").textContent = "";
    this.page.picture.moveCard(0, 0);
    this.page.show({ point: null, isPrinting: false });
  }

  step(way) {
    this.setPlaying(false);
    const { at, ran } = this.page.state;
    const next = ran || way < 0 ? this.following(at, way) : 0;
    if (next < this.cycles.length) this.go(next, way > 0);
  }
}
