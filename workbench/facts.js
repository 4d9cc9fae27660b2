// What the module says of a chart, or of a panel wired by hand, and a deck. All that is drawn is drawn from this.
import { bytesOf, textOf } from "./module.js";
import { cyclesOf, fieldsOf, itemsOf, legendOf, liveOf, pagesOf, panelOf, slipsOf } from "./readings.js";
import { LEVELS } from "./hubs.js";

/** So many cards are run in the picture at most. The report is always that of all. */
export const PICTURED = 1000;

// What is shown before there is a panel.
const NO_FACTS = {
  panel: { wires: [], form: 12 }, pages: [[]], cycles: [], fields: [], titles: new Map(), legend: new Map(), plan: null,
};

// The first cards of a deck that has more than these, or null.
function firstCards(deck, count) {
  let at = 0;
  for (let card = 0; card < count; card++) {
    at = deck.indexOf(10, at) + 1;
    if (!at) return null;
  }
  return at < deck.length ? deck.subarray(0, at) : null;
}

/** The cards of a deck, as texts. */
export const cardsOf = (deck) => (deck.length ? textOf(deck).replace(/\r?\n$/, "").split(/\r?\n/) : []);

/**
 * The facts of a text and a deck. `ask` gives a lane's answer, or null if a newer request came: then they are null.
 * While the text has a slip, the machine stands as it was: all but the slips is from `before`.
 */
export async function factsOf(ask, text, deck, before = NO_FACTS) {
  const own = bytesOf(text);
  const cut = firstCards(deck, PICTURED + 2);
  const asks = (lane) => (words, texts) => ask(lane, words, texts, words[0]);
  const [quick, beside] = [asks("quick"), asks("panel")];
  const [listed, ran, wired, traced, told] = await Promise.all([
    quick(["check", "--all"], [own]), quick(["run"], [own, deck]),
    beside(["wire"], [own]), beside(["trace"], [own, cut ?? deck]), beside(["fields", "1"], [own, deck]),
  ]);
  if (!listed || !ran || !wired || !traced || !told) return null;
  const base = { text, deck, cards: cardsOf(deck), told: "" };
  if (listed.status) return { ...before, ...base, slips: slipsOf(textOf(listed.out)), good: false };
  let [panel, report, names, plan] = [wired, ran, told, own];
  if (wired.status) {
    const replayed = [beside(["upgrade"], [own]), quick(["replay"], [own, deck]), planOf(beside, own)];
    [panel, report, plan] = await Promise.all(replayed);
    names = plan && await beside(["fields", "1"], [plan, deck]);
    if (!panel || !report) return null;
  }
  const cycles = traced.status ? [] : cyclesOf(textOf(traced.out));
  // The machine sees one card ahead: what it does before the last but one of these cards doesn't hang on those behind.
  const end = cut ? cycles.findIndex((it) => it.name === `Card ${PICTURED + 2}`) : cycles.length;
  const setup = textOf(panel.out);
  // The same panel with the same deck does the same again.
  const isSame = before.setup === setup && before.deck === deck;
  return {
    ...base, plan, cut: Boolean(cut), slips: [], good: true, told: report.status ? report.told : "",
    cycles: cycles.slice(0, end), setup, panel: panelOf(setup), pages: pagesOf(textOf(report.out)),
    fields: names && !names.status ? fieldsOf(textOf(names.out)) : before.fields,
    titles: before.titles, legend: new Map(), live: isSame ? before.live : new Map(),
  };
}

// The planning chart that a panel is wired for, if there is one.
async function planOf(ask, wiring) {
  const read = await ask(["chart"], [wiring]);
  const same = read && !read.status && await ask(["match"], [read.out, wiring]);
  return same && !same.status ? read.out : null;
}

/** Adds what the lines of the chart ask for, and what they call the units. */
export async function nameUnits(ask, facts) {
  if (!facts.plan) return;
  const asked = await Promise.all(["legend", "layout"].map((name) => ask("why", [name], [facts.plan], name)));
  if (!asked.every(Boolean)) return;
  const [legend, layout] = asked.map((it) => textOf(it.out));
  Object.assign(facts, { legend: legendOf(legend), titles: new Map() });
  const items = itemsOf(layout);
  for (const [line, { wires }] of facts.legend) {
    const { what, level } = items.get(line) ?? {};
    const total = `${what} ${LEVELS[level]} total`;
    for (const [, kind, unit] of what ? wires.map((it) => it.match(/>(RO|SE)\.(\d(?:\.\d)?)/) ?? []) : []) {
      if (kind === "SE") facts.titles.set(`storage ${unit[0]}`, `keeps ${what}`);
      if (kind !== "RO" || facts.titles.has(`group ${unit}`)) continue;
      // (of two counters that hold one long total, the one with the higher number has the upper half)
      facts.titles.set(`group ${unit}`, [...facts.titles.values()].includes(total) ? `${total}, upper half` : total);
    }
  }
}

/** The wires that carry an impulse in a cycle, by its points; null if no answer tells them. */
export async function liveWires(ask, facts, cycle) {
  if (!cycle?.printed || !facts.good) return null;
  const { page, line } = cycle.printed;
  if (!facts.live.has(page)) {
    const shown = await ask("slow", ["show", "--page", String(page)], [bytesOf(facts.text), facts.deck], "show");
    if (!shown || shown.status) return null;
    facts.live.set(page, liveOf(textOf(shown.out)));
  }
  return facts.live.get(page).get(`${page},${line}`) ?? null;
}
