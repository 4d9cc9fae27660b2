// Plain words for what is chosen: a printed character, a column of a card, a hub, a wire, a unit. They say what the
// answers of the module say.
import { LEVELS, hubOf, plainTitle } from "./hubs.js";
import { escaped, tag } from "./svg.js";

const MOST_ENTRIES = 8;
const MOST_LINES = 6;

const listed = (words) => (words.length > 1 ? `${words.slice(0, -1).join(", ")} and ${words.at(-1)}` : words.join(""));
const several = (count, word) => (count === 1 ? `a ${word}` : `${count || "no"} ${word}s`);
const lineLink = (line) => tag("a", { href: "#", "data-line": line }, `line ${line} of the chart`);
const paragraphs = (said) => said.filter(Boolean).map((it) => tag("p", {}, it)).join("");
const head = (letter, place) => `<span class="big">${escaped(letter)}</span><p class="place">${place}</p>`;

/** What a unit is called. */
export const titleOf = (facts, unit) => facts.titles.get(unit) ?? plainTitle(unit);

const fieldAt = (facts, column) => {
  const name = facts.fields.find(({ from, to, sign }) => (column >= from && column <= to) || sign === column)?.name;
  return name && `<b>${escaped(name)}</b>`;
};

function sumWords(entries) {
  const rows = entries.slice(0, MOST_ENTRIES).map(({ cycle, amount, from }, at) => {
    const [, level, card] = cycle.match(/^Prog (\d) \d after card (\d+)/) ?? [];
    const of = level ? `the ${LEVELS[level]} total after card ${card}` : from;
    const sign = amount.startsWith("-") ? "−" : at ? "+" : "";
    return `${sign} <b>${amount.replace("-", "")}</b> <small>${escaped(of)}</small>`;
  });
  if (entries.length > MOST_ENTRIES) rows.push(`and ${entries.length - MOST_ENTRIES} more`);
  return rows.length ? tag("ul", { class: "sum" }, rows.map((it) => tag("li", {}, it)).join("")) : "";
}

// Where the impulse of a character came from: the exit that its way begins at.
function sourceWords({ ways, holes, number, sum }, facts, wheel) {
  if (!ways.length) return "No impulse came to this wheel.";
  const { kind, unit, words, numbers: [column] } = hubOf(ways[0].split(">")[0]);
  const own = [...holes].filter((it) => it.startsWith(`${number}.${column}.`)).length;
  const name = fieldAt(facts, column);
  const place = `${several(own, "hole")} in column ${column}${name ? `, in the field ${name}` : ""}`;
  const each = own > 1 ? "Each" : "The";
  return {
    SR: `It was punched on card ${number}: ${place}. ${each} hole sends an impulse to wheel ${wheel}.`,
    GX: `It comes out of the counter <b>${escaped(titleOf(facts, unit))}</b>${sum.length ? ", which adds up:" : "."}`,
    SX: `It was kept in ${unit}: while totals are printed no card is read, so the machine must remember.`,
    EM: `It is on no card. An emitter of the machine sends it (${plainTitle(unit)}).`,
  }[kind] ?? `It came from ${words}.`;
}

// Why the line of a total was printed.
function totalWords({ kind, number, after, differs }, facts) {
  if (kind !== "Prog") return "";
  if (number === "4") return "The line was printed because the last card had been read.";
  const other = differs && (fieldAt(facts, differs) ?? `column ${differs}`);
  return differs ? `The line was printed because the next card has another ${other} than card ${after}.` : "";
}

// The machine's words, in which hubs and lines can be chosen.
const linked = (text) => escaped(text)
  .replace(/\b[A-Z]{1,3}(?:\.\d+)+\b|\bCC\b/g, (hub) => tag("a", { href: "#", "data-hub": hub }, hub))
  .replace(/line (\d+) of the chart/g, (_, line) => lineLink(line));

/** The words on a chosen character. */
export function reasonWords(reason, facts, { line, wheel }) {
  const lines = [...reason.lines].map(lineLink);
  const isSum = reason.ways[0]?.startsWith("GX");
  return [
    head(reason.prints === "blank" ? "␣" : reason.prints, `line ${line}, wheel ${wheel}`),
    paragraphs([sourceWords(reason, facts, wheel)]), isSum ? sumWords(reason.sum) : "",
    paragraphs([
      reason.contacts.size && `Its way leads through a contact: ${escaped(listed([...reason.contacts]))}.`,
      totalWords(reason, facts),
      lines.length && `${lines.length > 1 ? "Its wires are" : "Its wire is"} asked for by ${listed(lines)}.`,
    ]),
    tag("details", {}, `<summary>Wire by wire</summary>${tag("pre", {}, linked(reason.text))}`),
  ].join("");
}

// Which lines of the chart ask for wires.
function askedFor(facts, wires) {
  const asking = [...facts.legend].filter(([, it]) => it.wires.some((wire) => wires.includes(wire)));
  return paragraphs(asking.slice(0, MOST_LINES).map(([line, { text, words }]) =>
    `${lineLink(line)}: <code>${escaped(text)}</code><br><small>${escaped(words)}</small>`));
}

/** The words on a wire, a hub or a unit, and the wires that belong to it. */
export function chosenWords({ wire, hub, unit }, facts, cycle) {
  const own = (is) => facts.panel.wires.filter((it) => is(it.split(">")));
  const told = (wires, ...said) => ({ wires, words: paragraphs(said) + askedFor(facts, wires) });
  if (wire) {
    const [from, to] = wire.split(">").map((it) => hubOf(it).words);
    return told([wire], `A wire from <b>${from}</b> to <b>${to}</b>.`);
  }
  if (hub) {
    const wires = own((ends) => ends.includes(hub));
    return told(wires, `<b>${hubOf(hub).words}</b> <small>${hub}</small>: ${several(wires.length, "wire")}.`);
  }
  const held = cycle?.holds.get(unit);
  const pilot = unit.startsWith("pilot") && `It is ${cycle?.moved.has(unit) ? "moved" : "at rest"} in this cycle.`;
  const gave = cycle?.told.find((it) => it.unit === unit && it.kind === "reads")?.held;
  const holds = held !== undefined && `${gave ? `In this cycle it gives <code>${gave}</code>. ` : ""}
    Behind this cycle it holds <code>${escaped(held)}</code>.`;
  const wires = own((ends) => ends.some((end) => hubOf(end).unit === unit));
  return told(wires, `<b>${escaped(titleOf(facts, unit))}</b> <small>${plainTitle(unit)}</small>`, pilot, holds);
}

/** The words on a column of a card. */
export function columnWords(facts, number, column) {
  const wires = facts.panel.wires.filter((it) => it.startsWith(`SR.${column}>`));
  const letter = facts.cards[number - 1]?.[column - 1] ?? " ";
  const name = fieldAt(facts, column);
  const to = listed(wires.map((it) => hubOf(it.split(">")[1]).words));
  const leads = to ? `A wire leads from this column to ${to}.` : "No wire leads from this column: it isn't looked at.";
  const words = head(letter === " " ? "␣" : letter, `card ${number}, column ${column}`) +
    paragraphs([name && `It belongs to the field ${name}.`, leads]) + askedFor(facts, wires);
  return { wires, words };
}
