// The hubs of the panel, by the table hubs.json: the unit and edge of each, its word on the picture, its plain name.

const KINDS = JSON.parse(document.getElementById("hubs").textContent);
const ORDER = Object.keys(KINDS);
export const LEVELS = ["", "minor", "intermediate", "major", "final"];

/** What is known of a hub by its name. A figure, a digit of a counter or a place of a storage unit, has no label. */
export function hubOf(name) {
  const [kind, ...numbers] = name.split(".");
  const parts = { L: LEVELS[numbers[0]], 1: numbers[0], 2: numbers[1], 3: numbers[2] };
  const filled = (text = "") => text.replace(/%([1-3L])/g, (_, part) => parts[part]);
  const { unit, edge, label, words } = KINDS[kind];
  return {
    name, kind, numbers: numbers.map(Number), unit: filled(unit), entry: edge === "entry",
    figure: label === undefined, label: filled(label), words: filled(words),
  };
}

/** The order of hubs on the edge of a box: as on the panel, but digits from the highest to the units. */
export function byPlace(a, b) {
  const apart = a.numbers.map((it, at) => it - b.numbers[at]).find(Boolean) ?? 0;
  if (a.unit === "compare" && a.entry && apart) return apart;
  return ORDER.indexOf(a.kind) - ORDER.indexOf(b.kind) || (a.kind === "GE" || a.kind === "GX" ? -apart : apart);
}

const PLAIN = {
  compare: "compare two cards", paper: "totals and paper", first: "first card of a group", split: "column split",
};

/** What a unit is called, if no line of the chart names it. */
export function plainTitle(unit) {
  const [kind, number] = unit.split(" ");
  if (kind === "group") return `counter ${number}`;
  if (kind !== "emitter") return PLAIN[kind] ?? unit;
  return `letters: ${number < 4 ? `heading ${number}` : number > 4 ? `${LEVELS[number - 4]} total` : "each card"}`;
}
