// A card: column c is drawn where hub c of the panel is.
import { columnX } from "./layout.js";
import { path, rect, tag, written } from "./svg.js";

const ROWS = [12, 11, 0, 1, 2, 3, 4, 5, 6, 7, 8, 9];
export const CARD_HEIGHT = 232;
export const holeY = (row) => 57 + 14.6 * ROWS.indexOf(row);

const PRINTED = "ABCDEFGHIJKLMNOPQRSTUVWXYZ0123456789&-/.$*,%#@";

/** A chart whose wires tell the rows of each character: it prints all of them. */
export const CODE_CHART = `CHART407 2\nPRINT DETAIL\nDETAIL 1 '${PRINTED}'\nFORM 12 1 9\nEND\n`;

/** The rows that are punched for each character, from the wires of that chart. `!` is on cards and not in charts. */
export function codeOf(wires) {
  const code = new Map([[" ", []], ["!", [11, 0]], ...[...PRINTED].map((it) => [it, []])]);
  for (const wire of wires) {
    const [row, wheel] = wire.match(/\d+(?=>|$)/g).map(Number);
    code.get(PRINTED[wheel - 1]).push(row);
  }
  return code;
}

/** The card with one hole more or less, or null if the holes of that column would be no character. */
export function punched(text, column, row, code) {
  const card = text.padEnd(column);
  const rows = code.get(card[column - 1]) ?? [];
  const wanted = rows.includes(row) ? rows.filter((it) => it !== row) : [...rows, row];
  const found = [...code].find(([, it]) => it.length === wanted.length && it.every((one) => wanted.includes(one)));
  return found ? (card.slice(0, column - 1) + found[0] + card.slice(column)).trimEnd() : null;
}

/** The column and row at a place of the drawing, or null; above the rows the column alone. */
export function holeAt({ x, y }) {
  const column = Math.round((x - columnX(1)) / 15) + 1;
  return column < 1 || column > 80 ? null : { column, row: ROWS[Math.round((y - holeY(12)) / 14.6)] ?? null };
}

// A name stands whole above its field, smaller if there is little room.
function fieldName({ name, from }, at, fields) {
  const room = 15 * ((fields[at + 1]?.from ?? 82) - from) - 4;
  const size = Math.max(7, Math.min(13, room / (0.66 * name.length)));
  const narrow = size === 7 ? { textLength: room, lengthAdjust: "spacingAndGlyphs" } : {};
  return written("name", columnX(from) - 6, 20, name, { style: `font-size:${size}px`, ...narrow });
}

/** The drawing of a card. `lit` tells whether a hole is lit, by column and row. A small one has no names and digits. */
export function cardMarkup({ text, number, count, fields, code, lit, cursor, small }) {
  const letters = [...text.slice(0, 80)];
  const holes = letters.flatMap((letter, at) => (code.get(letter) ?? []).map((row) => [at + 1, row]));
  const hole = ([column, row]) => `M${columnX(column) - 4} ${holeY(row) - 5.5}h8v11h-8z`;
  const drawn = (isLit) => holes.filter((it) => lit(...it) === isLit).map(hole).join("");
  const bands = fields.map(({ from, to }, at) =>
    rect(`band tone${at % 6}`, columnX(from) - 7.5, 42, 15 * (to - from + 1), CARD_HEIGHT - 48));
  const spaced = { textLength: 15 * 79 + 6, lengthAdjust: "spacing" };
  const digit = (row) => written("digits", columnX(1) - 3, holeY(row) + 4, String(row).repeat(80), spaced);
  return [
    path("sheet", `M10 3H1200L1246 44V${CARD_HEIGHT - 10}q0 7-7 7H10q-6 0-6-7V9q0-6 6-6Z`),
    ...bands, ...(small ? [] : [...fields.map(fieldName), ...ROWS.slice(2).map(digit)]),
    written("letters", letters.map((_, at) => columnX(at + 1)).join(" "), 37, letters.join("")),
    path("hole", drawn(false)), path("hole hot", drawn(true)),
    number ? written("number", 1188, 24, `card ${number}${count ? ` of ${count}` : ""}`) : "",
    cursor ? rect("cursor", columnX(cursor) - 7.5, 24, 15, CARD_HEIGHT - 32) : "",
  ].join("");
}
