// Texts for drawings, and places in them.

const CODES = { "&": "&amp;", "<": "&lt;", ">": "&gt;", '"': "&quot;" };

/** A text as it stands in markup. */
export const escaped = (text) => String(text).replace(/[&<>"]/g, (letter) => CODES[letter]);

/** An element, as markup. What it says is markup too. */
export function tag(name, attributes, said = "") {
  return `<${name}${Object.entries(attributes).map(([key, value]) => ` ${key}="${value}"`).join("")}>${said}</${name}>`;
}

/** Parts of a drawing, by the names of their styles. */
export const rect = (name, x, y, width, height, rx = 0) => tag("rect", { class: name, x, y, width, height, rx });
export const path = (name, d) => tag("path", { class: name, d });
export const written = (name, x, y, said, more = {}) => tag("text", { class: name, x, y, ...more }, escaped(said));

/** Numbers from one to another. */
export const range = (from, to) => Array.from({ length: Math.max(0, to - from + 1) }, (_, at) => from + at);

/** The place of a click in the units of a drawing. */
export const placeIn = (drawing, { clientX, clientY }) =>
  new DOMPoint(clientX, clientY).matrixTransform(drawing.getScreenCTM().inverse());

/** Whether a drawing should keep still. */
export const isCalm = () => matchMedia("(prefers-reduced-motion: reduce)").matches;
