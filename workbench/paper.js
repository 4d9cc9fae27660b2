// The green-bar paper: the wheels of the panel stand over the places where they print.
import { WIDTH, wheelX } from "./layout.js";
import { path, placeIn, range, rect, written } from "./svg.js";

const LINE = 26;
const TOP = 6;
const lineY = (line) => TOP + (line - 1) * LINE;
const isBlank = (text, wheel) => (text[wheel - 1] ?? " ") === " ";

// The drawing of a page, `count` lines high.
function paperMarkup({ lines, wheels, now, has, chosen }, count) {
  const pitch = 1200 / wheels;
  const bars = range(0, (count - 4) / 6).map((at) => 6 * at + 4)
    .map((line) => rect("bar", 0, lineY(line), WIDTH, LINE * Math.min(3, count - line + 1)));
  const sprockets = range(1, count).flatMap((line) => [10, WIDTH - 10].map((x) => `M${x} ${lineY(line + 0.5)}h0`));
  const marks = now && !chosen ? [rect("now", 22, lineY(now), WIDTH - 44, LINE)] : [];
  if (chosen) {
    const [x, y] = [wheelX(chosen.wheel, wheels), lineY(chosen.line)];
    marks.push(path("fall", `M${x} 0V${y}`), rect("chosen", x - pitch / 2 - 1, y + 1, pitch + 2, LINE - 2));
  }
  const style = { style: `font-size:${Math.min(25, pitch * 1.55)}px` };
  const printed = lines.map((text, at) => {
    const kind = `printed${has(at + 1) ? "" : " later"}${now === at + 1 ? " fresh" : ""}`;
    const places = [...text].map((_, wheel) => wheelX(wheel + 1, wheels)).join(" ");
    return text.trim() && written(kind, places, lineY(at + 1) + 19, text, style);
  });
  const leaf = rect("leaf", 0, 0, WIDTH, lineY(count + 1) + TOP);
  return [leaf, ...bars, path("sprockets", sprockets.join("")), ...marks, ...printed].join("");
}

export class Paper {
  /** `choose` is told page, line and wheel of the character that is chosen, or null. */
  constructor(sheet, drawing, choose) {
    Object.assign(this, { sheet, drawing, choose });
    sheet.addEventListener("click", (event) => this.click(event));
    sheet.addEventListener("keydown", (event) => this.key(event));
  }

  /**
   * Draws a page, and scrolls to the line that is chosen or just printed. `now` is the line just printed, `has` tells
   * whether a line is printed yet, `chosen` is a place, `form` the lines of a form.
   */
  draw(shown, isSmooth) {
    Object.assign(this, shown);
    const { form, lines, now, chosen } = shown;
    const count = Math.max(form, lines.length);
    this.drawing.setAttribute("viewBox", `0 0 ${WIDTH} ${lineY(count + 1) + TOP}`);
    this.drawing.innerHTML = paperMarkup(shown, count);
    // (sizes are read behind all changes, just before the paint)
    requestAnimationFrame(() => {
      const { clientWidth, clientHeight, scrollTop } = this.sheet;
      const y = (lineY(chosen?.line ?? now) * clientWidth) / WIDTH;
      if (y >= scrollTop && y <= scrollTop + clientHeight - 30) return;
      this.sheet.scrollTo({ top: y - clientHeight / 2, behavior: isSmooth ? "smooth" : "auto" });
    });
  }

  // The printed character nearest to a wheel of a line.
  near(line, wheel, most) {
    const text = this.lines[line - 1] ?? "";
    const found = range(0, most).flatMap((away) => [wheel - away, wheel + away]).find((it) => !isBlank(text, it));
    return found ? { page: this.page, line, wheel: found } : null;
  }

  click(event) {
    const { x, y } = placeIn(this.drawing, event);
    this.choose(this.near(Math.floor((y - TOP) / LINE) + 1, Math.round(((x - 25) * this.wheels) / 1200 + 0.5), 2));
  }

  // The arrows go to the next printed character.
  key(event) {
    const { line, wheel } = this.chosen ?? { line: this.now || 1, wheel: 0 };
    const ways = { ArrowLeft: [-1, 0], ArrowRight: [1, 0], ArrowUp: [0, -1], ArrowDown: [0, 1] };
    const [right, down] = ways[event.key] ?? [];
    if (right === undefined) return;
    event.preventDefault();
    event.stopPropagation();
    const steps = range(1, right ? 120 : this.lines.length);
    const near = (step) => this.near(line + step * down, wheel + step * right, right ? 0 : 120);
    const found = steps.map(near).find(Boolean);
    if (found) this.choose(found);
  }
}
