// The texts of chart and deck, with line numbers, slips underlined, and cures.
import { escaped, tag } from "./svg.js";

const MOST_SLIPS = 8;
const LINE_HEIGHT = 1.45;

/** A text area with the numbers of its lines, and marks under what is wrong. */
export class Editor {
  constructor(box, change) {
    this.area = box.querySelector("textarea");
    [this.numbers, this.marks] = box.querySelectorAll("pre");
    this.area.addEventListener("input", () => change(this.area.value));
    this.area.addEventListener("scroll", () => this.scroll());
  }

  get text() { return this.area.value; }
  set text(text) { if (this.area.value !== text) this.area.value = text; }

  /** The number of the line in which the cursor is. */
  get line() { return this.text.slice(0, this.area.selectionStart).split("\n").length; }

  /** Underlines the slips, and marks lines that are asked for. */
  mark(slips, lines = []) {
    const texts = this.text.split("\n");
    this.numbers.textContent = texts.map((_, at) => at + 1).join("\n");
    this.marks.innerHTML = texts.map((text, at) => {
      const marks = slips.filter((it) => it.line === at + 1).map((it) => it.mark ?? { from: 0, to: text.length });
      const shown = text.padEnd(Math.max(1, ...marks.map((it) => it.to)));
      const isWrong = (place) => marks.some(({ from, to }) => place >= from && place < to);
      const letters = [...shown].map(escaped);
      const drawn = letters.map((letter, place) => (isWrong(place) ? tag("u", {}, letter) : letter)).join("");
      return lines.includes(at + 1) ? tag("mark", {}, drawn) : drawn;
    }).join("\n") + "\n";
    this.scroll();
  }

  scroll() {
    const { scrollTop, scrollLeft } = this.area;
    Object.assign(this.marks, { scrollTop, scrollLeft });
    this.numbers.scrollTop = scrollTop;
  }

  /** Selects a line, or a part of it. */
  goTo(line, mark) {
    const texts = this.text.split("\n");
    const begin = texts.slice(0, line - 1).reduce((all, it) => all + it.length + 1, 0);
    this.area.focus();
    this.area.setSelectionRange(begin + (mark?.from ?? 0), begin + (mark?.to ?? texts[line - 1]?.length ?? 0));
    this.area.scrollTop = Math.max(0, (line - 4) * LINE_HEIGHT * parseFloat(getComputedStyle(this.area).fontSize));
  }

  /** Does what a button of the list of slips says: writes the cure as if it were typed, or shows the place. */
  follow(event, slips) {
    const { cure, go, line } = event.target.closest("button")?.dataset ?? {};
    const slip = slips?.[cure ?? go];
    if (slip) this.goTo(slip.line, slip.mark);
    else if (line) this.goTo(Number(line));
    if (!cure) return;
    this.area.setRangeText(slip.write, this.area.selectionStart, this.area.selectionEnd, "end");
    this.area.dispatchEvent(new Event("input"));
  }
}

/** The slips as a list: what is wrong, what helps, and buttons that go there or write the cure. */
export function slipsMarkup(slips, what) {
  const button = (words, said) => tag("button", { type: "button", ...words }, said);
  const shown = slips.slice(0, MOST_SLIPS).map(({ line, name, words: [cause, ...cures], write }, at) => {
    const named = [...`${cause} ${cures}`.matchAll(/\bline (\d+)/g)].map((it) => Number(it[1]));
    const others = [...new Set(named)].filter((it) => it !== line);
    return [
      `<b>${what} ${line}${name && `: ${name}`}</b><br>`, escaped(cause ?? ""), tag("i", {}, escaped(cures.join(" "))),
      button({ "data-go": at }, `Show ${what.toLowerCase()} ${line}`),
      ...others.map((it) => button({ "data-line": it }, `Show line ${it}`)),
      write ? button({ "data-cure": at }, `Write ${escaped(write)}`) : "",
    ].join("");
  });
  if (slips.length > MOST_SLIPS) shown.push(`and ${slips.length - MOST_SLIPS} more`);
  return tag("ul", { class: "slips" }, shown.map((it) => tag("li", { class: "slip" }, it)).join(""));
}
