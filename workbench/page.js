// The page: its state, what is asked of the machine when it changes, and what the reader's hands do.
import { bytesOf, textOf, unpack } from "./module.js";
import { Machine, Stopped } from "./machine.js";
import { CODE_CHART, codeOf, holeAt, punched } from "./card.js";
import { panelOf, reasonOf, slipsOf } from "./readings.js";
import { cardsOf, factsOf, liveWires, nameUnits } from "./facts.js";
import { Picture } from "./picture.js";
import { Watch, firstSight, sentenceOf } from "./watch.js";
import { chosenWords, columnWords, reasonWords } from "./why.js";
import { Editor, slipsMarkup } from "./editor.js";
import { LONG_DECK, fileOf, save } from "./files.js";
import { escaped, placeIn, tag } from "./svg.js";

const NO_64_BITS = "This browser can't run the machine: it has no 64-bit memory for WebAssembly. " +
  "Chrome and Edge have it from version 133 on, Firefox from 134 on.";
// A module that has a table and a memory of 64 bits, and nothing else.
const WIDE = new Uint8Array([0, 97, 115, 109, 1, 0, 0, 0, 4, 4, 1, 112, 4, 0, 5, 3, 1, 4, 1]);
const OWN = { id: "", title: "Your own report", goal: "" };
const HINT = "Choose a printed letter, a hole of the card, a wire or a box, and the machine tells where it came from.";
const NOTHING = { wires: [], below: [], holes: new Set(), lines: new Set(), place: null };
// So long the keys rest, in thousandths of a second, before what isn't the report is asked for.
const PAUSE = 200;
const LANES = ["quick", "panel", "why", "slow"];

const find = (id) => document.getElementById(id);
const within = (value, most) => Math.max(1, Math.min(value, most));
const hasKey = (event) => event.ctrlKey || event.metaKey || event.altKey;

class Page {
  constructor(machines, menu, code) {
    Object.assign(this, { machines, menu, find, began: 0, ask: this.ask.bind(this) });
    this.state = {
      chart: "", deck: new Uint8Array(), name: "", id: "", mode: "watch", code, facts: undefined, at: 0, page: 1,
      card: 1, ran: false, chosen: null, holes: new Set(), live: null, point: null, cursor: 0, isPrinting: false,
    };
    this.picture = new Picture(find, (it) => this.choose(it));
    this.watch = new Watch(this);
    this.chart = new Editor(find("chartbox"), (chart) => this.refresh({ chart }));
    this.deck = new Editor(find("deckbox"), (text) => this.refresh({ deck: bytesOf(text.toUpperCase()) }));
  }

  /** Asks one of the machines; null if a newer request came, or if it broke down. */
  async ask(lane, words, texts, name) {
    try {
      return await this.machines[lane].ask(words, texts, name);
    } catch (error) {
      if (!(error instanceof Stopped)) this.say(`The machine broke down: ${error.message}. It has been started anew.`);
      return null;
    }
  }

  say(text) { find("status").textContent = text; }

  /** Asks for the facts of the changed texts, and draws them. `keep` leaves the picture where it was. */
  async refresh(texts, keep = true) {
    const state = Object.assign(this.state, texts);
    const before = state.facts;
    const began = ++this.began;
    const wait = setTimeout(() => { find("stop").hidden = false; }, 400);
    const facts = await factsOf(this.ask, state.chart, state.deck, before);
    clearTimeout(wait);
    if (began === this.began) find("stop").hidden = true;
    if (!facts || began !== this.began) return;
    this.say("");
    const at = keep ? Math.min(state.at, Math.max(0, facts.cycles.length - 1)) : firstSight(facts.cycles);
    const card = within(keep ? state.card : facts.cycles[at]?.card ?? 1, facts.cards.length);
    if (!keep || !facts.good) this.forget();
    Object.assign(state, { facts, at, card, page: within(state.page, facts.pages.length), ran: keep && state.ran });
    if (facts.live !== before?.live) state.live = null;
    this.show();
    this.showTexts();
    document.body.dataset.answered = Number(document.body.dataset.answered ?? 0) + 1;
    clearTimeout(this.pause);
    this.pause = setTimeout(() => this.later(facts), keep ? PAUSE : 0);
  }

  // What may come when the keys rest: the address, the reason again, names of units, live wires.
  async later(facts) {
    const { state } = this;
    this.remember();
    if (!facts.good) return;
    if (state.chosen?.place) this.choose({ place: state.chosen.place });
    await nameUnits(this.ask, facts);
    if (facts !== state.facts) return;
    this.show();
    const cycle = facts.cycles[state.at];
    const live = await this.findLive(cycle);
    if (facts === state.facts && cycle === facts.cycles[state.at] && !state.point) this.show({ live });
  }

  findLive(cycle) { return liveWires(this.ask, this.state.facts, cycle); }

  /** Draws the state, changed in these parts. Another cycle forgets what was chosen. */
  show(part = {}) {
    const { state } = this;
    if (part.at !== undefined) this.forget();
    Object.assign(state, part);
    const { facts, at, live, chosen } = state;
    const read = [...live ?? []].flatMap(([point, wires]) => wires.filter((it) => it.startsWith("SR."))
      .map((it) => `${facts.cycles[at]?.card}.${it.match(/\d+/)[0]}.${point}`));
    state.holes = chosen?.holes ?? new Set(read);
    this.picture.draw(state);
    const sentence = sentenceOf(facts, at);
    this.picture.once("now", sentence, () => { find("now").innerHTML = sentence; });
    find("bar").style.width = `${(100 * at) / Math.max(1, facts.cycles.length - 1)}%`;
    find("cut").hidden = !facts.cut;
  }

  // The texts with their slips. Those of the cards are asked for only if the run told of one.
  async showTexts() {
    const { facts, mode, chart, deck, chosen, name } = this.state;
    if (mode !== "change") return;
    const isLong = deck.length > LONG_DECK;
    this.chart.text = chart;
    this.deck.area.readOnly = isLong;
    if (isLong) this.deck.text = `(${facts.cards.length} cards of ${name})`;
    else if (this.deck.text.toUpperCase() !== textOf(deck)) this.deck.text = textOf(deck);
    this.chart.mark(facts.slips, [...chosen?.lines ?? []]);
    const good = `✓ The chart has no slip. The panel has ${facts.panel.wires.length} wires.`;
    find("slips").innerHTML = facts.good ? tag("p", { class: "good" }, good) : slipsMarkup(facts.slips, "Line");
    const texts = [bytesOf(chart), deck];
    const told = facts.told && !isLong && await this.ask("why", ["check", "--all"], texts, "cards");
    if (facts !== this.state.facts) return;
    facts.cardSlips = told ? slipsOf(textOf(told.out)) : [];
    this.deck.mark(facts.cardSlips);
    find("cardslips").innerHTML = slipsMarkup(facts.cardSlips, "Card");
  }

  forget() {
    this.state.chosen = null;
    find("why").innerHTML = tag("p", { class: "hint" }, HINT);
    find("close").hidden = true;
  }

  tell({ words, ...chosen }) {
    find("why").innerHTML = words;
    find("close").hidden = false;
    this.show({ chosen: { ...NOTHING, ...chosen } });
    if (this.state.mode === "change") this.chart.mark(this.state.facts.slips, [...this.state.chosen.lines]);
  }

  /** Tells what is known of a printed character, a hub, a wire or a unit; null forgets. */
  async choose(it) {
    const { state, state: { facts } } = this;
    if (this.watch.isPlaying) this.watch.pause();
    if (!it) {
      this.forget();
      return this.show();
    }
    if (!it.place) return this.tell(chosenWords(it, facts, facts.cycles[state.at]));
    const { page, line, wheel } = it.place;
    this.show({ chosen: { ...(state.chosen ?? NOTHING), place: it.place } });
    const words = ["explain", "--whole", page, line, wheel].map(String);
    const told = await this.ask("why", words, [bytesOf(facts.text), facts.deck], "explain");
    if (!told || facts !== state.facts) return;
    if (told.status) return this.tell({ words: tag("p", {}, told.told) });
    const reason = reasonOf(textOf(told.out));
    const at = facts.cycles.findIndex(({ printed }) => printed?.page === page && printed.line === line);
    if (at >= 0) Object.assign(state, { at, live: null });
    const [card] = [...reason.holes, `${facts.cycles[state.at]?.card ?? 1}`].map((hole) => Number(hole.split(".")[0]));
    state.card = within(card, facts.cards.length);
    this.tell({ ...reason, words: reasonWords(reason, facts, it.place), wires: reason.ways, place: it.place });
  }

  setMode(mode) {
    document.body.dataset.mode = mode;
    for (const it of document.querySelectorAll("[data-tab]")) it.ariaSelected = it.dataset.tab === mode;
    find("change").hidden = mode !== "change";
    find("deckview").hidden = mode !== "watch";
    this.show({ mode, cursor: 0 });
    this.showTexts();
  }

  /** Takes an item of the menu, or texts of the reader's own. */
  take({ id, title, goal, chart, deck, name = "" }) {
    this.watch.turn++;
    this.watch.setPlaying(false);
    const bytes = typeof deck === "string" ? bytesOf(deck) : deck;
    find("title").textContent = title;
    find("goal").textContent = goal;
    find("menu").value = id;
    const texts = { id, name, chart, deck: bytes };
    return this.refresh({ ...texts, page: 1, cursor: 0, point: null, isPrinting: false }, false);
  }

  async open(list) {
    const files = await Promise.all([...list].map(fileOf));
    const text = files.findLast((it) => it.isChart);
    const chart = text ? textOf(text.bytes) : this.state.chart;
    const { bytes, name } = files.findLast((it) => !it.isChart) ?? { bytes: this.state.deck, name: this.state.name };
    return this.take({ ...OWN, goal: files.map((it) => it.name).join(", "), chart, deck: bytes, name });
  }

  // Puts the state into the address: the name of an item of the menu, or else the texts themselves.
  remember() {
    const { id, chart, deck } = this.state;
    if (deck.length > LONG_DECK) return;
    const texts = { chart, deck: textOf(deck) };
    const item = this.menu.find((it) => it.id === id && it.chart === chart && it.deck === texts.deck);
    history.replaceState(null, "", `#${item ? id : new URLSearchParams(texts)}`);
  }

  recall() {
    const address = location.hash.slice(1);
    const { chart, deck } = Object.fromEntries(new URLSearchParams(address));
    const item = this.menu.find((it) => it.id === address) ?? this.menu[0];
    return this.take(chart && deck ? { ...OWN, chart, deck } : item);
  }

  // The text of the card that is shown, as it was changed last: keys may come faster than facts.
  get shownCard() { return cardsOf(this.state.deck)[this.state.card - 1] ?? ""; }
  set shownCard(text) {
    const cards = cardsOf(this.state.deck).with(this.state.card - 1, text);
    this.refresh({ deck: bytesOf(`${cards.join("\n")}\n`) });
  }

  // A click on the card: in Watch a column is chosen, in Change a hole is punched, or the cursor is put there.
  clickCard(event) {
    const { facts, card, mode, code } = this.state;
    const { column, row } = holeAt(placeIn(find("card"), event)) ?? {};
    if (!column || !facts.cards.length) return;
    const text = this.shownCard;
    if (mode === "watch") {
      const rows = code.get(text[column - 1]) ?? [];
      const holes = new Set(rows.map((it) => `${card}.${column}.${it}`));
      this.tell({ ...columnWords(facts, card, column), holes });
      return;
    }
    this.show({ cursor: column });
    const next = row === null ? text : punched(text, column, row, code);
    if (next === null) this.say(`These holes of column ${column} together would be no character.`);
    else if (next !== text) this.shownCard = next;
  }

  // A key on the card punches the column of the cursor.
  keyCard(event) {
    const { cursor: column, mode, code, facts } = this.state;
    const isBack = event.key === "Backspace";
    const letter = isBack ? " " : event.key.toUpperCase();
    const step = { ArrowLeft: -1, ArrowRight: 1, Backspace: -1 }[event.key] ?? Number(code.has(letter));
    if (mode !== "change" || !step || hasKey(event) || !facts.cards.length) return;
    event.preventDefault();
    event.stopPropagation();
    const cursor = within((column || 1) + step, 80);
    this.show({ cursor });
    if (!code.has(letter)) return;
    const place = isBack ? cursor : column || 1;
    const text = this.shownCard.padEnd(place);
    this.shownCard = (text.slice(0, place - 1) + letter + text.slice(place)).trimEnd();
  }

  // A click on something that the words name.
  follow(event) {
    const { line, hub } = event.target.closest("[data-line], [data-hub]")?.dataset ?? {};
    if (!line && !hub) return;
    event.preventDefault();
    if (hub) this.choose({ hub });
    else this.setMode("change");
    if (line) this.chart.goTo(Number(line));
  }

  key(event) {
    const { watch } = this;
    const keys = {
      ArrowRight: () => watch.step(1), ArrowLeft: () => watch.step(-1), Home: () => watch.go(0),
      " ": () => watch.play(), Escape: () => this.choose(null),
    };
    const taken = event.key === " " ? "textarea, input, select, button, summary, a" : "textarea, input, select";
    if (!keys[event.key] || hasKey(event) || document.activeElement.matches(taken)) return;
    event.preventDefault();
    keys[event.key]();
  }

  stop() {
    LANES.forEach((lane) => this.machines[lane].stop());
    find("stop").hidden = true;
    this.say("Stopped.");
  }

  listen() {
    const { state, watch } = this;
    const report = () => state.facts.pages.map((it) => `${it.join("\n")}\n`);
    const toCard = () => this.show({ card: within(this.deck.line, state.facts.cards.length) });
    const turnLeaf = (by) => () => {
      this.forget();
      this.show({ page: within(state.page + by, state.facts.pages.length) });
    };
    const readCard = (event) => {
      const { card } = event.target.closest("button")?.dataset ?? {};
      if (card) watch.go(state.facts.cycles.findIndex((it) => it.name === `Card ${card}`));
    };
    // by element, kind of event, and what is done
    const acts = [
      ["play", "click", () => watch.play()], ["first", "click", () => watch.go(0)],
      ["step", "click", () => watch.step(1)], ["back", "click", () => watch.step(-1)],
      ["stop", "click", () => this.stop()], ["close", "click", () => this.choose(null)],
      ["why", "click", (event) => this.follow(event)], ["cards", "click", readCard],
      ["card", "click", (event) => this.clickCard(event)], ["card", "keydown", (event) => this.keyCard(event)],
      ["slips", "click", (event) => this.chart.follow(event, state.facts.slips)],
      ["cardslips", "click", (event) => this.deck.follow(event, state.facts.cardSlips)],
      ["deck", "click", toCard], ["deck", "keyup", toCard],
      ["leaf-back", "click", turnLeaf(-1)], ["leaf-on", "click", turnLeaf(1)],
      ["menu", "change", ({ target }) => this.take(this.menu.find((it) => it.id === target.value))],
      ["open", "click", () => find("file").click()], ["print", "click", () => print()],
      ["more", "click", ({ target }) => target.matches("button") && find("more").removeAttribute("open")],
      ["file", "change", ({ target }) => target.files.length && this.open(target.files)],
      ["save-chart", "click", () => save("my.chart", state.chart)],
      ["save-deck", "click", () => save("my.deck", state.deck)],
      ["save-report", "click", () => save("report.txt", report().join("\f"))],
    ];
    for (const [id, kind, act] of acts) find(id).addEventListener(kind, act);
    const toMode = ({ target }) => this.setMode(target.dataset.tab);
    for (const it of document.querySelectorAll("[data-tab]")) it.addEventListener("click", toMode);
    const sheets = () => report().map((it) => tag("pre", {}, escaped(it))).join("");
    const still = (act) => (event) => { event.preventDefault(); act(event); };
    addEventListener("beforeprint", () => { find("printed").innerHTML = sheets(); });
    addEventListener("keydown", (event) => this.key(event));
    addEventListener("hashchange", () => this.recall());
    addEventListener("dragover", still(() => {}));
    addEventListener("drop", still(({ dataTransfer: { files } }) => files.length && this.open(files)));
    addEventListener("resize", () => { this.picture.measure(); this.show(); });
  }
}

async function begin() {
  if (!WebAssembly.validate(WIDE)) {
    find("now").textContent = NO_64_BITS;
    return;
  }
  const source = URL.createObjectURL(new Blob([find("worker").textContent], { type: "text/javascript" }));
  const module = await unpack(find("module").textContent);
  const machines = Object.fromEntries(LANES.map((lane) => [lane, new Machine(module, source)]));
  const { out } = await machines.quick.ask(["wire"], [bytesOf(CODE_CHART)]);
  const code = codeOf(panelOf(textOf(out)).wires);
  const page = new Page(machines, JSON.parse(find("examples").textContent), code);
  globalThis.vezgulda = {
    /** The words of a command line without its files, and the files' bytes in their order. */
    call: (words, texts) => machines.quick.ask(words, texts),
    stop: () => page.stop(),
  };
  await page.recall();
  page.listen();
  document.body.dataset.ready = performance.now();
}

begin();
