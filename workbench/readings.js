// What the module answers, as values: a function for the answer of each command. No chart and no deck is read here.

/** The moments of a cycle, in their order. */
export const POINTS = ["C", "9", "8", "7", "6", "5", "4", "3", "2", "1", "0", "11", "12", "K"];

const linesOf = (text) => text.split("\n").filter(Boolean);

/** The pages of a report, each as its lines: a form feed ends a page, a line feed a line. */
export function pagesOf(report) {
  const pages = report.split("\f");
  if (pages.length > 1 && !pages.at(-1)) pages.pop();
  return pages.map((page) => page.replace(/\n$/, "").split("\n"));
}

// The facts of a line of `trace`: how each is written, and what it says of the machine.
const FACTS = [
  [/^(\d\.\d) (\d+) ([+-])(\d+)(?: carry)? = (\d+)$/, (tell, group, _, sign, came, holds) =>
    tell(`group ${group}`, sign === "+" ? "adds" : "subtracts", holds, { came })],
  [/^(\d\.\d) read out (\d+), reset$/, (tell, group, held) =>
    tell(`group ${group}`, "reads", "0".repeat(held.length), { held })],
  [/^(\d\.\d) (\d+) turned: (\d+)$/, (tell, group, held, holds) =>
    tell(`group ${group}`, "turns", holds, { held, holds })],
  [/^storage (\d) \[([^\]]*)\]$/, (tell, unit, holds) => tell(`storage ${unit}`, "stores", holds, { holds })],
  [/^(\d\.\d) test: balance latch (set|reset)$/, (tell, group, latch, now) => {
    now.below[latch === "set" ? "add" : "delete"](`group ${group}`);
    now.told.push({ unit: `group ${group}`, kind: "tests", below: latch === "set" });
  }],
  [/^pilot (\d+) transferred$/, (tell, pilot, now) => now.moved.add(`pilot ${pilot}`)],
  [/^page (\d+) line (\d+) \[([^\]]*)\]$/, (tell, page, line, text, now) =>
    Object.assign(now, { printed: { page: Number(page), line: Number(line), text } })],
];
// Facts stand behind three spaces; spaces between brackets are those of a text.
const FACT = /\S(?:[^[ ]|\[[^\]]*\]| (?! {2}))*/g;

/** The cycles of a run, with what each did and what the machine holds behind it: the answer of `trace`. */
export function cyclesOf(text) {
  let before = { holds: new Map(), below: new Set(), card: 0 };
  return linesOf(text).map((line) => {
    const [, name, facts] = line.match(/^(RunIn|Head \d|Card \d+|Prog \d \d)(?: +(.*))?$/);
    const [kind, number, step] = name.split(" ");
    const now = { name, kind, number: Number(number), step, told: [], printed: null, moved: new Set() };
    const card = kind === "Card" ? now.number : before.card;
    Object.assign(now, { card, holds: new Map(before.holds), below: new Set(before.below) });
    const tell = (unit, deed, holds, told) => {
      now.holds.set(unit, holds);
      now.told.push({ unit, kind: deed, ...told });
    };
    for (const fact of facts?.match(FACT) ?? []) {
      const [form, say] = FACTS.find(([it]) => it.test(fact)) ?? [];
      if (form) say(tell, ...fact.match(form).slice(1), now);
    }
    before = now;
    return now;
  });
}

// The wires of lines of a wiring chart, as `EXIT>ENTRY`: carries are wires too.
function wiresIn(lines) {
  const wire = ([kind, from, to]) =>
    ({ WIRE: `${from}>${to}`, RING: `CO.${from}>CI.${from}`, COUPLE: `CO.8.${from}>CI.8.${to}` })[kind];
  return lines.map((line) => wire(line.split(" "))).filter(Boolean);
}

/** The panel: the answer of `wire` or of `upgrade`. */
export function panelOf(text) {
  const lines = linesOf(text);
  return { wires: wiresIn(lines), form: Number(lines[1].split(" ")[1]) };
}

/** The slips of a text or of cards: the answer of `check --all`. Columns count from 0; without a mark all is meant. */
export function slipsOf(text) {
  const parts = text.split(/^(?=line \d+ fault|fault \d+ card)/m).filter((it) => /^(line|fault) \d+ /.test(it));
  return parts.map((part) => {
    const [head, ...rest] = linesOf(part);
    const [, line, card, name = ""] = head.match(/^(?:line (\d+) fault \d+|fault \d+ card (\d+)) ?([A-Z]\w*)?/);
    // (a line of a chart is shown behind two spaces, a card at the margin; behind a card's mark its field is named)
    const at = rest.findIndex((it) => /^ *\^[\^ ]*\S*$/.test(it));
    const place = (column) => column - (line ? 2 : 0);
    const mark = at < 0 ? null : { from: place(rest[at].indexOf("^")), to: place(rest[at].lastIndexOf("^") + 1) };
    const words = rest.slice(at + 1).map((it) => it.trim());
    const [, write] = words.join(" ").match(/did you mean (\S+?)\?/) ?? [];
    const plain = name.replace(/\B[A-Z]/g, " $&").toLowerCase();
    return { line: Number(line ?? card), name: plain, mark, words, write: mark && write };
  });
}

/** The fields of a card: the answer of `fields`. */
export function fieldsOf(text) {
  const field = /^(\S+), columns? (\d+)(?: to (\d+))?(?:, .*?sign in column (\d+))?[^:]*:/gm;
  return [...text.matchAll(field)].map(([, name, from, to, sign]) =>
    ({ name, from: Number(from), to: Number(to ?? from), sign: Number(sign ?? 0) }));
}

/** What each line of the chart asks for, by its number: the answer of `legend`. */
export function legendOf(text) {
  return new Map(text.split(/^(?=line \d+: )/m).filter(Boolean).map((part) => {
    const [head, words, ...asked] = linesOf(part);
    const [, line, said] = head.match(/^line (\d+): (.*)$/);
    return [Number(line), { text: said, words, wires: wiresIn(asked) }];
  }));
}

/** What each line of the chart puts on the paper, by its number: the answer of `layout`. */
export function itemsOf(text) {
  let level = 0;
  return new Map(linesOf(text).flatMap((line) => {
    if (/^(HEAD \d|DETAIL|TOTAL \d)$/.test(line)) level = Number(line.match(/^TOTAL (\d)/)?.[1] ?? 0);
    const [, what, number] = line.match(/^wheels? [\d to]+: (?:total of )?(.*) \(line (\d+)\)$/) ?? [];
    return what ? [[Number(number), { level, what }]] : [];
  }));
}

/** For each line, as `PAGE,LINE`, the wires that carry an impulse at each point: the answer of `show`, a drawing. */
export function liveOf(page) {
  const circles = page.matchAll(/<circle cx="(\d+)" cy="(\d+)" r="5"><title>([^<]+)</g);
  const hubs = new Map([...circles].map(([, x, y, hub]) => [`${x} ${y}`, hub]));
  const wire = (drawn) => drawn.match(/^(\d+ \d+)C.*?(\d+ \d+)$/).slice(1).map((it) => hubs.get(it)).join(">");
  const steps = /<summary>point (\w+): [^<]*<\/summary>[^]*?0h0"\/><path d="M([^"]*)"/g;
  const sections = page.matchAll(/<section id="p(\d+)l(\d+)steps">([^]*?)<\/section>/g);
  return new Map([...sections].map(([, number, line, body]) => {
    const points = [...body.matchAll(steps)].map(([, point, drawn]) => [point, drawn.split("M").map(wire)]);
    return [`${number},${line}`, new Map(points)];
  }));
}

// The wires of a way such as `SR.1 -> IE.1.1 => IX.1.1 -> W.1`, in which `=>` is a contact.
function wiresOf(way) {
  const parts = way.split(/ (->|=>) /);
  return parts.flatMap((it, at) => (it === "->" ? [`${parts[at - 1]}>${parts[at + 1].split(/[ ,]/)[0]}`] : []));
}

const ENTRY = /^ {2}((?:Card|Prog) [^:]+): \d+ (?:[+-]\d+(?: carry)?|turned) = \d+ {3}(-?[\d.]+)(?: {3}(.*))?$/;

/** Why a wheel printed its character: the answer of `explain --whole`. Holes are `CARD.COLUMN.ROW`. */
export function reasonOf(text) {
  const reason = { text, ways: [], below: [], holes: new Set(), contacts: new Set(), sum: [], lines: new Set() };
  let [wires, ledgers, runs] = [reason.ways, 0, false];
  const hole = (row, column, card) => {
    reason.holes.add(`${card}.${column}.${row}`);
    if (runs) reason.differs ??= Number(column);
  };
  // how each line is written, and what it says
  const lines = [
    [/^page \d+ line \d+ wheel \d+ prints (.*)$/, (prints) => Object.assign(reason, { prints })],
    [/^cycle (\w+) (\d+)(?: \d (?:after card (\d+))?)?/, (kind, number, after) =>
      Object.assign(reason, { kind, number, after })],
    [/^(ledger|storage|Prog|pilot|balance|line) /, (kind) => {
      [wires, ledgers, runs] = [reason.below, ledgers + (kind === "ledger"), runs || kind === "Prog"];
    }],
    [ENTRY, (cycle, amount, from = "") => ledgers === 1 && reason.sum.push({ cycle, amount, from })],
    [/(?:^|: | by )([A-Z]+[.\d]* -> .*)$/, (way) => wires.push(...wiresOf(way))],
    [/row (\d+): .*\(column (\d+) of card (\d+)\)/, hole],
    [/^ {2}SR\.\d+: column (\d+) of card (\d+) has an? (\d+)$/, (column, card, row) => hole(row, column, card)],
    [/^ {2}[A-Z]+[.\d]* => [A-Z]+[.\d]*: (.*)$/, (contact) => reason.contacts.add(contact)],
    [/\(line (\d+) of the chart\)$/, (number) => reason.lines.add(Number(number))],
  ];
  for (const line of linesOf(text)) {
    for (const [form, say] of lines) if (form.test(line)) say(...line.match(form).slice(1));
  }
  return { ...reason, ways: [...new Set(reason.ways)] };
}
