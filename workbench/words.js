// The words of a command line, without its files, as a call of the module. The files' bytes come beside them.
import { bytesOf } from "./module.js";

// The options that have a word behind them. `--deck` and `--orders` have a file, which is among the texts.
const VALUES = ["--page", "--with"];

// What the words say, apart from the name of the command: its options and its numbers.
function read(words) {
  const has = new Map();
  const numbers = [];
  for (let place = 1; place < words.length; place++) {
    const [name, value] = words[place].split(/=(.*)/s);
    if (!name.startsWith("--")) numbers.push(words[place]);
    else has.set(name, VALUES.includes(name) ? value ?? words[++place] : true);
  }
  return { has: (name) => has.get(name), numbers };
}

// The pages that a word names, as two numbers.
function pagesOf(word) {
  const [first, last = first] = word.split("-");
  return [BigInt(first), BigInt(last)];
}

// The values of a place on the paper.
const placeOf = ([page, line, wheel]) => [BigInt(page), Number(line), Number(wheel)];

// Each command: from its options, its numbers and its texts to the export and its values.
const COMMANDS = {
  run: ({ has }, [chart, deck]) => {
    if (has("--page")) return ["page_run_pages", chart, deck, ...pagesOf(has("--page"))];
    return [has("--check-first") ? "page_run_whole" : "page_run", chart, deck];
  },
  check: ({ has }, [chart, deck]) => {
    if (!deck) return [has("--all") ? "page_list_faults" : "page_check", chart];
    if (has("--groups")) return ["page_group_deck", chart, deck];
    return [has("--all") ? "page_show_deck" : "page_check_deck", chart, deck];
  },
  layout: (_, [chart]) => ["page_layout", chart],
  fields: ({ numbers }, [chart, deck]) => ["page_fields", chart, deck, Number(numbers[0] ?? "1")],
  wire: (_, [chart]) => ["page_wire", chart],
  replay: ({ has }, [first, second, third]) =>
    has("--orders") ? ["page_replay_by_orders", second, first, third] : ["page_replay", first, second],
  upgrade: (_, [wiring]) => ["page_upgrade", wiring],
  chart: (_, [wiring]) => ["page_chart", wiring],
  match: ({ has }, [first, second, third]) =>
    has("--deck") ? ["page_match_deck", second, third, first] : ["page_match", first, second, Boolean(has("--hint"))],
  legend: (_, [chart]) => ["page_legend", chart],
  explain: ({ has, numbers }, texts) => ["page_explain", ...texts, ...placeOf(numbers), Boolean(has("--whole"))],
  ledger: ({ has, numbers }, texts) => ["page_ledger", ...texts, ...placeOf(numbers), Boolean(has("--all"))],
  trace: (_, texts) => ["page_trace", ...texts],
  show: ({ has }, texts) => ["page_show", ...texts, Number(has("--page") ?? "0")],
  fold: ({ has }, [text]) => ["page_fold", text, bytesOf(has("--with") ?? " ")],
  fault: ({ numbers }) => ["page_fault", Number(numbers[0])],
};

/** The export that a command is, and the values that it takes. */
export function callOf(words, texts) {
  const command = COMMANDS[words[0]];
  if (!command) throw new Error(`no command is called ${words[0]}`);
  const [name, ...values] = command(read(words), texts);
  return { name, values: values.map((value) => value ?? new Uint8Array()) };
}
