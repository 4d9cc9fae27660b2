// Files that are opened, dropped and saved.

/** A deck of more bytes than this is kept as a file, and not in the text area or in the address. */
export const LONG_DECK = 100_000;

/** What a file is, by the end of its name, or else by the word that its text begins with. */
export async function fileOf(file) {
  const [, end] = file.name.toLowerCase().match(/\.(chart|wiring|deck)$/) ?? [];
  const begins = (await file.slice(0, 80).text()).trimStart();
  const isChart = end ? end !== "deck" : begins.startsWith("CHART407") || begins.startsWith("WIRING407");
  return { name: file.name, bytes: new Uint8Array(await file.arrayBuffer()), isChart };
}

/** Lets the reader save a text. */
export function save(name, content) {
  const href = URL.createObjectURL(new Blob([content], { type: "text/plain" }));
  Object.assign(document.createElement("a"), { href, download: name }).click();
  setTimeout(() => URL.revokeObjectURL(href), 5000);
}
