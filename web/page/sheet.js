// Refusals in the help sheet's words.
import { SHEET } from "./facts.js";
import { numberOf, itemOf } from "./desk.js";
import { el } from "./dom.js";

const plain = (text) => text.replace(/`/g, "");

// "refused 9 (field)": in a line of its own, or before more words.
export const inShort = (answer) => `refused ${numberOf(answer)} (${SHEET[numberOf(answer)].name})`;
export const inWords = (answer) => `${inShort(answer)}: ${plain(SHEET[numberOf(answer)].did)} ${plain(SHEET[numberOf(answer)].todo)}`;

// The same as elements: as planxdl prints it, what was done, what to do, and more that the page has to say.
export function told(answer, ...more) {
  const row = SHEET[numberOf(answer)], refused = el("b", {}, `refused ${numberOf(answer)} item ${itemOf(answer)}`);
  return [refused, ` (${row.name}) ${plain(row.did)} `, el("span", { className: "dim" }, plain(row.todo)), ...more];
}
