// Checks the part "plan": the table of items and the keys in it, the bytes of the plan and of its list, what is said of each of them, the refusals in
// the words of the help sheet, and the files that are saved and opened.
import { readdirSync, readFileSync } from "node:fs";
import { join } from "node:path";
import { b, begins, board, cell, click, each, example, exampleBytes, focus, inRoom, inSheet, is } from "./eyes.mjs";
import { listOf, rows, said, saved, set, shotAside, textOf } from "./eyes.mjs";

export async function plan() {
  is("nothing to undo yet", await b.run(`document.getElementById("undo").disabled`), true);
  await examplesAsPrinted();
  await refusedField();
  await memoryOfARefusedPlan();
  await refusedAndNotTaken();
  await numbersOfAField();
  await tooManyLines();
  await itemsByKey();
  await itemsMovedAndRemoved();
  await newItems();
  await byteByKey();
}

// The list of each example is what planxdl prints for it, and its plan is the file.
async function examplesAsPrinted() {
  const names = readdirSync(example("")).filter((file) => file.endsWith(".plan")).map((file) => file.slice(0, -5));
  for (const name of names) {
    await set("#examples", name);
    is(`the list of ${name}`, await rows("listhex"), listOf(name));
    const shown = (await rows("planhex")).join(" ").toLowerCase().replace(/ /g, "");
    is(`the bytes of ${name}`, shown, exampleBytes(`${name}.plan`).toString("hex"));
  }
}

const markedFields = () => each("#items [aria-invalid=true]", (input) => input.closest("td").dataset.at);
const HSCROLL_8 = "Here: hscroll is 8, its range is 0 to 7.";

async function refusedField() {
  await set("#examples", "scrolled_band");
  await set(cell(1, "hscroll"), "8");
  is("hscroll 8", await said("verdict"), `${inSheet(9, 1)} ${HSCROLL_8}`);
  is("the item is marked", await each("#items tbody tr", (row) => row.classList.contains("faulty")), [false, true, false]);
  is("the field is marked", await markedFields(), ["1:hscroll"]);
}

async function memoryOfARefusedPlan() {
  is("memory keeps its list", await said("benchsay"), "The plan is refused: memory and XDL_ADR stay.");
  const frame = [await said("planpicturesay"), await b.run(`document.getElementById("planpicture").className`)];
  is("the frame is not the plan's", frame, ["The frame is of the last list that was installed.", "frame small stale"]);
  await set("#at", "$20000");
  is("XDL_ADR stays", await board("XDL_ADR"), 0x7eb60);
  await set("#at", "$7EB60");
  await click("[data-do=savelist]");
  is("no list to save", await said("status"), "there is no list: the plan is refused");
}

async function refusedAndNotTaken() {
  await set(cell(1, "vscroll"), "zz");
  const notTaken = "not taken item 1, vscroll: 'zz' is no number of one byte. The last one that was counts.";
  is("a refusal, and a field that is no number", await said("verdict"), `${notTaken} ${inSheet(9, 1)} ${HSCROLL_8}`);
  is("both are marked", await markedFields(), ["1:hscroll", "1:vscroll"]);
  await set(cell(1, "vscroll"), "0");
  await shotAside("refused");
}

async function numbersOfAField() {
  await set(cell(1, "hscroll"), "$100");
  await begins("no byte", "verdict", "not taken item 1, hscroll: '$100' is no number of one byte");
  await set(cell(1, "hscroll"), "7h");
  await begins("7h", "verdict", "XDL 38 240 of 240 lines.");
}

async function tooManyLines() {
  await set(cell(2, "lines"), "81");
  is("241 lines", await said("verdict"), inSheet(11, 2));
  await click("[data-do=undo]");
  await begins("undone", "verdict", "XDL 38 240 of 240 lines.");
}

async function itemsByKey() {
  await focus(cell(0, "lines"));
  await b.key("ArrowDown");
  await b.key("ArrowDown");
  is("the range of the field is said", await said("byte"), "item 2, lines, 1 to 240");
  is("down twice", await b.run("document.activeElement.closest('td').dataset.at"), "2:lines");
}

async function itemsMovedAndRemoved() {
  await click("[data-do=up]");
  is("moved up", await textOf("#items tbody .number:first-child"), ["0", "1 ↳", "2 ↳"]);
  await set(cell(0, "lines"), "80");
  await b.run("deskPage.views.plan.choose(0)");
  await click("[data-do=remove]");
  is("a running-on item first", await said("verdict"), inSheet(10, 0));
  await click("[data-do=remove]");
  await click("[data-do=remove]");
  is("no item", await said("verdict"), inSheet(6, 0));
}

async function newItems() {
  await click("[data-do=full]");
  const before = ["F4 8F 07 00 00 00 00 00 00 00 00 00 00 00 00 00 00 00 07 07 11 FF"];
  is("a new band is as a line before any record", await rows("listhex"), before);
  await click("[data-do=running]");
  await click("[data-do=copy]");
  is("three items", (await rows("listhex")).slice(1), ["A0 09 07 00 00 00 11 FF", "A0 89 07 00 00 00 11 FF"]);
}

async function byteByKey() {
  await focus("#listhex");
  for (let i = 0; i < 3; i++) await b.key("ArrowRight");
  is("the third byte", await said("byte"), "item 0 · $07 = 7 · RPTL, repeat: 7");
  is("its field is marked", await fieldsHit(), ["0:lines"]);
}

const fieldsHit = () => each("#items td.hit", (td) => td.dataset.at);

// Every byte of mapped_screen, its plan and its list, said in words: by R34, R41 and the example's own page.
const inBytes = (many, say) => Array.from({ length: many }, (_, i) => `${say}, byte ${i + 1} of ${many}`);
const PLAN_BYTES = [
  ...inBytes(2, "length of the body: 23"), ...inBytes(2, "kind 1: a full band"), "lines: 240", "mode: HR",
  ...inBytes(3, "overlay address: 131072, $020000"), ...inBytes(2, "overlay step: 320, $0140"), "hscroll: 0", "vscroll: 0", "font: 0",
  "map: on", ...inBytes(3, "map address: 32768, $008000"), ...inBytes(2, "map step: 160, $00A0"), "map hscroll: 0", "map vscroll: 0",
  "field width: 8", "field height: 8", "width: normal", "palettes: 1", "priority: 255",
];
export const LIST_BYTES = [
  "control byte 1: GMON MAPON RPTL OVADR OVSCRL", "control byte 2: CHBASE MAPADR MAPPAR OVATT HR END", "RPTL, repeat: 239",
  ...inBytes(3, "OVADR, overlay address: $020000"), ...inBytes(2, "OVADR, overlay step: $0140"), "OVSCRL, hscroll: 0", "OVSCRL, vscroll: 0",
  "CHBASE, font: 0", ...inBytes(3, "MAPADR, map address: $008000"), ...inBytes(2, "MAPADR, map step: $00A0"),
  "MAPPAR, map hscroll: 0", "MAPPAR, map vscroll: 0", "MAPPAR, field width - 1: 7", "MAPPAR, field height - 1: 7",
  "OVATT, width and palettes: 17 (width 1, overlay palette 1, playfield palette 0)", "OVATT, priority: 255",
];

export async function bytes() {
  await set("#examples", "mapped_screen");
  for (const [id, want] of [["planhex", PLAN_BYTES], ["listhex", LIST_BYTES]]) is(`the bytes of ${id}`, await saidOfBytes(id, want.length), want);
  await b.key("Home");
  is("a control byte is of mode and map", (await fieldsHit()).sort(), ["0:map", "0:mode"]);
  is("palettes are in OVATT's first byte", await listByteHitBy(25), 20);
}

// What is said of each byte on the way from the first one with the arrow key.
async function saidOfBytes(id, many) {
  const got = [];
  await focus(`#${id}`);
  await b.key("Home");
  for (let i = 0; i < many; i++) { got.push((await said("byte")).split(" · ")[2]); await b.key("ArrowRight"); }
  return got;
}

// Which byte of the list is marked first when one of the plan is pointed at.
const listByteHitBy = (n) => b.run(`(() => {
  deskPage.views.plan.point(document.querySelectorAll("#planhex span")[${n}]);
  return [...document.querySelectorAll("#listhex span")].findIndex((other) => other.classList.contains("hit"));
})()`);

export async function files() {
  await savedFiles();
  await copiedAsAssembler();
  await openedPlan();
  await cutPlan();
  await plansWithFaults();
  await longPlan();
}

async function savedFiles() {
  await set("#examples", "text_screen");
  const folder = await saved("[data-do=saveplan]", "[data-do=savelist]"), hex = (name) => readFileSync(join(folder, name)).toString("hex");
  is("saved plan", hex("screen.plan"), exampleBytes("text_screen.plan").toString("hex"));
  is("saved list", hex("screen.xdl").toUpperCase(), listOf("text_screen").join("").replace(/ /g, ""));
}

// From here on the page copies to `copied`, not to the clipboard.
async function copiedAsAssembler() {
  await b.run("navigator.clipboard.writeText = async (text) => { globalThis.copied = text; }");
  await click("[data-do=assembler]");
  const asAssembler = (row) => `    dta ${row.split(" ").map((byte) => "$" + byte).join(",")}\n`;
  is("assembler", await b.run("copied"), listOf("text_screen").map(asAssembler).join(""));
}

async function openedPlan() {
  await b.choose("open", example("picture_status.plan"));
  is("opened", await rows("listhex"), listOf("picture_status"));
}

async function cutPlan() {
  await b.choose("open", inRoom("cut.plan", exampleBytes("picture_status.plan").subarray(0, 30)));
  await begins("a cut plan", "verdict", "cut.plan is not opened: it is no row of items. refused 5 item 1 (plan cut)");
  is("the table stays", await rows("listhex"), listOf("picture_status"));
}

// A field out of its range is opened, and marked; where a kind behind it is wrong too, nothing is opened.
async function plansWithFaults() {
  const wrong = exampleBytes("picture_status.plan");
  wrong[4 + 7] = 8;
  await b.choose("open", inRoom("field.plan", wrong));
  await begins("a plan with a wrong field", "verdict", "refused 9 item 0 (field)");
  wrong[27 + 2] = 3;
  await b.choose("open", inRoom("two.plan", wrong));
  await begins("a plan with two faults", "verdict", "two.plan is not opened: it is no row of items. refused 9 item 0 (field)");
  await click("[data-do=undo]");
  is("undone to the plan before", await rows("listhex"), listOf("picture_status"));
}

async function longPlan() {
  const screens = Array.from({ length: 400 }, () => exampleBytes("mapped_screen.plan"));
  await b.choose("open", inRoom("long.plan", Buffer.concat(screens)));
  const refused = "long.plan is not opened: it has 10,800 bytes, and no plan has more than 8,192. refused 11 item 1 (lines)";
  await begins("a long plan", "verdict", refused);
}
