// Checks the part "lines": what each line shows, beside the expected output of planlines, the record that a line is from, lists of one's own bytes, and
// the bench above the parts: addresses, XDL on and off, the length of memory.
import { b, begins, cell, chooseLine, click, each, example, focus, is, listOf, part, rows, said, set, text, textOf, words } from "./eyes.mjs";
import { LIST_BYTES } from "./on_plan.mjs";

export async function lines() {
  await part("lines");
  await set("#at", "$7FFF8");
  await examplesLineByLine();
  await recordInWords();
  await tableOfLines();
  await newInALine();
  await afterTheEnd();
  await workedList();
  await ownBytes();
  await ignoredBit();
  await frameOfAnotherList();
  await noHex();
  await refusedAddresses();
  await switchedOff();
  await asMemoryHasIt();
  await linesByKey();
  await shorterMemory();
  for (const [id, value] of [["#length", 524288], ["#from", "plan"], ["#at", "$7EB60"]]) await set(id, value);
}

// crates/planlines/stdout: what each line of the examples shows with the list at 7FFF8h, worked out by a second program.
const TOLD = [
  /line (\d+): (\w+) (\w+) step (\d+) scroll (\d+) (\d+) font (\w+) counter (\d+)/,
  /map (\w+) (\w+) step (\d+) scroll (\d+) (\d+) field (\d+)x(\d+) counter (\d+)/,
  /width (\d) palettes (\d) (\d) priority (\w+)/,
  /record (\w+)/,
  /item (\d+)/,
];
function expectedLines(name) {
  const section = text("crates/planlines/stdout").split(/^(?=\S+\.plan$)/m).find((each) => each.startsWith(`${name}.plan\n`));
  const told = new RegExp("^" + TOLD.map((part) => part.source).join("; "), "gm");
  return [...section.matchAll(told)].map((row) => row.slice(1));
}

// The same as the words of the settings, in the header's order.
const MODES = ["off", "text", "sr", "hr", "lr"];
function settingsOf([mode, address, step, hs, vs, font, counter, map, mapAddress, mapStep, mhs, mvs, fw, fh, fc, width, op, pp, priority, record]) {
  const sixteen = (digits) => parseInt(digits, 16);
  const overlay = [MODES.indexOf(mode.toLowerCase()), sixteen(address), +step, +hs, +vs, sixteen(font), +counter];
  const attributes = [map === "on" ? 1 : 0, sixteen(mapAddress), +mapStep, +mhs, +mvs, +fw, +fh, +fc];
  return [...overlay, ...attributes, +width, +op, +pp, sixteen(priority), sixteen(record)];
}

// The same as the page shows it: name and value by turns.
const NAMES = ["mode", "address", "step", "hscroll", "vscroll", "font", "text counter", "map on", "map address", "map step", "map hscroll", "map vscroll"];
NAMES.push("field width", "field height", "field counter", "width", "overlay palette", "playfield palette", "priority", "record");
function seenOf([mode, address, step, hs, vs, font, counter, map, mapAddress, mapStep, mhs, mvs, fw, fh, fc, width, op, pp, priority, record]) {
  const name = mode.length === 2 ? mode.toUpperCase() : mode, wide = ["narrow", "normal", "wide"][width];
  const overlay = [name, `$${address}`, step, hs, vs, `$${font}`, counter], attributes = [map, `$${mapAddress}`, mapStep, mhs, mvs, fw, fh, fc];
  return [...overlay, ...attributes, wide, op, pp, `$${priority}`, `$${record}`].flatMap((value, i) => [NAMES[i], value]);
}

async function examplesLineByLine() {
  let seen = 0;
  for (const name of ["text_screen", "picture_status", "scrolled_band", "mapped_screen"]) {
    await set("#examples", name);
    const want = expectedLines(name);
    is(`planlines has ${name}`, want.length > 5, true);
    for (const [n, ...told] of want) await lineAsTold(`${name}, line ${n}`, n, told);
    seen += want.length;
  }
  is("lines were compared", seen > 40, true);
}

async function lineAsTold(what, n, told) {
  const [record, item] = told.slice(-2);
  is(what, await b.run(`[...deskPage.bench.lines()[${n}].words]`), settingsOf(told));
  await chooseLine(n);
  const origin = (await said("recordsay")).replace(/, read.*\. It/, ": It");
  is(`${what}: its record`, origin, `The record at $${record}: It is item ${item} of the plan.`);
  is(`${what}, as it is seen`, await textOf("#settings dt, #settings dd"), seenOf(told));
}

// The record of the line that was chosen last, one of mapped_screen: a field of more bytes is one row.
async function recordInWords() {
  const fields = LIST_BYTES.filter((say) => !/byte [23] of/.test(say)).map((say) => say.replace(/, byte 1 of \d/, ""));
  is("the words of a record", await textOf("#recordwords li"), fields);
  is("its bytes", await rows("recordhex"), listOf("mapped_screen"));
}

async function tableOfLines() {
  await set("#examples", "text_screen");
  const table = await each("#records tbody tr", (row) => [...row.children].map((one) => one.textContent).join("|"));
  const want = ["0 to 19|off|||0 0|$00|off|normal|1 0|$7FFF8", "20 to 219|text|$02000|160|0 0|$02|off|normal|1 0|$0000E"];
  is("the table of lines", table.slice(0, 2), want);
}

async function newInALine() {
  await chooseLine(20);
  const marked = await each("#settings dd.new", (one) => one.previousSibling.textContent);
  is("what is new in a line", marked, ["mode", "address", "step", "font", "record"]);
}

async function afterTheEnd() {
  await set("#examples", "scrolled_band");
  await set(cell(2, "lines"), "60");
  await chooseLine(230);
  const ended = "The list has ended. The last record was the one at $00016, read for line 160. It is item 2 of the plan.";
  is("after the list's end", await said("recordsay"), ended);
}

// The list of document 01: SR at 1000h, 1140h, 1280h, then off, address 13C0h.
const WORKED = [[2, 0x1000], [2, 0x1140], [2, 0x1280], [0, 0x13c0]];
const firstLines = () => Promise.all([0, 1, 2, 3].map((n) => words(n, "MODE", "ADDRESS")));

async function workedList() {
  await set("#from", "own");
  is("the worked list", await firstLines(), WORKED);
  await set("#at", "$7FFFF");
  await set("#length", 16384);
  is("the worked list at the end of a short memory", await firstLines(), WORKED);
  is("its record", await words(3, "RECORD"), [0x7ffff]);
}

async function ownBytes() {
  await set("#own", "    dta $62,$80,$02 ; three lines\n 0x00 10h 00 4001");
  is("pasted as assembler", await firstLines(), WORKED);
  await set("#own", "62 80 DB 00 10 00 40 01");
  is("DB is a byte", await said("ownsay"), "8 bytes");
  await set("#own", Array(6000).fill("00").join(" "));
  await begins("a list that is too long", "benchsay", "install is refused 13 (room)");
}

async function ignoredBit() {
  await set("#own", "00 C0");
  await chooseLine(0);
  is("a bit that is ignored", await textOf("#recordwords li"), ["control byte 1: no bit", "control byte 2: bit 6 (ignored) END"]);
}

async function frameOfAnotherList() {
  await part("plan");
  const frame = [await said("planpicturesay"), await b.run(`document.getElementById("planpicture").classList.contains("stale")`)];
  is("the plan's picture is of another list", frame, ["The frame is of a list of your own bytes.", true]);
  await part("lines");
}

async function noHex() {
  await set("#own", "62 8 02");
  await begins("no hex", "ownsay", "'8' is no byte in hex.");
  await set("#own", "62 80 02 00 10 00 40 01");
}

async function refusedAddresses() {
  await set("#at", "524288");
  await begins("an address too high", "benchsay", "install is refused 14 (address): The address is above 524,287.");
  await set("#at", "here");
  await begins("no address", "benchsay", "'here' is no address");
  await set("#at", "0");
}

async function switchedOff() {
  await click("#on");
  const off = [...(await words(0, "MODE", "ADDRESS", "RECORD")), await said("recordsay")];
  is("not switched on", off, [0, 0, 524288, "No record was read: the list is not switched on."]);
  await click("#on");
}

async function asMemoryHasIt() {
  await set("#from", "memory");
  await begins("as memory has it", "benchsay", "XDL_ADR is $00000; nothing is installed.");
  is("memory still has the list", await firstLines(), WORKED);
}

async function linesByKey() {
  await focus("#strip");
  await b.key("End");
  is("the last line by key", await said("lineno"), "239");
  await b.key("ArrowUp");
  is("the line above by key", await said("lineno"), "238");
}

async function shorterMemory() {
  await set("#length", 524288);
  await set("#loadat", "$00100");
  await b.choose("load", example("text_screen.plan"));
  await set("#length", 32768);
  is("a shorter memory keeps its bytes", await b.run("[...deskPage.bench.memory.view.slice(0x100, 0x104)]"), [0x17, 0, 1, 0]);
}
