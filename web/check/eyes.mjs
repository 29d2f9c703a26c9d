// What all checks use: the browser and the folders, the count of checks, hands that work with the page, eyes that read it, and what the project's
// files say that it must show. It checks nothing by itself.
import { mkdtempSync, readFileSync, rmSync, writeFileSync } from "node:fs";
import { tmpdir } from "node:os";
import { join } from "node:path";
import { pathToFileURL } from "node:url";
import { Browser, sleep } from "./browser.mjs";

// ---- the browser and the folders. test.mjs opens them, once, before any check; `room` is a folder for what is needed only meanwhile.
export let b, top, page, url, shots, room;
export async function open(...paths) {
  [top, page, shots] = paths;
  url = pathToFileURL(page).href;
  b = await Browser.open();
  room = mkdtempSync(join(tmpdir(), "desk-test-"));
}

// With KEEP in the environment the room stays, to be looked at.
export async function close() {
  await b.close();
  if (process.env.KEEP) console.log(`kept: ${room}`);
  else rmSync(room, { recursive: true, force: true });
}

// ---- the count
export let tried = 0, failed = 0;
export function is(what, got, want) {
  tried++;
  if (JSON.stringify(got) === JSON.stringify(want)) return;
  failed++;
  console.log(`${what}:\n  got  ${JSON.stringify(got)}\n  want ${JSON.stringify(want)}`);
}
export const begins = async (what, id, want) => is(what, (await said(id)).slice(0, want.length), want);

// ---- hands
export const quoted = JSON.stringify;
export const click = (css) => b.run(`document.querySelector(${quoted(css)}).click()`);
export const focus = (css) => b.run(`document.querySelector(${quoted(css)}).focus()`);
export const set = (css, value) => b.run(`(() => {
  const e = document.querySelector(${quoted(css)});
  e.value = ${quoted(String(value))};
  for (const name of ["input", "change"]) e.dispatchEvent(new Event(name, { bubbles: true }));
})()`);
export const type = (letter) => b.key(letter, letter);
export const part = (name) => click(`#tab-${name}`);
export const chooseLine = (n) => b.run(`deskPage.views.lines.choose(${n})`);
// The field of an item of the plan, for `set` and `focus`.
export const cell = (item, field) => `[data-at="${item}:${field}"] > *`;

// Clicks on buttons that save, and gives the folder where the files are.
export async function saved(...buttons) {
  const folder = mkdtempSync(join(room, "saved-"));
  await b.send("Browser.setDownloadBehavior", { behavior: "allow", downloadPath: folder });
  for (const css of buttons) { await click(css); await sleep(500); }
  return folder;
}

// ---- eyes
export const said = (id) => b.run(`document.getElementById("${id}").textContent`);
// What a function says of each element; its text is run in the page.
export const each = (css, says) => b.run(`[...document.querySelectorAll(${quoted(css)})].map(${says})`);
export const textOf = (css) => each(css, (one) => one.textContent);
export const rows = (id) => each(`#${id} div`, (row) => [...row.children].map((byte) => byte.textContent).join(" "));
export const byteOf = (address) => b.run(`deskPage.bench.byte(${address})`);
export const board = (name) => b.run(`deskPage.bench.word[deskPage.names["BOARD_${name}"]]`);
// Settings of a line, by their names in the header.
export const words = (n, ...names) => b.run(`(() => {
  const H = deskPage.names, line = deskPage.bench.lines()[${n}].words;
  return ${quoted(names)}.map((name) => line[H["LINE_" + name]]);
})()`);
// The points of a canvas of the page, as red, green and blue in hex.
export const points = (id, places) => b.run(`(() => {
  const canvas = document.getElementById("${id}"), context = canvas.getContext("2d");
  const hex = ([red, green, blue, there]) => there ? [red, green, blue].map((part) => part.toString(16).padStart(2, "0")).join("") : "nothing";
  return ${quoted(places)}.map(([x, y]) => hex(context.getImageData(x, y, 1, 1).data));
})()`);
// Screenshots, where a folder for them was named: of the four parts into it, others into the room.
export const shot = async (name) => shots && b.shot(join(shots, `${name}.png`));
export const shotAside = async (name) => shots && b.shot(join(room, `${name}.png`));

// ---- files
export const text = (name) => readFileSync(join(top, name), "utf8");
export const example = (name) => join(top, "examples", name);
export const exampleBytes = (name) => readFileSync(example(name));
// Writes a file into the room and gives its path.
export function inRoom(name, content) {
  const path = join(room, name);
  writeFileSync(path, content);
  return path;
}

// ---- what is wanted
// What examples/README.md says that planxdl prints for an example: its list, a row a record.
export function listOf(name) {
  const at = text("examples/README.md").split(`## ${name}.plan`)[1];
  return at.match(/```\nXDL \d+\n([0-9A-F \n]*)```/)[1].trim().split("\n");
}

// A refusal in the words of docs/HELP.md.
export function inSheet(number, item) {
  const [row] = text("docs/HELP.md").match(new RegExp(`^\\| ${number} \\|.*$`, "m"));
  const [, , name, , did, todo] = row.split("|").map((column) => column.trim().replace(/`/g, ""));
  return `refused ${number} item ${item} (${name}) ${did} ${todo}`;
}

// A colour as planpic shows it, in the form of `points`.
export function inPalette(colour) {
  const parts = [(colour >> 5) * 255 / 7, ((colour >> 2) & 7) * 255 / 7, (colour & 3) * 85];
  return parts.map((part) => Math.floor(part).toString(16).padStart(2, "0")).join("");
}
