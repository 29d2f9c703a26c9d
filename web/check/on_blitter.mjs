// Checks the part "blitter": blocks of one's own, step by step and at once, the registers, every scene with its ticks and what it shows, the picture of
// memory with its outlines, and playing.
import { sleep } from "./browser.mjs";
import { b, begins, board, byteOf, click, each, focus, inPalette, is, part, points, quoted, said, set, shot, textOf, type, words } from "./eyes.mjs";

export async function blitter() {
  await part("blitter");
  await b.run("document.activeElement.blur()");
  await ownBlocks();
  await scenes();
  await whatScenesShow();
  await pictureOfMemory();
  await sceneBeginsAnew();
  await startAndStopByRegister();
  await playing();
}

// ---- hands and eyes of this part
const state = (name) => b.run(`(() => {
  const cell = [...document.querySelectorAll("#state div")].find((each) => each.firstChild.textContent === ${quoted(name)});
  return cell.querySelector("b").textContent;
})()`);
const states = (...names) => Promise.all(names.map(state));
const blockField = (legend, name, value) => b.run(`(() => {
  const sets = [...document.querySelectorAll("#blocks fieldset")];
  const set = sets.find((each) => each.querySelector("legend").textContent === ${quoted(legend)});
  const label = [...set.querySelectorAll("label")].find((each) => each.firstChild.textContent === ${quoted(name)});
  const input = label.querySelector("input, select");
  input.value = ${quoted(String(value))};
  input.dispatchEvent(new Event("input"));
})()`);
const writeRegister = () => b.run("document.getElementById('registers').requestSubmit()");
const pixel = (line, n) => b.run(`deskPage.bench.lines()[${line}].pixels[${n}]`);
async function runScene(name) {
  await set("#scenes", name);
  await click("[data-do=run]");
}
// Memory of the scenes from C400h on, 320 bytes a row: 48 rows of sprites, and below them the screen.
const inMemory = (x, y) => 0xc400 + y * 320 + x;
const SPRITE_ROWS = 48;

// ---- blocks of one's own
async function ownBlocks() {
  await copyAndFill();
  await stepByStep();
  await noHeight();
  await stopped();
  await registers();
  await moreBlocks();
}

// Document 01: a copy of 4 bytes in mode 0 is 5 ticks and 29 accesses; as a fill 25.
async function copyAndFill() {
  await blockField("size", "width", 4);
  await blockField("size", "height", 1);
  await type("u");
  is("a copy of 4 bytes", await states("ticks", "accesses", "FLAGS", "IRQF"), ["5", "29", "0 IDLE", "1"]);
  await blockField("what is done", "AND mask", 0);
  await type("u");
  is("a fill of 4 bytes", await states("ticks", "accesses"), ["5", "25"]);
}

async function stepByStep() {
  for (const key of ["s", "t", "t"]) await type(key);
  is("start and two ticks", await states("FLAGS", "ROW", "COLUMN", "ticks"), ["2 BUSY", "0", "1", "2"]);
  await type("r");
  is("the rest of the row", await states("FLAGS", "ticks"), ["0 IDLE", "5"]);
}

async function noHeight() {
  await blockField("size", "height", "0");
  is("no height", await textOf("#blocks .bad"), ["height: '0' is no number from 1 to 256. The last good one counts."]);
  is("a block in the form is not yet in memory", await b.run("deskPage.views.blitter.field && deskPage.bench.byte(0x7e000 + 15)"), 0);
}

async function stopped() {
  await type("s");
  await type("t");
  await click("[data-do=stop]");
  is("a stop raises no interrupt", await states("FLAGS", "IRQF"), ["0 IDLE", "0"]);
}

async function registers() {
  await set("#register", 0x55);
  await set("#value", "$100");
  await writeRegister();
  await begins("no byte for a register", "log", "'$100' is no byte");
  await set("#value", "$2A");
  await writeRegister();
  await click("[data-do=reset]");
  is("RESET clears VIDEO_CONTROL", await state("VIDEO_CONTROL"), "$00");
  await click("#on");
  await click("#on");
  const versions = (await said("reads")).startsWith("reads: CORE_VERSION $10, MINOR_REVISION $24");
  is("a register", [await board("P0"), versions], [0x2a, true]);
}

async function moreBlocks() {
  await click("#blocks .choices button[aria-label='Add a block']");
  is("two blocks, the first with NEXT", await b.run("deskPage.views.blitter.blocks.map((bytes) => bytes[20] & 8)"), [8, 0]);
  await click("#blocks .choices button:last-child");
  is("blocks as assembler", await b.run("copied"), await blocksAsAssembler());
  await click("#blocks .choices button[aria-label='Remove the block']");
  is("one block", await b.run("deskPage.views.blitter.blocks.length"), 1);
}

const blocksAsAssembler = () => b.run(`(() => {
  const hex = (byte) => "$" + byte.toString(16).toUpperCase().padStart(2, "0");
  return deskPage.views.blitter.blocks.map((bytes) => "    dta " + [...bytes].map(hex).join(",")).join("\\n") + "\\n";
})()`);

// ---- the scenes
// Ticks of each scene: one for the load of each block, and W·ZX·H·ZY for its bytes. The code, and how many bytes of memory differ, where the
// scene is about it.
const SCENES = [
  ["a ball over the hills", 1 + 32 * 32],
  ["collisions go by ranges", 4 + 2 * 60 * 60 + 2 * 32 * 32, { code: 0x20 }],
  ["a block rewrites the next one", 2 + 1 + 100 * 60],
  ["zoom does not zoom the step", 1 + 96 * 96],
  ["a row begins from the row's beginning", 1 + 90 * 50],
  ["zoomed 5 by 4", 1 + 160 * 128],
  ["mirrored, and upside down", 2 + 2 * 32 * 32],
  ["a pattern of 16", 1 + 240 * 80],
  ["nibbles", 1 + 128 * 64],
  ["a pointer drawn twice", 2 + 2 * 200 * 120, { changed: "0" }],
  ["a smear", 1 + 180 * 90],
  ["the display list is memory too", 2, { changed: "1" }],
  ["a text row runs on", 1 + 80],
];

async function scenes() {
  const offered = (await each("#scenes option", (option) => option.value)).filter(Boolean);
  is("the scenes", offered, SCENES.map(([name]) => name));
  for (const [name, ticks, about = {}] of SCENES) await sceneRuns(name, ticks, about);
}

async function sceneRuns(name, ticks, { code, changed }) {
  await set("#scenes", name);
  is(`${name}: is explained`, (await said("scenesay")).length > 40, true);
  await click("[data-do=run]");
  is(`${name}: ticks`, await states("FLAGS", "ticks"), ["0 IDLE", ticks.toLocaleString("en")]);
  if (code !== undefined) is(`${name}: code`, [await board("CODE"), await state("CODE")], [code, `$${code.toString(16)}`]);
  if (changed !== undefined) is(`${name}: bytes changed`, await state("bytes changed"), changed);
}

// ---- what a scene shows
async function whatScenesShow() {
  await blockRewritten();
  await rowsLean();
  await everySecondByte();
  await listRewritten();
  await textRowRunsOn();
}

async function blockRewritten() {
  await runScene("a block rewrites the next one");
  is("the second block fills with green, as the first one wrote it", await pixel(100, 160), 256 + 32 + 4 * 6);
}

async function rowsLean() {
  await runScene("a row begins from the row's beginning");
  const white = 256 + 0xff;
  const leaning = [await pixel(60, 40), await pixel(61, 43), (await pixel(61, 42)) !== white, await pixel(109, 40 + 49 * 3)];
  is("each row begins three points further", leaning, [white, white, true, white]);
}

async function everySecondByte() {
  await set("#scenes", "zoom does not zoom the step");
  const column = 60 + 2 * 48, before = await pixel(105, column + 1);
  await click("[data-do=run]");
  const source = await byteOf(inMemory(8 + 16, 8 + 15));
  is("every second byte is written", [await pixel(105, column + 1), (await pixel(105, column)) === 256 + source], [before, true]);
}

async function listRewritten() {
  await runScene("the display list is memory too");
  is("the frame's step is another", await words(0, "STEP"), [321]);
}

async function textRowRunsOn() {
  await set("#scenes", "a text row runs on");
  const counters = await Promise.all([100, 101, 102, 103, 104, 107, 108, 115].map(async (n) => (await words(n, "TEXT_COUNTER"))[0]));
  is("the row's counter goes on", counters, [0, 1, 2, 3, 4, 7, 0, 7]);
}

// ---- the picture of memory and its outlines
async function pictureOfMemory() {
  await ballHalfDrawn();
  await shot("blitter");
  const zoom = await b.run("deskPage.views.blitter.vram.zoom");
  await bytesAsPoints();
  await ballOutlined(zoom);
  await byteByKey();
  await rowTooLong();
  await frameShowsTheBall();
  await patternOutlined(zoom);
}

// The ball has 32 by 32 bytes. Its first one is at 8, 8 and goes to 150, 96 of the screen.
const BALL = [8, 8], TO = [150, SPRITE_ROWS + 96];

async function ballHalfDrawn() {
  await set("#scenes", "a ball over the hills");
  await type("s");
  for (let i = 0; i < 14; i++) await type("r");
  is("a load and 14 rows", await states("ticks", "ROW"), [String(1 + 14 * 32), "14"]);
  await sleep(100);
}

async function bytesAsPoints() {
  const want = [inPalette(await byteOf(inMemory(24, 24))), inPalette(await byteOf(inMemory(160, 200))), inPalette(0)];
  is("the picture of memory", await points("vram", [[24, 24], [160, 200], [3, 3]]), want);
}

// An outline is drawn around the bytes, `zoom` points a byte; there is another one around the byte that is next.
const SOURCE = "35d0e8", DESTINATION = "ffb454"; // in the dark theme
async function ballOutlined(zoom) {
  const first = ([x, y]) => [x * zoom - 1, y * zoom - 1], last = ([x, y]) => [(x + 32) * zoom, (y + 32) * zoom];
  const next = ([x, y]) => [x * zoom - 3, (y + 14) * zoom + 1], beside = [BALL[0] + 60, BALL[1]];
  is("outlines at the first byte", await points("marks", [first(BALL), first(TO), first(beside)]), [SOURCE, DESTINATION, "nothing"]);
  is("outlines at the last byte", await points("marks", [last(BALL), last(TO)]), [SOURCE, DESTINATION]);
  is("the next byte", await points("marks", [next(BALL), next(TO)]), [SOURCE, DESTINATION]);
}

async function byteByKey() {
  await focus("#vram");
  await b.run("deskPage.views.blitter.vram.point(23, 23)");
  await b.key("ArrowRight");
  await b.key("ArrowDown");
  const hex = (value, digits) => "$" + value.toString(16).toUpperCase().padStart(digits, "0");
  const inBall = inMemory(24, 24), value = await byteOf(inBall);
  is("a byte of memory by key", [await said("pointed"), value > 0], [`${hex(inBall, 5)} = ${hex(value, 2)}`, true]);
  await b.run("document.activeElement.blur()");
}

async function rowTooLong() {
  await set("#viewrow", "2000");
  is("a row that is too long", await said("viewsay"), "bytes a row are 16 to 1024: seen with 320.");
  await set("#viewrow", "320");
}

async function frameShowsTheBall() {
  const painted = await pixel(96 + 8, 150 + 16), source = await byteOf(inMemory(BALL[0] + 16, BALL[1] + 8));
  is("what the blitter paints is what the frame shows", painted, 256 + source);
}

async function patternOutlined(zoom) {
  await set("#scenes", "a pattern of 16");
  await blockField("size", "width", 241);
  const places = [[48 * zoom - 1, 12 * zoom], [64 * zoom, 12 * zoom], [80 * zoom, 12 * zoom]];
  is("the outline of a pattern is as wide as the pattern", await points("marks", places), [SOURCE, SOURCE, "nothing"]);
}

// ---- a scene anew, START and STOP by the register, playing
async function sceneBeginsAnew() {
  await set("#at", "here");
  await set("#scenes", "a block rewrites the next one");
  const anew = [await board("XDL_ADR"), await b.run(`document.getElementById("at").value`), await state("bytes changed")];
  is("a scene begins anew", anew, [0x7eb60, "$7EB60", "0"]);
}

async function startAndStopByRegister() {
  await set("#register", 0x53);
  await set("#value", "1");
  await type("u");
  await writeRegister();
  is("START by a register begins a new count", await state("ticks"), "0");
  await set("#speed", 0);
  await type("p");
  await sleep(100);
  await set("#value", "0");
  await writeRegister();
  await sleep(200);
  is("stopped by a register", (await said("log")).split("\n")[0].endsWith("; it was stopped"), true);
}

async function playing() {
  const pressed = () => b.run(`document.getElementById("play").getAttribute("aria-pressed")`);
  await set("#scenes", "zoomed 5 by 4");
  await set("#speed", 9);
  await type("p");
  await sleep(100);
  is("it plays", await pressed(), "true");
  await sleep(1500);
  is("it played to the end", [...(await states("FLAGS", "ticks")), await pressed()], ["0 IDLE", "20,481", "false"]);
}
