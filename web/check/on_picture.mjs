// Checks the part "picture": the frame, point by point beside README's picture and in each place where the page shows it, what is said of a point,
// transparency, palettes, and the files that memory is loaded from and saved to.
import { readFileSync } from "node:fs";
import { join } from "node:path";
import { sleep } from "./browser.mjs";
import { b, begins, byteOf, chooseLine, click, example, exampleBytes, focus, inPalette, is, part, points, said, saved, set, shot } from "./eyes.mjs";

export async function picture() {
  await part("picture");
  await set("#content", "example");
  await set("#examples", "small_screen");
  await readmesPicture();
  await shot("picture");
  await wholePicture();
  await smallPictures();
  await pictureOfTheLines();
  await pointsInWords();
  await transparency();
  await pointByKey();
  await palettes();
  await droppedFile();
  await fileToAnAddress();
  await savedFiles();
  await filledAnew();
}

// The picture that README shows was made by planpic: (32, 32, 48) is transparent, (16, 16, 16) beside a line. Here a checkerboard is transparent.
async function readmesPicture() {
  const [wide, high, wrong, clear] = await besideThePage(exampleBytes("small_screen.png").toString("base64"));
  is("README's picture, point by point", [wide, high % 240, wrong, clear], [672, 0, 0, true]);
}

// Its size, how many points of the page's frame differ from it, and whether many are transparent.
const besideThePage = (png) => b.run(`(async () => {
  const image = new Image();
  image.src = "data:image/png;base64,${png}";
  await image.decode();
  const pointsOf = (source) => {
    const canvas = Object.assign(document.createElement("canvas"), { width: 672, height: 240 }), context = canvas.getContext("2d");
    context.imageSmoothingEnabled = false;
    context.drawImage(source, 0, 0, 672, 240);
    return context.getImageData(0, 0, 672, 240).data;
  };
  const want = pointsOf(image), got = pointsOf(deskPage.views.picture.picture.now());
  const at = (data, i) => data[4 * i] + "," + data[4 * i + 1] + "," + data[4 * i + 2];
  let wrong = 0, clear = 0;
  for (let i = 0; i < 672 * 240; i++) {
    const w = at(want, i), g = at(got, i), transparent = w === "32,32,48";
    if (transparent) clear++;
    if (transparent ? g !== "32,32,48" && g !== "42,42,60" : w !== g) wrong++;
  }
  return [image.width, image.height, wrong, clear > 1000];
})()`);

// Some pixels of the SR screen at 1000h of the example, from line 46 on. In a canvas a line is two points high, a pixel two points wide, from point 16 on.
const PIXELS = [[100, 70], [8, 3], [300, 60], [200, 20]], PLACES = PIXELS.map(([x, y]) => [16 + 2 * x, 2 * (46 + y) + 1]);
const inScreen = (x, y) => 0x1000 + 320 * y + x;
function pixelColours() {
  const memory = exampleBytes("small_screen.mem");
  return PIXELS.map(([x, y]) => inPalette(memory[inScreen(x, y)]));
}

async function wholePicture() {
  is("the picture that is seen", await points("whole", PLACES), pixelColours());
}

async function smallPictures() {
  for (const [name, id] of [["plan", "planpicture"], ["blitter", "blitpicture"]]) {
    await part(name);
    is(`${id} is drawn`, await manyColours(id), true);
  }
}

const manyColours = (id) => b.run(`(() => {
  const { data } = document.getElementById("${id}").getContext("2d").getImageData(0, 0, 336, 240);
  return new Set(new Uint32Array(data.buffer)).size > 100;
})()`);

async function pictureOfTheLines() {
  await part("lines");
  await chooseLine(46);
  is("the picture of the lines", await points("strip", PLACES), pixelColours());
  const edge = [3, 10, 60, 160, 190].map((line) => [2, 2 * line]);
  is("its edge", await points("strip", edge), ["6d7380", "4caf72", "4b8fe0", "a07be0", "e0913a"]);
}

const pointAt = (x, line) => b.run(`deskPage.views.picture.point(${x}, ${line})`);

async function pointsInWords() {
  await part("picture");
  await pointAt(120, 0);
  is("a line that is off", await said("point"), "line 0 · no pixels: the overlay is off");
  await pointAt(16 + 2 * 60, 46 + 79);
  const colour = exampleBytes("small_screen.mem")[inScreen(60, 79)].toString(16).toUpperCase().padStart(2, "0");
  is("a pixel", await said("point"), `line 125 · 320 pixels · pixel 60: palette 2, colour $${colour}`);
}

// 65535 is a pixel that is transparent.
async function transparency() {
  const clear = () => b.run("deskPage.bench.lines().some(({ pixels }) => pixels.includes(65535))");
  const fifteen = () => b.run("deskPage.bench.lines().some(({ pixels }) => pixels.some((pixel) => pixel !== 65535 && pixel % 16 === 15))");
  await click("#notrans");
  is("no_trans", await clear(), false);
  await click("#notrans");
  await click("#trans15");
  is("trans15", await fifteen(), false);
  await click("#trans15");
  is("not trans15", await fifteen(), true);
  is("not no_trans", await clear(), true);
}

async function pointByKey() {
  await focus("#whole");
  await pointAt(336, 120);
  await b.key("ArrowDown");
  await begins("the point by key", "point", "line 121 ");
}

async function palettes() {
  const choice = "#palettes fieldset:nth-child(3) select", colour = () => b.run("deskPage.palettes.colour(2 * 256 + 0x40) >>> 0");
  await set(choice, "grey");
  is("a grey palette", await colour(), 0xff404040);
  await b.run(`deskPage.views.picture.loaded(2, Uint8Array.from({ length: 768 }, (_, i) => i % 3 === 0 ? 255 : 0), "red.pal")`);
  is("a palette from a file", await colour(), 0xff0000ff);
  await b.run(`deskPage.views.picture.loaded(2, new Uint8Array(767), "short.pal")`);
  is("a file that is no palette", await said("status"), "short.pal has 767 bytes; a palette has 768: 256 times red, green, blue");
  await set(choice, "red, green, blue");
}

// A file dropped on the picture goes to the address that is set.
async function droppedFile() {
  await set("#loadat", "$01000");
  await b.run(`(async () => {
    const data = new DataTransfer();
    data.items.add(new File([new Uint8Array(25600).fill(0xe0)], "red.bin"));
    const drop = new DragEvent("drop", { dataTransfer: data, bubbles: true, cancelable: true });
    document.getElementById("whole").dispatchEvent(drop);
  })()`);
  await sleep(200);
  is("a dropped file", await said("benchsay"), "red.bin: 25,600 bytes are in memory from $01000 on.");
  is("the frame shows it", await b.run("[...new Set(deskPage.bench.lines()[60].pixels)]"), [2 * 256 + 0xe0]);
}

async function fileToAnAddress() {
  await set("#loadat", "$80000");
  await b.choose("load", example("small_screen.mem"));
  await begins("an address too high for a file", "benchsay", "small_screen.mem: install is refused 14 (address)");
  await set("#loadat", "$7FFFF");
  await b.choose("load", example("small_screen.mem"));
  const [first, second] = exampleBytes("small_screen.mem");
  is("a file past the end goes on at 0", [await byteOf(524287), await byteOf(0)], [first, second]);
}

// Memory still has the example from its last byte on.
async function savedFiles() {
  const folder = await saved("#savepicture", "#savememory");
  const memory = exampleBytes("small_screen.mem"), bytes = readFileSync(join(folder, "memory.bin"));
  const goesOn = bytes.subarray(0, memory.length - 1).equals(memory.subarray(1));
  is("a saved memory", [bytes.length, bytes[524287], goesOn], [524288, memory[0], true]);
  is("a saved picture", await asTheFrame(readFileSync(join(folder, "screen.png")).toString("base64")), [672, 480, true]);
}

// The size of a picture, and whether it is the page's frame with each line twice.
const asTheFrame = (png) => b.run(`(async () => {
  const image = new Image();
  image.src = "data:image/png;base64,${png}";
  await image.decode();
  const canvas = Object.assign(document.createElement("canvas"), { width: 672, height: 480 }), context = canvas.getContext("2d");
  context.drawImage(image, 0, 0);
  const got = new Uint32Array(context.getImageData(0, 0, 672, 480).data.buffer);
  const want = new Uint32Array(deskPage.views.picture.picture.now().getContext("2d").getImageData(0, 0, 672, 240).data.buffer);
  return [image.width, image.height, got.every((point, i) => point === want[Math.floor(i / 1344) * 672 + (i % 672)])];
})()`);

async function filledAnew() {
  await click("#refill");
  is("memory filled anew", await byteOf(inScreen(100, 70)), exampleBytes("small_screen.mem")[inScreen(100, 70)]);
}
