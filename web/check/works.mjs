// What web/bench measures: lists of blocks, and lines of a mode. As C text for bench.c where it is run by itself: works.mjs > works.h
const low = (value, many) => Array.from({ length: many }, (_, i) => Math.floor(value / 256 ** i) & 255);

// 512 by 256 bytes, from 0 to 262,144, all one behind the other; what differs is named.
function block({ width = 512, height = 256, stepY = 512, and = 255, xor = 0, mask = 0, zoom = 0, pattern = 0, mode = 0 }, next) {
  const source = [...low(0, 3), ...low(stepY, 2), 1], destination = [...low(262144, 3), ...low(stepY, 2), 1];
  return [...source, ...destination, ...low(width - 1, 2), height - 1, and, xor, mask, zoom, pattern, mode + (next ? 8 : 0)];
}
const seven = (values) => Array.from({ length: 7 }, (_, i) => block(values, i < 6)).flat();

export const LISTS = [
  { name: "copy 512 x 256, 7 blocks", bytes: seven({}) },
  { name: "fill 512 x 256, 7 blocks", bytes: seven({ and: 0, xor: 0x55 }) },
  { name: "mode 1, collision mask 0, 7 blocks", bytes: seven({ mode: 1 }) },
  { name: "mode 1, collision mask 255, 7 blocks", bytes: seven({ mode: 1, mask: 255 }) },
  { name: "mode 6, collision mask 255, 7 blocks", bytes: seven({ mode: 6, mask: 255 }) },
  { name: "zoom 8 x 8, pattern of 16, 7 blocks", bytes: seven({ width: 64, height: 32, zoom: 0x77, pattern: 0x8f }) },
  { name: "pattern of 4, 7 blocks", bytes: seven({ pattern: 0x83 }) },
];
// A frame of one record for all lines: its list, END with it, 240 lines at 1000h.
const record = (first, second, step) => [first + 0x60, second + 0x80 + 8 + 1, 239, ...low(0x1000, 3), ...low(step, 2), 1, 0x11, 255];
export const FRAMES = [
  { name: "line told and drawn, SR", bytes: record(2, 0, 320) },
  { name: "line told and drawn, HR", bytes: record(2, 0x10, 320) },
  { name: "line told and drawn, text", bytes: record(1, 0, 160) },
];
export const LIST_AT = 0x7e000, AGAIN = 20, SAMPLES = 41;
export const filled = (i) => (i * 37 + (i >> 9)) & 255; // memory before each work

function inC(name, works) {
  const rows = works.map((work) => `    {"${work.name}", ${work.bytes.length}, {${work.bytes.join(", ")}}},`);
  return `static const struct work ${name}[] = {\n${rows.join("\n")}\n};\n`;
}
if (process.argv[1]?.endsWith("works.mjs")) {
  const numbers = `enum { LIST_AT = ${LIST_AT}, AGAIN = ${AGAIN}, SAMPLES = ${SAMPLES} };`;
  console.log(`${numbers}\n${inC("lists", LISTS)}${inC("frames", FRAMES)}`);
}
