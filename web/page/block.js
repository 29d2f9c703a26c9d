// The 21 bytes of a block by name: how a field is read from them and put there. Places are the header's; how many bits count and what is added are the
// manual's, as docs/RULES.md has them (R18 to R21).
import { WRITES } from "./facts.js";
import { H } from "./desk.js";
import { adr, hex } from "./dom.js";

const little = (bytes, at, many) => Array.from({ length: many }, (_, i) => bytes[at + i] * 256 ** i).reduce((sum, part) => sum + part, 0);
const put = (bytes, at, many, value) => { for (let i = 0; i < many; i++) bytes[at + i] = Math.floor(value / 256 ** i) & 255; };
const signed = (value, bits) => (value >= 2 ** (bits - 1) ? value - 2 ** bits : value);

const address = (at) => ({ least: 0, most: H.MEMORY_512K - 1, show: adr, get: (b) => little(b, at, 3) % H.MEMORY_512K, set: (b, v) => put(b, at, 3, v) });
const stepY = (at) => ({ least: -4096, most: 4095, get: (b) => signed(little(b, at, 2) % 8192, 13), set: (b, v) => put(b, at, 2, (v + 8192) % 8192) });
const stepX = (at) => ({ least: -128, most: 127, get: (b) => signed(b[at], 8), set: (b, v) => put(b, at, 1, (v + 256) % 256) });
const byte = (at) => ({ least: 0, most: 255, show: (v) => "$" + hex(v), get: (b) => b[at], set: (b, v) => put(b, at, 1, v) });
const bits = (at, shift, many, plus, names) => {
  const ones = 2 ** many - 1;
  return {
    least: plus,
    most: ones + plus,
    names,
    get: (b) => ((b[at] >> shift) & ones) + plus,
    set: (b, v) => put(b, at, 1, (b[at] & ~(ones << shift)) | ((v - plus) << shift)),
  };
};
const width = { least: 1, most: 512, get: (b) => (little(b, H.BLOCK_WIDTH0, 2) % 512) + 1, set: (b, v) => put(b, H.BLOCK_WIDTH0, 2, v - 1) };
const height = { least: 1, most: 256, get: (b) => b[H.BLOCK_HEIGHT] + 1, set: (b, v) => put(b, H.BLOCK_HEIGHT, 1, v - 1) };

const MODES = WRITES.map((writes, mode) => `${mode}: ${writes.replace(" (ours)", "")}`);

// In groups, as the form shows them.
export const GROUPS = {
  source: {
    "source address": address(H.BLOCK_SOURCE_ADR0),
    "source step y": stepY(H.BLOCK_SOURCE_STEP_Y0),
    "source step x": stepX(H.BLOCK_SOURCE_STEP_X),
  },
  destination: {
    "destination address": address(H.BLOCK_DEST_ADR0),
    "destination step y": stepY(H.BLOCK_DEST_STEP_Y0),
    "destination step x": stepX(H.BLOCK_DEST_STEP_X),
  },
  size: {
    width,
    height,
    "zoom x": bits(H.BLOCK_ZOOM, 0, 3, 1),
    "zoom y": bits(H.BLOCK_ZOOM, 4, 3, 1),
  },
  "what is done": {
    mode: bits(H.BLOCK_CONTROL, 0, 3, 0, MODES),
    "AND mask": byte(H.BLOCK_AND_MASK),
    "XOR mask": byte(H.BLOCK_XOR_MASK),
    "collision mask": byte(H.BLOCK_COLLISION_MASK),
    pattern: bits(H.BLOCK_PATTERN, 7, 1, 0, ["not in use", "in use"]),
    "pattern width": bits(H.BLOCK_PATTERN, 0, 6, 1),
    NEXT: bits(H.BLOCK_CONTROL, 3, 1, 0, ["the last block", "another follows"]),
  },
};
const ALL = Object.assign({}, ...Object.values(GROUPS));

// The block that a row of names and values says; what is not named is a plain copy of 32 by 32 bytes on a screen with 320 bytes a line.
const PLAIN = { "source step y": 320, "source step x": 1, "destination step y": 320, "destination step x": 1, width: 32, height: 32, "AND mask": 255 };
export function block(values) {
  const bytes = new Uint8Array(H.BLOCK_BYTES);
  for (const [name, value] of Object.entries({ ...PLAIN, ...values })) ALL[name].set(bytes, value);
  return bytes;
}
const fieldOf = (bytes, name) => ALL[name].get(bytes);
export const setNext = (bytes, follows) => ALL.NEXT.set(bytes, follows ? 1 : 0);

// Where the bytes of a block lie (R22), not yet reduced to 19 bits, for the marks in the picture of memory: of the source, where it is read, and of the
// destination the area, and, while the board works on the block, the byte that comes next. The source's area has its own rows and columns, as they are
// before zoom and pattern repeat them.
export function places(bytes, board) {
  const of = (name) => fieldOf(bytes, name), across = of("pattern") ? of("pattern width") : of("width");
  const at = (what) => (row, column) => of(`${what} address`) + row * of(`${what} step y`) + column * of(`${what} step x`);
  const source = at("source"), destination = at("destination"), reads = of("AND mask") !== 0 && of("mode") !== 7;
  const busy = board[H.BOARD_FLAGS] === H.BUSY, row = board[H.BOARD_ROW], column = board[H.BOARD_COLUMN];
  const areas = [
    {
      name: "source",
      area: { at: source, rows: of("height"), columns: Math.min(of("width"), across) },
      next: busy ? source(Math.floor(row / of("zoom y")), Math.floor(column / of("zoom x")) % across) : null,
    },
    {
      name: "destination",
      area: { at: destination, rows: of("height") * of("zoom y"), columns: of("width") * of("zoom x") },
      next: busy ? destination(row, column) : null,
    },
  ];
  return areas.filter(({ name }) => reads || name === "destination");
}
