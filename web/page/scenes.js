// Scenes for the blitter: a memory with a screen of 320 bytes a line, two rows of text below it, and sprites; and lists of blocks, each of which shows one
// rule. The screen is that of the example plan picture_status; its font is the example memory's.
import { H } from "./desk.js";
import { block, setNext } from "./block.js";

export const SCENE_PLAN = "picture_status";
const LINE = 320, LINES = 224, CHARACTERS = 80; // bytes of a line of the screen, its lines, and characters of a row of text
const SCREEN = 0x10000, SPRITES = SCREEN - 48 * LINE, TEXT = 0x2000;
const FONT = 0x1000, EXAMPLE_FONT = 0x0800, FONT_BYTES = 2048;
export const BLOCKS_AT = 0x7e000; // where the blocks lie: above all that the scenes use, below the display list
export const SCENE_VIEW = { from: SPRITES, row: LINE }; // the sprites, and the screen below them
const ROW_BYTES = 2 * CHARACTERS, FONT_NUMBER = FONT / FONT_BYTES;
const at = (x, y) => SCREEN + y * LINE + x;
const sprite = (x, y) => SPRITES + y * LINE + x;
const colour = (red, green, blue) => 32 * red + 4 * green + blue; // as the palette "red, green, blue" shows it
const GREEN = colour(1, 6, 0), RED = colour(6, 1, 0), WHITE = colour(7, 7, 3);

// ---- the memory
function text(memory, row, words, attribute) {
  const padded = words.padEnd(CHARACTERS);
  for (let i = 0; i < CHARACTERS; i++) memory.set([padded.charCodeAt(i), attribute], TEXT + row * ROW_BYTES + 2 * i);
}

function landscape(x, y) {
  const hill = 150 + 20 * Math.sin(x / 31) + 10 * Math.sin(x / 11 + 2), far = 120 + 26 * Math.sin(x / 47 + 1);
  if (y > hill) return colour(1, Math.max(2, 6 - Math.floor((y - hill) / 14)), 0);
  if (y > far) return colour(2, Math.max(2, 4 - Math.floor((y - far) / 16)), 1);
  return colour(Math.min(6, Math.floor((y + ((x * 7 + y * 3) % 5) * 4) / 30)), Math.min(5, 1 + Math.floor(y / 34)), 3);
}

function ball(x, y) {
  const [dx, dy] = [x - 15.5, y - 15.5];
  if (dx * dx + dy * dy > 240) return 0;
  const bright = Math.max(2, Math.min(7, Math.round(5 - (dx + dy) / 6)));
  return (x >> 3) % 2 === (y >> 3) % 2 ? colour(bright, 1, 0) : colour(bright, bright, 2);
}

export function SCENE_MEMORY(example) {
  const memory = new Uint8Array(SCREEN + LINES * LINE);
  memory.set(example.subarray(EXAMPLE_FONT, EXAMPLE_FONT + FONT_BYTES), FONT);
  text(memory, 0, "  What the blitter paints is what the frame shows: one memory.", 0x7e);
  text(memory, 1, "  Picture at 10000, 320 bytes a line; sprites before it, at 0C400.", 0x5d);
  for (let y = 0; y < LINES; y++) for (let x = 0; x < LINE; x++) memory[at(x, y)] = landscape(x, y);
  for (let y = 0; y < 32; y++) for (let x = 0; x < 32; x++) memory[sprite(8 + x, 8 + y)] = ball(x, y);
  for (let y = 0; y < 32; y++) for (let x = 0; x < 16; x++) memory[sprite(48 + x, 8 + y)] = x === y % 16 ? WHITE : colour((x >> 1) % 8, 7 - (y >> 2), 1);
  for (let y = 0; y < 16; y++) for (let x = 0; x < 32; x++) memory[sprite(72 + x, 8 + y)] = x < 16 ? 0xf0 : 0x0f; // one nibble of each byte is 0
  return memory;
}

// ---- the blocks
const fill = (values) => block({ "AND mask": 0, ...values });
const BALL = { "source address": sprite(8, 8), mode: 1 };
const STRIPES = { "source address": sprite(48, 12), "source step y": 0, pattern: 1, "pattern width": 16 };
const POINTER = fill({ "destination address": at(60, 40), width: 200, height: 120, "XOR mask": 0x1f, mode: 5 });
const next = (bytes) => { const followed = bytes.slice(); setNext(followed, true); return followed; };

// An item of the plan, by the fields that differ from a line before any record.
const TEXT_BAND = { mode: H.MODE_TEXT, "overlay address": TEXT, "overlay step": ROW_BYTES, font: FONT_NUMBER };
const SR_BAND = { mode: H.MODE_SR, "overlay address": SCREEN, "overlay step": LINE };

export const SCENES = [
  {
    name: "a ball over the hills",
    says: "Mode 1 writes no 0, so the ball's corners stay clear. The collision code is the last colour that the ball came upon.",
    blocks: () => [block({ ...BALL, "destination address": at(150, 96), "collision mask": 255 })],
  },
  {
    name: "collisions go by ranges",
    says: "The mask is $02: colours 32 to 63. The ball comes upon a field of $02, where colour and mask share a bit, and finds nothing; " +
      "then upon one of $20, where they share none, and the code is $20.",
    blocks: () => [
      next(fill({ "destination address": at(80, 60), width: 60, height: 60, "XOR mask": 0x02 })),
      next(fill({ "destination address": at(180, 60), width: 60, height: 60, "XOR mask": 0x20 })),
      next(block({ ...BALL, "destination address": at(94, 74), "collision mask": 0x02 })),
      block({ ...BALL, "destination address": at(194, 74), "collision mask": 0x02 }),
    ],
  },
  {
    name: "a block rewrites the next one",
    says: "The first block writes one byte: the XOR mask of the second, which was to fill with red. " +
      "A block is read when its turn comes, not at START: the field is green.",
    blocks: () => [
      next(fill({ "destination address": BLOCKS_AT + H.BLOCK_BYTES + H.BLOCK_XOR_MASK, width: 1, height: 1, "XOR mask": GREEN })),
      fill({ "destination address": at(110, 70), width: 100, height: 60, "XOR mask": RED }),
    ],
  },
  {
    name: "zoom does not zoom the step",
    says: "Zoom 3 by 3 writes each source byte to three columns and three rows. " +
      "The destination's step x is 2: it counts single bytes, so every second byte is written.",
    blocks: () => [block({ ...BALL, "destination address": at(60, 60), "destination step x": 2, "zoom x": 3, "zoom y": 3 })],
  },
  {
    name: "a row begins from the row's beginning",
    says: "Step y is 323: three more than a line. " +
      "It is added to where the row before began, not to where it ended, so the field leans by three points a row.",
    blocks: () => [fill({ "destination address": at(40, 60), "destination step y": LINE + 3, width: 90, height: 50, "XOR mask": WHITE })],
  },
  {
    name: "zoomed 5 by 4",
    says: "Zoom repeats source bytes. The source is read anew for every destination byte, so each costs an access.",
    blocks: () => [block({ ...BALL, "destination address": at(80, 50), "zoom x": 5, "zoom y": 4 })],
  },
  {
    name: "mirrored, and upside down",
    says: "A step may be negative: in x from -128 to 127, in y from -4,096 to 4,095.",
    blocks: () => [
      next(block({ ...BALL, "source address": sprite(39, 8), "source step x": -1, "destination address": at(100, 90) })),
      block({ ...BALL, "source address": sprite(8, 39), "source step y": -LINE, "destination address": at(180, 90) }),
    ],
  },
  {
    name: "a pattern of 16",
    says: "With a pattern in use the source begins again after its width; with step y 0 each row has the same.",
    blocks: () => [block({ ...STRIPES, "destination address": at(40, 60), width: 240, height: 80 })],
  },
  {
    name: "nibbles",
    says: "Mode 6 takes each nibble by itself: where a nibble of the source is 0, that of the screen stays. " +
      "So two thin pictures can share bytes, as in HR.",
    blocks: () => [
      block({ "source address": sprite(72, 8), "destination address": at(96, 80), height: 16, "zoom x": 4, "zoom y": 4, mode: 6 }),
    ],
  },
  {
    name: "a pointer drawn twice",
    says: "Mode 5 is exclusive or. Drawn twice, the pointer is gone and memory is as it was. Go by rows to see it come and go.",
    blocks: () => [next(POINTER), POINTER],
  },
  {
    name: "a smear",
    says: "The source is the byte before the destination, and it is read as memory then is: the first byte runs through the whole row.",
    blocks: () => [block({ "source address": at(79, 100), "destination address": at(80, 100), width: 180, height: 90 })],
  },
  {
    name: "the display list is memory too",
    says: "One byte goes to the step of the first record, and each line of the frame begins a byte further to the right in memory. " +
      "The plan did not change; any edit of it installs the list again.",
    blocks: (list) => [fill({ "destination address": list + 6, width: 1, height: 1, "XOR mask": (LINE + 1) & 255 })],
  },
  {
    name: "a text row runs on",
    says: "The row of text begins with a band of 3 lines and runs on through an item that is scrolled: it does not begin again, " +
      "and its counter goes on with line 3. The blitter gives it another colour: every second byte is an attribute.",
    blocks: () => [
      fill({ "destination address": TEXT + 1, "destination step x": 2, "destination step y": ROW_BYTES, width: CHARACTERS, height: 1, "XOR mask": 0x1e }),
    ],
    plan: [
      { kind: 1, lines: 100, ...SR_BAND },
      { kind: 1, lines: 3, ...TEXT_BAND },
      { kind: 2, lines: 13, hscroll: 4, font: FONT_NUMBER },
      { kind: 1, lines: 100, ...SR_BAND, "overlay address": at(0, 116) },
    ],
    view: { from: TEXT, row: ROW_BYTES },
  },
];
