// agree.mjs MODULE.wasm FACTS SCENARIOS SEED | replay: random scenarios, run by the module. Each call, with what was lent to it and what came back, goes to
// standard output; replay makes the same calls of the native archive and compares. Words and sizes are the header's, as web/build
// read them. Where there are many scenarios, it fails if a number of the refusal sheet was never answered.
import { readFileSync, writeSync } from "node:fs";
import { resolve } from "node:path";

const [file, facts, scenarios, seed] = process.argv.slice(2), MANY = 2000;
const { NUMBERS: H, FIELDS, ENUMS } = await import(resolve(facts));
const exports = new WebAssembly.Instance(new WebAssembly.Module(readFileSync(file))).exports;
exports.memory.grow(40);
const heap = (exports.__heap_base.value + 255) & ~255, MEMORY = heap + 131072, held = new Uint8Array(exports.memory.buffer);

// ---- chance
let state = BigInt(seed) * 0x9e3779b97f4a7c15n;
function bits() { state = BigInt.asUintN(64, state * 6364136223846793005n + 1442695040888963407n); return Number(state >> 33n); }
const below = (n) => bits() % n, pick = (...all) => all[below(all.length)], chance = (p) => below(1000) < p * 1000;
const some = (n, one = () => below(256)) => Array.from({ length: n }, one);

// ---- what goes out
let parts = [], size = 0;
function put(bytes) { parts.push(bytes); size += bytes.length; if (size > 1 << 22) flush(); }
// How many bytes could be written: none while the pipe is full. Where replay has ended there is no one to write to.
function written(all, from) {
  try {
    return writeSync(1, all, from);
  } catch (error) {
    if (error.code === "EPIPE") process.exit(1);
    if (error.code !== "EAGAIN") throw error;
    return 0;
  }
}
function flush() {
  const all = Buffer.concat(parts);
  for (let done = 0; done < all.length; ) done += written(all, done);
  parts = [];
  size = 0;
}
const word = (value) => { const bytes = Buffer.alloc(4); bytes.writeUInt32LE(value >>> 0); return bytes; };
const tell = (letter, ...words) => put(Buffer.concat([Buffer.from(letter), ...words.map(word)]));

// ---- memory: the same on both sides; a patch changes it on both
let length = 0;
function memory(n, byte) {
  length = n;
  for (let i = 0; i < n; i++) held[MEMORY + i] = byte(i);
  tell("M", n);
  put(Buffer.from(held.subarray(MEMORY, MEMORY + n)));
}
function patch(at, bytes) {
  bytes.forEach((value, i) => {
    const place = ((at + i) % H.MEMORY_512K) % length;
    held[MEMORY + place] = value;
    tell("P", place, value);
  });
}
function sum(at, n) {
  let a = 0x811c9dc5, b = 7;
  for (let i = at; i < at + n; i++) { a = Math.imul(a ^ held[i], 16777619); b = (Math.imul(b, 31) + a) | 0; }
  return [a, b];
}

// ---- a call: numbers, arrays, which hold afterwards what came back, and MEM for the memory. Sixteen bytes before and behind a buffer must stay.
const MEM = Symbol("memory"), answered = new Set(), GUARD = 16, LETTER = { 1: "b", 2: "p", 4: "w" };
function call(name, ...given) {
  const lent = [], passed = [];
  let at = heap;
  put(Buffer.from(`C${name}\0`));
  put(Buffer.from([given.length]));
  for (const each of given) {
    if (each === MEM) { tell("m", length); passed.push(MEMORY, BigInt(length)); continue; }
    if (typeof each === "number") { tell("n", each); passed.push(each); continue; }
    const bytes = new Uint8Array(each.buffer, each.byteOffset, each.byteLength), start = at + GUARD;
    tell(LETTER[each.BYTES_PER_ELEMENT], each.length);
    put(Buffer.from(bytes));
    held.fill(0xa7, at, start + bytes.length + GUARD);
    held.set(bytes, start);
    lent.push([bytes, start]);
    passed.push(start, BigInt(each.length));
    at = (start + bytes.length + GUARD + 15) & ~15;
  }
  const answer = exports[`deskboard_${name}`](...passed) >>> 0;
  answered.add(answer & 255);
  put(Buffer.concat([answer, ...(given.includes(MEM) ? sum(MEMORY, length) : [0, 0])].map(word)));
  for (const [bytes, start] of lent) {
    for (let i = 1; i <= GUARD; i++) {
      const stayed = held[start - i] === 0xa7 && held[start + bytes.length + i - 1] === 0xa7;
      if (!stayed) throw new Error(`${name}: a byte beside a buffer was written`);
    }
    bytes.set(held.subarray(start, start + bytes.length));
    put(Buffer.from(bytes));
  }
  return answer;
}

// ---- things to lend
const odd = () => pick(0, 1, 2, 3, 7, 8, 15, 16, 31, 32, 33, 240, 241, 255, 256, 4095, 4096, 65535, 65536, 524287, 524288, 524289, 0xffffffff, bits());
const words = (n, one = odd) => Uint32Array.from(some(chance(0.03) ? below(n) : n + below(3), one));
const board = () => { const words = new Uint32Array(H.BOARD_WORDS + below(3)); call("new", words); return words; };
const report = (n) => words(n);
const line = () => Uint16Array.from(some(pick(H.LINE_PIXELS, H.LINE_PIXELS, H.LINE_PIXELS + 5, 640, 320, 336, below(H.LINE_PIXELS)), () => below(65536)));
const address = () => pick(below(H.MEMORY_512K), below(length || 1), H.MEMORY_512K - 1 - below(40), below(64));
const low = (value, n) => some(n).map((_, i) => Math.floor(value / 256 ** i) & 255);
const point = (words, offset, at) => low(at, 3).forEach((byte, i) => call("write", words, offset + i, byte));

function block(next) {
  const steps = () => [...low(pick(0, 1, 320, 8191, below(65536)), 2), pick(0, 1, 1, 255, below(256))];
  const high = pick(0, 0, 1, below(6)), masks = [pick(0, 255, 255, below(256)), pick(0, 0, below(256)), pick(0, 255, below(256))];
  return [
    ...low(address(), 3), ...steps(), // source
    ...low(address(), 3), ...steps(), // destination
    ...low(pick(0, 1, 3, below(24), below(512)), 2), high,
    ...masks,
    pick(0, 0, 0x11, below(256)), // zoom
    pick(0, 0, 0x83, below(256)), // pattern
    below(8) + (next ? 8 : 0) + 16 * below(16),
  ];
}

function item(kind, lines) {
  const size = FIELDS[kind].reduce((sum, field) => sum + field.size, 0);
  const value = ({ name, least, most }) => (name === "lines" ? lines : least + below(most - least + 1));
  return [size, 0, kind, 0, ...FIELDS[kind].flatMap((field) => low(value(field), field.size))];
}
function plan() {
  const bytes = [];
  for (let left = H.LINES, first = true; left && (first || chance(0.8)); first = false) {
    const lines = Math.min(left, pick(1, 2, 8, 1 + below(60)));
    left -= lines;
    bytes.push(...item(first || chance(0.5) ? 1 : 2, lines));
  }
  const damage = [
    () => (bytes[below(bytes.length)] = below(256)),
    () => (bytes.length = below(bytes.length + 1)),
    () => bytes.push(...some(below(30))),
    () => bytes.push(...item(1 + below(2), below(256))),
    () => bytes.unshift(...item(2, 1)),
  ];
  for (let k = chance(0.5) ? 0 : 1 + below(3); k > 0; k--) pick(...damage)();
  return Uint8Array.from(bytes.map((byte) => byte ?? 0));
}

// ---- scenarios
const budget = () => pick(0, 1, 21, below(100), below(300), below(5000), 100000, H.BUDGET, H.BUDGET + 1);
const draw = (words, settings) => call("draw", words, settings, MEM, line(), report(H.DRAW_WORDS));
function frame(words, lines, drawn) {
  const f = new Uint32Array(H.FRAME_WORDS + below(2));
  call("start", words, f);
  for (let k = lines; k > 0; k--) {
    const settings = chance(0.02) ? new Uint32Array(below(H.SETTINGS_WORDS)) : new Uint32Array(H.SETTINGS_WORDS + below(2));
    if (!call("next_line", f, MEM, settings) && chance(drawn)) draw(words, settings);
  }
}

const KINDS = {
  lists() {
    const b = board(), at = address(), n = 1 + below(4);
    patch(at, some(n, () => 0).flatMap((_, i) => block(i < n - 1 || chance(0.1))));
    const offsets = ENUMS.register.map(([, offset]) => offset);
    const start = () => {
      point(b, H.WRITE_BL_ADR0, at);
      call("write", b, H.WRITE_IRQ_CONTROL, below(2));
      call("write", b, H.WRITE_BLITTER_START, 1 | below(256));
    };
    const acts = [
      start,
      () => call("run", b, MEM, budget(), report(H.RUN_WORDS)),
      () => call("run", b, MEM, below(300), report(H.RUN_WORDS)),
      () => call("tick", b, MEM, report(H.RUN_WORDS)),
      () => call("write", b, pick(H.WRITE_BLITTER_START, H.WRITE_IRQ_CONTROL, 0x40 + below(32), below(300)), below(256)),
      () => call("read", b, pick(...offsets, 0x40 + below(32), below(300)), report(H.READ_WORDS)),
      () => chance(0.3) && call("reset", b),
      () => chance(0.3) && patch(at + below(60), some(1 + below(4))),
    ];
    start();
    for (let k = 0; k < 12; k++) pick(...acts)();
  },
  frames() {
    const b = board(), at = address(), record = () => [below(256), below(128) + (chance(0.1) ? 128 : 0), ...some(below(20))];
    patch(at, chance(0.7) ? some(10, record).flat() : some(200));
    point(b, H.WRITE_XDL_ADR0, at);
    call("write", b, H.WRITE_VIDEO_CONTROL, below(256) | (chance(0.9) ? 1 : 0));
    frame(b, pick(5, 60, H.LINES + 2), 0.3);
  },
  plans() {
    const out = Uint8Array.from(some(pick(H.LIST_BYTES, H.LIST_BYTES, 8192, below(600)))), told = report(H.COMPILE_WORDS), bytes = plan();
    if (call("compile", bytes, out, told) || !told.length) return;
    const b = board(), at = address();
    call("install", MEM, out.slice(0, told[0]), at);
    point(b, H.WRITE_XDL_ADR0, at);
    call("write", b, H.WRITE_VIDEO_CONTROL, 1 + 4 * below(4));
    frame(b, H.LINES + 1, 0.1);
  },
  draws() {
    const b = board();
    call("write", b, H.WRITE_VIDEO_CONTROL, below(16));
    for (let k = 0; k < 12; k++) {
      const s = new Uint32Array(H.SETTINGS_WORDS + below(2));
      const values = {
        MODE: below(5),
        ADDRESS: address(),
        STEP: below(4096),
        HSCROLL: pick(0, below(8)),
        VSCROLL: below(8),
        FONT: below(256),
        TEXT_COUNTER: below(8),
        FIELD_WIDTH: 8,
        FIELD_HEIGHT: 8,
        WIDTH: below(3),
        OVERLAY_PALETTE: below(4),
        PRIORITY: below(256),
        RECORD: address(),
      };
      for (const [name, value] of Object.entries(values)) s[H[`LINE_${name}`]] = value;
      if (chance(0.2)) s[below(H.SETTINGS_WORDS)] = odd();
      draw(b, s);
    }
  },
  installs() {
    const bytes = Uint8Array.from(some(pick(0, 1, 22, H.LIST_BYTES, H.LIST_BYTES + 1, below(H.LIST_BYTES))));
    call("install", MEM, bytes, pick(address(), address(), 524288, odd()));
  },
  // Each word of a state once, made odd.
  states() {
    const b = board(), f = new Uint32Array(H.FRAME_WORDS), broken = (words, n) => { const other = words.slice(); other[n] = odd(); return other; };
    patch(0, block(false));
    call("write", b, H.WRITE_BLITTER_START, 1);
    for (let k = below(4); k > 0; k--) call("tick", b, MEM, report(H.RUN_WORDS));
    call("start", b, f);
    call("next_line", f, MEM, words(H.SETTINGS_WORDS));
    for (let n = 0; n < H.FRAME_WORDS; n++) call("next_line", broken(f, n), MEM, words(H.SETTINGS_WORDS));
    for (let n = 0; n < H.BOARD_WORDS; n++) {
      const c = broken(b, n);
      const calls = [
        () => call("write", c, 0x40 + below(32), below(256)),
        () => call("read", c, H.READ_BLITTER_BUSY, report(H.READ_WORDS)),
        () => call("reset", c),
        () => call("tick", c, MEM, report(H.RUN_WORDS)),
        () => call("run", c, MEM, below(2000), report(H.RUN_WORDS)),
        () => call("start", c, words(H.FRAME_WORDS)),
      ];
      pick(...calls)();
    }
  },
  lengths() {
    const b = words(H.BOARD_WORDS);
    memory(pick(0, 1, 16383, 16385, 24576, 65535), () => 1);
    call("new", b);
    call("tick", b, MEM, report(H.RUN_WORDS));
    call("run", b, MEM, odd(), report(H.RUN_WORDS));
    call("install", MEM, Uint8Array.from(some(3)), 5);
    call("next_line", words(H.FRAME_WORDS), MEM, words(H.SETTINGS_WORDS));
    draw(b, words(H.SETTINGS_WORDS));
  },
};

for (let n = 0; n < Number(scenarios); n++) {
  const kind = pick("lists", "lists", "lists", "frames", "plans", "plans", "draws", "draws", "installs", "states", "lengths"), dense = below(4);
  const bytes = pick(16384, 16384, 16384, 32768, 65536, chance(0.2) ? 524288 : chance(0.5) ? 262144 : 131072);
  memory(bytes, (i) => (dense === 0 ? 0 : dense === 1 ? (i * 37) & 255 : bits() & 255));
  tell("S");
  KINDS[kind]();
}
tell("E"); // the end: without it replay says that the rest is missing
flush();
const never = ENUMS.refusal.filter(([, number]) => !answered.has(number)).map(([name]) => name);
if (never.length && Number(scenarios) >= MANY) {
  console.error(`agree: never answered: ${never.join(", ")}`);
  process.exitCode = 1;
}
