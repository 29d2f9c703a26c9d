// Plans and lists as bytes: items out of bytes and back, and what each byte is. Fields, ranges and control bits are the help sheet's and the rules'.
import { FIELDS, RECORD } from "./facts.js";
import { H } from "./desk.js";
import { hex } from "./dom.js";

const HEAD = 4; // bytes before an item's body: its length and its kind, two each
const sizeOf = (kind) => FIELDS[kind].reduce((size, field) => size + field.size, 0);
const low = (value, place) => Math.floor(value / 256 ** place) & 255;
const whole = (at, place, size) => Array.from({ length: size }, (_, i) => at(place + i) * 256 ** i).reduce((sum, part) => sum + part, 0);

export const fits = (field, value) => Number.isInteger(value) && value >= 0 && value < 256 ** field.size;
export const inRange = (field, value) => value >= field.least && value <= field.most;
export const rangeOf = (field) => `${field.least.toLocaleString("en")} to ${field.most.toLocaleString("en")}`;

// ---- plans
function bytesOfItem(item) {
  const size = sizeOf(item.kind), bytes = [low(size, 0), low(size, 1), low(item.kind, 0), low(item.kind, 1)];
  for (const field of FIELDS[item.kind]) for (let i = 0; i < field.size; i++) bytes.push(low(item[field.name], i));
  return bytes;
}

export const bytesOfPlan = (items) => Uint8Array.from(items.flatMap(bytesOfItem));

// The items of a plan, for the table; null where the bytes cannot be written as a row of items, whether the module has come so far or not.
export function itemsOfPlan(bytes) {
  const items = [];
  for (let at = 0; at < bytes.length; at += HEAD + sizeOf(items.at(-1).kind)) {
    const item = { kind: bytes[at + 2] + 256 * bytes[at + 3] }, fields = FIELDS[item.kind];
    if (!fields || at + HEAD + sizeOf(item.kind) > bytes.length || bytes[at] + 256 * bytes[at + 1] !== sizeOf(item.kind)) return null;
    for (const field of fields) item[field.name] = whole((place) => bytes[at + HEAD + place], field.place, field.size);
    items.push(item);
  }
  return items;
}

// A field of a plan out of the settings of a line: the same name, but for the overlay's, the map's switch and the palettes, which are one byte.
function held(name, line) {
  if (name === "palettes") return line[H.LINE_OVERLAY_PALETTE] + 4 * line[H.LINE_PLAYFIELD_PALETTE];
  if (name === "map") return line[H.LINE_MAP_ON];
  return line[H["LINE_" + name.replace("overlay ", "").replace(/ /g, "_").toUpperCase()]];
}

// A new item of eight lines. One that runs on has the fields of the item above it; a full band, what a line has before any record.
export function newItem(kind, above, line) {
  const value = ({ name, least }) => (kind === 2 ? above?.[name] : undefined) ?? held(name, line) ?? least;
  return Object.fromEntries([["kind", kind], ...FIELDS[kind].map((field) => [field.name, field.name === "lines" ? 8 : value(field)])]);
}

// ---- what a byte is: { names, value, say }; names are those of the fields in a plan that it is of, wherever it stands
const part = (size, i) => (size === 1 ? "" : `, byte ${i + 1} of ${size}`);
const inHex = (value, size) => "$" + hex(value, 2 * size);

export function explainItem(item) {
  const size = sizeOf(item.kind), told = [];
  const put = (name, many, value, say) => { for (let i = 0; i < many; i++) told.push({ names: [name], value: low(value, i), say: say + part(many, i) }); };
  put("length", 2, size, `length of the body: ${size}`);
  put("kind", 2, item.kind, `kind ${item.kind}: ${item.kind === 1 ? "a full band" : "running on"}`);
  for (const field of FIELDS[item.kind]) {
    const value = item[field.name], names = field.names?.[value];
    put(field.name, field.size, value, `${field.name}: ${names ?? value}${field.size > 1 ? `, ${inHex(value, field.size)}` : ""}`);
  }
  return told;
}

// The fields of a plan that a part of a record is made of, where it has another name.
const IN_PLAN = { repeat: ["lines"], "field width - 1": ["field width"], "field height - 1": ["field height"], "width and palettes": ["width", "palettes"] };
const CONTROL_IN_PLAN = [["mode", "map"], ["mode"]];
// What its numbers are, of a part that has more than one (R36).
const insideOf = { "width and palettes": (v) => ` (width ${v & 3}, overlay palette ${(v >> 4) & 3}, playfield palette ${v >> 6})` };
const bitsOf = (value, names) => names.filter((_, bit) => (value >> bit) & 1).join(" ") || "no bit";

// One record of any list, given the byte at each place from its first control byte on.
export function explainRecord(at) {
  const control = (byte) => `control byte ${byte + 1}: ${bitsOf(at(byte), RECORD.bits[byte])}`;
  const told = CONTROL_IN_PLAN.map((names, byte) => ({ names, value: at(byte), say: control(byte) }));
  for (const { byte, bit, parts } of RECORD.data) {
    if (!((at(byte) >> bit) & 1)) continue;
    for (const { name, size } of parts) {
      const first = told.length, value = whole(at, first, size), bits = RECORD.bits[byte][bit];
      const says = `${bits}, ${name}: ${size > 1 ? inHex(value, size) : value}${insideOf[name]?.(value) ?? ""}`;
      for (let i = 0; i < size; i++) told.push({ names: IN_PLAN[name] ?? [name], value: at(first + i), say: says + part(size, i) });
    }
  }
  return told;
}

// The records of a list that follow one another to its end, as compile makes them.
export function recordsOf(list) {
  const records = [];
  for (let at = 0; at < list.length; at += records.at(-1).length) records.push(explainRecord((place) => list[at + place] ?? 0));
  return records;
}
