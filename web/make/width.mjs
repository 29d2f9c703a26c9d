// width.mjs MODULE.ll: what in the module depends on the width of a pointer, which is 64 bits in the proof and 32 in WebAssembly. It ends with a
// message where something is found that docs/PROMISES.md ("In a browser") does not allow for. It reads the module's text; it is a look-out, no proof.
//
// Allowed: an address is a pointer and a 64-bit number of bytes. A pointer stands in 8 bytes of its own, in the room of a function, and no byte of them
// is read or written as a number, also not in another function; lent memory holds numbers alone. A fill with zeros is of neither: 0 is the same in both.
// Moves and fills have constant lengths. An export asks whether a pointer of its caller is null, and nothing else compares one. No call through a
// pointer, no function that gives one, no recursion, no globals. Every line of a function must have a form that is known here.
import { readFileSync } from "node:fs";

const KNOWN = new Set([
  "alloca", "load", "store", "getelementptr", "call", "br", "switch", "ret", "unreachable",
  "zext", "sext", "trunc", "icmp", "select", "phi", "extractvalue", "insertvalue",
  "add", "sub", "mul", "udiv", "urem", "sdiv", "srem", "and", "or", "xor", "shl", "lshr", "ashr",
]);
const INTRINSICS = /^llvm\.(memmove\.p0\.p0\.i64|memset\.p0\.i64|trap|ctpop\.i64)$/;
const SIZES = { i1: 1, i8: 1, i16: 2, i32: 4, i64: 8, ptr: 8 };
const MOST_OFFSET = 4096, MOST_STACK = 16384;
const NAME = '("[^"]+"|[\\w.$]+)', VALUE = "(%[\\w.]+|-?\\d+|true|false)";
const NUMBERS = "\\{ i\\d+(?:, i\\d+)* \\}", GIVES = `(void|ptr|i\\d+|${NUMBERS})`; // several numbers are given as one

const faults = new Set(), counts = {}, functions = new Map();
const fault = (why, line) => faults.add(`${why}: ${line.trim().slice(0, 160)}`);
const add = (what) => (counts[what] = (counts[what] ?? 0) + 1);

// ---- places: the bytes of a function's room, or of what a parameter points to, by base and offset. What a move or a call joins is one place.
const parents = new Map(), kinds = new Map();
function root(place) {
  let at = place;
  while (parents.has(at)) at = parents.get(at);
  return at;
}
function mark(place, kind, line) {
  const at = root(place), had = kinds.get(at);
  if (had && had !== kind) fault("a byte that is of a pointer and of a number", line);
  kinds.set(at, kind);
}
function join(a, b, line) {
  const [from, to] = [root(a), root(b)];
  if (from === to) return;
  const kind = kinds.get(from);
  parents.set(from, to);
  if (kind) mark(to, kind, line);
}

// ---- one function at a time; what its calls join is looked at in the end, when all are known
let now = null;
const place = (base, offset) => `${now.name} ${base}+${offset}`;
const based = (register) => now.bases.get(register) ?? [register, 0];
const isLent = (base) => now.lent.has(base); // it points to lent memory, or to a computed place: only numbers are there
function markAll(register, size, kind, line) {
  const [base, offset] = based(register);
  for (let i = 0; i < size; i++) mark(place(base, offset + i), kind, line);
}

function open(line) {
  const [, gives, name, parameters] = line.match(new RegExp(`^define (?:internal )?(?:[a-z]+ )*?${GIVES} @${NAME}\\((.*)\\) #0 \\{$`)) ?? [];
  if (!name) return fault("a function of a new form", line);
  now = { name, calls: new Set(), passed: [], stack: 0, bases: new Map(), rooms: new Set(), lent: new Set(), computed: [] };
  functions.set(name, now);
  if (gives === "ptr") fault("a function that gives a pointer", line);
  const known = (each, i) => new RegExp(`^(ptr|i\\d+)(?: [a-z]+)* %a${i}$`).test(each);
  if (!parameters.split(", ").filter(Boolean).every(known)) fault("a parameter of a new form", line);
}

const is = {
  alloca(line, result) {
    const [whole, bytes, type, align] = line.match(/ alloca (?:\[(\d+) x i8\]|(\w+)), align (\d+)$/) ?? [];
    if (!whole || (type && !SIZES[type])) return fault("room of a new kind", line);
    now.stack += type ? SIZES[type] : Number(bytes);
    if (align === "8") now.rooms.add(result);
  },
  getelementptr(line, result) {
    const [, from, by] = line.match(/getelementptr (?:inbounds )?(?:nuw )?i8, ptr (%[\w.]+), i64 (%[\w.]+|\d+)$/) ?? [];
    if (!from) return fault("an address that is not a pointer and a 64-bit number of bytes", line);
    const constant = /^\d+$/.test(by), [base, at] = based(from);
    add(constant ? "addresses: pointer + constant" : "addresses: pointer + computed 64-bit number");
    if (constant && Number(by) > MOST_OFFSET) fault("a large constant offset", line);
    if (constant) now.bases.set(result, [base, at + Number(by)]);
    if (constant && !isLent(base)) return;
    now.lent.add(result);
    if (!isLent(base)) now.computed.push({ base, line });
  },
  load(line, result) {
    const [, several, at] = line.match(new RegExp(`= load (${NUMBERS}), ptr (%[\\w.]+), align \\d+`)) ?? [];
    if (several) return loadNumbers(line, several.match(/i\d+/g), at);
    access(line, line.match(/= load (\w+), ptr (%[\w.]+), align (\d+)/), result);
  },
  store(line) { access(line, line.match(new RegExp(`store (\\w+) ${VALUE}, ptr (%[\\w.]+), align (\\d+)`))?.filter((_, i) => i !== 2)); },
  ret(line) { if (/ret ptr/.test(line)) fault("a function that gives a pointer", line); },
  call(line) {
    const [, gives, to, given] = line.match(new RegExp(`call (?:[a-z]+ )*?${GIVES} @${NAME}\\((.*)\\)`)) ?? [];
    if (!to) return fault("a call through a pointer, or of a new form", line);
    if (gives === "ptr") fault("a function that gives a pointer", line);
    if (to.startsWith("llvm.")) return intrinsic(to, line);
    now.calls.add(to);
    given.split(", ").filter(Boolean).forEach((each, i) => {
      const [whole, type, value] = each.match(new RegExp(`^(ptr|i\\d+)(?: [a-z]+)* ${VALUE}$`)) ?? [];
      if (!whole) return fault("an argument of a new form", line);
      if (type === "ptr") now.passed.push({ to, parameter: `%a${i}`, base: based(value), line });
    });
  },
};

function access(line, found, result) {
  const [, type, at, align] = found ?? [];
  if (!SIZES[type]) return fault("a load or a store of a new form", line);
  const [base, offset] = based(at), pointer = type === "ptr", aligned = align === "8" || (now.rooms.has(base) && offset % 8 === 0);
  if (pointer) add("pointers loaded or stored");
  if (pointer && !aligned) fault("a pointer that is not in 8 aligned bytes", line);
  if (pointer && isLent(base)) fault("a pointer in lent memory", line);
  if (!isLent(base)) markAll(at, SIZES[type], pointer ? "pointer" : "number", line);
  if (pointer && result) now.lent.add(result);
}

// Several numbers that lie as in a struct, each at the next place that its size divides.
function loadNumbers(line, types, at) {
  const [base, from] = based(at);
  let to = from;
  for (const type of types) {
    if (!SIZES[type]) return fault("a load or a store of a new form", line);
    to = Math.ceil(to / SIZES[type]) * SIZES[type];
    if (!isLent(base)) for (let i = 0; i < SIZES[type]; i++) mark(place(base, to + i), "number", line);
    to += SIZES[type];
  }
}

function intrinsic(to, line) {
  add(to);
  if (!INTRINSICS.test(to)) return fault("an intrinsic that is not on the list", line);
  if (!/memmove|memset/.test(to)) return;
  const length = Number(line.match(/, i64 (\d+), i1 false\)/)?.[1]), registers = [...line.matchAll(/ptr (%[\w.]+)/g)].map(([, register]) => register);
  if (Number.isNaN(length)) return fault("a move or a fill of a computed length", line);
  if (registers.some((register) => isLent(based(register)[0]))) return fault("a move or a fill of lent memory", line);
  if (to.includes("memset") && /, i8 0, /.test(line)) return;
  if (to.includes("memset")) return markAll(registers[0], length, "number", line);
  const [[a, from], [b, by]] = registers.map(based);
  for (let i = 0; i < length; i++) join(place(a, from + i), place(b, by + i), line);
}

// Has the caller lent null? Asked of a parameter alone, by an export.
function isNull(line) {
  const asks = /= icmp eq ptr %a\d+, null$/.test(line);
  if (asks) add("null lent");
  return asks;
}

const HARMLESS = /^\s*$|^[\w.]+:|^\s+i\d+ -?\d+, label %[\w.]+$|^\s+\]$|^\s*;/; // a label, a case of a switch and its end, a remark
function read(line) {
  if (/^@|^%.* = type/.test(line)) fault("a global or a named type", line);
  if (line.startsWith("define")) return open(line);
  if (line === "}") now = null;
  if (!now || HARMLESS.test(line)) return;
  const [, result, what] = line.match(/^\s+(?:(%[\w.]+) = )?(?:tail )?([a-z]+)\b/) ?? [];
  if (/ptrtoint|inttoptr|addrspacecast|bitcast/.test(line)) return fault("a pointer as a number", line);
  if (!KNOWN.has(what)) return fault("an instruction that is not on the list", line);
  if (/icmp \w+ ptr|select .*\bptr\b|phi ptr/.test(line) && !isNull(line)) fault("pointers compared or chosen", line);
  if (Object.hasOwn(is, what)) is[what](line, result);
}

// ---- what a parameter points to is what was passed for it, as far as any function looks into it
const split = (place) => place.match(/^(.*) (%[\w.]+)\+(\d+)$/).slice(1);
function offsetsOfParameters() {
  const offsets = new Map();
  for (const at of [...kinds.keys(), ...parents.keys()]) {
    const [name, base, offset] = split(at), key = `${name} ${base}`;
    if (base.startsWith("%a")) offsets.set(key, (offsets.get(key) ?? new Set()).add(Number(offset)));
  }
  return offsets;
}

function joinCalls() {
  const offsets = offsetsOfParameters();
  for (let more = true; more; ) {
    more = false;
    for (const { name, passed, lent } of functions.values())
      for (const { to, parameter, base: [base, at], line } of passed)
        for (const offset of offsets.get(`${to} ${parameter}`) ?? []) {
          const there = `${to} ${parameter}+${offset}`, here = `${name} ${base}+${at + offset}`, key = `${name} ${base}`;
          if (lent.has(base)) { mark(there, "number", line); continue; }
          if (base.startsWith("%a") && !offsets.get(key)?.has(at + offset)) {
            offsets.set(key, (offsets.get(key) ?? new Set()).add(at + offset));
            more = true;
          }
          join(there, here, line);
        }
  }
}

// A computed place could be any byte of its room: so no byte of it may be a pointer's.
function computedPlaces() {
  const ofPointers = [...kinds.keys(), ...parents.keys()].filter((at) => kinds.get(root(at)) === "pointer");
  const rooms = new Set(ofPointers.map((at) => split(at).slice(0, 2).join(" ")));
  for (const { name, computed } of functions.values())
    for (const { base, line } of computed) if (rooms.has(`${name} ${base}`)) fault("a computed place in a room with a pointer", line);
}

// The longest chain of calls, by what each function costs. No recursion: so the stack has an end.
function deepest(cost) {
  const known = new Map();
  const deep = (name, path) => {
    if (path.includes(name)) return faults.add(`recursion: ${[...path, name].join(" > ")}`), 0;
    const next = [...(functions.get(name)?.calls ?? [])];
    if (!known.has(name)) known.set(name, cost(functions.get(name)) + Math.max(0, ...next.map((each) => deep(each, [...path, name]))));
    return known.get(name);
  };
  return Math.max(...[...functions.keys()].map((name) => deep(name, [])));
}

readFileSync(process.argv[2], "utf8").split("\n").forEach(read);
joinCalls();
computedPlaces();
const chain = deepest(() => 1), stack = deepest((one) => one?.stack ?? 0);
if (stack > MOST_STACK) faults.add(`a stack of ${stack} bytes`);
for (const [what, many] of Object.entries(counts).sort()) console.log(String(many).padStart(6), what);
console.log(String(functions.size).padStart(6), `functions; a chain of calls has at most ${chain} of them, and at most ${stack} bytes of stack; no recursion`);
if (faults.size) {
  console.error("web/build: the module depends on the width of a pointer in a new way:");
  console.error([...faults].slice(0, 20).join("\n"));
  process.exit(1);
}
