// exports.mjs MODULE.wasm HEADER: the module has no import, it exports the header's calls and no other function, and lengths are 64 bits. It ends with
// a message where that is not so.
import { readFileSync } from "node:fs";

const [file, header] = process.argv.slice(2), bytes = readFileSync(file);
const module = new WebAssembly.Module(bytes), faults = [];
const list = (names) => names.join(", ") || "none";

const imports = WebAssembly.Module.imports(module).map((each) => `${each.module}.${each.name}`);
if (imports.length) faults.push(`it has imports: ${list(imports)}`);

const has = WebAssembly.Module.exports(module), calls = has.filter((each) => each.kind === "function").map((each) => each.name);
const wanted = [...readFileSync(header, "utf8").matchAll(/^uint32_t (deskboard_\w+)\(/gm)].map(([, name]) => name);
const missing = wanted.filter((name) => !calls.includes(name)), others = calls.filter((name) => !wanted.includes(name));
if (missing.length) faults.push(`it lacks exports of the header: ${list(missing)}`);
if (others.length) faults.push(`it exports what the header does not have: ${list(others)}`);
const rest = has.filter((each) => each.kind !== "function").map((each) => `${each.kind} ${each.name}`).sort();
if (rest.join() !== "global __heap_base,memory memory") faults.push(`beside functions it exports ${list(rest)}`);

// 2^32 words more are not none: a board of 2^32 + 1 words is taken, one of a word is not; nor is a memory of 2^32 + 16,384 bytes.
function lengths() {
  const { exports } = new WebAssembly.Instance(module), at = exports.__heap_base.value, more = 1n << 32n;
  exports.memory.grow(1); // memory ends where the stack does: there is no room for a buffer before it grows
  const told = [exports.deskboard_new(at, more + 1n), exports.deskboard_new(at, 1n), exports.deskboard_install(at, more + 16384n, at, 0n, 0)];
  if (told.join() !== "0,15,1") faults.push(`lengths are not 64 bits: answers ${told.join()}, not 0,15,1`);
}
if (!faults.length) lengths();
if (faults.length) {
  for (const each of faults) console.error(`web/build: ${file}: ${each}`);
  process.exit(1);
}
console.log(`${bytes.length} bytes, no import, ${calls.length} calls`);
