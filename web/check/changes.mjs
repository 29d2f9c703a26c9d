// changes.mjs MODULE.ll HOW_MANY SEED FOLDER: writes copies of the module's text into FOLDER, each with one instruction changed, and a line for each to
// standard output: its name, and what was changed. web/agree must notice each of them.
import { readFileSync, writeFileSync } from "node:fs";
import { join } from "node:path";

const [file, many, seed, folder] = process.argv.slice(2);
const lines = readFileSync(file, "utf8").split("\n");

let state = BigInt(seed) * 0x9e3779b97f4a7c15n + 1n;
function below(n) { state = BigInt.asUintN(64, state * 6364136223846793005n + 1442695040888963407n); return Number((state >> 33n) % BigInt(n)); }

// An instruction as another of the same form; a constant as the next one.
const OTHERS = {
  "icmp ult": "icmp ule", "icmp ule": "icmp ult", "icmp ugt": "icmp uge", "icmp uge": "icmp ugt", "icmp eq": "icmp ne", "icmp ne": "icmp eq",
  add: "sub", sub: "add", and: "or", or: "and", xor: "or", shl: "lshr", lshr: "shl", udiv: "urem", urem: "udiv", mul: "add", ashr: "lshr",
};
const FORM = new RegExp(`= (${Object.keys(OTHERS).join("|")})( (?:nuw |nsw |exact |disjoint )*)i(\\d+) (%\\w+), (%\\w+|-?\\d+)$`);
const places = lines.map((line, n) => (FORM.test(line) ? n : -1)).filter((n) => n >= 0);

function changed(line) {
  const [, what, , bits, a, b] = line.match(FORM), constant = /^\d+$/.test(b) && Number(bits) > 1;
  if (constant && below(2)) return line.replace(FORM, (_, w) => `= ${w} i${bits} ${a}, ${Number(b) + 1}`);
  return line.replace(FORM, (_, w) => `= ${OTHERS[w]} i${bits} ${a}, ${b}`);
}
function functionOf(n) {
  while (!lines[n].startsWith("define")) n--;
  return lines[n].match(/@("[^"]+"|\w+)\(/)[1].replace(/"/g, "");
}

for (let k = 0; k < Number(many); k++) {
  const n = places[below(places.length)], line = changed(lines[n]);
  writeFileSync(join(folder, `changed${k}.ll`), [...lines.slice(0, n), line, ...lines.slice(n + 1)].join("\n"));
  console.log(`changed${k} ${functionOf(n)}: ${lines[n].trim()} -> ${line.trim()}`);
}
