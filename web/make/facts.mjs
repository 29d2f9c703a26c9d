// facts.mjs TOP MODULE: writes, to standard output, the script module with all that the page knows of the board and has not written itself. Of the
// header: words, registers, refusals, sizes. Of the help sheet: the refusals' words and the ranges of an item. Of the rules: a record's
// control bits and data, and the blitter's modes. Of the examples: plans and a memory. The page for renters. And the proved module itself.
// It ends with a message where a page no longer has the form that is read here.
import { readFileSync, readdirSync } from "node:fs";
import { join } from "node:path";

const [top, module] = process.argv.slice(2);
const text = (name) => readFileSync(join(top, name), "utf8");
const number = (digits) => Number(digits.replace(/,/g, ""));

function need(good, where, what) {
  if (good) return;
  console.error(`web/build: ${where}: ${what}`);
  process.exit(1);
}

// The part of a text between two marks.
function between(name, from, to) {
  const all = text(name), at = all.indexOf(from), end = all.indexOf(to, at + from.length);
  need(at >= 0 && end >= 0, name, `nothing between '${from}' and '${to}'`);
  return all.slice(at, end);
}

// The rows of the tables in a text, as cells; without the heads' rules.
function rows(part) {
  const lines = part.split("\n").filter((line) => /^\|.*\|$/.test(line) && !/^[|\-\s:]+$/.test(line));
  return lines.map((line) => line.slice(1, -1).split("|").map((cell) => cell.trim()));
}

// ---- include/deskboard.h: each enum, and every number by its name without DESKBOARD_
const HEADER = "include/deskboard.h";
function header() {
  const code = text(HEADER).replace(/\/\*[\s\S]*?\*\//g, "");
  const enums = {}, numbers = {};
  for (const [, name, body] of code.matchAll(/enum deskboard_(\w+) \{([^}]*)\}/g)) {
    enums[name] = body.split(",").map((one) => one.trim()).filter(Boolean).map((one) => {
      const is = one.match(/^DESKBOARD_(\w+) = (0x[0-9A-Fa-f]+|\d+)$/);
      need(is, HEADER, `enum deskboard_${name}: no number in '${one}'`);
      return [is[1], Number(is[2])];
    });
    for (const [one, value] of enums[name]) numbers[one] = value;
  }
  for (const [, name, value] of code.matchAll(/^#define DESKBOARD_(\w+) (\d+)u *$/gm)) numbers[name] = Number(value);
  need(enums.register && enums.refusal, HEADER, "no registers or no refusals");
  return { enums, numbers };
}

// ---- docs/HELP.md: the refusals, and the fields of an item
const SHEET = "docs/HELP.md";
function sheet(refusals) {
  const all = {}, table = rows(between(SHEET, "## The refusal numbers", "If several numbers"));
  for (const [no, name, calls, did, todo] of table) if (/^\d+$/.test(no)) all[no] = { name, calls, did, todo };
  for (const [name, no] of refusals) need(no === 0 || all[no], SHEET, `no row for DESKBOARD_${name}, ${no}`);
  return all;
}

// '2 to 4' and '5, 6' are places of several bytes; 'any' is any byte.
function field(place, said, range) {
  const [first, last = first] = place.match(/\d+/g).map(Number), [name, ...more] = said.split(":");
  const [least, most] = range === "any" ? [0, 255] : range.match(/[\d,]+/g).map(number);
  const names = Object.fromEntries([...more.join().matchAll(/(\d+) (\w+)/g)].filter(([, v]) => Number(v) <= most).map(([, v, word]) => [v, word]));
  const named = Object.keys(names).length === most - least + 1;
  return { name, say: more.join().trim(), place: first, size: last - first + 1, least, most, names: named ? names : null };
}

function fields(widths) {
  const part = between(SHEET, "### The ranges of an item", "### Notes"), full = [];
  for (const row of rows(part)) for (const cells of [row.slice(0, 3), row.slice(4, 7)]) if (/^\d/.test(cells[0])) full.push(field(...cells));
  full.sort((a, b) => a.place - b.place);
  need(full.length && full.every((f, i) => f.place === (i ? full[i - 1].place + full[i - 1].size : 0)), SHEET, "the ranges of an item leave a byte out");
  const on = part.match(/Running-on item: ([^.]*), with the same ranges/);
  need(on, SHEET, "no sentence on the running-on item");
  const width = full.find((f) => f.name === "width");
  need(width, SHEET, "no field width");
  width.names ??= Object.fromEntries(widths.map(([name, value]) => [value, name.toLowerCase()]));
  const running = [...on[1].matchAll(/(\d+) ([a-z ]+)/g)].map(([, place, name]) => ({ ...full.find((f) => f.name === name.trim()), place: Number(place) }));
  need(running.length && running.every((f) => f.name), SHEET, "the running-on item has a field that a full band has not");
  return { 1: full, 2: running };
}

// ---- docs/RULES.md: a record's control bits with their data, in the order of the data; and the blitter's modes
const RULES = "docs/RULES.md";
// 'map step (2)' and 'font (1 byte)' are a name and its bytes; 'hscroll' is one byte.
function datum(said) {
  const [, name, size = "1"] = said.match(/^(.*?)(?: \((\d)(?: byte)?\))?$/);
  return { name, size: Number(size) };
}

function record() {
  const bits = [[], []], data = [];
  for (const row of rows(between(RULES, "**R34. A record**", "**R35.")).filter((row) => /^\d$/.test(row[0])))
    [row.slice(0, 3), row.slice(3, 6)].forEach(([bit, name, holds], byte) => {
      bits[byte][Number(bit)] = name === "none" ? `bit ${bit} (${holds})` : name;
      const is = holds.match(/^(\d)(?:st|nd|rd|th): (.*)$/);
      if (!is) return;
      data[Number(is[1]) - 1] = { byte, bit: Number(bit), parts: is[2].split(", ").map(datum) };
    });
  need(bits.every((b) => b.length === 8) && data.length === 7 && data.every(Boolean), RULES, "R34: not 16 bits and 7 kinds of data");
  return { bits, data };
}

function modes() {
  const all = rows(between(RULES, "**R24. Modes.**", "**R25.")).filter(([mode]) => /^\d$/.test(mode)).map(([, writes]) => writes);
  need(all.length === 8, RULES, "R24: not 8 modes");
  return all;
}

// ---- examples/: each plan with the first remark of its text, and the memory of one of them
function examples() {
  const plans = readdirSync(join(top, "examples")).filter((name) => name.endsWith(".plan")).sort();
  need(plans.length > 0, "examples", "no plans");
  return plans.map((name) => {
    const said = text(`examples/${name.replace(/plan$/, "txt")}`).match(/^#\s*(.*)$/m);
    return { name: name.replace(/\.plan$/, ""), says: said ? said[1] : "", plan: readFileSync(join(top, "examples", name)).toString("hex") };
  });
}

// ---- docs/BROWSER.md: the page for renters, as { kind, text }: a heading, a paragraph or a point of a list. Pictures are left out.
const GUIDE = "docs/BROWSER.md";
function guide() {
  const parts = [];
  for (const line of text(GUIDE).split("\n").filter((each) => !each.startsWith("!["))) {
    const [, mark, rest] = line.match(/^(## |# |- )?(.*)$/), last = parts.at(-1);
    if (mark) parts.push({ kind: { "# ": "h2", "## ": "h3", "- ": "li" }[mark], text: rest });
    else if (!line.trim()) parts.push({ kind: "", text: "" });
    else if (last.kind === "p" || last.kind === "li") last.text += ` ${rest}`;
    else parts.push({ kind: "p", text: rest });
  }
  return parts.filter(({ kind }) => kind);
}

// Each name of the header that the page's script uses must be there.
function used(numbers) {
  for (const name of readdirSync(join(top, "web/page")).filter((name) => name.endsWith(".js"))) {
    const words = text(`web/page/${name}`).matchAll(/\bH\.([A-Z0-9_]+)/g);
    for (const [, word] of words) need(word in numbers, `web/page/${name}`, `${HEADER} has no DESKBOARD_${word}`);
  }
}

const { enums, numbers } = header();
used(numbers);
const base64 = (file) => readFileSync(file).toString("base64");
const out = {
  NUMBERS: numbers,
  ENUMS: enums,
  SHEET: sheet(enums.refusal),
  FIELDS: fields(enums.width),
  RECORD: record(),
  WRITES: modes(),
  EXAMPLES: examples(),
  GUIDE: guide(),
  MEMORY: base64(join(top, "examples/small_screen.mem")),
  MODULE: base64(module),
};
console.log("// Made by web/build out of the header, the help sheet, the rules, the examples and the module.");
for (const [name, value] of Object.entries(out)) console.log(`export const ${name} = ${JSON.stringify(value)};`);
