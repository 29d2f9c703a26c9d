// The plan as a table, the module's verdict, and the bytes of plan and list. Whether a plan is good is the module's answer; the page only
// points at the fields of a refused item that are out of the sheet's ranges.
import { EXAMPLES, FIELDS } from "./facts.js";
import { H, itemOf, numberOf } from "./desk.js";
import { bytesOfPlan, explainItem, fits, inRange, itemsOfPlan, newItem, rangeOf, recordsOf } from "./plan.js";
import { told } from "./sheet.js";
import { show } from "./picture.js";
import { $, adr, assembler, copy, count, el, hex, number, onFile, options, pasted, save, say, upDown } from "./dom.js";

const MOST_BYTES = 8192; // as planxdl: more than any plan that the module takes

// What stands above a field in the table. The fields come in the sheet's order, so each group is in one piece.
function groupOf(name) {
  if (name === "lines") return "";
  if (/^(map|field)\b/.test(name)) return "attribute map";
  return ["width", "palettes", "priority"].includes(name) ? "line" : "overlay";
}
const NAMES = FIELDS[1].map(({ name }) => name);
const GROUPS = NAMES.map(groupOf).filter((group, i, all) => group !== all[i - 1]);
const headOf = (name) => name.replace(/^(overlay|map) (?=.)/, "").replace("field ", "f. ");
const shown = (field, value) => (field.size === 3 ? adr(value) : field.name === "priority" || field.name === "font" ? "$" + hex(value) : String(value));
const KEPT = 100; // steps that can be undone

export class PlanView {
  constructor(bench, picture) {
    Object.assign(this, { bench, picture, items: [], chosen: 0, list: null, typed: new Map(), undone: [], changed: () => {}, otherFrame: () => "" });
    this.lent = bench.desk.bytes(MOST_BYTES);
    this.out = bench.desk.bytes(H.LIST_BYTES);
    this.root = $("plan");
    $("examples").append(...options([["", "choose"], ...EXAMPLES.map(({ name }) => [name, name.replace(/_/g, " ")])]));
    $("examples").onchange = () => this.example($("examples").value);
    onFile($("open"), (bytes, name) => this.open(bytes, name));
    for (const button of this.root.querySelectorAll("[data-do]")) button.onclick = () => this.act(button.dataset.do);
    for (const id of ["listhex", "planhex"]) this.walk($(id));
    this.point(null);
  }

  // ---- calls
  compile(bytes) {
    this.lent.view.set(bytes.subarray(0, MOST_BYTES));
    const answer = this.bench.desk.call("compile", this.lent.first(bytes.length), this.out, this.bench.report);
    return { answer, list: answer ? null : this.out.view.slice(0, this.bench.report.view[H.REPORT_BYTES]) };
  }

  // ---- plans that come from elsewhere
  example(name) {
    const found = EXAMPLES.find((each) => each.name === name);
    if (found) this.open(pasted(found.plan).bytes, `${name}: ${found.says}`);
    $("examples").value = name;
  }

  open(bytes, name) {
    const { answer } = this.compile(bytes), long = bytes.length > MOST_BYTES, items = long ? null : itemsOfPlan(bytes);
    const why = long ? `it has ${count(bytes.length)} bytes, and no plan has more than ${count(MOST_BYTES)}` : "it is no row of items";
    if (!items) return this.refused(answer, [`${name} is not opened: ${why}. `]);
    this.replace(items);
    $("byte").textContent = name;
  }

  take(items) {
    Object.assign(this, { items, chosen: 0 });
    this.anew();
  }
  replace(items) {
    this.keep();
    this.take(items);
  }

  // ---- what the buttons do
  act(what) {
    const { items, chosen } = this, item = items[chosen], after = items.length ? chosen + 1 : 0;
    if (what === "saveplan") return save("screen.plan", bytesOfPlan(items));
    if (["savelist", "assembler"].includes(what) && !this.list) return say("there is no list: the plan is refused");
    if (what === "savelist") return save("screen.xdl", this.list);
    if (what === "assembler") return this.copyList();
    if (what === "undo") return this.undo();
    this.keep();
    if (what === "full") this.insert(after, newItem(1, null, this.bench.beginning()));
    if (what === "running") this.insert(after, newItem(2, item, this.bench.beginning()));
    if (what === "copy" && item) this.insert(after, { ...item });
    if (what === "up" && chosen > 0) this.move(chosen - 1);
    if (what === "down" && chosen + 1 < items.length) this.move(chosen + 1);
    if (what === "remove") { items.splice(chosen, 1); this.chosen = Math.max(0, Math.min(chosen, items.length - 1)); }
    this.anew();
  }

  copyList() {
    const rows = this.records().map((row) => row.map(({ value }) => value));
    return copy(assembler(rows), `${this.list.length} bytes as assembler lines`);
  }

  insert(at, item) { this.items.splice(at, 0, item); this.chosen = at; }
  move(to) { this.insert(to, ...this.items.splice(this.chosen, 1)); }

  // ---- undo: the plan before each change
  keep() {
    const now = bytesOfPlan(this.items);
    if (String(this.undone.at(-1)) !== String(now)) this.undone.push(now);
    if (this.undone.length > KEPT) this.undone.shift();
    $("examples").value = ""; // so that the same one can be chosen again
  }
  undo() {
    const now = String(bytesOfPlan(this.items));
    while (this.undone.length && String(this.undone.at(-1)) === now) this.undone.pop();
    if (this.undone.length) this.take(itemsOfPlan(this.undone.pop()));
  }
  // The plan that the page begins with: there is nothing before it.
  first(name) {
    this.example(name);
    this.undone = [];
    $("undo").disabled = true;
  }

  anew() {
    this.typed.clear();
    this.table();
    this.judge();
  }

  // ---- the table
  table() {
    const wide = (group) => NAMES.filter((name) => groupOf(name) === group).length;
    const above = GROUPS.map((group) => el("th", { colSpan: wide(group), className: group && "group", scope: "colgroup" }, group));
    const groups = el("tr", {}, el("th", { colSpan: 2 }), ...above);
    const heads = el("tr", {}, el("th", {}, "item"), el("th", {}, "from"), ...NAMES.map((name) => el("th", { title: name, scope: "col" }, headOf(name))));
    const rows = this.items.map((item, n) => this.row(item, n));
    $("items").replaceChildren(el("thead", {}, groups, heads), el("tbody", {}, ...rows));
    this.choose(this.chosen);
  }

  row(item, n) {
    const cells = NAMES.map((name) => {
      const field = FIELDS[item.kind].find((each) => each.name === name);
      return field ? this.cell(item, n, field) : el("td", { className: "none", title: "runs on from above" }, "·");
    });
    const full = item.kind === 1;
    const head = el("td", { className: "number", title: full ? "full band" : "running on" }, full ? String(n) : `${n} ↳`);
    const made = el("tr", { className: `item ${this.colour(item)}` }, head, el("td", { className: "number from" }), ...cells);
    made.onmousedown = () => this.choose(n);
    made.addEventListener("focusin", (event) => { this.choose(n); $("byte").textContent = event.target.getAttribute("aria-label") ?? ""; });
    return made;
  }

  colour(item) { return item.kind === 1 ? `mode${item.mode}` : "on"; }
  rows() { return [...$("items").querySelectorAll("tbody tr")]; }
  choose(n) {
    this.chosen = n;
    this.rows().forEach((row, i) => row.classList.toggle("chosen", i === n));
  }

  cell(item, n, field) {
    const title = `${field.name}${field.say ? `: ${field.say}` : ""}, ${rangeOf(field)}`, aria = { label: `item ${n}, ${title}` };
    const value = item[field.name];
    const input = field.names ? this.select(field, value, title, aria) : this.input(field, value, title, aria);
    input.oninput = () => this.edit(item, n, field, input);
    input.onkeydown = (event) => this.step(event, n, field);
    return el("td", { data: { at: `${n}:${field.name}` } }, input);
  }

  input(field, value, title, aria) {
    const className = ["", "", "two", "three"][field.size];
    return el("input", { title, aria, spellcheck: false, className, value: shown(field, value) });
  }

  select(field, value, title, aria) {
    const known = Object.entries(field.names), all = field.names[value] ? known : [...known, [value, String(value)]];
    const input = el("select", { title, aria }, ...options(all));
    input.value = value;
    return input;
  }

  edit(item, n, field, input) {
    const value = number(input.value), key = `${n}:${field.name}`;
    this.keep();
    if (fits(field, value)) {
      item[field.name] = value;
      this.typed.delete(key);
    } else {
      const size = field.size === 1 ? "one byte" : `${field.size} bytes`;
      this.typed.set(key, `item ${n}, ${field.name}: '${input.value}' is no number of ${size}. The last one that was counts.`);
    }
    if (field.name === "mode") input.closest("tr").className = `item ${this.colour(item)} chosen`;
    this.judge();
  }

  // Up and down: the same field of the next item that has it.
  step(event, n, field) {
    const by = upDown(event.key, 0, 0);
    if (!by || event.target.tagName === "SELECT") return;
    for (let m = n + by; m >= 0 && m < this.items.length; m += by) {
      const next = this.at(m, field.name)?.firstChild;
      if (next) { event.preventDefault(); next.focus(); next.select?.(); return; }
    }
  }
  at(n, name) { return this.root.querySelector(`[data-at="${n}:${name}"]`); }

  // ---- the verdict, and the bytes
  judge() {
    const bytes = bytesOfPlan(this.items), { answer, list } = this.compile(bytes);
    let from = 0;
    this.rows().forEach((row, n) => { row.querySelector(".from").textContent = from; from += this.items[n].lines; });
    this.list = list;
    this.verdict(answer, from);
    this.hex("planhex", this.items.map(explainItem));
    this.hex("listhex", this.records());
    $("plansize").textContent = `${count(bytes.length)} bytes`;
    $("listsize").textContent = list ? `${count(list.length)} bytes, as planxdl prints it` : "";
    $("undo").disabled = !this.undone.some((kept) => String(kept) !== String(bytes));
    this.changed();
  }
  records() { return this.list ? recordsOf(this.list) : []; }

  verdict(answer, lines) {
    const [typed] = this.typed.values();
    this.rows().forEach((row, n) => row.classList.toggle("faulty", answer !== 0 && numberOf(answer) !== H.REFUSED_NO_BAND && n === itemOf(answer)));
    for (const cell of this.root.querySelectorAll("[data-at]")) cell.firstChild.setAttribute("aria-invalid", String(this.typed.has(cell.dataset.at)));
    const before = typed ? [el("b", {}, "not taken "), `${typed} `] : [];
    if (answer) return this.refused(answer, before, this.wrong(answer));
    this.put(Boolean(typed), ...before, el("b", {}, `XDL ${this.list.length} `), `${lines} of ${H.LINES} lines.`);
  }
  refused(answer, before, wrong = []) {
    for (const field of wrong) this.at(itemOf(answer), field.name).firstChild.setAttribute("aria-invalid", "true");
    const value = (field) => count(this.items[itemOf(answer)][field.name]);
    const here = wrong.map((field) => ` Here: ${field.name} is ${value(field)}, its range is ${rangeOf(field)}.`);
    this.put(true, ...before, ...told(answer, ...here));
  }
  // The fields of an item that was refused 9 which are out of the ranges on the sheet.
  wrong(answer) {
    const item = this.items[itemOf(answer)];
    return numberOf(answer) === H.REFUSED_FIELD ? FIELDS[item.kind].filter((field) => !inRange(field, item[field.name])) : [];
  }
  put(bad, ...words) {
    $("verdict").className = bad ? "bad" : "";
    $("verdict").replaceChildren(...words);
  }

  hex(id, rows) {
    $(id).replaceChildren(...rows.map((row, n) => el("div", { className: this.colour(this.items[n] ?? { kind: 2 }) }, ...row.map((byte) => {
      const span = el("span", {}, hex(byte.value));
      span.byte = { ...byte, item: n };
      return span;
    }))));
    $(id).onmouseover = (event) => event.target.byte && this.point(event.target);
    $(id).onmouseleave = () => this.point(null);
  }

  // A byte that is pointed at: said in words, and its field marked wherever it stands.
  point(span) {
    for (const marked of this.root.querySelectorAll(".hit, .at")) marked.classList.remove("hit", "at");
    if (!span) return ($("byte").textContent = "Point at a byte, or go to it with the arrow keys: here it is said what it is.");
    const { item, names, value, say } = span.byte, shares = (other) => other.byte.item === item && other.byte.names.some((name) => names.includes(name));
    $("byte").textContent = `item ${item} · $${hex(value)} = ${value} · ${say}`;
    span.classList.add("at");
    for (const name of names) this.at(item, name)?.classList.add("hit");
    for (const other of this.root.querySelectorAll(".hex span")) if (shares(other)) other.classList.add("hit");
  }

  walk(box) {
    box.onkeydown = (event) => {
      const all = [...box.querySelectorAll("span")], now = all.findIndex((span) => span.classList.contains("at"));
      const row = all[now]?.parentElement.children.length ?? 1;
      const by = { ArrowRight: 1, ArrowLeft: -1, Home: -all.length, End: all.length }[event.key] ?? upDown(event.key, 0, 0) * row;
      if (!by || !all.length) return;
      event.preventDefault();
      const to = all[now < 0 ? 0 : Math.max(0, Math.min(all.length - 1, now + by))];
      this.point(to);
      to.scrollIntoView({ block: "nearest" });
    };
  }

  // ---- the frame, small
  draw() {
    $("planpicturesay").textContent = this.otherFrame();
    $("planpicture").classList.toggle("stale", Boolean(this.otherFrame()));
    show($("planpicture"), this.picture);
  }
}
