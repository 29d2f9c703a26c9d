// The blitter: a list of blocks by name, laid into the bench's memory, and the board that works on it. What a tick does is a call of the module.
import { ENUMS } from "./facts.js";
import { H } from "./desk.js";
import { block, GROUPS, setNext } from "./block.js";
import { BLOCKS_AT, SCENE_PLAN, SCENE_VIEW, SCENES } from "./scenes.js";
import { newItem } from "./plan.js";
import { inWords } from "./sheet.js";
import { show } from "./picture.js";
import { VramView } from "./vramview.js";
import { $, adr, assembler, copy, count, el, hex, hexRow, number, options } from "./dom.js";

const KEYS = { s: "start", t: "tick", r: "row", u: "run", p: "play", n: "again" };
const WORKS = ["tick", "row", "run"]; // each of them starts an idle board
const KEPT = 80; // rows of the log
const FLAGS = Object.fromEntries(ENUMS.flags.map(([name, value]) => [value, `${value} ${name}`]));
const ADDRESSES = [H.BOARD_XDL_ADR, H.BOARD_BL_ADR, H.BOARD_LIST], BYTES = [H.BOARD_VIDEO_CONTROL, H.BOARD_CODE];

// A block for the example memory: a part of its SR picture, copied within it.
const FIRST = block({ "source address": 0x1000 + 200, "destination address": 0x1000 + 20 * 320 + 40, width: 80, height: 50 });

// A word of the board, as it is written.
function shown(place, value) {
  if (place === H.BOARD_FLAGS) return FLAGS[value];
  if (ADDRESSES.includes(place)) return adr(value);
  return BYTES.includes(place) ? "$" + hex(value) : String(value);
}

export class BlitterView {
  constructor(bench, picture, palettes, benchView, plan) {
    Object.assign(this, { bench, picture, benchView, plan, vram: new VramView(bench, palettes) });
    Object.assign(this, { blocks: [FIRST.slice()], chosen: 0, ticks: 0, accesses: 0, differ: 0, playing: 0, said: [], wrong: new Map() });
    this.root = $("blitter");
    $("scenes").append(...options([["", "none: memory as it is"], ...SCENES.map(({ name }) => [name, name])]));
    $("scenes").onchange = () => this.scene();
    for (const button of this.root.querySelectorAll("[data-do]")) button.onclick = () => this.act(button.dataset.do);
    $("speed").oninput = () => this.speed();
    const written = ENUMS.register.filter(([name]) => name.startsWith("WRITE_"));
    $("register").append(...options(written.map(([name, offset]) => [offset, `$${hex(offset)} ${name.slice(6)}`])));
    $("registers").onsubmit = (event) => { event.preventDefault(); this.register(); };
    for (const id of ["viewfrom", "viewrow"]) $(id).oninput = () => this.draw();
    document.addEventListener("keydown", (event) => this.key(event));
    this.vram.look({ from: 0x1000, row: 320 });
    this.speed();
    this.form();
  }

  // ---- scenes
  scene() {
    const found = SCENES.find(({ name }) => name === $("scenes").value);
    this.play(false);
    $("scenesay").textContent = found?.says ?? "";
    $("again").disabled = !found;
    if (!found) return;
    this.bench.anew();
    this.benchView.begin("scene");
    if (found.plan) this.plan.replace(found.plan.map((item) => ({ ...newItem(item.kind, null, this.bench.beginning()), ...item })));
    else this.plan.example(SCENE_PLAN);
    this.blocks = found.blocks(this.bench.word[H.BOARD_XDL_ADR]);
    this.chosen = 0;
    this.vram.look(found.view ?? SCENE_VIEW);
    Object.assign(this, { ticks: 0, accesses: 0, differ: 0, said: [] });
    this.say("a new board; the scene's memory and plan");
    this.form();
  }

  // ---- what the buttons and keys do
  key(event) {
    const typing = /INPUT|SELECT|TEXTAREA/.test(event.target.tagName) && event.target.type !== "range";
    if (this.root.hidden || $("guide").open || typing || event.ctrlKey || event.altKey || event.metaKey || !KEYS[event.key]) return;
    event.preventDefault();
    this.act(KEYS[event.key]);
  }

  act(what) {
    if (what === "play") return this.play(!this.playing);
    this.play(false);
    if (what === "again") return this.scene();
    if (what === "stop") this.write(H.WRITE_BLITTER_START, 0, "stop");
    if (what === "reset") this.tell(this.bench.reset(), "RESET");
    if (what === "start" || (WORKS.includes(what) && this.idle())) this.start();
    if (what === "tick") this.count("tick", () => [this.bench.run()]);
    if (what === "row") this.count("row", () => this.row());
    if (what === "run") this.count(`run ${count(H.BUDGET)}`, () => [this.bench.run(H.BUDGET)]);
    this.bench.changed();
  }

  idle() { return this.bench.word[H.BOARD_FLAGS] === H.IDLE; }

  // The blocks go into memory, and the board is told to work on them.
  start() {
    this.bench.load(Uint8Array.from(this.blocks.flatMap((bytes) => [...bytes])), BLOCKS_AT);
    this.bench.writeAll(H.WRITE_BL_ADR0, BLOCKS_AT, 3);
    this.bench.write(H.WRITE_IRQ_CONTROL, 1);
    this.write(H.WRITE_BLITTER_START, 1, `${this.blocks.length} block${this.blocks.length > 1 ? "s" : ""} laid at ${adr(BLOCKS_AT)}; BL_ADR, IRQE, START`);
  }

  // Ticks until the row is another, or the block has ended.
  row() {
    const done = [], word = () => this.bench.word, row = word()[H.BOARD_ROW];
    do done.push(this.bench.run()); while (done.at(-1).ticks && word()[H.BOARD_FLAGS] === H.BUSY && word()[H.BOARD_ROW] === row);
    return done;
  }

  // Does the work, runs of the board, and adds up: ticks, accesses, and the bytes of memory that differ by it.
  work(runs) {
    const before = this.bench.memory.view.slice(), done = runs(), after = this.bench.memory.view;
    const sum = (what) => done.reduce((all, run) => all + run[what], 0), ticks = sum("ticks"), accesses = sum("accesses");
    this.ticks += ticks;
    this.accesses += accesses;
    this.differ = 0;
    for (let i = 0; i < after.length; i++) if (before[i] !== after[i]) this.differ++;
    return { ticks, accesses, answer: done.at(-1).answer };
  }

  count(name, runs) {
    const { ticks, accesses, answer } = this.work(runs);
    this.tell(answer, `${name}: ${count(ticks)} tick${ticks === 1 ? "" : "s"}, ${count(accesses)} accesses${this.idle() ? "; the list is done" : ""}`);
  }

  tell(answer, done) { this.say(answer ? inWords(answer) : done); }

  // A START begins a new count.
  write(offset, value, done) {
    if (offset === H.WRITE_BLITTER_START && value % 2 === 1) Object.assign(this, { ticks: 0, accesses: 0 });
    this.tell(this.bench.write(offset, value), done);
  }

  register() {
    const offset = Number($("register").value), value = number($("value").value), fits = Number.isInteger(value) && value >= 0 && value < 256;
    $("value").setAttribute("aria-invalid", String(!fits));
    if (!fits) return this.say(`'${$("value").value}' is no byte: nothing is written`);
    this.write(offset, value, `write $${hex(offset)}: $${hex(value)}`);
    this.bench.changed();
  }

  say(text) {
    this.said.unshift(text);
    this.said.length = Math.min(this.said.length, KEPT);
    $("log").textContent = this.said.join("\n");
  }

  // ---- play: so many ticks for each picture of the screen
  speed() {
    this.step = 2 ** Number($("speed").value);
    $("speedsay").textContent = `${count(this.step)} ticks a picture`;
  }

  play(on) {
    cancelAnimationFrame(this.playing);
    this.playing = 0;
    $("play").setAttribute("aria-pressed", String(on));
    if (!on) return;
    if (this.idle()) this.start();
    const next = () => {
      const { ticks, answer } = this.work(() => [this.bench.run(this.step)]);
      if (answer || this.idle()) this.ended(ticks, answer);
      else this.playing = requestAnimationFrame(next);
      this.bench.changed();
    };
    this.playing = requestAnimationFrame(next);
  }
  // It was idle before where no tick was done: stopped by a register.
  ended(ticks, answer) {
    this.play(false);
    this.tell(answer, `played: ${count(this.ticks)} ticks, ${count(this.accesses)} accesses; ${ticks ? "the list is done" : "it was stopped"}`);
  }

  // ---- the form
  form() {
    const bytes = this.blocks[this.chosen];
    const choice = this.blocks.map((_, n) => {
      const aria = { pressed: n === this.chosen };
      return el("button", { aria, onclick: () => this.choose(n) }, `Block ${n + 1}`);
    });
    const more = el("button", { title: "Another block behind the last", aria: { label: "Add a block" }, onclick: () => this.add() }, "+");
    const less = el("button", { title: "Take this block away", aria: { label: "Remove the block" }, onclick: () => this.remove() }, "−");
    const copied = el("button", { onclick: () => copy(assembler(this.blocks), `${this.blocks.length} blocks as assembler lines`) }, "Copy as assembler");
    const groups = Object.entries(GROUPS).map(([name, fields]) => this.group(bytes, name, fields));
    this.wrong.clear();
    this.notTaken = el("p", { className: "bad small", aria: { live: "polite" } });
    this.raw = el("p", { className: "bytes" });
    const hint = el("p", { className: "dim small" }, "s is the source byte, AND and XOR applied; d is the destination byte before.");
    $("blocks").replaceChildren(el("div", { className: "choices" }, ...choice, more, less, copied), ...groups, hint, this.notTaken, this.raw);
    this.edited();
  }

  choose(n) {
    this.chosen = n;
    this.form();
  }

  // The fields of a group, named without the group's own name.
  group(bytes, name, fields) {
    const labels = Object.entries(fields).map(([field, of]) => this.field(bytes, field.replace(name + " ", ""), of));
    return el("fieldset", { className: name }, el("legend", {}, name), ...labels);
  }

  field(bytes, name, field) {
    const title = `${field.least} to ${field.most}`, choices = field.names?.map((says, value) => [value, says]);
    const input = choices ? el("select", { title }, ...options(choices)) : el("input", { title, spellcheck: false });
    input.value = field.names ? field.get(bytes) : (field.show ?? String)(field.get(bytes));
    input.oninput = () => {
      const value = number(input.value), fits = Number.isInteger(value) && value >= field.least && value <= field.most;
      input.setAttribute("aria-invalid", String(!fits));
      if (fits) field.set(bytes, value);
      this.taken(input, fits ? "" : `${name}: '${input.value}' is no number from ${count(field.least)} to ${count(field.most)}. The last good one counts.`);
      this.edited();
    };
    return el("label", { className: field.names && field.names.length > 2 || name === "NEXT" ? "all" : "" }, name, input);
  }

  add() {
    setNext(this.blocks.at(-1), true);
    this.blocks.push(this.blocks[this.chosen].slice());
    this.chosen = this.blocks.length - 1;
    setNext(this.blocks.at(-1), false);
    this.form();
  }
  remove() {
    if (this.blocks.length === 1) return;
    this.blocks.splice(this.chosen, 1);
    setNext(this.blocks.at(-1), false);
    this.chosen = Math.max(0, this.chosen - 1);
    this.form();
  }
  edited() {
    this.raw.textContent = hexRow(this.blocks[this.chosen]);
    this.bench.changed();
  }
  taken(input, why) {
    if (why) this.wrong.set(input, why);
    else this.wrong.delete(input);
    this.notTaken.textContent = [...this.wrong.values()].join(" ");
  }

  draw() {
    const word = this.bench.word, busy = word[H.BOARD_FLAGS] === H.BUSY;
    this.vram.draw(busy ? word.slice(H.BOARD_BLOCK, H.BOARD_BLOCK + H.BLOCK_BYTES) : this.blocks[this.chosen], word);
    this.state();
    show($("blitpicture"), this.picture);
  }

  // ---- the board's words, and what its registers read
  state() {
    const word = this.bench.word;
    const told = ENUMS.board_word.filter(([name]) => !/_P\d$/.test(name));
    const cells = [
      ...told.map(([name, place]) => [name.replace("BOARD_", ""), shown(place, word[place])]),
      ["ticks", count(this.ticks)],
      ["accesses", count(this.accesses)],
      ["bytes changed", count(this.differ)],
    ];
    $("state").replaceChildren(...cells.map(([name, value]) => el("div", {}, name, el("b", {}, value))));
    const reads = ENUMS.register.filter(([name]) => name.startsWith("READ_"));
    $("reads").textContent = "reads: " + reads.map(([name, offset]) => `${name.slice(5)} $${hex(this.bench.read(offset))}`).join(", ");
  }
}
