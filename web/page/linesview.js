// The 240 lines: what the module told of each, and the record that made it. The page only says where the record's bytes are and what they are called.
import { ENUMS, FIELDS } from "./facts.js";
import { H } from "./desk.js";
import { explainRecord } from "./plan.js";
import { inWords } from "./sheet.js";
import { show } from "./picture.js";
import { $, adr, css, el, hex, upDown, words } from "./dom.js";

const NAMES = ENUMS.settings_word.map(([name]) => words(name.replace("LINE_", "")));
const namesOf = (field) => FIELDS[1].find(({ name }) => name === field).names;
const MODES = namesOf("mode"), WIDTHS = namesOf("width");
const COLOURS = ["--off", "--text", "--sr", "--hr", "--lr"];
const EDGE = 10; // points of the edge that shows the mode

function shown(place, value) {
  if (place === H.LINE_MODE) return MODES[value];
  if (place === H.LINE_WIDTH) return WIDTHS[value];
  if (place === H.LINE_MAP_ON) return value ? "on" : "off";
  if (place === H.LINE_RECORD) return value === H.NO_RECORD ? "none" : adr(value);
  if (place === H.LINE_ADDRESS || place === H.LINE_MAP_ADDRESS) return adr(value);
  return place === H.LINE_FONT || place === H.LINE_PRIORITY ? "$" + hex(value) : String(value);
}

export class LinesView {
  constructor(bench, picture, plan) {
    Object.assign(this, { bench, picture, plan, line: 0 });
    const strip = $("strip");
    strip.onmousemove = (event) => this.choose(Math.floor((event.offsetY / strip.clientHeight) * H.LINES));
    strip.onkeydown = (event) => {
      const by = upDown(event.key, 8, H.LINES);
      if (by) { event.preventDefault(); this.choose(this.line + by); }
    };
    $("legend").append(...Object.entries(MODES).map(([mode, name]) => el("span", { className: `tag mode${mode}` }, name)));
  }

  draw() {
    this.table();
    this.choose(this.line);
  }

  // ---- lines that are alike in mode, map and record, one below the other, with the settings of the first
  bands() {
    const bands = [], alike = (a, b) => [H.LINE_MODE, H.LINE_MAP_ON, H.LINE_RECORD].every((place) => a[place] === b[place]);
    this.bench.lines().forEach(({ words }, n) => {
      if (n && alike(bands.at(-1).words, words)) bands.at(-1).to = n;
      else bands.push({ from: n, to: n, words });
    });
    return bands;
  }

  table() {
    const heads = ["lines", "mode", "address", "step", "scrolls", "font", "map", "width", "palettes", "record"];
    const rows = this.bands().map((band) => this.row(band));
    const answer = this.bench.frameAnswer();
    $("records").replaceChildren(el("thead", {}, el("tr", {}, ...heads.map((head) => el("th", { scope: "col" }, head)))), el("tbody", {}, ...rows));
    if (answer) $("records").append(el("caption", {}, `The frame is ${inWords(answer)}`));
  }

  row({ from, to, words: w }) {
    const mode = `mode${w[H.LINE_MODE]}`, off = w[H.LINE_MODE] === H.MODE_OFF;
    const cells = [
      from === to ? from : `${from} to ${to}`,
      el("span", { className: `tag ${mode}` }, MODES[w[H.LINE_MODE]]),
      off ? "" : adr(w[H.LINE_ADDRESS]),
      off ? "" : w[H.LINE_STEP],
      `${w[H.LINE_HSCROLL]} ${w[H.LINE_VSCROLL]}`,
      "$" + hex(w[H.LINE_FONT]),
      w[H.LINE_MAP_ON] ? `${adr(w[H.LINE_MAP_ADDRESS])} ${w[H.LINE_FIELD_WIDTH]}×${w[H.LINE_FIELD_HEIGHT]}` : "off",
      WIDTHS[w[H.LINE_WIDTH]],
      `${w[H.LINE_OVERLAY_PALETTE]} ${w[H.LINE_PLAYFIELD_PALETTE]}`,
      shown(H.LINE_RECORD, w[H.LINE_RECORD]),
    ].map((cell) => el("td", {}, cell instanceof Node ? cell : String(cell)));
    return el("tr", { className: mode, onclick: () => this.choose(from), data: { from, to } }, ...cells);
  }

  // ---- one line
  choose(n) {
    const lines = this.bench.lines();
    if (!lines.length) return;
    this.line = Math.max(0, Math.min(lines.length - 1, n));
    const now = lines[this.line].words, before = lines[this.line - 1]?.words;
    $("lineno").textContent = this.line;
    $("strip").setAttribute("aria-valuenow", String(this.line));
    const changed = (place) => before && before[place] !== now[place];
    const said = (place) => el("dd", { className: changed(place) ? "new" : "" }, shown(place, now[place]));
    $("settings").replaceChildren(...NAMES.flatMap((name, place) => [el("dt", {}, name), said(place)]));
    for (const row of $("records").querySelectorAll("tbody tr")) {
      const { from, to } = row.dataset;
      row.classList.toggle("chosen", Number(from) <= this.line && this.line <= Number(to));
    }
    this.origin(now[H.LINE_RECORD], lines);
    this.strip(lines);
  }

  origin(record, lines) {
    const none = record === H.NO_RECORD, bytes = none ? [] : explainRecord((place) => this.bench.byte((record + place) % H.MEMORY_512K));
    const first = lines.findIndex(({ words }) => words[H.LINE_RECORD] === record), { ended } = lines[this.line];
    $("recordsay").textContent = none ? "No record was read: the list is not switched on." : this.readFor(first, record, ended);
    $("recordhex").hidden = none;
    $("recordhex").replaceChildren(el("div", {}, ...bytes.map(({ value, say }) => el("span", { title: say }, hex(value)))));
    const firsts = bytes.filter(({ say }) => !/, byte [23] of/.test(say)); // a field of several bytes is said once
    $("recordwords").replaceChildren(...firsts.map(({ say }) => el("li", {}, say.replace(/, byte 1 of \d/, ""))));
  }

  readFor(first, record, ended) {
    if (ended) return `The list has ended. The last record was the one at ${adr(record)}, read for line ${first}.${this.item(record)}`;
    const later = first < this.line ? `, ${this.line - first} lines above` : "";
    return `The record at ${adr(record)}, read for line ${first}${later}.${this.item(record)}`;
  }

  // Which item of the plan it is, where the list is the plan's: the records of a list stand one behind the other.
  item(record) {
    if (this.plan.otherFrame()) return "";
    let at = this.bench.word[H.BOARD_XDL_ADR];
    const n = this.plan.records().findIndex((row) => { const here = at === record; at = (at + row.length) % H.MEMORY_512K; return here; });
    return n < 0 ? "" : ` It is item ${n} of the plan.`;
  }

  // The frame's picture, with an edge in the modes' colours and a mark at the line.
  strip(lines) {
    const canvas = $("strip"), context = show(canvas, this.picture);
    if (!context) return;
    const high = canvas.height / H.LINES, colours = COLOURS.map(css), top = (n) => Math.round(n * high);
    lines.forEach(({ words }, n) => { context.fillStyle = colours[words[H.LINE_MODE]]; context.fillRect(0, top(n), EDGE, top(n + 1) - top(n)); });
    context.fillStyle = css("--accent");
    context.fillRect(EDGE, top(this.line), canvas.width, Math.max(1, top(this.line + 1) - top(this.line)) / 2);
  }
}
