// Video memory as a picture, a byte a point, with outlines where the source and the destination of a block lie, and a byte that is pointed at.
import { H } from "./desk.js";
import { places } from "./block.js";
import { $, adr, css, hex, number } from "./dom.js";

const ROWS = 272, HIGHEST = 560, ZOOM = 3; // at most: rows, points of the screen downwards, points a byte
const LEAST_ROW = 16, MOST_ROW = 1024, PLAIN_ROW = 320;

export class VramView {
  constructor(bench, palettes) {
    Object.assign(this, { bench, palettes, cursor: 0, shown: null });
    const canvas = $("vram");
    canvas.onmousemove = (event) => this.point(Math.floor(event.offsetX / this.zoom), Math.floor(event.offsetY / this.zoom));
    canvas.onkeydown = (event) => this.key(event);
    canvas.onfocus = canvas.onblur = () => this.marks();
  }

  look({ from, row }) {
    $("viewfrom").value = adr(from);
    $("viewrow").value = row;
  }

  // What is typed above the picture; where it is no good, a plain value, and a word about it.
  read() {
    const from = number($("viewfrom").value), row = number($("viewrow").value);
    const goodFrom = Number.isInteger(from) && from >= 0 && from < H.MEMORY_512K, goodRow = Number.isInteger(row) && row >= LEAST_ROW && row <= MOST_ROW;
    $("viewfrom").setAttribute("aria-invalid", String(!goodFrom));
    $("viewrow").setAttribute("aria-invalid", String(!goodRow));
    const noFrom = goodFrom ? "" : "from is no address: seen from 0 on.";
    const noRow = goodRow ? "" : `bytes a row are ${LEAST_ROW} to ${MOST_ROW}: seen with ${PLAIN_ROW}.`;
    $("viewsay").textContent = `${noFrom} ${noRow}`.trim();
    Object.assign(this, { from: goodFrom ? from : 0, row: goodRow ? row : PLAIN_ROW });
  }

  // ---- the picture
  draw(bytes, board) {
    this.read();
    this.shown = { bytes, board };
    const room = $("vram").closest(".stack").parentElement.clientWidth;
    this.zoom = Math.max(1, Math.min(ZOOM, Math.floor(room / this.row)));
    this.rows = Math.min(Math.floor(HIGHEST / this.zoom), ROWS, Math.ceil(this.bench.length / this.row));
    this.paint();
    this.marks();
  }

  paint() {
    const { row, rows, zoom } = this, canvas = $("vram"), { colours } = this.palettes.all[1];
    if (canvas.width !== row || canvas.height !== rows) Object.assign(canvas, { width: row, height: rows });
    Object.assign(canvas.style, { width: `${row * zoom}px`, height: `${rows * zoom}px` });
    const context = canvas.getContext("2d"), image = context.createImageData(row, rows), points = new Uint32Array(image.data.buffer);
    const memory = this.bench.memory.view, { length } = this.bench;
    for (let i = 0; i < points.length; i++) points[i] = colours[memory[this.address(i) % length]];
    context.putImageData(image, 0, 0);
  }
  address(place) { return (this.from + place) % H.MEMORY_512K; }

  // ---- the marks: the areas of the block, the byte that comes next where the block is worked on, and the byte that was gone to by key
  marks() {
    if (!this.shown) return;
    const { bytes, board } = this.shown, canvas = Object.assign($("marks"), { width: this.row * this.zoom, height: this.rows * this.zoom });
    this.context = canvas.getContext("2d");
    this.context.lineWidth = 2;
    for (const { area, next, name } of places(bytes, board)) {
      this.context.strokeStyle = css(`--${name}`);
      this.outline(area);
      if (next !== null) this.box(next);
    }
    this.context.strokeStyle = css("--accent");
    if (document.activeElement === $("vram")) this.box(this.address(this.cursor));
  }

  // The point of a byte. Where memory is short, it is seen more than once; the first place counts.
  cell(address) {
    const { length } = this.bench, place = (((address - this.from) % length) + length) % length;
    return [(place % this.row) * this.zoom, Math.floor(place / this.row) * this.zoom];
  }

  // Around the bytes at the four corners of an area, also where its rows lean or go backwards.
  outline({ at, rows, columns }) {
    const [first, right, last, below] = [[0, 0], [0, columns - 1], [rows - 1, columns - 1], [rows - 1, 0]].map(([row, column]) => this.cell(at(row, column)));
    const wide = right[0] >= first[0], down = below[1] >= first[1], near = -1, far = this.zoom + 1;
    const [left, across] = wide ? [near, far] : [far, near], [top, bottom] = down ? [near, far] : [far, near];
    const { context } = this;
    context.beginPath();
    for (const [[x, y], dx, dy] of [[first, left, top], [right, across, top], [last, across, bottom], [below, left, bottom]]) context.lineTo(x + dx, y + dy);
    context.closePath();
    context.stroke();
  }

  box(address) {
    const [x, y] = this.cell(address);
    this.context.strokeRect(x - 3, y - 3, this.zoom + 6, this.zoom + 6);
  }

  // ---- the byte that is pointed at, by hand or by key
  point(x, y) {
    this.cursor = Math.max(0, Math.min(this.rows - 1, y)) * this.row + Math.max(0, Math.min(this.row - 1, x));
    const address = this.address(this.cursor);
    $("pointed").textContent = `${adr(address)} = $${hex(this.bench.byte(address))}`;
  }
  key(event) {
    const by = { ArrowLeft: [-1, 0], ArrowRight: [1, 0], ArrowUp: [0, -1], ArrowDown: [0, 1] }[event.key];
    if (!by) return;
    event.preventDefault();
    this.point((this.cursor % this.row) + by[0], Math.floor(this.cursor / this.row) + by[1]);
    this.marks();
  }
}
