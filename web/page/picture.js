// The picture of a frame, and the four palettes, which the page holds: the board has none. The pixels are those that the module drew.
import { H } from "./desk.js";
import { css } from "./dom.js";

const rgb = (red, green, blue) => (255 << 24) | (blue << 16) | (green << 8) | red;
const level = (value, most) => Math.floor((value * 255) / most);

// Ways to give each of 256 colours its red, green and blue. The first is that of planpic.
const hue = (colour) => {
  const bright = (colour % 16) / 15, angle = ((colour >> 4) - 1) * 0.44, strength = colour >> 4 ? 0.22 : 0;
  const [i, q] = [strength * Math.cos(angle), strength * Math.sin(angle)];
  const parts = [bright + 0.956 * i + 0.621 * q, bright - 0.272 * i - 0.647 * q, bright - 1.106 * i + 1.703 * q];
  return rgb(...parts.map((one) => Math.max(0, Math.min(255, Math.round(one * 255)))));
};
const WAYS = {
  "red, green, blue": (colour) => rgb(level(colour >> 5, 7), level((colour >> 2) & 7, 7), level(colour & 3, 3)),
  "hue and brightness": hue,
  grey: (colour) => rgb(colour, colour, colour),
};
export const WAY_NAMES = Object.keys(WAYS);

export class Palettes {
  constructor() { this.all = [0, 1, 2, 3].map(() => this.made(WAY_NAMES[0])); }
  made(way) { return { way, colours: Uint32Array.from({ length: 256 }, (_, colour) => WAYS[way](colour)) }; }
  choose(number, way) { this.all[number] = this.made(way); }

  // A file of 256 times red, green, blue. False where it has another length.
  load(number, bytes, name) {
    if (bytes.length !== 768) return false;
    this.all[number] = { way: name, colours: Uint32Array.from({ length: 256 }, (_, i) => rgb(bytes[3 * i], bytes[3 * i + 1], bytes[3 * i + 2])) };
    return true;
  }
  colour(pixel) { return this.all[(pixel >> 8) & 3].colours[pixel & 255]; }
}

// How many points of the picture a pixel is wide: as many as make the line about as wide as the others.
export const pointsOf = (pixels) => (pixels.length === 0 ? 1 : H.LINE_PIXELS / 2 >= pixels.length ? (H.LINE_PIXELS / 4 >= pixels.length ? 4 : 2) : 1);
export const leftOf = (pixels) => (H.LINE_PIXELS - pixels.length * pointsOf(pixels)) / 2;

const asPoint = (name) => { const [red, green, blue] = css(name).match(/[0-9a-f]{2}/gi).map((pair) => parseInt(pair, 16)); return rgb(red, green, blue); };

// A canvas of 672 by 240 points that is not shown; the canvases on the page are drawn from it.
export class FramePicture {
  constructor(bench, palettes) {
    Object.assign(this, { bench, palettes, canvas: document.createElement("canvas"), drawn: null });
    this.canvas.width = H.LINE_PIXELS;
    this.canvas.height = H.LINES;
    bench.watch(() => this.stale());
  }
  stale() { this.drawn = null; }

  now() {
    if (this.drawn !== this.bench.lines()) this.paint((this.drawn = this.bench.lines()));
    return this.canvas;
  }

  paint(lines) {
    const context = this.canvas.getContext("2d"), image = context.createImageData(H.LINE_PIXELS, H.LINES), points = new Uint32Array(image.data.buffer);
    this.board = [asPoint("--clear1"), asPoint("--clear2")]; // the checkerboard of transparent pixels
    points.fill(asPoint("--beside"));
    lines.forEach(({ pixels }, y) => this.row(points, y, pixels));
    context.putImageData(image, 0, 0);
  }

  row(points, y, pixels) {
    const wide = pointsOf(pixels), clear = (at) => this.board[((at % H.LINE_PIXELS >> 2) ^ (y >> 1)) & 1];
    let at = y * H.LINE_PIXELS + leftOf(pixels);
    for (const pixel of pixels)
      for (let i = 0; i < wide; i++, at++) points[at] = pixel === H.TRANSPARENT ? clear(at) : this.palettes.colour(pixel);
  }
}

// Draws the frame onto a canvas of the page, as large as it stands there; lines become two or more points high.
export function show(canvas, picture, ratio = devicePixelRatio || 1) {
  const wide = Math.round(canvas.clientWidth * ratio), high = Math.round(canvas.clientHeight * ratio);
  if (!wide) return null;
  if (canvas.width !== wide || canvas.height !== high) Object.assign(canvas, { width: wide, height: high });
  const context = canvas.getContext("2d");
  context.imageSmoothingEnabled = wide < H.LINE_PIXELS;
  context.drawImage(picture.now(), 0, 0, wide, high);
  return context;
}
