// The frame as a picture: each line drawn by the module, in the palettes that the page holds.
import { H } from "./desk.js";
import { leftOf, pointsOf, show, WAY_NAMES } from "./picture.js";
import { $, css, el, hex, onDrop, onFile, options, save, say } from "./dom.js";

export class PictureView {
  constructor(bench, picture, palettes, benchView) {
    Object.assign(this, { bench, picture, palettes, at: { x: H.LINE_PIXELS / 2, y: H.LINES / 2 } });
    const canvas = $("whole");
    this.choices();
    canvas.onmousemove = (event) => this.point((event.offsetX / canvas.clientWidth) * H.LINE_PIXELS, (event.offsetY / canvas.clientHeight) * H.LINES);
    canvas.onkeydown = (event) => {
      const by = { ArrowLeft: [-1, 0], ArrowRight: [1, 0], ArrowUp: [0, -1], ArrowDown: [0, 1] }[event.key];
      if (by) { event.preventDefault(); this.point(this.at.x + by[0] * this.wide(), this.at.y + by[1]); this.draw(true); }
    };
    onDrop(canvas, (bytes, name) => benchView.load(bytes, name));
    $("savepicture").onclick = () => this.save();
  }

  // ---- the palettes
  choices() {
    $("palettes").replaceChildren(...this.palettes.all.map(({ way }, n) => {
      const ways = WAY_NAMES.includes(way) ? WAY_NAMES : [...WAY_NAMES, way]; // the other way is a file's name
      const offered = [...ways.map((name) => [name, name]), ["file", "a file of 768 bytes"]];
      const choice = el("select", { aria: { label: `palette ${n}` } }, ...options(offered));
      const file = el("input", { type: "file", hidden: true });
      choice.value = way;
      choice.onchange = () => (choice.value === "file" ? file.click() : this.chosen(() => this.palettes.choose(n, choice.value)));
      onFile(file, (bytes, name) => this.loaded(n, bytes, name));
      file.oncancel = () => this.choices();
      return el("fieldset", {}, el("legend", {}, `palette ${n}`), choice, file, this.bars(n));
    }));
  }

  bars(n) {
    const canvas = el("canvas", { width: 256, height: 1, className: "bars", aria: { hidden: true } });
    const context = canvas.getContext("2d"), image = context.createImageData(256, 1);
    new Uint32Array(image.data.buffer).set(this.palettes.all[n].colours);
    context.putImageData(image, 0, 0);
    return canvas;
  }

  chosen(change) {
    change();
    this.choices();
    this.picture.stale();
    this.draw();
  }

  loaded(n, bytes, name) {
    const good = `palette ${n} is ${name}`, bad = `${name} has ${bytes.length} bytes; a palette has 768: 256 times red, green, blue`;
    this.chosen(() => say(this.palettes.load(n, bytes, name) ? good : bad));
  }

  // ---- the picture, and the point in it
  // As large as there is room for, in whole steps, so that all points are alike; a line is two points high.
  fit(canvas) {
    const wide = canvas.closest("main").clientWidth, high = innerHeight - canvas.getBoundingClientRect().top - scrollY, step = devicePixelRatio > 1 ? 0.5 : 1;
    const times = Math.max(1, step * Math.floor(Math.min(wide / H.LINE_PIXELS, high / (2 * H.LINES)) / step));
    Object.assign(canvas.style, { width: `${times * H.LINE_PIXELS}px`, height: wide < H.LINE_PIXELS ? "" : `${times * 2 * H.LINES}px` });
  }

  draw(mark = false) {
    const canvas = $("whole");
    this.fit(canvas);
    const context = show(canvas, this.picture);
    this.point(this.at.x, this.at.y);
    if (!context || !mark) return;
    const [sx, sy] = [canvas.width / H.LINE_PIXELS, canvas.height / H.LINES];
    context.strokeStyle = css("--accent");
    context.lineWidth = 2;
    context.strokeRect(Math.floor(this.at.x) * sx - 2, Math.floor(this.at.y) * sy - 2, this.wide() * sx + 4, sy + 4);
  }

  wide() { return pointsOf(this.bench.lines()[Math.floor(this.at.y)]?.pixels ?? []); }

  point(x, y) {
    this.at = { x: Math.max(0, Math.min(H.LINE_PIXELS - 1, x)), y: Math.max(0, Math.min(H.LINES - 1, y)) };
    const n = Math.floor(this.at.y), pixels = this.bench.lines()[n]?.pixels ?? [], i = Math.floor((Math.floor(this.at.x) - leftOf(pixels)) / pointsOf(pixels));
    const inside = i >= 0 && i < pixels.length;
    const many = pixels.length ? `${pixels.length} pixels` : "no pixels: the overlay is off";
    $("point").textContent = `line ${n} · ${many}${inside ? ` · pixel ${i}: ${this.said(pixels[i])}` : ""}`;
  }
  said(pixel) { return pixel === H.TRANSPARENT ? "transparent" : `palette ${pixel >> 8}, colour $${hex(pixel & 255)}`; }

  // Each line two points high, as it is wide on a screen.
  save() {
    const canvas = el("canvas", { width: H.LINE_PIXELS, height: 2 * H.LINES }), context = canvas.getContext("2d");
    context.imageSmoothingEnabled = false;
    context.drawImage(this.picture.now(), 0, 0, canvas.width, canvas.height);
    canvas.toBlob((blob) => save("screen.png", blob));
  }
}
