// Opens the module, lays out the bench and its four parts, and draws the part that is shown when the bench has changed.
import { MODULE } from "./facts.js";
import { Desk, H } from "./desk.js";
import { Bench } from "./bench.js";
import { FramePicture, Palettes } from "./picture.js";
import { BenchView } from "./benchview.js";
import { PlanView } from "./planview.js";
import { LinesView } from "./linesview.js";
import { PictureView } from "./pictureview.js";
import { BlitterView } from "./blitterview.js";
import { guide } from "./guide.js";
import { $, count, say } from "./dom.js";

const FIRST_PLAN = "small_screen", FIRST_MEMORY = "example";
const root = document.documentElement, tabs = [...document.querySelectorAll("[role=tab]")];
root.dataset.theme = matchMedia("(prefers-color-scheme: dark)").matches ? "dark" : "light";

const began = performance.now();
const bytes = Uint8Array.from(atob(MODULE), (char) => char.charCodeAt(0));
const desk = await Desk.open(bytes).catch((why) => { say(`This browser cannot start the board: ${why.message}. A browser of 2023 or later can.`); throw why; });
const ready = performance.now() - began;

const bench = new Bench(desk), palettes = new Palettes(), picture = new FramePicture(bench, palettes);
const plan = new PlanView(bench, picture), benchView = new BenchView(bench, plan);
plan.otherFrame = () => benchView.otherFrame();
const views = {
  plan,
  lines: new LinesView(bench, picture, plan),
  picture: new PictureView(bench, picture, palettes, benchView),
  blitter: new BlitterView(bench, picture, palettes, benchView, plan),
};

let shown = "plan";
const redraw = () => views[shown].draw();
function open(name) {
  shown = name;
  for (const tab of tabs) {
    const on = tab.id === `tab-${name}`;
    tab.setAttribute("aria-selected", String(on));
    tab.tabIndex = on ? 0 : -1;
    $(tab.getAttribute("aria-controls")).hidden = !on;
  }
  redraw();
}

$("tabs").onkeydown = (event) => {
  const by = { ArrowRight: 1, ArrowLeft: -1 }[event.key];
  if (!by) return;
  const next = tabs[(tabs.indexOf(document.activeElement) + by + tabs.length) % tabs.length];
  next.focus();
  next.click();
};
for (const tab of tabs) tab.onclick = () => open(tab.id.slice(4));
$("theme").onclick = () => { root.dataset.theme = root.dataset.theme === "dark" ? "light" : "dark"; picture.stale(); redraw(); };
addEventListener("resize", redraw);
// A file that is dropped beside the picture must not open in place of the page.
for (const kind of ["dragover", "drop"]) document.addEventListener(kind, (event) => event.preventDefault());
guide();

benchView.begin(FIRST_MEMORY);
plan.changed = () => benchView.lay();
bench.watch(redraw);
plan.first(FIRST_PLAN);
open("plan");
say(`module of ${count(bytes.length)} bytes, started in ${ready.toFixed(0)} ms`);
globalThis.deskPage = { desk, bench, names: H, views, benchView, palettes, open, ready, whole: performance.now() - began }; // for web/test
