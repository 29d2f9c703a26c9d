// bench.mjs PAGE.html MODULE.wasm NATIVE: the page's sizes and start, and the works of works.mjs in a headless Chromium, through the page's own calls, beside
// the native program.
import { spawnSync } from "node:child_process";
import { readFileSync } from "node:fs";
import { pathToFileURL } from "node:url";
import { gzipSync } from "node:zlib";
import { Browser } from "./browser.mjs";
import { AGAIN, filled, FRAMES, LIST_AT, LISTS, SAMPLES } from "./works.mjs";

const [page, module, native] = process.argv.slice(2), url = pathToFileURL(page).href;
function size(file) {
  const bytes = readFileSync(file), count = (value) => value.toLocaleString("en");
  return `${count(bytes.length)} bytes, ${count(gzipSync(bytes).length)} by gzip`;
}
console.log(`module: ${size(module)}\npage:   ${size(page)}`);

// In the page: as bench.c does it.
const measure = (work, kind) => `(() => {
  const { bench, desk, names: H } = deskPage, memory = bench.room.view, bytes = Uint8Array.from(${JSON.stringify(work.bytes)});
  for (let i = 0; i < memory.length; i++) memory[i] = (${filled})(i);
  bench.anew();
  bench.load(bytes, ${LIST_AT});
  bench.writeAll(H.WRITE_BL_ADR0, ${LIST_AT}, 3);
  bench.writeAll(H.WRITE_XDL_ADR0, ${LIST_AT}, 3);
  bench.write(H.WRITE_VIDEO_CONTROL, H.XDL_ENABLED);
  const list = () => {
    let ticks = 0;
    for (let k = 0; k < ${AGAIN}; k++) {
      bench.write(H.WRITE_BLITTER_START, 1);
      ticks += bench.run(H.BUDGET).ticks;
    }
    return ticks;
  };
  const frame = () => {
    const { board, frame, settings, line, report, memory } = bench;
    for (let again = 0; again < ${AGAIN}; again++) {
      desk.call("start", board, frame);
      for (let k = 0; k < H.LINES; k++) { desk.call("next_line", frame, memory, settings); desk.call("draw", board, settings, memory, line, report); }
    }
    return ${AGAIN} * H.LINES;
  };
  const times = Array.from({ length: ${SAMPLES} }, () => { const from = performance.now(), done = ${kind}(); return (performance.now() - from) * 1e6 / done; });
  return [Math.min(...times), times[0]];
})()`;

const starts = [];
for (let k = 0; k < 5; k++) {
  const browser = await Browser.open();
  await browser.go(url);
  starts.push(await browser.run("[deskPage.ready, deskPage.whole]"));
  await browser.close();
}
const least = (n) => Math.min(...starts.map((each) => each[n])).toFixed(0), most = (n) => Math.max(...starts.map((each) => each[n])).toFixed(0);
console.log(`start in a fresh browser, five times: module ${least(0)} to ${most(0)} ms, the page with its first frame ${least(1)} to ${most(1)} ms\n`);

const rows = spawnSync(native, { encoding: "utf8" }).stdout.trim().split("\n").map((row) => row.split("\t"));
const browser = await Browser.open();
console.log("| ns a tick, or a line; least of 41 | Browser | Native | Ratio | Browser, the first time |\n|---|---|---|---|---|");
try {
  await browser.go(url);
  const works = [...LISTS.map((work) => [work, "list"]), ...FRAMES.map((work) => [work, "frame"])];
  for (const [i, [work, kind]] of works.entries()) {
    const [here, first] = await browser.run(measure(work, kind)), [name, there] = rows[i];
    if (name !== work.name) throw new Error(`the native program measured '${name}', not '${work.name}'`);
    console.log(`| ${name} | ${here.toFixed(2)} | ${Number(there).toFixed(2)} | ${(here / there).toFixed(2)} | ${first.toFixed(2)} |`);
  }
} finally {
  await browser.close();
}
