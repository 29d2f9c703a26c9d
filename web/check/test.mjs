// test.mjs TOP PAGE.html [FOLDER]: works with the page in a headless Chromium, from the disk and from a server, and compares what it shows with what the
// project's pages, examples and expected outputs say. Screenshots of the four parts go to FOLDER. Here is the order; the checks are in on_*.mjs.
import { resolve } from "node:path";
import { b, close, failed, is, open, shot, tried, url } from "./eyes.mjs";
import { blitter } from "./on_blitter.mjs";
import { guards } from "./on_build.mjs";
import { lines } from "./on_lines.mjs";
import { guide, keyboard, narrow, served, themes } from "./on_page.mjs";
import { picture } from "./on_picture.mjs";
import { bytes, files, plan } from "./on_plan.mjs";

async function fromTheDisk() {
  await b.size(1440, 900);
  await b.theme("dark");
  await b.go(url);
  await shot("plan");
  // each goes on from what the one before has left in the page
  for (const check of [plan, bytes, files, lines, picture, blitter, keyboard, guide, themes, narrow]) await check();
  is("no errors from the disk", b.errors(), []);
  const asked = b.requests().filter((address) => address !== "about:blank" && !/^(blob|data):/.test(address));
  is("no request but for the page and what it saves", [...new Set(asked)], [url]);
}

await open(...process.argv.slice(2).map((path) => resolve(path)));
try {
  await fromTheDisk();
  await served();
  guards();
} finally {
  await close();
}
console.log(`${tried - failed} of ${tried} checks as wanted`);
process.exit(failed ? 1 : 0);
