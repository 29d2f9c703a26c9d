// Checks the page as a whole: that all of it is reached by key, the guide, the themes, narrow windows, and that it is the same page from a server and
// asks for nothing else.
import { readFileSync } from "node:fs";
import { createServer } from "node:http";
import { sleep } from "./browser.mjs";
import { b, begins, chooseLine, click, focus, is, page, part, quoted, shot, shotAside, text, textOf, type } from "./eyes.mjs";

const PARTS = ["plan", "lines", "picture", "blitter"];

// Every button, field and list that is seen can be reached by the Tab key, and the parts by the arrow keys.
const REACHABLE = [
  "header button:not([tabindex='-1'])",
  "#bench :is(button, select, input, label.button)",
  "main:not([hidden]) :is(button, select, input, textarea, label.button, [tabindex='0'])",
];
const WANTED = `[...document.querySelectorAll(${quoted(REACHABLE.join(", "))})].filter((e) => e.checkVisibility() && !e.disabled)`;
const NAMELESS = `${WANTED}.filter((e) => /INPUT|SELECT|TEXTAREA/.test(e.tagName) && !e.labels?.length && !e.ariaLabel)`;

export async function keyboard() {
  for (const name of PARTS) {
    await part(name);
    const many = await b.run(`${WANTED}.length`);
    is(`${name}: not reached by Tab`, await notReached(many + 12), []);
    is(`${name}: has something to reach`, many > 12, true);
    is(`${name}: all have a name`, await b.run(`${NAMELESS}.map((e) => e.id || e.outerHTML.slice(0, 60))`), []);
  }
  await partsByKey();
}

// What has never had the focus when Tab was pressed so many times.
async function notReached(times) {
  await b.run(`(() => {
    globalThis.reached = new Set();
    document.activeElement.blur();
    document.addEventListener("focusin", (event) => reached.add(event.target));
  })()`);
  for (let i = 0; i < times; i++) await b.key("Tab");
  return b.run(`${WANTED}.filter((e) => !reached.has(e)).map((e) => e.id || e.ariaLabel || e.textContent)`);
}

async function partsByKey() {
  await focus("#tab-blitter");
  await b.key("ArrowRight");
  const first = await b.run(`[document.activeElement.id, document.getElementById("plan").hidden]`);
  is("from the last part to the first", first, ["tab-plan", false]);
}

// The page for renters, in the page.
export async function guide() {
  await part("blitter");
  const open = () => b.run(`document.getElementById("guide").open`);
  await click("#helpbutton");
  is("the guide", [await open(), await textOf("#guide h3")], [true, guideHeads()]);
  is("all of it", await textOf("#guide li"), guidePoints());
  await shotAside("guide");
  await keysBehindTheGuide();
  await b.key("Escape");
  is("the guide is closed by key", await open(), false);
}

const guideHeads = () => [...text("docs/BROWSER.md").matchAll(/^## (.*)$/gm)].map(([, head]) => head);
function guidePoints() {
  const found = text("docs/BROWSER.md").matchAll(/^- (.*(?:\n {2}.*)*)/gm);
  return [...found].map(([, point]) => point.replace(/\n */g, " ").replace(/\*\*|`/g, ""));
}

async function keysBehindTheGuide() {
  const ticks = () => b.run("deskPage.views.blitter.ticks"), before = await ticks();
  await type("t");
  is("keys behind the guide do nothing", await ticks(), before);
}

export async function themes() {
  await part("lines");
  const paper = () => b.run("getComputedStyle(document.body).backgroundColor"), dark = await paper();
  await click("#theme");
  is("light", [(await paper()) !== dark, await b.run("document.documentElement.dataset.theme")], [true, "light"]);
  await click("#theme");
}

export async function narrow() {
  for (const width of [420, 800, 1440]) {
    await b.size(width, 900);
    for (const name of PARTS) {
      await part(name);
      is(`${name} at ${width}: nothing is cut off`, await b.run("document.documentElement.scrollWidth"), width);
      if (width === 420) await shotAside(`${name}-420`);
    }
  }
  await b.size(1440, 900);
}

// From a server: the same page; it asks for nothing else, and its policy forbids to.
export async function served() {
  const { server, address, asked } = await serve();
  await b.theme("light");
  await b.go(address);
  await begins("from a server", "verdict", "XDL 214 240 of 240 lines.");
  is("by the system's choice", await b.run("document.documentElement.dataset.theme"), "light");
  await linesInTheLight();
  is("no errors from a server", b.errors(), []);
  await nothingFromElsewhere();
  is("the server was asked once", asked, ["/desk.html"]);
  server.close();
}

// A server that answers everything with the page, and notes what it was asked for.
async function serve() {
  const asked = [], server = createServer((request, answer) => {
    asked.push(request.url);
    answer.setHeader("content-type", "text/html");
    answer.end(readFileSync(page));
  });
  await new Promise((then) => server.listen(0, "127.0.0.1", then));
  return { server, address: `http://127.0.0.1:${server.address().port}/desk.html`, asked };
}

async function linesInTheLight() {
  await part("lines");
  await b.size(1360, 820);
  await chooseLine(97);
  await sleep(100);
  await shot("lines");
}

async function nothingFromElsewhere() {
  is("fetch is forbidden", await b.run(`fetch("/other").then(() => "fetched", () => "forbidden")`), "forbidden");
  const elsewhere = await b.run(`new Promise((then) => {
    const image = new Image();
    image.onload = () => then("loaded");
    image.onerror = () => then("forbidden");
    image.src = "/other.png";
  })`);
  is("so is a picture from elsewhere", elsewhere, "forbidden");
}
