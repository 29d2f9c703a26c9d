// A headless Chromium, driven by the DevTools protocol over a pipe: no port, no package. It has a profile of its own, which is removed in the end.
import { spawn } from "node:child_process";
import { mkdtempSync, rmSync, writeFileSync } from "node:fs";
import { tmpdir } from "node:os";
import { join } from "node:path";

const OPTIONS = [
  "--headless=new",
  "--no-sandbox",
  "--disable-gpu",
  "--hide-scrollbars",
  "--no-first-run",
  "--disable-background-networking",
  "--remote-debugging-pipe",
];
const STDIO = ["ignore", "ignore", "ignore", "pipe", "pipe"]; // Chromium reads the protocol from 3 and writes it to 4
const KEY_CODES = { Tab: 9, Enter: 13, Escape: 27, End: 35, Home: 36, ArrowLeft: 37, ArrowUp: 38, ArrowRight: 39, ArrowDown: 40 };
const LATE = 20000; // ms
export const sleep = (ms) => new Promise((then) => setTimeout(then, ms));

export class Browser {
  static async open(program = process.env.CHROMIUM ?? "chromium") {
    const browser = new Browser();
    browser.folder = mkdtempSync(join(tmpdir(), "desk-"));
    browser.program = spawn(program, [...OPTIONS, `--user-data-dir=${browser.folder}`, "about:blank"], { stdio: STDIO });
    Object.assign(browser, { last: 0, waiting: new Map(), events: [], rest: "" });
    browser.gone = new Promise((then) => browser.program.on("exit", then));
    await new Promise((good, bad) => {
      browser.program.on("spawn", good);
      browser.program.on("error", () => bad(new Error(`no Chromium '${program}'. CHROMIUM can name another.`)));
    });
    browser.program.stdio[4].on("data", (data) => browser.take(String(data)));
    const { targetInfos } = await browser.send("Target.getTargets");
    const { targetId } = targetInfos.find(({ type }) => type === "page");
    browser.session = (await browser.send("Target.attachToTarget", { targetId, flatten: true })).sessionId;
    for (const part of ["Page", "Runtime", "Log", "Network", "DOM"]) await browser.send(`${part}.enable`);
    return browser;
  }

  take(text) {
    const messages = (this.rest + text).split("\0");
    this.rest = messages.pop();
    for (const message of messages.map((each) => JSON.parse(each))) {
      if (!message.id) this.events.push(message);
      else this.waiting.get(message.id)(message);
    }
  }

  send(method, params = {}) {
    const id = ++this.last;
    this.program.stdio[3].write(JSON.stringify({ id, method, params, sessionId: this.session }) + "\0");
    return new Promise((good, bad) => {
      const late = setTimeout(() => bad(new Error(`${method}: no answer in ${LATE / 1000} s: ${JSON.stringify(params).slice(0, 200)}`)), LATE);
      this.waiting.set(id, ({ error, result }) => { clearTimeout(late); if (error) bad(new Error(`${method}: ${error.message}`)); else good(result); });
    });
  }

  async go(url) {
    await this.send("Page.navigate", { url });
    for (let tries = 0; tries < 100; tries++) { await sleep(50); if (await this.run("Boolean(globalThis.deskPage)")) return; }
    throw new Error(`${url} did not open`);
  }

  async run(expression) {
    const { result, exceptionDetails } = await this.send("Runtime.evaluate", { expression, awaitPromise: true, returnByValue: true });
    if (exceptionDetails) throw new Error(exceptionDetails.exception?.description ?? exceptionDetails.text);
    return result.value;
  }

  async key(key, text) {
    const code = key.length === 1 ? `Key${key.toUpperCase()}` : key, windowsVirtualKeyCode = KEY_CODES[key];
    await this.send("Input.dispatchKeyEvent", { type: "keyDown", key, code, text, windowsVirtualKeyCode });
    await this.send("Input.dispatchKeyEvent", { type: "keyUp", key, code, windowsVirtualKeyCode });
  }

  // Gives the file to the input with this id, as if it were chosen.
  async choose(id, file) {
    const { result } = await this.send("Runtime.evaluate", { expression: `document.getElementById("${id}")` });
    await this.send("DOM.setFileInputFiles", { files: [file], objectId: result.objectId });
    await sleep(100);
  }

  size(width, height) { return this.send("Emulation.setDeviceMetricsOverride", { width, height, deviceScaleFactor: 1, mobile: false }); }
  theme(value) { return this.send("Emulation.setEmulatedMedia", { features: [{ name: "prefers-color-scheme", value }] }); }
  async shot(file) { writeFileSync(file, Buffer.from((await this.send("Page.captureScreenshot", { format: "png" })).data, "base64")); }

  requests() { return this.events.filter(({ method }) => method === "Network.requestWillBeSent").map(({ params }) => params.request.url); }
  errors() {
    const bad = ({ method, params }) =>
      method === "Runtime.exceptionThrown" ||
      (method === "Log.entryAdded" && params.entry.level === "error") ||
      (method === "Runtime.consoleAPICalled" && params.type === "error");
    return this.events.filter(bad).map(({ params }) => params.exceptionDetails?.exception?.description ?? params.entry?.text ?? JSON.stringify(params.args));
  }

  async close() {
    await this.send("Browser.close").catch(() => this.program.kill());
    await this.gone;
    await sleep(100);
    rmSync(this.folder, { recursive: true, force: true });
  }
}
