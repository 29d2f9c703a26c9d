// The bar above all parts: memory, what it begins as and what is loaded into it; the display list, where it is and whether it is switched on.
import { ENUMS, MEMORY } from "./facts.js";
import { H } from "./desk.js";
import { inWords } from "./sheet.js";
import { $, adr, count, number, onFile, options, pasted, save } from "./dom.js";
import { SCENE_MEMORY } from "./scenes.js";

const LIST_AT = H.MEMORY_512K - H.LIST_BYTES; // the end of memory: there is room for every list, and planpic puts it there too
const bytesOf64 = (text) => Uint8Array.from(atob(text), (char) => char.charCodeAt(0));
export const EXAMPLE_MEMORY = bytesOf64(MEMORY);

// What memory can begin as.
const CONTENTS = {
  example: ["the example screen", () => EXAMPLE_MEMORY],
  scene: ["the blitter's scenes", () => SCENE_MEMORY(EXAMPLE_MEMORY)],
  counting: ["counting bytes", () => Uint8Array.from({ length: H.MEMORY_512K }, (_, i) => i & 255)],
  empty: ["all 0", () => new Uint8Array(0)],
};

// A label that stands for a file's input is pressed by Enter and by the space key, as a button is.
function pressedByKey(label) {
  label.onkeydown = (event) => {
    if (!/^(Enter| )$/.test(event.key)) return;
    event.preventDefault();
    label.querySelector("input").click();
  };
}

export class BenchView {
  constructor(bench, plan) {
    Object.assign(this, { bench, plan });
    $("length").append(...options(ENUMS.memory.map(([, length]) => [length, count(length)])));
    $("length").value = bench.length;
    $("content").append(...options(Object.entries(CONTENTS).map(([name, [says]]) => [name, says])));
    $("at").value = adr(LIST_AT);
    $("length").onchange = () => { bench.length = Number($("length").value); this.lay(); };
    for (const [id, when] of [["content", "onchange"], ["refill", "onclick"]]) $(id)[when] = () => { this.fill($("content").value); this.lay(); };
    for (const id of ["at", "from", "on", "notrans", "trans15", "own"]) $(id).oninput = () => this.lay();
    onFile($("load"), (bytes, name) => this.load(bytes, name));
    $("savememory").onclick = () => save("memory.bin", bench.memory.view.slice());
    for (const id of ["loadbutton", "openbutton"]) pressedByKey($(id));
  }

  tell(text, bad = false) {
    $("benchsay").textContent = text;
    $("benchsay").className = bad ? "bad" : "";
  }

  // ---- memory
  // As much of a content as memory has room for; a memory that is shorter has the first part of it.
  fill(content) {
    this.bench.clear();
    this.bench.load(CONTENTS[content][1]().subarray(0, this.bench.length), 0);
  }

  // All of it as at the beginning, with this content: the longest memory, and the plan's list at its place, switched on.
  begin(content) {
    for (const [id, value] of [["length", H.MEMORY_512K], ["content", content], ["from", "plan"], ["at", adr(LIST_AT)]]) $(id).value = value;
    $("on").checked = true;
    this.bench.length = H.MEMORY_512K;
    this.fill(content);
  }

  load(bytes, name) {
    const at = number($("loadat").value), good = Number.isInteger(at) && at >= 0 && at < 2 ** 32;
    if (!good) return this.tell(`${name} is not loaded: '${$("loadat").value}' is no address.`, true);
    const answer = this.bench.load(bytes, at);
    this.bench.changed();
    if (answer) return this.tell(`${name}: install is ${inWords(answer)}`, true);
    const shorter = bytes.length > this.bench.length ? ", which is shorter: the last ones stand" : "";
    this.tell(`${name}: ${count(bytes.length)} bytes are in memory from ${adr(at)} on${shorter}.`);
  }

  // ---- the display list
  // The bytes to install; null where there are none to take: then memory stays as it is.
  listBytes() {
    const from = $("from").value, own = pasted($("own").value);
    $("ownbox").hidden = from !== "own";
    $("ownsay").className = own.wrong ? "bad" : "dim small";
    $("ownsay").textContent = own.wrong ? `'${own.wrong}' is no byte in hex. Nothing was installed.` : `${own.bytes.length} bytes`;
    if (from === "own") return own.bytes;
    return from === "plan" ? this.plan.list : new Uint8Array(0);
  }

  // Installs the list, points XDL_ADR at it, and sets VIDEO_CONTROL. Where there is no list or no address, memory and XDL_ADR stay.
  lay() {
    const { bench } = this, bytes = this.listBytes(), at = number($("at").value), typed = Number.isInteger(at) && at >= 0 && at < 2 ** 32;
    const answer = typed && bytes ? bench.install(bytes, at) : 0, done = typed && bytes && !answer;
    const bits = [["on", H.XDL_ENABLED], ["notrans", H.NO_TRANS], ["trans15", H.TRANS15]].filter(([id]) => $(id).checked).map(([, bit]) => bit);
    $("at").setAttribute("aria-invalid", String(!typed));
    if (done) bench.writeAll(H.WRITE_XDL_ADR0, at, 3);
    bench.write(H.WRITE_VIDEO_CONTROL, bits.reduce((sum, bit) => sum + bit, 0));
    this.showsPlan = Boolean(done) && $("from").value === "plan";
    this.say(typed, answer, bytes, at);
    bench.changed();
  }

  // Why the frame is not that of the plan in the table; nothing where it is.
  otherFrame() {
    if (this.showsPlan) return "";
    const others = { plan: "the last list that was installed", own: "a list of your own bytes", memory: "the list that memory has" };
    return `The frame is of ${others[$("from").value]}.`;
  }

  say(typed, answer, bytes, at) {
    if (!typed) return this.tell(`'${$("at").value}' is no address: write 4096, $1000, 0x1000 or 1000h. XDL_ADR stays.`, true);
    if (answer) return this.tell(`install is ${inWords(answer)} XDL_ADR stays.`, true);
    const from = $("from").value, asks = $("on").checked ? "" : " It is not switched on.";
    if (!bytes) return this.tell(`${from === "plan" ? "The plan is refused" : "These are no bytes"}: memory and XDL_ADR stay.`, true);
    if (from === "memory") return this.tell(`XDL_ADR is ${adr(at)}; nothing is installed.${asks}`);
    this.tell(`${count(bytes.length)} bytes are installed at ${adr(at)}, and XDL_ADR is that address.${asks}`);
  }
}
