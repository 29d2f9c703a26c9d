// What all parts of the page use: elements, numbers as text, files and the clipboard.
export const $ = (id) => document.getElementById(id);

export function el(name, props = {}, ...children) {
  const { aria = {}, data = {}, ...rest } = props;
  const made = Object.assign(document.createElement(name), rest);
  for (const [key, value] of Object.entries(aria)) made.setAttribute(key === "role" ? key : `aria-${key}`, String(value));
  Object.assign(made.dataset, data);
  made.append(...children.filter((child) => child !== null));
  return made;
}

export const options = (pairs) => pairs.map(([value, text]) => el("option", { value }, text));
export const hex = (value, digits = 2) => value.toString(16).toUpperCase().padStart(digits, "0");
export const adr = (value) => "$" + hex(value, 5);
export const count = (value) => value.toLocaleString("en");
export const hexRow = (bytes) => [...bytes].map((value) => hex(value)).join(" ");
export const words = (name) => name.toLowerCase().replace(/_/g, " ");

// A number as it is typed: 4096, $1000, 0x1000 or 1000h. NaN where it is none.
export function number(text) {
  const typed = text.trim().toLowerCase(), sixteen = typed.match(/^(?:\$|0x)([0-9a-f]+)$/) ?? typed.match(/^([0-9a-f]+)h$/);
  return sixteen ? parseInt(sixteen[1], 16) : /^-?\d+$/.test(typed) ? Number(typed) : NaN;
}

// Bytes as they are pasted: F4 0F, F40F, $F4,$0F, 0xF4, or lines of an assembler's dta, .byte or .db (DB alone is a byte); what is behind a ; is a
// remark. A word that is none is named.
export function pasted(text) {
  const bytes = [];
  for (const word of text.replace(/;.*$/gm, "").split(/[\s,]+/).filter((word) => word && !/^(\.?byte|\.db|dta)$/i.test(word))) {
    const digits = word.match(/^(?:\$|0x)?((?:[0-9a-f]{2})+)h?$/i);
    if (!digits) return { bytes: null, wrong: word };
    for (const pair of digits[1].match(/../g)) bytes.push(parseInt(pair, 16));
  }
  return { bytes: Uint8Array.from(bytes), wrong: "" };
}

export function say(text) { $("status").textContent = text; }

export function save(name, blob) {
  const link = el("a", { href: URL.createObjectURL(blob instanceof Blob ? blob : new Blob([blob])), download: name });
  link.click();
  setTimeout(() => URL.revokeObjectURL(link.href), 1000);
  say(`saved ${name}`);
}

// To the clipboard; by the old way where the new one is not allowed, as on a page from a plain server.
export async function copy(text, what) {
  try {
    await navigator.clipboard.writeText(text);
  } catch {
    const area = el("textarea", { value: text });
    document.body.append(area);
    area.select();
    document.execCommand("copy");
    area.remove();
  }
  say(`copied ${what}`);
}

export const assembler = (rows) => rows.map((row) => "    dta " + [...row].map((value) => "$" + hex(value)).join(",")).join("\n") + "\n";

// The file that was chosen, as bytes; the same file can be chosen again.
export function onFile(input, then) {
  input.onchange = async () => {
    const [file] = input.files;
    if (file) then(new Uint8Array(await file.arrayBuffer()), file.name);
    input.value = "";
  };
}

// A file dropped on an element, which is marked while one is above it.
export function onDrop(target, then) {
  const mark = (on) => target.classList.toggle("dropping", on);
  target.ondragover = (event) => { event.preventDefault(); mark(true); };
  target.ondragleave = () => mark(false);
  target.ondrop = async (event) => {
    event.preventDefault();
    mark(false);
    const [file] = event.dataTransfer.files;
    if (file) then(new Uint8Array(await file.arrayBuffer()), file.name);
  };
}

export const css = (name) => getComputedStyle(document.documentElement).getPropertyValue(name).trim();

// Up and down, page and end keys as steps; 0 for any other key.
export const upDown = (key, page, all) => ({ ArrowUp: -1, ArrowDown: 1, PageUp: -page, PageDown: page, Home: -all, End: all })[key] ?? 0;
