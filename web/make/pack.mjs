// pack.mjs PAGE FACTS OUT.html: the page as one file that opens from a disk. A browser loads no script from file://, so each script module becomes a
// function in one script, those that it imports before it. Imports and exports stand one to a line, by name. The policy in the page's head then
// allows this script and this style, by their hashes, and nothing else: no network.
import { createHash } from "node:crypto";
import { readFileSync, writeFileSync } from "node:fs";
import { join } from "node:path";

const [page, facts, out] = process.argv.slice(2), order = [], FIRST = "main.js";
const IMPORT = /^import (\{.*\}) from "\.\/(.+)";$/gm, EXPORT = /^export (?:async function|function|const|class) ([\w$]+)/gm;
const read = (name) => readFileSync(name === "facts.js" ? facts : join(page, name), "utf8");
const called = (name) => "in_" + name.replace(/\W/g, "_");

function fail(why) {
  console.error(`web/build: ${why}`);
  process.exit(1);
}

function visit(name, path = []) {
  if (path.includes(name)) fail(`web/page: ${[...path, name].join(" imports ")}`);
  if (order.includes(name)) return;
  for (const [, , from] of read(name).matchAll(IMPORT)) visit(from, [...path, name]);
  order.push(name);
}

function wrapped(name) {
  const text = read(name).replace(IMPORT, (_, names, from) => `const ${names} = ${called(from)};`);
  if (/^import /m.test(text)) fail(`web/page/${name}: an import of another form than: import { name } from "./file.js";`);
  if (name === FIRST) return text;
  const exported = [...text.matchAll(EXPORT)].map(([, each]) => each);
  if (exported.length !== (text.match(/^export /gm) ?? []).length) fail(`web/page/${name}: an export of another form than a const, a class or a function`);
  return `const ${called(name)} = (() => {\n${text.replace(/^export /gm, "")}return { ${exported.join(", ")} };\n})();\n`;
}

const hash = (text) => `'sha256-${createHash("sha256").update(text).digest("base64")}'`;
function put(html, mark, text) {
  if (html.split(mark).length !== 2) fail(`web/page/index.html: not one ${mark}`);
  return html.replace(mark, () => text);
}

visit(FIRST);
const script = "\n" + order.map(wrapped).join(""), style = "\n" + read("style.css");
if (/<\/script/i.test(script)) fail("the script of the page has </script in it, and would end there");
let html = read("index.html");
html = put(html, '<link rel="stylesheet" href="style.css">', `<style>${style}</style>`);
html = put(html, '<script type="module" src="main.js"></script>', `<script type="module">${script}</script>`);
const allowed = [`script-src ${hash(script)} 'wasm-unsafe-eval'`, `style-src ${hash(style)}`, "img-src data: blob:"];
html = put(html, "POLICY", ["default-src 'none'", ...allowed, "form-action 'none'", "base-uri 'none'"].join("; "));
writeFileSync(out, html);
console.log(`${Buffer.byteLength(html)} bytes in one file`);
