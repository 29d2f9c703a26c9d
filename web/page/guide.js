// The page for renters, docs/BROWSER.md, as a dialog of the page.
import { GUIDE } from "./facts.js";
import { $, el } from "./dom.js";

// Words between ** are strong, those between ` are code.
function element(part) {
  if (part.startsWith("**")) return el("b", {}, part.slice(2, -2));
  return part.startsWith("`") ? el("code", {}, part.slice(1, -1)) : part;
}
const inline = (text) => text.split(/(\*\*[^*]+\*\*|`[^`]+`)/).filter(Boolean).map(element);

export function guide() {
  const made = [];
  for (const { kind, text } of GUIDE) {
    const part = el(kind, {}, ...inline(text));
    if (kind !== "li") made.push(part);
    else if (made.at(-1).tagName === "UL") made.at(-1).append(part);
    else made.push(el("ul", {}, part));
  }
  $("guide").append(...made);
  $("helpbutton").onclick = () => $("guide").showModal();
}
