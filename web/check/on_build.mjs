// Checks the build's own checks (web/make): each is given what it must refuse, and must end with 1 and say why. It needs what web/build has made, and no
// browser.
import { spawnSync } from "node:child_process";
import { mkdirSync, writeFileSync } from "node:fs";
import { join } from "node:path";
import { inRoom, is, room, text, top } from "./eyes.mjs";

export function guards() {
  wrongAnywhere();
  placeForBoth();
  wrongLines();
  callThatIsNotThere();
  importedCall();
  wrongFacts();
}

function refuses(what, script, args, why) {
  const { status, stderr } = spawnSync("node", [join(top, "web/make", script), ...args], { encoding: "utf8" });
  is(what, [status, stderr.includes(why)], [1, true]);
}

// ---- width.mjs, which reads the module as text
// The module with one place changed, as a file in the room.
function changed(name, from, to) {
  const module = text("target/web/made/module.ll");
  if (!from.test(module)) is(`${name} can be tried`, false, true);
  return inRoom(name, module.replace(from, to));
}

function wrongAnywhere() {
  const number = changed("a.ll", /^(start:\n)/m, "$1  %bad = ptrtoint ptr %a0 to i64\n");
  refuses("a pointer as a number", "width.mjs", [number], "a pointer as a number");
  const compared = changed("b.ll", /^(start:\n)/m, "$1  %bad = icmp ult ptr %a0, %a1\n");
  refuses("pointers compared", "width.mjs", [compared], "pointers compared or chosen");
  const global = changed("c.ll", /^define/m, "@table = global [4 x i8] zeroinitializer\ndefine");
  refuses("a global", "width.mjs", [global], "a global or a named type");
  const move = changed("d.ll", /(llvm\.memmove\S+\(ptr %\w+, ptr %\w+, i64 )16/, "$1%r1");
  refuses("a move of a computed length", "width.mjs", [move], "a computed length");
  const wide = changed("f.ll", /getelementptr i8, ptr (%\w+), i64 8/, "getelementptr i32, ptr $1, i32 2");
  refuses("another width of an address", "width.mjs", [wide], "not a pointer and a 64-bit number");
}

// The length of a slice read from where its pointer is: half of those 8 bytes is undefined with 32 bits.
function placeForBoth() {
  const both = changed("e.ll", /(define internal noundef i32 @"capi::deskboard_new"[\s\S]*?getelementptr i8, ptr %r\d+, i64 )8/, "$10");
  refuses("a place for both", "width.mjs", [both], "a byte that is of a pointer and of a number");
}

// One line more at the beginning of deskboard_new. Its %r1 is the room of the slice that it is handed: a pointer, and a length behind it.
const WRONG_LINES = [
  ["a line of a form that is not known", '%"bad one" = ptrtoint ptr %a0 to i64', "a pointer as a number"],
  ["a name of a form that is not known", "%bad-one = add i64 1, 2", "an instruction that is not on the list"],
  ["a fill over a pointer", "call void @llvm.memset.p0.i64(ptr %r1, i8 1, i64 16, i1 false)", "a byte that is of a pointer and of a number"],
  ["a number that reaches into a pointer", "%bad = load i64, ptr %r1, align 4", "a byte that is of a pointer and of a number"],
  ["numbers that reach into a pointer", "%bad = load { i8, i32 }, ptr %r1, align 4", "a byte that is of a pointer and of a number"],
  ["a call that gives a pointer and a number", "%bad = call { ptr, i64 } @other(i64 1)", "a call through a pointer, or of a new form"],
  ["a pointer that is not in 8 aligned bytes", "%at = getelementptr i8, ptr %r1, i64 4\n  store ptr %a0, ptr %at, align 1", "a pointer that is not in 8 aligned bytes"],
  ["a pointer compared with null where it is not lent", "%bad = icmp eq ptr %r1, null", "pointers compared or chosen"],
  ["a wide number", "%bad = load i128, ptr %a0, align 8", "a load or a store of a new form"],
  ["much room", "%bad = alloca i64, i64 100000, align 8", "room of a new kind"],
  ["a call that gives a pointer", "%bad = call ptr @other(i64 1)", "a function that gives a pointer"],
  ["an argument of another form", 'call void @"words::lay"(ptr byval(i8) %a0, ptr %a0)', "an argument of a new form"],
];
function wrongLines() {
  const beginning = /(define internal noundef i32 @"capi::deskboard_new"[\s\S]*?\nstart:\n)/;
  for (const [what, line, why] of WRONG_LINES) {
    const longer = changed("g.ll", beginning, `$1  ${line.replace(/\$/g, "$$$$")}\n`);
    refuses(what, "width.mjs", [longer], why);
  }
}

// ---- exports.mjs, which compares the module with the header
const builtModule = () => join(top, "target/web/desk.wasm");

function callThatIsNotThere() {
  const sprite = "uint32_t deskboard_sprite(uint32_t *board, size_t board_len);\n", first = "uint32_t deskboard_new(";
  const more = inRoom("more.h", text("include/deskboard.h").replace(first, `${sprite}${first}`));
  refuses("a call that is not there", "exports.mjs", [builtModule(), more], "it lacks exports of the header: deskboard_sprite");
}

// (import "env" "memset" (func)), and nothing else
function importedCall() {
  const wasm = inRoom("import.wasm", Buffer.from("0061736d01000000010401600000020e0103656e76066d656d7365740000", "hex"));
  refuses("an import", "exports.mjs", [wasm, join(top, "include/deskboard.h")], "it has imports: env.memset");
}

// ---- facts.mjs, which reads the header, the sheet and the examples
function wrongFacts() {
  const tree = copyOfTheTree(), args = [tree, builtModule()], uses = join(tree, "web/page/uses.js");
  writeFileSync(uses, "H.BOARD_SPRITE");
  refuses("a name that the header does not have", "facts.mjs", args, "include/deskboard.h has no DESKBOARD_BOARD_SPRITE");
  writeFileSync(uses, "");
  writeFileSync(join(tree, "docs/HELP.md"), text("docs/HELP.md").replace(/^\| 14 \|.*\n/m, ""));
  refuses("a refusal that the sheet does not have", "facts.mjs", args, "no row for DESKBOARD_REFUSED_ADDRESS, 14");
}

function copyOfTheTree() {
  const tree = join(room, "tree");
  mkdirSync(join(tree, "web/page"), { recursive: true });
  for (const name of ["include", "docs", "examples"]) spawnSync("cp", ["-r", join(top, name), join(tree, name)]);
  return tree;
}
