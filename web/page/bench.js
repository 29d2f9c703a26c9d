// The bench: one memory and one board for all parts of the page, and the frame that they show. Whatever happens to them is a call of the module.
import { H } from "./desk.js";

const bytesOf = (value, many) => Array.from({ length: many }, (_, i) => Math.floor(value / 256 ** i) & 255); // low byte first

export class Bench {
  constructor(desk) {
    this.desk = desk;
    this.room = desk.bytes(H.MEMORY_512K);
    this.board = desk.words(H.BOARD_WORDS);
    this.report = desk.words(Math.max(H.RUN_WORDS, H.READ_WORDS, H.DRAW_WORDS, H.COMPILE_WORDS));
    this.frame = desk.words(H.FRAME_WORDS);
    this.settings = desk.words(H.SETTINGS_WORDS);
    this.line = desk.pixels(H.LINE_PIXELS);
    this.lent = desk.bytes(2 * H.LIST_BYTES); // room for bytes to install, and for more than install takes
    this.length = H.MEMORY_512K;
    this.watchers = [];
    desk.call("new", this.board);
  }

  get memory() { return this.room.first(this.length); }
  get word() { return this.board.view; }

  // ---- who looks at the bench is told when it has changed; the frame is made anew when it is next asked for
  watch(watcher) { this.watchers.push(watcher); }
  changed() {
    this.shown = null;
    for (const watcher of this.watchers) watcher();
  }

  // ---- memory
  // One call of the module. More bytes than it takes are lent as far as there is room, so that it refuses them.
  install(bytes, address) {
    this.lent.view.set(bytes.subarray(0, this.lent.length));
    return this.desk.call("install", this.memory, this.lent.first(bytes.length), address);
  }

  // A file, in pieces as long as the module takes. Gives the answer of the first call that is refused, or 0.
  load(bytes, address) {
    let answer = this.install(bytes.subarray(0, H.LIST_BYTES), address);
    for (let done = H.LIST_BYTES; !answer && done < bytes.length; done += H.LIST_BYTES)
      answer = this.install(bytes.subarray(done, done + H.LIST_BYTES), (address + done) % H.MEMORY_512K);
    return answer;
  }

  clear() { this.room.view.fill(0); }
  byte(address) { return this.memory.view[address % this.length]; }

  // ---- the board
  anew() { return this.desk.call("new", this.board); }
  reset() { return this.desk.call("reset", this.board); }
  write(offset, value) { return this.desk.call("write", this.board, offset, value); }
  writeAll(offset, value, many) { return bytesOf(value, many).reduce((answer, byte, i) => answer || this.write(offset + i, byte), 0); }
  read(offset) {
    this.desk.call("read", this.board, offset, this.report);
    return this.report.view[H.REPORT_VALUE];
  }

  // A run, or a tick where no budget is given: { answer, ticks, accesses }.
  run(budget) {
    const { desk, board, memory, report } = this;
    const answer = budget === undefined ? desk.call("tick", board, memory, report) : desk.call("run", board, memory, budget, report);
    const told = report.view;
    return answer ? { answer, ticks: 0, accesses: 0 } : { answer, ticks: told[H.REPORT_TICKS], accesses: told[H.REPORT_ACCESSES] };
  }

  // ---- the frame: 240 lines, each with its settings, its pixels, and whether the list had ended before it
  lines() { return (this.shown ??= this.allLines()).lines; }
  frameAnswer() { return (this.shown ??= this.allLines()).answer; }

  allLines() {
    const { desk, board, frame, settings, memory, line, report } = this, lines = [];
    let answer = desk.call("start", board, frame);
    while (!answer && lines.length < H.LINES) {
      const ended = frame.view[H.FRAME_ENDED] === 1 && frame.view[H.FRAME_REPEAT] === 0;
      answer = desk.call("next_line", frame, memory, settings) || desk.call("draw", board, settings, memory, line, report);
      if (!answer) lines.push({ words: settings.view.slice(), pixels: line.view.slice(0, report.view[H.REPORT_PIXELS]), ended });
    }
    return { answer, lines };
  }

  // What a line has before any record: the first line of a frame that is not switched on. A new band of a plan begins with it.
  beginning() {
    const { desk, frame, settings, memory } = this, board = (this.blank ??= desk.words(H.BOARD_WORDS));
    desk.call("new", board);
    desk.call("start", board, frame);
    desk.call("next_line", frame, memory, settings);
    return settings.view.slice();
  }
}
