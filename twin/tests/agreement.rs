//! The twin and the archive on the same random and damaged inputs: every number, word and byte must be the same.
//!
//! `TWIN_ROUNDS=n` does n times as many scenarios. `TWIN_SEED=n` takes other ones. `TWIN_ONLY=family:seed` does one
//! scenario again, as a disagreement names it.
#![cfg(feature = "desk")]

mod common;

use common::{at, make};
use std::env;
use std::fmt::{UpperHex, Write};
use std::time::Instant;
use twin::card::{Card, BOARD_WORDS, FRAME_WORDS, SETTINGS_WORDS};
use twin::desk::Desk;
use twin::random::{spread, Random};
use twin::twin::{meaning, xdl, Refusal, Settings, Twin, MAX_PIXELS, TRANSPARENT};

/// Everything that is lent to calls.
#[derive(Clone, Default, PartialEq)]
struct Lent {
    board: Vec<u32>,
    frame: Vec<u32>,
    report: Vec<u32>,
    settings: Vec<u32>,
    mem: Vec<u8>,
    out: Vec<u8>,
    line: Vec<u16>,
}

#[derive(Clone, Copy, Debug)]
enum Call<'a> {
    New,
    Write(u32, u8),
    Read(u32),
    Reset,
    Tick,
    Run(u32),
    Start,
    NextLine,
    Draw,
    Compile(&'a [u8]),
    Install(&'a [u8], u32),
}

impl Call<'_> {
    fn make<C: Card>(&self, lent: &mut Lent) -> u32 {
        let Lent {
            board,
            frame,
            report,
            settings,
            mem,
            out,
            line,
        } = lent;
        match *self {
            Call::New => C::new_board(board),
            Call::Write(offset, value) => C::write(board, offset, value),
            Call::Read(offset) => C::read(board, offset, report),
            Call::Reset => C::reset(board),
            Call::Tick => C::tick(board, mem, report),
            Call::Run(budget) => C::run(board, mem, budget, report),
            Call::Start => C::start(board, frame),
            Call::NextLine => C::next_line(frame, mem, settings),
            Call::Draw => C::draw(board, settings, mem, line, report),
            Call::Compile(plan) => C::compile(plan, out, report),
            Call::Install(list, address) => C::install(mem, list, address),
        }
    }

    fn lends_memory_to_write(&self) -> bool {
        matches!(self, Call::Tick | Call::Run(_) | Call::Install(..))
    }

    fn describe(&self) -> String {
        match self {
            Call::Compile(plan) => format!("compile, plan of {} bytes:\n{}", plan.len(), hex(plan)),
            Call::Install(list, address) => format!(
                "install at {address:#X}, {} bytes:\n{}",
                list.len(),
                hex(list)
            ),
            Call::Write(offset, value) => format!("write {value:#X} to {offset:#X}"),
            Call::Read(offset) => format!("read {offset:#X}"),
            Call::Run(budget) => format!("run, budget {budget}"),
            other => format!("{other:?}").to_lowercase(),
        }
    }
}

fn hex(bytes: &[u8]) -> String {
    let mut text = String::new();
    for row in bytes.chunks(32) {
        for byte in row {
            write!(text, "{byte:02X} ").unwrap();
        }
        text.push('\n');
    }
    text
}

/// Memory in hex, without the rows that are all 0.
fn hex_memory(mem: &[u8]) -> String {
    const MOST_ROWS: usize = 2_048;
    let mut text = String::new();
    let mut rows = 0;
    for (number, row) in mem.chunks(32).enumerate() {
        if row.iter().all(|&cell| cell == 0) {
            continue;
        }
        rows += 1;
        if rows > MOST_ROWS {
            text.push_str("and more, which the seed makes again\n");
            break;
        }
        write!(text, "{:05X}: {}", 32 * number, hex(row)).unwrap();
    }
    text
}

fn hex_words(words: &[u32]) -> String {
    words.iter().map(|word| format!("{word:X} ")).collect()
}

/// The places where two buffers differ.
fn print_differing<T: PartialEq + UpperHex>(name: &str, desk: &[T], twin: &[T]) {
    let differing = desk.iter().zip(twin).enumerate();
    let differing: Vec<_> = differing.filter(|(_, (a, b))| a != b).collect();
    println!("{name} that differ: {}", differing.len());
    for (place, (desk, twin)) in differing.iter().take(32) {
        println!("  {place:05X}: desk {desk:02X}, twin {twin:02X}");
    }
}

#[derive(Clone, Default)]
struct Tally {
    scenarios: u64,
    calls: u64,
    ticks: u64,
    lines: u64,
    /// Drawn lines, by their mode and by bits 2 and 3 of VIDEO_CONTROL.
    drawn: [[u64; 4]; 5],
    /// Drawn pixels, and how many of them were transparent.
    pixels: u64,
    transparent: u64,
    /// How often each number was answered, 0 where the call was done.
    numbers: [u64; 18],
    /// How many refusals were at an item other than 0.
    items: u64,
}

impl Tally {
    fn add(&mut self, more: &Tally) {
        self.scenarios += more.scenarios;
        self.calls += more.calls;
        self.ticks += more.ticks;
        self.lines += more.lines;
        self.pixels += more.pixels;
        self.transparent += more.transparent;
        self.items += more.items;
        let drawn = self.drawn.as_flattened_mut().iter_mut();
        for (sum, count) in drawn.zip(more.drawn.as_flattened()) {
            *sum += count;
        }
        for (sum, count) in self.numbers.iter_mut().zip(more.numbers) {
            *sum += count;
        }
    }

    fn add_line(&mut self, mode: u32, video_control: u32, pixels: &[u16]) {
        self.drawn[mode as usize][video_control as usize / 4] += 1;
        self.pixels += pixels.len() as u64;
        let transparent = pixels.iter().filter(|&&pixel| pixel == TRANSPARENT);
        self.transparent += transparent.count() as u64;
    }
}

/// Both boards, and what was lent to each.
struct Pair<'a> {
    desk: Lent,
    twin: Lent,
    before: Lent,
    family: &'static str,
    seed: u64,
    call: u64,
    tally: &'a mut Tally,
}

impl<'a> Pair<'a> {
    fn new(family: &'static str, seed: u64, tally: &'a mut Tally) -> Pair<'a> {
        tally.scenarios += 1;
        let lent = Lent {
            board: vec![0; BOARD_WORDS],
            frame: vec![0; FRAME_WORDS],
            report: vec![0; 2],
            settings: vec![0; SETTINGS_WORDS],
            ..Lent::default()
        };
        Pair {
            desk: lent.clone(),
            twin: lent.clone(),
            before: lent,
            family,
            seed,
            call: 0,
            tally,
        }
    }

    /// Changes what is lent to both in the same way.
    fn lend(&mut self, change: impl FnOnce(&mut Lent)) {
        change(&mut self.twin);
        self.desk.clone_from(&self.twin);
    }

    /// Makes a call of both and compares all there is; the answer.
    fn call(&mut self, call: Call) -> u32 {
        self.call += 1;
        self.tally.calls += 1;
        let keep = &mut self.before;
        keep.board.clone_from(&self.twin.board);
        keep.frame.clone_from(&self.twin.frame);
        keep.report.clone_from(&self.twin.report);
        keep.settings.clone_from(&self.twin.settings);
        keep.line.clone_from(&self.twin.line);
        if call.lends_memory_to_write() {
            keep.mem.clone_from(&self.twin.mem);
        }
        let desk = call.make::<Desk>(&mut self.desk);
        let twin = call.make::<Twin>(&mut self.twin);
        if desk != twin || self.desk != self.twin {
            self.disagree(call, desk, twin);
        }
        let (number, item) = (twin & 255, twin >> 8);
        assert!(item == 0 || matches!(call, Call::Compile(_)));
        self.tally.numbers[number as usize] += 1;
        self.tally.items += u64::from(item != 0);
        if twin == 0 {
            match call {
                Call::Run(_) | Call::Tick => self.tally.ticks += u64::from(self.twin.report[0]),
                Call::NextLine => self.tally.lines += 1,
                Call::Draw => {
                    let Lent {
                        board,
                        report,
                        settings,
                        line,
                        ..
                    } = &self.twin;
                    let (mode, control) = (settings[at::MODE], board[at::VIDEO_CONTROL]);
                    let pixels = &line[..report[0] as usize];
                    self.tally.add_line(mode, control, pixels);
                }
                _ => {}
            }
        }
        if let Call::Draw = call {
            self.stays_but_for_the_line(twin == 0);
        }
        twin
    }

    /// Drawing changes the pixels and the report's first word alone, and a refusal nothing. The boards agree already.
    fn stays_but_for_the_line(&self, done: bool) {
        let (before, now) = (&self.before, &self.twin);
        let pixels = if done { now.report[0] as usize } else { 0 };
        let same = before.board == now.board
            && before.settings == now.settings
            && before.line[pixels..] == now.line[pixels..]
            && before.report[usize::from(done)..] == now.report[usize::from(done)..];
        assert!(
            same,
            "{}:{:#X}: more than a line was drawn",
            self.family, self.seed
        );
    }

    fn disagree(&self, call: Call, desk: u32, twin: u32) -> ! {
        println!("\nThe boards disagree.");
        println!(
            "Scenario: {}:{:#X}, call {}",
            self.family, self.seed, self.call
        );
        println!("Again with TWIN_ONLY={}:{:#X}", self.family, self.seed);
        println!("Call: {}", call.describe());
        println!("Lent before it, words in hex:");
        println!("  board    {}", hex_words(&self.before.board));
        println!("  frame    {}", hex_words(&self.before.frame));
        println!("  report   {}", hex_words(&self.before.report));
        println!("  settings {}", hex_words(&self.before.settings));
        println!("  output   {} bytes", self.twin.out.len());
        println!("  line     {} entries", self.twin.line.len());
        let mem = if call.lends_memory_to_write() {
            &self.before.mem
        } else {
            &self.twin.mem
        };
        println!("  memory   {} bytes, rows of 0 left out:", mem.len());
        print!("{}", hex_memory(mem));
        for (name, answer, lent) in [("desk", desk, &self.desk), ("twin", twin, &self.twin)] {
            println!("The {name} answers {answer}:");
            println!("  board    {}", hex_words(&lent.board));
            println!("  frame    {}", hex_words(&lent.frame));
            println!("  report   {}", hex_words(&lent.report));
            println!("  settings {}", hex_words(&lent.settings));
        }
        let (desk, twin) = (&self.desk, &self.twin);
        print_differing("Bytes of memory", &desk.mem, &twin.mem);
        print_differing("Bytes of output", &desk.out, &twin.out);
        print_differing("Entries of the line", &desk.line, &twin.line);
        panic!("{}:{:#X}: the boards disagree", self.family, self.seed);
    }
}

/// Random words behind those that count, so that writing too far is seen.
fn margins(r: &mut Random, lent: &mut Lent) {
    for words in [
        &mut lent.board,
        &mut lent.frame,
        &mut lent.report,
        &mut lent.settings,
    ] {
        for _ in 0..r.below(3) {
            words.push(r.word());
        }
    }
    for word in lent.report.iter_mut().chain(&mut lent.settings) {
        *word = r.word();
    }
}

fn write_address(pair: &mut Pair, register: u32, address: u32) {
    for (offset, byte) in (register..).zip(&address.to_le_bytes()[..3]) {
        pair.call(Call::Write(offset, *byte));
    }
}

fn budget(r: &mut Random, most: u32) -> u32 {
    match r.below(8) {
        0 => r.below(3),
        1..=3 => r.between(1, 40),
        _ => r.between(1, most),
    }
}

/// Lists of blocks, in runs of random length.
fn lists(r: &mut Random, pair: &mut Pair) {
    let good = r.chance(24, 25);
    let length = if good {
        make::length(r)
    } else {
        make::bad_length(r)
    };
    let mut mem = make::memory(r, length);
    let list = make::list(r, &mut mem);
    pair.lend(|lent| {
        lent.mem = mem;
        margins(r, lent);
    });
    if r.chance(1, 4) {
        let board = make::board(r);
        pair.lend(|lent| lent.board[..BOARD_WORDS].copy_from_slice(&board));
    } else {
        pair.call(Call::New);
        write_address(pair, 0x50, list);
        pair.call(Call::Write(0x54, r.byte()));
        pair.call(Call::Write(0x53, r.byte() | 1));
    }
    let most = r.pick(&[20, 100, 400, 2_000]);
    let mut left = r.pick(&[60, 300, 800, 800, 3_000]);
    let mut idle = 0;
    for _ in 0..60 {
        let before = pair.tally.ticks;
        match r.below(40) {
            0 => pair.call(Call::Run(r.between(1_000_001, u32::MAX))),
            1..=4 => pair.call(Call::Tick),
            _ => pair.call(Call::Run(budget(r, most))),
        };
        left -= (pair.tally.ticks - before) as i64;
        if pair.twin.board[at::FLAGS] == 0 || !good {
            idle += 1;
        }
        if left <= 0 || idle > 2 {
            break;
        }
    }
}

/// Long runs: big blocks, up to a million ticks in a call.
fn long_runs(r: &mut Random, pair: &mut Pair) {
    let length = make::length(r);
    let mut mem = make::memory(r, length);
    let list = make::address(r);
    for number in 0..4 {
        let mut block = make::block(r, &[list], number < 3);
        block[12] = r.byte();
        block[13] = r.byte();
        block[14] = r.byte();
        make::put(&mut mem, list + 21 * number, &block);
    }
    pair.lend(|lent| lent.mem = mem);
    pair.call(Call::New);
    write_address(pair, 0x50, list);
    pair.call(Call::Write(0x53, 1));
    pair.call(Call::Run(r.pick(&[1_000_000, 1_000_000, 123_456])));
    pair.call(Call::Run(r.below(1_000_001)));
}

/// Blocks whose bytes lie one after the other, and mostly their sources too. The two are near each other, so that they
/// overlap, and often at the memory's end, so that they wrap. Some have one source byte for eight, some none, some a mask.
fn flat(r: &mut Random, pair: &mut Pair) {
    let length = make::length(r).min(1 << 16);
    let mut mem = make::memory(r, length);
    let list = make::address(r);
    for number in 0..3 {
        let mut block = make::block(r, &[list], number < 2);
        let to = match r.below(3) {
            0 => length as u32 - r.between(1, 40),
            _ => r.below(length as u32),
        };
        let from = (524_288 + to + r.below(80) - 40) % 524_288;
        block[..3].copy_from_slice(&from.to_le_bytes()[..3]);
        block[5] = r.pick(&[1, 1, 1, 0, 255]);
        block[6..9].copy_from_slice(&to.to_le_bytes()[..3]);
        block[11] = 1;
        block[12..15].copy_from_slice(&[r.between(6, 70) as u8, 0, r.below(4) as u8]);
        block[15] = r.pick(&[0, 255, 255, 0x5A]);
        block[17] = r.pick(&[0, 0, 0, 255]);
        block[18] = r.pick(&[0, 0, 7, 0x17, 3]);
        block[19] = r.pick(&[0, 0, 0x83, 0x8F]);
        make::put(&mut mem, list + 21 * number, &block);
    }
    pair.lend(|lent| lent.mem = mem);
    pair.call(Call::New);
    write_address(pair, 0x50, list);
    pair.call(Call::Write(0x53, 1));
    for _ in 0..8 {
        pair.call(Call::Run(budget(r, 2_000)));
    }
}

/// Register writes and reads, resets, runs, lines and drawn lines in any order.
fn scripts(r: &mut Random, pair: &mut Pair) {
    let length = make::length(r).min(1 << 16);
    let mut mem = make::memory(r, length);
    let list = make::list(r, &mut mem);
    let xdl = make::xdl(r, &mut mem);
    pair.lend(|lent| {
        lent.mem = mem;
        lent.line = any_line(r, MAX_PIXELS);
        margins(r, lent);
    });
    pair.call(Call::New);
    pair.call(Call::Start);
    write_address(pair, 0x41, xdl);
    write_address(pair, 0x50, list);
    for _ in 0..r.between(5, 60) {
        let any = r.byte();
        match r.below(24) {
            0..=3 => pair.call(Call::Write(r.between(0x40, 0x5F), any)),
            4..=5 => pair.call(Call::Write(0x53, any)),
            6 => pair.call(Call::Write(0x53, 1)),
            7 => pair.call(Call::Write(0x54, any)),
            8 => pair.call(Call::Write(0x40, any)),
            9 => {
                let offset = make::odd_word(r);
                pair.call(Call::Write(offset, any))
            }
            10..=11 => pair.call(Call::Read(r.between(0x40, 0x5F))),
            12 => pair.call(Call::Read(r.pick(&[0x3F, 0x60, 0x150, u32::MAX]))),
            13 => {
                write_address(pair, 0x50, list);
                pair.call(Call::Write(0x53, 1))
            }
            14 if r.chance(1, 4) => pair.call(Call::Reset),
            15 => pair.call(Call::Start),
            16..=17 => pair.call(Call::NextLine),
            18 => pair.call(Call::Tick),
            19 => pair.call(Call::Draw),
            _ => pair.call(Call::Run(budget(r, 200))),
        };
    }
    for offset in 0x3F..=0x60 {
        pair.call(Call::Read(offset));
    }
}

/// States with odd words, buffers that are too short, lengths and arguments that are refused.
fn states(r: &mut Random, pair: &mut Pair) {
    let length = if r.chance(7, 8) {
        1 << 14
    } else {
        make::bad_length(r)
    };
    let mem = make::memory(r, length);
    pair.lend(|lent| lent.mem = mem);
    for _ in 0..12 {
        let mut board = make::board(r);
        let mut frame = make::frame(r);
        match r.below(12) {
            0 => {}
            1 => {
                board = std::array::from_fn(|_| r.word());
                frame = std::array::from_fn(|_| r.word());
            }
            2 => {
                board = std::array::from_fn(|_| make::odd_word(r));
                frame = std::array::from_fn(|_| make::odd_word(r));
            }
            3..=4 => {
                // A position at the end of the block, or just past it.
                let mut block = [0; 21];
                r.fill(&mut block);
                let (rows, columns) = make::extents(&block);
                board[at::FLAGS] = r.pick(&[0, 1, 2, 2, 2, 2]);
                for (word, byte) in board[at::BLOCK..at::ROW].iter_mut().zip(block) {
                    *word = byte.into();
                }
                board[at::ROW] = rows + r.below(3) + u32::from(rows == 1) - 2;
                board[at::COLUMN] = columns + r.below(3) + u32::from(columns == 1) - 2;
                let height = r.between(1, 33);
                frame[at::FIELD_HEIGHT] = height;
                frame[at::FIELD] = height - 1 + r.below(2);
            }
            5 => {
                // An origin at the end of its range, or past it.
                make::damage(r, &mut board);
                frame[at::ORIGIN] = r.pick(&[0, 524_287, 524_288, 524_289, u32::MAX]);
            }
            _ => {
                make::damage(r, &mut board);
                make::damage(r, &mut frame);
            }
        }
        pair.lend(|lent| {
            lent.board = board.to_vec();
            lent.frame = frame.to_vec();
            lent.report = vec![7; 2];
            lent.settings = vec![7; SETTINGS_WORDS];
            margins(r, lent);
            if r.chance(1, 12) {
                let words = match r.below(4) {
                    0 => &mut lent.board,
                    1 => &mut lent.frame,
                    2 => &mut lent.report,
                    _ => &mut lent.settings,
                };
                let keep = r.below(words.len() as u32);
                words.truncate(keep as usize);
            }
        });
        let odd = make::odd_word(r);
        let offset = r.between(0x3F, 0x60);
        match r.below(9) {
            0 => pair.call(Call::Write(offset, r.byte())),
            1 => pair.call(Call::Read(offset)),
            2 => pair.call(Call::Reset),
            3 => pair.call(Call::Tick),
            4 => pair.call(Call::Run(odd.min(r.pick(&[500, 500, u32::MAX])))),
            5 => pair.call(Call::Start),
            6..=7 => pair.call(Call::NextLine),
            _ => pair.call(Call::New),
        };
    }
}

/// The lines of random XDLs, and two more than there are.
fn frames(r: &mut Random, pair: &mut Pair) {
    let length = make::length(r);
    let mut mem = make::memory(r, length);
    let xdl = if r.chance(7, 8) {
        make::xdl(r, &mut mem)
    } else {
        make::address(r)
    };
    pair.lend(|lent| {
        lent.mem = mem;
        margins(r, lent);
    });
    if r.chance(1, 4) {
        let frame = make::frame(r);
        pair.lend(|lent| {
            lent.frame[..FRAME_WORDS].copy_from_slice(&frame);
            if r.chance(3, 4) {
                lent.frame[at::LINE] = 0;
                lent.frame[at::POSITION] = xdl;
            }
        });
    } else {
        pair.call(Call::New);
        write_address(pair, 0x41, xdl);
        let control = r.byte() | r.pick(&[0, 1, 1, 1, 1, 1]);
        pair.call(Call::Write(0x40, control));
        pair.call(Call::Start);
    }
    for _ in 0..242 {
        if pair.call(Call::NextLine) == 4 && r.chance(1, 2) {
            break;
        }
    }
}

/// A lent line with something in each of its entries.
fn any_line(r: &mut Random, entries: usize) -> Vec<u16> {
    (0..entries).map(|_| r.word() as u16).collect()
}

/// Lines drawn from settings good and damaged, into lent lines about as long as they have to be.
fn drawings(r: &mut Random, pair: &mut Pair) {
    let length = if r.chance(15, 16) {
        make::length(r)
    } else {
        make::bad_length(r)
    };
    let mem = make::picture(r, length);
    pair.lend(|lent| lent.mem = mem);
    for _ in 0..16 {
        let mut board = make::board(r);
        board[at::VIDEO_CONTROL] = r.below(16);
        let mut settings = make::settings(r, length);
        match r.below(24) {
            0 => make::damage(r, &mut board),
            1 => make::damage(r, &mut settings),
            2 => {
                // Words out of their types, or just out of their ranges.
                let spot = r.below(SETTINGS_WORDS as u32) as usize;
                settings[spot] += r.pick(&[1, 8, 256, 65_536, 0x8000_0000]);
            }
            3 => {
                let height = r.between(1, 33);
                settings[at::FIELD_HEIGHT] = height;
                settings[at::FIELD] = height - 1 + r.below(2);
            }
            4 => settings = std::array::from_fn(|_| make::odd_word(r)),
            _ => {}
        }
        let pixels = Settings::from_words(&settings).map_or(320, |settings| settings.pixels());
        let entries = match r.below(8) {
            0 => pixels.saturating_sub(1),
            1 => r.below(pixels as u32 + 1) as usize,
            2 => pixels,
            3 | 4 => pixels + r.below(9) as usize,
            _ => MAX_PIXELS + r.below(9) as usize,
        };
        pair.lend(|lent| {
            lent.board = board.to_vec();
            lent.settings = settings.to_vec();
            lent.line = any_line(r, entries);
            for _ in 0..r.below(3) {
                lent.board.push(r.word());
                lent.settings.push(r.word());
            }
            lent.report = (0..r.pick(&[0, 1, 1, 1, 2, 2, 3]))
                .map(|_| r.word())
                .collect();
            if r.chance(1, 24) {
                let words = if r.chance(1, 2) {
                    &mut lent.board
                } else {
                    &mut lent.settings
                };
                let keep = r.below(words.len() as u32);
                words.truncate(keep as usize);
            }
        });
        pair.call(Call::Draw);
    }
}

/// Good and broken plans into all kinds of buffers; those that are taken are installed and shown.
fn plans(r: &mut Random, pair: &mut Pair) {
    let plan = if r.chance(1, 2) {
        make::plan_items(r).concat()
    } else {
        make::broken_plan(r)
    };
    let needed = xdl(&plan).map_or(22, |xdl| xdl.len());
    let room = match r.below(8) {
        0 => 0,
        1 => needed - 1,
        2 | 3 => needed,
        4 => needed + r.below(9) as usize,
        5 => r.below(needed as u32) as usize,
        _ => 5_280,
    };
    pair.lend(|lent| {
        lent.out = vec![0; room];
        r.fill(&mut lent.out);
        margins(r, lent);
        if r.chance(1, 20) {
            lent.report.clear();
        }
    });
    if pair.call(Call::Compile(&plan)) != 0 {
        return;
    }
    let xdl = pair.twin.out[..pair.twin.report[0] as usize].to_vec();
    let length = make::length(r);
    let mem = make::memory(r, length);
    pair.lend(|lent| lent.mem = mem);
    let address = make::address(r);
    pair.call(Call::Install(&xdl, address));
    pair.call(Call::New);
    write_address(pair, 0x41, address);
    pair.call(Call::Write(0x40, r.byte() | 1));
    pair.call(Call::Start);
    let meant = meaning(&plan, address).expect("it was taken");
    for (number, line) in meant.iter().enumerate() {
        pair.call(Call::NextLine);
        assert_eq!(
            pair.twin.settings[..SETTINGS_WORDS],
            line.to_words(),
            "plans:{:#X}: line {number} is not what the plan means",
            pair.seed
        );
    }
    pair.call(Call::NextLine);
}

/// Bytes of any number to any address.
fn installs(r: &mut Random, pair: &mut Pair) {
    let length = if r.chance(7, 8) {
        make::length(r)
    } else {
        make::bad_length(r)
    };
    let mem = make::memory(r, length);
    pair.lend(|lent| lent.mem = mem);
    for _ in 0..4 {
        let count = match r.below(8) {
            0 => 0,
            1 => r.between(5_279, 5_282),
            2 => r.between(5_281, 20_000),
            3 => r.below(5_281),
            _ => r.below(60),
        };
        let mut list = vec![0; count as usize];
        r.fill(&mut list);
        let address = match r.below(8) {
            0 => r.between(524_286, 524_290),
            1 => r.between(524_288, u32::MAX),
            2 => make::odd_word(r),
            _ => make::address(r),
        };
        pair.call(Call::Install(&list, address));
    }
}

/// A few bytes to each address there is, and to some that are refused.
fn every_address(r: &mut Random, pair: &mut Pair) {
    let mem = make::memory(r, 1 << 14);
    pair.lend(|lent| lent.mem = mem);
    for address in 0..=524_300 {
        let list = r.long().to_le_bytes();
        pair.call(Call::Install(&list[..3], address));
    }
}

type Family = (&'static str, u64, fn(&mut Random, &mut Pair));

const FAMILIES: [Family; 10] = [
    ("lists", 16_000, lists),
    ("long_runs", 24, long_runs),
    ("scripts", 5_000, scripts),
    ("states", 20_000, states),
    ("frames", 12_000, frames),
    ("plans", 14_000, plans),
    ("installs", 10_000, installs),
    ("every_address", 1, every_address),
    ("flat", 8_000, flat),
    ("drawings", 12_000, drawings),
];

fn number(text: &str) -> u64 {
    let parsed = match text.strip_prefix("0x") {
        Some(digits) => u64::from_str_radix(digits, 16),
        None => text.parse(),
    };
    parsed.unwrap_or_else(|_| panic!("{text} is no number"))
}

fn setting(name: &str) -> Option<u64> {
    env::var(name).ok().map(|text| number(&text))
}

fn scenario(&(name, _, family): &Family, seed: u64, tally: &mut Tally) {
    let mut pair = Pair::new(name, seed, tally);
    family(&mut Random::new(seed), &mut pair);
}

#[test]
fn the_boards_agree() {
    if let Ok(only) = env::var("TWIN_ONLY") {
        let (name, seed) = only.split_once(':').expect("TWIN_ONLY=family:seed");
        let family = FAMILIES.iter().find(|family| family.0 == name);
        let mut tally = Tally::default();
        scenario(family.expect("a family's name"), number(seed), &mut tally);
        println!("{only} agreed: {} calls", tally.calls);
        return;
    }
    let rounds = setting("TWIN_ROUNDS").unwrap_or(1).max(1);
    let base = setting("TWIN_SEED").unwrap_or(1);
    println!("\nSeed {base}, rounds {rounds}");
    println!(
        "{:<14}{:>12}{:>12}{:>14}{:>12}{:>10}",
        "family", "scenarios", "calls", "ticks", "lines", "seconds"
    );
    let row = |name: &str, tally: &Tally, begun: Instant| {
        println!(
            "{:<14}{:>12}{:>12}{:>14}{:>12}{:>10.1}",
            name,
            tally.scenarios,
            tally.calls,
            tally.ticks,
            tally.lines,
            begun.elapsed().as_secs_f64()
        );
    };
    let begun = Instant::now();
    let mut total = Tally::default();
    for (number, family) in (0..).zip(&FAMILIES) {
        let began = Instant::now();
        let mut tally = Tally::default();
        for index in 0..family.1 * rounds {
            let seed = spread(spread(spread(base).wrapping_add(number)) ^ index);
            scenario(family, seed, &mut tally);
        }
        row(family.0, &tally, began);
        total.add(&tally);
    }
    row("all", &total, begun);
    print!("Numbers:");
    for (number, count) in total.numbers.iter().enumerate() {
        print!(" {number} x {count};");
    }
    println!(" at an item other than 0 x {}.", total.items);
    println!(
        "Drawn: {} lines, {} pixels, {} of them transparent.",
        total.drawn.as_flattened().iter().sum::<u64>(),
        total.pixels,
        total.transparent
    );
    println!(
        "Agreed: {} scenarios, {} ticks.",
        total.scenarios, total.ticks
    );

    assert!(total.ticks >= 1_000_000);
    // 0 and each number of the sheet came, and no other.
    let sheet = Refusal::SHEET.map(Refusal::number);
    for (number, &count) in (0..).zip(&total.numbers) {
        let told = number == 0 || sheet.contains(&number);
        assert_eq!(count > 0, told, "number {number} came {count} times");
    }
    assert!(total.items > 0);
    // Each mode was drawn often under each rule for transparent colours, and neither kind of pixel is rare.
    assert!(total
        .drawn
        .as_flattened()
        .iter()
        .all(|&lines| lines > 1_000));
    assert!(total.transparent * 20 > total.pixels && total.transparent * 2 < total.pixels);
}
