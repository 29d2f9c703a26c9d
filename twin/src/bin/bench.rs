//! How long the archive takes for the same work as the twin.
//!
//! One process, the same input, the two in turn. Both are called through the words of `deskboard.h`. With arguments, only
//! the rows whose name has one of them in it.

use std::array;
use std::env;
use std::time::Instant;
use twin::card::{Card, BOARD_WORDS, FRAME_WORDS, SETTINGS_WORDS};
use twin::desk::Desk;
use twin::random::Random;
use twin::twin::{Frame, Mode, Settings, Twin, Video, MAX_PIXELS};

const REPETITIONS: usize = 41;
const BUDGET: u32 = 1_000_000;

/// What the calls of one side work on.
#[derive(Clone, PartialEq)]
struct Lent {
    board: [u32; BOARD_WORDS],
    frame: [u32; FRAME_WORDS],
    report: [u32; 2],
    settings: [u32; SETTINGS_WORDS],
    mem: Vec<u8>,
    out: Vec<u8>,
    /// 240 lent lines, each behind the other.
    screen: Vec<u16>,
}

/// What is measured.
enum Work {
    /// A run of a list, from the board as started.
    Run([u32; BOARD_WORDS]),
    /// The 240 lines of a frame as started.
    Lines([u32; FRAME_WORDS]),
    /// The same, but the twin keeps its frame in a type of its own.
    OwnLines([u32; FRAME_WORDS]),
    /// Lines drawn from their settings, on a new board.
    Draw(Vec<[u32; SETTINGS_WORDS]>),
    Compile(Vec<u8>),
}

struct Workload {
    name: &'static str,
    unit: &'static str,
    /// Passes in one measurement.
    passes: u32,
    mem: Vec<u8>,
    work: Work,
}

impl Workload {
    fn lent(&self) -> Lent {
        Lent {
            board: [0; BOARD_WORDS],
            frame: [0; FRAME_WORDS],
            report: [0; 2],
            settings: [0; SETTINGS_WORDS],
            mem: self.mem.clone(),
            out: vec![0; 8_192],
            screen: vec![0; 240 * MAX_PIXELS],
        }
    }

    /// One pass through the words; the units done.
    fn pass<C: Card>(&self, lent: &mut Lent) -> u32 {
        match &self.work {
            Work::Run(started) => {
                lent.board = *started;
                assert_eq!(
                    C::run(&mut lent.board, &mut lent.mem, BUDGET, &mut lent.report),
                    0
                );
                lent.report[0]
            }
            Work::Lines(started) | Work::OwnLines(started) => {
                lent.frame = *started;
                for _ in 0..240 {
                    assert_eq!(
                        C::next_line(&mut lent.frame, &lent.mem, &mut lent.settings),
                        0
                    );
                }
                240
            }
            Work::Draw(lines) => {
                let rows = lent.screen.chunks_exact_mut(MAX_PIXELS);
                for (settings, row) in lines.iter().zip(rows) {
                    assert_eq!(
                        C::draw(&lent.board, settings, &lent.mem, row, &mut lent.report),
                        0
                    );
                }
                240
            }
            Work::Compile(plan) => {
                assert_eq!(C::compile(plan, &mut lent.out, &mut lent.report), 0);
                240
            }
        }
    }

    fn desk_pass(&self, lent: &mut Lent) -> u32 {
        self.pass::<Desk>(lent)
    }

    fn twin_pass(&self, lent: &mut Lent) -> u32 {
        let Work::OwnLines(started) = &self.work else {
            return self.pass::<Twin>(lent);
        };
        let video = Video::new(&lent.mem[..]).expect("a good length");
        let mut frame = Frame::from_words(started).expect("a sound frame");
        for _ in 0..240 {
            let settings = frame.next_line(&video).expect("a line");
            lent.settings = settings.to_words();
        }
        lent.frame = frame.to_words();
        240
    }

    /// Nanoseconds a unit.
    fn time(&self, lent: &mut Lent, pass: fn(&Workload, &mut Lent) -> u32) -> f64 {
        let begun = Instant::now();
        let mut units = 0;
        for _ in 0..self.passes {
            units += pass(self, lent);
        }
        begun.elapsed().as_secs_f64() * 1e9 / f64::from(units)
    }

    fn measure(&self) {
        let mut desk = self.lent();
        let mut twin = self.lent();
        let units = self.desk_pass(&mut desk);
        assert_eq!(units, self.twin_pass(&mut twin), "{}", self.name);
        assert!(desk == twin, "{}: the results differ", self.name);

        let mut desk_times = [0.0; REPETITIONS];
        let mut twin_times = [0.0; REPETITIONS];
        for repetition in 0..REPETITIONS {
            let desk_first = repetition % 2 == 0;
            if desk_first {
                desk_times[repetition] = self.time(&mut desk, Self::desk_pass);
            }
            twin_times[repetition] = self.time(&mut twin, Self::twin_pass);
            if !desk_first {
                desk_times[repetition] = self.time(&mut desk, Self::desk_pass);
            }
        }
        assert!(desk == twin, "{}: the results differ", self.name);

        desk_times.sort_by(f64::total_cmp);
        twin_times.sort_by(f64::total_cmp);
        let middle = REPETITIONS / 2;
        println!(
            "{:<38}{:>8} {:<6}{:>9.2}{:>9.2}{:>8.2}{:>10.2}{:>9.2}{:>8.2}",
            self.name,
            units,
            self.unit,
            desk_times[0],
            twin_times[0],
            desk_times[0] / twin_times[0],
            desk_times[middle],
            twin_times[middle],
            desk_times[middle] / twin_times[middle],
        );
    }
}

/// An area: address, step x, step y.
type Area = (u32, i8, i16);

fn block(source: Area, dest: Area, width: u32, height: u32, control: u8) -> [u8; 21] {
    let mut bytes = [0; 21];
    for (at, (address, step_x, step_y)) in [(0, source), (6, dest)] {
        bytes[at..at + 3].copy_from_slice(&address.to_le_bytes()[..3]);
        bytes[at + 3..at + 5].copy_from_slice(&step_y.to_le_bytes());
        bytes[at + 5] = step_x as u8;
    }
    bytes[12..14].copy_from_slice(&(width - 1).to_le_bytes()[..2]);
    bytes[14] = (height - 1) as u8;
    bytes[15] = 0xFF;
    bytes[20] = control;
    bytes
}

fn started<C: Card>(list: u32) -> [u32; BOARD_WORDS] {
    let mut board = [0; BOARD_WORDS];
    C::new_board(&mut board);
    for (register, byte) in (0x50..).zip(&list.to_le_bytes()[..3]) {
        C::write(&mut board, register, *byte);
    }
    C::write(&mut board, 0x53, 1);
    board
}

/// A run of chained blocks that lie at `list`, over memory with random bytes.
fn run(
    name: &'static str,
    passes: u32,
    length: usize,
    list: u32,
    mut blocks: Vec<[u8; 21]>,
) -> Workload {
    let mut mem = vec![0; length];
    Random::new(7).fill(&mut mem);
    let last = blocks.len() - 1;
    for block in &mut blocks[..last] {
        block[20] |= 8;
    }
    let bytes = blocks.concat();
    let at = list as usize % length;
    mem[at..at + bytes.len()].copy_from_slice(&bytes);
    Workload {
        name,
        unit: "ticks",
        passes,
        mem,
        work: Work::Run(started::<Twin>(list)),
    }
}

/// Seven blocks of 512 x 256 bytes from 0 to 0x30000, each changed as wanted.
fn big(name: &'static str, control: u8, change: fn(&mut [u8; 21])) -> Workload {
    let blocks = (0..7).map(|_| {
        let mut block = block((0, 1, 512), (0x30000, 1, 512), 512, 256, control);
        change(&mut block);
        block
    });
    run(name, 1, 524_288, 0x60000, blocks.collect())
}

/// 24 pictures of 16 x 16, on a screen 320 wide. The first byte of each is `first` behind its place in memory, the next
/// one a step in x further.
fn sprites(name: &'static str, first: u32, step_x: i8, control: u8) -> Workload {
    let blocks = (0..24).map(|number| {
        let source = (0x20000 + 256 * number + first, step_x, 16);
        let place = 320 * (8 * (number % 6)) + 50 * (number / 6);
        block(source, (0x30000 + place, 1, 320), 16, 16, control)
    });
    run(name, 50, 524_288, 0x60000, blocks.collect())
}

/// 1,000 pictures of 4 x 8, as characters are.
fn characters() -> Workload {
    let blocks = (0..1_000).map(|number| {
        let source = (0x10000 + 32 * (number % 96), 1, 4);
        let place = 320 * (8 * (number / 80)) + 4 * (number % 80);
        block(source, (0x20000 + place, 1, 320), 4, 8, 0)
    });
    run(
        "rows of 4: 4 x 8, 1,000 blocks",
        10,
        524_288,
        0x60000,
        blocks.collect(),
    )
}

/// An SR screen, 320 x 240, of which each block does so many lines, from a source to the screen's first line.
fn screen(name: &'static str, source: u32, lines: u32, andmask: u8) -> Workload {
    let blocks = (0..12).map(|_| {
        let mut block = block((source, 1, 320), (0x30000, 1, 320), 320, lines, 0);
        block[15] = andmask;
        block
    });
    run(name, 1, 524_288, 0x60000, blocks.collect())
}

fn narrow() -> Workload {
    let blocks = (0..1_000).map(|number| {
        let source = (0x10000 + number, 1, 1);
        block(source, (0x20000 + number % 320, 1, 320), 1, 256, 0)
    });
    run(
        "1 wide, 256 high, 1,000 blocks",
        1,
        524_288,
        0x60000,
        blocks.collect(),
    )
}

/// Source and destination beyond the memory's end; the destination wraps, the list in the middle stays.
fn small_memory() -> Workload {
    let blocks = (0..7).map(|_| block((0x50800, 1, 16), (0x7B000, 1, 16), 512, 256, 0));
    run("copy, L = 16,384", 1, 16_384, 0x2000, blocks.collect())
}

fn records() -> (Vec<u8>, [u32; FRAME_WORDS]) {
    let mut mem = vec![0; 524_288];
    let mut r = Random::new(8);
    for record in mem[..22 * 240].chunks_mut(22) {
        r.fill(record);
        // Every group of data; a repeat of 0; no end.
        record[0] = r.pick(&[0xE1, 0xE2, 0xE4, 0xE9, 0xEA, 0xF2]);
        record[1] = r.pick(&[0x0F, 0x1F, 0x2F]);
        record[2] = 0;
    }
    let mut board = [0; BOARD_WORDS];
    let mut frame = [0; FRAME_WORDS];
    Twin::new_board(&mut board);
    Twin::write(&mut board, 0x40, 1);
    Twin::start(&board, &mut frame);
    (mem, frame)
}

/// The 240 lines of a screen at 20000h, width 1, over random bytes: so many bytes in a row, and so many lines of the screen
/// for each row.
fn drawing(name: &'static str, mode: Mode, hscroll: u8, bytes: u32, lines: u32) -> Workload {
    let mut mem = vec![0; 524_288];
    Random::new(10).fill(&mut mem);
    let line = |number: u32| Settings {
        mode,
        overlay_address: 0x20000 + number / lines * bytes,
        overlay_step: bytes as u16,
        hscroll,
        font: 0x20,
        text_counter: (number % lines) as u8,
        ..Settings::default()
    };
    Workload {
        name,
        unit: "lines",
        passes: 20,
        mem,
        work: Work::Draw((0..240).map(|number| line(number).to_words()).collect()),
    }
}

/// 240 items of one line: a full band, then running on, and so on.
fn plan() -> Vec<u8> {
    let mut r = Random::new(9);
    let mut plan = Vec::new();
    for number in 0..240 {
        let any: [u8; 12] = array::from_fn(|_| r.byte());
        let look = [any[0] & 7, any[1] & 7, any[2]];
        let tail = [any[3] % 3, any[4] & 15, any[5]];
        if number % 2 == 0 {
            plan.extend([23, 0, 1, 0, 1, number % 5]);
            plan.extend([any[6], any[7], any[8] & 7, any[9], any[10] & 15]);
            plan.extend(look);
            plan.push(any[11] & 1);
            plan.extend([any[7], any[6], any[9] & 7, any[8], any[11] & 15]);
            plan.extend([any[10] & 31, any[11] & 31, 8 + any[9] % 25, 1 + any[8] % 32]);
            plan.extend(tail);
        } else {
            plan.extend([7, 0, 2, 0, 1]);
            plan.extend(look);
            plan.extend(tail);
        }
    }
    plan
}

fn workloads() -> Vec<Workload> {
    let (mem, frame) = records();
    vec![
        big("copy 512 x 256, mode 0, 7 blocks", 0, |_| {}),
        big("constant fill 512 x 256, 7 blocks", 0, |block| {
            block[15] = 0;
            block[16] = 0x5A;
        }),
        big("mode 1, mask 0, 7 blocks", 1, |_| {}),
        big("mode 5, AND 0, mask 0, 7 blocks", 5, |block| {
            block[15] = 0;
            block[16] = 255;
        }),
        big("mode 1, collision mask 255, 7 blocks", 1, |block| {
            block[17] = 255;
        }),
        big("mode 1, mask AA, random bytes", 1, |block| {
            block[17] = 0xAA;
        }),
        // Its own colour is drawn over an area of that colour, which stands in a range whose bit is set.
        big("mode 1, mask AA, over one colour", 1, |block| {
            block[15] = 0;
            block[16] = 0xB6;
            block[17] = 0xAA;
        }),
        big("mode 6, collision mask 255, 7 blocks", 6, |block| {
            block[17] = 255;
        }),
        big("zoom 8 x 8, pattern of 16, 7 blocks", 0, |block| {
            block[12..15].copy_from_slice(&[63, 0, 31]);
            block[18] = 0x77;
            block[19] = 0x8F;
        }),
        big("zoom 4 x 1, 7 blocks", 0, |block| {
            block[12..14].copy_from_slice(&[127, 0]);
            block[18] = 3;
        }),
        big("zoom 2 x 1, 7 blocks", 0, |block| {
            block[12..14].copy_from_slice(&[255, 0]);
            block[18] = 1;
        }),
        big("pattern of 4, 7 blocks", 0, |block| {
            block[19] = 0x83;
        }),
        // The source is one byte behind the destination, or one before it: then each byte is read after it was written.
        big("scroll by 1, 7 blocks", 0, |block| {
            block[..3].copy_from_slice(&[1, 0, 3]);
        }),
        big("smear by 1, 7 blocks", 0, |block| {
            block[..3].copy_from_slice(&[0xFF, 0xFF, 2]);
        }),
        sprites("24 sprites of 16 x 16, mode 3", 0, 1, 3),
        sprites("24 of 16 x 16, mirrored, mode 0", 15, -1, 0),
        characters(),
        narrow(),
        screen("SR screen 320 x 240, cleared", 0x30000, 240, 0),
        screen("SR screen, scrolled by a line", 0x30140, 239, 255),
        small_memory(),
        Workload {
            name: "frame, a record on each line",
            unit: "lines",
            passes: 100,
            mem: mem.clone(),
            work: Work::Lines(frame),
        },
        Workload {
            name: "the same, twin without words",
            unit: "lines",
            passes: 100,
            mem,
            work: Work::OwnLines(frame),
        },
        drawing("drawn line, SR, 320 pixels", Mode::Sr, 0, 320, 1),
        drawing("drawn line, HR, 640 pixels", Mode::Hr, 0, 320, 1),
        drawing("drawn line, text, 640, hscroll 3", Mode::Text, 3, 160, 8),
        Workload {
            name: "plan of 240 items",
            unit: "items",
            passes: 200,
            mem: Vec::new(),
            work: Work::Compile(plan()),
        },
    ]
}

fn main() {
    println!("Nanoseconds a tick, line or item; least and median of {REPETITIONS} repetitions.");
    println!(
        "{:<38}{:>15}{:>9}{:>9}{:>8}{:>10}{:>9}{:>8}",
        "", "", "least", "", "", "median", "", ""
    );
    println!(
        "{:<38}{:>15}{:>9}{:>9}{:>8}{:>10}{:>9}{:>8}",
        "work", "a pass", "desk", "twin", "ratio", "desk", "twin", "ratio"
    );
    let named: Vec<String> = env::args().skip(1).collect();
    for workload in workloads() {
        if named.is_empty() || named.iter().any(|part| workload.name.contains(part)) {
            workload.measure();
        }
    }
}
