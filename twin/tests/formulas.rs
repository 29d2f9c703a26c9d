//! The twin against the formulas of the rules, written down once more in the plainest way.
//!
//! The twin goes over whole rows and keeps running addresses. Here each tick is worked out on its own.
#![allow(clippy::manual_is_multiple_of)]

mod common;

use common::*;
use twin::card::Card;
use twin::random::Random;
use twin::twin::{meaning, xdl, Board, Frame, Twin};

/// One tick on the words of a sound board; its accesses.
fn plain_tick(board: &mut [u32], mem: &mut [u8]) -> u32 {
    let length = mem.len() as i64;
    let cell = |address: i64| (address.rem_euclid(524_288) % length) as usize;
    match board[at::FLAGS] {
        0 => return 0,
        1 => {
            for number in 0..21 {
                let from = cell(i64::from(board[at::LIST]) + number);
                board[at::BLOCK + number as usize] = mem[from].into();
            }
            board[at::LIST] = (board[at::LIST] + 21) % 524_288;
            board[at::FLAGS] = 2;
            return 21;
        }
        _ => {}
    }
    let block: Vec<i64> = board[at::BLOCK..at::ROW]
        .iter()
        .map(|&word| i64::from(word))
        .collect();
    let place = |from: usize| block[from] + 256 * block[from + 1] + 65_536 * (block[from + 2] % 8);
    let step_y = |from: usize| match block[from] + 256 * (block[from + 1] % 32) {
        up @ 0..=4_095 => up,
        down => down - 8_192,
    };
    let step_x = |from: usize| match block[from] {
        right @ 0..=127 => right,
        left => left - 256,
    };
    let width = block[12] + 256 * (block[13] % 2) + 1;
    let height = block[14] + 1;
    let zoom_x = block[18] % 8 + 1;
    let zoom_y = block[18] / 16 % 8 + 1;
    let pattern = if block[19] >= 128 {
        block[19] % 64 + 1
    } else {
        width
    };
    let (and, xor, mask) = (block[15] as u8, block[16] as u8, block[17] as u8);
    let mode = block[20] % 8;
    let next = block[20] / 8 % 2 == 1;
    let (row, column) = (i64::from(board[at::ROW]), i64::from(board[at::COLUMN]));

    let source = cell(place(0) + row / zoom_y * step_y(3) + column / zoom_x % pattern * step_x(5));
    let dest = cell(place(6) + row * step_y(9) + column * step_x(11));
    let mut accesses = 0;
    if mode != 7 {
        let mut read = 0;
        if and != 0 {
            read = mem[source];
            accesses += 1;
        }
        let s = read & and ^ xor;
        let d = mem[dest];
        let in_mask = |bit: u8| mask & 1 << bit != 0;
        if (1..=5).contains(&mode) && s != 0 && d != 0 && in_mask(d / 32) {
            board[at::CODE] = d.into();
        }
        if mode == 6 {
            let code = board[at::CODE];
            if s % 16 != 0 && d % 16 != 0 && in_mask(d % 16 / 2) {
                board[at::CODE] = code / 16 * 16 + u32::from(d % 16);
            }
            let code = board[at::CODE];
            if s / 16 != 0 && d / 16 != 0 && in_mask(d / 16 / 2) {
                board[at::CODE] = code % 16 + u32::from(d / 16 * 16);
            }
        }
        let (written, cost) = match mode {
            0 => (Some(s), 1),
            4 => (Some(d & s), 2),
            5 => (Some(d ^ s), 2),
            _ if s == 0 => (None, 0),
            1 => (Some(s), if mask != 0 { 2 } else { 1 }),
            2 => (Some((u16::from(d) + u16::from(s)) as u8), 2),
            3 => (Some(d | s), 2),
            _ => {
                let low = if s % 16 != 0 { s % 16 } else { d % 16 };
                let high = if s / 16 != 0 { s / 16 } else { d / 16 };
                (Some(high * 16 + low), 2)
            }
        };
        accesses += cost;
        if let Some(value) = written {
            mem[dest] = value;
        }
    }
    board[at::COLUMN] += 1;
    if i64::from(board[at::COLUMN]) == width * zoom_x {
        board[at::COLUMN] = 0;
        board[at::ROW] += 1;
        if i64::from(board[at::ROW]) == height * zoom_y {
            board[at::BLOCK..].fill(0);
            board[at::FLAGS] = u32::from(next);
            if !next && board[at::IRQE] == 1 {
                board[at::IRQF] = 1;
            }
        }
    }
    accesses
}

#[test]
fn runs_are_the_ticks_of_the_formulas() {
    let mut total = 0;
    for seed in 0..4_000 {
        let mut r = Random::new(seed);
        let length = make::length(&mut r);
        let mut mem = make::memory(&mut r, length);
        let mut board = if r.chance(1, 3) {
            make::board(&mut r)
        } else {
            let list = make::list(&mut r, &mut mem);
            let mut rig = Rig::<Twin>::new();
            rig.write(0x54, r.byte());
            rig.start_list(list);
            rig.board
        };
        let mut plain_mem = mem.clone();
        let mut plain_board = board;
        for _ in 0..r.between(1, 8) {
            let budget = r.pick(&[0, 1, 2, 7, 30, 100, 500]);
            let mut ticks = 0;
            let mut accesses = 0;
            while ticks < budget && plain_board[at::FLAGS] != 0 {
                accesses += plain_tick(&mut plain_board, &mut plain_mem);
                ticks += 1;
            }
            let mut report = [0; 2];
            assert_eq!(Twin::run(&mut board, &mut mem, budget, &mut report), 0);
            assert_eq!(report, [ticks, accesses], "seed {seed}");
            assert_eq!(board, plain_board, "seed {seed}");
            assert!(mem == plain_mem, "seed {seed}");
            total += ticks;
        }
    }
    println!("{total} ticks as the formulas say");
    assert!(total > 500_000);
}

#[test]
fn a_split_run_is_the_whole_run() {
    for seed in 0..500 {
        let mut r = Random::new(seed);
        let mut whole = Rig::<Twin>::new();
        whole.mem = make::memory(&mut r, 16_384);
        let list = make::list(&mut r, &mut whole.mem);
        whole.start_list(list);
        let mut split = Rig::<Twin>::new();
        split.board = whole.board;
        split.mem = whole.mem.clone();

        let budget = r.between(1, 3_000);
        let done = whole.run(budget);
        let mut left = budget;
        let mut sum = (0, 0);
        while left > 0 {
            let part = r.between(1, left.min(100));
            let (ticks, accesses) = if part == 1 {
                split.tick()
            } else {
                split.run(part)
            };
            sum = (sum.0 + ticks, sum.1 + accesses);
            left -= part;
        }
        assert_eq!(sum, done, "seed {seed}");
        assert_eq!(split.board, whole.board, "seed {seed}");
        assert!(split.mem == whole.mem, "seed {seed}");
    }
}

/// A frame over a random list, switched on; where the list lies.
fn any_list(r: &mut Random) -> (Rig<Twin>, u32) {
    let length = make::length(r);
    let mut rig = Rig::new();
    rig.mem = make::memory(r, length);
    let list = if r.chance(7, 8) {
        make::xdl(r, &mut rig.mem)
    } else {
        make::address(r)
    };
    rig.show(list);
    (rig, list)
}

fn byte_at(mem: &[u8], address: u32) -> u32 {
    mem[address as usize % 524_288 % mem.len()].into()
}

/// The two control bytes of a record.
fn control_at(mem: &[u8], record: u32) -> u32 {
    byte_at(mem, record) + 256 * byte_at(mem, record + 1)
}

/// The record of each line, from a list that is switched on: each record tells its own size and lines, and the next one
/// lies behind it.
fn plain_origins(mem: &[u8], list: u32) -> Vec<u32> {
    const SIZES: [u32; 7] = [1, 5, 2, 1, 5, 4, 2];
    let mut origins = Vec::new();
    let mut record = list;
    while origins.len() < 240 {
        let control = control_at(mem, record);
        // RPTL is the lowest bit of the seven groups, and its byte is the first.
        let groups = control / 32;
        let repeats = if groups % 2 == 1 {
            byte_at(mem, record + 2)
        } else {
            0
        };
        let ends = control >= 32_768;
        let lines = if ends { 240 } else { 1 + repeats as usize };
        origins.extend(vec![record; lines]);
        let data = (0..7).filter(|group| groups >> group & 1 == 1);
        let size = 2 + data.map(|group| SIZES[group]).sum::<u32>();
        record = (record + size) % 524_288;
    }
    origins.truncate(240);
    origins
}

#[test]
fn a_walk_over_the_records_finds_the_one_of_each_line() {
    let (mut records, mut wrapped, mut ended) = (0, 0, 0);
    for seed in 0..3_000 {
        let (mut rig, list) = any_list(&mut Random::new(seed));
        let origins = rig.column(240, at::ORIGIN);
        assert_eq!(origins, plain_origins(&rig.mem, list), "seed {seed}");
        let mut known = origins;
        known.dedup();
        records += known.len();
        wrapped += u32::from(!known.is_sorted());
        ended += rig.frame[at::ENDED];
    }
    println!("{records} records, {wrapped} lists over the top, {ended} with an end");
    assert!(records > 20_000 && wrapped > 200 && ended > 1_000);
}

#[test]
fn a_reset_puts_a_counter_to_the_scroll_of_its_line() {
    let (mut scrolled, mut folded, mut kept) = (0, 0, 0);
    for seed in 0..3_000 {
        let (mut rig, _) = any_list(&mut Random::new(seed));
        for line in 0..240 {
            let before = rig.frame;
            let told = rig.line();
            let reads = before[at::REPEAT] == 0 && before[at::ENDED] == 0;
            let control = if reads {
                control_at(&rig.mem, before[at::POSITION])
            } else {
                0
            };
            // TMON alone, or OVADR; MAPADR or MAPPAR. Without one the counter is what the line above left.
            let resets_text = control % 8 == 1 || control / 64 % 2 == 1;
            let resets_field = control / 512 % 4 != 0;
            let text = if resets_text {
                told[at::VSCROLL]
            } else {
                before[at::TEXT]
            };
            let field = if resets_field {
                told[at::MAP_VSCROLL] % told[at::FIELD_HEIGHT]
            } else {
                before[at::FIELD]
            };
            let counters = [told[at::TEXT], told[at::FIELD]];
            assert_eq!(counters, [text, field], "seed {seed}, line {line}");
            scrolled += u32::from(resets_text && text != 0);
            folded += u32::from(resets_field && field != told[at::MAP_VSCROLL]);
            kept += u32::from(!resets_text && told[at::VSCROLL] != before[at::VSCROLL]);
        }
    }
    println!(
        "{scrolled} scrolled starts, {folded} not below the height, {kept} scrolls without a start"
    );
    assert!(scrolled > 20_000 && folded > 5_000 && kept > 5_000);
}

#[test]
fn a_line_that_reads_no_record_keeps_the_one_held() {
    for seed in 0..5_000 {
        let mut r = Random::new(seed);
        let mut rig = Rig::<Twin>::new();
        rig.mem = make::memory(&mut r, 16_384);
        rig.frame = make::frame(&mut r);
        rig.frame[at::LINE] = rig.frame[at::LINE].min(239);
        let on = rig.frame[at::ON] == 1;
        let reads = on && rig.frame[at::REPEAT] == 0 && rig.frame[at::ENDED] == 0;
        let held = rig.frame[if reads { at::POSITION } else { at::ORIGIN }];
        let told = if on { held } else { NO_RECORD };
        assert_eq!(rig.line()[at::ORIGIN], told, "seed {seed}");
        assert_eq!(rig.frame[at::ORIGIN], held, "seed {seed}");
    }
}

#[test]
fn an_xdl_shows_what_its_plan_means() {
    for seed in 0..3_000 {
        let mut r = Random::new(seed);
        let plan = make::plan_items(&mut r).concat();
        let xdl = xdl(&plan).expect("the plan is good");
        let mut rig = Rig::<Twin>::new();
        rig.mem = make::memory(&mut r, 16_384);
        let address = make::address(&mut r);
        assert_eq!(Twin::install(&mut rig.mem, &xdl, address), 0);
        rig.show(address);
        let meant = meaning(&plan, address).expect("the plan is good");
        for (number, (shown, meant)) in rig.lines(240).iter().zip(&meant).enumerate() {
            assert_eq!(*shown, meant.to_words(), "seed {seed}, line {number}");
        }
    }
}

#[test]
fn a_plan_means_records_of_22_and_8_bytes() {
    let band = Full {
        lines: 6,
        ..Full::default()
    };
    let more = Running {
        lines: 2,
        ..Running::default()
    };
    let plan = [band.bytes(), more.bytes(), full()].concat();
    let meant = meaning(&plan, 524_270).expect("the plan is good");
    // 524,270 + 22 is 4 past the top, and 8 more are 12.
    let origins: Vec<_> = meant.iter().map(|line| line.origin).collect();
    assert_eq!(origins[..6], [524_270; 6]);
    assert_eq!(origins[6..8], [4; 2]);
    assert_eq!(origins[8..], [12; 232]);
}

#[test]
fn where_a_plan_lies_moves_the_origin_alone() {
    for seed in 0..1_000 {
        let mut r = Random::new(seed);
        let plan = make::plan_items(&mut r).concat();
        let there = make::address(&mut r);
        let at_zero = meaning(&plan, 0).expect("the plan is good");
        let meant = meaning(&plan, there).expect("the plan is good");
        for (number, (line, zero)) in meant.iter().zip(&at_zero).enumerate() {
            assert_eq!(line.but_for_origin(), zero.but_for_origin(), "seed {seed}");
            let moved = (zero.origin + there) % 524_288;
            assert_eq!(line.origin, moved, "seed {seed}, line {number}");
        }
    }
}

/// One pixel of a line, by the manual's rules for its mode.
fn plain_pixel(video_control: u32, settings: &[u32], mem: &[u8], number: u32) -> u32 {
    let no_trans = video_control / 4 % 2 == 1;
    let trans15 = video_control / 8 % 2 == 1;
    let address = settings[at::OVADR];
    let (colour, transparent) = match settings[at::MODE] {
        TEXT => {
            let column = number + settings[at::HSCROLL];
            let character = byte_at(mem, address + column / 8 * 2);
            let attribute = byte_at(mem, address + column / 8 * 2 + 1);
            let glyph = settings[at::FONT] * 2_048 + character * 8;
            let bits = byte_at(mem, glyph + settings[at::TEXT]);
            if bits >> (7 - column % 8) & 1 == 1 {
                (attribute % 128, false)
            } else if attribute < 128 {
                (128, true)
            } else {
                (attribute % 128 + 128, false)
            }
        }
        HR => {
            let byte = byte_at(mem, address + number / 2);
            let nibble = [byte / 16, byte % 16][number as usize % 2];
            (nibble, nibble == 0)
        }
        _ => {
            let byte = byte_at(mem, address + number);
            (byte, byte == 0)
        }
    };
    let invisible = transparent || trans15 && colour % 16 == 15;
    if invisible && !no_trans {
        65_535
    } else {
        settings[at::OV_PALETTE] * 256 + colour
    }
}

#[test]
fn each_pixel_is_the_one_of_the_formulas() {
    const PIXELS: [[u32; 3]; 5] = [
        [0, 0, 0],
        [512, 640, 672],
        [256, 320, 336],
        [512, 640, 672],
        [128, 160, 168],
    ];
    let (mut total, mut transparent) = ([0; 5], [0; 5]);
    for seed in 0..6_000 {
        let mut r = Random::new(seed);
        let mut rig = Rig::<Twin>::new();
        let length = make::length(&mut r);
        rig.mem = make::picture(&mut r, length);
        rig.board = make::board(&mut r);
        let settings = make::settings(&mut r, length);
        let (mode, width) = (settings[at::MODE] as usize, settings[at::WIDTH] as usize);
        let video_control = rig.board[at::VIDEO_CONTROL];
        let line = rig.draw(&settings);
        assert_eq!(line.len() as u32, PIXELS[mode][width], "seed {seed}");
        for (number, pixel) in (0..).zip(line) {
            let plain = plain_pixel(video_control, &settings, &rig.mem, number);
            assert_eq!(u32::from(pixel), plain, "seed {seed}, pixel {number}");
            total[mode] += 1;
            transparent[mode] += u32::from(pixel == CLEAR);
        }
    }
    println!("pixels by mode {total:?}, transparent {transparent:?}");
    for mode in [TEXT, SR, HR, LR] {
        let mode = mode as usize;
        assert!(transparent[mode] * 20 > total[mode] && transparent[mode] * 2 < total[mode]);
    }
}

#[test]
fn sound_words_are_kept() {
    for seed in 0..5_000 {
        let mut r = Random::new(seed);
        let board = make::board(&mut r);
        assert_eq!(Board::from_words(&board).unwrap().to_words(), board);
        let frame = make::frame(&mut r);
        assert_eq!(Frame::from_words(&frame).unwrap().to_words(), frame);
    }
}
