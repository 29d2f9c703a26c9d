//! The worked cases of the rules, and a small case for each point that is easy to get wrong.
//!
//! Every case runs against the twin and, with the feature `desk`, against the archive as well.

mod common;

use common::*;
use twin::card::{Card, BOARD_WORDS, FRAME_WORDS, SETTINGS_WORDS};

macro_rules! worked {
    ($(fn $name:ident<$card:ident>() $body:block)*) => {
        mod cases {
            use super::*;
            $(pub fn $name<$card: Card>() $body)*
        }
        mod twin_has {
            $(#[test] fn $name() { super::cases::$name::<twin::twin::Twin>() })*
        }
        #[cfg(feature = "desk")]
        mod desk_has {
            $(#[test] fn $name() { super::cases::$name::<twin::desk::Desk>() })*
        }
    };
}

/// One byte with the constant source `s` over `d`: the cell, the code and the accesses of the byte tick.
fn one<C: Card>(mode: u8, s: u8, d: u8, mask: u8, code: u8) -> (u8, u32, u32) {
    let mut rig = Rig::<C>::with_blocks(&[Bcb {
        dest: 0x2000,
        and: 0,
        xor: s,
        collision: mask,
        control: mode,
        ..Bcb::default()
    }]);
    rig.mem[0x2000] = d;
    rig.board[at::CODE] = code.into();
    let (ticks, accesses) = rig.run_all();
    assert_eq!(ticks, 2);
    (rig.mem[0x2000], rig.board[at::CODE], accesses - 21)
}

/// The manual's listing for modes 1 to 5, as it stands there.
#[allow(unused_comparisons)]
fn collision_sr(mask: u8, dest: u8) -> bool {
    mask & 1 != 0 && dest >= 1 && dest <= 31
        || mask & 2 != 0 && dest >= 32 && dest <= 63
        || mask & 4 != 0 && dest >= 64 && dest <= 95
        || mask & 8 != 0 && dest >= 96 && dest <= 127
        || mask & 16 != 0 && dest >= 128 && dest <= 159
        || mask & 32 != 0 && dest >= 160 && dest <= 191
        || mask & 64 != 0 && dest >= 192 && dest <= 223
        || mask & 128 != 0 && dest >= 224 && dest <= 255
}

/// And the one for mode 6, for a nibble.
fn collision_hr(mask: u8, dest: u8) -> bool {
    mask & 1 != 0 && dest == 1
        || mask & 2 != 0 && dest >= 2 && dest <= 3
        || mask & 4 != 0 && dest >= 4 && dest <= 5
        || mask & 8 != 0 && dest >= 6 && dest <= 7
        || mask & 16 != 0 && dest >= 8 && dest <= 9
        || mask & 32 != 0 && dest >= 10 && dest <= 11
        || mask & 64 != 0 && dest >= 12 && dest <= 13
        || mask & 128 != 0 && dest >= 14 && dest <= 15
}

/// The codes after each byte of a block that goes over the colours 0 to 255 with a source of 11h.
fn codes<C: Card>(mode: u8, mask: u8) -> Vec<u32> {
    let mut rig = Rig::<C>::with_blocks(&[Bcb {
        dest: 0x2000,
        width: 256,
        and: 0,
        xor: 0x11,
        collision: mask,
        control: mode,
        ..Bcb::default()
    }]);
    let colours: Vec<u8> = (0..=255).collect();
    rig.put(0x2000, &colours);
    rig.run(1);
    let after = |_: u8| {
        rig.run(1);
        rig.board[at::CODE]
    };
    (0..=255).map(after).collect()
}

/// Four bytes of 5 from 2000h to 3000h, or as a fill.
fn four(fill: bool) -> Bcb {
    Bcb {
        source: 0x2000,
        dest: 0x3000,
        width: 4,
        and: if fill { 0 } else { 0xFF },
        xor: if fill { 5 } else { 0 },
        ..Bcb::default()
    }
}

/// The cell that the second row goes to, the first going to 0.
fn second_row<C: Card>(step: [u8; 2]) -> usize {
    let block = Bcb {
        dest_y: step,
        height: 2,
        and: 0,
        xor: 1,
        ..Bcb::default()
    };
    let mut rig = Rig::<C>::with_list(100, &[block]);
    assert_eq!(rig.run_all(), (3, 23));
    rig.mem[100..121].fill(0);
    assert_eq!(rig.mem[0], 1);
    let found = rig.mem[1..].iter().position(|&cell| cell == 1);
    1 + found.expect("the second row was written")
}

fn times(count: usize, item: Vec<u8>) -> Vec<u8> {
    item.repeat(count)
}

fn joined(items: &[Vec<u8>]) -> Vec<u8> {
    items.concat()
}

fn lines_of<C: Card>(plan: &[u8]) -> Vec<[u32; SETTINGS_WORDS]> {
    lines_at::<C>(plan, 0x1234)
}

/// The lines of a plan that is installed at an address.
fn lines_at<C: Card>(plan: &[u8], address: u32) -> Vec<[u32; SETTINGS_WORDS]> {
    let xdl = compile::<C>(plan).expect("the plan is good");
    let mut rig = Rig::<C>::new();
    assert_eq!(C::install(&mut rig.mem, &xdl, address), 0);
    rig.show(address);
    rig.lines(240)
}

/// Document 02's A1: six lines of a full band, then two of an item that runs on.
fn six_and_two() -> Vec<u8> {
    let band = Full {
        lines: 6,
        mode: 2,
        ovadr: 0x1000,
        ovstep: 0x140,
        map: 1,
        mapstep: 3,
        ..Full::default()
    };
    let more = Running {
        lines: 2,
        hscroll: 5,
        ..Running::default()
    };
    joined(&[band.bytes(), more.bytes()])
}

/// The words of settings, and the least and the greatest that each may be. The field counter's are for a height of 8.
const SETTINGS_LIMITS: [(usize, u32, u32); SETTINGS_WORDS] = [
    (at::MODE, 0, 4),
    (at::OVADR, 0, 524_287),
    (at::OVSTEP, 0, 4_095),
    (at::HSCROLL, 0, 7),
    (at::VSCROLL, 0, 7),
    (at::FONT, 0, 255),
    (at::TEXT, 0, 7),
    (at::MAP, 0, 1),
    (at::MAPADR, 0, 524_287),
    (at::MAPSTEP, 0, 4_095),
    (at::MAP_HSCROLL, 0, 31),
    (at::MAP_VSCROLL, 0, 31),
    (at::FIELD_WIDTH, 8, 32),
    (at::FIELD_HEIGHT, 1, 32),
    (at::FIELD, 0, 7),
    (at::WIDTH, 0, 2),
    (at::OV_PALETTE, 0, 3),
    (at::PF_PALETTE, 0, 3),
    (at::PRIORITY, 0, 255),
    (at::ORIGIN, 0, 524_288),
];

/// Document 02's A5: the set and the clear pixel of a character with an attribute, in palette 2.
fn character<C: Card>(video_control: u8, attribute: u8) -> (u16, u16) {
    let mut rig = Rig::<C>::new();
    // Character 3 of font 1 is at 2,048 and 24.
    rig.put(2_072, &[0xF0]);
    rig.put(0x1000, &[3, attribute]);
    let mut settings = line_in(TEXT);
    settings[at::OVADR] = 0x1000;
    settings[at::FONT] = 1;
    settings[at::OV_PALETTE] = 2;
    let line = rig.draw_with(video_control, &settings);
    let (set, clear) = (line[0], line[7]);
    assert_eq!(line[..4], [set; 4]);
    assert_eq!(line[4..8], [clear; 4]);
    (set, clear)
}

/// Text at 1000h, in which character k has its first column in colour k and the others in k + 128.
fn numbered_text<C: Card>() -> Rig<C> {
    let mut rig = Rig::new();
    // Character 1 of font 0.
    rig.put(8, &[0x80]);
    for number in 0..100 {
        rig.put(0x1000 + 2 * number, &[1, 0x80 + number as u8]);
    }
    rig
}

/// A sound board at work, with VIDEO_CONTROL 0 and nothing else as on a new one.
fn busy_board() -> [u32; BOARD_WORDS] {
    let mut board = [1; BOARD_WORDS];
    board[at::VIDEO_CONTROL] = 0;
    board[at::FLAGS] = 2;
    board
}

worked! {
    // The worked cases.

    fn step_y_has_13_bits<C>() {
        assert_eq!(second_row::<C>([0xFF, 0x1F]), 16_383);
        assert_eq!(second_row::<C>([0x00, 0x10]), 16_384 - 4_096);
        assert_eq!(second_row::<C>([0xFF, 0x0F]), 4_095);
        assert_eq!(second_row::<C>([0xFF, 0x3F]), 16_383);
    }

    fn collisions_go_by_ranges_of_32<C>() {
        assert_eq!(one::<C>(1, 1, 31, 2, 0), (1, 0, 2));
        assert_eq!(one::<C>(1, 1, 32, 2, 0), (1, 32, 2));
        assert_eq!(one::<C>(1, 1, 63, 2, 0), (1, 63, 2));
        assert_eq!(one::<C>(1, 1, 64, 2, 0), (1, 0, 2));
        assert_eq!(one::<C>(1, 1, 0, 1, 0), (1, 0, 2));
        assert_eq!(one::<C>(1, 1, 1, 1, 0), (1, 1, 2));
    }

    fn every_destination_has_its_mask_bit<C>() {
        for d in 0..=255 {
            for bit in 0..8 {
                let hit = d != 0 && d / 32 == bit;
                let code = if hit { d.into() } else { 7 };
                assert_eq!(one::<C>(1, 1, d, 1 << bit, 7).1, code);
            }
        }
    }

    fn collisions_are_those_of_the_manuals_listings<C>() {
        for mask in 0..=255 {
            let mut byte = 0;
            let mut nibbles = 0;
            let found = codes::<C>(1, mask).into_iter().zip(codes::<C>(6, mask));
            for (d, found) in (0..=255).zip(found) {
                if collision_sr(mask, d) {
                    byte = d;
                }
                if collision_hr(mask, d >> 4) {
                    nibbles = d & 0xF0 | nibbles & 0x0F;
                }
                if collision_hr(mask, d & 15) {
                    nibbles = nibbles & 0xF0 | d & 0x0F;
                }
                assert_eq!(found, (byte.into(), nibbles.into()), "mask {mask}, colour {d}");
            }
        }
    }

    fn mode_2_adds_modulo_256<C>() {
        assert_eq!(one::<C>(2, 100, 200, 0, 0), (44, 0, 2));
    }

    fn mode_6_goes_by_nibbles<C>() {
        assert_eq!(one::<C>(6, 0x50, 0x9A, 0x10, 0), (0x5A, 0x90, 2));
    }

    fn pattern_of_4_over_10<C>() {
        let mut rig = Rig::<C>::with_blocks(&[Bcb {
            source: 0x2000,
            dest: 0x3000,
            width: 10,
            pattern: 0x83,
            ..Bcb::default()
        }]);
        rig.put(0x2000, &[10, 11, 12, 13, 14, 15, 16, 17, 18, 19]);
        assert_eq!(rig.run_all(), (11, 41));
        assert_eq!(rig.cells(0x3000, 11), [10, 11, 12, 13, 10, 11, 12, 13, 10, 11, 0]);
    }

    fn copy_and_fill_of_4<C>() {
        let mut rig = Rig::<C>::with_blocks(&[four(false)]);
        rig.put(0x2000, &[1, 2, 3, 4, 5]);
        assert_eq!(rig.run_all(), (5, 29));
        assert_eq!(rig.cells(0x3000, 5), [1, 2, 3, 4, 0]);

        let mut rig = Rig::<C>::with_blocks(&[four(true)]);
        assert_eq!(rig.run_all(), (5, 25));
        assert_eq!(rig.cells(0x3000, 5), [5, 5, 5, 5, 0]);
    }

    fn three_lines_then_off<C>() {
        let xdl = [0x62, 0x80, 0x02, 0x00, 0x10, 0x00, 0x40, 0x01];
        for address in [0, 524_286] {
            let mut rig = Rig::<C>::with_xdl_at(address, &xdl);
            let lines = rig.some(240, &[at::MODE, at::OVADR]);
            assert_eq!(lines[..3], [[SR, 0x1000], [SR, 0x1140], [SR, 0x1280]]);
            assert!(lines[3..].iter().all(|line| line == &[OFF, 0x13C0]));
            assert_eq!(rig.frame[at::POSITION], (address + 8) % 524_288);
        }
    }

    fn overlay_address_wraps<C>() {
        let mut rig = Rig::<C>::with_xdl(&[0x62, 0x80, 1, 0xFF, 0xFF, 0x07, 1, 0]);
        assert_eq!(rig.column(2, at::OVADR), [0x7FFFF, 0]);
    }

    fn text_and_graphics_together_are_off<C>() {
        let mut rig = Rig::<C>::with_xdl(&[0x02, 0x00, 0x03, 0x00]);
        assert_eq!(rig.column(2, at::MODE), [SR, OFF]);
    }

    fn good_and_bad_lengths<C>() {
        for shift in 14..=19 {
            let mut rig = Rig::<C>::new();
            rig.mem = vec![0; 1 << shift];
            assert_eq!(rig.answer_run(1), 0);
        }
        for length in [0, 1, 2, 8_192, 16_383, 16_385, 24_576, 524_287, 524_289, 540_672, 1_048_576] {
            let mut rig = Rig::<C>::new();
            rig.mem = vec![0; length];
            assert_eq!(rig.answer_run(1), 1);
            assert_eq!(rig.answer_tick(), 1);
            assert_eq!(rig.answer_install(0, 0), 1);
            rig.start();
            assert_eq!(rig.answer_line(), 1);
        }
    }

    fn budget_ends<C>() {
        let mut rig = Rig::<C>::new();
        assert_eq!(rig.run(1_000_000), (0, 0));
        assert_eq!(rig.answer_run(1_000_001), 2);
        assert_eq!(rig.answer_run(u32::MAX), 2);
        rig.write(0x53, 1);
        assert_eq!(rig.answer_run(1_000_001), 2);
    }

    fn one_band_as_an_xdl<C>() {
        let mut plan = vec![0x17, 0, 1, 0, 1];
        plan.extend([0; 17]);
        plan.extend([8, 1, 1, 1, 0xFF]);
        let mut xdl = vec![0xF4, 0x8F];
        xdl.extend([0; 16]);
        xdl.extend([7, 0, 0x11, 0xFF]);
        assert_eq!(compile::<C>(&plan), Ok(xdl));
    }

    // Refusals and calls.

    fn a_new_board_is_all_zero<C>() {
        let mut board = [5; BOARD_WORDS + 2];
        assert_eq!(C::new_board(&mut board), 0);
        assert_eq!(board[..BOARD_WORDS], [0; BOARD_WORDS]);
        assert_eq!(board[BOARD_WORDS..], [5, 5]);
    }

    fn a_state_that_is_too_short_is_unsound<C>() {
        let mut board = [0; BOARD_WORDS];
        let mut frame = [7; FRAME_WORDS];
        let mut mem = vec![0; 16_384];
        let short = BOARD_WORDS - 1;
        assert_eq!(C::new_board(&mut board[..short]), 15);
        assert_eq!(C::write(&mut board[..short], 0, 0), 15);
        assert_eq!(C::read(&board[..short], 0, &mut []), 15);
        assert_eq!(C::reset(&mut board[..short]), 15);
        assert_eq!(C::start(&board[..short], &mut frame), 15);
        assert_eq!(C::start(&board, &mut frame[..FRAME_WORDS - 1]), 15);
        for (length, number) in [(16_384, 15), (16_383, 1)] {
            let mem = &mut mem[..length];
            assert_eq!(C::tick(&mut board[..short], mem, &mut []), number);
            assert_eq!(C::run(&mut board[..short], mem, u32::MAX, &mut []), number);
            assert_eq!(C::next_line(&mut frame[..FRAME_WORDS - 1], mem, &mut []), number);
        }
        assert_eq!((board, frame), ([0; BOARD_WORDS], [7; FRAME_WORDS]));
        board[at::FLAGS] = 9;
        assert_eq!(C::new_board(&mut board[..short]), 15);
        assert_eq!(board[at::FLAGS], 9);
        assert_eq!(C::new_board(&mut board), 0);
    }

    fn room_for_a_value_is_asked_for_last<C>() {
        let mut board = [0; BOARD_WORDS];
        assert_eq!(C::read(&board, 0x41, &mut []), 13);
        assert_eq!(C::read(&board, 0x60, &mut []), 3);
        board[at::FLAGS] = 9;
        assert_eq!(C::read(&board, 0x60, &mut []), 15);
    }

    fn room_for_counts_is_asked_for_last<C>() {
        let mut rig = Rig::<C>::with_blocks(&[four(true)]);
        let (board, mem) = (rig.board, rig.mem.clone());
        for mut report in [vec![], vec![999]] {
            let before = report.clone();
            assert_eq!(C::run(&mut rig.board, &mut rig.mem, 1_000_000, &mut report), 13);
            assert_eq!(C::run(&mut rig.board, &mut rig.mem, 0, &mut report), 13);
            assert_eq!(C::run(&mut rig.board, &mut rig.mem, 1_000_001, &mut report), 2);
            assert_eq!(C::tick(&mut rig.board, &mut rig.mem, &mut report), 13);
            assert_eq!(C::run(&mut rig.board, &mut rig.mem[..5], 1_000_001, &mut report), 1);
            rig.board[at::FLAGS] = 9;
            assert_eq!(C::run(&mut rig.board, &mut rig.mem, 1_000_001, &mut report), 15);
            assert_eq!(C::tick(&mut rig.board, &mut rig.mem, &mut report), 15);
            rig.board[at::FLAGS] = board[at::FLAGS];
            assert_eq!((rig.board, report), (board, before));
            assert!(rig.mem == mem);
        }
        assert_eq!(rig.run_all(), (5, 25));
    }

    fn room_for_settings_is_asked_for_last<C>() {
        let mut rig = Rig::<C>::with_xdl(&[]);
        let frame = rig.frame;
        let mut settings = [999; SETTINGS_WORDS - 1];
        assert_eq!(C::next_line(&mut rig.frame, &rig.mem, &mut settings), 13);
        assert_eq!(rig.frame, frame);
        rig.frame[at::LINE] = 240;
        assert_eq!(C::next_line(&mut rig.frame, &rig.mem, &mut settings), 4);
        assert_eq!(C::next_line(&mut rig.frame, &rig.mem[..5], &mut settings), 1);
        rig.frame[at::LINE] = 241;
        assert_eq!(C::next_line(&mut rig.frame, &rig.mem, &mut settings), 15);
        assert_eq!(settings, [999; SETTINGS_WORDS - 1]);
        rig.frame = frame;
        assert_eq!(rig.answer_line(), 0);
    }

    fn room_for_the_number_of_bytes_is_asked_for_last<C>() {
        let mut out = [0xEE; 22];
        assert_eq!(C::compile(&[], &mut out, &mut []), 6);
        assert_eq!(C::compile(&joined(&[full(), vec![0]]), &mut out, &mut []), 5 + 256);
        assert_eq!(C::compile(&times(241, full()), &mut out, &mut []), 11 + 256 * 240);
        assert_eq!(C::compile(&full(), &mut out, &mut []), 13);
        assert_eq!(C::compile(&full(), &mut out[..21], &mut []), 13);
        assert_eq!(C::compile(&full(), &mut out[..21], &mut [0]), 13);
        assert_eq!(out, [0xEE; 22]);
        assert_eq!(C::compile(&full(), &mut out, &mut [0]), 0);
    }

    fn words_past_the_last_stay<C>() {
        let mut board = [0; BOARD_WORDS + 1];
        board[BOARD_WORDS] = 99;
        let mut frame = [99; FRAME_WORDS + 1];
        let mut settings = [99; SETTINGS_WORDS + 1];
        let mut report = [99; 3];
        let mut mem = vec![0; 16_384];
        assert_eq!(C::write(&mut board, 0x53, 1), 0);
        assert_eq!(C::run(&mut board, &mut mem, 1, &mut report), 0);
        assert_eq!(report, [1, 21, 99]);
        assert_eq!(C::read(&board, 0x53, &mut report), 0);
        assert_eq!(report, [2, 21, 99]);
        assert_eq!(C::start(&board, &mut frame), 0);
        assert_eq!(C::next_line(&mut frame, &mem, &mut settings), 0);
        assert_eq!((board[35], frame[25], settings[20]), (99, 99, 99));
    }

    fn refusals_of_a_run_in_order<C>() {
        let mut rig = Rig::<C>::new();
        rig.board[at::FLAGS] = 3;
        rig.mem.pop();
        assert_eq!(rig.answer_run(u32::MAX), 1);
        assert_eq!(rig.answer_tick(), 1);
        rig.mem.push(0);
        assert_eq!(rig.answer_run(u32::MAX), 15);
        assert_eq!(rig.answer_tick(), 15);
        rig.board[at::FLAGS] = 0;
        assert_eq!(rig.answer_run(u32::MAX), 2);
        assert_eq!(rig.tick(), (0, 0));
    }

    fn refusals_of_registers_in_order<C>() {
        let mut rig = Rig::<C>::new();
        for offset in [0, 0x3F, 0x60, 0x153, u32::MAX] {
            assert_eq!(rig.answer_write(offset, 1), 3);
            assert_eq!(rig.answer_read(offset), 3);
        }
        rig.board[at::FLAGS] = 3;
        assert_eq!(rig.answer_write(0x60, 1), 15);
        assert_eq!(rig.answer_read(0x60), 15);
    }

    fn refusals_of_install_in_order<C>() {
        let mut rig = Rig::<C>::new();
        rig.mem.pop();
        assert_eq!(rig.answer_install(6_000, 600_000), 1);
        rig.mem.push(0);
        assert_eq!(rig.answer_install(6_000, 600_000), 14);
        assert_eq!(rig.answer_install(6_000, 0), 13);
        assert_eq!(rig.answer_install(5_281, 524_287), 13);
        assert_eq!(rig.answer_install(5_280, 524_288), 14);
        assert_eq!(rig.answer_install(5_280, 524_287), 0);
    }

    fn an_idle_board_does_not_excuse_the_budget<C>() {
        let mut rig = Rig::<C>::new();
        let board = rig.board;
        assert_eq!(rig.answer_run(1_000_001), 2);
        assert_eq!(rig.run(1_000_000), (0, 0));
        assert_eq!(rig.board, board);
    }

    fn an_unsound_state_is_not_mended<C>() {
        let mut rig = Rig::<C>::new();
        rig.board[at::ROW] = 1;
        assert_eq!(rig.answer_reset(), 15);
        assert_eq!(rig.board[at::ROW], 1);
        assert_eq!(rig.answer_write(0x53, 1), 15);
        assert_eq!(rig.answer_write(0x53, 0), 15);
        assert_eq!(rig.answer_start(), 15);
    }

    fn the_240th_line_is_the_last<C>() {
        for on in [0, 1] {
            for ended in [0, 1] {
                let mut rig = Rig::<C>::with_xdl(&[]);
                rig.frame[at::ON] = on;
                rig.frame[at::ENDED] = ended;
                rig.frame[at::LINE] = 239;
                assert_eq!(rig.answer_line(), 0);
                assert_eq!(rig.frame[at::LINE], 240);
                assert_eq!(rig.answer_line(), 4);
                rig.frame[at::LINE] = 241;
                assert_eq!(rig.answer_line(), 15);
                rig.frame[at::LINE] = 240;
                rig.mem.truncate(100);
                assert_eq!(rig.answer_line(), 1);
            }
        }
    }

    fn the_240th_line_advances_too<C>() {
        let mut rig = Rig::<C>::with_xdl(&[]);
        rig.frame[at::LINE] = 239;
        rig.frame[at::REPEAT] = 5;
        rig.frame[at::MODE] = SR;
        rig.frame[at::OVADR] = 7;
        rig.frame[at::OVSTEP] = 3;
        assert_eq!(rig.line()[at::OVADR], 7);
        assert_eq!(
            [rig.frame[at::LINE], rig.frame[at::REPEAT], rig.frame[at::OVADR]],
            [240, 4, 10]
        );
    }

    fn items_are_numbered_from_0<C>() {
        assert_eq!(compile::<C>(&times(241, full())), Err((11, 240)));
        let plan = joined(&[full(), running()]);
        assert_eq!(compile_into::<C>(&plan, &mut [0xEE; 29]), Err((13, 0)));
        assert_eq!(compile_into::<C>(&plan, &mut [0xEE; 30]), Ok(30));
    }

    fn order_within_an_item<C>() {
        let cases: &[(&[u8], u32)] = &[
            (&[], 6),
            (&[0x17, 0, 9], 5),
            (&[0x63, 0, 3, 0], 7),
            (&[0x18, 0, 1, 0], 8),
            (&[0x17, 0, 1, 0], 5),
            (&[0x17, 0, 1, 1], 7),
            (&[7, 0, 2, 0, 1], 5),
            (&[8, 0, 2, 0, 1, 0, 0, 0, 1, 1, 255, 0], 8),
            (&[7, 0, 2, 0, 1, 9, 0, 0, 1, 1, 255], 10),
            (&[7, 0, 2, 0, 1, 0, 0, 0, 1, 1, 255], 10),
            (&[0x17, 1, 1, 0], 8),
            (&[0, 0, 0, 0], 7),
        ];
        for (plan, number) in cases {
            assert_eq!(compile::<C>(plan), Err((*number, 0)), "{plan:02X?}");
        }
        let lines = |lines| Full { lines, ..Full::default() }.bytes();
        let more = |lines| Running { lines, ..Running::default() }.bytes();
        assert_eq!(compile::<C>(&lines(241)), Err((9, 0)));
        assert_eq!(compile::<C>(&lines(0)), Err((9, 0)));
        assert_eq!(compile::<C>(&joined(&[lines(240), more(1)])), Err((11, 1)));
        assert_eq!(compile::<C>(&joined(&[lines(240), more(0)])), Err((9, 1)));
        assert_eq!(compile::<C>(&joined(&[lines(240), more(1), vec![0]])), Err((11, 1)));
        assert_eq!(compile::<C>(&joined(&[lines(240), vec![9]])), Err((5, 1)));
        assert_eq!(compile::<C>(&joined(&[full(), vec![0]])), Err((5, 1)));
    }

    fn only_item_0_is_the_first<C>() {
        let xdl = compile::<C>(&joined(&[full(), running(), running()]));
        assert_eq!(xdl.map(|xdl| xdl.len()), Ok(38));
    }

    fn field_ranges_of_a_full_band<C>() {
        let f = Full::default();
        let good = [
            Full { lines: 240, ..f },
            Full { mode: 4, ..f },
            Full { ovadr: 524_287, ..f },
            Full { ovstep: 4_095, ..f },
            Full { hscroll: 7, ..f },
            Full { vscroll: 7, ..f },
            Full { font: 255, ..f },
            Full { map: 1, ..f },
            Full { mapadr: 524_287, ..f },
            Full { mapstep: 4_095, ..f },
            Full { map_hscroll: 31, ..f },
            Full { map_vscroll: 31, ..f },
            Full { field_width: 32, ..f },
            Full { field_height: 1, ..f },
            Full { field_height: 32, ..f },
            Full { width: 0, ..f },
            Full { width: 2, ..f },
            Full { palettes: 15, ..f },
            Full { priority: 0, ..f },
        ];
        for band in good {
            assert_eq!(compile::<C>(&band.bytes()).map(|xdl| xdl.len()), Ok(22));
        }
        let bad = [
            Full { lines: 0, ..f },
            Full { lines: 241, ..f },
            Full { lines: 255, ..f },
            Full { mode: 5, ..f },
            Full { ovadr: 524_288, ..f },
            Full { ovadr: 0xFFFFFF, ..f },
            Full { ovstep: 4_096, ..f },
            Full { hscroll: 8, ..f },
            Full { vscroll: 8, ..f },
            Full { map: 2, ..f },
            Full { mapadr: 524_288, ..f },
            Full { mapstep: 4_096, ..f },
            Full { map_hscroll: 32, ..f },
            Full { map_vscroll: 32, ..f },
            Full { field_width: 7, ..f },
            Full { field_width: 33, ..f },
            Full { field_height: 0, ..f },
            Full { field_height: 33, ..f },
            Full { width: 3, ..f },
            Full { palettes: 16, ..f },
        ];
        for band in bad {
            assert_eq!(compile::<C>(&band.bytes()), Err((9, 0)));
        }
    }

    fn field_ranges_of_running_on<C>() {
        let r = Running::default();
        let good = [
            Running { lines: 239, ..r },
            Running { hscroll: 7, ..r },
            Running { vscroll: 7, ..r },
            Running { font: 255, ..r },
            Running { width: 0, ..r },
            Running { width: 2, ..r },
            Running { palettes: 15, ..r },
            Running { priority: 0, ..r },
        ];
        for item in good {
            let plan = joined(&[full(), item.bytes()]);
            assert_eq!(compile::<C>(&plan).map(|xdl| xdl.len()), Ok(30));
        }
        let bad = [
            Running { lines: 0, ..r },
            Running { lines: 241, ..r },
            Running { hscroll: 8, ..r },
            Running { vscroll: 8, ..r },
            Running { width: 3, ..r },
            Running { palettes: 16, ..r },
        ];
        for item in bad {
            assert_eq!(compile::<C>(&joined(&[full(), item.bytes()])), Err((9, 1)));
        }
        let late = Running { lines: 240, ..r };
        assert_eq!(compile::<C>(&joined(&[full(), late.bytes()])), Err((11, 1)));
    }

    fn the_longest_xdl_has_5280_bytes<C>() {
        let plan = times(240, full());
        assert_eq!(compile::<C>(&plan).map(|xdl| xdl.len()), Ok(5_280));
        assert_eq!(compile_into::<C>(&plan, &mut [0xEE; 5_280]), Ok(5_280));
        assert_eq!(compile_into::<C>(&plan, &mut [0xEE; 5_279]), Err((13, 0)));
        let over = times(241, full());
        assert_eq!(compile_into::<C>(&over, &mut [0xEE; 5_280]), Err((11, 240)));
        assert_eq!(compile_into::<C>(&over, &mut []), Err((11, 240)));
    }

    fn nothing_is_written_before_the_last_item_is_read<C>() {
        let bad = Running { hscroll: 8, ..Running::default() }.bytes();
        assert_eq!(compile_into::<C>(&joined(&[full(), bad]), &mut [0xEE; 22]), Err((9, 1)));
        let cut = joined(&[full(), running(), vec![0]]);
        assert_eq!(compile_into::<C>(&cut, &mut [0xEE; 29]), Err((5, 2)));
        assert_eq!(compile_into::<C>(&full(), &mut []), Err((13, 0)));
    }

    fn the_tail_of_the_output_stays<C>() {
        assert_eq!(compile_into::<C>(&full(), &mut [0xEE; 22]), Ok(22));
        let mut out = [0xEE; 25];
        assert_eq!(compile_into::<C>(&full(), &mut out), Ok(22));
        assert_eq!(out[22..], [0xEE; 3]);
    }

    fn installing_nothing<C>() {
        let mut rig = Rig::<C>::new();
        assert_eq!(rig.answer_install(0, 524_287), 0);
        assert_eq!(rig.answer_install(0, 524_288), 14);
        assert!(rig.mem.iter().all(|&cell| cell == 0));
    }

    fn installing_wraps<C>() {
        let mut rig = Rig::<C>::new();
        assert_eq!(C::install(&mut rig.mem, &[1, 2, 3], 524_287), 0);
        assert_eq!([rig.mem[16_383], rig.mem[0], rig.mem[1], rig.mem[2]], [1, 2, 3, 0]);
        assert_eq!(rig.mem.iter().filter(|&&cell| cell != 0).count(), 3);
    }

    fn frame_start_takes_one_bit<C>() {
        let mut rig = Rig::<C>::new();
        rig.write(0x40, 0x0E);
        rig.start();
        assert_eq!(rig.frame[at::ON], 0);
        rig.write(0x40, 0x01);
        rig.write(0x43, 0x05);
        rig.start();
        let mut expected = [0; FRAME_WORDS];
        expected[at::FIELD_WIDTH] = 8;
        expected[at::FIELD_HEIGHT] = 8;
        expected[at::WIDTH] = 1;
        expected[at::OV_PALETTE] = 1;
        expected[at::PRIORITY] = 255;
        expected[at::ORIGIN] = NO_RECORD;
        expected[at::POSITION] = 0x50000;
        expected[at::ON] = 1;
        assert_eq!(rig.frame, expected);
    }

    // Sound states.

    fn sound_boards<C>() {
        let mut rig = Rig::<C>::new();
        rig.board[at::IRQF] = 1;
        assert_eq!(rig.read(0x54), 1);
        rig.board[at::CODE] = 255;
        rig.board[at::LIST] = 85;
        assert_eq!(rig.read(0x50), 255);
        rig.board[at::FLAGS] = 2;
        assert_eq!(rig.read(0x53), 2);

        let limits = [
            (at::VIDEO_CONTROL, 15),
            (at::XDL_ADR, 524_287),
            (at::BL_ADR, 524_287),
            (at::P0, 255),
            (at::P0 + 1, 255),
            (at::P0 + 2, 255),
            (at::P0 + 3, 255),
            (at::IRQE, 1),
            (at::IRQF, 1),
            (at::LIST, 524_287),
            (at::CODE, 255),
        ];
        for (word, last) in limits {
            let mut rig = Rig::<C>::new();
            rig.board[word] = last;
            assert_eq!(rig.answer_read(0x40), 0);
            for wrong in [last + 1, last + 256, last | 0x8000_0000] {
                rig.board[word] = wrong;
                assert_eq!(rig.answer_read(0x40), 15);
            }
        }
    }

    fn blocks_and_positions_of_sound_boards<C>() {
        for flags in [0, 1] {
            for word in at::BLOCK..BOARD_WORDS {
                let mut rig = Rig::<C>::new();
                rig.board[at::FLAGS] = flags;
                rig.board[word] = 8;
                assert_eq!(rig.answer_read(0x40), 15);
            }
        }
        let mut rig = Rig::<C>::new();
        rig.board[at::FLAGS] = 2;
        assert_eq!(rig.answer_read(0x40), 0);
        rig.board[at::COLUMN] = 1;
        assert_eq!(rig.answer_read(0x40), 15);
        rig.board[at::COLUMN] = 0;
        rig.board[at::ROW] = 1;
        assert_eq!(rig.answer_read(0x40), 15);

        let mut rig = Rig::<C>::new();
        rig.board[at::FLAGS] = 2;
        rig.board[at::BLOCK..at::ROW].fill(255);
        rig.board[at::ROW] = 2_047;
        rig.board[at::COLUMN] = 4_095;
        assert_eq!(rig.answer_read(0x40), 0);
        rig.board[at::ROW] = 2_048;
        assert_eq!(rig.answer_read(0x40), 15);
        rig.board[at::ROW] = 65_536;
        assert_eq!(rig.answer_read(0x40), 15);
        rig.board[at::ROW] = 0;
        rig.board[at::COLUMN] = 4_096;
        assert_eq!(rig.answer_read(0x40), 15);
        rig.board[at::COLUMN] = 65_536;
        assert_eq!(rig.answer_read(0x40), 15);
        rig.board[at::COLUMN] = 0;
        for word in at::BLOCK..at::ROW {
            rig.board[word] = 256;
            assert_eq!(rig.answer_read(0x40), 15);
            rig.board[word] = 255;
        }
        rig.board[at::FLAGS] = 3;
        assert_eq!(rig.answer_read(0x40), 15);
    }

    fn the_list_address_is_no_position<C>() {
        let mut rig = Rig::<C>::with_list(64, &[four(true)]);
        rig.run_all();
        assert_eq!(rig.board[at::LIST], 85);

        let mut rig = Rig::<C>::with_list(64, &[four(true)]);
        rig.run(3);
        rig.write(0x53, 0);
        assert_eq!(rig.board[at::LIST], 85);

        let mut rig = Rig::<C>::with_list(64, &[four(true)]);
        rig.run(3);
        rig.board[at::CODE] = 5;
        rig.reset();
        assert_eq!((rig.board[at::LIST], rig.board[at::CODE]), (85, 5));
    }

    fn sound_frames<C>() {
        let others = [
            (at::POSITION, 0, 524_287),
            (at::REPEAT, 0, 255),
            (at::ENDED, 0, 1),
            (at::ON, 0, 1),
        ];
        for (word, first, last) in SETTINGS_LIMITS.into_iter().chain(others) {
            for value in [first, last] {
                let mut rig = Rig::<C>::with_xdl(&[]);
                rig.frame[word] = value;
                assert_eq!(rig.answer_line(), 0, "word {word}, {value}");
            }
            for value in [first.wrapping_sub(1), last + 1, last + 256, last | 0x8000_0000] {
                let mut rig = Rig::<C>::with_xdl(&[]);
                rig.frame[word] = value;
                assert_eq!(rig.answer_line(), 15, "word {word}, {value}");
            }
        }
        let mut rig = Rig::<C>::with_xdl(&[]);
        rig.frame[at::FIELD_HEIGHT] = 4;
        rig.frame[at::FIELD] = 4;
        assert_eq!(rig.answer_line(), 15);
        rig.frame[at::FIELD] = 3;
        rig.frame[at::ENDED] = 1;
        rig.frame[at::MODE] = SR;
        assert_eq!(rig.answer_line(), 0);
        rig.frame[at::ON] = 0;
        rig.frame[at::MODE] = SR;
        assert_eq!(rig.answer_line(), 0);
    }

    fn a_frame_not_switched_on<C>() {
        let mut rig = Rig::<C>::new();
        rig.mem.fill(0xFF);
        rig.start();
        let beginning = rig.line();
        assert_eq!(
            beginning,
            [0, 0, 0, 0, 0, 0, 0, 0, 0, 0, 0, 0, 8, 8, 0, 1, 1, 0, 255, NO_RECORD]
        );
        rig.frame[at::MODE] = SR;
        rig.frame[at::OVADR] = 5;
        rig.frame[at::OVSTEP] = 7;
        rig.frame[at::REPEAT] = 9;
        rig.frame[at::MAP] = 1;
        rig.frame[at::FIELD] = 6;
        let mut after = rig.frame;
        assert_eq!(rig.line(), beginning);
        after[at::LINE] += 1;
        assert_eq!(rig.frame, after);
    }

    // The blitter.

    fn only_bit_0_starts_and_stops<C>() {
        for value in [2, 0xFE, 0] {
            let mut rig = Rig::<C>::with_blocks(&[four(true)]);
            rig.run(3);
            rig.board[at::CODE] = 5;
            rig.board[at::IRQF] = 1;
            rig.write(0x53, value);
            assert_eq!(rig.board[at::FLAGS], 0);
            assert_eq!(rig.board[at::BLOCK..], [0; 23]);
            assert_eq!((rig.board[at::CODE], rig.board[at::IRQF]), (5, 1));
        }
        let mut rig = Rig::<C>::new();
        rig.write(0x53, 0xFF);
        assert_eq!(rig.board[at::FLAGS], 1);
    }

    fn starting_while_running<C>() {
        let mut rig = Rig::<C>::with_list(64, &[four(true)]);
        rig.run(3);
        rig.board[at::CODE] = 5;
        rig.board[at::IRQF] = 1;
        rig.board[at::IRQE] = 1;
        let mem = rig.mem.clone();
        rig.write(0x53, 3);
        let mut expected = [0; BOARD_WORDS];
        expected[at::BL_ADR] = 64;
        expected[at::IRQE] = 1;
        expected[at::IRQF] = 1;
        expected[at::LIST] = 64;
        expected[at::FLAGS] = 1;
        assert_eq!(rig.board, expected);
        assert!(rig.mem == mem);
    }

    fn stopping_raises_nothing<C>() {
        let mut rig = Rig::<C>::with_list(64, &[four(true)]);
        rig.write(0x54, 1);
        rig.run(3);
        rig.board[at::CODE] = 5;
        rig.write(0x53, 0);
        assert_eq!(
            [rig.board[at::CODE], rig.board[at::IRQF], rig.board[at::LIST]],
            [5, 0, 85]
        );
        let board = rig.board;
        rig.write(0x53, 0);
        assert_eq!(rig.board, board);
    }

    fn the_interrupt_request<C>() {
        let mut rig = Rig::<C>::with_blocks(&[four(true)]);
        rig.board[at::IRQF] = 1;
        rig.run_all();
        assert_eq!(rig.board[at::IRQF], 1);

        let mut rig = Rig::<C>::with_blocks(&[four(true)]);
        rig.run_all();
        assert_eq!(rig.board[at::IRQF], 0);
        rig.write(0x54, 1);
        assert_eq!((rig.board[at::IRQE], rig.board[at::IRQF]), (1, 0));

        rig.board[at::IRQF] = 1;
        rig.write(0x54, 0xFF);
        assert_eq!((rig.board[at::IRQE], rig.board[at::IRQF]), (1, 0));
        rig.board[at::IRQF] = 1;
        rig.write(0x54, 0xFE);
        assert_eq!((rig.board[at::IRQE], rig.board[at::IRQF]), (0, 0));
    }

    fn only_the_last_block_raises<C>() {
        let byte = |control| Bcb { dest: 0x3000, and: 0, control, ..Bcb::default() };
        let mut rig = Rig::<C>::with_blocks(&[byte(8), byte(0)]);
        rig.write(0x54, 1);
        assert_eq!(rig.run(2).0, 2);
        assert_eq!((rig.board[at::FLAGS], rig.board[at::IRQF]), (1, 0));
        assert_eq!(rig.board[at::BLOCK..], [0; 23]);
        assert_eq!(rig.run(2).0, 2);
        assert_eq!((rig.board[at::FLAGS], rig.board[at::IRQF]), (0, 1));
    }

    fn a_budget_that_ends_with_the_block<C>() {
        let mut rig = Rig::<C>::with_blocks(&[four(true)]);
        assert_eq!(rig.run(5), (5, 25));
        assert_eq!(rig.board[at::FLAGS], 0);

        let mut rig = Rig::<C>::with_blocks(&[four(true)]);
        assert_eq!(rig.run(4), (4, 24));
        assert_eq!((rig.board[at::FLAGS], rig.board[at::COLUMN]), (2, 3));
        assert_eq!(rig.run(0), (0, 0));
        assert_eq!(rig.tick(), (1, 1));
        assert_eq!(rig.tick(), (0, 0));
        assert_eq!(rig.board[at::FLAGS], 0);
    }

    fn later_blocks_are_read_when_their_tick_comes<C>() {
        let first = Bcb { dest: 37, and: 0, xor: 0x77, control: 8, ..Bcb::default() };
        let second = Bcb { dest: 0x3000, and: 0, xor: 9, ..Bcb::default() };
        let mut rig = Rig::<C>::with_blocks(&[first, second]);
        assert_eq!(rig.run_all(), (4, 44));
        assert_eq!(rig.mem[0x3000], 0x77);

        let own = Bcb { dest: 20, width: 2, and: 0, xor: 8, ..Bcb::default() };
        let mut rig = Rig::<C>::with_blocks(&[own]);
        assert_eq!(rig.run_all(), (3, 23));
        assert_eq!(rig.board[at::FLAGS], 0);
    }

    fn the_list_wraps_within_a_block<C>() {
        let mut rig = Rig::<C>::new();
        let bytes: Vec<u8> = (101..122).collect();
        rig.put(16_376, &bytes);
        rig.start_list(524_280);
        assert_eq!(rig.run(1), (1, 21));
        assert_eq!(rig.board[at::LIST], 13);
        assert_eq!(rig.board[at::BL_ADR], 524_280);
        let block: Vec<u32> = (101..122).collect();
        assert_eq!(rig.board[at::BLOCK..at::ROW], block);
    }

    fn memory_full_of_ff<C>() {
        let mut rig = Rig::<C>::new();
        rig.mem.fill(0xFF);
        rig.write(0x53, 1);
        assert_eq!(rig.run(1), (1, 21));
        assert_eq!(rig.board[at::BLOCK..at::ROW], [255; 21]);
        // 4,096 columns and 2,048 rows of mode 7, then on to the next block.
        for _ in 0..16 {
            assert_eq!((rig.board[at::FLAGS], rig.board[at::LIST]), (2, 21));
            assert_eq!(rig.run(524_288), (524_288, 0));
        }
        assert_eq!((rig.board[at::FLAGS], rig.board[at::LIST]), (1, 21));
    }

    fn width_has_9_bits_and_height_8<C>() {
        let block = Bcb { dest: 0x1000, width: 512, height: 2, dest_y: [0, 2], and: 0, xor: 1, ..Bcb::default() };
        let mut bytes = block.bytes();
        assert_eq!(bytes[12..14], [0xFF, 1]);
        bytes[13] = 0xFF;
        let mut rig = Rig::<C>::new();
        rig.put(0, &bytes);
        rig.write(0x53, 1);
        assert_eq!(rig.run_all(), (1_025, 1_045));
        assert_eq!(rig.cells(0x0FFF, 1_026), [&[0], &[1; 1_024][..], &[0]].concat());
    }

    fn steps_go_from_where_the_row_began<C>() {
        let mut rig = Rig::<C>::with_blocks(&[Bcb {
            dest: 0x3000,
            dest_y: [16, 0],
            width: 2,
            height: 2,
            and: 0,
            xor: 1,
            ..Bcb::default()
        }]);
        rig.run_all();
        let mut expected = [0; 0x20];
        for cell in [0, 1, 0x10, 0x11] {
            expected[cell] = 1;
        }
        assert_eq!(rig.cells(0x3000, 0x20), expected);
    }

    fn steps_in_x_have_a_sign<C>() {
        let mut rig = Rig::<C>::with_blocks(&[Bcb {
            source: 0x2003,
            source_x: 0xFF,
            dest: 0x3000,
            dest_x: 2,
            width: 4,
            ..Bcb::default()
        }]);
        rig.put(0x2000, &[1, 2, 3, 4]);
        rig.run_all();
        assert_eq!(rig.cells(0x3000, 8), [4, 0, 3, 0, 2, 0, 1, 0]);
    }

    fn zoom_in_y<C>() {
        for zoom in [0x10, 0x98] {
            let mut rig = Rig::<C>::with_blocks(&[Bcb {
                source: 0x2000,
                source_y: [2, 0],
                dest: 0x3000,
                dest_y: [16, 0],
                width: 2,
                height: 2,
                zoom,
                ..Bcb::default()
            }]);
            rig.put(0x2000, &[1, 2, 3, 4]);
            assert_eq!(rig.run_all(), (9, 37));
            for (row, shown) in [[1, 2], [1, 2], [3, 4], [3, 4]].iter().enumerate() {
                assert_eq!(rig.cells(0x3000 + 16 * row, 2), shown);
            }
        }
    }

    fn zoom_in_x<C>() {
        let mut rig = Rig::<C>::with_blocks(&[Bcb {
            source: 0x2000,
            dest: 0x3000,
            width: 2,
            zoom: 0x02,
            ..Bcb::default()
        }]);
        rig.put(0x2000, &[1, 2]);
        assert_eq!(rig.run_all(), (7, 33));
        assert_eq!(rig.cells(0x3000, 7), [1, 1, 1, 2, 2, 2, 0]);
    }

    fn patterns_count_source_bytes<C>() {
        let shown = |width, zoom, pattern, count| {
            let mut rig = Rig::<C>::with_blocks(&[Bcb {
                source: 0x2000,
                dest: 0x3000,
                width,
                zoom,
                pattern,
                ..Bcb::default()
            }]);
            rig.put(0x2000, &[0, 1, 2, 3, 4, 5, 6, 7]);
            rig.run_all();
            rig.cells(0x3000, count).to_vec()
        };
        assert_eq!(shown(4, 1, 0x81, 8), [0, 0, 1, 1, 0, 0, 1, 1]);
        assert_eq!(shown(3, 0, 0xBF, 3), [0, 1, 2]);
        assert_eq!(shown(6, 0, 0xC3, 6), [0, 1, 2, 3, 0, 1]);
        assert_eq!(shown(6, 0, 0x43, 6), [0, 1, 2, 3, 4, 5]);
    }

    fn the_source_is_read_anew<C>() {
        let mut rig = Rig::<C>::with_blocks(&[Bcb {
            source: 0x2000,
            dest: 0x2000,
            xor: 1,
            zoom: 1,
            ..Bcb::default()
        }]);
        rig.mem[0x2000] = 1;
        assert_eq!(rig.run_all(), (3, 25));
        assert_eq!(rig.cells(0x2000, 2), [0, 1]);
    }

    fn overlapping_copies_go_byte_by_byte<C>() {
        let mut rig = Rig::<C>::with_blocks(&[Bcb {
            source: 0x2000,
            dest: 0x2001,
            width: 4,
            ..Bcb::default()
        }]);
        rig.mem[0x2000] = 7;
        rig.run_all();
        assert_eq!(rig.cells(0x2000, 6), [7, 7, 7, 7, 7, 0]);
    }

    fn the_and_mask_decides_about_the_read<C>() {
        let accesses = |and, xor| {
            let mut rig = Rig::<C>::with_blocks(&[Bcb { dest: 0x3000, and, xor, ..Bcb::default() }]);
            rig.run_all().1 - 21
        };
        assert_eq!(accesses(0, 0), 1);
        assert_eq!(accesses(0, 9), 1);
        assert_eq!(accesses(1, 0), 2);
    }

    fn mode_7_takes_its_time<C>() {
        let mut rig = Rig::<C>::with_blocks(&[Bcb {
            source: 0x2000,
            dest: 0x3000,
            width: 3,
            height: 2,
            collision: 0xFF,
            zoom: 0x11,
            control: 7,
            ..Bcb::default()
        }]);
        rig.mem[0x2000..].fill(3);
        let mem = rig.mem.clone();
        rig.write(0x54, 1);
        assert_eq!(rig.run_all(), (25, 21));
        assert_eq!((rig.board[at::IRQF], rig.board[at::CODE]), (1, 0));
        assert!(rig.mem == mem);
    }

    fn modes_4_and_5_with_a_source_of_0<C>() {
        assert_eq!(one::<C>(5, 0, 33, 0xFF, 0), (33, 0, 2));
        assert_eq!(one::<C>(4, 0, 33, 0xFF, 0), (0, 0, 2));
    }

    fn a_source_of_0_in_the_other_modes<C>() {
        assert_eq!(one::<C>(0, 0, 33, 0xFF, 0), (0, 0, 1));
        for mode in [1, 2, 3, 6] {
            assert_eq!(one::<C>(mode, 0, 33, 0xFF, 0), (33, 0, 0));
        }
    }

    fn accesses_of_mode_1_and_6<C>() {
        assert_eq!(one::<C>(1, 1, 33, 0, 0), (1, 0, 1));
        assert_eq!(one::<C>(1, 1, 0, 1, 0), (1, 0, 2));
        assert_eq!(one::<C>(1, 0, 33, 0xFF, 0), (33, 0, 0));
        assert_eq!(one::<C>(6, 1, 0x33, 0, 0), (0x31, 0, 2));
    }

    fn the_code_is_what_was_there_before<C>() {
        assert_eq!(one::<C>(2, 100, 200, 0x40, 0), (44, 200, 2));
        assert_eq!(one::<C>(3, 1, 32, 2, 0), (33, 32, 2));
        assert_eq!(one::<C>(4, 1, 32, 2, 0), (0, 32, 2));
        assert_eq!(one::<C>(5, 1, 32, 2, 0), (33, 32, 2));
    }

    fn modes_0_and_7_never_collide<C>() {
        assert_eq!(one::<C>(0, 1, 33, 0xFF, 0), (1, 0, 1));
        assert_eq!(one::<C>(7, 1, 33, 0xFF, 0), (33, 0, 0));
    }

    fn nibbles_of_mode_6<C>() {
        let mut rig = Rig::<C>::with_blocks(&[Bcb {
            dest: 0x2000,
            width: 2,
            and: 0,
            xor: 0x55,
            collision: 0x30,
            control: 6,
            ..Bcb::default()
        }]);
        rig.put(0x2000, &[0x90, 0x0A]);
        rig.run(2);
        assert_eq!(rig.board[at::CODE], 0x90);
        rig.run(1);
        assert_eq!(rig.board[at::CODE], 0x9A);
        assert_eq!(rig.cells(0x2000, 2), [0x55, 0x55]);
        assert_eq!(one::<C>(6, 0x10, 0x1F, 0x80, 0x33), (0x1F, 0x33, 2));
        for d in 0..16 {
            for bit in 0..8 {
                let hit = d != 0 && d / 2 == bit;
                let code = if hit { d } else { 7 };
                assert_eq!(one::<C>(6, 1, d, 1 << bit, 0x57).1, u32::from(0x50 | code));
                assert_eq!(one::<C>(6, 0x10, d << 4, 1 << bit, 0x75).1, u32::from(code << 4 | 5));
            }
        }
    }

    fn later_collisions_replace_earlier_ones<C>() {
        let byte = |dest, control| Bcb { dest, and: 0, xor: 1, collision: 2, control, ..Bcb::default() };
        let mut rig = Rig::<C>::with_blocks(&[byte(0x2000, 9), byte(0x2001, 1)]);
        rig.put(0x2000, &[33, 40]);
        rig.run_all();
        assert_eq!(rig.read(0x50), 40);
        rig.write(0x53, 1);
        assert_eq!(rig.read(0x50), 0);
    }

    fn registers_while_running<C>() {
        let mut rig = Rig::<C>::with_blocks(&[four(true)]);
        assert_eq!(rig.read(0x53), 1);
        rig.write(0x50, 0x80);
        assert_eq!((rig.board[at::LIST], rig.board[at::BL_ADR]), (0, 128));
        rig.run(1);
        assert_eq!(rig.read(0x53), 2);
        rig.run_all();
        assert_eq!(rig.read(0x53), 0);
        assert_eq!(rig.board[at::BL_ADR], 128);
    }

    fn unused_bits_of_registers<C>() {
        let mut rig = Rig::<C>::new();
        rig.write(0x43, 0xFF);
        rig.write(0x42, 0x12);
        rig.write(0x41, 0x34);
        assert_eq!(rig.board[at::XDL_ADR], 0x71234);
        rig.write(0x52, 0xFE);
        rig.write(0x51, 0x56);
        rig.write(0x50, 0x78);
        assert_eq!(rig.board[at::BL_ADR], 0x65678);
        rig.write(0x40, 0xF7);
        assert_eq!(rig.board[at::VIDEO_CONTROL], 7);
        for priority in 0..4 {
            rig.write(0x55 + priority, 0xF0 + priority as u8);
        }
        assert_eq!(rig.board[at::P0..at::IRQE], [0xF0, 0xF1, 0xF2, 0xF3]);
    }

    fn writes_that_do_nothing<C>() {
        let mut rig = Rig::<C>::with_blocks(&[four(true)]);
        rig.run(3);
        let board = rig.board;
        for offset in (0x44..=0x4F).chain(0x59..=0x5F) {
            rig.write(offset, 0xFF);
        }
        assert_eq!(rig.board, board);
    }

    fn all_reads<C>() {
        let mut rig = Rig::<C>::new();
        rig.board[at::P0..at::IRQE].fill(3);
        for offset in 0x40..=0x5F {
            let expected = match offset {
                0x40 => 0x10,
                0x41 => 0x24,
                0x4A | 0x50 | 0x53 | 0x54 | 0x5E | 0x5F => 0,
                _ => 255,
            };
            assert_eq!(rig.read(offset), expected);
        }
    }

    fn reset_clears_these_alone<C>() {
        let mut rig = Rig::<C>::with_list(64, &[four(true)]);
        rig.run(3);
        rig.board[at::VIDEO_CONTROL] = 15;
        rig.board[at::XDL_ADR] = 0x12345;
        rig.board[at::P0..at::IRQE].fill(9);
        rig.board[at::IRQE] = 1;
        rig.board[at::IRQF] = 1;
        rig.board[at::CODE] = 5;
        rig.reset();
        let mut expected = [0; BOARD_WORDS];
        expected[at::XDL_ADR] = 0x12345;
        expected[at::BL_ADR] = 64;
        expected[at::P0..at::IRQE].fill(9);
        expected[at::LIST] = 85;
        expected[at::CODE] = 5;
        assert_eq!(rig.board, expected);
    }

    fn one_block_may_need_nine_runs<C>() {
        let mut rig = Rig::<C>::with_list(0x2000, &[Bcb {
            width: 512,
            height: 256,
            dest_x: 0,
            and: 0,
            xor: 1,
            zoom: 0x77,
            control: 5,
            ..Bcb::default()
        }]);
        assert_eq!(rig.run(1_000_000), (1_000_000, 21 + 2 * 999_999));
        for _ in 1..8 {
            assert_eq!(rig.run(1_000_000), (1_000_000, 2_000_000));
        }
        assert_eq!(rig.run(388_608), (388_608, 777_216));
        assert_eq!((rig.board[at::ROW], rig.board[at::COLUMN]), (2_047, 4_095));
        assert_eq!(rig.run(1_000_000), (1, 2));
        assert_eq!((rig.board[at::FLAGS], rig.mem[0]), (0, 0));
    }

    // When a list ends (document 02, A10).

    fn a_list_of_two_in_five_runs<C>() {
        let first = Bcb {
            dest: 0x2000,
            dest_y: [16, 0],
            width: 3,
            height: 2,
            and: 0,
            xor: 1,
            zoom: 0x21,
            control: 8,
            ..Bcb::default()
        };
        let second = Bcb { dest: 0x3000, and: 0, xor: 2, ..Bcb::default() };
        let mut rig = Rig::<C>::with_blocks(&[first, second]);
        // 37 ticks and 2.
        for (budget, ticks, accesses, flags) in
            [(10, 10, 30, 2), (20, 20, 20, 2), (8, 8, 28, 2), (1, 1, 1, 0), (5, 0, 0, 0)]
        {
            assert_eq!(rig.run(budget), (ticks, accesses));
            assert_eq!(rig.board[at::FLAGS], flags);
        }
        assert_eq!(rig.cells(0x2050, 7), [1, 1, 1, 1, 1, 1, 0]);
        assert_eq!(rig.mem[0x3000], 2);
    }

    fn a_list_that_meets_itself_modulo_l<C>() {
        // The cell of 16,384 is the list's first byte.
        let own = Bcb { dest: 16_384, and: 0, xor: 0x77, ..Bcb::default() };
        let mut rig = Rig::<C>::with_blocks(&[own]);
        assert_eq!(rig.run_all(), (2, 22));
        assert_eq!(rig.mem[0], 0x77);

        // That of 16,417 is the second block's width: 2 ticks and 5, and not 2 and 2.
        let first = Bcb { dest: 16_417, and: 0, xor: 3, control: 8, ..Bcb::default() };
        let second = Bcb { dest: 0x3000, and: 0, xor: 2, ..Bcb::default() };
        let mut rig = Rig::<C>::with_blocks(&[first, second]);
        assert_eq!(rig.run_all(), (7, 47));
        assert_eq!(rig.cells(0x3000, 5), [2, 2, 2, 2, 0]);
    }

    fn a_list_over_the_top_ends_like_any<C>() {
        let mut rig = Rig::<C>::with_list(524_280, &[four(true)]);
        assert_eq!(rig.run_all(), (5, 25));
        assert_eq!((rig.board[at::FLAGS], rig.board[at::LIST]), (0, 13));
    }

    // A pointer taken away again (document 02, A13).

    fn a_pointer_with_both_bytes_on_one_cell<C>() {
        let block = Bcb {
            source: 0x2000,
            dest: 0x2100,
            dest_x: 0,
            width: 2,
            collision: 0xFF,
            control: 5,
            ..Bcb::default()
        };
        let mut rig = Rig::<C>::with_blocks(&[block]);
        rig.put(0x2000, &[3, 5]);
        rig.mem[0x2100] = 9;
        let before = rig.mem.clone();
        assert_eq!(rig.run_all(), (3, 27));
        // 9, then 10, collided; 10 with 5 is 15.
        assert_eq!((rig.mem[0x2100], rig.board[at::CODE]), (15, 10));
        rig.write(0x53, 1);
        assert_eq!([rig.run(1), rig.run(1), rig.run(1)], [(1, 21), (1, 3), (1, 3)]);
        assert_eq!((rig.board[at::FLAGS], rig.board[at::CODE]), (0, 12));
        assert!(rig.mem == before);
    }

    fn a_pointer_on_its_own_source<C>() {
        // Read, 3 makes 0 of itself, and 0 stays; with AND 0 it is no source, and 77 undoes itself.
        for (and, once, twice) in [(0xFF, 0, 0), (0, 78, 3)] {
            let block = Bcb {
                source: 0x2100,
                dest: 0x2100,
                and,
                xor: if and == 0 { 77 } else { 0 },
                control: 5,
                ..Bcb::default()
            };
            let mut rig = Rig::<C>::with_blocks(&[block]);
            rig.mem[0x2100] = 3;
            let before = rig.mem.clone();
            rig.run_all();
            assert_eq!(rig.mem[0x2100], once);
            rig.write(0x53, 1);
            rig.run_all();
            assert_eq!(rig.mem[0x2100], twice);
            assert_eq!(rig.mem == before, and == 0);
        }
    }

    fn a_pointer_on_its_own_block<C>() {
        // Address 16,400 is the cell of the XOR mask, which is 0 the second time.
        let block = Bcb { dest: 16_400, and: 0, xor: 77, control: 5, ..Bcb::default() };
        let mut rig = Rig::<C>::with_blocks(&[block]);
        rig.run_all();
        rig.write(0x53, 1);
        rig.run_all();
        assert_eq!(rig.mem[16], 0);
    }

    fn two_pointers_in_both_orders<C>() {
        // The second one's destinations are two of the first one's and one more, or the first one's sources.
        let meeting = [0x11, 0x62, 0x64, 0x60, 1, 2, 4];
        let first_last = [0x61, 0x62, 0x64, 0x10, 0x71, 0x72, 0x74];
        let second_last = [0x11, 0x12, 0x14, 0x10, 0x71, 0x72, 0x74];
        for (dest, one, other) in
            [(0x2101, meeting, meeting), (0x2104, second_last, first_last)]
        {
            let first = Bcb { source: 0x2104, dest: 0x2100, width: 3, control: 5, ..Bcb::default() };
            let second = Bcb { dest, width: 3, and: 0, xor: 0x70, control: 5, ..Bcb::default() };
            let [a, b] = [([0, 256], one), ([256, 0], other)].map(|(order, cells)| {
                let mut rig = Rig::<C>::with_blocks(&[first]);
                rig.put(256, &second.bytes());
                rig.put(0x2100, &[0x10, 0x10, 0x10, 0x10, 1, 2, 4]);
                for list in order {
                    rig.start_list(list);
                    rig.run_all();
                }
                assert_eq!(rig.cells(0x2100, 7), cells);
                rig.mem
            });
            assert_eq!(a == b, one == other);
        }
    }

    // The frame.

    fn text_with_off_is_off_and_resets_nothing<C>() {
        let mut rig = Rig::<C>::with_xdl(&[0x21, 0, 2, 2, 0, 5, 0, 0, 0x80]);
        assert_eq!(
            rig.some(6, &[at::MODE, at::TEXT]),
            [[TEXT, 0], [TEXT, 1], [TEXT, 2], [SR, 3], [OFF, 3], [OFF, 3]]
        );
    }

    fn text_again_restarts_the_row<C>() {
        let mut rig = Rig::<C>::with_xdl(&[0x21, 0, 2, 1, 0x80]);
        assert_eq!(rig.column(4, at::TEXT), [0, 1, 2, 0]);
    }

    fn resolution_counts_with_graphics_alone<C>() {
        let first = |xdl: &[u8]| Rig::<C>::with_xdl(xdl).line()[at::MODE];
        assert_eq!(first(&[1, 0x30]), TEXT);
        assert_eq!(first(&[2, 0x30]), OFF);
        assert_eq!(first(&[2, 0x00]), SR);
        assert_eq!(first(&[2, 0x10]), HR);
        assert_eq!(first(&[2, 0x20]), LR);
        let mut rig = Rig::<C>::with_xdl(&[2, 0, 0, 0x30]);
        assert_eq!(rig.column(2, at::MODE), [SR, SR]);
    }

    fn all_eight_switches_of_the_overlay<C>() {
        for bits in 0..8 {
            let expected = match bits {
                0 => LR,
                1 => TEXT,
                2 => SR,
                _ => OFF,
            };
            let mut rig = Rig::<C>::with_xdl(&[2, 0x20, bits, 0]);
            assert_eq!(rig.column(2, at::MODE), [LR, expected]);
        }
    }

    fn a_forbidden_resolution_is_a_record_like_any<C>() {
        let mut rig = Rig::<C>::with_xdl(&[0x42, 0x31, 0x34, 0x12, 0xFF, 0x67, 0xF5, 9, 2, 0x80]);
        let lines = rig.some(2, &[at::MODE, at::OVADR, at::OVSTEP, at::FONT]);
        assert_eq!(lines, [[OFF, 0x71234, 0x567, 9], [SR, 0x71234, 0x567, 9]]);
    }

    fn the_map_switches<C>() {
        let mut rig = Rig::<C>::with_xdl(&[
            0x28, 6, 2, 0, 0, 0, 5, 0, 0, 0, 7, 7, 0x10, 0, 8, 0x80,
        ]);
        assert_eq!(
            rig.some(6, &[at::MAP, at::FIELD]),
            [[1, 0], [1, 1], [1, 2], [0, 3], [1, 3], [0, 4]]
        );
        let mut rig = Rig::<C>::with_xdl(&[8, 0, 0, 0, 0x18, 0, 0, 0]);
        assert_eq!(rig.column(4, at::MAP), [1, 1, 0, 0]);
    }

    fn the_map_parameters<C>() {
        let mut rig = Rig::<C>::with_xdl(&[0x28, 4, 2, 0xFF, 0xFF, 3, 0xFF, 0, 2, 1, 0, 0, 0, 0]);
        let words = [at::MAP_HSCROLL, at::MAP_VSCROLL, at::FIELD_WIDTH, at::FIELD_HEIGHT, at::FIELD];
        let lines = rig.some(4, &words);
        // It starts on a field's last line, and again on the fourth line.
        assert_eq!(lines[0], [31, 31, 8, 32, 31]);
        assert_eq!(lines[2], [31, 31, 8, 32, 1]);
        assert_eq!(lines[3], [31, 31, 8, 32, 31]);
        for (byte, width) in [(6, 8), (7, 8), (8, 9), (31, 32), (0xE8, 9)] {
            let mut rig = Rig::<C>::with_xdl(&[0, 4, 0, 0, byte, 0]);
            assert_eq!(rig.line()[at::FIELD_WIDTH], width);
        }
    }

    fn the_map_steps_after_its_height<C>() {
        let mut rig = Rig::<C>::with_xdl(&[
            0x28, 0x86, 9, 0xFE, 0xFF, 0xFF, 3, 0xF0, 0, 0, 7, 3,
        ]);
        assert_eq!(
            rig.some(12, &[at::MAP, at::MAPADR, at::FIELD]),
            [
                [1, 0x7FFFE, 0],
                [1, 0x7FFFE, 1],
                [1, 0x7FFFE, 2],
                [1, 0x7FFFE, 3],
                [1, 1, 0],
                [1, 1, 1],
                [1, 1, 2],
                [1, 1, 3],
                [1, 4, 0],
                [1, 4, 1],
                [0, 4, 2],
                [0, 4, 2]
            ]
        );
    }

    fn the_attributes<C>() {
        let words = [at::WIDTH, at::OV_PALETTE, at::PF_PALETTE, at::PRIORITY];
        let first = |byte| Rig::<C>::with_xdl(&[0, 8, byte, 0x5A]).some(1, &words).remove(0);
        assert_eq!(first(0xFE), [2, 3, 3, 0x5A]);
        assert_eq!(first(0x03), [1, 0, 0, 0x5A]);
        assert_eq!(first(0x10), [0, 1, 0, 0x5A]);
        assert_eq!(first(0x4D), [1, 0, 1, 0x5A]);
    }

    fn repeats<C>() {
        let mut rig = Rig::<C>::with_xdl(&[0x22, 0, 255]);
        assert_eq!(rig.column(240, at::MODE), [SR; 240]);
        assert_eq!((rig.frame[at::REPEAT], rig.frame[at::LINE]), (16, 240));
        let mut rig = Rig::<C>::with_xdl(&[0x22, 0, 1, 0x21, 0, 0, 4, 0]);
        assert_eq!(rig.column(4, at::MODE), [SR, SR, TEXT, OFF]);
    }

    fn the_end_takes_hold_at_the_next_line<C>() {
        let begun = |repeat| {
            let mut rig = Rig::<C>::with_xdl(&[]);
            rig.frame[at::ENDED] = 1;
            rig.frame[at::REPEAT] = repeat;
            rig.frame[at::MODE] = SR;
            rig.frame[at::MAP] = 1;
            rig.frame[at::OVADR] = 5;
            rig.frame[at::OVSTEP] = 7;
            rig
        };
        let words = [at::MODE, at::MAP, at::OVADR];
        let mut rig = begun(0);
        assert_eq!(rig.some(1, &words), [[OFF, 0, 5]]);
        assert_eq!([rig.frame[at::MODE], rig.frame[at::MAP], rig.frame[at::OVADR]], [OFF, 0, 5]);
        let mut rig = begun(2);
        assert_eq!(rig.some(2, &words), [[SR, 1, 5], [SR, 1, 12]]);
        assert_eq!([rig.frame[at::MODE], rig.frame[at::MAP], rig.frame[at::OVADR]], [SR, 1, 19]);
        assert_eq!(rig.some(2, &words), [[OFF, 0, 19], [OFF, 0, 19]]);
        assert_eq!(rig.frame[at::POSITION], 0);
    }

    fn what_is_held_below_the_end<C>() {
        let mut rig = Rig::<C>::with_xdl(&[0x61, 0x80, 9, 0, 0x10, 0, 0xA0, 0]);
        let lines = rig.some(240, &[at::MODE, at::TEXT, at::OVADR]);
        assert_eq!(lines[7], [TEXT, 7, 0x1000]);
        assert_eq!(lines[9], [TEXT, 1, 0x10A0]);
        assert!(lines[10..].iter().all(|line| line == &[OFF, 2, 0x10A0]));
    }

    fn a_list_without_end<C>() {
        let mut rig = Rig::<C>::with_xdl(&[]);
        rig.lines(240);
        assert_eq!((rig.frame[at::POSITION], rig.frame[at::ENDED]), (480, 0));
    }

    fn a_record_that_wraps<C>() {
        let data: Vec<u8> = (1..=20).collect();
        for back in 0..22 {
            let record = [&[0xE2, 0x0F][..], &data].concat();
            let mut rig = Rig::<C>::with_xdl_at(524_288 - back, &record);
            let origin = (524_288 - back) % 524_288;
            assert_eq!(
                rig.line(),
                [
                    SR, 0x40302, 0x605, 7, 0, 9, 0, 0, 0x40B0A, 0xE0D, 15, 16, 18, 19, 16, 1, 1, 0, 20,
                    origin
                ]
            );
            assert_eq!(rig.frame[at::POSITION], 22 - back);
            assert_eq!(rig.frame[at::REPEAT], 1);
        }
    }

    fn unused_bits_of_a_record<C>() {
        let mut rig = Rig::<C>::with_xdl(&[
            0xC0, 0x42, 0xFF, 0xFF, 0xFF, 0xFF, 0xFF, 0xFF, 0xFF, 0xFF, 0xFF, 0xFF, 0xFF, 0xFF,
        ]);
        let words = [at::OVADR, at::OVSTEP, at::HSCROLL, at::VSCROLL, at::MAPADR, at::MAPSTEP];
        assert_eq!(rig.some(1, &words), [[0x7FFFF, 4_095, 7, 7, 0x7FFFF, 4_095]]);
    }

    fn the_text_counter_is_kept_in_pixel_modes<C>() {
        let mut rig = Rig::<C>::with_xdl(&[0x21, 0, 2, 0x22, 0, 3, 0x01, 0]);
        assert_eq!(rig.column(8, at::TEXT), [0, 1, 2, 3, 3, 3, 3, 0]);
    }

    fn text_lines_step_after_8<C>() {
        let mut rig = Rig::<C>::with_xdl(&[0x61, 0, 20, 0xF0, 0xFF, 7, 0x20, 0]);
        assert_eq!(
            rig.some(18, &[at::OVADR, at::TEXT]),
            (0..18).map(|k| vec![(0x7FFF0 + k / 8 * 0x20) & 0x7FFFF, k % 8]).collect::<Vec<_>>()
        );
    }

    // Which record made a line (document 02, A1).

    fn a_line_has_the_record_last_read<C>() {
        // The first record has 8 bytes, so the second is at 524,288, which is 0.
        let xdl = [0x62, 0, 2, 0, 0x10, 0, 0x40, 1, 0, 0x80];
        let mut rig = Rig::<C>::with_xdl_at(524_280, &xdl);
        let origins = rig.column(240, at::ORIGIN);
        assert_eq!(origins[..3], [524_280; 3]);
        assert_eq!(origins[3..], [0; 237]);
        assert_eq!((rig.frame[at::ORIGIN], rig.frame[at::POSITION]), (0, 2));
    }

    fn a_new_record_with_nothing_in_it_is_told_too<C>() {
        // Two bytes a record: 144 of them reach the top, and 95 more are 190 bytes.
        let mut rig = Rig::<C>::with_xdl_at(524_000, &[]);
        let origins = rig.column(240, at::ORIGIN);
        assert_eq!([origins[0], origins[1]], [524_000, 524_002]);
        assert_eq!([origins[143], origins[144], origins[239]], [524_286, 0, 190]);
    }

    fn the_record_is_told_by_its_address_and_not_its_cell<C>() {
        // The bytes are those at 100, but the frame reads them at 3 x 16,384 more.
        let mut rig = Rig::<C>::new();
        assert_eq!(C::install(&mut rig.mem, &[0x22, 0, 1, 4, 0x80], 100), 0);
        rig.show(49_252);
        assert_eq!(rig.column(4, at::ORIGIN), [49_252, 49_252, 49_255, 49_255]);
    }

    fn a_frame_not_switched_on_has_no_record<C>() {
        let mut rig = Rig::<C>::new();
        rig.start();
        assert_eq!(rig.column(240, at::ORIGIN), [NO_RECORD; 240]);

        // Neither has one that was handed in with a record, and it keeps what it holds.
        for (repeat, ended) in [(0, 0), (5, 0), (0, 1)] {
            let mut rig = Rig::<C>::new();
            rig.start();
            rig.frame[at::ORIGIN] = 5;
            rig.frame[at::REPEAT] = repeat;
            rig.frame[at::ENDED] = ended;
            assert_eq!(rig.column(240, at::ORIGIN), [NO_RECORD; 240]);
            assert_eq!(rig.frame[at::ORIGIN], 5);
        }
    }

    fn an_origin_is_an_address_or_none<C>() {
        for on in [0, 1] {
            for (origin, answer) in
                [(524_287, 0), (524_288, 0), (524_289, 15), (1_048_575, 15), (u32::MAX, 15)]
            {
                let mut rig = Rig::<C>::with_xdl(&[]);
                rig.frame[at::ON] = on;
                rig.frame[at::ORIGIN] = origin;
                assert_eq!(rig.answer_line(), answer, "{origin}");
                // After the last line too an unsound frame is 15, and a wrong length is still 1.
                rig.frame[at::ORIGIN] = origin;
                rig.frame[at::LINE] = 240;
                assert_eq!(rig.answer_line(), if answer == 15 { 15 } else { 4 });
                rig.mem.pop();
                assert_eq!(rig.answer_line(), 1);
            }
        }
    }

    fn no_line_nor_end_ties_the_origin<C>() {
        // 524,288 in the middle of a frame is sound, and so is a record before the first line.
        for (line, origin) in [(100, NO_RECORD), (0, 7)] {
            for ended in [0, 1] {
                let mut rig = Rig::<C>::with_xdl(&[]);
                rig.frame[at::LINE] = line;
                rig.frame[at::ORIGIN] = origin;
                rig.frame[at::ENDED] = ended;
                rig.frame[at::REPEAT] = 1;
                assert_eq!(rig.line()[at::ORIGIN], origin);
            }
        }
    }

    fn a_repeat_keeps_the_origin<C>() {
        for origin in [77, 524_287, NO_RECORD] {
            let mut rig = Rig::<C>::with_xdl_at(0x3000, &[4, 0]);
            rig.frame[at::ORIGIN] = origin;
            rig.frame[at::REPEAT] = 2;
            assert_eq!(rig.column(2, at::ORIGIN), [origin, origin]);
            assert_eq!(rig.frame[at::ORIGIN], origin);
            assert_eq!(rig.column(2, at::ORIGIN), [0x3000, 0x3002]);
        }
    }

    fn the_lines_below_the_end_keep_the_origin<C>() {
        for origin in [77, 524_287, NO_RECORD] {
            for repeat in [0, 2] {
                let mut rig = Rig::<C>::with_xdl_at(0x3000, &[4, 0]);
                rig.frame[at::ORIGIN] = origin;
                rig.frame[at::REPEAT] = repeat;
                rig.frame[at::ENDED] = 1;
                assert_eq!(rig.column(240, at::ORIGIN), [origin; 240]);
                assert_eq!((rig.frame[at::ORIGIN], rig.frame[at::POSITION]), (origin, 0x3000));
            }
        }
    }

    fn the_origin_has_a_word_of_its_own<C>() {
        let mut rig = Rig::<C>::with_xdl(&[]);
        let frame = rig.frame;
        let mut settings = [999; 20];
        assert_eq!(C::next_line(&mut rig.frame[..24], &rig.mem, &mut settings), 15);
        assert_eq!(C::next_line(&mut rig.frame, &rig.mem, &mut settings[..19]), 13);
        assert_eq!(C::start(&rig.board, &mut rig.frame[..24]), 15);
        assert_eq!((rig.frame, settings), (frame, [999; 20]));
        assert_eq!(C::next_line(&mut rig.frame[..25], &rig.mem, &mut settings), 0);
        assert_eq!(settings[19], 0);
    }

    fn the_records_of_a_plan_have_22_and_8_bytes<C>() {
        // The items have 27 and 11: the second record would be at 9.
        let lines = lines_at::<C>(&six_and_two(), 524_270);
        let origins: Vec<_> = lines.iter().map(|line| line[at::ORIGIN]).collect();
        assert_eq!(origins[..6], [524_270; 6]);
        assert_eq!(origins[6..], [4; 234]);

        let plan = joined(&[full(), running(), running(), full()]);
        let lines = lines_at::<C>(&plan, 0);
        let origins: Vec<_> = lines[..6].iter().map(|line| line[at::ORIGIN]).collect();
        assert_eq!(origins, [0, 22, 30, 38, 38, 38]);
    }

    fn where_a_list_lies_moves_the_origin_alone<C>() {
        let one = lines_at::<C>(&six_and_two(), 524_270);
        let other = lines_at::<C>(&six_and_two(), 0x1234);
        for (number, (one, other)) in one.iter().zip(&other).enumerate() {
            assert_eq!(one[..19], other[..19], "line {number}");
            let record = if number < 6 { 0x1234 } else { 0x124A };
            assert_eq!(other[at::ORIGIN], record, "line {number}");
        }
    }

    // Where the counters start (document 02, A2).

    fn scrolled_text_begins_with_the_last_lines_of_a_row<C>() {
        let mut rig = Rig::<C>::with_xdl(&[0xE1, 0x80, 9, 0, 0x10, 0, 0xA0, 0, 0, 3]);
        let lines = rig.some(240, &[at::MODE, at::TEXT, at::OVADR]);
        assert_eq!(
            lines[..10],
            [
                [TEXT, 3, 0x1000],
                [TEXT, 4, 0x1000],
                [TEXT, 5, 0x1000],
                [TEXT, 6, 0x1000],
                [TEXT, 7, 0x1000],
                [TEXT, 0, 0x10A0],
                [TEXT, 1, 0x10A0],
                [TEXT, 2, 0x10A0],
                [TEXT, 3, 0x10A0],
                [TEXT, 4, 0x10A0]
            ]
        );
        assert!(lines[10..].iter().all(|line| line == &[OFF, 5, 0x10A0]));
    }

    fn the_row_starts_at_the_scroll_that_the_record_leaves<C>() {
        let words = [at::MODE, at::TEXT, at::VSCROLL];
        // Its own, though it is behind the address, and by its three bits.
        let mut rig = Rig::<C>::with_xdl(&[0x81, 0, 0, 3, 0xC1, 0x80, 0, 0, 0, 0, 0, 0, 0xFE]);
        assert_eq!(rig.some(3, &words), [[TEXT, 3, 3], [TEXT, 6, 6], [OFF, 7, 6]]);
        // The older one, for TMON and for OVADR.
        let mut rig = Rig::<C>::with_xdl(&[0x84, 0, 0, 3, 1, 0x80]);
        assert_eq!(rig.some(3, &words), [[OFF, 0, 3], [TEXT, 3, 3], [OFF, 4, 3]]);
        let mut rig = Rig::<C>::with_xdl(&[0x81, 0, 0, 3, 0x40, 0x80, 0, 0, 0, 0, 0]);
        assert_eq!(rig.some(3, &words), [[TEXT, 3, 3], [TEXT, 3, 3], [OFF, 4, 3]]);
    }

    fn a_scroll_without_a_reset_moves_no_counter<C>() {
        let words = [at::MODE, at::TEXT, at::VSCROLL];
        let mut rig = Rig::<C>::with_xdl(&[0x81, 0, 0, 3, 0x80, 0x80, 0, 5]);
        assert_eq!(rig.some(3, &words), [[TEXT, 3, 3], [TEXT, 4, 5], [OFF, 5, 5]]);
        // Text together with off is no reset, and neither is graphics or off.
        for (first, mode) in [(0x85, OFF), (0x82, SR), (0x84, OFF)] {
            let mut rig = Rig::<C>::with_xdl(&[0x81, 0, 0, 3, first, 0, 0, 5]);
            assert_eq!(rig.some(2, &words), [[TEXT, 3, 3], [mode, 4, 5]]);
        }
        // The counter that a frame begins with is 0.
        let mut rig = Rig::<C>::with_xdl(&[0x80, 0x80, 0, 3]);
        assert_eq!(rig.some(2, &words), [[OFF, 0, 3], [OFF, 0, 3]]);
    }

    fn addresses_of_pixel_modes_do_not_scroll<C>() {
        let mut rig = Rig::<C>::with_xdl(&[0xE2, 0x80, 1, 0, 0x10, 0, 0x40, 1, 0, 5]);
        assert_eq!(
            rig.some(3, &[at::MODE, at::OVADR, at::TEXT]),
            [[SR, 0x1000, 5], [SR, 0x1140, 5], [OFF, 0x1280, 5]]
        );
    }

    fn the_map_begins_with_the_last_lines_of_a_field<C>() {
        // 10 mod 4 is 2.
        let mut rig = Rig::<C>::with_xdl(&[0x28, 0x86, 6, 0, 0x20, 0, 5, 0, 0, 10, 7, 3]);
        let lines = rig.some(240, &[at::MAP, at::MAPADR, at::FIELD]);
        assert_eq!(
            lines[..7],
            [
                [1, 0x2000, 2],
                [1, 0x2000, 3],
                [1, 0x2005, 0],
                [1, 0x2005, 1],
                [1, 0x2005, 2],
                [1, 0x2005, 3],
                [1, 0x200A, 0]
            ]
        );
        assert!(lines[7..].iter().all(|line| line == &[0, 0x200A, 1]));
    }

    fn the_field_starts_by_the_parameters_that_the_record_leaves<C>() {
        let mut rig = Rig::<C>::with_xdl(&[
            8, 4, 0, 10, 7, 3, // 10 mod 4
            0, 2, 0, 0, 0, 0, 0, // MAPADR alone: the same again
            0, 6, 0, 0, 0, 0, 0, 0, 10, 7, 6, // with its own height: 10 mod 7
            0, 4, 0, 14, 7, 6, // MAPPAR alone: 14 mod 7
            0, 0, // no data
            0x10, 0, // the map off
            8, 0x80, // and on again
        ]);
        assert_eq!(
            rig.some(8, &[at::MAP, at::FIELD]),
            [[1, 2], [1, 2], [1, 3], [1, 0], [1, 1], [0, 2], [1, 2], [0, 3]]
        );
    }

    fn every_map_vscroll_at_every_height<C>() {
        for height in 1..=32 {
            for vscroll in 0..32 {
                let mut rig = Rig::<C>::with_xdl(&[8, 4, 0, vscroll, 7, height - 1]);
                let [first, second] = [vscroll % height, (vscroll + 1) % height].map(u32::from);
                assert_eq!(rig.column(2, at::FIELD), [first, second], "{vscroll}, {height}");
            }
        }
    }

    fn running_on_keeps_the_start_of_the_full_band<C>() {
        let band = Full { lines: 6, mode: 1, ovadr: 0x1000, ovstep: 0xA0, vscroll: 3, ..Full::default() };
        let more = Running { lines: 2, vscroll: 6, ..Running::default() };
        let lines = lines_of::<C>(&joined(&[band.bytes(), more.bytes()]));
        let shown = |line: &[u32; SETTINGS_WORDS]| [line[at::TEXT], line[at::OVADR], line[at::VSCROLL]];
        let told: Vec<_> = lines.iter().map(shown).collect();
        assert_eq!(
            told[..8],
            [
                [3, 0x1000, 3],
                [4, 0x1000, 3],
                [5, 0x1000, 3],
                [6, 0x1000, 3],
                [7, 0x1000, 3],
                [0, 0x10A0, 3],
                [1, 0x10A0, 6],
                [2, 0x10A0, 6]
            ]
        );
        assert_eq!(told[8..], [[3, 0x10A0, 6]; 232]);
    }

    fn the_next_full_band_has_a_start_of_its_own<C>() {
        let band = |vscroll, map_vscroll| {
            Full { lines: 2, mode: 1, vscroll, map: 1, map_vscroll, field_height: 4, ..Full::default() }.bytes()
        };
        let lines = lines_of::<C>(&joined(&[band(7, 6), band(0, 31), band(5, 8)]));
        let told: Vec<_> = lines[..7].iter().map(|line| [line[at::TEXT], line[at::FIELD]]).collect();
        assert_eq!(told, [[7, 2], [0, 3], [0, 3], [1, 0], [5, 0], [6, 1], [7, 2]]);
    }

    fn the_map_of_a_scrolled_plan<C>() {
        let band = Full {
            lines: 3, map: 1, mapadr: 0x7FFFE, mapstep: 3, map_vscroll: 10, field_height: 4, ..Full::default()
        };
        let more = Running { lines: 4, ..Running::default() };
        let lines = lines_of::<C>(&joined(&[band.bytes(), more.bytes()]));
        let told: Vec<_> = lines.iter().map(|line| [line[at::MAPADR], line[at::FIELD]]).collect();
        assert_eq!(
            told[..7],
            [[0x7FFFE, 2], [0x7FFFE, 3], [1, 0], [1, 1], [1, 2], [1, 3], [4, 0]]
        );
        assert_eq!(told[7..], [[4, 1]; 233]);
    }

    fn counters_that_do_not_run_hold_their_start<C>() {
        for (mode, last) in [(0, 0x1000), (2, 0x1640), (3, 0x1640), (4, 0x1640)] {
            let band = Full {
                lines: 3, mode, ovadr: 0x1000, ovstep: 0x140, vscroll: 3, mapadr: 0x2000, mapstep: 5,
                map_vscroll: 10, field_height: 4, ..Full::default()
            };
            let more = Running { lines: 2, vscroll: 6, ..Running::default() };
            let lines = lines_of::<C>(&joined(&[band.bytes(), more.bytes()]));
            for (number, line) in lines.iter().enumerate() {
                let told = [line[at::TEXT], line[at::FIELD], line[at::MAPADR]];
                assert_eq!(told, [3, 2, 0x2000], "mode {mode}, line {number}");
            }
            assert_eq!([lines[0][at::OVADR], lines[239][at::OVADR]], [0x1000, last], "mode {mode}");
        }
    }

    // Plans.

    fn below_the_plan<C>() {
        let band = Full { lines: 3, mode: 2, ovadr: 0x1000, ovstep: 0x140, ..Full::default() };
        let more = Running { lines: 2, hscroll: 5, palettes: 6, ..Running::default() };
        let lines = lines_of::<C>(&joined(&[band.bytes(), more.bytes()]));
        let shown: Vec<_> = lines.iter().map(|line| line[at::OVADR]).collect();
        assert_eq!(shown[..5], [0x1000, 0x1140, 0x1280, 0x13C0, 0x1500]);
        for line in &lines[..3] {
            assert_eq!((line[at::HSCROLL], line[at::OV_PALETTE], line[at::PF_PALETTE]), (0, 1, 0));
        }
        for line in &lines[3..5] {
            assert_eq!((line[at::MODE], line[at::HSCROLL]), (SR, 5));
        }
        for line in &lines[5..] {
            assert_eq!((line[at::MODE], line[at::OVADR], line[at::HSCROLL]), (OFF, 0x1640, 5));
            assert_eq!((line[at::OV_PALETTE], line[at::PF_PALETTE]), (2, 1));
        }
    }

    fn running_on_keeps_the_text_row<C>() {
        let band = Full { lines: 3, mode: 1, ovadr: 0x1000, ovstep: 0xA0, ..Full::default() };
        let more = Running { lines: 6, vscroll: 4, ..Running::default() };
        let lines = lines_of::<C>(&joined(&[band.bytes(), more.bytes()]));
        for (k, line) in lines[..9].iter().enumerate() {
            assert_eq!(line[at::TEXT], k as u32 % 8);
            assert_eq!(line[at::OVADR], 0x1000 + k as u32 / 8 * 0xA0);
        }
    }

    fn what_running_on_changes<C>() {
        let band = Full {
            lines: 1, mode: 2, ovadr: 0x40000, ovstep: 1, hscroll: 1, vscroll: 2, font: 3, map: 1,
            mapadr: 0x50000, mapstep: 2, map_hscroll: 30, map_vscroll: 29, field_width: 17,
            field_height: 1, width: 0, palettes: 6, priority: 0x12,
        };
        let more = Running {
            lines: 1, hscroll: 4, vscroll: 5, font: 6, width: 2, palettes: 9, priority: 0x34,
        };
        let lines = lines_of::<C>(&joined(&[band.bytes(), more.bytes()]));
        assert_eq!(
            lines[0],
            [SR, 0x40000, 1, 1, 2, 3, 2, 1, 0x50000, 2, 30, 29, 17, 1, 0, 0, 2, 1, 0x12, 0x1234]
        );
        assert_eq!(
            lines[1],
            [SR, 0x40001, 1, 4, 5, 6, 2, 1, 0x50002, 2, 30, 29, 17, 1, 0, 2, 1, 2, 0x34, 0x124A]
        );
        assert_eq!(
            lines[2],
            [OFF, 0x40002, 1, 4, 5, 6, 2, 0, 0x50004, 2, 30, 29, 17, 1, 0, 2, 1, 2, 0x34, 0x124A]
        );
    }

    fn bytes_of_the_records<C>() {
        let band = Full {
            lines: 240, mode: 3, ovadr: 0x71234, ovstep: 0x567, hscroll: 1, vscroll: 2, font: 3, map: 1,
            mapadr: 0x6789A, mapstep: 0xBCD, map_hscroll: 30, map_vscroll: 29, field_width: 32,
            field_height: 31, width: 2, palettes: 14, priority: 0x12,
        };
        assert_eq!(
            compile::<C>(&band.bytes()).unwrap(),
            [
                0xEA, 0x9F, 239, 0x34, 0x12, 7, 0x67, 5, 1, 2, 3, 0x9A, 0x78, 6, 0xCD, 0x0B, 30, 29, 31, 30,
                0xE2, 0x12
            ]
        );
        let controls = |mode, map| {
            let xdl = compile::<C>(&Full { mode, map, ..Full::default() }.bytes()).unwrap();
            [xdl[0], xdl[1], xdl[2]]
        };
        assert_eq!(controls(0, 0), [0xF4, 0x8F, 0]);
        assert_eq!(controls(1, 0), [0xF1, 0x8F, 0]);
        assert_eq!(controls(2, 1), [0xEA, 0x8F, 0]);
        assert_eq!(controls(3, 0), [0xF2, 0x9F, 0]);
        assert_eq!(controls(4, 1), [0xEA, 0xAF, 0]);

        let more = Running {
            lines: 7, hscroll: 4, vscroll: 5, font: 6, width: 2, palettes: 9, priority: 0x34,
        };
        let xdl = compile::<C>(&joined(&[full(), more.bytes(), more.bytes()])).unwrap();
        assert_eq!(xdl[..2], [0xF4, 0x0F]);
        assert_eq!(xdl[22..30], [0xA0, 0x09, 6, 4, 5, 6, 0x92, 0x34]);
        assert_eq!(xdl[30..], [0xA0, 0x89, 6, 4, 5, 6, 0x92, 0x34]);
    }

    fn zeros_behind_240_bands<C>() {
        let plan = [times(240, full()), vec![0; 1_713]].concat();
        assert_eq!(compile::<C>(&plan), Err((7, 240)));
    }

    // Drawn lines (document 02, A5).

    fn pixels_of_all_modes_and_widths<C>() {
        let counts = [
            (OFF, [0, 0, 0]),
            (TEXT, [512, 640, 672]),
            (SR, [256, 320, 336]),
            (HR, [512, 640, 672]),
            (LR, [128, 160, 168]),
        ];
        let rig = Rig::<C>::new();
        for (mode, counts) in counts {
            for (width, count) in (0..).zip(counts) {
                // A scroll shows no more of a line.
                for hscroll in [0, 1, 7] {
                    let mut settings = line_in(mode);
                    settings[at::WIDTH] = width;
                    settings[at::HSCROLL] = hscroll;
                    assert_eq!(rig.draw(&settings).len(), count, "mode {mode}, width {width}");
                    assert_eq!(rig.answer_draw(&settings, count), 0);
                    for short in [0, 1, count / 2, count.saturating_sub(1)] {
                        if short < count {
                            assert_eq!(rig.answer_draw(&settings, short), 17, "{short} of {count}");
                        }
                    }
                }
            }
        }
    }

    fn an_off_line_fits_into_nothing<C>() {
        let mut rig = Rig::<C>::new();
        rig.mem.fill(0xAB);
        let mut report = [999; 3];
        assert_eq!(C::draw(&rig.board, &line_in(OFF), &rig.mem, &mut [], &mut report), 0);
        assert_eq!(report, [0, 999, 999]);
        let mut line = [UNDRAWN; 3];
        assert_eq!(C::draw(&rig.board, &line_in(OFF), &rig.mem, &mut line, &mut report), 0);
        assert_eq!((line, report), ([UNDRAWN; 3], [0, 999, 999]));
    }

    fn refusals_of_a_drawn_line_in_order<C>() {
        let mut rig = Rig::<C>::new();
        let mut settings = line_in(SR);
        let mut line = [UNDRAWN; 320];
        settings[at::MODE] = 5;
        rig.board[at::FLAGS] = 3;
        rig.mem.pop();
        assert_eq!(C::draw(&rig.board, &settings, &rig.mem, &mut line[..319], &mut []), 1);
        rig.mem.push(0);
        assert_eq!(C::draw(&rig.board, &settings, &rig.mem, &mut line[..319], &mut []), 15);
        rig.board[at::FLAGS] = 0;
        assert_eq!(C::draw(&rig.board, &settings, &rig.mem, &mut line[..319], &mut []), 15);
        settings[at::MODE] = SR;
        rig.board[at::FLAGS] = 3;
        assert_eq!(C::draw(&rig.board, &settings, &rig.mem, &mut line[..319], &mut []), 15);
        rig.board[at::FLAGS] = 0;
        assert_eq!(C::draw(&rig.board, &settings, &rig.mem, &mut line[..319], &mut []), 17);
        assert_eq!(C::draw(&rig.board, &settings, &rig.mem, &mut line[..319], &mut [0]), 17);
        assert_eq!(C::draw(&rig.board, &settings, &rig.mem, &mut line, &mut []), 13);
        assert_eq!(line, [UNDRAWN; 320]);
        assert_eq!(C::draw(&rig.board, &settings, &rig.mem, &mut line, &mut [0]), 0);
        assert_eq!(line, [CLEAR; 320]);

        // An off line too needs room for its number.
        settings[at::MODE] = OFF;
        assert_eq!(C::draw(&rig.board, &settings, &rig.mem, &mut [], &mut []), 13);
    }

    fn good_and_bad_lengths_for_a_drawn_line<C>() {
        for mode in [OFF, SR] {
            for shift in 14..=19 {
                let mut rig = Rig::<C>::new();
                rig.mem = vec![0; 1 << shift];
                assert_eq!(rig.answer_draw(&line_in(mode), 320), 0);
            }
            for length in [0, 1, 8_192, 16_383, 16_385, 24_576, 524_287, 524_289, 1_048_576] {
                let mut rig = Rig::<C>::new();
                rig.mem = vec![0; length];
                assert_eq!(rig.answer_draw(&line_in(mode), 320), 1);
            }
        }
    }

    fn states_too_short_for_a_drawn_line<C>() {
        let rig = Rig::<C>::new();
        let whole = line_in(SR);
        let mut line = [UNDRAWN; 320];
        let mut report = [999];
        for (board, settings) in [(34, 20), (35, 19), (0, 20), (35, 0), (0, 0)] {
            let (board, settings) = (&rig.board[..board], &whole[..settings]);
            assert_eq!(C::draw(board, settings, &rig.mem, &mut line, &mut report), 15);
            assert_eq!(C::draw(board, settings, &rig.mem, &mut [], &mut []), 15);
            assert_eq!(C::draw(board, settings, &rig.mem[1..], &mut [], &mut []), 1);
        }
        assert_eq!((line, report), ([UNDRAWN; 320], [999]));

        // Longer ones will do, whatever is behind.
        let board = [&rig.board[..], &[u32::MAX]].concat();
        let settings = [&whole[..], &[u32::MAX]].concat();
        assert_eq!(C::draw(&board, &settings, &rig.mem, &mut line, &mut report), 0);
        assert_eq!((line, report), ([CLEAR; 320], [320]));
    }

    fn settings_are_tested_as_a_state<C>() {
        let rig = Rig::<C>::new();
        // Also in an off line, and also words that are not drawn from.
        for mode in [OFF, TEXT, SR, HR, LR] {
            for (word, first, last) in SETTINGS_LIMITS {
                for value in [first, last] {
                    let mut settings = line_in(mode);
                    settings[word] = value;
                    assert_eq!(rig.answer_draw(&settings, 672), 0, "word {word}, {value}");
                }
                for value in [first.wrapping_sub(1), last + 1, last + 256, last | 0x8000_0000] {
                    let mut settings = line_in(mode);
                    settings[word] = value;
                    assert_eq!(rig.answer_draw(&settings, 672), 15, "word {word}, {value}");
                    assert_eq!(rig.answer_draw(&settings, 0), 15, "word {word}, {value}");
                }
            }
            let mut settings = line_in(mode);
            settings[at::FIELD_HEIGHT] = 4;
            settings[at::FIELD] = 4;
            assert_eq!(rig.answer_draw(&settings, 672), 15);
            settings[at::FIELD] = 3;
            assert_eq!(rig.answer_draw(&settings, 672), 0);
        }
    }

    fn the_board_of_a_drawn_line_is_tested<C>() {
        let limits = [
            (at::VIDEO_CONTROL, 15),
            (at::XDL_ADR, 524_287),
            (at::BL_ADR, 524_287),
            (at::P0, 255),
            (at::IRQE, 1),
            (at::IRQF, 1),
            (at::LIST, 524_287),
            (at::FLAGS, 2),
            (at::CODE, 255),
        ];
        for (word, last) in limits {
            let mut rig = Rig::<C>::new();
            rig.board[word] = last;
            assert_eq!(rig.answer_draw(&line_in(SR), 320), 0);
            rig.board[word] = last + 1;
            assert_eq!(rig.answer_draw(&line_in(SR), 320), 15);
            assert_eq!(rig.answer_draw(&line_in(OFF), 0), 15);
        }
        for word in at::BLOCK..BOARD_WORDS {
            let mut rig = Rig::<C>::new();
            rig.board[word] = 8;
            assert_eq!(rig.answer_draw(&line_in(SR), 320), 15);
        }
    }

    fn entries_past_the_pixels_stay<C>() {
        let mut rig = Rig::<C>::new();
        rig.mem.fill(9);
        let mut settings = line_in(LR);
        settings[at::WIDTH] = 0;
        let mut line = [UNDRAWN; 130];
        let mut report = [999; 3];
        assert_eq!(C::draw(&rig.board, &settings, &rig.mem, &mut line, &mut report), 0);
        assert_eq!(line[..128], [265; 128]);
        assert_eq!(line[128..], [UNDRAWN; 2]);
        assert_eq!(report, [128, 999, 999]);
    }

    fn a_byte_is_a_pixel_in_sr_and_lr<C>() {
        let mut rig = Rig::<C>::new();
        rig.put(0x1000, &[0x00, 0x01, 0x0F, 0x80, 0x1F, 0xFF, 0x10, 0xF0]);
        for mode in [SR, LR] {
            let mut settings = line_in(mode);
            settings[at::OVADR] = 0x1000;
            let mut eight = |video_control| rig.draw_with(video_control, &settings)[..8].to_vec();
            assert_eq!(eight(0), [CLEAR, 257, 271, 384, 287, 511, 272, 496]);
            assert_eq!(eight(8), [CLEAR, 257, CLEAR, 384, CLEAR, CLEAR, 272, 496]);
            assert_eq!(eight(4), [256, 257, 271, 384, 287, 511, 272, 496]);
            assert_eq!(eight(12), [256, 257, 271, 384, 287, 511, 272, 496]);
        }
    }

    fn a_byte_is_two_pixels_in_hr<C>() {
        let mut rig = Rig::<C>::new();
        rig.put(0x1000, &[0xF0, 0x1F, 0x2E]);
        let mut settings = line_in(HR);
        settings[at::OVADR] = 0x1000;
        let mut six = |video_control| rig.draw_with(video_control, &settings)[..6].to_vec();
        assert_eq!(six(0), [271, CLEAR, 257, 271, 258, 270]);
        assert_eq!(six(8), [CLEAR, CLEAR, 257, CLEAR, 258, 270]);
        assert_eq!(six(4), [271, 256, 257, 271, 258, 270]);
        assert_eq!(six(12), [271, 256, 257, 271, 258, 270]);
    }

    fn every_colour_of_the_pixel_modes<C>() {
        let mut rig = Rig::<C>::new();
        let colours: Vec<u8> = (0..=255).collect();
        rig.put(0, &colours);
        let mut settings = line_in(SR);
        settings[at::WIDTH] = 0;
        settings[at::OV_PALETTE] = 3;
        for video_control in 0..16 {
            let line = rig.draw_with(video_control, &settings);
            for (colour, pixel) in (0..).zip(line) {
                let transparent = match video_control & 12 {
                    0 => colour == 0,
                    8 => colour == 0 || colour % 16 == 15,
                    _ => false,
                };
                let shown = if transparent { CLEAR } else { 768 + colour };
                assert_eq!(pixel, shown, "control {video_control}, colour {colour}");
            }
        }

        // The low nibbles of HR are 0 to 15 again and again, the high ones each 16 times in a row.
        settings[at::MODE] = HR;
        for video_control in 0..16 {
            let line = rig.draw_with(video_control, &settings);
            for (number, pixel) in (0..).zip(line) {
                let colour = if number % 2 == 0 { number / 32 } else { number / 2 % 16 };
                let transparent = match video_control & 12 {
                    0 => colour == 0,
                    8 => colour == 0 || colour == 15,
                    _ => false,
                };
                let shown = if transparent { CLEAR } else { 768 + colour };
                assert_eq!(pixel, shown, "control {video_control}, pixel {number}");
            }
        }
    }

    fn the_overlay_palette_counts_256<C>() {
        let mut rig = Rig::<C>::new();
        rig.mem.fill(0x55);
        for (palette, pixel) in [(0, 85), (1, 341), (2, 597), (3, 853)] {
            for playfield in 0..4 {
                let mut settings = line_in(SR);
                settings[at::OV_PALETTE] = palette;
                settings[at::PF_PALETTE] = playfield;
                assert_eq!(rig.draw(&settings), [pixel; 320]);
                settings[at::MODE] = HR;
                assert_eq!(rig.draw(&settings), [pixel - 80; 640]);
                // The font of 55h has the pixels 1, 3, 5 and 7 set, in colour 55h; the background is none.
                settings[at::MODE] = TEXT;
                assert_eq!(rig.draw(&settings), [CLEAR, pixel].repeat(320));
            }
        }
    }

    fn the_last_byte_of_each_line<C>() {
        // Memory holds 1 up to there, and 2 from there on.
        let bytes = [
            (SR, [256, 320, 336], 1),
            (LR, [128, 160, 168], 1),
            (HR, [256, 320, 336], 2),
        ];
        for (mode, bytes, pixels) in bytes {
            for (width, bytes) in (0..).zip(bytes) {
                let mut rig = Rig::<C>::new();
                rig.mem[..bytes - 1].fill(0x11);
                rig.mem[bytes - 1..].fill(0x22);
                let mut settings = line_in(mode);
                settings[at::WIDTH] = width;
                let (left, right) = if mode == HR { (257, 258) } else { (273, 290) };
                let line = rig.draw(&settings);
                let (first, last) = line.split_at(line.len() - pixels);
                assert!(first.iter().all(|&pixel| pixel == left), "mode {mode}, width {width}");
                assert!(last.iter().all(|&pixel| pixel == right), "mode {mode}, width {width}");
            }
        }
    }

    fn text_colours<C>() {
        // Control, attribute, the pixel of a set bit, that of a clear one. Palette 2 is 512.
        let known = [
            (0, 0x00, 512, CLEAR),
            (0, 0x80, 512, 640),
            (0, 0x0F, 527, CLEAR),
            (0, 0x8F, 527, 655),
            (0, 0x7F, 639, CLEAR),
            (0, 0xFF, 639, 767),
            (8, 0x00, 512, CLEAR),
            (8, 0x80, 512, 640),
            (8, 0x0F, CLEAR, CLEAR),
            (8, 0x8F, CLEAR, CLEAR),
            (8, 0x7F, CLEAR, CLEAR),
            (8, 0xFF, CLEAR, CLEAR),
            (8, 0x1E, 542, CLEAR),
            (8, 0x9E, 542, 670),
        ];
        for (control, attribute, set, clear) in known {
            let found = character::<C>(control, attribute);
            assert_eq!(found, (set, clear), "control {control}, attribute {attribute}");
        }
        let untransparent = [
            (0x00, 512, 640),
            (0x80, 512, 640),
            (0x0F, 527, 640),
            (0x8F, 527, 655),
            (0x7F, 639, 640),
            (0xFF, 639, 767),
        ];
        for (attribute, set, clear) in untransparent {
            assert_eq!(character::<C>(4, attribute), (set, clear), "attribute {attribute}");
            assert_eq!(character::<C>(12, attribute), (set, clear), "attribute {attribute}");
        }
    }

    fn every_attribute<C>() {
        for control in 0..16 {
            for attribute in 0..=255 {
                let fifteen = control & 12 == 8 && attribute % 16 == 15;
                let colour = u16::from(attribute);
                let set = if fifteen { CLEAR } else { 512 + colour % 128 };
                let clear = match control & 4 {
                    0 if fifteen || attribute < 128 => CLEAR,
                    _ if attribute < 128 => 640,
                    _ => 512 + colour,
                };
                let found = character::<C>(control, attribute);
                assert_eq!(found, (set, clear), "control {control}, attribute {attribute}");
            }
        }
    }

    fn bit_7_of_the_font_is_on_the_left<C>() {
        for (byte, places) in [
            (0x80, &[0][..]),
            (0x01, &[7]),
            (0x40, &[1]),
            (0xC1, &[0, 1, 7]),
            (0x00, &[]),
            (0xFF, &[0, 1, 2, 3, 4, 5, 6, 7]),
        ] {
            let mut rig = Rig::<C>::new();
            // Character 1 of font 0 is at 8, the second one, 0, has no bit.
            rig.put(0, &[0; 8]);
            rig.put(8, &[byte]);
            rig.put(0x1000, &[1, 0x85, 0, 0x86]);
            let mut settings = line_in(TEXT);
            settings[at::OVADR] = 0x1000;
            let line = rig.draw(&settings);
            let mut expected = [389; 8];
            for &place in places {
                expected[place] = 261;
            }
            assert_eq!(line[..8], expected);
            assert_eq!(line[8..16], [390; 8]);
        }
    }

    fn the_character_comes_before_its_attribute<C>() {
        let mut rig = Rig::<C>::new();
        // The byte of character 2 in font 3 is at 6,160, that of character 132 at 7,200.
        rig.put(6_160, &[0xF0]);
        rig.put(7_200, &[0x0F]);
        rig.put(0x1000, &[2, 132, 132, 130]);
        let mut settings = line_in(TEXT);
        settings[at::OVADR] = 0x1000;
        settings[at::FONT] = 3;
        let line = rig.draw(&settings);
        assert_eq!(line[..8], [260, 260, 260, 260, 388, 388, 388, 388]);
        assert_eq!(line[8..16], [386, 386, 386, 386, 258, 258, 258, 258]);
    }

    fn the_font_line_is_the_text_counter<C>() {
        let mut rig = Rig::<C>::new();
        // Character 5 of font 2: 4,096 and 40. On line k the bit k is set, so the pixel 7 - k.
        rig.put(4_136, &[1, 2, 4, 8, 16, 32, 64, 128]);
        rig.put(0x2000, &[5, 0x83]);
        for counter in 0..8 {
            for vscroll in 0..8 {
                let mut settings = line_in(TEXT);
                settings[at::OVADR] = 0x2000;
                settings[at::FONT] = 2;
                settings[at::TEXT] = counter;
                settings[at::VSCROLL] = vscroll;
                let mut expected = [387; 8];
                expected[7 - counter as usize] = 259;
                assert_eq!(rig.draw(&settings)[..8], expected, "{counter}, vscroll {vscroll}");
            }
        }
    }

    fn the_last_line_of_the_last_font<C>() {
        // Font 255, character 255, line 7: the last byte there is.
        for shift in 14..=19 {
            let mut rig = Rig::<C>::new();
            rig.mem = vec![0; 1 << shift];
            rig.put(524_287, &[0x81]);
            rig.put(0x1000, &[255, 0x84]);
            let mut settings = line_in(TEXT);
            settings[at::OVADR] = 0x1000;
            settings[at::FONT] = 255;
            settings[at::TEXT] = 7;
            let eight = [260, 388, 388, 388, 388, 388, 388, 260];
            assert_eq!(rig.draw(&settings)[..8], eight);
        }
    }

    fn fonts_begin_at_multiples_of_2048<C>() {
        let mut rig = Rig::<C>::new();
        rig.mem = vec![0; 524_288];
        for font in 0..=255 {
            rig.put(2_048 * font + 8, &[font as u8]);
        }
        rig.put(100, &[1, 0x80]);
        for font in 0..=255 {
            let mut settings = line_in(TEXT);
            settings[at::OVADR] = 100;
            settings[at::FONT] = font;
            let line = rig.draw(&settings);
            let bits = line[..8].iter().fold(0, |bits, &pixel| 2 * bits + u32::from(pixel == 256));
            assert_eq!(bits, font);
        }
    }

    fn text_scrolls_to_the_left<C>() {
        // Character k has its first column in colour k, the others in k + 128.
        let rig = numbered_text::<C>();
        for hscroll in 0..8 {
            let mut settings = line_in(TEXT);
            settings[at::OVADR] = 0x1000;
            settings[at::HSCROLL] = hscroll;
            for (width, count) in [(0, 512), (1, 640), (2, 672)] {
                settings[at::WIDTH] = width;
                let line = rig.draw(&settings);
                assert_eq!(line.len(), count);
                for (column, &pixel) in (hscroll as u16..).zip(&line) {
                    let first = if column % 8 == 0 { 256 } else { 384 };
                    assert_eq!(pixel, first + column / 8, "hscroll {hscroll}, column {column}");
                }
            }
        }
    }

    fn the_ends_of_scrolled_text<C>() {
        let rig = numbered_text::<C>();
        let mut settings = line_in(TEXT);
        settings[at::OVADR] = 0x1000;
        // Width, hscroll, the first two pixels, the last one: by hand.
        for (width, hscroll, first, second, last) in [
            (0, 0, 256, 384, 447),
            (0, 1, 384, 384, 320),
            (0, 7, 384, 257, 448),
            (1, 0, 256, 384, 463),
            (1, 1, 384, 384, 336),
            (2, 0, 256, 384, 467),
            (2, 1, 384, 384, 340),
            (2, 7, 384, 257, 468),
        ] {
            settings[at::WIDTH] = width;
            settings[at::HSCROLL] = hscroll;
            let line = rig.draw(&settings);
            let ends = [line[0], line[1], line[line.len() - 1]];
            assert_eq!(ends, [first, second, last], "width {width}, hscroll {hscroll}");
        }
    }

    fn one_more_character_with_a_scroll_only<C>() {
        for (width, characters) in [(0, 64), (1, 80), (2, 84)] {
            for hscroll in 0..8 {
                let mut settings = line_in(TEXT);
                settings[at::OVADR] = 0x1000;
                settings[at::WIDTH] = width;
                settings[at::HSCROLL] = hscroll;
                let mut rig = numbered_text::<C>();
                let line = rig.draw(&settings);
                // Another attribute there shows in as many pixels as are scrolled.
                rig.mem[0x1000 + 2 * characters + 1] = 0xFE;
                let other = rig.draw(&settings);
                let same = line.len() - hscroll as usize;
                assert_eq!(line[..same], other[..same]);
                assert!(line[same..].iter().zip(&other[same..]).all(|(one, two)| one != two));
                // What is behind it shows nowhere.
                rig.mem[0x1000 + 2 * characters + 2..0x2000].fill(0x99);
                assert_eq!(rig.draw(&settings), other);
            }
        }
    }

    fn pixel_modes_do_not_scroll<C>() {
        let mut rig = Rig::<C>::new();
        let bytes: Vec<u8> = (0..=255).rev().cycle().take(1_000).collect();
        rig.put(0x1000, &bytes);
        for mode in [SR, HR, LR] {
            let mut settings = line_in(mode);
            settings[at::OVADR] = 0x1000;
            let line = rig.draw(&settings);
            for hscroll in 0..8 {
                for vscroll in [0, 3, 7] {
                    settings[at::HSCROLL] = hscroll;
                    settings[at::VSCROLL] = vscroll;
                    assert_eq!(rig.draw(&settings), line, "mode {mode}");
                }
            }
        }
    }

    fn lines_wrap_at_the_end_of_memory<C>() {
        for shift in 14..=19 {
            let length = 1 << shift;
            for address in [length - 1, (2 * length - 1) % 524_288, 524_287] {
                let mut rig = Rig::<C>::new();
                rig.mem = vec![0; length as usize];
                rig.mem[length as usize - 1] = 0x5A;
                rig.mem[0] = 0x83;
                rig.mem[1] = 0x04;
                rig.mem[2] = 0x85;
                // Characters 5Ah and 4 of font 1, at 2,048.
                rig.mem[2_768] = 0x80;
                rig.mem[2_080] = 0x01;
                let mut settings = line_in(SR);
                settings[at::OVADR] = address;
                settings[at::FONT] = 1;
                assert_eq!(rig.draw(&settings)[..4], [346, 387, 260, 389]);
                settings[at::MODE] = LR;
                assert_eq!(rig.draw(&settings)[..4], [346, 387, 260, 389]);
                settings[at::MODE] = HR;
                assert_eq!(rig.draw(&settings)[..6], [261, 266, 264, 259, CLEAR, 260]);
                settings[at::MODE] = TEXT;
                let line = rig.draw(&settings);
                assert_eq!(line[..8], [259, 387, 387, 387, 387, 387, 387, 387]);
                assert_eq!(line[8..16], [389, 389, 389, 389, 389, 389, 389, 261]);
            }
        }
    }

    fn a_line_lies_at_its_address_modulo_l<C>() {
        let mut rig = Rig::<C>::new();
        let bytes: Vec<u8> = (0..=255).cycle().take(700).collect();
        rig.put(0x1234, &bytes);
        rig.put(0x3800, &bytes);
        for mode in [TEXT, SR, HR, LR] {
            let mut settings = line_in(mode);
            settings[at::OVADR] = 0x1234;
            settings[at::FONT] = 7;
            let line = rig.draw(&settings);
            // 31 times 16,384 is 7C000h, and 16,384 are 8 fonts.
            settings[at::OVADR] = 0x7D234;
            settings[at::FONT] = 255;
            assert_eq!(rig.draw(&settings), line, "mode {mode}");
        }
    }

    fn the_map_is_not_drawn_from<C>() {
        let mut rig = numbered_text::<C>();
        rig.put(0x3000, &[0x35; 0x800]);
        for mode in [OFF, TEXT, SR, HR, LR] {
            let mut settings = line_in(mode);
            settings[at::OVADR] = 0x1000;
            settings[at::OV_PALETTE] = 2;
            settings[at::MAPADR] = 0x3000;
            settings[at::MAPSTEP] = 160;
            let line = rig.draw(&settings);
            settings[at::MAP] = 1;
            assert_eq!(rig.draw(&settings), line, "mode {mode}");
        }
    }

    fn what_a_line_is_not_drawn_from<C>() {
        let mut rig = numbered_text::<C>();
        let others = [
            (at::OVSTEP, 4_095),
            (at::VSCROLL, 7),
            (at::MAP, 1),
            (at::MAPADR, 524_287),
            (at::MAPSTEP, 4_095),
            (at::MAP_HSCROLL, 31),
            (at::MAP_VSCROLL, 31),
            (at::FIELD_WIDTH, 32),
            (at::FIELD_HEIGHT, 32),
            (at::FIELD, 7),
            (at::PF_PALETTE, 3),
            (at::PRIORITY, 0),
            (at::ORIGIN, 0),
        ];
        let text = [(at::HSCROLL, 7), (at::FONT, 255), (at::TEXT, 7)];
        for mode in [TEXT, SR, HR, LR] {
            let mut settings = line_in(mode);
            settings[at::OVADR] = 0x1000;
            let line = rig.draw(&settings);
            for (word, value) in others {
                let before = settings[word];
                settings[word] = value;
                assert_eq!(rig.draw(&settings), line, "mode {mode}, word {word}");
                settings[word] = before;
            }
            for (word, value) in text {
                let before = settings[word];
                settings[word] = value;
                assert_eq!(rig.draw(&settings) == line, mode != TEXT, "mode {mode}, word {word}");
                settings[word] = before;
            }
            // And of the board, all but VIDEO_CONTROL.
            rig.board = busy_board();
            assert_eq!(rig.draw(&settings), line, "mode {mode}");
            rig.board = [0; BOARD_WORDS];
        }
    }

    fn two_bits_of_video_control_count<C>() {
        let mut rig = Rig::<C>::new();
        let bytes: Vec<u8> = (0..=255).cycle().take(700).collect();
        rig.put(0, &bytes);
        for mode in [TEXT, SR, HR, LR] {
            let settings = line_in(mode);
            let [zero, both, none] = [0, 8, 4].map(|control| rig.draw_with(control, &settings));
            assert!(zero != both && zero != none && both != none, "mode {mode}");
            for control in 0..16 {
                let line = rig.draw_with(control, &settings);
                // The display list's switch, bit 0, does not matter, and neither does xcolor.
                let same = match control {
                    0..=3 => &zero,
                    8..=11 => &both,
                    _ => &none,
                };
                assert_eq!(line, *same, "mode {mode}, control {control}");
            }
        }
    }

    fn video_control_counts_as_it_is_now<C>() {
        let mut rig = Rig::<C>::with_xdl_at(0x3000, &[0x42, 0x80, 0, 0x10, 0, 0, 0]);
        let settings = rig.line();
        assert_eq!(rig.draw(&settings), [CLEAR; 320]);
        rig.write(0x40, 0xF4);
        assert_eq!(rig.draw(&settings), [256; 320]);
        rig.reset();
        assert_eq!(rig.draw(&settings), [CLEAR; 320]);
    }

    fn scrolled_text_of_a_frame<C>() {
        // Ten lines of text from 1000h, a step of A0h, vscroll 3, font 1.
        let xdl = [0xE1, 0x81, 9, 0, 0x10, 0, 0xA0, 0, 0, 3, 1];
        let mut rig = Rig::<C>::with_xdl_at(0x3000, &xdl);
        // Character 1 goes from right to left, character 2 from left to right.
        rig.put(2_056, &[1, 2, 4, 8, 16, 32, 64, 128]);
        rig.put(2_064, &[128, 64, 32, 16, 8, 4, 2, 1]);
        rig.put(0x1000, &[1, 0x85]);
        rig.put(0x10A0, &[2, 0x85]);
        // The first row has its last five lines, 3 to 7; then the second begins.
        for place in [4, 3, 2, 1, 0, 0, 1, 2, 3, 4] {
            let settings = rig.line();
            let mut expected = [389; 8];
            expected[place] = 261;
            assert_eq!(rig.draw(&settings)[..8], expected);
        }
        let settings = rig.line();
        assert_eq!(rig.draw(&settings), []);
    }

    fn a_frame_not_switched_on_shows_nothing<C>() {
        let mut rig = Rig::<C>::new();
        rig.start();
        let settings = rig.line();
        assert_eq!(settings, line_in(OFF));
        assert_eq!(rig.answer_draw(&settings, 0), 0);
    }
}
