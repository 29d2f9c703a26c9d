//! Random inputs: memory, lists, XDLs, plans and states, good and damaged.
#![allow(dead_code)]

use twin::card::{BOARD_WORDS, FRAME_WORDS, SETTINGS_WORDS};
use twin::random::Random;

use super::{at, NO_RECORD};

/// A length that is taken, most often the smallest.
pub fn length(r: &mut Random) -> usize {
    match r.below(100) {
        0..=69 => 1 << 14,
        70..=84 => 1 << 15,
        85..=91 => 1 << 16,
        92..=95 => 1 << 17,
        96..=97 => 1 << 18,
        _ => 1 << 19,
    }
}

/// A length that is refused.
pub fn bad_length(r: &mut Random) -> usize {
    let known = [
        0, 1, 2, 21, 4_096, 8_192, 16_383, 16_385, 24_576, 32_767, 49_152, 65_535, 524_287,
        524_289, 540_672, 1_048_576,
    ];
    if r.chance(3, 4) {
        return r.pick(&known);
    }
    let length = r.below(40_000) as usize;
    if length.is_power_of_two() {
        length + 3
    } else {
        length
    }
}

/// Memory of one of several makes: empty, random, sparse, all the same, small numbers.
pub fn memory(r: &mut Random, length: usize) -> Vec<u8> {
    let mut mem = vec![0; length];
    match r.below(8) {
        0 => {}
        1 => mem.fill(r.byte()),
        2 => mem.fill(0xFF),
        3 => {
            r.fill(&mut mem);
            for cell in &mut mem {
                if *cell & 3 != 0 {
                    *cell = 0;
                }
            }
        }
        4 => {
            r.fill(&mut mem);
            for cell in &mut mem {
                *cell &= 0x0F;
            }
        }
        5 => {
            r.fill(&mut mem);
            for cell in &mut mem {
                *cell &= *cell << 3;
            }
        }
        _ => r.fill(&mut mem),
    }
    mem
}

/// Memory for pixels: many bytes have a nibble of 0 or of 15, or are 0, so that each kind of colour and attribute is
/// often there, transparent ones too.
pub fn picture(r: &mut Random, length: usize) -> Vec<u8> {
    let mut mem = vec![0; length];
    r.fill(&mut mem);
    for eight in mem.chunks_mut(8) {
        let mut kinds = r.long();
        for cell in eight {
            *cell = match kinds % 8 {
                0 => 0,
                1 => *cell & 0x80,
                2 => *cell & 0xF0,
                3 => *cell | 0x0F,
                4 => *cell & 0x0F,
                5 => *cell | 0xF0,
                _ => *cell,
            };
            kinds /= 8;
        }
    }
    mem
}

/// An address of 24 bits, of which the board uses 19: near a known one, near the wrap, or anywhere.
fn place(r: &mut Random, around: &[u32]) -> u32 {
    let address = match r.below(8) {
        0..=3 if !around.is_empty() => r
            .pick(around)
            .wrapping_add(r.between(0, 80))
            .wrapping_sub(40),
        4 => r.between(0, 64).wrapping_sub(32),
        _ => r.word(),
    };
    address & 0xFF_FFFF
}

fn step_y(r: &mut Random) -> [u8; 2] {
    let known = [
        [0, 0],
        [0xFF, 0x1F],
        [0x00, 0x10],
        [0xFF, 0x0F],
        [0xFF, 0x3F],
        [0xFF, 0xFF],
        [1, 0],
        [0x40, 1],
    ];
    match r.below(4) {
        0 => r.pick(&known),
        1 => [r.byte() & 0x3F, 0],
        _ => [r.byte(), r.byte()],
    }
}

fn step_x(r: &mut Random) -> u8 {
    match r.below(8) {
        0..=3 => 1,
        4 => 0xFF,
        5 => r.pick(&[0, 2, 0x80, 0x7F, 0xFE]),
        _ => r.byte(),
    }
}

fn extent(r: &mut Random, most: u32) -> u32 {
    match r.below(16) {
        0..=7 => r.between(1, 5),
        8..=12 => r.between(1, 20),
        13..=14 => r.between(1, 80),
        _ => r.between(1, most),
    }
}

/// A block. Its unused bits are random.
pub fn block(r: &mut Random, around: &[u32], next: bool) -> [u8; 21] {
    let mut bytes = [0; 21];
    r.fill(&mut bytes);
    let source = place(r, around);
    let dest = if r.chance(1, 2) {
        let near = [around, &[source, source, source]].concat();
        place(r, &near)
    } else {
        place(r, around)
    };
    bytes[0..3].copy_from_slice(&source.to_le_bytes()[..3]);
    bytes[3..5].copy_from_slice(&step_y(r));
    bytes[5] = step_x(r);
    bytes[6..9].copy_from_slice(&dest.to_le_bytes()[..3]);
    bytes[9..11].copy_from_slice(&step_y(r));
    bytes[11] = step_x(r);
    let width = extent(r, 512) - 1;
    bytes[12] = width as u8;
    bytes[13] = bytes[13] & 0xFE | (width >> 8) as u8;
    bytes[14] = (extent(r, 256) - 1) as u8;
    let any = r.byte();
    bytes[15] = r.pick(&[0, 0, 0, 0xFF, 0xFF, 0xFF, any, any]);
    let any = r.byte();
    bytes[16] = r.pick(&[0, 0, any]);
    let any = r.byte();
    let bit = 1 << r.below(8);
    bytes[17] = r.pick(&[0, 0xFF, bit, any]);
    if r.chance(1, 2) {
        bytes[18] &= 0x88;
    }
    match r.below(4) {
        0 | 1 => bytes[19] &= 0x7F,
        2 => bytes[19] = bytes[19] & 0x47 | 0x80,
        _ => {}
    }
    bytes[20] = bytes[20] & 0xF7 | if next { 8 } else { 0 };
    bytes
}

pub fn put(mem: &mut [u8], address: u32, bytes: &[u8]) {
    if mem.is_empty() {
        return;
    }
    let length = mem.len();
    for (offset, &byte) in bytes.iter().enumerate() {
        mem[(address as usize + offset) % length] = byte;
    }
}

/// An address of 19 bits, often near the wrap.
pub fn address(r: &mut Random) -> u32 {
    match r.below(4) {
        0 => r.between(524_288 - 200, 524_287),
        1 => r.below(200),
        _ => r.below(524_288),
    }
}

/// Puts a list of blocks into memory; where it lies. Some lists run on into whatever is behind them.
pub fn list(r: &mut Random, mem: &mut [u8]) -> u32 {
    let start = address(r);
    let count = r.between(1, 7);
    let around = [start, start + 21 * count, r.below(524_288)];
    for number in 0..count {
        let next = number + 1 < count || r.chance(1, 6);
        let bytes = block(r, &around, next);
        put(mem, start + 21 * number, &bytes);
    }
    start
}

/// Puts records into memory; where they lie. Some lists have no end.
pub fn xdl(r: &mut Random, mem: &mut [u8]) -> u32 {
    let start = address(r);
    let count = r.pick(&[1, 2, 5, 20, 60, 250]);
    let repeats = r.chance(3, 4);
    let ends = r.chance(4, 5);
    let mut bytes = Vec::new();
    for number in 0..count {
        let mut first = r.byte() & r.pick(&[0xFF, 0xFF, 0xFB, 0xF9, 0xE7]);
        if !repeats || r.chance(1, 2) {
            first &= !0x20;
        }
        let mut second = r.byte() & r.pick(&[0x7F, 0x7F, 0x4F, 0x72, 0x30]);
        if ends && number + 1 == count {
            second |= 0x80;
        }
        bytes.extend([first, second]);
        let sizes = [
            (first >> 5 & 1, 1),
            (first >> 6 & 1, 5),
            (first >> 7 & 1, 2),
            (second & 1, 1),
            (second >> 1 & 1, 5),
            (second >> 2 & 1, 4),
            (second >> 3 & 1, 2),
        ];
        for (group, &(there, size)) in sizes.iter().enumerate() {
            if there == 0 {
                continue;
            }
            for _ in 0..size {
                let any = r.byte();
                let small = any & 7;
                bytes.push(match group {
                    0 => r.pick(&[small, small, small, any]),
                    5 => r.pick(&[small, any]),
                    _ => any,
                });
            }
        }
    }
    bytes.truncate(mem.len());
    put(mem, start, &bytes);
    start
}

/// A number up to `last`, its ends more often than others.
fn up_to(r: &mut Random, last: u32) -> u32 {
    match r.below(8) {
        0 => 0,
        1 => last,
        _ => r.between(0, last),
    }
}

fn full_item(r: &mut Random, lines: u8) -> Vec<u8> {
    let mut item = vec![23, 0, 1, 0, lines, r.below(5) as u8];
    item.extend(&up_to(r, 524_287).to_le_bytes()[..3]);
    item.extend((up_to(r, 4_095) as u16).to_le_bytes());
    item.extend([up_to(r, 7) as u8, up_to(r, 7) as u8, r.byte()]);
    item.push(r.below(2) as u8);
    item.extend(&up_to(r, 524_287).to_le_bytes()[..3]);
    item.extend((up_to(r, 4_095) as u16).to_le_bytes());
    item.extend([up_to(r, 31) as u8, up_to(r, 31) as u8]);
    item.extend([8 + up_to(r, 24) as u8, 1 + up_to(r, 31) as u8]);
    item.extend([r.below(3) as u8, up_to(r, 15) as u8, r.byte()]);
    item
}

fn running_item(r: &mut Random, lines: u8) -> Vec<u8> {
    let mut item = vec![7, 0, 2, 0, lines];
    item.extend([up_to(r, 7) as u8, up_to(r, 7) as u8, r.byte()]);
    item.extend([r.below(3) as u8, up_to(r, 15) as u8, r.byte()]);
    item
}

/// The items of a good plan.
pub fn plan_items(r: &mut Random) -> Vec<Vec<u8>> {
    let most = r.pick(&[1, 3, 20, 100, 240]);
    let count = r.pick(&[1, 2, 3, 8, 40, 240]);
    let mut left = 240;
    let mut items = Vec::new();
    while items.len() < count && left > 0 {
        let lines = r.between(1, most.min(left));
        left -= lines;
        let item = if items.is_empty() || r.chance(1, 2) {
            full_item(r, lines as u8)
        } else {
            running_item(r, lines as u8)
        };
        items.push(item);
    }
    if r.chance(1, 8) && left > 0 {
        items.push(running_item(r, left as u8));
    }
    items
}

/// A plan with something wrong, most often.
pub fn broken_plan(r: &mut Random) -> Vec<u8> {
    let mut items = plan_items(r);
    let wrong_item = match r.below(16) {
        0 => return Vec::new(),
        1 => {
            let mut any = vec![0; r.below(60) as usize];
            r.fill(&mut any);
            return any;
        }
        2 | 3 => {
            // Running on comes first.
            let item = running_item(r, 1);
            items.insert(0, item);
            r.chance(1, 4)
        }
        4 | 5 => {
            // As many lines as there may be, or some more.
            let lines: u32 = items.iter().map(|item| u32::from(item[4])).sum();
            let any = r.between(1, 240);
            let lines = r.pick(&[240, 241, 242, lines + any]).max(lines + 1) - lines;
            let item = if r.chance(1, 2) {
                full_item(r, lines as u8)
            } else {
                running_item(r, lines as u8)
            };
            items.push(item);
            r.chance(1, 4)
        }
        6 => {
            let lines = r.pick(&[0, 241, 255]);
            let item = running_item(r, lines);
            items.push(item);
            r.chance(1, 4)
        }
        _ => true,
    };
    if wrong_item {
        for _ in 0..r.between(1, 2) {
            let number = r.below(items.len() as u32) as usize;
            spoil(r, &mut items[number]);
        }
    }
    let mut plan = items.concat();
    match r.below(10) {
        0 => {
            let keep = r.below(plan.len() as u32 + 1) as usize;
            plan.truncate(keep);
        }
        1 => {
            let mut more = vec![0; r.between(1, 6) as usize];
            r.fill(&mut more);
            plan.extend(more);
        }
        _ => {}
    }
    plan
}

/// Flips, changes or cuts something of an item.
fn spoil(r: &mut Random, item: &mut Vec<u8>) {
    if item.len() < 5 {
        return;
    }
    let spot = r.below(item.len() as u32) as usize;
    match r.below(7) {
        0 => item[spot] = r.byte(),
        1 => item[spot] ^= 1 << r.below(8),
        2 => item[spot] = r.pick(&[0, 1, 2, 3, 4, 5, 7, 8, 9, 15, 16, 31, 32, 33, 240, 241, 255]),
        3 => item.truncate(spot),
        4 => item[0] = r.pick(&[0, 6, 7, 8, 22, 23, 24, 255]),
        5 => item[2] = r.pick(&[0, 1, 2, 3, 255]),
        _ => item[r.pick(&[1, 3])] = r.pick(&[1, 255]),
    }
}

/// A sound board.
pub fn board(r: &mut Random) -> [u32; BOARD_WORDS] {
    let mut words = [0; BOARD_WORDS];
    words[at::VIDEO_CONTROL] = up_to(r, 15);
    words[at::XDL_ADR] = address(r);
    words[at::BL_ADR] = address(r);
    for priority in &mut words[at::P0..at::IRQE] {
        *priority = up_to(r, 255);
    }
    words[at::IRQE] = r.below(2);
    words[at::IRQF] = r.below(2);
    words[at::LIST] = address(r);
    words[at::FLAGS] = r.pick(&[0, 1, 2, 2, 2]);
    words[at::CODE] = up_to(r, 255);
    if words[at::FLAGS] == 2 {
        let next = r.chance(1, 2);
        let around = [words[at::LIST], r.below(524_288)];
        let bytes = block(r, &around, next);
        for (word, byte) in words[at::BLOCK..at::ROW].iter_mut().zip(bytes) {
            *word = byte.into();
        }
        let (rows, columns) = extents(&bytes);
        words[at::ROW] = up_to(r, rows - 1);
        words[at::COLUMN] = up_to(r, columns - 1);
    }
    words
}

/// The rows and columns of a block's destination.
pub fn extents(block: &[u8; 21]) -> (u32, u32) {
    let [width0, width1, height] = [block[12], block[13], block[14]].map(u32::from);
    let zoom = u32::from(block[18]);
    let rows = (height + 1) * ((zoom >> 4 & 7) + 1);
    let columns = (width0 + 256 * (width1 & 1) + 1) * ((zoom & 7) + 1);
    (rows, columns)
}

/// An address, or 524,288 where no record has been read.
fn origin(r: &mut Random) -> u32 {
    match r.below(4) {
        0 => NO_RECORD,
        _ => address(r),
    }
}

/// A sound frame.
pub fn frame(r: &mut Random) -> [u32; FRAME_WORDS] {
    let height = r.between(1, 32);
    [
        r.below(5),
        address(r),
        up_to(r, 4_095),
        up_to(r, 7),
        up_to(r, 7),
        up_to(r, 255),
        up_to(r, 7),
        r.below(2),
        address(r),
        up_to(r, 4_095),
        up_to(r, 31),
        up_to(r, 31),
        8 + up_to(r, 24),
        height,
        up_to(r, height - 1),
        up_to(r, 2),
        up_to(r, 3),
        up_to(r, 3),
        up_to(r, 255),
        origin(r),
        address(r),
        r.pick(&[0, 0, 1, 2, 255]),
        up_to(r, 240),
        r.below(2),
        r.pick(&[0, 1, 1, 1]),
    ]
}

/// Sound settings. Their pixels are often on both sides of the end of memory that has a length.
pub fn settings(r: &mut Random, length: usize) -> [u32; SETTINGS_WORDS] {
    let mut words = [0; SETTINGS_WORDS];
    words.copy_from_slice(&frame(r)[..SETTINGS_WORDS]);
    if r.chance(1, 3) && length != 0 {
        let end = r.below(524_288) / length as u32 * length as u32;
        words[at::OVADR] = (end + 524_288 - r.below(400)) % 524_288;
    }
    words
}

/// A word at or near the end of some range.
pub fn odd_word(r: &mut Random) -> u32 {
    let known = [
        0,
        1,
        2,
        3,
        4,
        5,
        7,
        8,
        15,
        16,
        31,
        32,
        33,
        239,
        240,
        241,
        255,
        256,
        257,
        2_047,
        2_048,
        4_095,
        4_096,
        65_535,
        65_536,
        524_287,
        524_288,
        524_289,
        0x7FFF_FFFF,
        0x8000_0000,
        0xFFFF_FF00,
        0xFFFF_FFFF,
    ];
    if r.chance(1, 8) {
        r.word()
    } else {
        r.pick(&known)
    }
}

/// Puts odd words into one to three places.
pub fn damage(r: &mut Random, words: &mut [u32]) {
    for _ in 0..r.pick(&[1, 1, 1, 2, 3]) {
        let spot = r.below(words.len() as u32) as usize;
        words[spot] = odd_word(r);
    }
}
