//! The cells of a block's bytes: the addresses of the rules, read once more.

use std::collections::BTreeSet;

use super::make;

pub const BLOCK: usize = 21;

/// The cell of an address: 19 bits, then modulo the length of memory.
pub fn cell(address: i64, length: usize) -> usize {
    address.rem_euclid(524_288) as usize % length
}

/// The 21 bytes of memory from an address on.
pub fn block_at(mem: &[u8], address: u32) -> [u8; BLOCK] {
    std::array::from_fn(|number| mem[cell(i64::from(address) + number as i64, mem.len())])
}

/// The address of one side of a block, whose six bytes begin at `side`, so many steps in y and in x further on.
fn further(block: &[u8; BLOCK], side: usize, down: u32, along: u32) -> i64 {
    let byte = |at: usize| i64::from(block[side + at]);
    let start = byte(0) + (byte(1) << 8) + ((byte(2) & 7) << 16);
    let bits = byte(3) + ((byte(4) & 31) << 8);
    let step_y = if bits > 4_095 { bits - 8_192 } else { bits };
    let step_x = i64::from(block[side + 5] as i8);
    start + i64::from(down) * step_y + i64::from(along) * step_x
}

/// The address of a block's destination byte at a row and a column.
pub fn destination(block: &[u8; BLOCK], row: u32, column: u32) -> i64 {
    further(block, 6, row, column)
}

/// The address of its source byte: each is used for a whole zoomed pixel, and a pattern begins again after its width.
pub fn source(block: &[u8; BLOCK], row: u32, column: u32) -> i64 {
    let [width0, width1, zoom, pattern] = [12, 13, 18, 19].map(|at: usize| u32::from(block[at]));
    let repeats = if pattern & 0x80 != 0 {
        (pattern & 0x3F) + 1
    } else {
        width0 + 256 * (width1 & 1) + 1
    };
    further(
        block,
        0,
        row / ((zoom >> 4 & 7) + 1),
        column / ((zoom & 7) + 1) % repeats,
    )
}

/// The cells of an address, over all rows and columns.
fn each(
    block: &[u8; BLOCK],
    length: usize,
    address: fn(&[u8; BLOCK], u32, u32) -> i64,
) -> BTreeSet<usize> {
    let (rows, columns) = make::extents(block);
    (0..rows)
        .flat_map(|row| (0..columns).map(move |column| (row, column)))
        .map(|(row, column)| cell(address(block, row, column), length))
        .collect()
}

/// A block's destinations, written or not.
pub fn destinations(block: &[u8; BLOCK], length: usize) -> BTreeSet<usize> {
    each(block, length, destination)
}

/// What its source address points to, read or not.
pub fn pointed(block: &[u8; BLOCK], length: usize) -> BTreeSet<usize> {
    each(block, length, source)
}

/// The bytes that it reads: none with AND 0, and none in mode 7.
pub fn sources(block: &[u8; BLOCK], length: usize) -> BTreeSet<usize> {
    if block[15] == 0 || block[20] & 7 == 7 {
        return BTreeSet::new();
    }
    pointed(block, length)
}

/// The bytes of a list of so many blocks.
pub fn list_cells(list: u32, blocks: usize, length: usize) -> BTreeSet<usize> {
    (0..BLOCK * blocks)
        .map(|number| cell(i64::from(list) + number as i64, length))
        .collect()
}
