use super::Video;
use std::ops::{AddAssign, DerefMut};

/// The bytes of a block.
pub const BLOCK_BYTES: usize = 21;

/// What was done: ticks, and accesses to video memory.
#[derive(Clone, Copy, Debug, Default, PartialEq, Eq)]
pub struct Report {
    pub ticks: u32,
    pub accesses: u32,
}

impl AddAssign for Report {
    fn add_assign(&mut self, more: Report) {
        self.ticks += more.ticks;
        self.accesses += more.accesses;
    }
}

/// Where the source or the destination lies, and how it is stepped through.
#[derive(Clone, Copy, Debug, PartialEq, Eq)]
struct Area {
    address: u32,
    step_x: i32,
    step_y: i32,
}

impl Area {
    /// From address (3 bytes), step y (2) and step x (1).
    fn decode(bytes: &[u8]) -> Area {
        Area {
            address: u32::from_le_bytes([bytes[0], bytes[1], bytes[2] & 7, 0]),
            step_y: step_y(bytes[3], bytes[4]),
            step_x: i32::from(bytes[5] as i8),
        }
    }

    fn at(&self, row: u32, column: u32) -> u32 {
        let steps = row as i32 * self.step_y + column as i32 * self.step_x;
        self.address.wrapping_add_signed(steps)
    }
}

/// A step in y: 13 bits with sign.
fn step_y(low: u8, high: u8) -> i32 {
    let bits = i32::from(u16::from_le_bytes([low, high & 0x1F]));
    (bits << 19) >> 19
}

/// A block, decoded. Its bytes are kept too, unused bits and all.
#[derive(Clone, Copy, Debug, PartialEq, Eq)]
pub struct Block {
    bytes: [u8; BLOCK_BYTES],
    source: Area,
    dest: Area,
    /// Destination bytes in a row, and rows: zoom included.
    columns: u32,
    rows: u32,
    zoom_x: u32,
    zoom_y: u32,
    /// Source bytes before the row's first comes again.
    pattern: u32,
    and_mask: u8,
    xor_mask: u8,
    collision_mask: u8,
    mode: u8,
    next: bool,
}

impl Block {
    pub fn decode(bytes: [u8; BLOCK_BYTES]) -> Block {
        let width = u32::from(bytes[12]) + (u32::from(bytes[13] & 1) << 8) + 1;
        let height = u32::from(bytes[14]) + 1;
        let zoom_x = u32::from(bytes[18] & 7) + 1;
        let zoom_y = u32::from(bytes[18] >> 4 & 7) + 1;
        let in_use = bytes[19] & 0x80 != 0;
        Block {
            bytes,
            source: Area::decode(&bytes[0..6]),
            dest: Area::decode(&bytes[6..12]),
            columns: width * zoom_x,
            rows: height * zoom_y,
            zoom_x,
            zoom_y,
            pattern: if in_use {
                u32::from(bytes[19] & 0x3F) + 1
            } else {
                width
            },
            and_mask: bytes[15],
            xor_mask: bytes[16],
            collision_mask: bytes[17],
            mode: bytes[20] & 7,
            next: bytes[20] & 8 != 0,
        }
    }

    pub fn bytes(&self) -> [u8; BLOCK_BYTES] {
        self.bytes
    }

    pub fn columns(&self) -> u32 {
        self.columns
    }

    pub fn rows(&self) -> u32 {
        self.rows
    }

    /// Whether another block follows.
    pub fn next(&self) -> bool {
        self.next
    }

    /// Modes 1 to 5: each mask bit stands for 32 colours, and 0 never collides.
    #[inline]
    fn collides(&self, dest: u8) -> bool {
        dest != 0 && self.collision_mask >> (dest / 32) & 1 != 0
    }

    /// Mode 6: the nibbles that collide, as a mask over the byte. Each mask bit stands for two colours.
    #[inline]
    fn colliding_nibbles(&self, source: u8, dest: u8) -> u8 {
        let low = self.collision_mask >> (dest % 16 / 2) & 1;
        let high = self.collision_mask >> (dest / 16 / 2) & 1;
        ((low * 0x0F) | (high * 0xF0)) & opaque_nibbles(source) & opaque_nibbles(dest)
    }

    /// One destination byte in a mode below 7; the destination accesses.
    #[inline(always)]
    fn put<const MODE: u8>(&self, source: u8, cell: &mut u8, code: &mut u8) -> u32 {
        if MODE == 0 {
            *cell = source;
            return 1;
        }
        if source == 0 && MODE != 4 && MODE != 5 {
            return 0;
        }
        let dest = *cell;
        if MODE == 6 {
            let hit = self.colliding_nibbles(source, dest);
            *code = *code & !hit | dest & hit;
        } else if source != 0 && self.collides(dest) {
            *code = dest;
        }
        *cell = match MODE {
            1 => source,
            2 => dest.wrapping_add(source),
            3 => dest | source,
            4 => dest & source,
            5 => dest ^ source,
            _ => dest & !opaque_nibbles(source) | source,
        };
        if MODE == 1 && self.collision_mask == 0 {
            1
        } else {
            2
        }
    }
}

/// The nibbles of a byte that are not 0, as a mask over the byte.
#[inline]
fn opaque_nibbles(byte: u8) -> u8 {
    (if byte & 0x0F != 0 { 0x0F } else { 0 }) | (if byte & 0xF0 != 0 { 0xF0 } else { 0 })
}

/// A block under way: the next destination byte is at `row` and `column`.
#[derive(Clone, Copy, Debug, PartialEq, Eq)]
pub struct Job {
    block: Block,
    row: u32,
    column: u32,
}

impl Job {
    pub fn new(block: Block) -> Job {
        Job {
            block,
            row: 0,
            column: 0,
        }
    }

    /// A job that stands somewhere inside its block, or none.
    pub fn at(block: Block, row: u32, column: u32) -> Option<Job> {
        (row < block.rows && column < block.columns).then_some(Job { block, row, column })
    }

    pub fn block(&self) -> &Block {
        &self.block
    }

    pub fn row(&self) -> u32 {
        self.row
    }

    pub fn column(&self) -> u32 {
        self.column
    }

    pub fn is_done(&self) -> bool {
        self.row == self.block.rows
    }

    /// Does byte ticks until `budget` is used or the block is done.
    pub fn work<B>(&mut self, video: &mut Video<B>, code: &mut u8, budget: u32) -> Report
    where
        B: DerefMut<Target = [u8]>,
    {
        match self.block.mode {
            0 => self.work_in::<0, B>(video, code, budget),
            1 => self.work_in::<1, B>(video, code, budget),
            2 => self.work_in::<2, B>(video, code, budget),
            3 => self.work_in::<3, B>(video, code, budget),
            4 => self.work_in::<4, B>(video, code, budget),
            5 => self.work_in::<5, B>(video, code, budget),
            6 => self.work_in::<6, B>(video, code, budget),
            _ => self.work_in::<7, B>(video, code, budget),
        }
    }

    fn work_in<const MODE: u8, B>(
        &mut self,
        video: &mut Video<B>,
        code: &mut u8,
        budget: u32,
    ) -> Report
    where
        B: DerefMut<Target = [u8]>,
    {
        let block = self.block;
        let mut done = Report::default();
        // Where the row begins, and how often its source row was shown already.
        let mut dest_row = block.dest.at(self.row, 0);
        let mut source_row = block.source.at(self.row / block.zoom_y, 0);
        let mut shown = self.row % block.zoom_y;
        while done.ticks < budget && !self.is_done() {
            let count = (block.columns - self.column).min(budget - done.ticks);
            // Mode 7 takes its time and touches nothing.
            if MODE != 7 {
                done.accesses += self.span::<MODE, B>(video, code, source_row, dest_row, count);
            }
            done.ticks += count;
            self.column += count;
            if self.column == block.columns {
                self.column = 0;
                self.row += 1;
                dest_row = dest_row.wrapping_add_signed(block.dest.step_y);
                shown += 1;
                if shown == block.zoom_y {
                    shown = 0;
                    source_row = source_row.wrapping_add_signed(block.source.step_y);
                }
            }
        }
        done
    }

    /// The next `count` bytes of the row; their accesses. The position stays.
    fn span<const MODE: u8, B>(
        &self,
        video: &mut Video<B>,
        code: &mut u8,
        source_row: u32,
        dest_row: u32,
        count: u32,
    ) -> u32
    where
        B: DerefMut<Target = [u8]>,
    {
        let block = &self.block;
        // The byte of the pattern that is shown, and how often it was shown already.
        let (mut byte, mut shown) = match self.column {
            0 => (0, 0),
            column => (column / block.zoom_x % block.pattern, column % block.zoom_x),
        };
        let mut source = source_row.wrapping_add_signed(byte as i32 * block.source.step_x);
        let mut dest = dest_row.wrapping_add_signed(self.column as i32 * block.dest.step_x);
        let constant = block.and_mask == 0;
        let mut accesses = if constant { 0 } else { count };
        let mut collision = *code;
        for _ in 0..count {
            let fetched = if constant { 0 } else { video.read(source) };
            let value = fetched & block.and_mask ^ block.xor_mask;
            accesses += block.put::<MODE>(value, video.cell(dest), &mut collision);
            dest = dest.wrapping_add_signed(block.dest.step_x);
            shown += 1;
            if shown == block.zoom_x {
                shown = 0;
                byte += 1;
                source = source.wrapping_add_signed(block.source.step_x);
                if byte == block.pattern {
                    byte = 0;
                    source = source_row;
                }
            }
        }
        *code = collision;
        accesses
    }
}
