//! What the tests share: blocks, plan items and a board with its memory, written down briefly.
#![allow(dead_code)]

pub mod cells;
pub mod make;

use std::marker::PhantomData;
use twin::card::{Card, BOARD_WORDS, FRAME_WORDS, SETTINGS_WORDS};

/// Where things are in the words.
pub mod at {
    pub const VIDEO_CONTROL: usize = 0;
    pub const XDL_ADR: usize = 1;
    pub const BL_ADR: usize = 2;
    pub const P0: usize = 3;
    pub const IRQE: usize = 7;
    pub const IRQF: usize = 8;
    pub const LIST: usize = 9;
    pub const FLAGS: usize = 10;
    pub const CODE: usize = 11;
    pub const BLOCK: usize = 12;
    pub const ROW: usize = 33;
    pub const COLUMN: usize = 34;

    pub const MODE: usize = 0;
    pub const OVADR: usize = 1;
    pub const OVSTEP: usize = 2;
    pub const HSCROLL: usize = 3;
    pub const VSCROLL: usize = 4;
    pub const FONT: usize = 5;
    pub const TEXT: usize = 6;
    pub const MAP: usize = 7;
    pub const MAPADR: usize = 8;
    pub const MAPSTEP: usize = 9;
    pub const MAP_HSCROLL: usize = 10;
    pub const MAP_VSCROLL: usize = 11;
    pub const FIELD_WIDTH: usize = 12;
    pub const FIELD_HEIGHT: usize = 13;
    pub const FIELD: usize = 14;
    pub const WIDTH: usize = 15;
    pub const OV_PALETTE: usize = 16;
    pub const PF_PALETTE: usize = 17;
    pub const PRIORITY: usize = 18;
    pub const ORIGIN: usize = 19;

    pub const POSITION: usize = 20;
    pub const REPEAT: usize = 21;
    pub const LINE: usize = 22;
    pub const ENDED: usize = 23;
    pub const ON: usize = 24;
}

pub const OFF: u32 = 0;
pub const TEXT: u32 = 1;
pub const SR: u32 = 2;
pub const HR: u32 = 3;
pub const LR: u32 = 4;

/// The origin of a line where no record has been read in the frame.
pub const NO_RECORD: u32 = 524_288;

/// A block in the making.
#[derive(Clone, Copy)]
pub struct Bcb {
    pub source: u32,
    pub source_y: [u8; 2],
    pub source_x: u8,
    pub dest: u32,
    pub dest_y: [u8; 2],
    pub dest_x: u8,
    pub width: u32,
    pub height: u32,
    pub and: u8,
    pub xor: u8,
    pub collision: u8,
    pub zoom: u8,
    pub pattern: u8,
    pub control: u8,
}

/// One byte is copied from 0 to 0.
impl Default for Bcb {
    fn default() -> Bcb {
        Bcb {
            source: 0,
            source_y: [0, 0],
            source_x: 1,
            dest: 0,
            dest_y: [0, 0],
            dest_x: 1,
            width: 1,
            height: 1,
            and: 0xFF,
            xor: 0,
            collision: 0,
            zoom: 0,
            pattern: 0,
            control: 0,
        }
    }
}

impl Bcb {
    pub fn bytes(&self) -> [u8; 21] {
        let source = self.source.to_le_bytes();
        let dest = self.dest.to_le_bytes();
        let width = (self.width - 1).to_le_bytes();
        [
            source[0],
            source[1],
            source[2],
            self.source_y[0],
            self.source_y[1],
            self.source_x,
            dest[0],
            dest[1],
            dest[2],
            self.dest_y[0],
            self.dest_y[1],
            self.dest_x,
            width[0],
            width[1],
            (self.height - 1) as u8,
            self.and,
            self.xor,
            self.collision,
            self.zoom,
            self.pattern,
            self.control,
        ]
    }
}

/// A full band in the making, as a plan's item.
#[derive(Clone, Copy)]
pub struct Full {
    pub lines: u8,
    pub mode: u8,
    pub ovadr: u32,
    pub ovstep: u16,
    pub hscroll: u8,
    pub vscroll: u8,
    pub font: u8,
    pub map: u8,
    pub mapadr: u32,
    pub mapstep: u16,
    pub map_hscroll: u8,
    pub map_vscroll: u8,
    pub field_width: u8,
    pub field_height: u8,
    pub width: u8,
    pub palettes: u8,
    pub priority: u8,
}

impl Default for Full {
    fn default() -> Full {
        Full {
            lines: 1,
            mode: 0,
            ovadr: 0,
            ovstep: 0,
            hscroll: 0,
            vscroll: 0,
            font: 0,
            map: 0,
            mapadr: 0,
            mapstep: 0,
            map_hscroll: 0,
            map_vscroll: 0,
            field_width: 8,
            field_height: 8,
            width: 1,
            palettes: 1,
            priority: 255,
        }
    }
}

impl Full {
    pub fn bytes(&self) -> Vec<u8> {
        let mut item = vec![23, 0, 1, 0, self.lines, self.mode];
        item.extend(&self.ovadr.to_le_bytes()[..3]);
        item.extend(self.ovstep.to_le_bytes());
        item.extend([self.hscroll, self.vscroll, self.font, self.map]);
        item.extend(&self.mapadr.to_le_bytes()[..3]);
        item.extend(self.mapstep.to_le_bytes());
        item.extend([self.map_hscroll, self.map_vscroll]);
        item.extend([self.field_width, self.field_height]);
        item.extend([self.width, self.palettes, self.priority]);
        item
    }
}

/// A running-on item in the making.
#[derive(Clone, Copy)]
pub struct Running {
    pub lines: u8,
    pub hscroll: u8,
    pub vscroll: u8,
    pub font: u8,
    pub width: u8,
    pub palettes: u8,
    pub priority: u8,
}

impl Default for Running {
    fn default() -> Running {
        Running {
            lines: 1,
            hscroll: 0,
            vscroll: 0,
            font: 0,
            width: 1,
            palettes: 1,
            priority: 255,
        }
    }
}

impl Running {
    pub fn bytes(&self) -> Vec<u8> {
        vec![
            7,
            0,
            2,
            0,
            self.lines,
            self.hscroll,
            self.vscroll,
            self.font,
            self.width,
            self.palettes,
            self.priority,
        ]
    }
}

pub fn full() -> Vec<u8> {
    Full::default().bytes()
}

pub fn running() -> Vec<u8> {
    Running::default().bytes()
}

/// A board, its memory and a frame, behind any card.
pub struct Rig<C> {
    pub board: [u32; BOARD_WORDS],
    pub frame: [u32; FRAME_WORDS],
    pub mem: Vec<u8>,
    card: PhantomData<C>,
}

impl<C: Card> Rig<C> {
    pub fn new() -> Rig<C> {
        let mut board = [77; BOARD_WORDS];
        assert_eq!(C::new_board(&mut board), 0);
        Rig {
            board,
            frame: [77; FRAME_WORDS],
            mem: vec![0; 16_384],
            card: PhantomData,
        }
    }

    /// A list of blocks at `list`, started.
    pub fn with_list(list: u32, blocks: &[Bcb]) -> Rig<C> {
        let mut rig = Rig::new();
        let mut address = list;
        for block in blocks {
            rig.put(address, &block.bytes());
            address += 21;
        }
        rig.start_list(list);
        rig
    }

    /// A list of blocks at 0, started.
    pub fn with_blocks(blocks: &[Bcb]) -> Rig<C> {
        Rig::with_list(0, blocks)
    }

    /// BL_ADR.
    pub fn point_to(&mut self, list: u32) {
        let bytes = list.to_le_bytes();
        self.write(0x50, bytes[0]);
        self.write(0x51, bytes[1]);
        self.write(0x52, bytes[2]);
    }

    pub fn start_list(&mut self, list: u32) {
        self.point_to(list);
        self.write(0x53, 1);
    }

    pub fn put(&mut self, address: u32, bytes: &[u8]) {
        let mask = self.mem.len() - 1;
        for (offset, &byte) in bytes.iter().enumerate() {
            self.mem[(address as usize + offset) & mask] = byte;
        }
    }

    pub fn write(&mut self, offset: u32, value: u8) {
        assert_eq!(C::write(&mut self.board, offset, value), 0);
    }

    pub fn read(&self, offset: u32) -> u32 {
        let mut report = [999];
        assert_eq!(C::read(&self.board, offset, &mut report), 0);
        report[0]
    }

    pub fn reset(&mut self) {
        assert_eq!(C::reset(&mut self.board), 0);
    }

    /// Ticks done and accesses made.
    pub fn run(&mut self, budget: u32) -> (u32, u32) {
        let mut report = [999; 2];
        assert_eq!(
            C::run(&mut self.board, &mut self.mem, budget, &mut report),
            0
        );
        (report[0], report[1])
    }

    pub fn run_all(&mut self) -> (u32, u32) {
        self.run(1_000_000)
    }

    pub fn tick(&mut self) -> (u32, u32) {
        let mut report = [999; 2];
        assert_eq!(C::tick(&mut self.board, &mut self.mem, &mut report), 0);
        (report[0], report[1])
    }

    pub fn cells(&self, address: usize, count: usize) -> &[u8] {
        &self.mem[address..address + count]
    }

    /// A frame over an XDL that lies at 0.
    pub fn with_xdl(xdl: &[u8]) -> Rig<C> {
        Rig::with_xdl_at(0, xdl)
    }

    pub fn with_xdl_at(address: u32, xdl: &[u8]) -> Rig<C> {
        let mut rig = Rig::new();
        rig.put(address, xdl);
        rig.show(address);
        rig
    }

    /// A frame, switched on, whose list lies at an address.
    pub fn show(&mut self, address: u32) {
        let bytes = address.to_le_bytes();
        self.write(0x41, bytes[0]);
        self.write(0x42, bytes[1]);
        self.write(0x43, bytes[2]);
        self.write(0x40, 1);
        self.start();
    }

    pub fn start(&mut self) {
        assert_eq!(C::start(&self.board, &mut self.frame), 0);
    }

    pub fn line(&mut self) -> [u32; SETTINGS_WORDS] {
        let mut settings = [999; SETTINGS_WORDS];
        assert_eq!(C::next_line(&mut self.frame, &self.mem, &mut settings), 0);
        settings
    }

    pub fn lines(&mut self, count: usize) -> Vec<[u32; SETTINGS_WORDS]> {
        (0..count).map(|_| self.line()).collect()
    }

    /// Some words of each of the next lines.
    pub fn some(&mut self, count: usize, words: &[usize]) -> Vec<Vec<u32>> {
        self.lines(count)
            .iter()
            .map(|line| words.iter().map(|&word| line[word]).collect())
            .collect()
    }

    /// One word of each of the next lines.
    pub fn column(&mut self, count: usize, word: usize) -> Vec<u32> {
        self.lines(count).iter().map(|line| line[word]).collect()
    }

    /// A call's answer, with everything lent unchanged where it is a refusal.
    pub fn answer_run(&mut self, budget: u32) -> u32 {
        let (board, mem) = (self.board, self.mem.clone());
        let mut report = [999; 2];
        let answer = C::run(&mut self.board, &mut self.mem, budget, &mut report);
        if answer != 0 {
            assert_eq!((self.board, report), (board, [999; 2]));
            assert!(self.mem == mem);
        }
        answer
    }

    pub fn answer_tick(&mut self) -> u32 {
        let (board, mem) = (self.board, self.mem.clone());
        let mut report = [999; 2];
        let answer = C::tick(&mut self.board, &mut self.mem, &mut report);
        if answer != 0 {
            assert_eq!((self.board, report), (board, [999; 2]));
            assert!(self.mem == mem);
        }
        answer
    }

    pub fn answer_write(&mut self, offset: u32, value: u8) -> u32 {
        let board = self.board;
        let answer = C::write(&mut self.board, offset, value);
        if answer != 0 {
            assert_eq!(self.board, board);
        }
        answer
    }

    pub fn answer_read(&self, offset: u32) -> u32 {
        let mut report = [999];
        let answer = C::read(&self.board, offset, &mut report);
        if answer != 0 {
            assert_eq!(report, [999]);
        }
        answer
    }

    pub fn answer_reset(&mut self) -> u32 {
        let board = self.board;
        let answer = C::reset(&mut self.board);
        if answer != 0 {
            assert_eq!(self.board, board);
        }
        answer
    }

    pub fn answer_start(&mut self) -> u32 {
        let frame = self.frame;
        let answer = C::start(&self.board, &mut self.frame);
        if answer != 0 {
            assert_eq!(self.frame, frame);
        }
        answer
    }

    pub fn answer_line(&mut self) -> u32 {
        let frame = self.frame;
        let mut settings = [999; SETTINGS_WORDS];
        let answer = C::next_line(&mut self.frame, &self.mem, &mut settings);
        if answer != 0 {
            assert_eq!((self.frame, settings), (frame, [999; SETTINGS_WORDS]));
        }
        answer
    }

    /// The pixels of a line. Entries past them stay, and so does the report's second word.
    pub fn draw(&self, settings: &[u32]) -> Vec<u16> {
        let mut line = vec![UNDRAWN; 680];
        let mut report = [999; 2];
        assert_eq!(self.lend_line(settings, &mut line, &mut report), 0);
        assert_eq!(report[1], 999);
        let rest = line.split_off(report[0] as usize);
        assert!(rest.iter().all(|&entry| entry == UNDRAWN));
        line
    }

    /// The pixels of a line with VIDEO_CONTROL.
    pub fn draw_with(&mut self, video_control: u8, settings: &[u32]) -> Vec<u16> {
        self.write(0x40, video_control);
        self.draw(settings)
    }

    pub fn answer_draw(&self, settings: &[u32], entries: usize) -> u32 {
        let mut line = vec![UNDRAWN; entries];
        let mut report = [999];
        let answer = self.lend_line(settings, &mut line, &mut report);
        if answer != 0 {
            assert!(line.iter().all(|&entry| entry == UNDRAWN));
            assert_eq!(report, [999]);
        }
        answer
    }

    /// Draws to a lent line. Whatever the answer is, board, settings and memory stay.
    fn lend_line(&self, settings: &[u32], line: &mut [u16], report: &mut [u32]) -> u32 {
        let before = (self.board, settings.to_vec(), self.mem.clone());
        let answer = C::draw(&self.board, settings, &self.mem, line, report);
        assert_eq!((self.board, settings), (before.0, &before.1[..]));
        assert!(self.mem == before.2);
        answer
    }

    pub fn answer_install(&mut self, count: usize, address: u32) -> u32 {
        let mem = self.mem.clone();
        let answer = C::install(&mut self.mem, &vec![0xAB; count], address);
        if answer != 0 {
            assert!(self.mem == mem);
        }
        answer
    }
}

/// The settings of a line as at the top of the screen, but for its mode: width 1, palette 1.
pub fn line_in(mode: u32) -> [u32; SETTINGS_WORDS] {
    let mut settings = [0; SETTINGS_WORDS];
    settings[at::MODE] = mode;
    settings[at::FIELD_WIDTH] = 8;
    settings[at::FIELD_HEIGHT] = 8;
    settings[at::WIDTH] = 1;
    settings[at::OV_PALETTE] = 1;
    settings[at::PRIORITY] = 255;
    settings[at::ORIGIN] = NO_RECORD;
    settings
}

/// The pixel of a transparent colour.
pub const CLEAR: u16 = 65_535;

/// What a lent line holds before it is drawn to: no pixel is this.
pub const UNDRAWN: u16 = 7_777;

/// The XDL of a plan, or the refusal's number and item.
pub fn compile<C: Card>(plan: &[u8]) -> Result<Vec<u8>, (u32, u32)> {
    let mut out = vec![0xEE; 6_000];
    let length = compile_into::<C>(plan, &mut out)?;
    out.truncate(length as usize);
    Ok(out)
}

/// The number of bytes, or the refusal's number and item. A refusal writes nothing, a plan taken leaves the output's tail.
pub fn compile_into<C: Card>(plan: &[u8], out: &mut [u8]) -> Result<u32, (u32, u32)> {
    let before = out.to_vec();
    let mut report = [999];
    match C::compile(plan, out, &mut report) {
        0 => {
            let length = report[0] as usize;
            assert_eq!(out[length..], before[length..]);
            Ok(report[0])
        }
        answer => {
            assert_eq!((&*out, report), (&*before, [999]));
            Err((answer & 255, answer >> 8))
        }
    }
}
