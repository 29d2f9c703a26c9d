use super::frame::control::*;
use super::{Mode, Refusal, Refused, Settings, Video, ADDRESSES, ADDRESS_MASK, LINES};
use std::ops::DerefMut;

/// No more bytes are installed at once.
pub const MAX_INSTALL: usize = 5_280;

const HEADER_BYTES: usize = 4;

/// A full band's body. Its address and step pairs lie as in an XDL.
mod full {
    pub const KIND: u16 = 1;
    pub const BYTES: usize = 23;
    pub const RECORD_BYTES: usize = 22;
    pub const LINES: usize = 0;
    pub const MODE: usize = 1;
    pub const OVADR: usize = 2;
    pub const OVSTEP: usize = 5;
    pub const HSCROLL: usize = 7;
    pub const VSCROLL: usize = 8;
    pub const FONT: usize = 9;
    pub const MAP: usize = 10;
    pub const MAPADR: usize = 11;
    pub const MAPSTEP: usize = 14;
    pub const MAP_HSCROLL: usize = 16;
    pub const MAP_VSCROLL: usize = 17;
    pub const FIELD_WIDTH: usize = 18;
    pub const FIELD_HEIGHT: usize = 19;
    pub const WIDTH: usize = 20;
    pub const PALETTES: usize = 21;
    pub const PRIORITY: usize = 22;
}

/// The body of an item that runs on.
mod running {
    pub const KIND: u16 = 2;
    pub const BYTES: usize = 7;
    pub const RECORD_BYTES: usize = 8;
}

type FullBody = [u8; full::BYTES];
type RunningBody = [u8; running::BYTES];

/// An item of a plan: a body whose fields are all in range.
#[derive(Clone, Copy, Debug, PartialEq, Eq)]
pub enum Item<'a> {
    Full(&'a FullBody),
    Running(&'a RunningBody),
}

/// What every item sets anew.
#[derive(Clone, Copy)]
struct Look {
    hscroll: u8,
    vscroll: u8,
    font: u8,
    width: u8,
    palettes: u8,
    priority: u8,
}

impl Look {
    fn in_range(&self) -> bool {
        self.hscroll < 8 && self.vscroll < 8 && self.width < 3 && self.palettes < 16
    }

    /// The first byte of OVATT.
    fn attributes(&self) -> u8 {
        self.width | self.palettes << 4
    }
}

impl<'a> Item<'a> {
    pub fn lines(self) -> u8 {
        match self {
            Item::Full(body) => body[full::LINES],
            Item::Running(body) => body[0],
        }
    }

    fn look(self) -> Look {
        match self {
            Item::Full(body) => Look {
                hscroll: body[full::HSCROLL],
                vscroll: body[full::VSCROLL],
                font: body[full::FONT],
                width: body[full::WIDTH],
                palettes: body[full::PALETTES],
                priority: body[full::PRIORITY],
            },
            Item::Running(&[_, hscroll, vscroll, font, width, palettes, priority]) => Look {
                hscroll,
                vscroll,
                font,
                width,
                palettes,
                priority,
            },
        }
    }

    fn in_range(self) -> bool {
        let own = match self {
            Item::Full(body) => {
                body[full::MODE] <= 4
                    && address(body, full::OVADR) < ADDRESSES
                    && step(body, full::OVSTEP) < 4_096
                    && body[full::MAP] <= 1
                    && address(body, full::MAPADR) < ADDRESSES
                    && step(body, full::MAPSTEP) < 4_096
                    && body[full::MAP_HSCROLL] < 32
                    && body[full::MAP_VSCROLL] < 32
                    && (8..=32).contains(&body[full::FIELD_WIDTH])
                    && (1..=32).contains(&body[full::FIELD_HEIGHT])
            }
            Item::Running(_) => true,
        };
        own && (1..=LINES).contains(&self.lines()) && self.look().in_range()
    }

    /// The bytes of the item's record in an XDL.
    fn record_bytes(self) -> u32 {
        let bytes = match self {
            Item::Full(_) => full::RECORD_BYTES,
            Item::Running(_) => running::RECORD_BYTES,
        };
        bytes as u32
    }

    /// Puts the item's record behind those in `xdl`, not marked as the last.
    fn encode(self, xdl: &mut Vec<u8>) {
        let repeat = self.lines() - 1;
        let look = self.look();
        match self {
            Item::Full(body) => {
                let mut record = [0; full::RECORD_BYTES];
                record[0..2].copy_from_slice(&full_control(body).to_le_bytes());
                record[2] = repeat;
                record[3..11].copy_from_slice(&body[full::OVADR..full::MAP]);
                record[11..18].copy_from_slice(&body[full::MAPADR..full::FIELD_WIDTH]);
                record[18] = body[full::FIELD_WIDTH] - 1;
                record[19] = body[full::FIELD_HEIGHT] - 1;
                record[20] = look.attributes();
                record[21] = look.priority;
                xdl.extend_from_slice(&record);
            }
            Item::Running(_) => {
                let [low, high] = (RPTL | OVSCRL | CHBASE | OVATT).to_le_bytes();
                let record: [u8; running::RECORD_BYTES] = [
                    low,
                    high,
                    repeat,
                    look.hscroll,
                    look.vscroll,
                    look.font,
                    look.attributes(),
                    look.priority,
                ];
                xdl.extend_from_slice(&record);
            }
        }
    }
}

fn address(body: &FullBody, at: usize) -> u32 {
    u32::from_le_bytes([body[at], body[at + 1], body[at + 2], 0])
}

fn step(body: &FullBody, at: usize) -> u16 {
    u16::from_le_bytes([body[at], body[at + 1]])
}

/// The control bytes of a full band: all seven groups of data, and the switches.
fn full_control(body: &FullBody) -> u16 {
    let overlay = match body[full::MODE] {
        0 => OVOFF,
        1 => TMON,
        2 => GMON,
        3 => GMON | HR,
        _ => GMON | LR,
    };
    let map = if body[full::MAP] == 1 { MAPON } else { MAPOFF };
    overlay | map | RPTL | OVADR | OVSCRL | CHBASE | MAPADR | MAPPAR | OVATT
}

/// The items of a plan one by one, up to the first that is refused.
struct Items<'a> {
    rest: &'a [u8],
    number: u32,
    lines: u32,
}

impl<'a> Items<'a> {
    fn of(plan: &'a [u8]) -> Result<Items<'a>, Refused> {
        if plan.is_empty() {
            return Err(Refusal::NoBand.into());
        }
        Ok(Items {
            rest: plan,
            number: 0,
            lines: 0,
        })
    }

    fn take_item(&mut self) -> Result<Item<'a>, Refusal> {
        let (&[len0, len1, kind0, kind1], rest) = self
            .rest
            .split_first_chunk::<HEADER_BYTES>()
            .ok_or(Refusal::PlanCut)?;
        let length = usize::from(u16::from_le_bytes([len0, len1]));
        let (item, rest) = match u16::from_le_bytes([kind0, kind1]) {
            full::KIND => {
                let (body, rest) = take_body(length, rest)?;
                (Item::Full(body), rest)
            }
            running::KIND => {
                let (body, rest) = take_body(length, rest)?;
                if self.number == 0 {
                    return Err(Refusal::First);
                }
                (Item::Running(body), rest)
            }
            _ => return Err(Refusal::Kind),
        };
        if !item.in_range() {
            return Err(Refusal::Field);
        }
        self.lines += u32::from(item.lines());
        if self.lines > u32::from(LINES) {
            return Err(Refusal::Lines);
        }
        self.number += 1;
        self.rest = rest;
        Ok(item)
    }
}

/// The body, if its length is the kind's and all of it is there; what is behind it.
fn take_body<const N: usize>(length: usize, bytes: &[u8]) -> Result<(&[u8; N], &[u8]), Refusal> {
    if length != N {
        return Err(Refusal::Length);
    }
    bytes.split_first_chunk().ok_or(Refusal::PlanCut)
}

impl<'a> Iterator for Items<'a> {
    type Item = Result<Item<'a>, Refused>;

    fn next(&mut self) -> Option<Self::Item> {
        if self.rest.is_empty() {
            return None;
        }
        let item = self.take_item();
        Some(item.map_err(|why| why.at(self.number)))
    }
}

/// The XDL of a plan.
pub fn xdl(plan: &[u8]) -> Result<Vec<u8>, Refused> {
    let mut xdl = Vec::with_capacity(MAX_INSTALL);
    let mut last = 0;
    for item in Items::of(plan)? {
        last = xdl.len();
        item?.encode(&mut xdl);
    }
    let [_, end] = END.to_le_bytes();
    xdl[last + 1] |= end;
    Ok(xdl)
}

/// Writes bytes into video memory.
pub fn install<B>(video: &mut Video<B>, list: &[u8], address: u32) -> Result<(), Refusal>
where
    B: DerefMut<Target = [u8]>,
{
    if address >= ADDRESSES {
        return Err(Refusal::Address);
    }
    if list.len() > MAX_INSTALL {
        return Err(Refusal::Room);
    }
    for (at, &byte) in (address..).zip(list) {
        *video.cell(at) = byte;
    }
    Ok(())
}

/// What each of the 240 lines has when the plan is installed at an address of 19 bits, from the meaning of plans alone:
/// no XDL is made or read.
pub fn meaning(plan: &[u8], address: u32) -> Result<Vec<Settings>, Refused> {
    let mut next_record = address;
    let mut lines = Vec::with_capacity(usize::from(LINES));
    let mut band = None;
    let mut below = 0;
    let mut held = Settings::default();
    for item in Items::of(plan)? {
        let item = item?;
        let origin = next_record;
        next_record = (origin + item.record_bytes()) & ADDRESS_MASK;
        if let Item::Full(body) = item {
            band = Some(body);
            below = 0;
        }
        let band = band.expect("the first item is a full band");
        for _ in 0..item.lines() {
            lines.push(line_of(band, below, item.look(), origin));
            below += 1;
        }
        held = line_of(band, below, item.look(), origin);
    }
    held.mode = Mode::Off;
    held.map = false;
    lines.resize(usize::from(LINES), held);
    Ok(lines)
}

/// The whole rows in a number of lines, and the lines left over.
fn rows(lines: u32, height: u32) -> (u32, u32) {
    (lines / height, lines % height)
}

/// The line that is `below` lines below the first of a full band, in an item whose record lies at `origin`.
fn line_of(band: &FullBody, below: u32, look: Look, origin: u32) -> Settings {
    let mode = Mode::from_number(band[full::MODE].into()).expect("the mode is in range");
    let map = band[full::MAP] == 1;
    let field_height = band[full::FIELD_HEIGHT];
    // The counters start at the full band's own scrolls; those of an item that runs on don't move them.
    let start = u32::from(band[full::VSCROLL]);
    let (overlay_steps, text_counter) = match mode {
        Mode::Off => (0, start),
        Mode::Text => rows(start + below, 8),
        Mode::Sr | Mode::Hr | Mode::Lr => (below, start),
    };
    let height = u32::from(field_height);
    let start = u32::from(band[full::MAP_VSCROLL]) % height;
    let (map_steps, field_counter) = if map {
        rows(start + below, height)
    } else {
        (0, start)
    };
    let moved =
        |address: u32, steps: u32, step: u16| (address + steps * u32::from(step)) & ADDRESS_MASK;
    let overlay_step = step(band, full::OVSTEP);
    let map_step = step(band, full::MAPSTEP);
    Settings {
        mode,
        overlay_address: moved(address(band, full::OVADR), overlay_steps, overlay_step),
        overlay_step,
        hscroll: look.hscroll,
        vscroll: look.vscroll,
        font: look.font,
        text_counter: text_counter as u8,
        map,
        map_address: moved(address(band, full::MAPADR), map_steps, map_step),
        map_step,
        map_hscroll: band[full::MAP_HSCROLL],
        map_vscroll: band[full::MAP_VSCROLL],
        field_width: band[full::FIELD_WIDTH],
        field_height,
        field_counter: field_counter as u8,
        width: look.width,
        overlay_palette: look.palettes & 3,
        playfield_palette: look.palettes >> 2,
        priority: look.priority,
        origin,
    }
}
