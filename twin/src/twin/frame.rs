use super::{Refusal, Video, ADDRESSES, ADDRESS_MASK};
use std::ops::Deref;

/// The lines of a frame.
pub const LINES: u8 = 240;

/// The origin of a line for which no record has been read in the frame: the first number that is no address.
pub const NO_RECORD: u32 = ADDRESSES;

/// What the overlay shows. The values are those of the words and of plans.
#[derive(Clone, Copy, Debug, Default, PartialEq, Eq)]
#[repr(u8)]
pub enum Mode {
    #[default]
    Off = 0,
    Text = 1,
    Sr = 2,
    Hr = 3,
    Lr = 4,
}

impl Mode {
    pub fn from_number(number: u32) -> Option<Mode> {
        [Mode::Off, Mode::Text, Mode::Sr, Mode::Hr, Mode::Lr]
            .get(number as usize)
            .copied()
    }

    pub fn number(self) -> u8 {
        self as u8
    }
}

/// The settings of a line.
#[derive(Clone, Copy, Debug, PartialEq, Eq)]
pub struct Settings {
    pub mode: Mode,
    pub overlay_address: u32,
    pub overlay_step: u16,
    pub hscroll: u8,
    pub vscroll: u8,
    pub font: u8,
    pub text_counter: u8,
    pub map: bool,
    pub map_address: u32,
    pub map_step: u16,
    pub map_hscroll: u8,
    pub map_vscroll: u8,
    pub field_width: u8,
    pub field_height: u8,
    pub field_counter: u8,
    pub width: u8,
    pub overlay_palette: u8,
    pub playfield_palette: u8,
    pub priority: u8,
    /// The address of the record that was last read, its first control byte's, or [`NO_RECORD`].
    pub origin: u32,
}

/// The settings at the top of the screen.
impl Default for Settings {
    fn default() -> Settings {
        Settings {
            mode: Mode::Off,
            overlay_address: 0,
            overlay_step: 0,
            hscroll: 0,
            vscroll: 0,
            font: 0,
            text_counter: 0,
            map: false,
            map_address: 0,
            map_step: 0,
            map_hscroll: 0,
            map_vscroll: 0,
            field_width: 8,
            field_height: 8,
            field_counter: 0,
            width: 1,
            overlay_palette: 1,
            playfield_palette: 0,
            priority: 255,
            origin: NO_RECORD,
        }
    }
}

impl Settings {
    /// The settings but for the record that they are from: what two lists can have in common.
    pub fn but_for_origin(self) -> Settings {
        Settings {
            origin: NO_RECORD,
            ..self
        }
    }

    /// What a record with these control bits does to the counters. One that is reset starts at its scroll, so this comes
    /// after the record's own scrolls and height.
    fn reset_counters(&mut self, bits: u16) {
        use control::*;

        if bits & (TMON | GMON | OVOFF) == TMON || bits & OVADR != 0 {
            self.text_counter = self.vscroll;
        }
        if bits & (MAPADR | MAPPAR) != 0 {
            self.field_counter = self.map_vscroll % self.field_height;
        }
    }

    /// From one line to the next.
    fn advance(&mut self) {
        match self.mode {
            Mode::Off => {}
            Mode::Text => {
                self.text_counter += 1;
                if self.text_counter == 8 {
                    self.text_counter = 0;
                    self.step_overlay();
                }
            }
            Mode::Sr | Mode::Hr | Mode::Lr => self.step_overlay(),
        }
        if self.map {
            self.field_counter += 1;
            if self.field_counter == self.field_height {
                self.field_counter = 0;
                self.map_address = (self.map_address + u32::from(self.map_step)) & ADDRESS_MASK;
            }
        }
    }

    fn step_overlay(&mut self) {
        self.overlay_address = (self.overlay_address + u32::from(self.overlay_step)) & ADDRESS_MASK;
    }
}

/// The bits of a record's two control bytes, the first byte low.
pub(super) mod control {
    pub const TMON: u16 = 1;
    pub const GMON: u16 = 1 << 1;
    pub const OVOFF: u16 = 1 << 2;
    pub const MAPON: u16 = 1 << 3;
    pub const MAPOFF: u16 = 1 << 4;
    pub const RPTL: u16 = 1 << 5;
    pub const OVADR: u16 = 1 << 6;
    pub const OVSCRL: u16 = 1 << 7;
    pub const CHBASE: u16 = 1 << 8;
    pub const MAPADR: u16 = 1 << 9;
    pub const MAPPAR: u16 = 1 << 10;
    pub const OVATT: u16 = 1 << 11;
    pub const HR: u16 = 1 << 12;
    pub const LR: u16 = 1 << 13;
    pub const END: u16 = 1 << 15;
}

/// A frame on its way down the screen.
#[derive(Clone, Debug, PartialEq, Eq)]
pub struct Frame {
    pub(super) settings: Settings,
    pub(super) list: u32,
    pub(super) repeat: u8,
    /// The lines given so far.
    pub(super) line: u8,
    pub(super) ended: bool,
    pub(super) on: bool,
}

impl Frame {
    pub(super) fn new(list: u32, on: bool) -> Frame {
        Frame {
            settings: Settings::default(),
            list,
            repeat: 0,
            line: 0,
            ended: false,
            on,
        }
    }

    /// The settings of the next line; the frame goes on behind it.
    pub fn next_line<B>(&mut self, video: &Video<B>) -> Result<Settings, Refusal>
    where
        B: Deref<Target = [u8]>,
    {
        if self.line >= LINES {
            return Err(Refusal::FrameOver);
        }
        self.line += 1;
        if !self.on {
            return Ok(Settings::default());
        }
        if self.repeat > 0 {
            self.repeat -= 1;
        } else if self.ended {
            self.settings.mode = Mode::Off;
            self.settings.map = false;
        } else {
            self.read_record(video);
        }
        let shown = self.settings;
        self.settings.advance();
        Ok(shown)
    }

    fn read_record<B>(&mut self, video: &Video<B>)
    where
        B: Deref<Target = [u8]>,
    {
        use control::*;

        self.settings.origin = self.list;
        let list = &mut self.list;
        let mut fetch = || {
            let byte = video.read(*list);
            *list = (*list + 1) & ADDRESS_MASK;
            byte
        };
        let now = &mut self.settings;

        let bits = u16::from_le_bytes([fetch(), fetch()]);
        match bits & (TMON | GMON | OVOFF) {
            0 => {}
            TMON => now.mode = Mode::Text,
            GMON => {
                now.mode = match bits & (HR | LR) {
                    0 => Mode::Sr,
                    HR => Mode::Hr,
                    LR => Mode::Lr,
                    _ => Mode::Off,
                }
            }
            _ => now.mode = Mode::Off,
        }
        match bits & (MAPON | MAPOFF) {
            0 => {}
            MAPON => now.map = true,
            _ => now.map = false,
        }
        self.repeat = if bits & RPTL != 0 { fetch() } else { 0 };
        if bits & OVADR != 0 {
            now.overlay_address = u32::from_le_bytes([fetch(), fetch(), fetch() & 7, 0]);
            now.overlay_step = u16::from_le_bytes([fetch(), fetch() & 0x0F]);
        }
        if bits & OVSCRL != 0 {
            now.hscroll = fetch() & 7;
            now.vscroll = fetch() & 7;
        }
        if bits & CHBASE != 0 {
            now.font = fetch();
        }
        if bits & MAPADR != 0 {
            now.map_address = u32::from_le_bytes([fetch(), fetch(), fetch() & 7, 0]);
            now.map_step = u16::from_le_bytes([fetch(), fetch() & 0x0F]);
        }
        if bits & MAPPAR != 0 {
            now.map_hscroll = fetch() & 31;
            now.map_vscroll = fetch() & 31;
            now.field_width = ((fetch() & 31) + 1).max(8);
            now.field_height = (fetch() & 31) + 1;
        }
        if bits & OVATT != 0 {
            let look = fetch();
            now.width = match look & 3 {
                3 => 1,
                width => width,
            };
            now.overlay_palette = look >> 4 & 3;
            now.playfield_palette = look >> 6;
            now.priority = fetch();
        }
        now.reset_counters(bits);
        self.ended = bits & END != 0;
    }
}
