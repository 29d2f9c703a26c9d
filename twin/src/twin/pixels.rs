//! One line of the overlay as pixels.

use super::{Board, Mode, Settings, Video};
use std::ops::Deref;

/// The pixel of a transparent colour.
pub const TRANSPARENT: u16 = 65_535;
/// The pixels of the longest line.
pub const MAX_PIXELS: usize = 672;

/// The bits of VIDEO_CONTROL that decide about colours.
mod video_control {
    pub const NO_TRANS: u8 = 1 << 2;
    pub const TRANS15: u8 = 1 << 3;
}

/// A font begins at a multiple of this.
const FONT_BYTES: u32 = 2_048;
/// The columns of a character, and its bytes in the font: one a line, bit 7 on the left.
const CHARACTER: usize = 8;
/// The characters of the longest line, and the one that a scroll adds.
const MAX_CHARACTERS: usize = MAX_PIXELS / CHARACTER + 1;
/// The background of an attribute that has none, where nothing is transparent.
const PLAIN_BACKGROUND: u8 = 128;

/// For each byte of the font and each column, all bits or none: which pixels of a character are set.
static SET_PIXELS: [[u16; CHARACTER]; 256] = set_pixels();

const fn set_pixels() -> [[u16; CHARACTER]; 256] {
    let mut masks = [[0; CHARACTER]; 256];
    let mut entry = 0;
    while entry < 256 * CHARACTER {
        let (byte, column) = (entry / CHARACTER, entry % CHARACTER);
        if byte & 0x80 >> column != 0 {
            masks[byte][column] = u16::MAX;
        }
        entry += 1;
    }
    masks
}

/// What is transparent: paragraphs I, II and III of the manual's "Transparent Overlay colours". In text the background of
/// an attribute below 128 takes the place of the colour 0.
#[derive(Clone, Copy, PartialEq, Eq)]
enum Transparent {
    Nothing,
    Zero,
    ZeroAndFifteen,
}

impl Transparent {
    fn from_control(video_control: u8) -> Transparent {
        use video_control::*;

        match video_control & (NO_TRANS | TRANS15) {
            0 => Transparent::Zero,
            TRANS15 => Transparent::ZeroAndFifteen,
            _ => Transparent::Nothing,
        }
    }
}

/// Whether a colour has an index $HF, in HR $F.
#[inline]
fn is_fifteen(colour: u8) -> bool {
    colour & 0x0F == 0x0F
}

impl Settings {
    /// The pixels of the line: LR has half as many as SR, HR and text have twice as many.
    pub fn pixels(&self) -> usize {
        let standard = match self.width {
            0 => 256,
            1 => 320,
            _ => 336,
        };
        match self.mode {
            Mode::Off => 0,
            Mode::Lr => standard / 2,
            Mode::Sr => standard,
            Mode::Hr | Mode::Text => standard * 2,
        }
    }

    /// The XDL's palette, in its place above the colour. With the map on it is the XDL's too.
    fn palette(&self) -> u16 {
        u16::from(self.overlay_palette) << 8
    }
}

impl Board {
    /// Draws a line, which has an entry for each of its pixels. Of the board VIDEO_CONTROL counts, as it is now.
    pub fn draw<B>(&self, settings: &Settings, video: &Video<B>, line: &mut [u16])
    where
        B: Deref<Target = [u8]>,
    {
        let transparent = Transparent::from_control(self.video_control);
        match settings.mode {
            Mode::Off => {}
            Mode::Text => draw_text(settings, video, line, transparent),
            // The test of a colour is chosen here, so that each has loops of its own.
            Mode::Sr | Mode::Hr | Mode::Lr => match transparent {
                Transparent::Nothing => draw_colours(settings, video, line, |_| false),
                Transparent::Zero => draw_colours(settings, video, line, |colour| colour == 0),
                Transparent::ZeroAndFifteen => draw_colours(settings, video, line, |colour| {
                    colour == 0 || is_fifteen(colour)
                }),
            },
        }
    }
}

/// A line of a pixel mode. It does not scroll.
fn draw_colours<B>(
    settings: &Settings,
    video: &Video<B>,
    line: &mut [u16],
    transparent: impl Fn(u8) -> bool,
) where
    B: Deref<Target = [u8]>,
{
    let palette = settings.palette();
    let paint = |part: &mut [u16], colours: &[u8]| {
        for (pixel, &colour) in part.iter_mut().zip(colours) {
            *pixel = if transparent(colour) {
                TRANSPARENT
            } else {
                palette | u16::from(colour)
            };
        }
    };
    if settings.mode == Mode::Hr {
        let (upper, lower) = video.bytes(settings.overlay_address, line.len() / 2);
        let mut colours = [0; MAX_PIXELS];
        let (left, right) = colours.split_at_mut(2 * upper.len());
        split_nibbles(left, upper);
        split_nibbles(right, lower);
        paint(line, &colours);
    } else {
        let (upper, lower) = video.bytes(settings.overlay_address, line.len());
        let (left, right) = line.split_at_mut(upper.len());
        paint(left, upper);
        paint(right, lower);
    }
}

/// The colours of HR. The high nibble is the left pixel.
fn split_nibbles(colours: &mut [u8], bytes: &[u8]) {
    for (pair, byte) in colours.chunks_exact_mut(2).zip(bytes) {
        pair[0] = byte >> 4;
        pair[1] = byte & 0x0F;
    }
}

/// A text line. Its pixels are those from column hscroll on; where that is not 0, one more character is begun.
fn draw_text<B>(settings: &Settings, video: &Video<B>, line: &mut [u16], transparent: Transparent)
where
    B: Deref<Target = [u8]>,
{
    let colours = TextColours::new(settings, transparent);
    // The text counter began at vscroll, so it alone is the line of the font.
    let font = u32::from(settings.font) * FONT_BYTES + u32::from(settings.text_counter);
    let hscroll = usize::from(settings.hscroll);
    let count = (hscroll + line.len()).div_ceil(CHARACTER);
    let mut columns = [[0; CHARACTER]; MAX_CHARACTERS];
    let addresses = (settings.overlay_address..).step_by(2);
    for (shown, address) in columns[..count].iter_mut().zip(addresses) {
        let character = u32::from(video.read(address));
        let attribute = video.read(address + 1);
        let bits = video.read(font + character * CHARACTER as u32);
        let set = colours.foreground(attribute);
        let clear = colours.background(attribute);
        for (pixel, mask) in shown.iter_mut().zip(&SET_PIXELS[usize::from(bits)]) {
            *pixel = set & mask | clear & !mask;
        }
    }
    line.copy_from_slice(&columns.as_flattened()[hscroll..][..line.len()]);
}

/// How the attributes of a line become pixels.
struct TextColours {
    palette: u16,
    /// The background where bit 7 of the attribute is 0.
    plain: u16,
    fifteen_is_transparent: bool,
}

impl TextColours {
    fn new(settings: &Settings, transparent: Transparent) -> TextColours {
        let palette = settings.palette();
        TextColours {
            palette,
            plain: match transparent {
                Transparent::Nothing => palette | u16::from(PLAIN_BACKGROUND),
                _ => TRANSPARENT,
            },
            fifteen_is_transparent: transparent == Transparent::ZeroAndFifteen,
        }
    }

    /// In text the colour 0 is one like any other: without trans15 only the plain background is transparent.
    #[inline]
    fn pixel(&self, colour: u8) -> u16 {
        if self.fifteen_is_transparent && is_fifteen(colour) {
            TRANSPARENT
        } else {
            self.palette | u16::from(colour)
        }
    }

    #[inline]
    fn foreground(&self, attribute: u8) -> u16 {
        self.pixel(attribute & 127)
    }

    #[inline]
    fn background(&self, attribute: u8) -> u16 {
        if attribute < 128 {
            self.plain
        } else {
            self.pixel((attribute & 127) + 128)
        }
    }
}
