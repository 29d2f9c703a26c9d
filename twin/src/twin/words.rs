//! States as the words of `deskboard.h`, and the calls over them.

use super::{
    Block, Board, Budget, Frame, Job, Mode, Phase, Refusal, Refused, Report, Settings, Video,
    ADDRESSES, BLOCK_BYTES, LINES, NO_RECORD,
};
use crate::card::{Card, BOARD_WORDS, FRAME_WORDS, SETTINGS_WORDS};

#[inline]
fn byte(word: u32) -> Result<u8, Refusal> {
    u8::try_from(word).map_err(|_| Refusal::State)
}

#[inline]
fn byte_up_to(last: u8, word: u32) -> Result<u8, Refusal> {
    byte(word).and_then(|byte| ensure(byte <= last, byte))
}

#[inline]
fn switch(word: u32) -> Result<bool, Refusal> {
    byte_up_to(1, word).map(|bit| bit == 1)
}

#[inline]
fn address(word: u32) -> Result<u32, Refusal> {
    ensure(word < ADDRESSES, word)
}

#[inline]
fn origin(word: u32) -> Result<u32, Refusal> {
    ensure(word <= NO_RECORD, word)
}

#[inline]
fn step(word: u32) -> Result<u16, Refusal> {
    ensure(word < 4_096, word as u16)
}

#[inline]
fn ensure<T>(sound: bool, value: T) -> Result<T, Refusal> {
    if sound {
        Ok(value)
    } else {
        Err(Refusal::State)
    }
}

impl Phase {
    /// From flags, the block's bytes, row and column.
    #[inline]
    fn from_words(flags: u32, block: &[u32], row: u32, column: u32) -> Result<Phase, Refusal> {
        let empty = block.iter().all(|&word| word == 0) && row == 0 && column == 0;
        match flags {
            0 => ensure(empty, Phase::Idle),
            1 => ensure(empty, Phase::Load),
            2 => {
                let mut bytes = [0; BLOCK_BYTES];
                for (to, &word) in bytes.iter_mut().zip(block) {
                    *to = byte(word)?;
                }
                let job = Job::at(Block::decode(bytes), row, column);
                job.map(Phase::Busy).ok_or(Refusal::State)
            }
            _ => Err(Refusal::State),
        }
    }
}

impl Board {
    /// A sound board, or the refusal of an unsound one.
    #[inline]
    pub fn from_words(words: &[u32; BOARD_WORDS]) -> Result<Board, Refusal> {
        Ok(Board {
            video_control: byte_up_to(15, words[0])?,
            xdl_address: address(words[1])?,
            list_start: address(words[2])?,
            priorities: [
                byte(words[3])?,
                byte(words[4])?,
                byte(words[5])?,
                byte(words[6])?,
            ],
            irq_enabled: switch(words[7])?,
            irq_raised: switch(words[8])?,
            list: address(words[9])?,
            code: byte(words[11])?,
            phase: Phase::from_words(words[10], &words[12..33], words[33], words[34])?,
        })
    }

    #[inline]
    pub fn to_words(&self) -> [u32; BOARD_WORDS] {
        let mut words = [0; BOARD_WORDS];
        words[0] = self.video_control.into();
        words[1] = self.xdl_address;
        words[2] = self.list_start;
        for (word, priority) in words[3..7].iter_mut().zip(self.priorities) {
            *word = priority.into();
        }
        words[7] = self.irq_enabled.into();
        words[8] = self.irq_raised.into();
        words[9] = self.list;
        words[10] = self.phase.flags().into();
        words[11] = self.code.into();
        if let Phase::Busy(job) = &self.phase {
            for (word, byte) in words[12..33].iter_mut().zip(job.block().bytes()) {
                *word = byte.into();
            }
            words[33] = job.row();
            words[34] = job.column();
        }
        words
    }
}

impl Settings {
    /// Sound settings, or the refusal of unsound ones.
    #[inline]
    pub fn from_words(words: &[u32; SETTINGS_WORDS]) -> Result<Settings, Refusal> {
        let settings = Settings {
            mode: Mode::from_number(words[0]).ok_or(Refusal::State)?,
            overlay_address: address(words[1])?,
            overlay_step: step(words[2])?,
            hscroll: byte_up_to(7, words[3])?,
            vscroll: byte_up_to(7, words[4])?,
            font: byte(words[5])?,
            text_counter: byte_up_to(7, words[6])?,
            map: switch(words[7])?,
            map_address: address(words[8])?,
            map_step: step(words[9])?,
            map_hscroll: byte_up_to(31, words[10])?,
            map_vscroll: byte_up_to(31, words[11])?,
            field_width: byte_up_to(32, words[12])?,
            field_height: byte_up_to(32, words[13])?,
            field_counter: byte(words[14])?,
            width: byte_up_to(2, words[15])?,
            overlay_palette: byte_up_to(3, words[16])?,
            playfield_palette: byte_up_to(3, words[17])?,
            priority: byte(words[18])?,
            origin: origin(words[19])?,
        };
        // A counter below the height also says that the height is not 0.
        ensure(
            settings.field_width >= 8 && settings.field_counter < settings.field_height,
            settings,
        )
    }

    #[inline]
    pub fn to_words(&self) -> [u32; SETTINGS_WORDS] {
        [
            self.mode.number().into(),
            self.overlay_address,
            self.overlay_step.into(),
            self.hscroll.into(),
            self.vscroll.into(),
            self.font.into(),
            self.text_counter.into(),
            self.map.into(),
            self.map_address,
            self.map_step.into(),
            self.map_hscroll.into(),
            self.map_vscroll.into(),
            self.field_width.into(),
            self.field_height.into(),
            self.field_counter.into(),
            self.width.into(),
            self.overlay_palette.into(),
            self.playfield_palette.into(),
            self.priority.into(),
            self.origin,
        ]
    }
}

impl Frame {
    /// A sound frame, or the refusal of an unsound one.
    #[inline]
    pub fn from_words(words: &[u32; FRAME_WORDS]) -> Result<Frame, Refusal> {
        let (settings, &[list, repeat, line, ended, on]) = split_frame(words);
        Ok(Frame {
            settings: Settings::from_words(settings)?,
            list: address(list)?,
            repeat: byte(repeat)?,
            line: byte_up_to(LINES, line)?,
            ended: switch(ended)?,
            on: switch(on)?,
        })
    }

    #[inline]
    pub fn to_words(&self) -> [u32; FRAME_WORDS] {
        let mut words = [0; FRAME_WORDS];
        words[..SETTINGS_WORDS].copy_from_slice(&self.settings.to_words());
        words[SETTINGS_WORDS..].copy_from_slice(&[
            self.list,
            self.repeat.into(),
            self.line.into(),
            self.ended.into(),
            self.on.into(),
        ]);
        words
    }
}

/// A frame's settings, and its other five words.
fn split_frame(words: &[u32; FRAME_WORDS]) -> (&[u32; SETTINGS_WORDS], &[u32; 5]) {
    words
        .split_first_chunk()
        .and_then(|(settings, rest)| Some((settings, rest.first_chunk()?)))
        .expect("25 words are 20 and 5")
}

/// The words of a state. A state that is cut short is as unsound as one with a wrong word.
fn state<const N: usize>(words: &[u32]) -> Result<&[u32; N], Refusal> {
    words.first_chunk().ok_or(Refusal::State)
}

fn state_mut<const N: usize>(words: &mut [u32]) -> Result<&mut [u32; N], Refusal> {
    words.first_chunk_mut().ok_or(Refusal::State)
}

/// The words that a report goes to. Room is asked for when all else is known to be good.
fn room<const N: usize>(words: &mut [u32]) -> Result<&mut [u32; N], Refusal> {
    words.first_chunk_mut().ok_or(Refusal::Room)
}

fn answer(call: impl FnOnce() -> Result<(), Refused>) -> u32 {
    call().map_or_else(Refused::answer, |()| 0)
}

impl Report {
    #[inline]
    fn to_words(self) -> [u32; 2] {
        [self.ticks, self.accesses]
    }
}

/// The twin behind the word interface.
pub struct Twin;

impl Card for Twin {
    const NAME: &'static str = "twin";

    fn new_board(board: &mut [u32]) -> u32 {
        answer(|| {
            *state_mut(board)? = Board::new().to_words();
            Ok(())
        })
    }

    fn write(board: &mut [u32], offset: u32, value: u8) -> u32 {
        answer(|| {
            let words = state_mut(board)?;
            let mut board = Board::from_words(words)?;
            board.write(offset, value)?;
            *words = board.to_words();
            Ok(())
        })
    }

    fn read(board: &[u32], offset: u32, report: &mut [u32]) -> u32 {
        answer(|| {
            let value = Board::from_words(state(board)?)?.read(offset)?;
            *room(report)? = [value.into()];
            Ok(())
        })
    }

    fn reset(board: &mut [u32]) -> u32 {
        answer(|| {
            let words = state_mut(board)?;
            let mut board = Board::from_words(words)?;
            board.reset();
            *words = board.to_words();
            Ok(())
        })
    }

    fn tick(board: &mut [u32], mem: &mut [u8], report: &mut [u32]) -> u32 {
        answer(|| {
            let mut video = Video::new(mem)?;
            let words = state_mut(board)?;
            let mut board = Board::from_words(words)?;
            let report = room(report)?;
            *report = board.tick(&mut video).to_words();
            *words = board.to_words();
            Ok(())
        })
    }

    fn run(board: &mut [u32], mem: &mut [u8], budget: u32, report: &mut [u32]) -> u32 {
        answer(|| {
            let mut video = Video::new(mem)?;
            let words = state_mut(board)?;
            let mut board = Board::from_words(words)?;
            let budget = Budget::new(budget)?;
            let report = room(report)?;
            *report = board.run(&mut video, budget).to_words();
            *words = board.to_words();
            Ok(())
        })
    }

    fn start(board: &[u32], frame: &mut [u32]) -> u32 {
        answer(|| {
            let started = Board::from_words(state(board)?)?.start_frame();
            *state_mut(frame)? = started.to_words();
            Ok(())
        })
    }

    fn next_line(frame: &mut [u32], mem: &[u8], settings: &mut [u32]) -> u32 {
        answer(|| {
            let video = Video::new(mem)?;
            let words = state_mut(frame)?;
            let mut frame = Frame::from_words(words)?;
            let line = frame.next_line(&video)?;
            *room(settings)? = line.to_words();
            *words = frame.to_words();
            Ok(())
        })
    }

    fn draw(
        board: &[u32],
        settings: &[u32],
        mem: &[u8],
        line: &mut [u16],
        report: &mut [u32],
    ) -> u32 {
        answer(|| {
            let video = Video::new(mem)?;
            let board = Board::from_words(state(board)?)?;
            let settings = Settings::from_words(state(settings)?)?;
            let line = line.get_mut(..settings.pixels());
            let line = line.ok_or(Refusal::ShortLine)?;
            *room(report)? = [line.len() as u32];
            board.draw(&settings, &video, line);
            Ok(())
        })
    }

    fn compile(plan: &[u8], out: &mut [u8], report: &mut [u32]) -> u32 {
        answer(|| {
            let xdl = super::xdl(plan)?;
            let out = out.get_mut(..xdl.len()).ok_or(Refusal::Room)?;
            *room(report)? = [xdl.len() as u32];
            out.copy_from_slice(&xdl);
            Ok(())
        })
    }

    fn install(mem: &mut [u8], list: &[u8], address: u32) -> u32 {
        answer(|| {
            let mut video = Video::new(mem)?;
            super::install(&mut video, list, address)?;
            Ok(())
        })
    }
}
