use super::{Block, Frame, Job, Refusal, Report, Video, ADDRESS_MASK, BLOCK_BYTES};
use std::ops::DerefMut;

/// The most ticks one run may be asked for.
pub const MAX_BUDGET: u32 = 1_000_000;

/// The ticks that a run may take, at most [`MAX_BUDGET`].
#[derive(Clone, Copy, Debug, PartialEq, Eq)]
pub struct Budget(u32);

impl Budget {
    pub fn new(ticks: u32) -> Result<Budget, Refusal> {
        if ticks > MAX_BUDGET {
            return Err(Refusal::Budget);
        }
        Ok(Budget(ticks))
    }
}

/// What the blitter is at.
#[derive(Clone, Copy, Debug, Default, PartialEq, Eq)]
#[allow(clippy::large_enum_variant)]
pub enum Phase {
    #[default]
    Idle,
    /// The next tick loads a block.
    Load,
    Busy(Job),
}

impl Phase {
    pub fn flags(&self) -> u8 {
        match self {
            Phase::Idle => 0,
            Phase::Load => 1,
            Phase::Busy(_) => 2,
        }
    }
}

/// The board: its registers and its blitter. A new one has 0 everywhere.
#[derive(Clone, Debug, Default, PartialEq, Eq)]
pub struct Board {
    pub(super) video_control: u8,
    pub(super) xdl_address: u32,
    pub(super) list_start: u32,
    pub(super) priorities: [u8; 4],
    pub(super) irq_enabled: bool,
    pub(super) irq_raised: bool,
    pub(super) list: u32,
    pub(super) code: u8,
    pub(super) phase: Phase,
}

impl Board {
    pub fn new() -> Board {
        Board::default()
    }

    pub fn write(&mut self, offset: u32, value: u8) -> Result<(), Refusal> {
        match offset {
            0x40 => self.video_control = value & 0x0F,
            0x41..=0x43 => set_byte(&mut self.xdl_address, offset - 0x41, value),
            0x50..=0x52 => set_byte(&mut self.list_start, offset - 0x50, value),
            0x53 if value & 1 != 0 => {
                self.list = self.list_start;
                self.code = 0;
                self.phase = Phase::Load;
            }
            0x53 => self.phase = Phase::Idle,
            0x54 => {
                self.irq_enabled = value & 1 != 0;
                self.irq_raised = false;
            }
            0x55..=0x58 => self.priorities[(offset - 0x55) as usize] = value,
            0x44..=0x4F | 0x59..=0x5F => {}
            _ => return Err(Refusal::Register),
        }
        Ok(())
    }

    pub fn read(&self, offset: u32) -> Result<u8, Refusal> {
        Ok(match offset {
            0x40 => 0x10,
            0x41 => 0x24,
            0x50 => self.code,
            0x53 => self.phase.flags(),
            0x54 => u8::from(self.irq_raised),
            0x4A | 0x5E | 0x5F => 0,
            0x42..=0x5F => 255,
            _ => return Err(Refusal::Register),
        })
    }

    pub fn reset(&mut self) {
        self.video_control = 0;
        self.irq_enabled = false;
        self.irq_raised = false;
        self.phase = Phase::Idle;
    }

    /// One tick, if the blitter is not idle.
    pub fn tick<B>(&mut self, video: &mut Video<B>) -> Report
    where
        B: DerefMut<Target = [u8]>,
    {
        self.run(video, Budget(1))
    }

    /// Ticks until the budget is used or the blitter is idle.
    pub fn run<B>(&mut self, video: &mut Video<B>, Budget(budget): Budget) -> Report
    where
        B: DerefMut<Target = [u8]>,
    {
        let mut done = Report::default();
        while done.ticks < budget {
            match &mut self.phase {
                Phase::Idle => break,
                Phase::Load => {
                    self.phase = Phase::Busy(Job::new(self.fetch(video)));
                    done += Report {
                        ticks: 1,
                        accesses: BLOCK_BYTES as u32,
                    };
                }
                Phase::Busy(job) => {
                    done += job.work(video, &mut self.code, budget - done.ticks);
                    if job.is_done() {
                        let next = job.block().next();
                        self.finish(next);
                    }
                }
            }
        }
        done
    }

    /// Reads the block at the list address, which moves behind it.
    fn fetch<B>(&mut self, video: &Video<B>) -> Block
    where
        B: DerefMut<Target = [u8]>,
    {
        let mut bytes = [0; BLOCK_BYTES];
        for (address, byte) in (self.list..).zip(&mut bytes) {
            *byte = video.read(address);
        }
        self.list = (self.list + BLOCK_BYTES as u32) & ADDRESS_MASK;
        Block::decode(bytes)
    }

    /// Ends a block.
    fn finish(&mut self, next: bool) {
        if next {
            self.phase = Phase::Load;
        } else {
            self.phase = Phase::Idle;
            self.irq_raised |= self.irq_enabled;
        }
    }

    /// Frame start.
    pub fn start_frame(&self) -> Frame {
        Frame::new(self.xdl_address, self.video_control & 1 != 0)
    }
}

/// Puts a byte into a 19-bit address, the lowest first.
fn set_byte(address: &mut u32, which: u32, value: u8) {
    let shift = 8 * which;
    *address = (*address & !(0xFF << shift) | u32::from(value) << shift) & ADDRESS_MASK;
}
