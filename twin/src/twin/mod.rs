//! The second desk board: blitter, registers, frame, drawn lines and plans of FX core 1.24.
//!
//! The types hold sound states only. Unsound ones are refused where words become a state.

mod blitter;
mod board;
mod frame;
mod pixels;
mod plan;
mod refusal;
mod video;
mod words;

pub use blitter::{Block, Job, Report, BLOCK_BYTES};
pub use board::{Board, Budget, Phase, MAX_BUDGET};
pub use frame::{Frame, Mode, Settings, LINES, NO_RECORD};
pub use pixels::{MAX_PIXELS, TRANSPARENT};
pub use plan::{install, meaning, xdl, Item, MAX_INSTALL};
pub use refusal::{Refusal, Refused};
pub use video::{Video, ADDRESSES, ADDRESS_MASK};
pub use words::Twin;
