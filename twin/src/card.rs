//! The calls of `deskboard.h` as a trait: one answer number a call, states as words.

/// The words of a board.
pub const BOARD_WORDS: usize = 35;
/// The words of a line's settings.
pub const SETTINGS_WORDS: usize = 20;
/// The words of a frame.
pub const FRAME_WORDS: usize = 25;

/// A desk board behind the word interface. Each call answers 0, or a refusal's number plus 256 times its item.
pub trait Card {
    const NAME: &'static str;

    fn new_board(board: &mut [u32]) -> u32;
    fn write(board: &mut [u32], offset: u32, value: u8) -> u32;
    fn read(board: &[u32], offset: u32, report: &mut [u32]) -> u32;
    fn reset(board: &mut [u32]) -> u32;
    fn tick(board: &mut [u32], mem: &mut [u8], report: &mut [u32]) -> u32;
    fn run(board: &mut [u32], mem: &mut [u8], budget: u32, report: &mut [u32]) -> u32;
    fn start(board: &[u32], frame: &mut [u32]) -> u32;
    fn next_line(frame: &mut [u32], mem: &[u8], settings: &mut [u32]) -> u32;
    fn draw(
        board: &[u32],
        settings: &[u32],
        mem: &[u8],
        line: &mut [u16],
        report: &mut [u32],
    ) -> u32;
    fn compile(plan: &[u8], out: &mut [u8], report: &mut [u32]) -> u32;
    fn install(mem: &mut [u8], list: &[u8], address: u32) -> u32;
}
