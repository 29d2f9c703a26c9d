//! The desk board of the archive: safe calls over `deskboard.h`.

use crate::card::Card;

mod ffi {
    extern "C" {
        pub fn deskboard_new(board: *mut u32, board_len: usize) -> u32;
        pub fn deskboard_write(board: *mut u32, board_len: usize, offset: u32, value: u8) -> u32;
        pub fn deskboard_read(
            board: *const u32,
            board_len: usize,
            offset: u32,
            report: *mut u32,
            report_len: usize,
        ) -> u32;
        pub fn deskboard_reset(board: *mut u32, board_len: usize) -> u32;
        pub fn deskboard_tick(
            board: *mut u32,
            board_len: usize,
            mem: *mut u8,
            mem_len: usize,
            report: *mut u32,
            report_len: usize,
        ) -> u32;
        pub fn deskboard_run(
            board: *mut u32,
            board_len: usize,
            mem: *mut u8,
            mem_len: usize,
            budget: u32,
            report: *mut u32,
            report_len: usize,
        ) -> u32;
        pub fn deskboard_start(
            board: *const u32,
            board_len: usize,
            frame: *mut u32,
            frame_len: usize,
        ) -> u32;
        pub fn deskboard_next_line(
            frame: *mut u32,
            frame_len: usize,
            mem: *const u8,
            mem_len: usize,
            settings: *mut u32,
            settings_len: usize,
        ) -> u32;
        pub fn deskboard_draw(
            board: *const u32,
            board_len: usize,
            settings: *const u32,
            settings_len: usize,
            mem: *const u8,
            mem_len: usize,
            line: *mut u16,
            line_len: usize,
            report: *mut u32,
            report_len: usize,
        ) -> u32;
        pub fn deskboard_compile(
            plan: *const u8,
            plan_len: usize,
            out: *mut u8,
            out_len: usize,
            report: *mut u32,
            report_len: usize,
        ) -> u32;
        pub fn deskboard_install(
            mem: *mut u8,
            mem_len: usize,
            list: *const u8,
            list_len: usize,
            address: u32,
        ) -> u32;
    }
}

/// The archive's board.
pub struct Desk;

// SAFETY, for every call below: each pointer comes with the length of the slice it was made from, the slices live
// through the call, and Rust's borrows keep the written ones apart from all others. The header promises that nothing
// else is touched and nothing kept.
impl Card for Desk {
    const NAME: &'static str = "desk";

    fn new_board(board: &mut [u32]) -> u32 {
        unsafe { ffi::deskboard_new(board.as_mut_ptr(), board.len()) }
    }

    fn write(board: &mut [u32], offset: u32, value: u8) -> u32 {
        unsafe { ffi::deskboard_write(board.as_mut_ptr(), board.len(), offset, value) }
    }

    fn read(board: &[u32], offset: u32, report: &mut [u32]) -> u32 {
        unsafe {
            ffi::deskboard_read(
                board.as_ptr(),
                board.len(),
                offset,
                report.as_mut_ptr(),
                report.len(),
            )
        }
    }

    fn reset(board: &mut [u32]) -> u32 {
        unsafe { ffi::deskboard_reset(board.as_mut_ptr(), board.len()) }
    }

    fn tick(board: &mut [u32], mem: &mut [u8], report: &mut [u32]) -> u32 {
        unsafe {
            ffi::deskboard_tick(
                board.as_mut_ptr(),
                board.len(),
                mem.as_mut_ptr(),
                mem.len(),
                report.as_mut_ptr(),
                report.len(),
            )
        }
    }

    fn run(board: &mut [u32], mem: &mut [u8], budget: u32, report: &mut [u32]) -> u32 {
        unsafe {
            ffi::deskboard_run(
                board.as_mut_ptr(),
                board.len(),
                mem.as_mut_ptr(),
                mem.len(),
                budget,
                report.as_mut_ptr(),
                report.len(),
            )
        }
    }

    fn start(board: &[u32], frame: &mut [u32]) -> u32 {
        unsafe {
            ffi::deskboard_start(board.as_ptr(), board.len(), frame.as_mut_ptr(), frame.len())
        }
    }

    fn next_line(frame: &mut [u32], mem: &[u8], settings: &mut [u32]) -> u32 {
        unsafe {
            ffi::deskboard_next_line(
                frame.as_mut_ptr(),
                frame.len(),
                mem.as_ptr(),
                mem.len(),
                settings.as_mut_ptr(),
                settings.len(),
            )
        }
    }

    fn draw(
        board: &[u32],
        settings: &[u32],
        mem: &[u8],
        line: &mut [u16],
        report: &mut [u32],
    ) -> u32 {
        unsafe {
            ffi::deskboard_draw(
                board.as_ptr(),
                board.len(),
                settings.as_ptr(),
                settings.len(),
                mem.as_ptr(),
                mem.len(),
                line.as_mut_ptr(),
                line.len(),
                report.as_mut_ptr(),
                report.len(),
            )
        }
    }

    fn compile(plan: &[u8], out: &mut [u8], report: &mut [u32]) -> u32 {
        unsafe {
            ffi::deskboard_compile(
                plan.as_ptr(),
                plan.len(),
                out.as_mut_ptr(),
                out.len(),
                report.as_mut_ptr(),
                report.len(),
            )
        }
    }

    fn install(mem: &mut [u8], list: &[u8], address: u32) -> u32 {
        unsafe {
            ffi::deskboard_install(
                mem.as_mut_ptr(),
                mem.len(),
                list.as_ptr(),
                list.len(),
                address,
            )
        }
    }
}
