//! Calls the library through the Rust crate where there is no standard library,
//! no C library and no operating system but to end the program: the functions
//! that the header names are here. The exit status is the number of the first
//! answer that is not the worked shift's, 0 if all are. For x86-64 Linux, built
//! by rustc alone.

#![no_std]
#![no_main]

use core::arch::{asm, global_asm};
use slopeboard::{Refusal, Standing};

/// The worked shift.
const SHEET: &[u8] = b"GRM\x02\x03\x00\x04\
    \x1F\x01\x01\x00\x00\x00\x3C\x00\x64\
    \x15\x02\x00\x1E\x00\x96\
    \x1F\x01\x02\x00\x00\x00\x78\x00\x50\
    \x1D\x03\x00\x78\x00\x3C\x00\x5A";

/// The number of the first answer that is another.
extern "C" fn answers() -> i32 {
    let mut board = [0; slopeboard::board_bytes(4)];
    let mut list = [Standing::default(); 2];
    let Ok(28) = slopeboard::plan(SHEET, &mut board) else {
        return 1;
    };
    let board = &board[..28];
    let checked = slopeboard::check(SHEET, board);
    if !checked.is_ok_and(|sums| sums.worth == 240 && sums.ceiling == 340) {
        return 2;
    }
    if slopeboard::limit(SHEET, &[60, 40, 10, 0, 0, 0, 0]) != Ok(300) {
        return 3;
    }
    let played = slopeboard::play(SHEET, board, &[0, 15, 0, 0], &mut list);
    if played != Ok(2) || list[0].working != 75 || list[1].standing != 890 {
        return 4;
    }
    match slopeboard::charge(SHEET, &mut [0]) {
        Err(Refusal::BadMagic) => 0,
        _ => 5,
    }
}

// Entered with the stack pointer at a multiple of 16; system call 60 ends the program.
global_asm!(
    ".globl _start",
    "_start: call {answers}",
    "mov edi, eax",
    "mov eax, 60",
    "syscall",
    answers = sym answers,
);

// Each of these is a string instruction: of a loop the compiler would make a call of the function itself.

#[no_mangle]
unsafe extern "C" fn memcpy(to: *mut u8, from: *const u8, count: usize) -> *mut u8 {
    asm!("rep movsb", inout("rcx") count => _, inout("rdi") to => _, inout("rsi") from => _);
    to
}

#[no_mangle]
unsafe extern "C" fn memmove(to: *mut u8, from: *const u8, count: usize) -> *mut u8 {
    if to.cast_const() <= from {
        return memcpy(to, from, count);
    }
    let ends = (
        to.wrapping_add(count).wrapping_sub(1),
        from.wrapping_add(count).wrapping_sub(1),
    );
    asm!("std", "rep movsb", "cld", inout("rcx") count => _, inout("rdi") ends.0 => _, inout("rsi") ends.1 => _);
    to
}

#[no_mangle]
unsafe extern "C" fn memset(to: *mut u8, value: i32, count: usize) -> *mut u8 {
    asm!("rep stosb", inout("rcx") count => _, inout("rdi") to => _, in("al") value as u8);
    to
}

/// The compiled core library names it for unwinding; here nothing unwinds.
#[no_mangle]
extern "C" fn rust_eh_personality() {}

#[panic_handler]
fn panic(_: &core::panic::PanicInfo) -> ! {
    loop {}
}
