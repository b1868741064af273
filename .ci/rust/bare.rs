//! The package without the feature `std`, in a program without std: its heap is C's, which is all that it and the library ask for.
#![no_std]
#![no_main]

extern crate alloc;

use alloc::format;
use core::alloc::{GlobalAlloc, Layout};
use core::ffi::{c_char, c_int, c_void};
use core::panic::PanicInfo;
use csicodec::{CSI, Cleaner, Cursor, Event, Parser};

#[link(name = "c")]
unsafe extern "C" {
    fn malloc(size: usize) -> *mut c_void;
    fn free(at: *mut c_void);
    fn puts(text: *const c_char) -> c_int;
    fn abort() -> !;
}

struct Heap;

// C's blocks are aligned for every type that is used here.
unsafe impl GlobalAlloc for Heap {
    unsafe fn alloc(&self, layout: Layout) -> *mut u8 {
        assert!(layout.align() <= 16);
        unsafe { malloc(layout.size()) }.cast()
    }
    unsafe fn dealloc(&self, at: *mut u8, _: Layout) {
        unsafe { free(at.cast()) }
    }
}

#[global_allocator]
static HEAP: Heap = Heap;

#[panic_handler]
fn panic(_: &PanicInfo) -> ! {
    unsafe { abort() }
}

/// What the core library of this target asks for, since it is built to unwind; one without an operating system isn't.
#[unsafe(no_mangle)]
extern "C" fn rust_eh_personality() {}

#[unsafe(no_mangle)]
extern "C" fn _Unwind_Resume() -> ! {
    unsafe { abort() }
}

#[unsafe(no_mangle)]
extern "C" fn main() -> c_int {
    let (mut parser, mut rows) = (Parser::new(), 0);
    for piece in [b"a\x1b[".as_slice(), b"2A\x1b[3A"] {
        parser.advance(piece, |event| {
            if let Event::Csi(CSI::Cursor(Cursor::Up(count))) = event {
                rows += count;
            }
        });
    }
    let (mut cleaner, mut text) = (Cleaner::strip(), alloc::vec::Vec::new());
    let is_whole = cleaner.push(b"\x1b[1mbold", &mut text).is_ok() && cleaner.finish(&mut text).is_ok();
    let said = format!("{rows} {} {}\0", text == b"bold" && is_whole, csicodec::strip("\x1b[31mred").as_deref() == Ok("red"));
    unsafe { puts(said.as_ptr().cast()) };
    0
}
