//! A host in Rust without `std`, by the crate without its feature `std`: it makes a controller of a sign that stands in the program, shows a
//! message, and ends with the status 0 if the frame is as it should be.
//!
//! It needs an allocator, here that of the C library, and what unwinding and panics would call.
#![no_std]
#![no_main]

use core::alloc::{GlobalAlloc, Layout};
use core::ffi::c_void;
use core::panic::PanicInfo;
use latsefur::{message_crc, ActivationCode, Controller, Error, Memory, Request, Sign};

extern "C" {
    fn malloc(size: usize) -> *mut c_void;
    fn free(old: *mut c_void);
    fn abort() -> !;
}

/// The heap of the C library, whose blocks are aligned by 16 octets.
struct Heap;

// SAFETY: a block of malloc has this size and this alignment, and is freed once.
unsafe impl GlobalAlloc for Heap {
    unsafe fn alloc(&self, layout: Layout) -> *mut u8 {
        if layout.align() > 16 {
            return core::ptr::null_mut();
        }
        // SAFETY: any size may be asked for.
        unsafe { malloc(layout.size()).cast() }
    }

    unsafe fn dealloc(&self, old: *mut u8, _: Layout) {
        // SAFETY: it came from `alloc`.
        unsafe { free(old.cast()) }
    }
}

#[global_allocator]
static HEAP: Heap = Heap;

#[panic_handler]
fn ended(_: &PanicInfo) -> ! {
    // SAFETY: it takes nothing.
    unsafe { abort() }
}

/// What unwinding would call; there is none.
#[no_mangle]
extern "C" fn rust_eh_personality() {}

/// Shows `A`, and tells whether the peak of the letter is lit, and the corner of the sign dark.
fn shown() -> Result<bool, Error> {
    let sign = Sign::new(include_bytes!("../../signs/sample.toml"))?;
    let mut controller = Controller::new(&sign)?;
    let (memory, crc) = (Memory::Changeable, message_crc("A", 0, 0));
    controller.request(memory, 1, Request::Modify)?.obeyed()?;
    controller.set_multi(memory, 1, "A")?.obeyed()?;
    controller.request(memory, 1, Request::Validate)?.obeyed()?;
    controller.work()?.obeyed()?;
    controller.activate(ActivationCode { duration: 1, priority: 255, memory, number: 1, crc, requester: [127, 0, 0, 1] })?.obeyed()?;
    let plane = controller.frame(1)?.plane;
    Ok(plane.lit(2, 5) == Some(true) && plane.lit(0, 0) == Some(false))
}

#[no_mangle]
extern "C" fn main() -> i32 {
    match shown() {
        Ok(true) => 0,
        _ => 1,
    }
}
