//! The image that speed/cortex-m4 counts, for an emulated Cortex-M4: every job of the rows of docs/SPEED.md, 20 and then 120
//! times. With the setting `fragments` they are those over Bluetooth, as an image of their own. It prints `job NAME` before each; the counts are the emulator's, at each call of speed_mark.
#![no_std]
#![no_main]

extern crate alloc;

mod heap;
#[cfg(fragments)]
#[path = "../fragments.rs"]
mod jobs;
#[cfg(not(fragments))]
#[path = "../../target/oracle/workspace/host/src/bin/speed.rs"]
mod jobs;

use alloc::format;
use core::arch::asm;
use core::hint::black_box;
use core::panic::PanicInfo;

const WRITE0: u32 = 0x04;
const EXIT_EXTENDED: u32 = 0x20;
const APPLICATION_EXIT: u32 = 0x20026;

#[repr(C)]
struct Vectors {
    stack: *const u32,
    reset: extern "C" fn() -> !,
    // a fault of any kind
    faults: [extern "C" fn() -> !; 14],
}

unsafe impl Sync for Vectors {}

unsafe extern "C" {
    static stack_top: u32;
}

#[used]
#[unsafe(no_mangle)]
#[unsafe(link_section = ".vectors")]
static VECTORS: Vectors = Vectors {
    stack: &raw const stack_top,
    reset: start,
    faults: [fault; 14],
};

extern "C" fn start() -> ! {
    #[cfg_attr(fragments, allow(unused_mut))]
    let mut rows = jobs::rows();
    // what a continuation takes is a long PING less this one
    #[cfg(not(fragments))]
    rows.push(jobs::ping("ping-116", 116));
    jobs::check(&rows);
    for job in jobs::JOBS {
        for row in &rows {
            count(job, row);
        }
    }
    #[cfg(not(fragments))]
    for job in ["ours:host", "copy:received"] {
        count(
            job,
            rows.iter().find(|row| row.name == "ping-7609").unwrap(),
        );
    }
    exit(0)
}

fn count(job: &str, row: &jobs::Row) {
    say(&format!("job {job}:{}\n\0", row.name));
    for count in [20, 120] {
        jobs::run(job, row, count, |bytes| {
            black_box(bytes);
        });
    }
}

extern "C" fn fault() -> ! {
    say("fault\n\0");
    exit(1)
}

#[panic_handler]
fn panicked(info: &PanicInfo) -> ! {
    say(&format!("{info}\n\0"));
    exit(1)
}

/// A text that ends with a zero byte.
fn say(text: &str) {
    semihost(WRITE0, text.as_ptr().cast());
}

fn exit(status: u32) -> ! {
    let block = [APPLICATION_EXIT, status];
    semihost(EXIT_EXTENDED, block.as_ptr());
    loop {}
}

fn semihost(operation: u32, block: *const u32) {
    unsafe {
        asm!("bkpt 0xab", inlateout("r0") operation => _, in("r1") block);
    }
}
