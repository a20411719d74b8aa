//! Memory for OpenSK's vectors. Each block is a power of two of at least 16 bytes, and a block that was given back is the
//! next of its size to be given out: few instructions a call, fewer than an allocator that also looks for room.
use core::alloc::{GlobalAlloc, Layout};
use core::ptr::null_mut;

const SMALLEST: u32 = 4;
const SIZES: usize = 16;
const ROOM: usize = 1 << 20;

struct Block(*mut Block);

#[repr(align(64))]
struct Room(#[allow(dead_code)] [u8; ROOM]);

struct Heap;

static mut ROOM_AT: Room = Room([0; ROOM]);
static mut USED: usize = 0;
static mut FREE: [*mut Block; SIZES] = [null_mut(); SIZES];

#[global_allocator]
static HEAP: Heap = Heap;

/// Which power of two holds a size, counted from 16.
fn class(size: usize) -> usize {
    let bits = usize::BITS - size.saturating_sub(1).leading_zeros();
    bits.max(SMALLEST) as usize - SMALLEST as usize
}

// there is one thread, and no interrupt
unsafe impl GlobalAlloc for Heap {
    unsafe fn alloc(&self, layout: Layout) -> *mut u8 {
        let class = class(layout.size());
        if class >= SIZES {
            return null_mut();
        }
        unsafe {
            let block = FREE[class];
            if block.is_null() {
                return fresh(16 << class);
            }
            FREE[class] = (*block).0;
            block.cast()
        }
    }

    unsafe fn dealloc(&self, at: *mut u8, layout: Layout) {
        let class = class(layout.size());
        let block = at.cast::<Block>();
        unsafe {
            (*block).0 = FREE[class];
            FREE[class] = block;
        }
    }

    unsafe fn realloc(&self, at: *mut u8, layout: Layout, size: usize) -> *mut u8 {
        if class(size) == class(layout.size()) {
            return at;
        }
        unsafe {
            let moved = self.alloc(Layout::from_size_align_unchecked(size, layout.align()));
            if !moved.is_null() {
                moved.copy_from_nonoverlapping(at, size.min(layout.size()));
                self.dealloc(at, layout);
            }
            moved
        }
    }
}

#[cold]
unsafe fn fresh(size: usize) -> *mut u8 {
    unsafe {
        if size > ROOM - USED {
            return null_mut();
        }
        let at = (&raw mut ROOM_AT).cast::<u8>().add(USED);
        USED += size;
        at
    }
}
