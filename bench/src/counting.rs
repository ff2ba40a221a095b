//! Memory for both sides from one place, which counts what is in use when it is asked to.

use std::alloc::{GlobalAlloc, Layout};
use std::sync::atomic::{AtomicBool, AtomicUsize, Ordering::Relaxed};

extern "C" {
    fn malloc(size: usize) -> *mut u8;
    fn realloc(block: *mut u8, size: usize) -> *mut u8;
    fn free(block: *mut u8);
    fn malloc_usable_size(block: *mut u8) -> usize;
}

static IS_ON: AtomicBool = AtomicBool::new(false);
static IN_USE: AtomicUsize = AtomicUsize::new(0);
static MOST: AtomicUsize = AtomicUsize::new(0);

fn add(bytes: usize) {
    let now = IN_USE.load(Relaxed).wrapping_add(bytes);
    IN_USE.store(now, Relaxed);
    MOST.store(MOST.load(Relaxed).max(now), Relaxed);
}

fn take(bytes: usize) {
    IN_USE.store(IN_USE.load(Relaxed).wrapping_sub(bytes), Relaxed);
}

unsafe fn new_block(size: usize) -> *mut u8 {
    let block = malloc(size.max(1));
    if IS_ON.load(Relaxed) && !block.is_null() {
        add(malloc_usable_size(block));
    }
    block
}

unsafe fn other_block(block: *mut u8, size: usize) -> *mut u8 {
    if !IS_ON.load(Relaxed) {
        return realloc(block, size.max(1));
    }
    let before = malloc_usable_size(block);
    let moved = realloc(block, size.max(1));
    if !moved.is_null() {
        take(before);
        add(malloc_usable_size(moved));
    }
    moved
}

unsafe fn drop_block(block: *mut u8) {
    if IS_ON.load(Relaxed) && !block.is_null() {
        take(malloc_usable_size(block));
    }
    free(block);
}

struct Counting;

#[cfg_attr(not(test), global_allocator)]
static ALLOCATOR: Counting = Counting;

// What `malloc` answers is aligned to 16, which is all that either side asks for.
unsafe impl GlobalAlloc for Counting {
    unsafe fn alloc(&self, layout: Layout) -> *mut u8 {
        if layout.align() > 16 {
            return std::ptr::null_mut();
        }
        new_block(layout.size())
    }

    unsafe fn dealloc(&self, block: *mut u8, _layout: Layout) {
        drop_block(block)
    }

    unsafe fn realloc(&self, block: *mut u8, _layout: Layout, size: usize) -> *mut u8 {
        other_block(block, size)
    }
}

/// What the product's library asks for memory with.
#[repr(C)]
pub struct Tried {
    is_there: bool,
    block: *mut u8,
}

static mut NOWHERE: u8 = 0;

fn tried(block: *mut u8) -> Tried {
    if block.is_null() {
        Tried {
            is_there: false,
            block: &raw mut NOWHERE,
        }
    } else {
        Tried {
            is_there: true,
            block,
        }
    }
}

#[no_mangle]
unsafe extern "C" fn rattle_alloc(size: usize, _align: usize) -> Tried {
    tried(new_block(size))
}

#[no_mangle]
unsafe extern "C" fn rattle_realloc(block: *mut u8, _kept: usize, size: usize, _align: usize) -> Tried {
    tried(other_block(block, size))
}

#[no_mangle]
unsafe extern "C" fn rattle_dealloc(block: *mut u8) {
    drop_block(block)
}

/// More than any work takes at once.
const AT_FIRST: usize = 3 << 30;

/// Takes memory from the system and gives it back to the process's own store, where it stays (`GLIBC_TUNABLES` in `bench/run`). So no side
/// has to wait for the system to clear pages, and which of them comes first doesn't matter.
pub fn take_at_first() {
    std::hint::black_box(vec![1_u8; AT_FIRST]);
}

/// The most bytes that were in use at once while the work was done, beyond those before it.
pub fn most_bytes(work: impl FnOnce()) -> usize {
    IN_USE.store(0, Relaxed);
    MOST.store(0, Relaxed);
    IS_ON.store(true, Relaxed);
    work();
    IS_ON.store(false, Relaxed);
    MOST.load(Relaxed)
}
