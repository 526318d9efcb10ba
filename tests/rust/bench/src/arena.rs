//! The memory of a run: the system's allocator, or an arena, in which a block is taken by moving a mark and given back with all behind it. The
//! crate's own memory is an arena; the stand-ins' is what the program has.

use std::{
    alloc::{GlobalAlloc, Layout, System},
    cell::UnsafeCell,
    ptr,
};

const SIZE: usize = 1 << 30;

#[repr(align(4096))]
struct Region(UnsafeCell<[u8; SIZE]>);

// SAFETY: the program has one thread.
unsafe impl Sync for Region {}

static REGION: Region = Region(UnsafeCell::new([0; SIZE]));

pub struct Memory {
    /// How much of the arena is taken, while it is in use.
    filled: UnsafeCell<Option<usize>>,
}

// SAFETY: as above.
unsafe impl Sync for Memory {}

impl Memory {
    pub const fn new() -> Self {
        Self { filled: UnsafeCell::new(None) }
    }

    /// Runs with an empty arena.
    ///
    /// # Safety
    /// Nothing that was taken meanwhile may be in use after it.
    pub unsafe fn with_arena<T: Copy>(&self, work: impl FnOnce() -> T) -> T {
        unsafe {
            *self.filled.get() = Some(0);
            let result = work();
            *self.filled.get() = None;
            result
        }
    }

    #[inline]
    fn place_of(block: *mut u8) -> Option<usize> {
        (block as usize).checked_sub(REGION.0.get() as usize).filter(|place| *place < SIZE)
    }
}

// SAFETY: blocks of the arena are aligned, lie within it and don't overlap; all others are the system's.
unsafe impl GlobalAlloc for Memory {
    #[inline]
    unsafe fn alloc(&self, layout: Layout) -> *mut u8 {
        unsafe {
            let Some(filled) = *self.filled.get() else { return System.alloc(layout) };
            let start = (filled + layout.align() - 1) & !(layout.align() - 1);
            let end = start + layout.size();
            if end > SIZE {
                return ptr::null_mut();
            }
            *self.filled.get() = Some(end);
            REGION.0.get().cast::<u8>().add(start)
        }
    }

    #[inline]
    unsafe fn dealloc(&self, block: *mut u8, layout: Layout) {
        if Self::place_of(block).is_none() {
            unsafe { System.dealloc(block, layout) }
        }
    }

    #[inline]
    unsafe fn realloc(&self, block: *mut u8, layout: Layout, size: usize) -> *mut u8 {
        unsafe {
            match (Self::place_of(block), *self.filled.get()) {
                (None, None) => return System.realloc(block, layout, size),
                // the last block grows where it stands
                (Some(start), Some(filled))
                    if start + layout.size() == filled && start + size <= SIZE =>
                {
                    *self.filled.get() = Some(start + size);
                    return block;
                }
                _ => {}
            }
            let fresh = self.alloc(Layout::from_size_align_unchecked(size, layout.align()));
            if !fresh.is_null() {
                ptr::copy_nonoverlapping(block, fresh, layout.size().min(size));
                self.dealloc(block, layout);
            }
            fresh
        }
    }
}
