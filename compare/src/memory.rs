//! Memory for archives at an address that every alignment divides, and an allocator that remembers what was asked last.
use std::alloc::{alloc_zeroed, dealloc, GlobalAlloc, Layout, System};
use std::sync::atomic::{AtomicUsize, Ordering};

/// The largest alignment of the format. Rust looks at addresses and the port at places: here they agree.
pub const PAGE: usize = 4096;

/// Room for an archive.
pub struct Page {
    start: *mut u8,
    room: usize,
}

impl Page {
    pub fn new(room: usize) -> Page {
        let layout = Page::layout(room);
        // SAFETY: the layout's size is not 0.
        let start = unsafe { alloc_zeroed(layout) };
        assert!(!start.is_null());
        Page { start, room }
    }

    fn layout(room: usize) -> Layout {
        Layout::from_size_align(room.max(1), PAGE).unwrap()
    }

    /// The whole room.
    pub fn bytes(&mut self) -> &mut [u8] {
        // SAFETY: `new` made so many bytes, and zeroed them.
        unsafe { std::slice::from_raw_parts_mut(self.start, self.room) }
    }

    /// Puts an archive at the front and gives it there.
    pub fn load(&mut self, archive: &[u8]) -> &mut [u8] {
        let there = &mut self.bytes()[..archive.len()];
        there.copy_from_slice(archive);
        there
    }
}

impl Drop for Page {
    fn drop(&mut self) {
        // SAFETY: `new` took it by the same layout.
        unsafe { dealloc(self.start, Page::layout(self.room)) }
    }
}

/// The system's allocator, which tells the alignment of what was asked for last. The alignment that the Rust's builder
/// ends with is seen in no other way: `finish` asks for memory by it, and keeps it to itself.
pub struct Watched;

static LAST_ALIGNMENT: AtomicUsize = AtomicUsize::new(0);

impl Watched {
    pub fn last_alignment() -> usize {
        LAST_ALIGNMENT.load(Ordering::Relaxed)
    }
}

// SAFETY: each call is the system's.
unsafe impl GlobalAlloc for Watched {
    unsafe fn alloc(&self, layout: Layout) -> *mut u8 {
        LAST_ALIGNMENT.store(layout.align(), Ordering::Relaxed);
        System.alloc(layout)
    }

    unsafe fn dealloc(&self, start: *mut u8, layout: Layout) {
        System.dealloc(start, layout)
    }

    unsafe fn alloc_zeroed(&self, layout: Layout) -> *mut u8 {
        System.alloc_zeroed(layout)
    }

    unsafe fn realloc(&self, start: *mut u8, layout: Layout, size: usize) -> *mut u8 {
        System.realloc(start, layout, size)
    }
}
