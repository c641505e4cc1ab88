//! What a module of WebAssembly needs without std: memory, and an abort for what never happens.
//!
//! All memory of a search is given back at once, by `gen1_search_free`, which a page calls after it has read the result.
use core::alloc::{GlobalAlloc, Layout};
use core::cell::Cell;

/// Hands out bytes one after the other. The last ones can grow where they are.
struct Arena {
    /// Where the next bytes begin, and where the memory ends. 0 before the first call.
    next: Cell<usize>,
    end: Cell<usize>,
    /// Where the first bytes began.
    begin: Cell<usize>,
}

// SAFETY: a module has one thread.
unsafe impl Sync for Arena {}

const PAGE: usize = 65536;

impl Arena {
    /// Makes sure that the memory has bytes up to an address.
    fn reach(&self, to: usize) -> bool {
        if to <= self.end.get() {
            return true;
        }
        let pages = (to - self.end.get()).div_ceil(PAGE);
        if core::arch::wasm32::memory_grow(0, pages) == usize::MAX {
            return false;
        }
        self.end.set(core::arch::wasm32::memory_size(0) * PAGE);
        true
    }

    fn begin(&self) {
        if self.begin.get() == 0 {
            let end = core::arch::wasm32::memory_size(0) * PAGE;
            self.begin.set(end);
            self.next.set(end);
            self.end.set(end);
        }
    }
}

// SAFETY: bytes that were handed out are not handed out again before `gen1_search_free`, and are aligned.
unsafe impl GlobalAlloc for Arena {
    unsafe fn alloc(&self, layout: Layout) -> *mut u8 {
        self.begin();
        let at = self.next.get().next_multiple_of(layout.align());
        let Some(next) = at.checked_add(layout.size()) else {
            return core::ptr::null_mut();
        };
        if !self.reach(next) {
            return core::ptr::null_mut();
        }
        self.next.set(next);
        at as *mut u8
    }

    unsafe fn dealloc(&self, at: *mut u8, layout: Layout) {
        if at as usize + layout.size() == self.next.get() {
            self.next.set(at as usize);
        }
    }

    unsafe fn realloc(&self, at: *mut u8, layout: Layout, size: usize) -> *mut u8 {
        let is_last = at as usize + layout.size() == self.next.get();
        if is_last && self.reach(at as usize + size) {
            self.next.set(at as usize + size);
            return at;
        }
        // SAFETY: the bytes are of the layout, and the new ones are others.
        unsafe {
            let new = self.alloc(Layout::from_size_align_unchecked(size, layout.align()));
            if !new.is_null() {
                new.copy_from_nonoverlapping(at, layout.size().min(size));
            }
            new
        }
    }
}

#[global_allocator]
static ARENA: Arena = Arena {
    next: Cell::new(0),
    end: Cell::new(0),
    begin: Cell::new(0),
};

/// Bytes for arguments and a result, aligned to 8, until `gen1_search_free`; 0 if out of memory.
#[unsafe(no_mangle)]
pub extern "C" fn gen1_search_room(size: usize) -> *mut u8 {
    match Layout::from_size_align(size.max(1), 8) {
        // SAFETY: the size is not 0.
        Ok(layout) => unsafe { ARENA.alloc(layout) },
        Err(_) => core::ptr::null_mut(),
    }
}

/// Gives back all memory.
#[unsafe(no_mangle)]
pub extern "C" fn gen1_search_free() {
    ARENA.next.set(ARENA.begin.get());
}

#[panic_handler]
fn panic(_: &core::panic::PanicInfo<'_>) -> ! {
    core::arch::wasm32::unreachable()
}
