//! Memory for code that cannot answer a refusal.
//!
//! A library that grows a vector of std ends the process where memory is refused. [`within`] sets a block aside first and
//! runs such code; with [`Reserving`] as the allocator of the process, what it is refused comes out of that block, and
//! the answer is [`AllocError`]. A block of which something was taken is never given back, so what was taken stays valid.

use crate::alloc::AllocError;
use std::alloc::{GlobalAlloc, Layout, System};
use std::cell::Cell;
use std::ptr;
use std::sync::atomic::{AtomicPtr, Ordering};

/// An allocator that takes from the reserve of the thread where `A` refuses. It is set by
/// `#[global_allocator] static ALLOCATOR: Reserving = Reserving::over(System);`.
#[derive(Debug)]
pub struct Reserving<A = System>(A);

impl<A> Reserving<A> {
    /// The allocator over another.
    ///
    /// ```
    /// #[global_allocator]
    /// static ALLOCATOR: rshim::reserve::Reserving = rshim::reserve::Reserving::over(std::alloc::System);
    /// ```
    pub const fn over(allocator: A) -> Reserving<A> {
        Reserving(allocator)
    }
}

/// The head of a block: where what is free begins and ends, and the block that was begun before.
struct Block {
    free: *mut u8,
    end: *mut u8,
    begun_before: *mut Block,
}

/// What blocks are aligned to.
const ALIGNMENT: usize = 16;

/// The blocks of which something was taken, the last first. They stay here.
static BEGUN: AtomicPtr<Block> = AtomicPtr::new(ptr::null_mut());

thread_local! {
    /// The block of the code that runs within a reserve, and whether something was taken of it.
    static RESERVE: Cell<(*mut Block, bool)> = const { Cell::new((ptr::null_mut(), false)) };
}

// SAFETY: what `A` gives is `A`'s, and is handed back to it. All else lies in a block of `BEGUN`, is aligned and as long as
// the layout says, overlaps nothing that was taken before, and is never given back.
unsafe impl<A: GlobalAlloc> GlobalAlloc for Reserving<A> {
    unsafe fn alloc(&self, layout: Layout) -> *mut u8 {
        // SAFETY: the caller's promise on the layout is handed on.
        let place = unsafe { self.0.alloc(layout) };
        if place.is_null() { taken(layout) } else { place }
    }

    unsafe fn dealloc(&self, place: *mut u8, layout: Layout) {
        if !is_taken(place) {
            // SAFETY: the place is not of a reserve, so `A` gave it, of this layout.
            unsafe { self.0.dealloc(place, layout) }
        }
    }

    unsafe fn realloc(&self, place: *mut u8, layout: Layout, size: usize) -> *mut u8 {
        if !is_taken(place) {
            // SAFETY: as in `dealloc`; the caller's promise on the size is handed on.
            let moved = unsafe { self.0.realloc(place, layout, size) };
            if !moved.is_null() {
                return moved;
            }
        }
        // SAFETY: the caller promises that the size with this alignment is a layout. The new place is no part of the old
        // one, and both have the bytes that are copied.
        unsafe {
            let wanted = Layout::from_size_align_unchecked(size, layout.align());
            let moved = taken(wanted);
            if !moved.is_null() {
                moved.copy_from_nonoverlapping(place, layout.size().min(size));
                self.dealloc(place, layout);
            }
            moved
        }
    }
}

/// Memory out of the reserve of this thread; null where there is none, or too little.
fn taken(layout: Layout) -> *mut u8 {
    let Ok((block, was_begun)) = RESERVE.try_with(Cell::get) else {
        return ptr::null_mut();
    };
    if block.is_null() {
        return block.cast();
    }
    // SAFETY: the block of this thread is there until `within` ends, and `free` and `end` are places of it.
    let place = unsafe {
        let free = (*block).free;
        let skipped = free.align_offset(layout.align());
        let room = (*block).end.addr() - free.addr();
        if skipped > room || layout.size() > room - skipped {
            return ptr::null_mut();
        }
        let place = free.add(skipped);
        (*block).free = place.add(layout.size());
        place
    };
    if !was_begun {
        RESERVE.set((block, true));
        let _ = BEGUN.fetch_update(Ordering::AcqRel, Ordering::Acquire, |before| {
            // SAFETY: no other thread knows this block yet.
            unsafe { (*block).begun_before = before };
            Some(block)
        });
    }
    place
}

/// Whether a place is one of a reserve.
fn is_taken(place: *mut u8) -> bool {
    let mut block = BEGUN.load(Ordering::Acquire);
    while !block.is_null() {
        let start = block.cast::<u8>();
        // SAFETY: blocks of `BEGUN` are never given back, and these two fields do not change any more.
        let (end, before) = unsafe { ((*block).end, (*block).begun_before) };
        if start <= place && place < end {
            return true;
        }
        block = before;
    }
    false
}

/// A reserve that this thread runs over, until it is dropped.
struct Reserve {
    block: *mut Block,
    layout: Layout,
    before: (*mut Block, bool),
}

impl Reserve {
    /// Sets a block of so many bytes aside.
    fn begun(size: usize) -> Result<Reserve, AllocError> {
        let size = size.checked_add(size_of::<Block>()).ok_or(AllocError)?;
        let layout = Layout::from_size_align(size, ALIGNMENT).map_err(|_| AllocError)?;
        // SAFETY: the layout is not empty.
        let start = unsafe { std::alloc::alloc(layout) };
        if start.is_null() {
            return Err(AllocError);
        }
        let block = start.cast::<Block>();
        // SAFETY: the block is new, aligned for its head, and as long as the layout says.
        unsafe {
            let (free, end) = (start.add(size_of::<Block>()), start.add(size));
            block.write(Block { free, end, begun_before: ptr::null_mut() });
        }
        let before = RESERVE.replace((block, false));
        Ok(Reserve { block, layout, before })
    }
}

impl Drop for Reserve {
    fn drop(&mut self) {
        let (_, was_begun) = RESERVE.replace(self.before);
        if !was_begun {
            // SAFETY: nothing was taken of the block, and it came from this allocator, of this layout.
            unsafe { std::alloc::dealloc(self.block.cast(), self.layout) }
        }
    }
}

/// Whether something was taken of the reserve that this thread runs over.
pub fn is_begun() -> bool {
    RESERVE.get().1
}

/// Runs code that cannot answer a refusal, over a reserve of so many bytes.
///
/// # Errors
/// There is no memory for the reserve, or something was taken of it. What the code gave is let go then.
pub fn within<T>(size: usize, run: impl FnOnce() -> T) -> Result<T, AllocError> {
    let _reserve = Reserve::begun(size)?;
    let given = run();
    if is_begun() { Err(AllocError) } else { Ok(given) }
}

#[cfg(test)]
mod tests {
    use super::*;
    use std::sync::atomic::AtomicBool;

    /// An allocator that refuses on one thread while it is told so.
    struct Refusing;

    static REFUSES: AtomicBool = AtomicBool::new(false);

    // SAFETY: it is that of std, or refuses.
    unsafe impl GlobalAlloc for Refusing {
        unsafe fn alloc(&self, layout: Layout) -> *mut u8 {
            if REFUSES.load(Ordering::Relaxed) {
                return ptr::null_mut();
            }
            // SAFETY: the caller's promise is handed on.
            unsafe { System.alloc(layout) }
        }

        unsafe fn dealloc(&self, place: *mut u8, layout: Layout) {
            // SAFETY: as above.
            unsafe { System.dealloc(place, layout) }
        }
    }

    static ALLOCATOR: Reserving<Refusing> = Reserving::over(Refusing);

    /// Bytes of the allocator above.
    struct Bytes(*mut u8, Layout);

    impl Bytes {
        fn of(size: usize, alignment: usize) -> Option<Bytes> {
            let layout = Layout::from_size_align(size, alignment).ok()?;
            // SAFETY: no layout of these tests is empty.
            let place = unsafe { ALLOCATOR.alloc(layout) };
            (!place.is_null()).then_some(Bytes(place, layout))
        }

        fn grow(&mut self, size: usize) -> bool {
            // SAFETY: the place is this allocator's, of this layout, and the size is not 0.
            let place = unsafe { ALLOCATOR.realloc(self.0, self.1, size) };
            if !place.is_null() {
                *self = Bytes(place, Layout::from_size_align(size, self.1.align()).unwrap_or(self.1));
            }
            !place.is_null()
        }

        fn fill(&self, byte: u8) {
            // SAFETY: the place has as many bytes.
            unsafe { self.0.write_bytes(byte, self.1.size()) }
        }

        fn first(&self) -> u8 {
            // SAFETY: the bytes were filled.
            unsafe { self.0.read() }
        }

        fn free(self) {
            // SAFETY: the place is this allocator's, of this layout, and nothing uses it any more.
            unsafe { ALLOCATOR.dealloc(self.0, self.1) }
        }
    }

    #[test]
    fn what_is_refused_comes_out_of_the_reserve() {
        let mut before = Bytes::of(8, 8).expect("memory");
        before.fill(7);
        let given = within(4096, || {
            REFUSES.store(true, Ordering::Relaxed);
            let mut bytes = Bytes::of(100, 64).expect("a reserve");
            bytes.fill(9);
            assert_eq!(bytes.0.addr() % 64, 0);
            assert!(bytes.grow(300) && before.grow(64) && is_begun());
            let kept = (bytes.first(), before.first());
            assert!(Bytes::of(1 << 20, 1).is_none(), "the reserve is too small for this");
            bytes.free();
            REFUSES.store(false, Ordering::Relaxed);
            kept
        });
        assert_eq!(given, Err(AllocError));
        assert_eq!(before.first(), 7);
        before.free();
        assert!(!is_begun());
        assert_eq!(within(64, || Bytes::of(8, 8).map(Bytes::free)), Ok(Some(())));
    }
}
