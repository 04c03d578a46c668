//! Stand-ins for the arena: `Allocator`, `CloneIn` and `ArenaVec`.
//!
//! Memory is handed out by moving a pointer forward and is only taken back by
//! `Allocator::reset`, as in the arena that the Rust source is written for.

use std::alloc::{Layout, alloc, dealloc, handle_alloc_error};
use std::cell::{Cell, RefCell};
use std::fmt;
use std::marker::PhantomData;
use std::ops::Deref;
use std::ptr::{self, NonNull};

const FIRST_CHUNK: usize = 64 * 1024;
const CHUNK_ALIGN: usize = 16;

/// An arena. Values put in it are never dropped.
pub struct Allocator {
    chunks: RefCell<Vec<Chunk>>,
    /// The next free byte and the end of the newest chunk.
    next: Cell<usize>,
    end: Cell<usize>,
}

struct Chunk {
    start: NonNull<u8>,
    layout: Layout,
}

impl Chunk {
    fn new(size: usize) -> Self {
        let layout = Layout::from_size_align(size, CHUNK_ALIGN).expect("a chunk fits in memory");
        // SAFETY: the size is not zero.
        let start = unsafe { alloc(layout) };
        let Some(start) = NonNull::new(start) else { handle_alloc_error(layout) };
        Self { start, layout }
    }

    fn address(&self) -> usize {
        self.start.as_ptr().expose_provenance()
    }
}

impl Drop for Chunk {
    fn drop(&mut self) {
        // SAFETY: made by `alloc` with this layout.
        unsafe { dealloc(self.start.as_ptr(), self.layout) }
    }
}

impl Default for Allocator {
    fn default() -> Self {
        Self { chunks: RefCell::default(), next: Cell::new(0), end: Cell::new(0) }
    }
}

impl Allocator {
    /// Takes back all memory and keeps the newest, largest chunk for later use.
    /// The borrow rules see to it that nothing of the arena is still in use.
    pub fn reset(&mut self) {
        let chunks = self.chunks.get_mut();
        if let Some(newest) = chunks.pop() {
            chunks.clear();
            self.next.set(newest.address());
            self.end.set(newest.address() + newest.layout.size());
            chunks.push(newest);
        }
    }

    #[inline]
    fn allocate(&self, layout: Layout) -> NonNull<u8> {
        let start = self.next.get().next_multiple_of(layout.align());
        let end = start + layout.size();
        if start == 0 || end > self.end.get() {
            return self.allocate_in_new_chunk(layout);
        }
        self.next.set(end);
        NonNull::new(ptr::with_exposed_provenance_mut(start)).expect("not at address 0")
    }

    #[cold]
    fn allocate_in_new_chunk(&self, layout: Layout) -> NonNull<u8> {
        assert!(layout.align() <= CHUNK_ALIGN, "the arena holds no value of this alignment");
        let mut chunks = self.chunks.borrow_mut();
        let doubled = chunks.last().map_or(FIRST_CHUNK, |chunk| chunk.layout.size() * 2);
        let chunk = Chunk::new(doubled.max(layout.size()));
        self.next.set(chunk.address() + layout.size());
        self.end.set(chunk.address() + chunk.layout.size());
        let start = chunk.start;
        chunks.push(chunk);
        start
    }

    /// Makes the newest piece of memory longer where it stands, if it is the newest.
    #[inline]
    fn grow_in_place(&self, start: NonNull<u8>, old: usize, new: usize) -> bool {
        let start = start.as_ptr().addr();
        let newest = start + old == self.next.get() && start + new <= self.end.get();
        if newest {
            self.next.set(start + new);
        }
        newest
    }
}

/// The original's second argument of `clone_in_impl`; it plays no part here.
#[derive(Clone, Copy)]
pub struct CloneInSemanticIds;

pub trait CloneIn<'a> {
    type Cloned;

    fn clone_in_impl(&self, sem: CloneInSemanticIds, alloc: &'a Allocator) -> Self::Cloned;

    #[inline]
    fn clone_in(&self, alloc: &'a Allocator) -> Self::Cloned {
        self.clone_in_impl(CloneInSemanticIds, alloc)
    }
}

/// A growing list whose elements lie in the arena.
pub struct ArenaVec<'a, T: Copy> {
    start: NonNull<T>,
    length: usize,
    capacity: usize,
    alloc: &'a Allocator,
    elements: PhantomData<T>,
}

impl<'a, T: Copy> ArenaVec<'a, T> {
    /// The reference to a reference is how the original takes its allocator.
    pub fn new_in(alloc: &&'a Allocator) -> Self {
        Self { start: NonNull::dangling(), length: 0, capacity: 0, alloc, elements: PhantomData }
    }

    pub fn with_capacity_in(capacity: usize, alloc: &&'a Allocator) -> Self {
        let mut vec = Self::new_in(alloc);
        if capacity > 0 {
            vec.grow_to(capacity);
        }
        vec
    }

    pub fn from_iter_in<I: IntoIterator<Item = T>>(items: I, alloc: &&'a Allocator) -> Self {
        let items = items.into_iter();
        let mut vec = Self::with_capacity_in(items.size_hint().0, alloc);
        for item in items {
            vec.push(item);
        }
        vec
    }

    #[inline]
    pub fn push(&mut self, item: T) {
        if self.length == self.capacity {
            self.grow_to((self.capacity * 2).max(4));
        }
        // SAFETY: there is room for one more element.
        unsafe { self.start.add(self.length).write(item) };
        self.length += 1;
    }

    fn grow_to(&mut self, capacity: usize) {
        let old = size_of::<T>() * self.capacity;
        let new = Layout::array::<T>(capacity).expect("a list fits in memory");
        let grown = self.capacity > 0 && self.alloc.grow_in_place(self.start.cast(), old, new.size());
        if !grown {
            let start = self.alloc.allocate(new).cast::<T>();
            // SAFETY: both places hold `length` elements and do not overlap.
            unsafe { start.copy_from_nonoverlapping(self.start, self.length) };
            self.start = start;
        }
        self.capacity = capacity;
    }
}

impl<T: Copy> Deref for ArenaVec<'_, T> {
    type Target = [T];

    #[inline]
    fn deref(&self) -> &[T] {
        // SAFETY: the first `length` elements are written, and the arena outlives the list.
        unsafe { std::slice::from_raw_parts(self.start.as_ptr(), self.length) }
    }
}

impl<'v, T: Copy> IntoIterator for &'v ArenaVec<'_, T> {
    type Item = &'v T;
    type IntoIter = std::slice::Iter<'v, T>;

    #[inline]
    fn into_iter(self) -> Self::IntoIter {
        self.iter()
    }
}

impl<T: Copy + fmt::Debug> fmt::Debug for ArenaVec<'_, T> {
    fn fmt(&self, f: &mut fmt::Formatter<'_>) -> fmt::Result {
        f.debug_list().entries(self.iter()).finish()
    }
}

impl<'a, T: Copy + CloneIn<'a, Cloned = T>> CloneIn<'a> for ArenaVec<'_, T> {
    type Cloned = ArenaVec<'a, T>;

    fn clone_in_impl(&self, sem: CloneInSemanticIds, alloc: &'a Allocator) -> Self::Cloned {
        ArenaVec::from_iter_in(self.iter().map(|item| item.clone_in_impl(sem, alloc)), &alloc)
    }
}

#[cfg(test)]
mod tests {
    use super::*;

    impl CloneIn<'_> for u64 {
        type Cloned = u64;

        fn clone_in_impl(&self, _: CloneInSemanticIds, _: &Allocator) -> u64 {
            *self
        }
    }

    #[test]
    fn lists_that_grow_in_turn_keep_their_elements() {
        let mut arena = Allocator::default();
        for _ in 0..3 {
            let alloc = &arena;
            let mut lists: Vec<ArenaVec<u64>> = (0..7).map(|_| ArenaVec::new_in(&alloc)).collect();
            for step in 0..5000u64 {
                for (which, list) in lists.iter_mut().enumerate() {
                    list.push(step * 7 + which as u64);
                }
            }
            for (which, list) in lists.iter().enumerate() {
                let copy = list.clone_in(alloc);
                assert_eq!(copy.len(), 5000);
                assert!(copy.iter().enumerate().all(|(i, &x)| x == (i * 7 + which) as u64));
            }
            arena.reset();
        }
    }

    #[test]
    fn bytes_do_not_disturb_the_alignment_of_words() {
        let arena = Allocator::default();
        let alloc = &arena;
        let mut bytes = ArenaVec::new_in(&alloc);
        bytes.push(1u8);
        let words = ArenaVec::from_iter_in([2u64, 3], &alloc);
        assert_eq!((bytes[0], words[0], words[1]), (1, 2, 3));
        assert_eq!(words.as_ptr().addr() % 8, 0);
    }
}
