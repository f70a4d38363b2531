//! Buffers as they are lent to the library: between guard bytes, as blocks of their exact length, or against a page
//! that can be neither read nor written.

use std::ptr::null_mut;
use std::slice;

extern "C" {
    fn mmap(address: *mut u8, length: usize, protection: i32, flags: i32, file: i32, offset: i64) -> *mut u8;
    fn mprotect(address: *mut u8, length: usize, protection: i32) -> i32;
    fn malloc(size: usize) -> *mut u8;
    fn free(block: *mut u8);
}

const NONE: i32 = 0;
const READ: i32 = 1;
const READ_WRITE: i32 = 3;
const PRIVATE_ANONYMOUS: i32 = 0x22;
const PAGE: usize = 4096;

const GUARD: usize = 64;
const LONGEST: usize = 128;
const AREA: usize = GUARD + LONGEST + GUARD;

/// Where a buffer lies.
#[derive(Clone, Copy, PartialEq)]
pub enum Place {
    /// Between guard bytes that must not change.
    Guarded,
    /// In a block of its own, for valgrind to see what is outside it.
    Exact,
    /// Its end against an unreadable page.
    FencedEnd,
    /// Its start against an unreadable page.
    FencedStart,
}

pub struct Lent {
    place: Place,
    guards: [u8; AREA],
    area: Box<[u8; AREA]>,
    /// The block or page of this buffer, null for a guarded one.
    memory: *mut u8,
    start: usize,
    length: usize,
}

/// A readable page between two that are not.
fn fenced_page() -> *mut u8 {
    // SAFETY: a new mapping of three pages, which nothing else uses; the middle one lies inside it.
    unsafe {
        let pages = mmap(null_mut(), 3 * PAGE, NONE, PRIVATE_ANONYMOUS, -1, 0);
        assert!(pages as isize != -1, "mmap failed");
        let page = pages.add(PAGE);
        assert!(mprotect(page, PAGE, READ_WRITE) == 0, "mprotect failed");
        page
    }
}

impl Lent {
    pub fn new(place: Place) -> Lent {
        let mut guards = [0; AREA];
        for (i, guard) in guards.iter_mut().enumerate() {
            *guard = (i * 151 + 89) as u8;
        }
        let memory = if matches!(place, Place::FencedEnd | Place::FencedStart) { fenced_page() } else { null_mut() };
        Lent { place, guards, area: Box::new(guards), memory, start: GUARD, length: 0 }
    }

    /// Lends a buffer with these bytes in it. The turn moves a guarded buffer over all alignments.
    pub fn lend(&mut self, bytes: &[u8], turn: usize) -> *mut u8 {
        assert!(bytes.len() + 16 <= LONGEST);
        self.take_back();
        self.length = bytes.len();
        match self.place {
            Place::Guarded => self.start = GUARD + turn % 16,
            Place::Exact => {
                self.start = 0;
                // SAFETY: the last block is this buffer's own. A block of no bytes is a block too.
                self.memory = unsafe {
                    free(self.memory);
                    malloc(self.length)
                };
                assert!(!self.memory.is_null(), "malloc failed");
            }
            Place::FencedEnd => self.start = PAGE - self.length,
            Place::FencedStart => self.start = 0,
        }
        // SAFETY: start and length lie in the area, the block or the page, of which the address is a part.
        unsafe {
            let base = if self.place == Place::Guarded { self.area.as_mut_ptr() } else { self.memory };
            let lent = base.add(self.start);
            lent.copy_from_nonoverlapping(bytes.as_ptr(), bytes.len());
            lent
        }
    }

    /// Makes a fenced buffer read-only for a call that takes it as const, or takes that back.
    pub fn hold(&mut self, read_only: bool) {
        if matches!(self.place, Place::FencedEnd | Place::FencedStart) {
            // SAFETY: the page is this buffer's own.
            let failed = unsafe { mprotect(self.memory, PAGE, if read_only { READ } else { READ_WRITE }) };
            assert!(failed == 0, "mprotect failed");
        }
    }

    /// What the buffer holds now.
    pub fn bytes(&self) -> &[u8] {
        match self.place {
            Place::Guarded => &self.area[self.start..self.start + self.length],
            // SAFETY: start and length lie in the block or page, and no call is running.
            _ => unsafe { slice::from_raw_parts(self.memory.add(self.start), self.length) },
        }
    }

    /// Whether the guard bytes on both sides still stand.
    pub fn intact(&self) -> bool {
        let end = self.start + self.length;
        self.place != Place::Guarded
            || (self.area[..self.start] == self.guards[..self.start] && self.area[end..] == self.guards[end..])
    }

    /// Puts the guard bytes back where the last buffer was.
    fn take_back(&mut self) {
        if self.place == Place::Guarded {
            let end = self.start + self.length;
            self.area[self.start..end].copy_from_slice(&self.guards[self.start..end]);
        }
    }

    /// Puts all guard bytes back, after a fault.
    pub fn restore(&mut self) {
        *self.area = self.guards;
    }
}
