//! Bytes lent to the library beside pages that nobody may touch: a read or a store there is a
//! segmentation fault, which ends the comparison. The numbers are those of x86-64 Linux.

use std::ffi::{c_int, c_long, c_void};
use std::{io, ptr, slice};

#[cfg(not(all(target_arch = "x86_64", target_os = "linux")))]
compile_error!("the pages and numbers of x86-64 Linux are needed");

const PAGE: usize = 4096;
const PROT_NONE: c_int = 0;
const PROT_READ: c_int = 1;
const PROT_WRITE: c_int = 2;
const MAP_PRIVATE: c_int = 0x02;
const MAP_ANONYMOUS: c_int = 0x20;

extern "C" {
    fn mmap(
        address: *mut c_void,
        length: usize,
        protection: c_int,
        flags: c_int,
        file: c_int,
        offset: c_long,
    ) -> *mut c_void;
    fn mprotect(address: *mut c_void, length: usize, protection: c_int) -> c_int;
    fn munmap(address: *mut c_void, length: usize) -> c_int;
}

/// Whole pages between two that are closed.
struct Pages {
    /// The closed page before them.
    mapping: *mut u8,
    /// Bytes of the pages between the closed ones.
    room: usize,
}

impl Pages {
    /// Open pages for so many bytes.
    fn new(length: usize) -> Pages {
        let room = length.next_multiple_of(PAGE);
        let flags = MAP_PRIVATE | MAP_ANONYMOUS;
        // SAFETY: a new mapping at an address that the system chooses replaces no other one.
        let mapping = unsafe { mmap(ptr::null_mut(), room + 2 * PAGE, PROT_NONE, flags, -1, 0) };
        // MAP_FAILED is -1
        assert_ne!(mapping.addr(), usize::MAX, "mmap: {}", io::Error::last_os_error());
        let pages = Pages { mapping: mapping.cast(), room };
        pages.protect(PROT_READ | PROT_WRITE);
        pages
    }

    fn start(&self) -> *mut u8 {
        // SAFETY: the mapping is longer than one page.
        unsafe { self.mapping.add(PAGE) }
    }

    /// Sets what may be done with the pages between the closed ones.
    fn protect(&self, protection: c_int) {
        // SAFETY: these pages are this mapping's, and nobody has a reference into them.
        let status = unsafe { mprotect(self.start().cast(), self.room, protection) };
        assert_eq!(status, 0, "mprotect: {}", io::Error::last_os_error());
    }
}

impl Drop for Pages {
    fn drop(&mut self) {
        // SAFETY: the whole mapping, which nobody uses any more.
        let status = unsafe { munmap(self.mapping.cast(), self.room + 2 * PAGE) };
        assert_eq!(status, 0, "munmap: {}", io::Error::last_os_error());
    }
}

pub struct Lent {
    /// None for the null pointer.
    pages: Option<Pages>,
    start: *mut u8,
    length: usize,
    /// The way of lending in words.
    pub way: &'static str,
}

impl Lent {
    /// Every way to lend these bytes: first in their pages, last in their pages, and as a null
    /// pointer where there are none.
    pub fn ways(bytes: &[u8]) -> Vec<Lent> {
        let mut ways = vec![Lent::first(bytes), Lent::last(bytes)];
        if bytes.is_empty() {
            let null = ptr::null_mut();
            ways.push(Lent { pages: None, start: null, length: 0, way: "null" });
        }
        ways
    }

    /// The same ways for bytes that are only to be read: a store into them is a fault as well.
    pub fn read_only_ways(bytes: &[u8]) -> Vec<Lent> {
        let ways = Lent::ways(bytes);
        for pages in ways.iter().flat_map(|lent| &lent.pages) {
            pages.protect(PROT_READ);
        }
        ways
    }

    fn first(bytes: &[u8]) -> Lent {
        Lent::at(0, bytes, "first in their pages")
    }

    fn last(bytes: &[u8]) -> Lent {
        Lent::at(bytes.len().next_multiple_of(PAGE) - bytes.len(), bytes, "last in their pages")
    }

    /// The bytes at this place of new pages, which must have room for them there.
    fn at(place: usize, bytes: &[u8], way: &'static str) -> Lent {
        let pages = Pages::new(bytes.len());
        assert!(place + bytes.len() <= pages.room);
        // SAFETY: the bytes lie inside the pages, which are new and open.
        let start = unsafe {
            let start = pages.start().add(place);
            ptr::copy_nonoverlapping(bytes.as_ptr(), start, bytes.len());
            start
        };
        Lent { pages: Some(pages), start, length: bytes.len(), way }
    }

    pub fn as_ptr(&self) -> *const u8 {
        self.start
    }

    pub fn as_mut_ptr(&mut self) -> *mut u8 {
        self.start
    }

    pub fn len(&self) -> usize {
        self.length
    }

    pub fn bytes(&self) -> &[u8] {
        if self.length == 0 {
            return &[];
        }
        // SAFETY: the bytes lie inside the pages, which may be read, and are not written meanwhile.
        unsafe { slice::from_raw_parts(self.start, self.length) }
    }
}
