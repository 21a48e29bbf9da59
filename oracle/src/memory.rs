//! Memory at stated addresses below 4 GiB. The Rust takes a section's address from its pointer, cast to 32 bits.
use std::ptr;

extern "C" {
    fn mmap(at: *mut u8, len: usize, access: i32, flags: i32, file: i32, from: i64) -> *mut u8;
}

const NONE: i32 = 0;
const READ_WRITE: i32 = 3;
const PRIVATE_ANONYMOUS_FIXED_NOREPLACE: i32 = 0x02 | 0x20 | 0x100000;
const PAGE: usize = 4096;

fn map(at: usize, len: usize, access: i32) {
    let got = unsafe { mmap(at as *mut u8, len, access, PRIVATE_ANONYMOUS_FIXED_NOREPLACE, -1, 0) };
    assert!(got as usize == at, "no memory at {at:#x}");
}

/// Bytes from one address to another, with a page behind them that no one may touch.
pub struct Arena {
    start: usize,
    len: usize,
}

impl Arena {
    fn new(start: u32, len: usize) -> Arena {
        map(start as usize, len, READ_WRITE);
        map(start as usize + len, PAGE, NONE);
        Arena { start: start as usize, len }
    }

    /// One at the lowest address that can be had, one at either side of each quarter of the addresses, and one that ends at 2^32.
    pub fn all() -> Vec<Arena> {
        [0x0001_0000, 0x0800_0000, 0x3FFF_0000, 0x7FFF_0000, 0xBFFF_0000, 0xFFFE_0000].map(|at| Arena::new(at, 0x20000)).into()
    }

    /// Three more, for sections whose stated addresses are elsewhere.
    pub fn more() -> Vec<Arena> {
        [0x1000_0000, 0x1100_0000, 0x1200_0000].map(|at| Arena::new(at, 0x40000)).into()
    }

    pub fn size(&self) -> usize {
        self.len
    }

    /// The address of an offset.
    pub fn address(&self, offset: usize) -> u32 {
        (self.start + offset) as u32
    }

    /// Copies the bytes to an offset and lends them there.
    pub fn put(&mut self, bytes: &[u8], offset: usize) -> &[u8] {
        assert!(offset + bytes.len() <= self.len);
        unsafe {
            let to = (self.start + offset) as *mut u8;
            ptr::copy_nonoverlapping(bytes.as_ptr(), to, bytes.len());
            std::slice::from_raw_parts(to, bytes.len())
        }
    }

    /// Where the bytes end with the arena.
    pub fn put_last(&mut self, bytes: &[u8]) -> &[u8] {
        self.put(bytes, self.len - bytes.len())
    }
}

/// The address that the Rust takes for these bytes.
pub fn address(bytes: &[u8]) -> u32 {
    bytes.as_ptr() as usize as u32
}
