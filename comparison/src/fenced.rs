//! Bytes between two pages that nobody may touch: a read or write past either end of a buffer ends the test. Linux only.

use std::ffi::{c_int, c_long, c_void};

extern "C" {
    fn mmap(
        at: *mut c_void,
        length: usize,
        protection: c_int,
        flags: c_int,
        file: c_int,
        offset: c_long,
    ) -> *mut c_void;
    fn mprotect(at: *mut c_void, length: usize, protection: c_int) -> c_int;
    fn munmap(at: *mut c_void, length: usize) -> c_int;
    fn sysconf(name: c_int) -> c_long;
}

const PROT_NONE: c_int = 0;
const PROT_READ_WRITE: c_int = 1 | 2;
const MAP_PRIVATE_ANONYMOUS: c_int = 0x02 | 0x20;
const SC_PAGESIZE: c_int = 30;

/// The most bytes that a fenced buffer may have.
const ROOM: usize = 1 << 20;

/// Which fence a buffer touches.
#[derive(Clone, Copy, PartialEq, Eq, Debug)]
pub enum Side {
    Before,
    Behind,
}

/// Room for one buffer, used for one case after the other.
pub struct Fenced {
    base: *mut u8,
    page: usize,
}

impl Default for Fenced {
    fn default() -> Fenced {
        // SAFETY: a new private mapping overlaps nothing; the protection that is given up covers its middle only.
        unsafe {
            let page = sysconf(SC_PAGESIZE) as usize;
            let length = ROOM + 2 * page;
            let base = mmap(std::ptr::null_mut(), length, PROT_NONE, MAP_PRIVATE_ANONYMOUS, -1, 0).cast::<u8>();
            assert!(base as isize != -1, "no memory for a fenced buffer");
            let opened = mprotect(base.add(page).cast(), ROOM, PROT_READ_WRITE);
            assert!(opened == 0, "a fenced buffer cannot be opened");
            Fenced { base, page }
        }
    }
}

impl Fenced {
    /// The bytes, put against the fence on this side.
    pub fn lend(&mut self, bytes: &[u8], side: Side) -> &mut [u8] {
        assert!(bytes.len() <= ROOM, "{} bytes", bytes.len());
        let offset = match side {
            Side::Before => 0,
            Side::Behind => ROOM - bytes.len(),
        };
        // SAFETY: the middle of the mapping is ROOM bytes that can be read and written, and lent once at a time.
        let lent = unsafe { std::slice::from_raw_parts_mut(self.base.add(self.page + offset), bytes.len()) };
        lent.copy_from_slice(bytes);
        lent
    }
}

impl Drop for Fenced {
    fn drop(&mut self) {
        // SAFETY: the mapping was made in `default`, and nothing that was lent from it is left.
        unsafe { munmap(self.base.cast(), ROOM + 2 * self.page) };
    }
}
