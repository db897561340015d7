//! The project's static library, which Rattle's own compiler made. It links into
//! x86-64 programs only; `build.sh` makes it there and sets `LIBRARY_A`.

use crate::side::Side;

#[cfg(not(feature = "library"))]
pub fn side() -> Option<Side> {
    None
}

#[cfg(feature = "library")]
pub fn side() -> Option<Side> {
    Some(Side { name: "library", read: linked::read, write: linked::write })
}

#[cfg(feature = "library")]
mod linked {
    use crate::side::{Read, Wrote};

    /// A slice is a pointer and a length.
    type Call = unsafe extern "C" fn(*const u8, usize, *mut u8, usize, *mut usize) -> u16;

    unsafe extern "C" {
        fn typical_read(a: *const u8, n: usize, out: *mut u8, room: usize, v: *mut usize) -> u16;
        fn typical_write(a: *const u8, n: usize, out: *mut u8, room: usize, v: *mut usize) -> u16;
    }

    fn call(function: Call, table: &[u8], out: &mut [u8]) -> (u16, usize) {
        let mut value = 0;
        // SAFETY: both are slices of these lengths, and nothing else borrows `out`.
        let status = unsafe {
            function(table.as_ptr(), table.len(), out.as_mut_ptr(), out.len(), &raw mut value)
        };
        (status, value)
    }

    pub fn read(table: &[u8], out: &mut [u8]) -> Read {
        match call(typical_read, table, out) {
            (0, length) => Read::Schema(length),
            (256, length) => Read::Errors(length),
            (number, offset) => Read::Refused(number, offset),
        }
    }

    pub fn write(table: &[u8], out: &mut [u8]) -> Wrote {
        match call(typical_write, table, out) {
            (0, length) => Wrote::Text(length),
            (number, offset) => Wrote::Refused(number, offset),
        }
    }
}
