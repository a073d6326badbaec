//! The functions of `include/yarrowbeam.h` on slices; their answers are still numbers.
//!
//! What they ask of a caller, slices give: all bytes of a slice can be read, of a `&mut` one written too, and nobody else writes
//! them; and a `&mut` slice overlaps no other.

mod c {
    extern "C" {
        pub fn fresh(d: *const u8, d_length: usize, out: *mut u8, out_length: usize) -> i64;
        pub fn record(
            d: *const u8,
            d_length: usize,
            s: *const u8,
            s_length: usize,
            event: u32,
            out: *mut u8,
            out_length: usize,
        ) -> i64;
        pub fn judge(d: *const u8, d_length: usize, s: *const u8, s_length: usize, event: u32) -> i64;
        pub fn known(d: *const u8, d_length: usize, s: *const u8, s_length: usize) -> i64;
        pub fn count(
            d: *const u8,
            d_length: usize,
            s: *const u8,
            s_length: usize,
            places: *const u8,
            places_length: usize,
            n: u32,
            described: *mut u8,
            described_length: usize,
            out: *mut u8,
            out_length: usize,
        ) -> i64;
        pub fn older(d: *const u8, d_length: usize, s: *const u8, s_length: usize, out: *mut u8, out_length: usize) -> i64;
        pub fn dense(d: *const u8, d_length: usize, s: *const u8, s_length: usize, out: *mut u8, out_length: usize) -> i64;
        pub fn sparse(d: *const u8, d_length: usize, s: *const u8, s_length: usize, out: *mut u8, out_length: usize) -> i64;
    }
}

#[inline]
pub fn fresh(d: &[u8], out: &mut [u8]) -> i64 {
    // SAFETY: both are slices, and `out`, being `&mut`, does not overlap `d`.
    unsafe { c::fresh(d.as_ptr(), d.len(), out.as_mut_ptr(), out.len()) }
}

#[inline]
pub fn record(d: &[u8], s: &[u8], event: u32, out: &mut [u8]) -> i64 {
    // SAFETY: all three are slices, and `out`, being `&mut`, overlaps neither `d` nor `s`; any event number may be asked for.
    unsafe { c::record(d.as_ptr(), d.len(), s.as_ptr(), s.len(), event, out.as_mut_ptr(), out.len()) }
}

#[inline]
pub fn judge(d: &[u8], s: &[u8], event: u32) -> i64 {
    // SAFETY: both are slices, which are only read; any event number may be asked for.
    unsafe { c::judge(d.as_ptr(), d.len(), s.as_ptr(), s.len(), event) }
}

#[inline]
pub fn known(d: &[u8], s: &[u8]) -> i64 {
    // SAFETY: both are slices, which are only read.
    unsafe { c::known(d.as_ptr(), d.len(), s.as_ptr(), s.len()) }
}

#[inline]
pub fn count(d: &[u8], s: &[u8], places: &[u8], n: u32, described: &mut [u8], out: &mut [u8]) -> i64 {
    // SAFETY: all five are slices, and `described` and `out`, being `&mut`, overlap no other; any number may be counted.
    unsafe {
        c::count(
            d.as_ptr(),
            d.len(),
            s.as_ptr(),
            s.len(),
            places.as_ptr(),
            places.len(),
            n,
            described.as_mut_ptr(),
            described.len(),
            out.as_mut_ptr(),
            out.len(),
        )
    }
}

#[inline]
pub fn older(d: &[u8], s: &[u8], out: &mut [u8]) -> i64 {
    // SAFETY: all three are slices, and `out`, being `&mut`, overlaps neither `d` nor `s`.
    unsafe { c::older(d.as_ptr(), d.len(), s.as_ptr(), s.len(), out.as_mut_ptr(), out.len()) }
}

#[inline]
pub fn dense(d: &[u8], s: &[u8], out: &mut [u8]) -> i64 {
    // SAFETY: all three are slices, and `out`, being `&mut`, overlaps neither `d` nor `s`.
    unsafe { c::dense(d.as_ptr(), d.len(), s.as_ptr(), s.len(), out.as_mut_ptr(), out.len()) }
}

#[inline]
pub fn sparse(d: &[u8], s: &[u8], out: &mut [u8]) -> i64 {
    // SAFETY: all three are slices, and `out`, being `&mut`, overlaps neither `d` nor `s`.
    unsafe { c::sparse(d.as_ptr(), d.len(), s.as_ptr(), s.len(), out.as_mut_ptr(), out.len()) }
}
