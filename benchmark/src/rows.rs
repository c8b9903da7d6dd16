//! The functions on bit rows (`./staticlib bench_rows`): how many bits are set,
//! and the lowest set one from a given bit on, by words and byte by byte.

/// The longest row, in bytes.
pub const MOST_BYTES: usize = 1_048_576;

mod raw {
    unsafe extern "C" {
        pub fn words_count(row: *const u8, length: usize) -> usize;
        pub fn words_next(row: *const u8, length: usize, from: usize) -> usize;
        pub fn bytes_count(row: *const u8, length: usize) -> usize;
        pub fn bytes_next(row: *const u8, length: usize, from: usize) -> usize;
    }
}

/// How a row is read.
#[derive(Clone, Copy, Debug, PartialEq)]
pub enum Way {
    Words,
    Bytes,
}

/// How many bits are set; nothing for a row of more than [`MOST_BYTES`].
#[inline(always)]
pub fn count(way: Way, row: &[u8]) -> Option<usize> {
    let count = match way {
        Way::Words => raw::words_count,
        Way::Bytes => raw::bytes_count,
    };
    // SAFETY: the pointer and the length are those of one slice.
    let answer = unsafe { count(row.as_ptr(), row.len()) };
    (answer != usize::MAX).then_some(answer)
}

/// The lowest set bit from a given one on, or the row's end; nothing for a row
/// of more than [`MOST_BYTES`].
#[inline(always)]
pub fn next(way: Way, row: &[u8], from: usize) -> Option<usize> {
    let next = match way {
        Way::Words => raw::words_next,
        Way::Bytes => raw::bytes_next,
    };
    // SAFETY: the pointer and the length are those of one slice.
    let answer = unsafe { next(row.as_ptr(), row.len(), from) };
    (answer != usize::MAX).then_some(answer)
}
