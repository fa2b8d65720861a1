//! Check, Report, Name and rehearsals of the examiner, through its C exports
//! (crates/bithoven_examiner/include/bithoven_examiner.h).
//!
//! `safe` is a wrapper for others to copy. What stands here is for the harness, which wants the words as they were written: a
//! call takes up to 0.19 MB of stack, so make it on a thread that has more.

pub mod safe;

extern "C" {
    fn bithoven_check(listing: *const u8, length: usize, answer: *mut u32) -> u32;
    fn bithoven_report(listing: *const u8, length: usize, output: *mut u8, room: usize, answer: *mut u32) -> usize;
    fn bithoven_name(listing: *const u8, length: usize, path: u32, position: u32, place: *mut u32) -> u32;
    fn bithoven_rehearse_open(
        listing: *const u8,
        length: usize,
        path: u32,
        rehearsal: *mut u32,
        due: *mut u32,
        answer: *mut u32,
    ) -> u32;
    fn bithoven_rehearse_lay(
        listing: *const u8,
        length: usize,
        name: *const u8,
        name_length: usize,
        kind: u32,
        rehearsal: *mut u32,
        due: *mut u32,
        answer: *mut u32,
    ) -> u32;
    fn bithoven_rehearse_take_back(
        listing: *const u8,
        length: usize,
        rehearsal: *mut u32,
        due: *mut u32,
        answer: *mut u32,
    ) -> u32;
}

/// Number, start, end, line, column; all 0 if the listing is accepted.
pub type Numbers = [u32; 5];

/// What the words of an answer hold before a call, so that one which is not written shows.
const UNWRITTEN: u32 = 0xdead_beef;

/// Check: what it returns, and the answer.
pub fn check(listing: &[u8]) -> (u32, Numbers) {
    let mut answer = [UNWRITTEN; 5];
    // SAFETY: the slice is as long as said, and the answer has five words.
    let returned = unsafe { bithoven_check(listing.as_ptr(), listing.len(), answer.as_mut_ptr()) };
    (returned, answer)
}

/// Report: the length that it returns, and the answer.
pub fn report(listing: &[u8], output: &mut [u8]) -> (usize, Numbers) {
    let mut answer = [UNWRITTEN; 5];
    // SAFETY: the slices are as long as said and do not overlap, and the answer has five words.
    let length =
        unsafe { bithoven_report(listing.as_ptr(), listing.len(), output.as_mut_ptr(), output.len(), answer.as_mut_ptr()) };
    (length, answer)
}

/// Name: what it returns, and the place and length of the name.
pub fn name(listing: &[u8], path: u32, position: u32) -> (u32, [u32; 2]) {
    let mut place = [UNWRITTEN; 2];
    // SAFETY: the slice is as long as said, and the place has two words.
    let returned = unsafe { bithoven_name(listing.as_ptr(), listing.len(), path, position, place.as_mut_ptr()) };
    (returned, place)
}

/// What a rehearsal's calls are handed and write.
#[derive(Clone, Copy, Debug, PartialEq, Eq)]
pub struct Words {
    /// Path and position due.
    pub rehearsal: [u32; 2],
    /// 1, place of the name in the listing, its length, type; four zeros if the rehearsal has ended.
    pub due: [u32; 4],
}

/// Opens a rehearsal: what it returns, and the answer.
pub fn rehearse_open(listing: &[u8], path: u32, words: &mut Words) -> (u32, Numbers) {
    let mut answer = [UNWRITTEN; 5];
    let (rehearsal, due) = (words.rehearsal.as_mut_ptr(), words.due.as_mut_ptr());
    // SAFETY: the slice is as long as said, and the words are two, four and five.
    let returned =
        unsafe { bithoven_rehearse_open(listing.as_ptr(), listing.len(), path, rehearsal, due, answer.as_mut_ptr()) };
    (returned, answer)
}

/// Lays an item: what it returns, and the answer. The name must not be a part of the listing's memory.
pub fn rehearse_lay(listing: &[u8], name: &[u8], kind: u32, words: &mut Words) -> (u32, Numbers) {
    let mut answer = [UNWRITTEN; 5];
    let (rehearsal, due, numbers) = (words.rehearsal.as_mut_ptr(), words.due.as_mut_ptr(), answer.as_mut_ptr());
    let (at, length) = (name.as_ptr(), name.len());
    // SAFETY: the slices are as long as said, and the words are two, four and five.
    let returned =
        unsafe { bithoven_rehearse_lay(listing.as_ptr(), listing.len(), at, length, kind, rehearsal, due, numbers) };
    (returned, answer)
}

/// Takes an item back: what it returns, and the answer.
pub fn rehearse_take_back(listing: &[u8], words: &mut Words) -> (u32, Numbers) {
    let mut answer = [UNWRITTEN; 5];
    let (rehearsal, due) = (words.rehearsal.as_mut_ptr(), words.due.as_mut_ptr());
    // SAFETY: the slice is as long as said, and the words are two, four and five.
    let returned =
        unsafe { bithoven_rehearse_take_back(listing.as_ptr(), listing.len(), rehearsal, due, answer.as_mut_ptr()) };
    (returned, answer)
}
