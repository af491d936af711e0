//! The calls as pongiwaru.h has them, over whatever is lent: words of any length, results in places of the caller's.
//! `State` is for those who need no more.
//!
//! Each call's pointers come from its slices and references, with the slices' own lengths, and Rust sees that what a
//! call may write overlaps nothing else: that is all that the header asks of its callers.
use crate::Rows;
#[cfg(linked)]
use crate::{header, LAYOUT, ROW_BYTES, VERSION};
#[cfg(linked)]
use std::sync::Once;

/// What a job's call gives beside words, rows and log.
#[derive(Debug, Clone, Copy, Default, PartialEq, Eq)]
pub struct Progress {
    pub written: usize,
    pub read: usize,
    pub index: u64,
    pub ended: bool,
}

#[cfg(not(linked))]
fn no_archive() -> ! {
    panic!("pongiwaru was built without its archive")
}

/// The archive's version and layout.
#[cfg(linked)]
pub fn version_and_layout() -> (u32, u32) {
    unsafe { (header::pongiwaru_version(), header::pongiwaru_layout()) }
}

/// Asked before the first call, once: the archive is the one that this crate's declarations are of.
#[cfg(linked)]
fn of_this_header() {
    static ASKED: Once = Once::new();
    ASKED.call_once(|| {
        assert_eq!(
            version_and_layout(),
            (VERSION, LAYOUT),
            "pongiwaru: version and layout of the archive and of its header"
        )
    })
}

#[cfg(linked)]
type Record =
    unsafe extern "C" fn(*mut u32, usize, *mut [u8; ROW_BYTES], *const u8, usize, *mut u8, usize, *mut u32) -> u32;

#[cfg(linked)]
fn record_by(
    call: Record,
    state: &mut [u32],
    rows: &mut Rows,
    record: &[u8],
    answer: &mut [u8],
    length: &mut u32,
) -> u32 {
    of_this_header();
    let (words, bytes, room) = (state.len(), record.len(), answer.len());
    unsafe {
        call(state.as_mut_ptr(), words, rows.as_mut_ptr(), record.as_ptr(), bytes, answer.as_mut_ptr(), room, length)
    }
}

/// One record, lent whole: the answer's number. The payload's length goes to `length`.
#[cfg(linked)]
pub fn record(state: &mut [u32], rows: &mut Rows, record: &[u8], answer: &mut [u8], length: &mut u32) -> u32 {
    record_by(header::pongiwaru_record, state, rows, record, answer, length)
}

/// .. by the slow engine: of JN, SU, UF and RD the same, of any other mark Malformed.
#[cfg(linked)]
pub fn check_record(state: &mut [u32], rows: &mut Rows, record: &[u8], answer: &mut [u8], length: &mut u32) -> u32 {
    record_by(header::pongiwaru_check_record, state, rows, record, answer, length)
}

/// How many bytes of the stream are left after the record at its head. State and rows are as they were.
#[cfg(linked)]
pub fn split(state: &mut [u32], rows: &mut Rows, stream: &[u8], rest: &mut usize) {
    of_this_header();
    let words = state.len();
    unsafe {
        header::pongiwaru_split(state.as_mut_ptr(), words, rows.as_mut_ptr(), stream.as_ptr(), stream.len(), rest)
    }
}

#[cfg(linked)]
type Lines = unsafe extern "C" fn(
    *mut u32,
    usize,
    *mut [u8; ROW_BYTES],
    *const u8,
    usize,
    bool,
    *mut u8,
    usize,
    *mut usize,
    *mut usize,
    *mut u64,
    *mut bool,
) -> u32;

#[cfg(linked)]
fn lines(
    call: Lines,
    state: &mut [u32],
    rows: &mut Rows,
    stream: &[u8],
    more: bool,
    log: &mut [u8],
    progress: &mut Progress,
) -> u32 {
    of_this_header();
    let (words, bytes, room) = (state.len(), stream.len(), log.len());
    let Progress { written, read, index, ended } = progress;
    unsafe {
        call(
            state.as_mut_ptr(),
            words,
            rows.as_mut_ptr(),
            stream.as_ptr(),
            bytes,
            more,
            log.as_mut_ptr(),
            room,
            written,
            read,
            index,
            ended,
        )
    }
}

/// A job's next lines, from `progress.index` on: 0, or 15.
#[cfg(linked)]
pub fn job(
    state: &mut [u32],
    rows: &mut Rows,
    stream: &[u8],
    more: bool,
    log: &mut [u8],
    progress: &mut Progress,
) -> u32 {
    lines(header::pongiwaru_job, state, rows, stream, more, log, progress)
}

/// A job's first lines, from a fresh state, whatever words and rows hold: 0, or 15.
#[cfg(linked)]
pub fn fresh_job(
    state: &mut [u32],
    rows: &mut Rows,
    stream: &[u8],
    more: bool,
    log: &mut [u8],
    progress: &mut Progress,
) -> u32 {
    lines(header::pongiwaru_fresh_job, state, rows, stream, more, log, progress)
}

#[cfg(not(linked))]
pub fn version_and_layout() -> (u32, u32) {
    no_archive()
}
#[cfg(not(linked))]
pub fn record(_: &mut [u32], _: &mut Rows, _: &[u8], _: &mut [u8], _: &mut u32) -> u32 {
    no_archive()
}
#[cfg(not(linked))]
pub fn check_record(_: &mut [u32], _: &mut Rows, _: &[u8], _: &mut [u8], _: &mut u32) -> u32 {
    no_archive()
}
#[cfg(not(linked))]
pub fn split(_: &mut [u32], _: &mut Rows, _: &[u8], _: &mut usize) {
    no_archive()
}
#[cfg(not(linked))]
pub fn job(_: &mut [u32], _: &mut Rows, _: &[u8], _: bool, _: &mut [u8], _: &mut Progress) -> u32 {
    no_archive()
}
#[cfg(not(linked))]
pub fn fresh_job(_: &mut [u32], _: &mut Rows, _: &[u8], _: bool, _: &mut [u8], _: &mut Progress) -> u32 {
    no_archive()
}
