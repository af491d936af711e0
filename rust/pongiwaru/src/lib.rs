//! Join, subtype, substitution, instantiation and constraints of Move's types: the public calls of the proved static
//! library, without `unsafe` for its users. docs/RECORDS.md has records, answers and the log; what each call gives,
//! whatever it is lent, is proved (crates/exports/src/lib.rt).
//!
//! ```
//! use pongiwaru::{Answer, State};
//!
//! let mut state = State::fresh();
//! let (answer, payload) = state.record(b"NV\x01\0\0\0");
//! assert_eq!((answer, &payload[..]), (Answer::Ran, &b"\x06\x01\0\0\0\0\0"[..]));
//! ```
mod answer;
mod header;
pub mod lent;
mod state;

pub use answer::Answer;
pub use state::{Lines, State};

/// whether the archive is linked; only with the feature `optional-archive` it may not be
pub const LINKED: bool = cfg!(linked);

/// The version of records, answers and calls; and of what the words and rows of a state mean, to be kept beside a kept state.
pub const VERSION: u32 = header::VERSION;
pub const LAYOUT: u32 = header::LAYOUT;

/// `u32` words of a state, and its rows of parameter bytes
pub const WORDS: usize = header::WORDS as usize;
pub const ROWS: usize = header::ROWS as usize;
pub const ROW_BYTES: usize = header::ROW_BYTES as usize;
pub type Rows = [[u8; ROW_BYTES]; ROWS];

/// the most that a record has; the least answer buffer; the room that a log needs for one line more. Of a record whose first
/// two bytes are MJ the last two: `answer_bytes` and `line_bytes` tell by the bytes
pub const RECORD_BYTES: usize = header::RECORD_BYTES as usize;
pub const ANSWER_BYTES: usize = header::ANSWER_BYTES as usize;
pub const LINE_BYTES: usize = header::LINE_BYTES as usize;
pub const MANY_ANSWER_BYTES: usize = header::MANY_ANSWER_BYTES as usize;
pub const MANY_LINE_BYTES: usize = header::MANY_LINE_BYTES as usize;

/// The least answer buffer for a record.
pub fn answer_bytes(record: &[u8]) -> usize {
    if record.starts_with(b"MJ") {
        MANY_ANSWER_BYTES
    } else {
        ANSWER_BYTES
    }
}

/// The room that a log needs for the line of the record at the head of a stream.
pub fn line_bytes(stream: &[u8]) -> usize {
    if stream.starts_with(b"MJ") {
        MANY_LINE_BYTES
    } else {
        LINE_BYTES
    }
}

/// the constants of pongiwaru.h
pub const HEADER: &[(&str, u32)] = &header::CONSTANTS;
