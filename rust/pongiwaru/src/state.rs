//! A state and the calls on it.
use crate::{
    answer_bytes,
    lent::{self, Progress},
    Answer, Rows, ANSWER_BYTES, MANY_LINE_BYTES, ROWS, ROW_BYTES, WORDS,
};

/// The words and rows that are lent to each call. They may be kept, with `LAYOUT` beside them, and lent again later.
#[derive(Clone, PartialEq, Eq)]
pub struct State {
    words: Vec<u32>,
    rows: Box<Rows>,
}

/// What a job's call did: how much of stream and log it used, and whether the job ended.
#[derive(Debug, Clone, Copy, PartialEq, Eq)]
pub struct Lines {
    /// Ran, or UnsoundState
    pub answer: Answer,
    pub read: usize,
    pub written: usize,
    pub ended: bool,
}

fn answer(number: u32) -> Answer {
    Answer::of(number).expect("pongiwaru: an answer that its header does not name")
}

impl State {
    /// Nothing taken or declared: all zero.
    pub fn fresh() -> State {
        State { words: vec![0; WORDS], rows: Box::new([[0; ROW_BYTES]; ROWS]) }
    }

    /// A kept state. Any words may be given: what is no sound state is answered with UnsoundState.
    pub fn kept(words: &[u32], rows: &Rows) -> State {
        State { words: words.to_vec(), rows: Box::new(*rows) }
    }
    pub fn words(&self) -> &[u32] {
        &self.words
    }
    pub fn rows(&self) -> &Rows {
        &self.rows
    }

    /// One record, whole: its answer and payload.
    pub fn record(&mut self, record: &[u8]) -> (Answer, Vec<u8>) {
        let mut payload = vec![0; answer_bytes(record)];
        let (answer, length) = self.record_in(record, &mut payload);
        payload.truncate(length);
        (answer, payload)
    }

    /// One record, its payload in front of `buffer`: the answer and the payload's length. A buffer of less than
    /// `answer_bytes(record)` is answered with UnsoundState.
    pub fn record_in(&mut self, record: &[u8], buffer: &mut [u8]) -> (Answer, usize) {
        let mut length = 0;
        let number = lent::record(&mut self.words, &mut self.rows, record, buffer, &mut length);
        (answer(number), length as usize)
    }

    /// JN, SU, UF or RD by the slow engine, to check `record` by: the same answer, payload and state. Another mark is answered with
    /// Malformed.
    pub fn check_record(&mut self, record: &[u8]) -> (Answer, Vec<u8>) {
        let (mut payload, mut length) = (vec![0; ANSWER_BYTES], 0);
        let number = lent::check_record(&mut self.words, &mut self.rows, record, &mut payload, &mut length);
        payload.truncate(length as usize);
        (answer(number), payload)
    }

    /// The record at the head of the stream, and what is left after it; no record, and all that there is, where it
    /// would be answered with Malformed, UnknownName or UnsoundState.
    pub fn split<'a>(&mut self, stream: &'a [u8]) -> (&'a [u8], &'a [u8]) {
        let mut rest = 0;
        lent::split(&mut self.words, &mut self.rows, stream, &mut rest);
        stream.split_at(stream.len() - rest)
    }

    /// The job's next lines into `log`, for as many records as the bytes hold whole and the log has room for
    /// (`LINE_BYTES` for each, `MANY_LINE_BYTES` for an MJ). `index` is the next record's number. With `more`, further bytes
    /// follow these, and a record is taken only where `RECORD_BYTES` are at hand.
    pub fn job(&mut self, stream: &[u8], more: bool, log: &mut [u8], index: &mut u64) -> Lines {
        let mut p = Progress { index: *index, ..Progress::default() };
        let number = lent::job(&mut self.words, &mut self.rows, stream, more, log, &mut p);
        *index = p.index;
        Lines { answer: answer(number), read: p.read, written: p.written, ended: p.ended }
    }

    /// A job's first lines, from a fresh state and record number 0, whatever this one holds; `job` goes on from them.
    pub fn fresh_job(&mut self, stream: &[u8], more: bool, log: &mut [u8], index: &mut u64) -> Lines {
        let mut p = Progress::default();
        let number = lent::fresh_job(&mut self.words, &mut self.rows, stream, more, log, &mut p);
        *index = p.index;
        Lines { answer: answer(number), read: p.read, written: p.written, ended: p.ended }
    }

    /// The log of a whole stream, record numbers from 0; None where the state is unsound.
    pub fn log(&mut self, stream: &[u8]) -> Option<Vec<u8>> {
        let (mut out, mut rest, mut index) = (vec![], stream, 0);
        let mut log = vec![0; MANY_LINE_BYTES];
        loop {
            let lines = self.job(rest, false, &mut log, &mut index);
            out.extend_from_slice(&log[..lines.written]);
            rest = &rest[lines.read..];
            match (lines.answer, lines.ended) {
                (Answer::UnsoundState, _) => return None,
                (_, true) => return Some(out),
                _ => (),
            }
        }
    }
}
