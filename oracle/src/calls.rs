//! The public calls over a lent state: the engine's, where its archive is linked, and core.rs behind the same calls.
use crate::{
    job::{answer_text, Job, Outcome},
    lent::{encode, sound, Lent, Params, View},
    record,
};
use pongiwaru::lent;

/// of all records but MJ
pub const MIN_ANSWER: usize = pongiwaru::ANSWER_BYTES;
/// room that a log needs for one line more, of all records but MJ
pub const LINE: usize = pongiwaru::LINE_BYTES;

/// the marks that the slow engine has
pub const CHECKED: [&[u8]; 4] = [b"JN", b"SU", b"UF", b"RD"];

pub fn is_checked(record: &[u8]) -> bool {
    CHECKED.iter().any(|mark| record.starts_with(mark))
}

/// the same of the record at hand
pub use pongiwaru::{answer_bytes, line_bytes};

pub use pongiwaru::lent::Progress as Lines;

pub trait Calls {
    /// whether nodes, places and depth are counted as 01 says
    fn counts(&self) -> bool {
        true
    }
    /// One record, lent whole: the answer's number.
    fn record(&self, state: &mut [u32], params: &mut Params, record: &[u8], answer: &mut [u8], length: &mut u32)
        -> u32;
    /// whether the slow engine is asked beside this one
    fn checks(&self) -> bool {
        true
    }
    /// One record by the slow engine.
    fn check(&self, state: &mut [u32], params: &mut Params, record: &[u8], answer: &mut [u8], length: &mut u32) -> u32;
    /// How many bytes of the stream are left after one record.
    fn split(&self, state: &mut [u32], params: &mut Params, stream: &[u8], rest: &mut usize);
    /// A job's next lines, `lines.index` on: 0, or 15.
    fn job(
        &self,
        state: &mut [u32],
        params: &mut Params,
        stream: &[u8],
        more: bool,
        log: &mut [u8],
        lines: &mut Lines,
    ) -> u32;
}

//---- the engine ------------------------------------------------------------------------------------------

pub struct Engine;

impl Calls for Engine {
    fn record(
        &self,
        state: &mut [u32],
        params: &mut Params,
        record: &[u8],
        answer: &mut [u8],
        length: &mut u32,
    ) -> u32 {
        lent::record(state, params, record, answer, length)
    }

    fn check(&self, state: &mut [u32], params: &mut Params, record: &[u8], answer: &mut [u8], length: &mut u32) -> u32 {
        lent::check_record(state, params, record, answer, length)
    }

    fn split(&self, state: &mut [u32], params: &mut Params, stream: &[u8], rest: &mut usize) {
        lent::split(state, params, stream, rest)
    }

    fn job(
        &self,
        state: &mut [u32],
        params: &mut Params,
        stream: &[u8],
        more: bool,
        log: &mut [u8],
        lines: &mut Lines,
    ) -> u32 {
        lent::job(state, params, stream, more, log, lines)
    }
}

/// The engine; without its archive, none.
pub fn engine() -> Option<&'static (dyn Calls + Sync)> {
    pongiwaru::LINKED.then_some(&Engine as &(dyn Calls + Sync))
}

//---- core.rs behind the same calls, to try the harness itself -------------------------------------------------

pub struct Mimic;

/// The lent state as a job of core.rs's.
pub fn job_of(s: View) -> Job {
    let declared: Vec<_> = (0..s.structs()).map(|i| s.declared(i)).collect();
    Job::load(&s.state(), &declared)
}

/// A job's state in words, each type with nodes of its own; None where they do not fit.
pub fn lent_of(job: &Job) -> Option<Lent> {
    let declared: Vec<_> = (0..job.known().params.len()).map(|i| job.declared(i)).collect();
    encode(&job.state(), &declared)
}

impl Mimic {
    fn number(outcome: &Outcome) -> u32 {
        match outcome {
            Outcome::Core(n, _) | Outcome::Refused(n, _) => *n as u32,
            Outcome::Silent(_) => 0,
        }
    }

    /// writes the job's state back, if core.rs has one
    fn leave(job: &Job, state: &mut [u32], params: &mut Params) {
        if !job.has_state() {
            return;
        }
        let lent = lent_of(job).expect("a state of few nodes");
        state.copy_from_slice(&lent.words);
        *params = lent.params
    }
}

impl Calls for Mimic {
    /// it lays every type down anew
    fn counts(&self) -> bool {
        false
    }

    fn record(
        &self,
        state: &mut [u32],
        params: &mut Params,
        record: &[u8],
        answer: &mut [u8],
        length: &mut u32,
    ) -> u32 {
        *length = 0;
        if answer.len() < answer_bytes(record) || sound(state, params).is_err() {
            return 15;
        }
        let mut job = job_of(View { words: state, params });
        let outcome = match record::read_record(record, job.known()) {
            Err(x) => return x.number as u32,
            Ok((_, n)) if n < record.len() => return 5,
            Ok((r, _)) => job.record(&r),
        };
        if let Outcome::Core(_, payload) = &outcome {
            answer[..payload.len()].copy_from_slice(payload);
            *length = payload.len() as u32;
            Mimic::leave(&job, state, params)
        }
        Mimic::number(&outcome)
    }

    /// what the header says of it
    fn check(&self, state: &mut [u32], params: &mut Params, record: &[u8], answer: &mut [u8], length: &mut u32) -> u32 {
        *length = 0;
        match answer.len() < MIN_ANSWER || sound(state, params).is_err() {
            true => 15,
            false if is_checked(record) => self.record(state, params, record, answer, length),
            false => 5,
        }
    }

    fn split(&self, state: &mut [u32], params: &mut Params, stream: &[u8], rest: &mut usize) {
        *rest = stream.len();
        if sound(state, params).is_ok() {
            let job = job_of(View { words: state, params });
            *rest -= record::read_record(stream, job.known()).map_or(0, |(_, n)| n)
        }
    }

    fn job(
        &self,
        state: &mut [u32],
        params: &mut Params,
        stream: &[u8],
        more: bool,
        log: &mut [u8],
        lines: &mut Lines,
    ) -> u32 {
        *lines = Lines { index: lines.index, ..Lines::default() };
        if sound(state, params).is_err() {
            lines.ended = true;
            return 15;
        }
        let mut job = job_of(View { words: state, params });
        while lines.read < stream.len() && !lines.ended {
            let rest = &stream[lines.read..];
            if (more && rest.len() < 4096) || log.len() - lines.written < line_bytes(rest) {
                Mimic::leave(&job, state, params);
                return 0;
            }
            let (outcome, n) = job.next(rest);
            let line = format!("{} {}\n", lines.index, answer_text(&outcome));
            log[lines.written..lines.written + line.len()].copy_from_slice(line.as_bytes());
            (lines.written, lines.read, lines.index) = (lines.written + line.len(), lines.read + n, lines.index + 1);
            lines.ended = n == 0
        }
        lines.ended |= !more;
        Mimic::leave(&job, state, params);
        0
    }
}
