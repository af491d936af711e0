//! A caller that lends: its buffers stand between guards, and each call is held to what every answer leaves alone.
use crate::{
    calls::{is_checked, Calls, Lines, CHECKED, MIN_ANSWER},
    count::{used, Used},
    lent::{sound, Lent, Params, View, MAX_STRUCTS},
};
use std::sync::atomic::{AtomicUsize, Ordering::Relaxed};

const GUARD: usize = 64;
const GUARD_BYTE: u8 = 0xa5;
const GUARD_WORD: u32 = 0xa5a5_a5a5;

/// What a call did that no call may do.
pub type Fault = String;

fn fault<T>(what: impl Into<String>) -> Result<T, Fault> {
    Err(what.into())
}

/// Elements between guards.
pub struct Guarded<T> {
    all: Vec<T>,
    guard: T,
}

impl<T: Copy + PartialEq> Guarded<T> {
    pub fn new(of: &[T], guard: T) -> Self {
        let edge = [guard; GUARD];
        Guarded { all: [&edge, of, &edge].concat(), guard }
    }
    pub fn get(&self) -> &[T] {
        &self.all[GUARD..self.all.len() - GUARD]
    }
    pub fn get_mut(&mut self) -> &mut [T] {
        let end = self.all.len() - GUARD;
        &mut self.all[GUARD..end]
    }
    /// other contents, and as many
    pub fn put(&mut self, of: &[T]) {
        let edge = [self.guard; GUARD];
        self.all.clear();
        self.all.extend_from_slice(&edge);
        self.all.extend_from_slice(of);
        self.all.extend_from_slice(&edge);
    }
    pub fn unhurt(&self) -> bool {
        let end = self.all.len() - GUARD;
        self.all[..GUARD].iter().chain(&self.all[end..]).all(|x| *x == self.guard)
    }
}

/// Words and parameter bytes that are lent, the buffers beside them, and what they held before the last call.
pub struct Lender<'a> {
    pub calls: &'a dyn Calls,
    words: Guarded<u32>,
    params: Guarded<[u8; 8]>,
    input: Guarded<u8>,
    output: Guarded<u8>,
    before: Lent,
    old_output: Vec<u8>,
    /// lends the same to the slow engine
    slow: Option<Box<Lender<'a>>>,
    /// records of other marks than the slow engine's
    others: usize,
}

/// Of other marks it is asked one record in so many.
const SHARE: usize = 8;

/// How many records the slow engine was asked, of each of its marks, and others.
static ASKED: [AtomicUsize; 5] = [const { AtomicUsize::new(0) }; 5];

/// .. in words
pub fn asked() -> String {
    let [jn, su, uf, rd, others] = [0, 1, 2, 3, 4].map(|i| ASKED[i].load(Relaxed));
    let all = jn + su + uf + rd;
    format!(
        "by the slow engine too: {} (JN {}, SU {}, UF {}, RD {}); of other marks: {}\n",
        all, jn, su, uf, rd, others
    )
}

/// The answer to one record.
#[derive(Debug, Clone, PartialEq, Eq)]
pub struct Answer {
    pub number: u32,
    pub payload: Vec<u8>,
}

impl<'a> Lender<'a> {
    pub fn new(calls: &'a dyn Calls, lent: &Lent) -> Lender<'a> {
        let slow = calls.checks().then(|| Lender::alone(calls, lent).into());
        Lender { slow, ..Lender::alone(calls, lent) }
    }

    /// .. to one engine alone
    pub fn alone(calls: &'a dyn Calls, lent: &Lent) -> Lender<'a> {
        Lender {
            calls,
            words: Guarded::new(&lent.words, GUARD_WORD),
            params: Guarded::new(&lent.params, [GUARD_BYTE; 8]),
            input: Guarded::new(&[], GUARD_BYTE),
            output: Guarded::new(&[], GUARD_BYTE),
            before: lent.clone(),
            old_output: vec![],
            slow: None,
            others: 0,
        }
    }

    pub fn words(&self) -> &[u32] {
        self.words.get()
    }
    pub fn words_mut(&mut self) -> &mut [u32] {
        self.words.get_mut()
    }
    pub fn params(&self) -> &Params {
        self.params.get().try_into().unwrap()
    }
    pub fn params_mut(&mut self) -> &mut Params {
        self.params.get_mut().try_into().unwrap()
    }
    pub fn view(&self) -> View<'_> {
        View { words: self.words(), params: self.params() }
    }
    pub fn lent(&self) -> Lent {
        Lent { words: self.words().to_vec(), params: *self.params() }
    }
    /// the state before the last call
    pub fn before(&self) -> View<'_> {
        self.before.view()
    }
    /// lends another state
    pub fn lend(&mut self, lent: &Lent) {
        if self.words().len() == lent.words.len() {
            self.words_mut().copy_from_slice(&lent.words)
        } else {
            self.words.put(&lent.words)
        }
        self.params_mut().copy_from_slice(&lent.params)
    }

    fn prepare(&mut self, input: &[u8], room: usize) {
        self.input.put(input);
        if self.old_output.len() != room {
            self.old_output = (0..room).map(|i| (i * 7 + 3) as u8).collect();
            let fill = self.old_output.clone();
            self.output.put(&fill)
        } else {
            self.output.get_mut().copy_from_slice(&self.old_output)
        }
        self.before.words.clear();
        self.before.words.extend_from_slice(self.words.get());
        self.before.params.copy_from_slice(self.params.get());
    }

    /// buffers touched before a call is timed
    pub fn warm(&mut self, room: usize) {
        self.prepare(&[], room)
    }

    /// guards, input, and the output past what was written
    fn kept(&self, input: &[u8], written: usize) -> Result<(), Fault> {
        for (unhurt, what) in [
            (self.words.unhurt(), "words"),
            (self.params.unhurt(), "parameter bytes"),
            (self.input.unhurt(), "input"),
            (self.output.unhurt(), "output"),
        ] {
            if !unhurt {
                return fault(format!("wrote beside the {}", what));
            }
        }
        if self.input.get() != input {
            return fault("wrote to its input");
        }
        if written > self.old_output.len() || self.output.get()[written..] != self.old_output[written..] {
            return fault(format!("wrote to its output past {} bytes", written));
        }
        Ok(())
    }

    /// rows in use before the last call
    pub fn used_before(&self) -> Used {
        used(View { words: &self.before.words, params: &self.before.params })
    }

    pub fn unchanged(&self) -> bool {
        self.words.get() == self.before.words && self.params.get() == self.before.params
    }

    /// One record with an answer buffer of `room` bytes. A refusal must leave words and buffer as they were.
    fn record_by(&mut self, slowly: bool, record: &[u8], room: usize) -> Result<Answer, Fault> {
        self.prepare(record, room);
        let mut length = Guarded::new(&[0xdead_beefu32], GUARD_WORD);
        let params: &mut Params = self.params.get_mut().try_into().unwrap();
        let call = if slowly { Calls::check } else { Calls::record };
        let number = call(
            self.calls,
            self.words.get_mut(),
            params,
            self.input.get(),
            self.output.get_mut(),
            &mut length.get_mut()[0],
        );
        let long = length.get()[0] as usize;
        if !length.unhurt() {
            return fault("wrote beside the length");
        }
        self.kept(record, long)?;
        if pongiwaru::Answer::of(number).is_none() || (number >= 5 && long != 0) {
            return fault(format!("answer {} with a payload of {} bytes", number, long));
        }
        if number >= 5 && !self.unchanged() {
            return fault(format!("answer {} changed the state: {}", number, self.first_change()));
        }
        Ok(Answer { number, payload: self.output.get()[..long].to_vec() })
    }

    /// .. by the slow engine
    pub fn check(&mut self, record: &[u8], room: usize) -> Result<Answer, Fault> {
        self.record_by(true, record, room)
    }

    /// .. by the engine, and beside it by the slow one: each of its marks, and some others.
    pub fn record(&mut self, record: &[u8], room: usize) -> Result<Answer, Fault> {
        let answer = self.record_by(false, record, room)?;
        self.others += !is_checked(record) as usize;
        if !is_checked(record) && self.others % SHARE != 0 {
            return Ok(answer);
        }
        let Some(mut slow) = self.slow.take() else { return Ok(answer) };
        slow.lend(&self.before);
        let told = slow.check(record, room).and_then(|slowly| self.same(&slow, record, room, &answer, &slowly));
        self.slow = Some(slow);
        told.map_err(|what| format!("the slow engine: {}", what)).map(|_| answer)
    }

    /// An MJ's 15 may be for its buffer.
    fn was_unsound(&self, record: &[u8], answer: &Answer) -> bool {
        let before = self.before();
        answer.number == 15 && (!record.starts_with(b"MJ") || sound(before.words, before.params).is_err())
    }

    /// Of its four marks the slow engine gives the same number, payload, words and parameter bytes, of others 5; 15 for a buffer
    /// that is too short for these four. What it may not touch `check` has looked at.
    fn same(&self, slow: &Lender, record: &[u8], room: usize, answer: &Answer, slowly: &Answer) -> Result<(), Fault> {
        let mark = CHECKED.iter().position(|mark| record.starts_with(mark));
        ASKED[mark.unwrap_or(4)].fetch_add(1, Relaxed);
        if !is_checked(record) {
            let wanted = if room < MIN_ANSWER || self.was_unsound(record, answer) { 15 } else { 5 };
            return match slowly.number {
                n if n == wanted => Ok(()),
                n => fault(format!("answer {}, and not {}, to a record of another mark", n, wanted)),
            };
        }
        if slowly != answer {
            let [n, m] = [answer, slowly].map(|a| (a.number, crate::record::hex(&a.payload)));
            return fault(format!("{} {}, and not {} {}", m.0, m.1, n.0, n.1));
        }
        match (self.words() == slow.words(), self.params() == slow.params()) {
            (true, true) => Ok(()),
            (false, _) => fault(format!("another {}", self.lent().first_other(&slow.lent()))),
            (_, false) => fault("other parameter bytes"),
        }
    }

    /// How many bytes the first record has.
    pub fn split(&mut self, stream: &[u8]) -> Result<usize, Fault> {
        self.prepare(stream, 0);
        let mut rest = Guarded::new(&[usize::MAX], usize::MAX / 3);
        let params: &mut Params = self.params.get_mut().try_into().unwrap();
        self.calls.split(self.words.get_mut(), params, self.input.get(), &mut rest.get_mut()[0]);
        self.kept(stream, 0)?;
        if !rest.unhurt() || !self.unchanged() {
            return fault("split wrote beside the rest or to the state");
        }
        let rest = rest.get()[0];
        stream.len().checked_sub(rest).ok_or(format!("split leaves {} of {} bytes", rest, stream.len()))
    }

    /// A job's next lines.
    pub fn job(&mut self, stream: &[u8], more: bool, room: usize, index: u64) -> Result<(u32, Lines, Vec<u8>), Fault> {
        self.prepare(stream, room);
        let mut lines = Lines { written: usize::MAX, read: usize::MAX, index, ended: false };
        let params: &mut Params = self.params.get_mut().try_into().unwrap();
        let number =
            self.calls.job(self.words.get_mut(), params, self.input.get(), more, self.output.get_mut(), &mut lines);
        self.kept(stream, lines.written)?;
        if lines.read > stream.len() {
            return fault("job read more than there is");
        }
        if number == 15 && !(self.unchanged() && lines == Lines { index, ended: true, ..Lines::default() }) {
            return fault("job refused the state and left something else");
        }
        Ok((number, lines, self.output.get()[..lines.written].to_vec()))
    }

    /// where the last call first changed something
    pub fn first_change(&self) -> String {
        let word = (0..self.words().len()).find(|i| self.words()[*i] != self.before.words[*i]);
        let row = (0..MAX_STRUCTS).find(|i| self.params()[*i] != self.before.params[*i]);
        match (word, row) {
            (Some(i), _) => crate::lent::place_of_word(i),
            (_, Some(i)) => format!("parameter bytes of struct {}", i),
            _ => "nothing".into(),
        }
    }
}
