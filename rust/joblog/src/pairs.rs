//! A job gone through beside its log: each record with its line.
use crate::{
    names::Names,
    payload::{Answers, Outcome},
    record::{self, Record, Refusal},
};

/// An answer's number and word, and whether a job ends with it.
pub struct Word {
    pub number: usize,
    pub word: &'static str,
    pub ends: bool,
}

const fn goes_on(number: usize, word: &'static str) -> Word {
    Word { number, word, ends: false }
}
const fn ends(number: usize, word: &'static str) -> Word {
    Word { number, word, ends: true }
}

/// by rising number
pub const ANSWERS: [Word; 19] = [
    goes_on(0, "typed"),
    goes_on(1, "subtype error"),
    goes_on(2, "incompatible"),
    goes_on(3, "arity mismatch"),
    goes_on(4, "recursive type"),
    ends(5, "malformed"),
    ends(6, "unknown name"),
    goes_on(7, "full"),
    goes_on(8, "too deep"),
    goes_on(9, "runs into itself"),
    goes_on(10, "abilities disagree"),
    goes_on(11, "open variable"),
    goes_on(12, "no argument"),
    goes_on(13, "parameter twice"),
    goes_on(14, "answer too long"),
    goes_on(15, "unsound state"),
    goes_on(16, "ability mark contradicted"),
    goes_on(17, "already expanded"),
    ends(18, "doubled reference"),
];

fn of_number(number: usize) -> Option<&'static Word> {
    ANSWERS.iter().find(|a| a.number == number)
}

/// whether a job ends with this answer
pub fn ends_job(number: usize) -> bool {
    of_number(number).is_some_and(|a| a.ends)
}

pub fn word(number: usize) -> &'static str {
    of_number(number).map_or("no such answer", |a| a.word)
}

/// What a failed constraint's code says of its type, by code less 1; code 4 is told by ability and rule.
pub const FAILURES: [&str; 3] = ["is no integer type", "is no base type", "is no single type"];

/// Record `n`, which begins at byte `at` of the job, and its line.
pub struct Pair<'a> {
    pub n: usize,
    pub at: usize,
    /// all that is left where it is not read
    pub bytes: &'a [u8],
    /// where it is not read: the places where reading may have stopped
    pub read: Result<Record, Vec<Refusal>>,
    pub number: usize,
    pub raw: Vec<u8>,
    pub payload: Outcome,
    /// whether a KP stands before it: variables may have other numbers than those that they were taken with
    pub moved: bool,
}

impl Pair<'_> {
    /// the names that hold here: a variable's up to the first KP
    pub fn names<'n>(&self, names: Names<'n>) -> Names<'n> {
        if self.moved {
            names.without_variables()
        } else {
            names
        }
    }
}

pub struct Pairs<'a> {
    stream: &'a [u8],
    at: usize,
    n: usize,
    log: &'a str,
    /// whether lines that begin with `#` are left out
    notes: bool,
    answers: Answers,
    moved: bool,
    ended: bool,
}

/// A line as joinlog writes it: digits without zeros before them, hexadecimal digits in lower case, one space between.
fn line_of(line: &str, n: usize) -> Option<(usize, Vec<u8>)> {
    let (place, rest) = line.split_once(' ')?;
    let (digits, payload) = rest.split_once(' ').map_or((rest, None), |(d, p)| (d, Some(p)));
    let number: usize = digits.parse().ok().filter(|n: &usize| n.to_string() == digits)?;
    let plain = |p: &str| !p.is_empty() && p.bytes().all(|b| matches!(b, b'0'..=b'9' | b'a'..=b'f'));
    let raw = match payload {
        Some(p) => record::unhex(Some(p).filter(|p| plain(p))?)?,
        None => vec![],
    };
    (place == n.to_string()).then_some((number, raw))
}

impl<'a> Pairs<'a> {
    /// A job's log as joinlog writes it.
    pub fn of_log(stream: &'a [u8], log: &'a str) -> Self {
        Pairs { stream, at: 0, n: 0, log, notes: false, answers: Answers::new(), moved: false, ended: false }
    }

    /// The same, with lines that begin with `#` left out: core.rs's logs may have such notes.
    pub fn new(stream: &'a [u8], log: &'a str) -> Self {
        Pairs { notes: true, ..Pairs::of_log(stream, log) }
    }

    /// how many parameters each struct has that is declared so far
    pub fn params(&self) -> &[usize] {
        &self.answers.known().params
    }

    /// the next line, without its line break; a line without one is none
    fn line(&mut self) -> Result<Option<&'a str>, String> {
        while !self.log.is_empty() {
            let (line, rest) = self.log.split_once('\n').ok_or("its last line has no line break")?;
            self.log = rest;
            if !(self.notes && line.starts_with('#')) {
                return Ok(Some(line));
            }
        }
        Ok(None)
    }

    fn one(&mut self) -> Result<Pair<'a>, String> {
        let (n, at, rest) = (self.n, self.at, &self.stream[self.at..]);
        let line = self.line()?.ok_or(format!("it is too short: no line for record {} and those after it", n))?;
        if line.ends_with(" -") {
            return Err(format!("record {}: core.rs does not end here, so there is no answer", n));
        }
        let short: String = line.chars().take(80).collect();
        let (number, raw) = line_of(line, n).ok_or(format!("record {}: `{}` is not its line", n, short))?;
        if ends_job(number) {
            return self.not_read(number, raw);
        }
        let (r, length) = record::read_record(rest, self.answers.known()).map_err(|x| {
            format!("record {} cannot be read (byte {}: {}), and its answer is {}", n, x.at, x.rule, number)
        })?;
        let payload = self.answers.of_record(&r, number, &raw).map_err(|e| format!("record {}: {}", n, e))?;
        self.at += length;
        let moved = self.moved;
        self.moved |= matches!(r, Record::KP(_));
        Ok(Pair { n, at, bytes: &rest[..length], read: Ok(r), number, raw, payload, moved })
    }

    fn not_read(&mut self, number: usize, raw: Vec<u8>) -> Result<Pair<'a>, String> {
        let (n, at, bytes) = (self.n, self.at, &self.stream[self.at..]);
        let stops = self.answers.stops(bytes, number);
        if stops.is_empty() || !raw.is_empty() {
            return Err(format!("record {} is not one that is answered with {}", n, number));
        }
        self.at = self.stream.len();
        let (payload, moved) = (Outcome::Refused(number), self.moved);
        Ok(Pair { n, at, bytes, read: Err(stops), number, raw, payload, moved })
    }
}

/// Err, and nothing after it: what in the log does not fit the job.
impl<'a> Iterator for Pairs<'a> {
    type Item = Result<Pair<'a>, String>;

    fn next(&mut self) -> Option<Self::Item> {
        let done = self.at == self.stream.len();
        let pair = match (self.ended, done) {
            (true, _) => return None,
            (_, true) => match self.line() {
                Ok(None) => return None,
                Ok(Some(_)) => Err("it has more lines than the job has records".into()),
                Err(e) => Err(e),
            },
            _ => self.one(),
        };
        self.ended = done || pair.is_err();
        self.n += 1;
        Some(pair)
    }
}
