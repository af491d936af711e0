//! What one answer says: from a record, the answer's number and its payload to a tree or failures. A 0 is no success by
//! itself: SV answers 0 also where constraints failed, XP also where a type could not be inferred, and their payloads
//! list these; MJ answers 0 whatever its pairs are answered. `Outcome::is_well` tells the two apart, and an answer that its
//! record cannot have is an error.
use crate::{
    fits::{State, MAX_VARS},
    pairs,
    record::{self, Known, Record, Refusal, Ty, TypingCase, ABILITIES},
};
use std::fmt;

/// the longest payload; of MJ that of each pair
pub const MAX_PAYLOAD: usize = 4096;
/// XP's code
pub const UNINFERRED: u8 = 5;

#[derive(Debug, Clone, PartialEq, Eq)]
#[non_exhaustive]
pub enum Outcome {
    /// 0 without payload: SN, NC, BC, SC, and SV where no constraint failed
    Done,
    /// 0 of SD: the struct's number
    Declared(u16),
    /// 0 of FV, NV, NL, JN, SU, UF, RD, TS, IN
    Type(Ty),
    /// 0 of CN: without locations, its variables no variables of the job but numbers, by first appearance
    Spelled(Ty),
    /// 0 of RM: nodes, argument places, variables, constraints
    Needs([u32; 4]),
    /// 0 of SV: the constraints that failed, at least one
    Failed(Vec<Failure>),
    /// 0 of XP: the type, and where in it a variable could not be inferred
    Expanded(Ty, Vec<u32>),
    /// 0 of MJ: what each pair is answered, as a JN or SU of its own
    Pairs(Vec<Outcome>),
    /// 0 of KP: the variables that stay, by rising number: each one's number up to here, and from here on
    Kept(Vec<(u16, u16)>),
    /// 1 to 3, with both types
    Mismatch(usize, Ty, Ty),
    /// 4, with a location
    Recursive(u32),
    /// 0 to 4 of UL and JL: what UF and JN say, and how many links were followed
    Linked(Box<Outcome>, u32),
    /// 5 and above: all is as it was before the record
    Refused(usize),
}

/// A constraint that failed: its location, its type as UF would give it, and why.
#[derive(Debug, Clone, PartialEq, Eq)]
pub struct Failure {
    pub loc: u32,
    pub ty: Ty,
    pub reason: Reason,
}

/// Codes 1 to 4 of a row of SV.
#[derive(Debug, Clone, Copy, PartialEq, Eq)]
#[non_exhaustive]
pub enum Reason {
    NoIntegerType,
    NoBaseType,
    NoSingleType,
    /// a bit of `ABILITIES`, and the rule by which it is missing
    Lacks(u8, Rule),
}

#[derive(Debug, Clone, Copy, PartialEq, Eq)]
pub enum Rule {
    Declaration,
    /// the place of the first argument that lacks what is needed, from 0
    Argument(u8),
}

impl Outcome {
    /// Whether nothing is wrong. Not so for a 0 of SV with failed constraints, of XP with a type that is not inferred, or of MJ
    /// with a pair that is not answered 0.
    pub fn is_well(&self) -> bool {
        match self.plain() {
            Outcome::Expanded(_, open) => open.is_empty(),
            Outcome::Pairs(all) => all.iter().all(Outcome::is_well),
            Outcome::Done | Outcome::Declared(_) | Outcome::Type(_) | Outcome::Spelled(_) => true,
            Outcome::Needs(_) | Outcome::Kept(_) => true,
            _ => false,
        }
    }
    /// at least so many variables are taken, of KP before it: one more than the highest that it shows; a spelling numbers those
    /// in it
    pub fn taken(&self) -> usize {
        match self.plain() {
            Outcome::Type(t) | Outcome::Spelled(t) | Outcome::Expanded(t, _) => t.taken(),
            Outcome::Mismatch(_, a, b) => a.taken().max(b.taken()),
            Outcome::Failed(fs) => fs.iter().map(|f| f.ty.taken()).max().unwrap_or(0),
            Outcome::Pairs(all) => all.iter().map(Outcome::taken).max().unwrap_or(0),
            Outcome::Kept(all) => all.last().map_or(0, |(old, _)| *old as usize + 1),
            _ => 0,
        }
    }
    /// the answer's number
    pub fn number(&self) -> usize {
        match self.plain() {
            Outcome::Mismatch(number, ..) | Outcome::Refused(number) => *number,
            Outcome::Recursive(_) => 4,
            _ => 0,
        }
    }
    /// without the number of links
    pub fn plain(&self) -> &Outcome {
        match self {
            Outcome::Linked(said, _) => said,
            said => said,
        }
    }
    /// how many links UL or JL followed
    pub fn links(&self) -> Option<u32> {
        match self {
            Outcome::Linked(_, links) => Some(*links),
            _ => None,
        }
    }
}

impl Reason {
    pub fn code(self) -> u8 {
        match self {
            Reason::NoIntegerType => 1,
            Reason::NoBaseType => 2,
            Reason::NoSingleType => 3,
            Reason::Lacks(..) => 4,
        }
    }
}

impl fmt::Display for Reason {
    fn fmt(&self, f: &mut fmt::Formatter) -> fmt::Result {
        let Reason::Lacks(bit, rule) = self else { return f.write_str(pairs::FAILURES[self.code() as usize - 1]) };
        let ability = ABILITIES.iter().find(|(b, _)| b == bit).map_or("no ability", |(_, name)| name);
        match rule {
            Rule::Declaration => write!(f, "lacks {} by its declaration", ability),
            Rule::Argument(place) => write!(f, "lacks {} by its argument {}", ability, place),
        }
    }
}

//---- reading ------------------------------------------------------------------------------------------

type Read<T> = Result<T, String>;

fn no<T>(what: &str) -> Read<T> {
    Err(what.into())
}

/// bytes that are left, and what their types may name
struct Rest<'a> {
    bytes: &'a [u8],
    known: &'a Known,
}

impl Rest<'_> {
    fn take<const N: usize>(&mut self) -> Read<[u8; N]> {
        let (front, rest) = self.bytes.split_first_chunk().ok_or("its payload is cut")?;
        self.bytes = rest;
        Ok(*front)
    }
    fn byte(&mut self) -> Read<u8> {
        Ok(self.take::<1>()?[0])
    }
    fn u32(&mut self) -> Read<u32> {
        self.take().map(u32::from_le_bytes)
    }
    fn ty(&mut self) -> Read<Ty> {
        let (ty, n) = record::read_type(self.bytes, self.known)
            .map_err(|x| format!("its payload has no type where one belongs: byte {} of that, {}", x.at, x.rule))?;
        self.bytes = &self.bytes[n..];
        Ok(ty)
    }

    fn failure(&mut self) -> Read<Failure> {
        let code = self.byte()?;
        let loc = self.u32()?;
        let bit = if code == 4 { self.byte()? } else { 0 };
        let ty = self.ty()?;
        let reason = match code {
            1 => Reason::NoIntegerType,
            2 => Reason::NoBaseType,
            3 => Reason::NoSingleType,
            4 if !ABILITIES.iter().any(|(b, _)| *b == bit) => return no("its payload has no ability"),
            4 => Reason::Lacks(bit, self.rule()?),
            _ => return no("its payload has a row of no code"),
        };
        Ok(Failure { loc, ty, reason })
    }
    fn rule(&mut self) -> Read<Rule> {
        match self.byte()? {
            1 => Ok(Rule::Declaration),
            2 => self.byte().map(Rule::Argument),
            _ => no("its payload has no rule"),
        }
    }
    fn failures(&mut self) -> Read<Outcome> {
        let mut rows = vec![];
        while !self.bytes.is_empty() {
            rows.push(self.failure()?)
        }
        Ok(if rows.is_empty() { Outcome::Done } else { Outcome::Failed(rows) })
    }

    /// a type, and codes up to the end
    fn expanded(&mut self) -> Read<Outcome> {
        let (ty, mut open) = (self.ty()?, vec![]);
        while !self.bytes.is_empty() {
            match self.byte()? {
                UNINFERRED => open.push(self.u32()?),
                _ => return no("its payload has a code that is none"),
            }
        }
        Ok(Outcome::Expanded(ty, open))
    }

    /// a pair's number, its payload's length, and its payload
    fn pair(&mut self, r: &Record) -> Read<Outcome> {
        let (number, length) = (self.byte()?, u16::from_le_bytes(self.take()?) as usize);
        let (payload, rest) = self.bytes.split_at_checked(length).ok_or("its payload is cut")?;
        self.bytes = rest;
        read(r, number as usize, payload, self.known)
    }

    /// old and new numbers up to the end: the old ones rise, the new ones go from 0 on, and who is listed stays
    fn kept(&mut self, listed: &[u16]) -> Read<Outcome> {
        let mut all: Vec<(u16, u16)> = vec![];
        while !self.bytes.is_empty() {
            let pair = (u16::from_le_bytes(self.take()?), u16::from_le_bytes(self.take()?));
            if pair.1 as usize != all.len() || all.last().is_some_and(|(old, _)| *old >= pair.0) {
                return no("its payload's numbers do not rise, or leave one out");
            }
            all.push(pair)
        }
        match listed.iter().all(|v| all.binary_search_by_key(v, |(old, _)| *old).is_ok()) {
            true => Ok(Outcome::Kept(all)),
            false => no("its payload lacks a variable that the record lists"),
        }
    }

    /// the payload of a 0
    fn zero(&mut self, r: &Record) -> Read<Outcome> {
        match r {
            Record::SD(..) => match u16::from_le_bytes(self.take()?) {
                n if n as usize == self.known.params.len() => Ok(Outcome::Declared(n)),
                n => Err(format!("its payload is struct {}, and the next is {}", n, self.known.params.len())),
            },
            Record::FV(loc) | Record::NV(loc) | Record::NL(loc, _) => match self.ty()? {
                ty if ty.loc == *loc && matches!(ty.kind, record::Kind::Var(_)) => Ok(Outcome::Type(ty)),
                _ => no("its payload is no variable at the record's location"),
            },
            Record::SV => self.failures(),
            Record::RM(_) => Ok(Outcome::Needs([self.u32()?, self.u32()?, self.u32()?, self.u32()?])),
            Record::SN(..) | Record::NC(..) | Record::BC(..) | Record::SC(..) => Ok(Outcome::Done),
            Record::JN(..) | Record::SU(..) | Record::JL(..) | Record::TS(..) => self.ty().map(Outcome::Type),
            Record::UF(_) | Record::UL(_) | Record::RD(_) | Record::IN(_) => self.ty().map(Outcome::Type),
            Record::CN(_) => match self.ty()? {
                ty if ty == ty.numbered() => Ok(Outcome::Spelled(ty)),
                _ => no("its payload has a location, or its variables are not numbered by first appearance"),
            },
            Record::XP(_) => self.expanded(),
            Record::MJ(pairs) => {
                let one = |(i, (case, a, b)): (usize, &(TypingCase, Ty, Ty))| {
                    self.pair(&case.record(a.clone(), b.clone())).map_err(|e| format!("pair {}: {}", i, e))
                };
                pairs.iter().enumerate().map(one).collect::<Read<_>>().map(Outcome::Pairs)
            }
            Record::KP(listed) => self.kept(listed),
        }
    }
}

/// The payload without the number of links, and that, where the record has one.
fn apart<'a>(r: &Record, number: usize, payload: &'a [u8]) -> Read<(&'a [u8], Option<u32>)> {
    match (r, number) {
        (Record::UL(_) | Record::JL(..), 0..=4) => {
            let (said, links) = payload.split_last_chunk().ok_or("its payload has no number of links")?;
            Ok((said, Some(u32::from_le_bytes(*links))))
        }
        _ => Ok((payload, None)),
    }
}

/// What the answer `number` to a record says. `known`: what a type may name, the structs those of before the record.
/// Err: it is no answer to this record.
pub fn read(r: &Record, number: usize, payload: &[u8], known: &Known) -> Read<Outcome> {
    if !pairs::ANSWERS.iter().any(|a| a.number == number) {
        return Err(format!("there is no answer {}", number));
    }
    if payload.len() > MAX_PAYLOAD && !matches!(r, Record::MJ(_)) {
        return no("its payload is longer than 4,096 bytes");
    }
    let (payload, links) = apart(r, number, payload)?;
    let mut rest = Rest { bytes: payload, known };
    let outcome = match number {
        0 => rest.zero(r)?,
        1..=3 => Outcome::Mismatch(number, rest.ty()?, rest.ty()?),
        4 => Outcome::Recursive(rest.u32()?),
        _ => Outcome::Refused(number),
    };
    match rest.bytes.len() {
        0 => Ok(links.into_iter().fold(outcome, |said, links| Outcome::Linked(Box::new(said), links))),
        n => Err(format!("its payload has {} bytes too many", n)),
    }
}

/// Answers read one after the other, from a fresh state on: structs are declared and variables taken by what was read,
/// and an answer that the record cannot have there is none.
#[derive(Default)]
pub struct Answers {
    known: Known,
    state: State,
}

impl Answers {
    /// Of a fresh state.
    pub fn new() -> Self {
        Self::default()
    }
    /// What the next record may name: the structs declared, and as many variables as may be taken.
    pub fn known(&self) -> &Known {
        &self.known
    }

    /// What the answer to a record, lent whole, says.
    pub fn read(&mut self, record: &[u8], number: usize, payload: &[u8]) -> Read<Outcome> {
        let read = record::read_record(record, &self.known);
        match (number, read) {
            // an answer buffer that is too short, or another state
            (15, _) if payload.is_empty() => Ok(Outcome::Refused(15)),
            (5, Ok((_, n))) if n < record.len() && payload.is_empty() => Ok(Outcome::Refused(5)),
            _ if pairs::ends_job(number) && self.stops(record, number).is_empty() => {
                Err(format!("the record is not one that is answered with {}", number))
            }
            _ if pairs::ends_job(number) && payload.is_empty() => Ok(Outcome::Refused(number)),
            (_, Ok((r, n))) if n == record.len() => self.of_record(&r, number, payload),
            (_, Ok(_)) => no("the record has bytes left over, and its answer is not 5"),
            (_, Err(x)) => {
                Err(format!("the record cannot be read (byte {}: {}), and its answer is {}", x.at, x.rule, number))
            }
        }
    }

    /// The same of a record that is read.
    pub fn of_record(&mut self, r: &Record, number: usize, payload: &[u8]) -> Read<Outcome> {
        // a payload may show variables that the record itself took
        self.known.vars = MAX_VARS;
        let outcome = read(r, number, payload, &self.known)?;
        self.state.fits(r, &outcome)?;
        self.state.after(r, &outcome)?;
        self.known.vars = self.state.high;
        if let (Record::SD(_, params), Outcome::Declared(_)) = (r, &outcome) {
            self.known.params.push(params.len())
        }
        Ok(outcome)
    }

    /// Where reading of these bytes may have stopped, if it was answered with this number.
    pub fn stops(&self, bytes: &[u8], number: usize) -> Vec<Refusal> {
        let mut stops = record::stops(bytes, &self.known, self.state.low);
        stops.retain(|x| x.number as usize == number);
        stops
    }
}
