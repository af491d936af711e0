//! The engine beside core.rs, in one process: every answer, payload, binding, mark, constraint and declaration.
use crate::{
    calls::{answer_bytes, job_of, lent_of, line_bytes, Calls, Lines, LINE, MIN_ANSWER},
    count::{counted, needs, used, Counted, Used},
    gen::{self, Chance, Made, Profile},
    job::{Job, Outcome},
    lender::{Answer, Fault, Lender},
    lent::{self, Lent, Params, LIMITS},
    record::{self, hex, Kind, Known, Record, Ty},
    shrink::shrink,
    state_text::state_text,
    text::{any_variable, disassemble},
};
use pongiwaru::Answer as Said;
use std::collections::BTreeMap;

/// The first record at which the two part, and how.
#[derive(Debug, Clone, PartialEq, Eq)]
pub struct Disagreement {
    pub record: usize,
    pub what: String,
}

/// What was run.
#[derive(Debug, Clone, Default)]
pub struct Tally {
    pub jobs: usize,
    /// records by mark and by the engine's answer, where both agree
    pub records: BTreeMap<(&'static str, u32), usize>,
    /// why a job was not followed to its end, or an answer not held to core.rs's
    pub apart: BTreeMap<&'static str, usize>,
    /// answers that show a doubled reference, by mark
    pub doubled: BTreeMap<&'static str, usize>,
    /// SV's answers that show a missing ability, and the failures in them by rule 1 and 2
    pub missing: [usize; 3],
    /// pairs of MJ by their numbers
    pub pairs: BTreeMap<u8, usize>,
    pub lines: usize,
}

impl Tally {
    pub fn count(&self, of: impl Fn(u32) -> bool) -> usize {
        self.records.iter().filter(|((_, n), _)| of(*n)).map(|(_, c)| c).sum()
    }
    pub fn all(&self) -> usize {
        self.count(|_| true)
    }
    fn apart(&mut self, why: &'static str) {
        *self.apart.entry(why).or_insert(0) += 1
    }
    pub fn text(&self) -> String {
        let mut out = format!("{} jobs, {} records; lines compared: {}\n", self.jobs, self.all(), self.lines);
        let marks: Vec<_> = {
            let mut m: Vec<_> = self.records.keys().map(|(m, _)| *m).collect();
            m.dedup();
            m
        };
        for mark in marks {
            let of = |n| self.records.get(&(mark, n)).copied().unwrap_or(0);
            let cells: Vec<_> = (0..19).filter(|n| of(*n) > 0).map(|n| format!("{}: {}", n, of(n))).collect();
            out += &format!("{}  {}\n", mark, cells.join(", "))
        }
        let (core, rest) = (self.count(|n| n <= 4), self.count(|n| n > 4));
        out += &format!("0 to 4, held to core.rs: {}; from 5 on, held to 01's and 02's rules: {}\n", core, rest);
        let doubled: Vec<_> = self.doubled.iter().map(|(mark, n)| format!("{} {}", mark, n)).collect();
        out += &format!("answers that show a doubled reference: {}\n", doubled.join(", "));
        let pairs: Vec<_> = self.pairs.iter().map(|(n, count)| format!("{}: {}", n, count)).collect();
        out += &format!("pairs of MJ: {}\n", pairs.join(", "));
        let [shown, one, two] = self.missing;
        out += &format!("SV that shows missing abilities: {}; by rule 1: {}, by rule 2: {}\n", shown, one, two);
        self.apart.iter().for_each(|(why, n)| out += &format!("{}: {}\n", why, n));
        out
    }
}

const LIMIT: &str = "7 or 8 where core.rs goes on, as counted by 01";
const OTHER_REFUSAL: &str = "7 or 8 before another of 7 to 14, as counted by 01";
const TOLD: &str = "RM before IN";
const FILLED: &str = "IN where exactly RM's four are left, and where one is missing";
const SILENT: &str = "core.rs silent: job ended";
const LINKED: &str = "JL and UL from the states of JN and UF";

//---- one record ------------------------------------------------------------------------------------------

/// How an answer agrees with core.rs.
#[derive(Debug, Clone, Copy, PartialEq, Eq)]
pub enum Agreed {
    Same,
    /// ours is a limit that core.rs does not know: it has gone on
    Limit,
    Silent,
}

/// The answer beside core.rs's outcome and what 01's counts say.
pub fn agree(
    outcome: &Outcome,
    answer: &Answer,
    counted: Option<&Counted>,
    tally: &mut Tally,
) -> Result<Agreed, String> {
    let limit = |n: u32| matches!(n, 7 | 8);
    let number = counted.map(|c| c.number);
    if number.is_some_and(|n| limit(answer.number) || limit(n)) {
        if Some(answer.number) != number {
            return Err(format!("by 01's counts: {:?}; ours: {}", number, shown(answer)));
        }
        let core = matches!(outcome, Outcome::Core(..));
        let known = matches!(outcome, Outcome::Refused(n, _) if *n as u32 == answer.number);
        if !known {
            tally.apart(if core { LIMIT } else { OTHER_REFUSAL })
        }
        return Ok(if known { Agreed::Same } else { Agreed::Limit });
    }
    match outcome {
        // what is read is answered
        Outcome::Silent(why) if matches!(answer.number, 5 | 6 | 15 | 18) => {
            Err(format!("{}; ours: {}", why, shown(answer)))
        }
        Outcome::Silent(_) => {
            tally.apart(SILENT);
            Ok(Agreed::Silent)
        }
        Outcome::Core(n, payload) if *n as u32 == answer.number && *payload == answer.payload => {
            match counted.and_then(|c| Some((c.number, c.payload.as_ref()?))) {
                Some((m, p)) if (m, p) != (*n as u32, payload) => {
                    Err(format!("core.rs: {} {}; by 01's rules on trees: {} {}", n, hex(payload), m, hex(p)))
                }
                _ => Ok(Agreed::Same),
            }
        }
        Outcome::Refused(n, _) if *n as u32 == answer.number => Ok(Agreed::Same),
        Outcome::Core(n, p) => Err(format!("core.rs: {} {}; ours: {}", n, hex(p), shown(answer))),
        Outcome::Refused(n, why) => Err(format!("by 01: {} ({}); ours: {}", n, why, shown(answer))),
    }
}

fn shown(a: &Answer) -> String {
    format!("{} {}", a.number, hex(&a.payload))
}

/// The types that an answer shows, each with its rule where it is a failure of code 4, else 0. SV's stand after a code
/// and a location; of code 4 an ability comes before, and a rule after, of one byte or two.
fn types_shown(r: &Record, a: &Answer, known: &Known) -> Vec<(Ty, u8)> {
    let (mut rest, mut out) = (&a.payload[..], vec![]);
    if matches!(r, Record::SD(..) | Record::RM(_) | Record::MJ(_) | Record::KP(_)) {
        return out;
    }
    loop {
        let code = rest.first().copied().filter(|_| *r == Record::SV);
        let before = code.map_or(0, |c| if c == 4 { 6 } else { 5 });
        let Some(Ok((t, n))) = rest.get(before..).map(|types| record::read_type(types, known)) else { break };
        rest = &rest[before + n..];
        let rule = rest.first().copied().filter(|_| code == Some(4)).unwrap_or(0);
        rest = &rest[rule as usize..];
        out.push((t, rule));
        // codes follow
        if let Record::XP(_) = r {
            break;
        }
    }
    out
}

/// The numbers and payloads of an MJ's pairs.
pub fn pairs_shown(payload: &[u8]) -> Vec<(u8, &[u8])> {
    let (mut rest, mut out) = (payload, vec![]);
    while let [number, low, high, behind @ ..] = rest {
        let length = u16::from_le_bytes([*low, *high]) as usize;
        let Some((shown, after)) = behind.split_at_checked(length) else { break };
        out.push((*number, shown));
        rest = after
    }
    out
}

impl Tally {
    fn count_shown(&mut self, r: &Record, mark: &'static str, answer: &Answer, known: &Known) {
        if let Record::MJ(_) = r {
            pairs_shown(&answer.payload).iter().for_each(|(n, _)| *self.pairs.entry(*n).or_insert(0) += 1)
        }
        let shown = types_shown(r, answer, known);
        if shown.iter().any(|(t, _)| t.has_doubled()) {
            *self.doubled.entry(mark).or_insert(0) += 1
        }
        let of = |rule: u8| shown.iter().filter(|(_, r)| *r == rule).count();
        if *r == Record::SV {
            let missing = [(of(1) + of(2) > 0) as usize, of(1), of(2)];
            self.missing = std::array::from_fn(|i| self.missing[i] + missing[i])
        }
    }
}

/// UF, UL, RD, CN, TS, RM and XP leave the state word for word.
fn only_reads(r: &Record) -> bool {
    let told = matches!(r, Record::TS(..) | Record::RM(_));
    told || matches!(r, Record::UF(_) | Record::UL(_) | Record::RD(_) | Record::CN(_) | Record::XP(_))
}

pub fn same_counts(lender: &Lender, counted: Option<&Counted>) -> Result<(), String> {
    match counted {
        Some(c) if c.used != used(lender.view()) => {
            Err(format!("by 01's counts: {:?}; ours: {:?}", c.used, used(lender.view())))
        }
        _ => Ok(()),
    }
}

/// After KP (02, R-11): every word is that of a clearing, where rows are counted; no need and no mark of what stays sinks.
pub fn after_clearing(lender: &Lender, listed: &[u16]) -> Result<(), String> {
    let wanted = lender.before().cleared(listed);
    lender.view().grown_from(lender.before(), |v| wanted.moved(v))?;
    match !lender.calls.counts() || lender.lent() == wanted.lent {
        true => Ok(()),
        false => Err(format!("a clearing by 02 leaves another {}", wanted.lent.first_other(&lender.lent()))),
    }
}

pub fn same_state(lender: &Lender, job: &Job, r: Option<&Record>) -> Result<(), String> {
    let view = lender.view();
    if let Err(rule) = lent::sound(view.words, view.params) {
        return Err(format!("left unsound: {}", rule));
    }
    match r {
        Some(Record::KP(listed)) => after_clearing(lender, listed)?,
        _ => view.grown_from(lender.before(), Some)?,
    }
    if r.is_some_and(only_reads) && !lender.unchanged() {
        return Err(format!("a reading record changed {}", lender.first_change()));
    }
    let (ours, core) = (view.state(), job.state());
    if ours != core {
        return Err(format!("core.rs: {}; ours: {}", state_text(&core), state_text(&ours)));
    }
    let last = view.structs().saturating_sub(1);
    if matches!(r, Some(Record::SD(..))) && view.declared(last) != job.declared(last) {
        return Err("declarations differ".into());
    }
    Ok(())
}

//---- IN, and RM of the same type before it (R-3) ---------------------------------------------------------

fn rows(u: Used) -> [usize; 4] {
    [u.nodes, u.places, u.vars, u.constraints]
}

/// RM's four numbers, held to 02's table; none for a type with a variable. On a state with exactly so much left IN fills
/// it, and with one less of a table it is 7.
fn told(lender: &mut Lender, t: &Ty, tally: &mut Tally) -> Result<Option<[usize; 4]>, String> {
    let answer = lender.record(&Record::RM(t.clone()).bytes(), MIN_ANSWER)?;
    let four = needs(t);
    let wanted = four.map(|f| f.iter().flat_map(|n| (*n as u32).to_le_bytes()).collect());
    let wanted = wanted.map_or(Answer { number: 11, payload: vec![] }, |payload| Answer { number: 0, payload });
    if answer != wanted || !lender.unchanged() {
        return Err(format!("RM by 02's table: {}; ours: {}", shown(&wanted), shown(&answer)));
    }
    tally.apart(TOLD);
    four.map_or(Ok(()), |four| exactly(lender, t, four, tally)).map(|_| four)
}

/// .. where each table has at least so much left
fn exactly(lender: &Lender, t: &Ty, four: [usize; 4], tally: &mut Tally) -> Result<(), String> {
    let start = lender.lent();
    let least = |i: usize| LIMITS[i].checked_sub(four[i]).filter(|n| *n >= start.words[i] as usize);
    let [Some(a), Some(b), Some(c), Some(d)] = std::array::from_fn(least) else { return Ok(()) };
    let record = Record::IN(t.clone()).bytes();
    for short in 0..5 {
        let mut lent = start.clone();
        for (i, n) in [a, b, c, d].into_iter().enumerate() {
            lent.words[i] = n as u32 + (i == short && four[i] > 0) as u32
        }
        let mut other = Lender::new(lender.calls, &lent);
        let answer = other.record(&record, MIN_ANSWER)?;
        as_told(&other, &answer, four)?
    }
    tally.apart(FILLED);
    Ok(())
}

/// IN's answer: 7 exactly if one of the four is more than what was left, else 0 and so many rows more.
fn as_told(lender: &Lender, answer: &Answer, four: [usize; 4]) -> Result<(), String> {
    let (before, after) = (rows(lender.used_before()), rows(used(lender.view())));
    let fits = (0..4).all(|i| before[i] + four[i] <= LIMITS[i]);
    let more: [usize; 4] = std::array::from_fn(|i| after[i] - before[i]);
    match answer.number == if fits { 0 } else { 7 } && (!fits || more == four) {
        true => Ok(()),
        false => Err(format!("told {:?} at {:?}; IN: {}, {:?} more", four, before, shown(answer), more)),
    }
}

//---- JN and UF, and JL and UL of the same types before them (R-9) -----------------------------------------------

/// JL or UL of a record's types, its answer and the state that it leaves.
struct Linked {
    record: Record,
    answer: Answer,
    left: Lent,
}

/// .. from the state that the record meets, held to the driver's and to 01's counts.
fn linked(run: &mut Run, r: &Record, room: usize, tally: &mut Tally) -> Result<Option<Linked>, String> {
    let record = match r {
        Record::JN(a, b) => Record::JL(a.clone(), b.clone()),
        Record::UF(t) => Record::UL(t.clone()),
        _ => return Ok(None),
    };
    run.beside.lend(&run.lender.lent());
    let outcome = run.job.aside(&record);
    let counted = run.lender.calls.counts().then(|| counted(run.lender.view(), &record));
    let answer = run.beside.record(&record.bytes(), room)?;
    let told = |e| format!("{} in its place: {}", record.mark(), e);
    agree(&outcome, &answer, counted.as_ref(), &mut Tally::default()).map_err(told)?;
    // core.rs in the engine's place goes on with JN and UF
    if counted.is_none() && matches!(answer.number, 7 | 8) {
        return Ok(None);
    }
    tally.apart(LINKED);
    Ok(Some(Linked { answer, left: run.beside.lent(), record }))
}

impl Linked {
    /// The same number, payload and state, and four bytes more; 14 where these are too many.
    fn beside(&self, plain: &Answer, left: &Lent) -> Result<(), String> {
        let said = self.answer.payload.len().saturating_sub(4);
        let same = match plain.number {
            0..=4 if plain.payload.len() + 4 > MIN_ANSWER => self.answer.number == 14,
            0..=4 => {
                let number = self.answer.number == plain.number;
                number && self.answer.payload[..said] == plain.payload && self.left == *left
            }
            number => self.answer.number == number,
        };
        match same {
            true => Ok(()),
            false => {
                Err(format!("{} in its place: {}; ours: {}", self.record.mark(), shown(&self.answer), shown(plain)))
            }
        }
    }
}

//---- one job --------------------------------------------------------------------------------------------------

struct Run<'a> {
    lender: Lender<'a>,
    /// for what is tried in a record's place
    beside: Lender<'a>,
    job: Job,
    log: String,
    at: usize,
    index: usize,
    /// begun on a fresh state, and no SN since (02, R-7)
    without_sn: bool,
}

impl Run<'_> {
    /// the record's answer, and beside it what was tried in its place
    fn answer(&mut self, record: &[u8], over: usize, linked: Option<Linked>) -> Result<Answer, String> {
        let answer = self.lender.record(record, answer_bytes(record) + over)?;
        linked.map_or(Ok(()), |linked| linked.beside(&answer, &self.lender.lent()))?;
        Ok(answer)
    }

    /// one record; Ok(false): the job is over
    fn step(&mut self, stream: &[u8], over: usize, tally: &mut Tally) -> Result<bool, String> {
        let rest = &stream[self.at..];
        let read = record::read_record(rest, self.job.known()).ok();
        let linked = read.as_ref().map_or(Ok(None), |(r, _)| linked(self, r, MIN_ANSWER + over, tally))?;
        let (r, mark) = (read.as_ref().map(|(r, _)| r), read.as_ref().map_or("??", |(r, _)| r.mark()));
        let counted = r.filter(|_| self.lender.calls.counts()).map(|r| counted(self.lender.view(), r));
        let (outcome, n) = self.job.next_within(rest, counted.as_ref().map_or(&[], |c| &c.pairs));
        let split = self.lender.split(rest)?;
        if split != n {
            return Err(format!("split takes {} bytes, not {}", split, n));
        }
        let told = match r {
            Some(Record::IN(t)) if self.lender.calls.counts() => told(&mut self.lender, t, tally)?,
            _ => None,
        };
        let lent = if n == 0 { rest } else { &rest[..n] };
        let answer = self.answer(lent, over, linked)?;
        if let Some(four) = told {
            as_told(&self.lender, &answer, four)?
        }
        match agree(&outcome, &answer, counted.as_ref(), tally)? {
            Agreed::Same => (),
            Agreed::Limit => self.job = job_of(self.lender.view()),
            Agreed::Silent => return Ok(false),
        }
        self.without_sn &= mark != "SN";
        if self.without_sn {
            self.lender.view().met()?
        }
        if answer.number <= 4 {
            same_state(&self.lender, &self.job, r)?;
            same_counts(&self.lender, counted.as_ref())?
        }
        *tally.records.entry((mark, answer.number)).or_insert(0) += 1;
        if let Some(r) = r {
            tally.count_shown(r, mark, &answer, self.job.known())
        }
        self.log += &match answer.payload.is_empty() {
            true => format!("{} {}\n", self.index, answer.number),
            false => format!("{} {}\n", self.index, shown(&answer)),
        };
        (self.at, self.index) = (self.at + n, self.index + 1);
        Ok(n > 0)
    }
}

/// A stream's records one by one on a state, then the same stream as a job in pieces.
pub fn stream(
    calls: &dyn Calls,
    start: &Lent,
    stream: &[u8],
    chance: &mut Chance,
    tally: &mut Tally,
) -> Result<(), Disagreement> {
    let (lender, job) = (Lender::new(calls, start), job_of(start.view()));
    let (beside, without_sn) = (Lender::new(calls, start), *start == lent::fresh());
    let mut run = Run { lender, beside, job, log: String::new(), at: 0, index: 0, without_sn };
    // an answer buffer has so much more than it must have
    let over = if chance.percent(20) { chance.below(100) } else { 0 };
    let mut refused = false;
    while run.at < stream.len() {
        let index = run.index;
        match run.step(stream, over, tally) {
            Ok(true) => (),
            Ok(false) => {
                refused = run.index > index;
                break;
            }
            Err(what) => return Err(Disagreement { record: index, what }),
        }
    }
    tally.jobs += 1;
    tally.lines += run.index;
    let followed = if refused { stream } else { &stream[..run.at] };
    let end = run.lender.lent();
    run.lender.lend(start);
    in_pieces(&mut run.lender, followed, &run.log, chance)
        .and_then(|_| match run.lender.lent() == end {
            true => Ok(()),
            false => Err("the job leaves another state than its records".into()),
        })
        .map_err(|what| Disagreement { record: run.index, what })
}

/// The stream handed over in pieces gives the same lines.
fn in_pieces(lender: &mut Lender, stream: &[u8], wanted: &str, chance: &mut Chance) -> Result<(), Fault> {
    let piece = chance.one(&[usize::MAX, usize::MAX, 4096, 5000, 9000]);
    let room = LINE + chance.one(&[0, 1, 20_000]);
    let (mut log, mut at, mut have, mut index) = (vec![], 0, 0usize, 0);
    let (mut over, mut waits) = (false, false);
    while !over {
        have = stream.len().min(have.saturating_add(piece));
        let (bytes, more) = (&stream[at..have], have < stream.len());
        // an MJ that found no room for its line gets it
        let room = if waits { room.max(line_bytes(bytes)) } else { room };
        let (number, Lines { read, index: next, ended, .. }, text) = lender.job(bytes, more, room, index)?;
        log.extend(text);
        if number != 0 {
            return Err(format!("the job answers {}", number));
        }
        waits = room < line_bytes(bytes);
        let stuck = read == 0 && next == index && !ended;
        if waits && !stuck {
            return Err("the job takes an MJ without room for its line".into());
        }
        if stuck && !waits && !more {
            return Err("the job does not go on".into());
        }
        (at, index, over) = (at + read, next, ended)
    }
    match log == wanted.as_bytes() {
        true => Ok(()),
        false => Err(format!("the job's lines differ: {}; wanted: {}", String::from_utf8_lossy(&log), wanted)),
    }
}

//---- many jobs ---------------------------------------------------------------------------------------------------

/// Job i of a comparison: one in two by chance, one in three short and exhaustive, one in seven about abilities, some long,
/// some near the limits.
pub fn made(seed: u64, i: u64, records: usize, profile: Option<Profile>) -> Made {
    let mut chance = Chance::new(seed ^ 0x636f_6d70, i);
    let some = |chance: &mut Chance| records / 2 + chance.below(records);
    match chance.below(100) {
        _ if profile.is_some() => gen::random(seed, i, some(&mut chance), profile, false),
        0 if chance.percent(20) => gen::deep(seed, i),
        0 if chance.percent(25) => gen::functions(seed, i),
        0 => gen::limits(seed, i, false),
        1 if chance.percent(50) => gen::pairs_at_limits(seed, i),
        1 => gen::random(seed, i, 12 * records, None, false),
        2..=34 => gen::exhaustive(chance.below(7056), false).unwrap(),
        35..=49 => gen::random(seed, i, some(&mut chance), Some(Profile::Abilities), false),
        _ => gen::random(seed, i, some(&mut chance), None, false),
    }
}

/// The state of job i with some of its tables nearly full: rows of zeros are `()`, free places, open variables, ability
/// constraints of nothing and structs without parameters.
pub fn crowded(start: &Lent, seed: u64, i: u64) -> Lent {
    let (mut lent, mut chance) = (start.clone(), Chance::new(seed ^ 0x6372_6f77, i));
    let [nodes, places, vars, constraints, structs] = lent::LIMITS;
    for (table, limit, near) in [(0, nodes, 30), (1, places, 12), (2, vars, 6), (3, constraints, 6), (4, structs, 3)] {
        let full = (limit - chance.below(near)) as u32;
        if chance.percent(if table < 2 { 60 } else { 25 }) && lent.words[table] < full && lent.words[0] > 0 {
            lent.words[table] = full
        }
    }
    lent
}

/// The state of job i with references under references, as one saved before R-6 may have them: over what variables are
/// bound to, and over `u8` where they are unbound.
pub fn doubled(start: &Lent, seed: u64, i: u64) -> Lent {
    let (mut lent, mut chance) = (start.clone(), Chance::new(seed ^ 0x6462_6c64, i));
    for v in 0..lent.view().vars() {
        let u8_ = Ty { loc: chance.below(9) as u32, kind: Kind::Builtin(0, 2, vec![]) };
        let bottom = lent.view().binding(v).filter(|_| chance.percent(50));
        let open = lent.view().binding(v).is_none() && chance.percent(30);
        let mut node = bottom.or_else(|| open.then(|| lent.add_type(&u8_)).flatten());
        for _ in 0..chance.one(&[2, 2, 2, 3]) {
            let (loc, mutable) = (chance.below(9) as u32, chance.percent(40) as u32);
            node = node.and_then(|part| lent.add_node(1, loc, mutable, part as u32, &[]))
        }
        if let Some(node) = node {
            lent.bind(v, node)
        }
    }
    lent
}

pub struct Found {
    pub name: String,
    pub start: Lent,
    pub stream: Vec<u8>,
    pub disagreement: Disagreement,
}

/// One job in eight goes on from a state with doubled references, one in eight from a crowded one, where it has no
/// records that cannot be read.
fn onward(calls: &dyn Calls, seed: u64, i: u64) -> Option<(Lent, Made)> {
    let alter = match i % 8 {
        3 => doubled,
        7 if calls.counts() => crowded,
        _ => return None,
    };
    let m = crate::damage::midway(calls, seed, i).ok()?;
    let lent = alter(&m.lent, seed, i);
    let job = job_of(lent.view());
    // core.rs in the engine's place lays every state down so
    let lent = if calls.counts() { lent } else { lent_of(&job)? };
    let made = gen::onward(job, seed, i, 12);
    Some((lent, made))
}

/// Job i and the state that it begins on.
pub fn begun(calls: &dyn Calls, seed: u64, i: u64, records: usize, profile: Option<Profile>) -> (Lent, Made) {
    let onward = if profile.is_some() { None } else { onward(calls, seed, i) };
    onward.unwrap_or_else(|| (lent::fresh(), made(seed, i, records, profile)))
}

/// Jobs up to `count`, of a profile or of all kinds; stops at the first disagreement.
pub fn many(
    calls: &dyn Calls,
    seed: u64,
    count: u64,
    records: usize,
    profile: Option<Profile>,
    tally: &mut Tally,
) -> Option<Found> {
    (0..count).find_map(|i| {
        let (start, m) = begun(calls, seed, i, records, profile);
        let disagreement = stream(calls, &start, &m.stream, &mut Chance::new(seed, i), tally).err()?;
        Some(Found { name: m.name, start, stream: m.stream, disagreement })
    })
}

/// The disagreement that a stream shows, if it shows one.
pub fn disagrees(calls: &dyn Calls, start: &Lent, bytes: &[u8]) -> Option<Disagreement> {
    stream(calls, start, bytes, &mut Chance::new(0, 0), &mut Tally::default()).err()
}

/// The same disagreement, or another, in a smaller job; on a fresh state if it shows there.
pub fn smallest(calls: &dyn Calls, found: Found) -> Found {
    let fresh = lent::fresh();
    let start = if disagrees(calls, &fresh, &found.stream).is_some() { fresh } else { found.start.clone() };
    let stream = shrink(&found.stream, |s| disagrees(calls, &start, s).is_some());
    match disagrees(calls, &start, &stream) {
        Some(disagreement) => Found { name: found.name, start, stream, disagreement },
        None => found,
    }
}

//---- altered answers, to show that a comparison can fail -------------------------------------------------------------

#[derive(Debug, Clone, Copy, PartialEq, Eq)]
pub enum Alter {
    /// 2 becomes 3
    Number,
    /// the location of a reference that a join answers
    Payload,
    /// the location of a variable's binding
    Binding,
    /// SN marks nothing
    Mark,
    /// the last variable needs a bit less after a join
    Need,
    /// the kind of a constraint that NC adds
    Constraint,
    /// RD changes nothing to see but a spare node
    Reading,
    /// a join takes a node too many
    Count,
    /// RM tells a node too few
    Told,
    /// CN shows an odd variable, alone, as another than an even one
    Spelled,
    /// SV's first missing ability is another
    Missing,
    /// the location of XP's last code
    Code,
    /// the number of MJ's last pair
    Pair,
    /// MJ's last pair, where it is refused, takes a node
    Kept,
    /// JL and UL tell a link too many
    Link,
    /// JL of two variables tells the links of the left one's chain
    Left,
    /// KP tells another new number of the last variable that stays
    Moved,
    /// KP drops the last mark
    Unmarked,
    /// KP leaves a place too many, a copy of the last
    Copied,
    /// a line of a job
    Line,
    /// the slow engine: 2 becomes 3
    Slow,
    /// the location of a reference that a join answers
    Spoken,
    /// a join leaves the mark of the last variable unwritten
    Unwritten,
    /// a byte behind a payload is another
    Behind,
    /// FV is answered as the engine does
    Fifth,
}

pub const ALTERS: [Alter; 25] = {
    use Alter::*;
    [
        Number, Payload, Binding, Mark, Need, Constraint, Reading, Count, Told, Spelled, Missing, Code, Pair, Kept,
        Link, Left, Moved, Unmarked, Copied, Line, Slow, Spoken, Unwritten, Behind, Fifth,
    ]
};

impl Alter {
    fn is_of_the_slow(self) -> bool {
        matches!(self, Alter::Slow | Alter::Spoken | Alter::Unwritten | Alter::Behind | Alter::Fifth)
    }
    pub fn named(name: &str) -> Option<Alter> {
        ALTERS.into_iter().find(|a| format!("{:?}", a).to_lowercase() == name)
    }
}

pub struct Altered<'a> {
    pub calls: &'a dyn Calls,
    pub alter: Alter,
}

impl Altered<'_> {
    fn spoil(&self, words: &mut [u32], params: &Params, record: &[u8], answer: &mut [u8], number: u32) -> u32 {
        let view = lent::View { words, params };
        let first_var = record.get(9).map_or(0, |v| *v as usize);
        let bound = (record.starts_with(b"JN\x06") && number == 0).then(|| view.binding(first_var)).flatten();
        match self.alter {
            Alter::Number if number == 2 => return 3,
            Alter::Payload if number == 0 && record.starts_with(b"JN") && answer[0] == 1 => answer[1] ^= 1,
            Alter::Binding => {
                if let Some(node) = bound {
                    words[5 + 6 * node + 1] ^= 1
                }
            }
            Alter::Constraint if number == 0 && record.starts_with(b"NC") => {
                let at = 21_509 + 4 * (view.constraints() - 1);
                words[at] = words[at] % 3 + 1
            }
            Alter::Reading if number == 0 && record.starts_with(b"RD") && view.nodes() < 2048 => words[0] += 1,
            Alter::Count if number == 0 && record.starts_with(b"JN") && view.nodes() < 2048 => words[0] += 1,
            Alter::Need if number == 0 && record.starts_with(b"JN") && view.vars() > 0 => {
                let at = 16_389 + 5 * (view.vars() - 1) + 4;
                words[at] = words[at].saturating_sub(1)
            }
            Alter::Told if number == 0 && record.starts_with(b"RM") => answer[0] -= 1,
            Alter::Spelled if number == 0 && record.starts_with(b"CN") && answer[0] == 6 => answer[5] += record[7] & 1,
            Alter::Missing if number == 0 && record == b"SV" && answer.first() == Some(&4) => answer[5] ^= 3,
            Alter::Pair if number == 0 && record.starts_with(b"MJ") => {
                let last: usize = pairs_shown(answer).iter().rev().skip(1).map(|(_, p)| 3 + p.len()).sum();
                answer[last] ^= 1
            }
            Alter::Kept if number == 0 && record.starts_with(b"MJ") => {
                let refused = pairs_shown(answer).last().is_some_and(|(n, _)| *n > 4);
                words[0] += (refused && view.nodes() < 2048) as u32
            }
            Alter::Code if number == 0 && record.starts_with(b"XP") && !Said::Ran.is_well(record, answer) => {
                answer[answer.len() - 4] ^= 1
            }
            Alter::Moved if number == 0 && record.starts_with(b"KP") => {
                if let Some([.., new, _]) = answer.last_chunk_mut::<4>() {
                    *new ^= 1
                }
            }
            Alter::Unmarked if number == 0 && record.starts_with(b"KP") => lent::drop_mark(words),
            Alter::Copied if number == 0 && record.starts_with(b"KP") => lent::copy_place(words),
            _ => (),
        }
        number
    }
}

/// JL and UL tell another number of links.
pub fn a_link_more(record: &[u8], answer: &mut [u8]) {
    if let (true, Some(links)) = (matches!(record, [b'J' | b'U', b'L', ..]), answer.last_chunk_mut::<4>()) {
        links[0] ^= 1
    }
}

/// JL of two variables tells the links of the left one's chain.
pub fn left_alone(before: lent::View, record: &[u8], answer: &mut [u8]) {
    let Ok((Record::JL(a, b), _)) = record::read_record(record, &any_variable()) else { return };
    if let (Kind::Var(v), Kind::Var(w), Some(links)) = (a.kind, b.kind, answer.last_chunk_mut()) {
        if v != w {
            *links = (before.chain(v as usize).count() as u32 - 1).to_le_bytes()
        }
    }
}

impl Calls for Altered<'_> {
    fn record(
        &self,
        state: &mut [u32],
        params: &mut Params,
        record: &[u8],
        answer: &mut [u8],
        length: &mut u32,
    ) -> u32 {
        let before = state.to_vec();
        let number = self.calls.record(state, params, record, answer, length);
        if self.alter == Alter::Mark && record.starts_with(b"SN") {
            state.copy_from_slice(&before)
        }
        let told = &mut answer[..*length as usize];
        match self.alter {
            Alter::Link if number <= 4 => a_link_more(record, told),
            Alter::Left if number <= 4 => left_alone(lent::View { words: &before, params }, record, told),
            _ => (),
        }
        self.spoil(state, params, record, &mut answer[..*length as usize], number)
    }

    fn counts(&self) -> bool {
        self.calls.counts()
    }

    /// what is altered elsewhere must be found without it
    fn checks(&self) -> bool {
        self.alter.is_of_the_slow()
    }

    fn check(&self, state: &mut [u32], params: &mut Params, record: &[u8], answer: &mut [u8], length: &mut u32) -> u32 {
        if self.alter == Alter::Fifth && record.starts_with(b"FV") {
            return self.calls.record(state, params, record, answer, length);
        }
        let number = self.calls.check(state, params, record, answer, length);
        let view = lent::View { words: state, params };
        match self.alter {
            Alter::Slow if number == 2 => return 3,
            Alter::Spoken if number == 0 && record.starts_with(b"JN") && answer[0] == 1 => answer[1] ^= 1,
            Alter::Unwritten if number == 0 && record.starts_with(b"JN") && view.vars() > 0 => {
                let at = 16_389 + 5 * (view.vars() - 1) + 2;
                state[at..at + 3].fill(0)
            }
            Alter::Behind if number == 0 && record.starts_with(b"UF") => answer[*length as usize] ^= 1,
            _ => (),
        }
        number
    }

    fn split(&self, state: &mut [u32], params: &mut Params, stream: &[u8], rest: &mut usize) {
        self.calls.split(state, params, stream, rest)
    }

    fn job(
        &self,
        state: &mut [u32],
        params: &mut Params,
        stream: &[u8],
        more: bool,
        log: &mut [u8],
        lines: &mut Lines,
    ) -> u32 {
        let number = self.calls.job(state, params, stream, more, log, lines);
        if self.alter == Alter::Line && lines.written > 40 {
            log[lines.written - 2] ^= 1
        }
        number
    }
}

/// A disagreement for people.
pub fn report(found: &Found) -> String {
    let Disagreement { record, what } = &found.disagreement;
    let text: Vec<_> = disassemble(&found.stream).lines().map(|l| format!("    {}", l)).collect();
    let rows: Vec<_> = found.start.words[..5].iter().map(u32::to_string).collect();
    let start = if found.start == lent::fresh() { "fresh".into() } else { format!("rows in use: {}", rows.join(" ")) };
    let (text, bytes) = (text.join("\n"), hex(&found.stream));
    format!("{}, record {}: {}\n    state: {}\n{}\n    {}\n", found.name, record, what, start, text, bytes)
}
