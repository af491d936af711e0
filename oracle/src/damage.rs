//! Damaged records and damaged states, lent between guards. What each call must answer comes from 01's reader
//! (`record`), from 01's rules for a sound state (`lent::sound`), and where the call goes on from core.rs.
use crate::{
    calls::{answer_bytes, job_of, line_bytes, Calls, MIN_ANSWER},
    compare::{self, after_clearing, agree, same_counts, same_state, Agreed},
    count::{counted, Counted},
    gen::{Chance, Profile},
    job::{self, answer_text, Job, Outcome},
    lender::Lender,
    lent::{fresh, place_of_word, sound, Lent, View, WORDS},
    record::{hex, read_record, Record, MAX_RECORD},
};
use std::collections::BTreeMap;

/// above it a tree is not handed to core.rs
const LARGE: u64 = 20_000;
const ONWARD: &str = "went on, as core.rs does";
const LIMIT: &str = "7 or 8, as counted by 01";
const ALONE: &str = "went on, not held to core.rs (silent, or types too large for it)";
/// u16, u32 or u256, in the record or in the state
const WIDER: &str = "went on, not held to core.rs (an integer type that it has not)";

#[derive(Debug, Clone, Default)]
pub struct Tally {
    pub states: usize,
    pub calls: usize,
    pub outcomes: BTreeMap<String, usize>,
}

impl Tally {
    fn add(&mut self, what: impl Into<String>) {
        self.calls += 1;
        *self.outcomes.entry(what.into()).or_insert(0) += 1
    }
    pub fn of(&self, what: &str) -> usize {
        self.outcomes.get(what).copied().unwrap_or(0)
    }
    pub fn went_on(&self) -> usize {
        self.of(ONWARD)
    }
    pub fn wider(&self) -> usize {
        self.of(WIDER)
    }
    pub fn text(&self) -> String {
        let all: String = self.outcomes.iter().map(|(what, n)| format!("  {}: {}\n", what, n)).collect();
        format!("{} states, {} calls\n{}", self.states, self.calls, all)
    }
}

type Tried = Result<(), String>;

//---- what must be answered -------------------------------------------------------------------------------

/// A lent record's outcome on a sound state, the job after it, and what counting says of it.
fn expected(s: View, bytes: &[u8], counts: bool) -> (Outcome, Job, Option<Counted>) {
    let mut job = job_of(s);
    match read_record(bytes, job.known()) {
        Err(x) => (Outcome::Refused(x.number, x.rule.into()), job, None),
        Ok((_, n)) if n < bytes.len() => (Outcome::Refused(5, "bytes left over".into()), job, None),
        Ok((r, _)) => {
            let counted = counts.then(|| counted(s, &r));
            (job.record_within(&r, counted.as_ref().map_or(&[], |c| &c.pairs)), job, counted)
        }
    }
}

/// too large for core.rs, whose types are trees
fn too_large(s: View) -> bool {
    s.tree_sizes().iter().fold(0u64, |a, b| a.saturating_add(*b)) > LARGE
}

/// Lends one record and holds the answer to what it must be. The state is left as the call leaves it.
pub fn lend(lender: &mut Lender, bytes: &[u8], room: usize, tally: &mut Tally) -> Tried {
    let short = room < answer_bytes(bytes);
    let verdict = if short { Err("answer buffer") } else { sound(lender.words(), lender.params()) };
    if let Err(rule) = verdict {
        let answer = lender.record(bytes, room)?;
        tally.add(format!("15: {}", rule));
        return match answer.number {
            15 => Ok(()),
            n => Err(format!("{} though unsound: {}", n, rule)),
        };
    }
    if too_large(lender.view()) {
        let read = read_record(bytes, &known_of(lender.view()));
        let answer = lender.record(bytes, room)?;
        tally.add(ALONE);
        return match (answer.number, read) {
            (15, _) => Err("15 though sound".into()),
            (0, Ok((Record::KP(listed), _))) => after_clearing(lender, &listed),
            _ => still_sound(lender),
        };
    }
    let (outcome, job, counted) = expected(lender.view(), bytes, lender.calls.counts());
    let keeps =
        read_record(bytes, &known_of(lender.view())).ok().map(|(r, _)| r).filter(|r| matches!(r, Record::KP(_)));
    let answer = lender.record(bytes, room)?;
    if answer.number == 15 {
        return Err("15 though sound".into());
    }
    let agreed = agree(&outcome, &answer, counted.as_ref(), &mut compare::Tally::default())?;
    match (&outcome, agreed) {
        (Outcome::Refused(n @ (5 | 6 | 18), _), _) => tally.add(n.to_string()),
        (_, Agreed::Same) => tally.add(ONWARD),
        (_, Agreed::Limit) => tally.add(LIMIT),
        (Outcome::Silent(why), Agreed::Silent) if why == job::WIDER => tally.add(WIDER),
        (_, Agreed::Silent) => tally.add(ALONE),
    }
    match agreed == Agreed::Same && answer.number <= 4 {
        true => same_state(lender, &job, keeps.as_ref()).and_then(|_| same_counts(lender, counted.as_ref())),
        false => still_sound(lender),
    }
}

fn still_sound(lender: &Lender) -> Tried {
    sound(lender.words(), lender.params()).map_err(|rule| format!("left unsound: {}", rule))
}

/// The same bytes as a stream: split, then a job. The state is left as the job leaves it.
fn stream(lender: &mut Lender, bytes: &[u8], tally: &mut Tally) -> Tried {
    let verdict = sound(lender.words(), lender.params());
    let known = verdict.is_ok().then(|| known_of(lender.view()));
    let n = lender.split(bytes)?;
    let first = known.as_ref().map_or(Ok(0), |k| read_record(bytes, k).map(|(_, n)| n));
    if n != first.unwrap_or(0) {
        return Err(format!("split takes {} bytes, not {:?}", n, first));
    }
    let large = verdict.is_ok() && too_large(lender.view());
    let line = match first {
        Ok(_) if large || verdict.is_err() => None,
        Ok(n) if n > 0 => Some(answer_text(&expected(lender.view(), &bytes[..n], lender.calls.counts()).0)),
        _ => first.err().filter(|_| !bytes.is_empty()).map(|x| x.number.to_string()),
    };
    let (number, lines, log) = lender.job(bytes, false, line_bytes(bytes), 0)?;
    tally.add("split and job");
    // behind an MJ's line there is room for more
    let log =
        if bytes.starts_with(b"MJ") { log.split_inclusive(|b| *b == b'\n').next().unwrap_or(&[]) } else { &log[..] };
    let text = String::from_utf8_lossy(log);
    match (verdict, line) {
        (Ok(()), _) if first.is_err() && !(lines.ended && lines.read == 0) => {
            Err(format!("job: {:?}, and {:?} though the record is not read", text, lines))
        }
        (Err(rule), _) if number != 15 => Err(format!("job: {} though unsound: {}", number, rule)),
        (Ok(()), _) if number != 0 => Err(format!("job: {} though sound", number)),
        (Ok(()), Some(l)) if l != "-" && text != format!("0 {}\n", l) && !["0 7\n", "0 8\n"].contains(&&*text) => {
            Err(format!("job: {:?}, not {:?}", text, l))
        }
        (Ok(()), _) if lines.read > bytes.len() => Err("job read too much".into()),
        _ => still_sound_or(lender, number),
    }
}

fn still_sound_or(lender: &Lender, number: u32) -> Tried {
    if number == 15 {
        return Ok(());
    }
    still_sound(lender)
}

pub fn known_of(s: View) -> crate::record::Known {
    let params = (0..s.structs()).map(|i| s.declared(i).1.len()).collect();
    crate::record::Known { vars: s.vars(), params }
}

//---- a state on its way through a job -------------------------------------------------------------------------

/// The state in the middle of a job, some with doubled references, and the next record.
pub struct Midway {
    pub name: String,
    pub lent: Lent,
    pub record: Vec<u8>,
}

pub fn midway(calls: &dyn Calls, seed: u64, i: u64) -> Result<Midway, String> {
    midway_of(calls, seed, i, None)
}

pub fn midway_of(calls: &dyn Calls, seed: u64, i: u64, profile: Option<Profile>) -> Result<Midway, String> {
    let m = compare::made(seed, i, 40, profile);
    let mut chance = Chance::new(seed ^ 0x6d69_6477, i);
    let mut lender = Lender::new(calls, &fresh());
    let half = m.outcomes.len() / 2;
    let (mut at, mut steps) = (0, half + 1 + chance.below(half + 1));
    let mut record = b"SV".to_vec();
    while at < m.stream.len() {
        let n = lender.split(&m.stream[at..])?;
        record = m.stream[at..at + n].to_vec();
        steps -= 1;
        if steps == 0 || n == 0 {
            break;
        }
        lender.record(&record, answer_bytes(&record))?;
        at += n
    }
    let lent = lender.lent();
    let lent = if chance.percent(30) { compare::doubled(&lent, seed, i) } else { lent };
    Ok(Midway { name: m.name, lent, record })
}

//---- damaged records ------------------------------------------------------------------------------------------

/// Each byte changed, cut, left out or doubled, in turn; then bytes added, up to past the limit.
fn damaged(record: &[u8], chance: &mut Chance) -> Vec<Vec<u8>> {
    let mut out = vec![];
    for i in 0..record.len() {
        let b = record[i];
        // 1 is a reference's tag, which makes an 18 under a reference
        for x in [b ^ 1, b ^ 0x80, b.wrapping_add(1), 0, 1, 0xff, chance.bits() as u8] {
            let mut r = record.to_vec();
            r[i] = x;
            out.push(r)
        }
        out.push(record[..i].to_vec());
        out.push([&record[..i], &record[i + 1..]].concat());
        out.push([&record[..i], &[b], &record[i..]].concat());
    }
    out.push([record, &[0]].concat());
    out.push([record, record].concat());
    out.push([record, &vec![0; MAX_RECORD + 1 - record.len().min(MAX_RECORD)]].concat());
    out.push((0..chance.below(40)).map(|_| chance.bits() as u8).collect());
    out
}

fn told(m: &Midway, bytes: &[u8], what: String) -> String {
    format!("{}: record {} (from {}): {}", m.name, hex(bytes), hex(&m.record), what)
}

/// Records of `count` jobs, each at a state in the middle of its job. Long records are damaged at some bytes only.
pub fn records(calls: &dyn Calls, seed: u64, count: u64, tally: &mut Tally) -> Tried {
    for i in 0..count {
        let m = midway(calls, seed, i)?;
        let mut chance = Chance::new(seed ^ 0x7265_63, i);
        let mut lender = Lender::new(calls, &m.lent);
        tally.states += 1;
        let mut all = damaged(&m.record, &mut chance);
        while all.len() > 400 {
            let k = chance.below(all.len());
            all.swap_remove(k);
        }
        for (k, bytes) in all.iter().enumerate() {
            let least = answer_bytes(bytes);
            let room = if k % 50 == 49 { chance.below(least) } else { least + chance.below(3) };
            lend(&mut lender, bytes, room, tally).map_err(|e| told(&m, bytes, e))?;
            lender.lend(&m.lent);
            stream(&mut lender, bytes, tally).map_err(|e| told(&m, bytes, e))?;
            lender.lend(&m.lent);
        }
    }
    Ok(())
}

//---- damaged states --------------------------------------------------------------------------------------------

/// Other values for word i: few past the rows in use, many in them.
fn other_words(s: View, i: usize, chance: &mut Chance) -> Vec<u32> {
    let w = s.words[i];
    let mut out = vec![w ^ 1, w.wrapping_add(1), w.wrapping_sub(1), w ^ 2, w ^ 16, w ^ 0x8000_0000, u32::MAX, 0];
    if s.in_use(i) {
        out.extend(0..10);
        out.extend([15, 16, 17, 23, 31, 32, 255, 256]);
        let ends = [s.nodes(), s.places(), s.vars(), s.structs()];
        out.extend(ends.iter().flat_map(|n| [*n as u32, (*n as u32).wrapping_sub(1)]));
        out.sort();
        out.dedup()
    } else {
        out = vec![out[0], chance.one(&out[1..7])]
    }
    out.retain(|x| *x != w);
    out
}

fn other_bytes(b: u8, chance: &mut Chance) -> Vec<u8> {
    vec![b ^ 1, b ^ 16, b ^ 32, chance.one(&[0xff, b ^ 2, 31, 8])]
}

/// One record on the damaged state; every few also the splitter and a job.
fn on_damaged(lender: &mut Lender, lent: &Lent, record: &[u8], k: usize, tally: &mut Tally) -> Tried {
    let damaged = (k % 5 == 0).then(|| lender.lent());
    lend(lender, record, answer_bytes(record), tally)?;
    if let Some(damaged) = damaged {
        lender.lend(&damaged);
        stream(lender, record, tally)?
    }
    if !lender.unchanged() || k % 5 == 0 {
        lender.lend(lent)
    }
    Ok(())
}

/// Each word and each parameter byte of one state changed in turn.
pub fn state(calls: &dyn Calls, m: &Midway, seed: u64, tally: &mut Tally) -> Tried {
    let mut chance = Chance::new(seed, 0x737461);
    let mut lender = Lender::new(calls, &m.lent);
    tally.states += 1;
    let mut k = 0;
    for i in 0..WORDS {
        for w in other_words(m.lent.view(), i, &mut chance) {
            lender.words_mut()[i] = w;
            k += 1;
            let told = |e| format!("{}: word {} ({}) {} → {}: {}", m.name, i, place_of_word(i), m.lent.words[i], w, e);
            on_damaged(&mut lender, &m.lent, &m.record, k, tally).map_err(told)?;
            lender.words_mut()[i] = m.lent.words[i];
        }
    }
    for (row, i) in (0..256 * 8).map(|i| (i / 8, i % 8)) {
        for b in other_bytes(m.lent.params[row][i], &mut chance) {
            lender.params_mut()[row][i] = b;
            k += 1;
            let told = |e| format!("{}: parameter byte {} of struct {} → {}: {}", m.name, i, row, b, e);
            on_damaged(&mut lender, &m.lent, &m.record, k, tally).map_err(told)?;
            lender.params_mut()[row][i] = m.lent.params[row][i];
        }
    }
    Ok(())
}

pub fn states(calls: &dyn Calls, seed: u64, count: u64, tally: &mut Tally) -> Tried {
    (0..count).try_for_each(|i| state(calls, &midway(calls, seed, i)?, seed ^ i, tally))
}

/// Several words at once, and state slices of another length.
pub fn wild(calls: &dyn Calls, seed: u64, count: u64, tally: &mut Tally) -> Tried {
    for i in 0..count {
        let m = midway(calls, seed, i)?;
        let mut chance = Chance::new(seed ^ 0x77_696c, i);
        tally.states += 1;
        for k in 0..40 {
            let mut lent = m.lent.clone();
            spoil(&mut lent, &mut chance);
            let mut lender = Lender::new(calls, &lent);
            let told = |e| format!("{}: wild {}: {}", m.name, k, e);
            lend(&mut lender, &m.record, answer_bytes(&m.record), tally).map_err(told)?;
            lender.lend(&lent);
            stream(&mut lender, &m.record, tally).map_err(told)?
        }
    }
    Ok(())
}

fn spoil(lent: &mut Lent, chance: &mut Chance) {
    let used = [0, 5, 12_293, 16_389, 21_509, 23_557];
    match chance.below(12) {
        0 => lent.words.truncate(chance.below(WORDS)),
        1 => lent.words.extend([0, 0]),
        2 => lent.words.iter_mut().for_each(|w| *w = chance.bits() as u32),
        _ => {
            for _ in 0..=chance.below(3) {
                let at = chance.one(&used) + chance.below(60);
                lent.words[at] = chance.one(&[0, 1, 2, 3, 6, 7, 16, 40, 0xffff_ffff])
            }
        }
    }
}

//---- needs (02, R-7) -------------------------------------------------------------------------------------------

/// Each variable of states about numbers, marked and not, with every need up to 257 and some by chance.
pub fn needs(calls: &dyn Calls, seed: u64, count: u64, tally: &mut Tally) -> Tried {
    for i in 0..count {
        let m = midway_of(calls, seed, i, Some(Profile::Numbers))?;
        let mut chance = Chance::new(seed ^ 0x6e_6565, i);
        tally.states += 1;
        for (v, marked) in (0..m.lent.view().vars()).flat_map(|v| [(v, true), (v, false)]) {
            let mut lent = m.lent.clone();
            match marked {
                true => lent.set_mark(v, chance.below(9) as u32),
                false => lent.clear_mark(v),
            }
            let mut lender = Lender::new(calls, &lent);
            for bits in (0..=257).chain((0..3).map(|_| chance.bits() as u32)) {
                lent.set_need(v, bits);
                lender.lend(&lent);
                let told = |e| format!("{}: V{}, marked: {}, need {}: {}", m.name, v, marked, bits, e);
                lend(&mut lender, &m.record, answer_bytes(&m.record), tally).map_err(told)?
            }
        }
    }
    Ok(())
}

/// Sound states with marks and needs anywhere, ends that need less than the variables before them among them: SV gives none
/// of 1 to 4, and no need sinks.
pub fn literals(calls: &dyn Calls, seed: u64, count: u64, tally: &mut Tally) -> Tried {
    for i in 0..count {
        let m = midway_of(calls, seed, i, Some(Profile::Numbers))?;
        let mut chance = Chance::new(seed ^ 0x6c_6974, i);
        tally.states += 1;
        for k in 0..20 {
            let mut lent = m.lent.clone();
            needed(&mut lent, &mut chance);
            let mut lender = Lender::new(calls, &lent);
            let told = |e| format!("{}: {}: {}", m.name, k, e);
            lend(&mut lender, b"SV", MIN_ANSWER, tally).map_err(told)?;
            lender.view().grown_from(lent.view(), Some).map_err(told)?
        }
    }
    Ok(())
}

/// marks and needs by chance
fn needed(lent: &mut Lent, chance: &mut Chance) {
    for v in 0..lent.view().vars() {
        lent.clear_mark(v);
        if chance.percent(70) {
            lent.set_mark(v, chance.below(9) as u32);
            let any = 1 + chance.below(256) as u32;
            lent.set_need(v, chance.one(&[0, 1, 8, 9, 64, 65, 128, 129, 256, any]))
        }
    }
}
