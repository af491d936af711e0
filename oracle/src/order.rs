//! What the real HashMap's order changes: jobs that end with SV and then read every variable taken before it.
//! The list is made by the build with the ordered map and run again by the one with the real map.
use crate::{
    gen::{Chance, Made, Maker, Profile},
    job::{self, Job, Outcome},
    list::Entry,
    record::{self, Kind, Known, Record, Ty},
};
use joblog::location::blank_payload;
use std::collections::BTreeMap;

/// A job about numbers up to its first SV; then RD of each variable from before it, and FV.
pub fn made(seed: u64, index: u64) -> Made {
    let mut m = Maker::new(Chance::new(seed, index));
    m.profile = Profile::Numbers;
    let mut job = Job::new();
    let mut made = Made { name: format!("order-{}-{}", seed, index), stream: vec![], outcomes: vec![] };
    let mut add = |job: &mut Job, r: &Record| {
        let outcome = job.record(r);
        let answered = matches!(outcome, Outcome::Core(..));
        if answered {
            made.stream.extend(r.bytes());
            made.outcomes.push(outcome)
        }
        answered
    };
    let vars = (0..)
        .find_map(|n| {
            let known = job.known().clone();
            let r = if n < 40 { m.record(n, known.vars, &known.params) } else { Record::SV };
            (add(&mut job, &r) && r == Record::SV || n == 50).then_some(known.vars)
        })
        .unwrap();
    for v in 0..vars {
        add(&mut job, &Record::RD(Ty { loc: 900, kind: Kind::Var(v as u16) }));
    }
    add(&mut job, &Record::FV(7));
    made
}

/// A type without locations, variables by first appearance in the job's answers.
fn resolved(line: &str, known: &Known, met: &mut Vec<u16>) -> Option<Ty> {
    let payload = record::unhex(line.split(' ').nth(2)?)?;
    Some(job::spelled(&record::read_type(&payload, known).ok()?.0, met))
}

/// A line of SV, its failures' locations set to 0: the order decides at which mark's location a `u64` is stored.
fn blank(line: &str, params: &[usize]) -> (String, Vec<u8>) {
    let mut words = line.splitn(3, ' ').skip(1).map(String::from);
    let number = words.next().unwrap();
    let payload = words.next().and_then(|p| record::unhex(&p)).unwrap_or_default();
    (number, blank_payload(b"SV", 0, &payload, params))
}

/// Counts of what differs between the list's logs and this build's.
pub fn compare(entries: &[Entry]) -> BTreeMap<&'static str, usize> {
    let mut out = BTreeMap::new();
    let mut count = |what, yes: bool| *out.entry(what).or_insert(0) += yes as usize;
    for e in entries {
        let got = job::log(&e.stream, false, false);
        let (mut known, mut rest, mut solved) = (crate::text::any_variable(), &e.stream[..], false);
        let (mut ours, mut theirs) = (vec![], vec![]);
        count("jobs", true);
        count("jobs of unequal length", got.lines().count() != e.log.lines().count());
        for (a, b) in e.log.lines().zip(got.lines()) {
            let (r, n) = record::read_record(rest, &known).unwrap();
            rest = &rest[n..];
            match r {
                Record::SV => {
                    solved = true;
                    count("SV lines that differ", a != b);
                    let failures = |line| blank(line, &known.params);
                    count("of these, apart from locations", failures(a) != failures(b))
                }
                _ if !solved => count("lines before SV that differ", a != b),
                Record::RD(_) => {
                    count("variables read after SV", true);
                    count("of these, bytes differ", a != b);
                    let same = resolved(a, &known, &mut ours) == resolved(b, &known, &mut theirs);
                    count("of these, resolved types differ", !same)
                }
                _ => count("next variable differs", a != b),
            }
            if let Record::SD(_, params) = r {
                known.params.push(params.len())
            }
        }
    }
    out
}
