//! A job and its log for people: a line for each record, in Move's syntax, and a summary.
use crate::{
    names::Names,
    pairs::{word, Pair, Pairs},
    payload::Outcome,
    record::Record,
    text::{Detail, Printer},
};
use std::{collections::BTreeMap, fmt::Write};

#[derive(Clone, Copy)]
pub struct Options<'a> {
    pub detail: Detail,
    pub names: Names<'a>,
    /// only records that are not answered with 0, SV with failed constraints, XP with codes and MJ with pairs that are not 0
    pub errors: bool,
    /// at most so many lines
    pub lines: usize,
    /// where a record is not read: the byte and the rule
    pub why: bool,
}

impl Default for Options<'_> {
    fn default() -> Self {
        Options { detail: Detail::Types, names: Names::default(), errors: false, lines: usize::MAX, why: false }
    }
}

fn failed(p: &Pair) -> usize {
    if let Outcome::Failed(fs) = &p.payload {
        fs.len()
    } else {
        0
    }
}

/// what a record has done wrong that is not answered well
fn wrong(p: &Pair) -> &'static str {
    match &p.payload {
        Outcome::Failed(_) => "failed constraints",
        Outcome::Expanded(..) => "a type that is not inferred",
        Outcome::Pairs(all) => all.iter().find(|o| !o.is_well()).map_or(word(p.number), |o| word(o.number())),
        _ => word(p.number),
    }
}

/// An answer in words, with its payload.
pub fn answer<'a>(p: &Pair, printer: impl Into<Printer<'a>>) -> String {
    said(&p.payload, printer.into())
}

fn said(payload: &Outcome, printer: Printer) -> String {
    let said = word(payload.number());
    let text = |t| printer.ty(t);
    let told = match payload.plain() {
        Outcome::Declared(n) => format!("{} S{}", said, n),
        Outcome::Recursive(loc) => format!("{} {}", said, printer.names.place(*loc)),
        Outcome::Needs([n, p, v, c]) => {
            format!("{} {} nodes, {} places, {} variables, {} constraints", said, n, p, v, c)
        }
        Outcome::Failed(fs) => {
            let told =
                fs.iter().map(|f| format!("{} {} (constraint {})", text(&f.ty), f.reason, printer.names.place(f.loc)));
            format!("{}; failed: {}", said, told.collect::<Vec<_>>().join("; "))
        }
        Outcome::Mismatch(1, a, b) => format!("{}: {} where {} is wanted", said, text(a), text(b)),
        Outcome::Mismatch(_, a, b) => format!("{}: {} and {}", said, text(a), text(b)),
        Outcome::Type(t) => format!("{} {}", said, text(t)),
        Outcome::Spelled(t) => format!("{} {}", said, printer.without_variables().ty(t)),
        Outcome::Expanded(t, open) if open.is_empty() => format!("{} {}", said, text(t)),
        Outcome::Expanded(t, open) => {
            let places: Vec<_> = open.iter().map(|loc| printer.names.place(*loc)).collect();
            format!("{} {}; not inferred: {}", said, text(t), places.join(", "))
        }
        Outcome::Pairs(all) => {
            let one = |(i, o): (usize, &Outcome)| format!("; pair {} {}", i, self::said(o, printer));
            said.to_string() + &all.iter().enumerate().map(one).collect::<String>()
        }
        Outcome::Kept(all) if all.is_empty() => format!("{}; no variable stays", said),
        Outcome::Kept(all) => {
            let one = |(old, new): &(u16, u16)| format!("{} is now V{}", printer.variable(*old), new);
            format!("{}; {}", said, all.iter().map(one).collect::<Vec<_>>().join(", "))
        }
        Outcome::Done | Outcome::Refused(_) | Outcome::Linked(..) => said.into(),
    };
    match payload.links() {
        Some(links) => format!("{}; links: {}", told, links),
        None => told,
    }
}

/// A record's mark and operands.
pub fn record<'a>(p: &Pair, printer: impl Into<Printer<'a>>) -> String {
    let Ok(r) = &p.read else { return "(not read)".into() };
    let between = if let Record::SU(..) = r { "  <:  " } else { "  ~  " };
    let operands = printer.into().fields(r).join(between);
    let gap = if operands.is_empty() { "" } else { "  " };
    format!("{}{}{}", r.mark(), gap, operands)
}

/// Where reading stopped; where it depends on a variable that the log does not show, each place that it may be.
fn why(p: &Pair) -> String {
    let Err(stops) = &p.read else { return String::new() };
    let place = |at: usize| match p.bytes.get(at) {
        Some(b) => format!("byte {} ({:02x}; byte {} of the job)", at, b, p.at + at),
        None => format!("byte {} (byte {} of the job)", at, p.at + at),
    };
    let told: Vec<_> = stops.iter().map(|x| format!("{}: {}", place(x.at), x.rule)).collect();
    let several = if told.len() > 1 { "the first of these that is so: " } else { "" };
    format!("    {}{}\n", several, told.join("; or "))
}

#[derive(Default)]
pub struct Summary {
    pub answers: BTreeMap<usize, usize>,
    pub failed_constraints: usize,
    /// XP's codes
    pub not_inferred: usize,
    /// pairs of MJ that are not answered with 0
    pub failed_pairs: usize,
    /// an answer that is not 0, SV with failed constraints, XP with a type that is not inferred, MJ with a pair that is not 0: the
    /// record, and what it is
    pub first_error: Option<(usize, &'static str)>,
    /// the log does not fit the job
    pub wrong: Option<String>,
}

/// The lines and the summary of a job with its log.
pub fn show(stream: &[u8], log: &str, options: Options) -> (String, Summary) {
    let (mut out, mut summary, mut shown) = (String::new(), Summary::default(), 0);
    let printer = Printer { detail: options.detail, names: options.names };
    for pair in Pairs::new(stream, log) {
        let p = match pair {
            Ok(p) => p,
            Err(e) => {
                summary.wrong = Some(e);
                break;
            }
        };
        summary.add(&p);
        let printer = Printer { names: p.names(printer.names), ..printer };
        let wanted = !options.errors || !p.payload.is_well();
        if wanted && shown < options.lines {
            shown += 1;
            writeln!(out, "{} {}   → {}", p.n, record(&p, printer), answer(&p, printer)).unwrap();
            out += &if options.why { why(&p) } else { String::new() };
        }
    }
    (out, summary)
}

impl Summary {
    fn add(&mut self, p: &Pair) {
        *self.answers.entry(p.number).or_insert(0) += 1;
        self.failed_constraints += failed(p);
        self.not_inferred += if let Outcome::Expanded(_, open) = &p.payload { open.len() } else { 0 };
        self.failed_pairs +=
            if let Outcome::Pairs(all) = &p.payload { all.iter().filter(|o| !o.is_well()).count() } else { 0 };
        if !p.payload.is_well() && self.first_error.is_none() {
            self.first_error = Some((p.n, wrong(p)))
        }
    }

    pub fn text(&self) -> String {
        let mut parts = vec![format!("{} records", self.answers.values().sum::<usize>())];
        let by_number: Vec<_> = self.answers.iter().map(|(k, n)| format!("{} {}: {}", k, word(*k), n)).collect();
        if !by_number.is_empty() {
            parts.push(by_number.join(", "))
        }
        if self.failed_constraints > 0 {
            parts.push(format!("failed constraints: {}", self.failed_constraints))
        }
        if self.not_inferred > 0 {
            parts.push(format!("not inferred: {}", self.not_inferred))
        }
        if self.failed_pairs > 0 {
            parts.push(format!("failed pairs: {}", self.failed_pairs))
        }
        match (self.first_error, &self.wrong) {
            (Some((n, what)), _) => parts.push(format!("first error: record {}, {}", n, what)),
            (None, None) => parts.push("no error".into()),
            (None, Some(_)) => (),
        }
        parts.extend(self.wrong.as_ref().map(|w| format!("the log does not fit the job: {}", w)));
        parts.join("; ")
    }

    /// 0: nothing is wrong. 1: some answer or pair is not 0, SV lists failed constraints or XP codes. 2: the log does not fit the
    /// job.
    pub fn code(&self) -> i32 {
        match (&self.wrong, self.first_error) {
            (Some(_), _) => 2,
            (_, Some(_)) => 1,
            _ => 0,
        }
    }
}
