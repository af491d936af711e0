//! The report as text: each failure once, then a line of sums.
use super::{failure::Failure, Job, Release, Verdict};
use std::fmt::Write;

/// a count with its word
pub fn s(n: usize, one: &str) -> String {
    format!("{} {}{}", n, one, if n == 1 { "" } else { "s" })
}

/// both types, what differs first underlined
fn types(f: &Failure, out: &mut String) {
    let sides: &[&str] = if f.types.len() == 2 { &["left", "right"] } else { &["type"] };
    for (side, t) in sides.iter().zip(&f.types) {
        writeln!(out, "    {:6} {}    {}", side, t.text, t.place).unwrap();
        if !t.differs.is_empty() {
            let before = t.text[..t.differs.start].chars().count();
            let under = t.text[t.differs.clone()].chars().count();
            writeln!(out, "           {}{}", " ".repeat(before), "^".repeat(under)).unwrap()
        }
    }
}

fn failure(job: &Job, f: &Failure, out: &mut String) {
    writeln!(out, "error[{}] {}: {}", f.label(), f.word(), f.told).unwrap();
    writeln!(out, "  --> {}, record {} (byte {}): {}", job.name, f.record, f.at, f.text).unwrap();
    types(f, out);
    if f.types.len() < 2 && !f.places.is_empty() {
        let what = if matches!(f.code, 1..=4) { "constraint at" } else { "at    " };
        writeln!(out, "    {} {}", what, f.places.join(", ")).unwrap()
    }
    if let Some(bytes) = f.unread {
        writeln!(out, "    {}", unread(f.record, bytes)).unwrap()
    }
}

/// how much of a job was read that ends with 5, 6 or 18
pub fn unread(records: usize, bytes: usize) -> String {
    let were = |n: usize| if n == 1 { "was" } else { "were" };
    let (read, not) = (s(records, "record"), s(bytes, "byte"));
    format!("{} {} read; {} from here on {} not", read, were(records), not, were(bytes))
}

/// The last line: functions, records, failures by kind, and what follows from it.
pub fn sums(r: &Release) -> String {
    let (well, failed, unknown) = (r.count(Verdict::Well), r.count(Verdict::Failed), r.count(Verdict::Unknown));
    let records: usize = r.jobs.iter().map(|j| j.records).sum();
    let functions = s(r.jobs.len(), "function");
    let mut out =
        format!("{}: {} ok, {} failed, {} not known; {}", functions, well, failed, unknown, s(records, "record"));
    let kinds = r.kinds();
    if !kinds.is_empty() {
        let told: Vec<_> = kinds.iter().map(|(kind, n)| format!("{}: {}", kind, n)).collect();
        let all = s(kinds.iter().map(|(_, n)| n).sum(), "failure");
        write!(out, "; {}: {}", all, told.join(", ")).unwrap()
    }
    out + "; " + advice(r)
}

pub fn advice(r: &Release) -> &'static str {
    match r.verdict() {
        Verdict::Well => "publish",
        Verdict::Failed => "DO NOT PUBLISH",
        Verdict::Unknown => "NOT KNOWN",
    }
}

pub fn text(r: &Release, more: bool) -> String {
    let mut out = String::new();
    for j in &r.jobs {
        j.failures.iter().for_each(|f| failure(j, f, &mut out));
        j.unknown.iter().for_each(|u| writeln!(out, "not known: {}: {}", j.name, u).unwrap());
        if more && j.verdict() == Verdict::Well {
            writeln!(out, "ok: {}: {}, {}", j.name, s(j.records, "record"), s(j.bytes, "byte")).unwrap()
        }
    }
    r.unknown.iter().for_each(|u| writeln!(out, "not known: {}", u).unwrap());
    r.notes.iter().for_each(|n| writeln!(out, "note: {}", n).unwrap());
    if let Some(base) = &r.base {
        out += &super::base::text(base, more)
    }
    out += &(sums(r) + "\n");
    // a job's name, or what stands in a log, moves no cursor
    out.chars().map(|c| if c.is_control() && c != '\n' { '\u{fffd}' } else { c }).collect()
}
