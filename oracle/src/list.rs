//! A list of jobs with their logs, as text, for a replay without core.rs at hand. A job is a line `job NAME`,
//! a line with its stream in hexadecimal, then its log as joinlog prints it; an empty line ends it. A line
//! that begins with `#` is a comment.
use crate::{gen::Made, job, record};
use std::{collections::BTreeMap, fmt::Write};

pub struct Entry {
    pub name: String,
    pub stream: Vec<u8>,
    pub log: String,
}

pub fn entry(made: &Made) -> Entry {
    let line = |(n, o)| format!("{} {}\n", n, job::answer_text(o));
    let log = made.outcomes.iter().enumerate().map(line).collect();
    Entry { name: made.name.clone(), stream: made.stream.clone(), log }
}

pub fn print(entries: &[Entry]) -> String {
    let mut out = String::new();
    for e in entries {
        write!(out, "job {}\n{}\n{}\n", e.name, record::hex(&e.stream), e.log).unwrap()
    }
    out
}

pub fn parse(text: &str) -> Result<Vec<Entry>, String> {
    let mut out = vec![];
    let mut lines = text.lines().filter(|l| !l.starts_with('#'));
    while let Some(line) = lines.next() {
        if line.is_empty() {
            continue;
        }
        let name = line.strip_prefix("job ").ok_or(format!("`job NAME` is wanted at `{}`", line))?.to_string();
        let stream = lines.next().and_then(record::unhex).ok_or(format!("{}: no stream", name))?;
        let log = lines.by_ref().take_while(|l| !l.is_empty()).map(|l| format!("{}\n", l)).collect();
        out.push(Entry { name, stream, log })
    }
    Ok(out)
}

/// Records by mark and answer number.
pub fn counts(entries: &[Entry]) -> BTreeMap<(String, usize), usize> {
    let mut out = BTreeMap::new();
    for e in entries {
        let mut known = crate::text::any_variable();
        let mut rest = &e.stream[..];
        for line in e.log.lines() {
            let number: usize = line.split(' ').nth(1).and_then(|n| n.parse().ok()).unwrap_or(usize::MAX);
            let mark = match record::read_record(rest, &known) {
                Ok((r, n)) => {
                    if let (record::Record::SD(_, params), 0) = (&r, number) {
                        known.params.push(params.len())
                    }
                    rest = &rest[n..];
                    r.mark().to_string()
                }
                Err(_) => "??".into(),
            };
            *out.entry((mark, number)).or_insert(0) += 1
        }
    }
    out
}
