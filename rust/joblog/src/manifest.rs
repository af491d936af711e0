//! A run's manifest, LOGS/manifest.jsonl: for each job a line with the sums of job, log and program, and how much of the
//! job was read. Lines are appended as jobs end; of two lines of one job the last counts.
use crate::json::{object, string, Value};
use std::collections::BTreeMap;

/// beside the logs; no log is named so
pub const FILE: &str = "manifest.jsonl";

#[derive(Debug, Clone, PartialEq, Eq)]
pub struct Line {
    pub job: String,
    /// sha256, as 64 hexadecimal digits
    pub job_sha256: String,
    pub log_sha256: String,
    /// of the program that ran; empty where there was none
    pub program_sha256: String,
    pub records: usize,
    /// bytes before the record that ended the job, or all
    pub read: usize,
    pub bytes: usize,
    pub proved: bool,
}

impl Line {
    /// the line with its line break
    pub fn text(&self) -> String {
        format!(
            "{{\"v\":1,\"job\":{},\"job_sha256\":{},\"log_sha256\":{},\"program_sha256\":{},\
             \"records\":{},\"read\":{},\"bytes\":{},\"proved\":{}}}\n",
            string(&self.job),
            string(&self.job_sha256),
            string(&self.log_sha256),
            string(&self.program_sha256),
            self.records,
            self.read,
            self.bytes,
            self.proved
        )
    }

    fn of(text: &str) -> Option<Line> {
        let mut o = object(text)?;
        let word = |key: &str| match o.get(key)? {
            Value::Text(t) => Some(t.clone()),
            _ => None,
        };
        let (job, job_sha256, log_sha256) = (word("job")?, word("job_sha256")?, word("log_sha256")?);
        let program_sha256 = word("program_sha256")?;
        let count = |key: &str| match o.get(key)? {
            Value::Number(n) => usize::try_from(*n).ok(),
            _ => None,
        };
        let (v, records, read, bytes) = (count("v")?, count("records")?, count("read")?, count("bytes")?);
        let proved = o.remove("proved")? == Value::Bool(true);
        (v == 1).then_some(Line { job, job_sha256, log_sha256, program_sha256, records, read, bytes, proved })
    }
}

/// The last line of each job. A line that is none, or that has no line break, counts for nothing.
pub fn read(text: &str) -> BTreeMap<String, Line> {
    let whole = text.rfind('\n').map_or("", |end| &text[..end]);
    whole.lines().filter_map(Line::of).map(|l| (l.job.clone(), l)).collect()
}
