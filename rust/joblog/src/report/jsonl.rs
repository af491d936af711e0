//! The report as JSON lines: one for each failure, one for each job, one for the release.
use super::{
    failure::{Failure, Shown, Stop},
    text::sums,
    Job, Release, Verdict,
};
use crate::json::string;

/// of the form below
pub const VERSION: usize = 1;

fn list<T>(of: &[T], one: impl Fn(&T) -> String) -> String {
    format!("[{}]", of.iter().map(one).collect::<Vec<_>>().join(","))
}

fn texts(of: &[String]) -> String {
    list(of, |s| string(s))
}

pub fn object(kind: &str, fields: &[(&str, String)]) -> String {
    let fields: String = fields.iter().map(|(name, value)| format!(",\"{}\":{}", name, value)).collect();
    format!("{{\"v\":{},\"kind\":\"{}\"{}}}\n", VERSION, kind, fields)
}

fn shown(t: &Shown) -> String {
    let parts = [
        ("type", string(&t.plain)),
        ("text", string(&t.text)),
        ("differs", string(&t.text[t.differs.clone()])),
        ("location", t.loc.to_string()),
        ("place", string(&t.place)),
    ];
    let fields: Vec<_> = parts.iter().map(|(name, value)| format!("\"{}\":{}", name, value)).collect();
    format!("{{{}}}", fields.join(","))
}

fn stop(s: &Stop) -> String {
    format!("{{\"byte\":{},\"rule\":{}}}", s.in_job, string(s.rule))
}

fn failure(job: &Job, f: &Failure) -> String {
    object(
        "failure",
        &[
            ("job", string(&job.name)),
            ("record", f.record.to_string()),
            ("byte", f.at.to_string()),
            ("mark", string(f.mark)),
            ("number", f.number.to_string()),
            ("pair", f.pair.map_or("null".into(), |i| i.to_string())),
            ("code", f.code.to_string()),
            ("word", string(f.word())),
            ("told", string(&f.told)),
            ("text", string(&f.plain)),
            ("types", list(&f.types, shown)),
            ("locations", list(&f.locations, u32::to_string)),
            ("places", texts(&f.places)),
            ("stops", list(&f.stops, stop)),
            ("unread", f.unread.map_or("null".into(), |n| n.to_string())),
        ],
    )
}

fn job(j: &Job) -> String {
    object(
        "job",
        &[
            ("job", string(&j.name)),
            ("verdict", string(j.verdict().word())),
            ("records", j.records.to_string()),
            ("read", j.read.to_string()),
            ("bytes", j.bytes.to_string()),
            ("failures", j.failures.len().to_string()),
            ("unknown", texts(&j.unknown)),
        ],
    )
}

pub fn lines(r: &Release) -> String {
    let one = |j: &Job| j.failures.iter().map(|f| failure(j, f)).collect::<String>() + &job(j);
    let jobs: String = r.jobs.iter().map(one).collect();
    let count = |v: Verdict| r.count(v).to_string();
    let end = [
        ("verdict", string(r.verdict().word())),
        ("status", r.status().to_string()),
        ("ok", count(Verdict::Well)),
        ("failed", count(Verdict::Failed)),
        ("not_known", count(Verdict::Unknown)),
        ("unknown", texts(&r.unknown)),
        ("notes", texts(&r.notes)),
        ("text", string(&sums(r))),
    ];
    jobs + &r.base.as_ref().map_or(String::new(), super::base::lines) + &object("release", &end)
}
