//! A release for its reader: every job beside its log. Here it is decided what is well, what is wrong and what is not
//! known, into one struct; text, JSON lines, JUnit and the page are made from that.
pub mod base;
pub mod failure;
pub mod html;
pub mod jsonl;
pub mod junit;
pub mod text;
pub mod vouch;
pub mod words;

use crate::{
    jobs,
    names::{Book, Names},
    pairs::{Pair, Pairs},
    show::{answer, record},
    text::{Detail, Printer},
};
use failure::Failure;
use std::{
    collections::BTreeMap,
    fs,
    path::{Path, PathBuf},
};

#[derive(Debug, Clone, Copy, PartialEq, Eq)]
pub enum Verdict {
    Well,
    Failed,
    Unknown,
}

impl Verdict {
    pub fn word(self) -> &'static str {
        match self {
            Verdict::Well => "ok",
            Verdict::Failed => "failed",
            Verdict::Unknown => "not known",
        }
    }
}

/// A record with its answer, as text.
pub struct Line {
    pub n: usize,
    pub record: String,
    pub answer: String,
    pub well: bool,
}

/// One function: its job beside its log.
#[derive(Default)]
pub struct Job {
    pub name: String,
    /// lines of the log that are the job's
    pub records: usize,
    /// bytes before the record that ended the job, or all; of bytes there
    pub read: usize,
    pub bytes: usize,
    pub failures: Vec<Failure>,
    /// why it is not known whether the log is the job's, and right
    pub unknown: Vec<String>,
    /// the whole job, where it was asked for
    pub lines: Vec<Line>,
}

impl Job {
    pub fn verdict(&self) -> Verdict {
        match (self.unknown.is_empty(), self.failures.is_empty()) {
            (false, _) => Verdict::Unknown,
            (_, false) => Verdict::Failed,
            _ => Verdict::Well,
        }
    }
}

/// What the reader is told.
#[derive(Default)]
pub struct Release {
    pub jobs: Vec<Job>,
    /// why the release as a whole is not known
    pub unknown: Vec<String>,
    /// what is told and decides nothing
    pub notes: Vec<String>,
    /// against another release
    pub base: Option<base::Base>,
}

impl Release {
    pub fn count(&self, v: Verdict) -> usize {
        self.jobs.iter().filter(|j| j.verdict() == v).count()
    }

    /// A failure that is known decides; without one, all that is not known.
    pub fn verdict(&self) -> Verdict {
        if self.count(Verdict::Failed) > 0 {
            Verdict::Failed
        } else if self.count(Verdict::Unknown) > 0 || !self.unknown.is_empty() || self.jobs.is_empty() {
            Verdict::Unknown
        } else {
            Verdict::Well
        }
    }

    /// 0 publish, 1 do not, 2 not known
    pub fn status(&self) -> i32 {
        match self.verdict() {
            Verdict::Well => 0,
            Verdict::Failed => 1,
            Verdict::Unknown => 2,
        }
    }

    pub fn failures(&self) -> impl Iterator<Item = (&Job, &Failure)> {
        self.jobs.iter().flat_map(|j| j.failures.iter().map(move |f| (j, f)))
    }

    /// failures of each kind, the most frequent first
    pub fn kinds(&self) -> Vec<(String, usize)> {
        let mut counts = BTreeMap::new();
        self.failures().for_each(|(_, f)| *counts.entry(f.kind()).or_insert(0) += 1);
        let mut counts: Vec<_> = counts.into_iter().collect();
        counts.sort_by_key(|(_, n)| std::cmp::Reverse(*n));
        counts
    }
}

/// What is asked for.
#[derive(Default)]
pub struct Asked {
    pub jobs: PathBuf,
    pub logs: PathBuf,
    pub vouch: vouch::Asked,
    pub book: Book,
    /// whether every record of every job is wanted as text
    pub lines: bool,
}

fn line(p: &Pair, names: Names) -> Line {
    let printer = Printer { detail: Detail::Full, names };
    Line { n: p.n, record: record(p, printer), answer: answer(p, printer), well: p.payload.is_well() }
}

/// A job beside its log, None where there is no log.
pub fn job(name: &str, stream: &[u8], log: Option<&[u8]>, names: Names, lines: bool) -> Job {
    let mut out = Job { name: name.into(), bytes: stream.len(), ..Job::default() };
    let log = match log.map(std::str::from_utf8) {
        None => {
            out.unknown.push("it has no log".into());
            return out;
        }
        Some(Err(_)) => {
            out.unknown.push("the log is not the job's: it is no text".into());
            return out;
        }
        Some(Ok(log)) => log,
    };
    for pair in Pairs::of_log(stream, log) {
        match pair {
            Err(e) => out.unknown.push(format!("the log is not the job's: {}", e)),
            Ok(p) => {
                out.records += 1;
                out.read = p.at + if p.read.is_ok() { p.bytes.len() } else { 0 };
                let names = p.names(names);
                out.failures.extend(failure::failures(&p, names));
                out.lines.extend(lines.then(|| line(&p, names)))
            }
        }
    }
    out
}

/// A job's name, where it is and where its log is.
pub struct Place {
    pub name: String,
    pub job: PathBuf,
    pub log: PathBuf,
}

/// The jobs that are asked for: those of a folder, or one file.
pub fn places(jobs: &Path, logs: &Path) -> Result<Vec<Place>, String> {
    let is_folder = |p: &Path| fs::metadata(p).map(|m| m.is_dir()).map_err(|e| format!("{}: {}", p.display(), e));
    match (is_folder(jobs)?, is_folder(logs).unwrap_or(false)) {
        (true, false) => Err(format!("{}: no folder, and {} is one", logs.display(), jobs.display())),
        (false, true) => Err(format!("{}: a folder, and {} is none", logs.display(), jobs.display())),
        (false, false) => {
            let name = jobs.file_name().unwrap_or_default().to_string_lossy().into_owned();
            Ok(vec![Place { name, job: jobs.into(), log: logs.into() }])
        }
        (true, true) => {
            let place = |name: String| {
                let (job, log) = (jobs.join(&name), logs.join(format!("{}.log", name)));
                Place { name, job, log }
            };
            Ok(jobs::names(jobs)?.into_iter().map(place).collect())
        }
    }
}

fn read(place: &Place, asked: &Asked) -> Result<Job, String> {
    let stream = fs::read(&place.job).map_err(|e| format!("{}: {}", place.job.display(), e))?;
    let log = fs::read(&place.log);
    let mut out = job(&place.name, &stream, log.as_deref().ok(), asked.book.job(&place.name), asked.lines);
    if let Some(e) = log.err().filter(|e| e.kind() != std::io::ErrorKind::NotFound) {
        out.unknown = vec![format!("its log cannot be read: {}", e)]
    }
    Ok(out)
}

/// The release that is asked for, or why there is none.
pub fn release(asked: &Asked) -> Result<Release, String> {
    let manifest = vouch::manifest(asked)?;
    let places = places(&asked.jobs, &asked.logs)?;
    let jobs = places.iter().map(|p| read(p, asked)).collect::<Result<_, _>>()?;
    let mut out = Release { jobs, ..Release::default() };
    vouch::vouch(&mut out, &places, asked, manifest)?;
    if out.jobs.is_empty() {
        out.unknown.push("there are no jobs".into())
    }
    Ok(out)
}
