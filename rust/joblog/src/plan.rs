//! A release's folders, its manifest under a lock, and what is to be run: each job that has no line with today's sums.
use crate::{
    jobs,
    manifest::{self, Line},
    pairs::Pairs,
    program::{Program, Stamp},
    sums::sha256,
};
use std::{
    collections::{BTreeMap, BTreeSet},
    fs::{self, File, OpenOptions},
    io::{Read, Write},
    path::{Path, PathBuf},
};

/// A release's two folders.
pub struct Folders {
    pub jobs: PathBuf,
    pub logs: PathBuf,
}

/// Why a job is run: what is said of its log.
const NEW: &str = "";
const UNKNOWN: &str = "by no run that the manifest knows";
const OTHER_JOB: &str = "of a job that has changed since";
const OTHER_LOG: &str = "missing, or not as their line has them";
const OTHER_PROGRAM: &str = "by another program than today's";

/// A job that is to be run, its sum, and what the file was before it was summed.
pub struct Left {
    pub name: String,
    pub sha256: String,
    pub stamp: Stamp,
}

/// What is to be done, and what is there.
#[derive(Default)]
pub struct Plan {
    pub left: Vec<Left>,
    /// so many have their log already
    pub there: usize,
    pub unread: Vec<String>,
    why: BTreeMap<&'static str, Vec<String>>,
    /// logs whose job is gone
    gone: Vec<String>,
}

pub fn io<T>(what: &Path, done: std::io::Result<T>) -> Result<T, String> {
    done.map_err(|e| format!("{}: {}", what.display(), e))
}

/// Where `path` would be, as far as it is there.
fn place(path: &Path) -> PathBuf {
    let there = path.ancestors().find_map(|p| {
        let real = if p.as_os_str().is_empty() { Path::new(".") } else { p }.canonicalize().ok()?;
        Some(real.join(path.strip_prefix(p).ok()?))
    });
    there.unwrap_or_else(|| path.into())
}

impl Folders {
    /// Both as they are told, neither inside the other. LOGS is made where `make` says so.
    pub fn new(jobs: &Path, logs: &Path, make: bool) -> Result<Folders, String> {
        if let Some(missing) = [jobs, logs].into_iter().take(if make { 1 } else { 2 }).find(|f| !f.is_dir()) {
            return Err(format!("{}: no such folder", missing.display()));
        }
        let (one, two) = (place(jobs), place(logs));
        if one.starts_with(&two) || two.starts_with(&one) {
            return Err(
                "one of JOBS and LOGS is in the other: a log would be taken for a job, or a job for a log".into()
            );
        }
        io(logs, fs::create_dir_all(logs))?;
        Ok(Folders { jobs: io(jobs, jobs.canonicalize())?, logs: io(logs, logs.canonicalize())? })
    }

    pub fn names(&self) -> Result<Vec<String>, String> {
        let names = jobs::names(&self.jobs)?;
        if names.is_empty() {
            return Err(format!("{}: no jobs", self.jobs.display()));
        }
        Ok(names)
    }

    pub fn job(&self, name: &str) -> PathBuf {
        self.jobs.join(name)
    }

    pub fn log(&self, name: &str) -> PathBuf {
        self.logs.join(format!("{}.log", name))
    }

    pub fn part(&self, name: &str) -> PathBuf {
        self.logs.join(format!("{}.log.part", name))
    }

    /// The manifest, opened to be added to and locked: for one run alone, or for many that each do one job.
    pub fn manifest(&self, alone: bool, make: bool) -> Result<File, String> {
        let path = self.logs.join(manifest::FILE);
        let file = io(&path, OpenOptions::new().read(true).append(true).create(make).open(&path))?;
        let locked = if alone { file.try_lock() } else { file.try_lock_shared() };
        locked.map(|()| file).map_err(|e| match e {
            fs::TryLockError::WouldBlock => format!("{}: another run is at work there", self.logs.display()),
            fs::TryLockError::Error(e) => format!("{}: {}", path.display(), e),
        })
    }

    pub fn lines(&self, manifest: &mut File) -> Result<BTreeMap<String, Line>, String> {
        let mut text = vec![];
        io(&self.logs.join(manifest::FILE), manifest.read_to_end(&mut text))?;
        let text = String::from_utf8_lossy(&text);
        if !text.is_empty() && !text.ends_with('\n') {
            io(&self.logs.join(manifest::FILE), manifest.write_all(b"\n"))?;
        }
        Ok(manifest::read(&text))
    }

    pub fn plan(&self, names: &[String], lines: &BTreeMap<String, Line>, program: &Program) -> Result<Plan, String> {
        let stamps: Vec<_> = names.iter().map(|n| Stamp::of(&self.job(n))).collect();
        let told = |e: std::io::Error| e.to_string();
        let job_sums = sha256(&names.iter().map(|n| self.job(n)).collect::<Vec<_>>()).map_err(told)?;
        let known: Vec<&String> = names.iter().filter(|n| lines.contains_key(*n)).collect();
        let log_sums = sha256(&known.iter().map(|n| self.log(n)).collect::<Vec<_>>()).map_err(told)?;
        let logs: BTreeMap<&String, Option<String>> = known.into_iter().zip(log_sums).collect();
        let mut plan = Plan { gone: self.gone(names)?, ..Plan::default() };
        for ((name, sum), stamp) in names.iter().zip(job_sums).zip(stamps) {
            let (Some(sum), Ok(stamp)) = (sum, stamp) else {
                plan.unread.push(name.clone());
                continue;
            };
            let why = match lines.get(name) {
                Some(l) => self.off(l, &sum, logs[name].as_deref(), program),
                None if self.log(name).exists() => Some(UNKNOWN),
                None => Some(NEW),
            };
            if let Some(why) = why {
                plan.why.entry(why).or_default().push(name.clone());
                plan.left.push(Left { name: name.clone(), sha256: sum, stamp })
            } else {
                plan.there += 1
            }
        }
        Ok(plan)
    }

    fn gone(&self, names: &[String]) -> Result<Vec<String>, String> {
        let names: BTreeSet<&str> = names.iter().map(|n| n.as_str()).collect();
        let mut there = jobs::names(&self.logs)?;
        there.retain(|l| l.strip_suffix(".log").is_some_and(|n| !names.contains(n)));
        Ok(there)
    }
}

/// How many records a log has, and how many bytes of its job were read.
pub fn counted(job: &[u8], log: &[u8]) -> Result<(usize, usize), String> {
    let text = std::str::from_utf8(log).map_err(|_| "the log is no text")?;
    let (mut records, mut read) = (0, 0);
    for pair in Pairs::of_log(job, text) {
        let p = pair.map_err(|e| format!("the log does not fit the job: {}", e))?;
        records += 1;
        read = p.at + if p.read.is_ok() { p.bytes.len() } else { 0 }
    }
    Ok((records, read))
}

impl Folders {
    /// What in a job's line is not as today, if anything.
    fn off(&self, line: &Line, job: &str, log: Option<&str>, program: &Program) -> Option<&'static str> {
        if line.job_sha256 != job {
            Some(OTHER_JOB)
        } else if log != Some(&line.log_sha256) || !self.as_counted(line) {
            Some(OTHER_LOG)
        } else if (&line.program_sha256, line.proved) != (&program.sha256, program.proved) {
            Some(OTHER_PROGRAM)
        } else {
            None
        }
    }

    /// Whether job and log have the counts that the line has: what the report would not believe is run again.
    fn as_counted(&self, line: &Line) -> bool {
        let (Ok(job), Ok(log)) = (fs::read(self.job(&line.job)), fs::read(self.log(&line.job))) else { return false };
        job.len() == line.bytes && counted(&job, &log) == Ok((line.records, line.read))
    }
}

/// Names, the first few of them.
fn few(names: &[String]) -> String {
    let first = names[..names.len().min(3)].join(", ");
    if names.len() > 3 {
        first + ", .."
    } else {
        first
    }
}

impl Plan {
    /// On standard error: what is run again and why, and what is not run.
    pub fn tell(&self) {
        let told = |what: &str, names: &[String]| {
            if !names.is_empty() {
                eprintln!("joblog: {}: {} ({})", what, names.len(), few(names))
            }
        };
        for (why, names) in self.why.iter().filter(|(why, _)| **why != NEW) {
            told(&format!("run again, logs {}", why), names)
        }
        told("logs whose job is gone, not summed up", &self.gone);
        told("jobs that cannot be read", &self.unread);
        if self.there > 0 {
            eprintln!("joblog: {} jobs have their log already", self.there)
        }
    }
}
