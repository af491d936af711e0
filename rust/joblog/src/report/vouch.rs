//! Whether a run that is known made the logs: by its manifest (src/manifest.rs), which names job, log and program by
//! their sums.
use super::{Asked as Whole, Job, Place, Release};
use crate::{
    manifest::{self, Line},
    sums::sha256,
};
use std::{
    collections::{BTreeMap, BTreeSet},
    fs::{self, File, TryLockError},
    path::PathBuf,
};

#[derive(Default)]
pub struct Asked {
    /// another manifest than the one beside the logs
    pub manifest: Option<PathBuf>,
    /// the program that must have made the logs
    pub program: Option<PathBuf>,
    /// logs by the unproved program will do
    pub quick: bool,
}

/// A manifest, held as long as it is here: no run begins meanwhile.
pub struct Manifest {
    _held: File,
    text: String,
    /// a run was at work already
    busy: bool,
}

/// The manifest of the run, to be had before any log is read; None where there is none.
pub fn manifest(whole: &Whole) -> Result<Option<Manifest>, String> {
    let beside = || whole.logs.join(manifest::FILE);
    let Some(path) = whole.vouch.manifest.clone().or_else(|| whole.logs.is_dir().then(beside)) else {
        return Ok(None);
    };
    let told = |e: std::io::Error| format!("{}: {}", path.display(), e);
    let file = match File::open(&path) {
        Ok(file) => file,
        Err(e) if e.kind() == std::io::ErrorKind::NotFound && whole.vouch.manifest.is_none() => return Ok(None),
        Err(e) => return Err(told(e)),
    };
    let busy = matches!(file.try_lock_shared(), Err(TryLockError::WouldBlock));
    // a line that is no text is none of a job
    let text = String::from_utf8_lossy(&fs::read(&path).map_err(told)?).into_owned();
    Ok(Some(Manifest { _held: file, text, busy }))
}

/// what is not as the run had it; that there is no log is told elsewhere
fn told(job: &Job, line: &Line, sums: (&Option<String>, &Option<String>), asked: &Asked) -> Vec<String> {
    let mut out = vec![];
    let mut unless = |fine: bool, what: &str| {
        if !fine {
            out.push(what.to_string())
        }
    };
    unless(sums.0.as_ref() == Some(&line.job_sha256), "the job is not the one that was run: its sum is another");
    unless(
        sums.1.as_ref().is_none_or(|sum| *sum == line.log_sha256),
        "the log is not the one that the run wrote: its sum is another",
    );
    unless(line.proved || asked.quick, "its log was made by the unproved program");
    let as_found = (line.records, line.read, line.bytes) == (job.records, job.read, job.bytes);
    unless(as_found || !job.unknown.is_empty(), "the run counted other records or bytes than the log has");
    out
}

/// the programs that made these logs must be one, and the one that is asked for
fn programs(lines: &[&Line], asked: &Asked, out: &mut Release) -> Result<(), String> {
    let wanted = match &asked.program {
        None => None,
        Some(path) => {
            let sum = sha256(std::slice::from_ref(path)).map_err(|e| e.to_string())?.remove(0);
            Some(sum.ok_or(format!("{}: cannot be read", path.display()))?)
        }
    };
    if let Some(wanted) = &wanted {
        let others = lines.iter().filter(|l| l.program_sha256 != *wanted).count();
        if others > 0 {
            out.unknown.push(format!("{} logs were made by another program than the one that is asked for", others))
        }
    }
    let sums: BTreeSet<_> = lines.iter().map(|l| &l.program_sha256).collect();
    if sums.len() > 1 {
        out.unknown.push(format!("the logs were made by {} programs", sums.len()))
    }
    if lines.iter().any(|l| l.program_sha256.is_empty()) {
        out.unknown.push("the run does not name its program".into())
    }
    Ok(())
}

fn without_job(lines: &BTreeMap<String, Line>, places: &[Place], out: &mut Release) {
    let names: BTreeSet<_> = places.iter().map(|p| &p.name).collect();
    let gone: Vec<_> = lines.keys().filter(|n| !names.contains(n)).map(String::as_str).collect();
    if !gone.is_empty() {
        out.notes.push(format!("the run had jobs that are gone: {}", gone.join(", ")))
    }
}

/// What of the jobs is not known by the manifest, and what of the release.
pub fn vouch(out: &mut Release, places: &[Place], whole: &Whole, found: Option<Manifest>) -> Result<(), String> {
    let asked = &whole.vouch;
    let Some(found) = found else {
        out.unknown.push("the logs are by no run that is known: there is no manifest".into());
        return Ok(());
    };
    if found.busy {
        out.unknown.push("a run is at work on these logs".into())
    }
    let lines = manifest::read(&found.text);
    let files: Vec<PathBuf> = places.iter().flat_map(|p| [p.job.clone(), p.log.clone()]).collect();
    let sums = sha256(&files).map_err(|e| e.to_string())?;
    for (job, sums) in out.jobs.iter_mut().zip(sums.chunks(2)) {
        match lines.get(&job.name) {
            None => job.unknown.push("the run has no line of it".into()),
            Some(line) => {
                let more = told(job, line, (&sums[0], &sums[1]), asked);
                job.unknown.extend(more)
            }
        }
    }
    let own: Vec<&Line> = places.iter().filter_map(|p| lines.get(&p.name)).collect();
    programs(&own, asked, out)?;
    if whole.logs.is_dir() {
        without_job(&lines, places, out)
    }
    Ok(())
}
