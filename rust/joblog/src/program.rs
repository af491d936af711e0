//! The program that makes a job's log: run as a child, and whether a file is still what it was.
use crate::{sums::sha256, watch::Watch};
use std::{
    fs::{self, File},
    io,
    os::unix::fs::MetadataExt,
    path::{Path, PathBuf},
    process::{Command, Stdio},
};

/// What changes when a file is written to, even where its date is set back.
#[derive(Debug, Clone, Copy, PartialEq, Eq)]
pub struct Stamp([i64; 7]);

impl Stamp {
    pub fn of(path: &Path) -> io::Result<Stamp> {
        let m = fs::metadata(path)?;
        let file = [m.dev() as i64, m.ino() as i64, m.size() as i64];
        let [dev, ino, size] = file;
        Ok(Stamp([dev, ino, size, m.mtime(), m.mtime_nsec(), m.ctime(), m.ctime_nsec()]))
    }
}

pub struct Program {
    path: PathBuf,
    stamp: Stamp,
    watch: Watch,
    /// of the file that runs; of an unproved one what the caller says
    pub sha256: String,
    pub proved: bool,
}

impl Program {
    /// The proved program, or one that is not, with what stands for its sum.
    pub fn new(path: &Path, unproved: Option<&str>) -> Result<Program, String> {
        let told = |e: io::Error| format!("{}: {}", path.display(), e);
        let path = path.canonicalize().map_err(told)?;
        let stamp = Stamp::of(&path).map_err(told)?;
        let sum = || {
            sha256(std::slice::from_ref(&path))
                .map_err(told)?
                .pop()
                .flatten()
                .ok_or(format!("{}: cannot be read", path.display()))
        };
        let sha256 = unproved.map_or_else(sum, |s| Ok(s.into()))?;
        let watch = Watch::start().map_err(|e| format!("sh: {}", e))?;
        Ok(Program { path, stamp, watch, sha256, proved: unproved.is_none() })
    }

    pub fn unchanged(&self) -> Result<(), String> {
        match Stamp::of(&self.path) {
            Ok(stamp) if stamp == self.stamp => Ok(()),
            _ => Err(format!("{}: changed while it was run", self.path.display())),
        }
    }

    /// The log of a job. The proved program has no exit status of its own: where it says a word on standard error, the
    /// log is not whole. An unproved one is joinlog.sh, whose status says so.
    pub fn log(&self, job: &Path) -> Result<Vec<u8>, String> {
        let input = File::open(job).map_err(|e| format!("{}: {}", job.display(), e))?;
        let mut command = Command::new(&self.path);
        command.stdin(input).stdout(Stdio::piped()).stderr(Stdio::piped());
        let out = self.watch.over(&mut command).output().map_err(|e| format!("{}: {}", self.path.display(), e))?;
        let said = String::from_utf8_lossy(&out.stderr);
        let whole = match self.proved {
            true => out.status.success() && said.is_empty(),
            false => matches!(out.status.code(), Some(0 | 3)),
        };
        match said.trim().lines().last() {
            _ if whole => Ok(out.stdout),
            Some(said) => Err(format!("{} ({})", said, out.status)),
            None => Err(format!("the program was stopped ({})", out.status)),
        }
    }
}
