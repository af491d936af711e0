//! Sums of files by sha256sum (coreutils).
use std::{
    io::{Error, Result},
    path::PathBuf,
    process::{Command, Stdio},
};

/// so many files to one call, which keeps its words far below the system's limit
const AT_ONCE: usize = 200;

/// For each file its sha256 as 64 hexadecimal digits, or None where it cannot be read.
pub fn sha256(files: &[PathBuf]) -> Result<Vec<Option<String>>> {
    let mut out = Vec::with_capacity(files.len());
    for some in files.chunks(AT_ONCE) {
        let readable: Vec<bool> = some.iter().map(|f| std::fs::File::open(f).is_ok() && !f.is_dir()).collect();
        let named: Vec<_> = some.iter().zip(&readable).filter(|(_, r)| **r).map(|(f, _)| f).collect();
        let mut sums = of_readable(&named)?.into_iter();
        out.extend(readable.into_iter().map(|r| if r { sums.next() } else { None }))
    }
    Ok(out)
}

fn of_readable(files: &[&PathBuf]) -> Result<Vec<String>> {
    if files.is_empty() {
        return Ok(vec![]);
    }
    let told = |e: String| Error::other(format!("sha256sum: {}", e));
    let mut command = Command::new("sha256sum");
    let done = command.args(["-z", "--"]).args(files).stdin(Stdio::null()).output().map_err(|e| told(e.to_string()))?;
    let text = String::from_utf8_lossy(&done.stdout);
    let sums: Vec<String> = text.split_terminator('\0').filter_map(|l| l.get(..64).map(String::from)).collect();
    if done.status.success() && sums.len() == files.len() {
        Ok(sums)
    } else {
        Err(told(String::from_utf8_lossy(&done.stderr).trim().into()))
    }
}
