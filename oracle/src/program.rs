//! joinlog, the program, beside one call of the engine's job over the whole stream: the same log, however the bytes come.
use crate::{
    calls::{Calls, Lines},
    gen::{random, Chance, Profile},
    lent::fresh,
};
use std::{
    fs::File,
    io::Write,
    path::Path,
    process::{Command, Output, Stdio},
};

/// more than two of joinlog's buffers
const BYTES: usize = 600 << 10;
const LOG: usize = 64 << 20;
/// a program that does not end is stopped
const SECONDS: &str = "60";

/// A job again and again: each record that was read once can be read again, so nothing in it ends the job.
fn long(seed: u64, bytes: usize) -> Vec<u8> {
    again(&random(seed, 0, 300, None, true).stream, bytes)
}

fn again(part: &[u8], bytes: usize) -> Vec<u8> {
    part.repeat(bytes.div_ceil(part.len()))
}

/// The log of a whole stream from a fresh state, in one call.
fn whole(calls: &dyn Calls, stream: &[u8]) -> Vec<u8> {
    let (mut lent, mut log, mut lines) = (fresh(), vec![0; LOG], Lines::default());
    let number = calls.job(&mut lent.words, &mut lent.params, stream, false, &mut log, &mut lines);
    assert!(number == 0 && lines.ended, "the whole stream in one call did not end the job");
    log.truncate(lines.written);
    log
}

/// What the program writes: of a file, or of a pipe that brings a few bytes at a time.
fn printed(program: &Path, stream: &[u8], pipe: bool, stored: &Path) -> std::io::Result<Output> {
    std::fs::write(stored, stream)?;
    let input = if pipe { Stdio::piped() } else { File::open(stored)?.into() };
    let mut child = Command::new("timeout").arg(SECONDS).arg(program).stdin(input).stdout(Stdio::piped()).spawn()?;
    let (taken, bytes) = (child.stdin.take(), stream.to_vec());
    let writer = std::thread::spawn(move || {
        let (mut chance, mut at) = (Chance::new(1, 0), 0);
        // a program whose job ended reads no further
        while let (Some(mut p), true) = (taken.as_ref(), at < bytes.len()) {
            let n = (1 + chance.below(9000)).min(bytes.len() - at);
            if p.write_all(&bytes[at..at + n]).is_err() {
                break;
            }
            at += n
        }
    });
    let output = child.wait_with_output()?;
    writer.join().expect("the writer ends");
    Ok(output)
}

fn line_of(log: &[u8], n: usize) -> String {
    String::from_utf8_lossy(log.split(|b| *b == b'\n').nth(n).unwrap_or(b"")).into()
}

/// The first line at which two logs part.
fn parting(ours: &[u8], whole: &[u8]) -> String {
    let same = ours.iter().zip(whole).take_while(|(a, b)| a == b);
    let n = same.filter(|(a, _)| **a == b'\n').count();
    format!("line {}: joinlog '{}', in one call '{}'", n, line_of(ours, n), line_of(whole, n))
}

/// UF of `&&..`, cut after the inner tag
const DOUBLED: &[u8] = b"UF\x01\0\0\0\0\0\x01";

/// Long streams: whole, ending in a cut record, ended by a 5 or an 18 on the way, and with MJs.
pub fn run(calls: &dyn Calls, program: &Path) -> Result<String, String> {
    let stored = std::env::temp_dir().join(format!("joinlog-{}", std::process::id()));
    let mut told = String::new();
    for seed in 1..4 {
        let stream = long(seed, BYTES);
        let cut = stream[..stream.len() - 1].to_vec();
        let ended_by = |record: &[u8]| [&long(seed, BYTES / 2)[..], record, &stream[..]].concat();
        let (stopped, doubled) = (ended_by(b"??"), ended_by(DOUBLED));
        // with MJs, whose lines want more room
        let pairs = again(&random(seed, 0, 300, Some(Profile::Pairs), false).stream, BYTES);
        let kinds =
            [("whole", &stream), ("cut", &cut), ("stopped", &stopped), ("doubled", &doubled), ("pairs", &pairs)];
        for (name, bytes) in kinds {
            let log = whole(calls, bytes);
            for pipe in [false, true] {
                let ours = printed(program, bytes, pipe, &stored);
                let _ = std::fs::remove_file(&stored);
                let ours = ours.map_err(|e| format!("{}: {}", program.display(), e))?;
                let how = format!("{} {}, {}", name, seed, if pipe { "by pipe" } else { "from a file" });
                if !ours.status.success() || ours.stdout != log {
                    return Err(format!("{}, {}: {}", how, ours.status, parting(&ours.stdout, &log)));
                }
                let lines = log.iter().filter(|b| **b == b'\n').count();
                told +=
                    &format!("{}: {} bytes, {} lines, last '{}'\n", how, bytes.len(), lines, line_of(&log, lines - 1))
            }
        }
    }
    Ok(told)
}
