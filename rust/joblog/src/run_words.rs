//! `joblog run`: its words.
use crate::{plan::Folders, program::Program, run};
use std::{io::Write, path::PathBuf};

#[derive(Default)]
struct Words {
    program: Option<PathBuf>,
    unproved: Option<String>,
    at_once: Option<usize>,
    verify: bool,
    left: bool,
    one: Option<String>,
    folders: Vec<PathBuf>,
}

impl Words {
    fn of(args: &[String]) -> Result<Words, String> {
        let mut words = Words::default();
        let mut args = args.iter();
        while let Some(a) = args.next() {
            let mut value = |what: &str| args.next().cloned().ok_or(format!("{} wants {}", a, what));
            match a.as_str() {
                "--program" => words.program = Some(value("a program")?.into()),
                "--unproved" => words.unproved = Some(value("what stands for the program's sum")?),
                "--one" => words.one = Some(value("a job's name")?),
                "--verify" => words.verify = true,
                "--left" => words.left = true,
                "-j" => {
                    let n = value("a number")?.parse().ok().filter(|n| *n > 0);
                    words.at_once = Some(n.ok_or("-j wants a number")?)
                }
                a if a.starts_with('-') => return Err(format!("run has no flag {}", a)),
                a => words.folders.push(a.into()),
            }
        }
        match words.folders.len() {
            2 => Ok(words),
            n => Err(format!("run takes 2 folders, not {}", n)),
        }
    }
}

fn write(text: String) -> Result<i32, String> {
    let mut out = std::io::stdout().lock();
    let done = out.write_all(text.as_bytes()).and_then(|_| out.flush());
    done.map(|_| 0).map_err(|e| format!("standard output: {}", e))
}

/// Its exit status: 0 every job has its log, or the same again; 1 some job has not.
pub fn command(args: &[String]) -> Result<i32, String> {
    let words = Words::of(args)?;
    if words.verify as u8 + words.left as u8 + words.one.is_some() as u8 > 1 {
        return Err("run: one of --verify, --left and --one".into());
    }
    let folders = Folders::new(&words.folders[0], &words.folders[1], !words.verify)?;
    let program = words.program.ok_or("run wants --program, the proved joinlog")?;
    let program = Program::new(&program, words.unproved.as_deref())?;
    let cores = || std::thread::available_parallelism().map_or(1, |n| n.get());
    let at_once = words.at_once.unwrap_or_else(cores);
    if let Some(name) = words.one {
        write(run::one(&folders, &program, &name)?)
    } else if words.left {
        write(run::left(&folders, &program)?.into_iter().map(|name| name + "\n").collect())
    } else if words.verify {
        run::verify(&folders, &program, at_once)
    } else {
        run::run(&folders, &program, at_once)
    }
}
