//! The jobs of a folder run: the proved program over each that the manifest has no whole, current line for, many at
//! once; and all of them run again and compared.
use crate::{
    manifest::{self, Line},
    plan::{counted, io, Folders, Left},
    program::{Program, Stamp},
    progress::Progress,
    sums::sha256,
};
use std::{
    fs::{self, File},
    io::{ErrorKind, Write},
    path::PathBuf,
    sync::{
        atomic::{AtomicUsize, Ordering},
        mpsc::{channel, Receiver, Sender},
    },
    thread,
    time::{Duration, Instant},
};

enum Event {
    Done,
    Trouble(String),
}

/// So many logs are summed and named at once, or what came in this time.
const SETTLED: usize = 64;
const SETTLED_IN: Duration = Duration::from_secs(1);
/// so many jobs' troubles are told one by one
const TOLD: usize = 20;

/// One run: its folders, its program, the manifest.
struct Run<'a> {
    folders: &'a Folders,
    program: &'a Program,
}

impl Run<'_> {
    /// The job run, its log a part yet: its line but for the log's sum.
    fn make(&self, left: &Left) -> Result<Line, String> {
        let (folders, name) = (self.folders, left.name.as_str());
        let (job, part) = (folders.job(name), folders.part(name));
        io(&part, fs::create_dir_all(part.parent().unwrap()))?;
        match fs::remove_file(&part) {
            Err(e) if e.kind() != ErrorKind::NotFound => return Err(format!("{}: {}", part.display(), e)),
            _ => (),
        }
        let made = self.program.log(&job)?;
        let bytes = io(&job, fs::read(&job))?;
        if io(&job, Stamp::of(&job))? != left.stamp {
            return Err("the job changed while it was run".into());
        }
        let (records, read) = counted(&bytes, &made)?;
        io(&part, File::create_new(&part).and_then(|mut f| f.write_all(&made)))?;
        Ok(Line {
            job: name.into(),
            job_sha256: left.sha256.clone(),
            log_sha256: String::new(),
            program_sha256: self.program.sha256.clone(),
            records,
            read,
            bytes: bytes.len(),
            proved: self.program.proved,
        })
    }

    /// Parts summed and given their names; their lines, and what went wrong.
    fn settle(&self, made: Vec<Line>) -> Result<(Vec<Line>, Vec<String>), String> {
        let parts: Vec<PathBuf> = made.iter().map(|l| self.folders.part(&l.job)).collect();
        let sums = sha256(&parts).map_err(|e| e.to_string())?;
        self.program.unchanged()?;
        let (mut lines, mut troubles) = (vec![], vec![]);
        for ((line, part), sum) in made.into_iter().zip(parts).zip(sums) {
            match (sum, fs::rename(part, self.folders.log(&line.job))) {
                (Some(log_sha256), Ok(())) => lines.push(Line { log_sha256, ..line }),
                (_, Err(e)) => troubles.push(format!("{}: no log: {}", line.job, e)),
                (None, _) => troubles.push(format!("{}: no log: it cannot be read again", line.job)),
            }
        }
        Ok((lines, troubles))
    }

    /// `settle`, and the lines into the manifest.
    fn enter(&self, made: &mut Vec<Line>, mut manifest: &File, events: &Sender<Event>) {
        if made.is_empty() {
            return;
        }
        let tell = |trouble: String| events.send(Event::Trouble(trouble)).unwrap_or(());
        match self.settle(std::mem::take(made)) {
            Err(e) => tell(e),
            Ok((lines, troubles)) => {
                troubles.into_iter().for_each(tell);
                let text: String = lines.iter().map(Line::text).collect();
                if let Err(e) = manifest.write_all(text.as_bytes()) {
                    tell(format!("{}: {}", manifest::FILE, e))
                }
            }
        }
    }

    /// One of the threads: takes the next job while there is one.
    fn work(&self, left: &[Left], next: &AtomicUsize, manifest: &File, events: Sender<Event>) {
        let (mut made, mut since) = (vec![], Instant::now());
        while let Some(one) = left.get(next.fetch_add(1, Ordering::Relaxed)) {
            match self.make(one) {
                Ok(line) => made.push(line),
                Err(e) => events.send(Event::Trouble(format!("{}: no log: {}", one.name, e))).unwrap_or(()),
            }
            if made.len() >= SETTLED || since.elapsed() > SETTLED_IN {
                self.enter(&mut made, manifest, &events);
                since = Instant::now()
            }
            events.send(Event::Done).unwrap_or(())
        }
        self.enter(&mut made, manifest, &events)
    }

    /// One of the threads that compare.
    fn compare(&self, names: &[String], next: &AtomicUsize, events: Sender<Event>) {
        while let Some(name) = names.get(next.fetch_add(1, Ordering::Relaxed)) {
            if let Err(e) = self.same(name) {
                events.send(Event::Trouble(format!("{}: {}", name, e))).unwrap_or(())
            }
            events.send(Event::Done).unwrap_or(())
        }
    }

    fn same(&self, name: &str) -> Result<(), String> {
        let there = fs::read(self.folders.log(name)).map_err(|e| format!("no log to compare: {}", e))?;
        let now = self.program.log(&self.folders.job(name))?;
        if there == now {
            return Ok(());
        }
        let (mut a, mut b) = (there.split(|b| *b == b'\n'), now.split(|b| *b == b'\n'));
        let line = (0..).find(|_| a.next() != b.next()).unwrap_or(0);
        Err(format!("the log is not what this run gives, from line {} on", line + 1))
    }
}

/// Tells what comes in until all threads have ended; how many troubles there were.
fn follow(mut progress: Progress, events: Receiver<Event>) -> usize {
    let mut troubles = 0;
    for event in events {
        match event {
            Event::Done => progress.tick(),
            Event::Trouble(what) => {
                troubles += 1;
                if troubles <= TOLD {
                    progress.tell(&what)
                }
            }
        }
    }
    progress.end();
    if troubles > TOLD {
        progress.tell(&format!("and {} more", troubles - TOLD))
    }
    troubles
}

/// `work` by so many threads; how many troubles there were.
fn threads(at_once: usize, progress: Progress, work: impl Fn(Sender<Event>) + Sync) -> usize {
    let (events, seen) = channel();
    thread::scope(|scope| {
        for _ in 0..at_once {
            let (events, work) = (events.clone(), &work);
            scope.spawn(move || work(events));
        }
        drop(events);
        follow(progress, seen)
    })
}

fn status(troubles: usize) -> i32 {
    (troubles > 0) as i32
}

/// Every job gets its log and its line.
pub fn run(folders: &Folders, program: &Program, at_once: usize) -> Result<i32, String> {
    let names = folders.names()?;
    let mut manifest = folders.manifest(true, true)?;
    let lines = folders.lines(&mut manifest)?;
    let plan = folders.plan(&names, &lines, program)?;
    plan.tell();
    let (one, next) = (Run { folders, program }, AtomicUsize::new(0));
    let progress = Progress::new(names.len() - plan.unread.len(), plan.there);
    let work = |events| one.work(&plan.left, &next, &manifest, events);
    let troubles = threads(at_once.min(plan.left.len()), progress, work);
    Ok(status(troubles + plan.unread.len()))
}

/// Every job run again, its log beside the one that is there. Nothing is written.
pub fn verify(folders: &Folders, program: &Program, at_once: usize) -> Result<i32, String> {
    let names = folders.names()?;
    let _locked = folders.manifest(true, false)?;
    let (one, next) = (Run { folders, program }, AtomicUsize::new(0));
    let work = |events| one.compare(&names, &next, events);
    let troubles = threads(at_once.min(names.len()), Progress::new(names.len(), 0), work);
    program.unchanged()?;
    if troubles == 0 {
        eprintln!("joblog: run again, {} logs, all as they are there", names.len())
    }
    Ok(status(troubles))
}

/// The names of the jobs that `run` would run.
pub fn left(folders: &Folders, program: &Program) -> Result<Vec<String>, String> {
    let mut manifest = folders.manifest(false, true)?;
    let lines = folders.lines(&mut manifest)?;
    let plan = folders.plan(&folders.names()?, &lines, program)?;
    Ok(plan.left.into_iter().map(|l| l.name).chain(plan.unread).collect())
}

/// One job run, whatever is there: its log written, its line of the manifest handed back.
pub fn one(folders: &Folders, program: &Program, name: &str) -> Result<String, String> {
    let name = name.strip_prefix("./").unwrap_or(name);
    let _locked = folders.manifest(false, true)?;
    let job = folders.job(name);
    let stamp = io(&job, Stamp::of(&job))?;
    let sum = sha256(&[job]).map_err(|e| e.to_string())?.pop().flatten();
    let left = Left { name: name.into(), sha256: sum.ok_or(format!("{}: cannot be read", name))?, stamp };
    let run = Run { folders, program };
    let made = run.make(&left).map_err(|e| format!("{}: no log: {}", name, e))?;
    let (mut lines, mut troubles) = run.settle(vec![made])?;
    troubles.pop().map_or_else(|| Ok(lines.remove(0).text()), Err)
}
