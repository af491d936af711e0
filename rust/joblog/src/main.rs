//! joblog: jobs as text, and logs for people.
use joblog::{
    diff::{diff, Difference},
    explain::explain,
    names::Names,
    report::words::book,
    show::{show, Options},
    text::{assemble, disassemble, Detail},
};
use std::{
    fs,
    io::{ErrorKind, Read, Write},
    process::exit,
};

const USAGE: &str = "\
joblog report [FLAGS] JOBS LOGS       publish or not? every job of a folder (or one file) beside its log
    --json FILE   JSON lines: each failure, each job, the release
    --junit FILE  for a build server
    --html FILE   one page, without outside parts
    --base JOBS0 LOGS0   beside an earlier release: what is new, gone, equal but for locations
    --names FILE  names for structs, parameters, variables and locations (docs/RECORDS.md)
    --program PATH   the program that must have made the logs
    --manifest FILE  the run's manifest, else LOGS/manifest.jsonl
    --quick       logs by the unproved program will do
    -v            what is well too
joblog explain N | SV                 what an answer means, what to do, an example
joblog asm [--number] [TEXT]          a job's text to its bytes
joblog disasm [JOB]                   bytes to text
joblog show [FLAGS] JOB LOG           a job and its log for people
    --full        locations and ability marks too
    --errors      only what is not answered with 0, SV with failed constraints, XP with codes, MJ with pairs that failed
    --why         for an answer that ends a job (5, 6, 18): the byte and the rule
    -n N          at most N lines
    --names FILE  names for structs, parameters, variables and locations
joblog diff JOB1 LOG1 JOB2 LOG2       equal but for locations? names the first difference
joblog run --program JOINLOG JOBS LOGS   the log of every job of a folder, many at once; release.sh goes by it
    -j N          so many at once; else as many as there are cores
    --verify      all run again and compared, nothing written
    --left        only the names of the jobs that would be run
    --one NAME    one job, whatever is there; its line of the manifest on standard output
    --unproved SUM   the program is not the proved one; SUM stands for it in the manifest
joblog --help
asm and disasm read standard input where no file is named. --number: places without a location get 1, 2, 3 ..

Exit status: report: 0 publish, 1 do not, 2 not known: a log is missing, cut, not its job's, or by no run that is known
             0 done; show: nothing is wrong; diff: equal but for locations; run: every job has its log
             1 show: some answer or pair is not 0, SV lists failed constraints or XP codes; diff: a difference; run: some job has no log
             2 bad usage, a file that cannot be read or written, text that is no job, a log that does not fit its job
";

fn fail(message: &str) -> ! {
    eprintln!("joblog: {}", message);
    exit(2)
}

fn usage(message: &str) -> ! {
    fail(&format!("{}; `joblog --help` lists the commands", message))
}

/// A command's words: the flags that it knows, and how many files it takes.
struct Command {
    name: &'static str,
    flags: &'static [&'static str],
    files: std::ops::RangeInclusive<usize>,
}

const COMMANDS: [Command; 5] = [
    Command { name: "explain", flags: &[], files: 1..=3 },
    Command { name: "asm", flags: &["--number"], files: 0..=1 },
    Command { name: "disasm", flags: &[], files: 0..=1 },
    Command { name: "show", flags: &["--full", "--errors", "--why", "-n", "--names"], files: 2..=2 },
    Command { name: "diff", flags: &[], files: 4..=4 },
];

#[derive(Default)]
struct Words {
    flags: Vec<String>,
    lines: Option<usize>,
    names: Option<String>,
    files: Vec<String>,
}

impl Words {
    fn of(command: &Command, args: &[String]) -> Words {
        let mut words = Words::default();
        let mut args = args.iter();
        while let Some(a) = args.next() {
            match a.as_str() {
                "-n" if command.flags.contains(&"-n") => {
                    let n = args.next().and_then(|n| n.parse().ok());
                    words.lines = Some(n.unwrap_or_else(|| usage("-n wants a number")))
                }
                "--names" if command.flags.contains(&"--names") => {
                    let file = args.next().cloned();
                    words.names = Some(file.unwrap_or_else(|| usage("--names wants a file")))
                }
                a if command.flags.contains(&a) => words.flags.push(a.into()),
                a if a.starts_with('-') => usage(&format!("{} has no flag {}", command.name, a)),
                a => words.files.push(a.into()),
            }
        }
        if !command.files.contains(&words.files.len()) {
            let wanted = match (*command.files.start(), *command.files.end()) {
                (a, b) if a == b => a.to_string(),
                (a, b) => format!("{} or {}", a, b),
            };
            usage(&format!("{} takes {} files, not {}", command.name, wanted, words.files.len()))
        }
        words
    }
    fn flag(&self, name: &str) -> bool {
        self.flags.iter().any(|f| f == name)
    }
    fn bytes(&self, i: usize) -> Vec<u8> {
        let mut bytes = vec![];
        let done = match self.files.get(i) {
            Some(path) => fs::read(path).map(|b| bytes = b),
            None => std::io::stdin().read_to_end(&mut bytes).map(|_| ()),
        };
        let name = self.files.get(i).map_or("standard input", |p| p);
        done.unwrap_or_else(|e| fail(&format!("{}: {}", name, e)));
        bytes
    }
    fn text(&self, i: usize) -> String {
        let name = self.files.get(i).map_or("standard input", |p| p);
        String::from_utf8(self.bytes(i)).unwrap_or_else(|_| fail(&format!("{}: not text", name)))
    }
}

fn write(bytes: &[u8]) {
    let mut out = std::io::stdout().lock();
    match out.write_all(bytes).and_then(|_| out.flush()) {
        Err(e) if e.kind() == ErrorKind::BrokenPipe => exit(2),
        Err(e) => fail(&format!("standard output: {}", e)),
        Ok(()) => (),
    }
}

fn shown(words: &Words) -> i32 {
    let book = words.names.as_deref().map(|p| book(p.as_ref(), true).unwrap_or_else(|e| fail(&e)));
    let options = Options {
        names: book.as_ref().map_or(Names::default(), |b| b.path(&words.files[0])),
        detail: if words.flag("--full") { Detail::Full } else { Detail::Types },
        errors: words.flag("--errors"),
        lines: words.lines.unwrap_or(usize::MAX),
        why: words.flag("--why"),
    };
    let (lines, summary) = show(&words.bytes(0), &words.text(1), options);
    write(format!("{}{}\n", lines, summary.text()).as_bytes());
    summary.code()
}

fn differs(words: &Words) -> i32 {
    let (job1, log1, job2, log2) = (words.bytes(0), words.text(1), words.bytes(2), words.text(3));
    let (told, code) = match diff((&job1, &log1), (&job2, &log2)) {
        Difference::None(n) => (format!("equal but for locations: {} records", n), 0),
        Difference::Found(what) => (what.to_string(), 1),
        Difference::Misfit(i, what) => fail(&format!("log {} does not fit its job: {}", i, what)),
    };
    write(format!("{}\n", told).as_bytes());
    code
}

/// what a command does with its files; its exit status
fn done(command: &Command, words: &Words) -> i32 {
    match command.name {
        "asm" => match assemble(&words.text(0), words.flag("--number")) {
            Ok(bytes) => {
                write(&bytes);
                0
            }
            Err(e) => fail(&e),
        },
        "disasm" => {
            write(disassemble(&words.bytes(0)).as_bytes());
            0
        }
        "show" => shown(words),
        "explain" => match explain(&words.files) {
            Some(text) => {
                write(text.as_bytes());
                0
            }
            None => fail(&format!("there is no answer {}", words.files.join(" "))),
        },
        _ => differs(words),
    }
}

fn main() {
    let args: Vec<String> = std::env::args().skip(1).collect();
    let name = args.first().map_or("", |a| a);
    if args.iter().any(|a| a == "--help" || a == "-h") || name == "help" {
        write(USAGE.as_bytes());
        return;
    }
    let own = match name {
        "run" => Some(joblog::run_words::command(&args[1..])),
        "report" => Some(joblog::report::words::command(&args[1..])),
        _ => None,
    };
    if let Some(done) = own {
        exit(done.unwrap_or_else(|e| fail(&e)))
    }
    let Some(command) = COMMANDS.iter().find(|c| c.name == name) else {
        usage(&if name.is_empty() { "no command".into() } else { format!("no command {}", name) })
    };
    exit(done(command, &Words::of(command, &args[1..])))
}
