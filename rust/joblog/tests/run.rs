//! `joblog run` over stand-ins of joinlog: shell scripts.
use joblog::{manifest, progress};
use std::{
    fs,
    os::unix::fs::PermissionsExt,
    path::{Path, PathBuf},
    process::{Command, Stdio},
    time::{Duration, Instant},
};

/// a folder of its own for each test, with two jobs of one SV each and a program
struct Release(PathBuf);

/// one line for each two bytes of the job, and a mark for each call
const HONEST: &str = "echo >> calls\nhead -c 100 | fold -w 2 | awk '{ print NR - 1 \" 0\" }'";

impl Release {
    fn new(name: &str, program: &str) -> Release {
        let path = std::env::temp_dir().join(format!("joblog-run-{}-{}", name, std::process::id()));
        fs::remove_dir_all(&path).ok();
        fs::create_dir_all(path.join("jobs/far")).unwrap();
        let out = Release(path);
        out.write("jobs/a", "SV");
        out.write("jobs/far/b", "SVSV");
        out.program(program);
        out
    }
    fn path(&self, name: &str) -> PathBuf {
        self.0.join(name)
    }
    fn write(&self, name: &str, text: &str) {
        fs::write(self.path(name), text).unwrap()
    }
    fn read(&self, name: &str) -> String {
        fs::read_to_string(self.path(name)).unwrap_or_default()
    }
    fn program(&self, text: &str) {
        self.write("program", &format!("#!/bin/sh\n{}\n", text));
        fs::set_permissions(self.path("program"), fs::Permissions::from_mode(0o755)).unwrap()
    }
    fn command(&self, flags: &[&str]) -> Command {
        let mut command = Command::new(env!("CARGO_BIN_EXE_joblog"));
        command.current_dir(&self.0).args(["run", "--program", "program"]).args(flags).args(["jobs", "logs"]);
        command.stdin(Stdio::null());
        command
    }
    /// status, standard output, standard error
    fn run(&self, flags: &[&str]) -> (i32, String, String) {
        let out = self.command(flags).output().unwrap();
        let text = |bytes| String::from_utf8(bytes).unwrap();
        (out.status.code().unwrap(), text(out.stdout), text(out.stderr))
    }
    /// how many calls there were since the last question
    fn calls(&self) -> usize {
        let n = self.read("calls").len();
        fs::remove_file(self.path("calls")).ok();
        n
    }
}

impl Drop for Release {
    fn drop(&mut self) {
        fs::remove_dir_all(&self.0).ok();
    }
}

fn ends(status: i32, told: (i32, String, String), what: &str) {
    assert_eq!((told.0, told.1.as_str()), (status, ""), "{}", told.2);
    assert!(told.2.contains(what), "{}", told.2)
}

fn refused(told: (i32, String, String), what: &str) {
    ends(2, told, what)
}

#[test]
fn a_run_writes_logs_and_lines() {
    let r = Release::new("writes", HONEST);
    let (status, out, err) = r.run(&[]);
    assert_eq!((status, out.as_str(), r.calls()), (0, "", 2), "{}", err);
    assert_eq!((r.read("logs/a.log"), r.read("logs/far/b.log")), ("0 0\n".into(), "0 0\n1 0\n".into()));
    let lines = manifest::read(&r.read("logs/manifest.jsonl"));
    assert_eq!(lines.keys().collect::<Vec<_>>(), ["a", "far/b"]);
    let b = &lines["far/b"];
    assert_eq!((b.records, b.read, b.bytes, b.proved), (2, 4, 4, true));
    assert_eq!(b.job_sha256, sum(&r.path("jobs/far/b")));
    assert_eq!(b.log_sha256, sum(&r.path("logs/far/b.log")));
    assert_eq!(b.program_sha256, sum(&r.path("program")));
}

fn sum(path: &Path) -> String {
    let out = Command::new("sha256sum").arg(path).output().unwrap();
    String::from_utf8(out.stdout).unwrap()[..64].into()
}

#[test]
fn a_run_goes_on_by_the_lines_alone() {
    let r = Release::new("goes-on", HONEST);
    let again = |why: &str, calls: usize| {
        let (status, _, err) = r.run(&["-j", "1"]);
        assert_eq!((status, r.calls()), (0, calls), "{}", err);
        assert!(err.contains(why), "{}", err)
    };
    again("", 2);
    again("2 jobs have their log already", 0);
    r.write("logs/a.log", "");
    again("missing, or not as their line has them: 1 (a)", 1);
    fs::remove_file(r.path("logs/far/b.log")).unwrap();
    again("missing, or not as their line has them: 1 (far/b)", 1);
    r.write("jobs/a", "SVSVSV");
    again("of a job that has changed since: 1 (a)", 1);
    let lines = r.read("logs/manifest.jsonl");
    r.write("logs/manifest.jsonl", &lines.replace("\"records\":3", "\"records\":4"));
    again("missing, or not as their line has them: 1 (a)", 1);
    let lines = r.read("logs/manifest.jsonl");
    r.write("logs/manifest.jsonl", &lines.replace("\"read\":4", "\"read\":3"));
    again("missing, or not as their line has them: 1 (far/b)", 1);
    r.program(&format!("{}\n# another", HONEST));
    again("by another program than today's: 2 (a, far/b)", 2);
    let lines = r.read("logs/manifest.jsonl");
    r.write("logs/manifest.jsonl", &lines[..lines.len() - 1]);
    again("joblog: run again, ", 1);
    r.write("logs/manifest.jsonl", "");
    again("by no run that the manifest knows: 2 (a, far/b)", 2);
    fs::remove_file(r.path("jobs/a")).unwrap();
    again("logs whose job is gone, not summed up: 1 (a.log)", 0);
}

#[test]
fn unproved_logs_are_not_taken_for_proved() {
    let r = Release::new("unproved", HONEST);
    assert_eq!((r.run(&["--unproved", "s"]).0, r.calls()), (0, 2));
    assert!(manifest::read(&r.read("logs/manifest.jsonl")).values().all(|l| !l.proved && l.program_sha256 == "s"));
    assert_eq!((r.run(&["--unproved", "s"]).0, r.calls()), (0, 0));
    assert_eq!((r.run(&["--unproved", "t"]).0, r.calls()), (0, 2));
    assert_eq!((r.run(&["--unproved", &sum(&r.path("program"))]).0, r.calls()), (0, 2));
    assert_eq!((r.run(&[]).0, r.calls()), (0, 2));
    assert!(manifest::read(&r.read("logs/manifest.jsonl")).values().all(|l| l.proved));
    assert_eq!((r.run(&["--unproved", "s"]).0, r.calls()), (0, 2));
}

#[test]
fn a_log_that_is_not_whole_is_none() {
    for (program, told) in [
        ("echo '0 0'; echo no room >&2", "no room"),
        ("echo '0 0'; exit 1", "the program was stopped (exit status: 1)"),
        ("echo '0 0'; kill -9 $$", "the program was stopped (signal: 9 (SIGKILL))"),
        ("echo '0 5'", "the log does not fit the job"),
        ("printf '0 0'", "the log does not fit the job"),
        ("true", "the log does not fit the job"),
        ("printf '\\377\\n'", "the log is no text"),
        ("echo '0 0'; echo SV >> jobs/a; touch jobs/far/b", "the job changed while it was run"),
        ("echo '0 0'; touch program", "program: changed while it was run"),
    ] {
        let r = Release::new("not-whole", program);
        fs::remove_file(r.path("jobs/far/b")).unwrap();
        ends(1, r.run(&[]), told);
        assert_eq!(
            (r.read("logs/manifest.jsonl"), r.path("logs/a.log").exists()),
            (String::new(), false),
            "{}",
            program
        );
    }
}

#[test]
fn all_is_run_again_and_compared() {
    let r = Release::new("verify", HONEST);
    refused(r.run(&["--verify"]), "logs: no such folder");
    r.run(&[]);
    assert_eq!(r.calls(), 2);
    let (status, _, err) = r.run(&["--verify"]);
    assert_eq!((status, r.calls()), (0, 2));
    assert!(err.contains("2 logs, all as they are there"), "{}", err);
    r.write("logs/far/b.log", "0 0\n1 1\n");
    ends(1, r.run(&["--verify"]), "far/b: the log is not what this run gives, from line 2 on");
    r.write("logs/far/b.log", "0 0\n");
    ends(1, r.run(&["--verify"]), "far/b: the log is not what this run gives, from line 2 on");
    assert_eq!(r.read("logs/far/b.log"), "0 0\n");
    fs::remove_file(r.path("logs/a.log")).unwrap();
    ends(1, r.run(&["--verify"]), "a: no log to compare");
    assert!(!r.path("logs/a.log").exists())
}

#[test]
fn one_job_and_those_that_are_left() {
    let r = Release::new("one", HONEST);
    assert_eq!(r.run(&["--left"]), (0, "a\nfar/b\n".into(), String::new()));
    let (status, line, err) = r.run(&["--one", "./far/b"]);
    assert_eq!((status, err.as_str(), r.calls()), (0, "", 1));
    assert_eq!(manifest::read(&line)["far/b"].records, 2);
    r.write("logs/manifest.jsonl", &line);
    assert_eq!(r.run(&["--left"]).1, "a\n");
    let (status, _, err) = r.run(&[]);
    assert_eq!((status, r.calls()), (0, 1), "{}", err);
    refused(r.run(&["--one", "none"]), "none: ");
}

#[test]
fn two_runs_into_one_folder() {
    let r = Release::new("lock", HONEST);
    fs::create_dir(r.path("logs")).unwrap();
    let manifest = fs::File::create(r.path("logs/manifest.jsonl")).unwrap();
    manifest.lock().unwrap();
    for flags in [&[][..], &["--verify"], &["--left"], &["--one", "a"]] {
        refused(r.run(flags), "another run is at work there")
    }
    manifest.unlock().unwrap();
    manifest.lock_shared().unwrap();
    refused(r.run(&[]), "another run is at work there");
    assert_eq!((r.run(&["--one", "a"]).0, r.calls()), (0, 1));
}

#[test]
fn what_is_started_ends_with_the_run() {
    let r = Release::new("killed", "echo $$ >> started; sleep 100 & wait");
    let mut child = r.command(&["-j", "2"]).stderr(Stdio::null()).spawn().unwrap();
    let within = |what: &dyn Fn() -> bool| {
        let began = Instant::now();
        while !what() && began.elapsed() < Duration::from_secs(10) {
            std::thread::sleep(Duration::from_millis(20))
        }
        what()
    };
    assert!(within(&|| r.read("started").lines().count() == 2));
    child.kill().unwrap();
    child.wait().unwrap();
    // a process that has ended may wait to be fetched: then its state is Z
    let alive = |pid: &str| fs::read_to_string(format!("/proc/{}/stat", pid)).is_ok_and(|s| !s.contains(") Z "));
    assert!(within(&|| !r.read("started").lines().any(alive)));
    assert_eq!(r.read("logs/manifest.jsonl"), "");
}

#[test]
fn words_that_are_refused() {
    let r = Release::new("words", HONEST);
    refused(r.run(&["-j", "0"]), "-j wants a number");
    refused(r.run(&["--fast"]), "run has no flag --fast");
    refused(r.run(&["--verify", "--left"]), "one of --verify, --left and --one");
    refused(r.run(&["more"]), "run takes 2 folders, not 3");
    fs::rename(r.path("program"), r.path("jobs/program")).unwrap();
    refused(r.run(&[]), "program: No such file");
    assert!(!r.path("logs").exists() || r.read("logs/manifest.jsonl").is_empty());
    let mut inside = Command::new(env!("CARGO_BIN_EXE_joblog"));
    inside.current_dir(&r.0).args(["run", "--program", "jobs/program", "jobs", "jobs/far/../logs"]);
    let told = inside.output().unwrap();
    assert_eq!(told.status.code(), Some(2));
    assert!(String::from_utf8_lossy(&told.stderr).contains("is in the other"));
    assert!(!r.path("jobs/logs").exists());
}

#[test]
fn progress_has_a_rate_and_what_is_left() {
    assert_eq!(progress::line(100, 300, 100, 0.5), "100 of 300 jobs, 200 a second, 1 s left");
    assert_eq!(progress::line(300, 300, 1, 0.5), "300 of 300 jobs, 2.0 a second");
    assert_eq!(progress::line(5, 300, 2, 60.0), "5 of 300 jobs, 2.0 a minute, 2 h 27 min left");
    assert_eq!(progress::time(99.5), "2 min");
    assert_eq!(progress::time(7200.0), "2 h 0 min");
}
