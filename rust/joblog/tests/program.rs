//! The program joblog: its messages and its exit status.
use std::{
    fs,
    io::Write,
    path::PathBuf,
    process::{Command, Stdio},
};

/// a folder of its own for each test
struct Folder(PathBuf);

impl Folder {
    fn new(name: &str) -> Folder {
        let path = std::env::temp_dir().join(format!("joblog-{}-{}", name, std::process::id()));
        fs::create_dir_all(&path).unwrap();
        Folder(path)
    }
    fn file(&self, name: &str, bytes: impl AsRef<[u8]>) -> String {
        let path = self.0.join(name);
        fs::write(&path, bytes).unwrap();
        path.to_str().unwrap().into()
    }
}

impl Drop for Folder {
    fn drop(&mut self) {
        fs::remove_dir_all(&self.0).ok();
    }
}

/// status, standard output, standard error
fn joblog(args: &[&str], input: &[u8]) -> (i32, String, String) {
    let mut child = Command::new(env!("CARGO_BIN_EXE_joblog"))
        .args(args)
        .stdin(Stdio::piped())
        .stdout(Stdio::piped())
        .stderr(Stdio::piped())
        .spawn()
        .unwrap();
    // a program that refuses its words reads nothing
    child.stdin.take().unwrap().write_all(input).ok();
    let out = child.wait_with_output().unwrap();
    let text = |bytes: Vec<u8>| String::from_utf8_lossy(&bytes).into_owned();
    (out.status.code().unwrap(), text(out.stdout), text(out.stderr))
}

#[test]
fn help_goes_to_standard_output() {
    for args in [&["--help"][..], &["-h"], &["help"], &["show", "--help"], &["asm", "-h"]] {
        let (status, out, err) = joblog(args, b"");
        assert_eq!((status, err.as_str()), (0, ""), "{:?}", args);
        for word in [
            "report",
            "explain",
            "asm",
            "disasm",
            "show",
            "diff",
            "run",
            "--base",
            "--errors",
            "--why",
            "-n N",
            "Exit status",
        ] {
            assert!(out.contains(word), "{}", word)
        }
    }
}

#[test]
fn wrong_words_are_refused() {
    let refused = [
        (&[][..], "no command"),
        (&["list"][..], "no command list"),
        (&["asm", "--numbers"], "asm has no flag --numbers"),
        (&["asm", "-n", "3"], "asm has no flag -n"),
        (&["show", "--ful", "a", "b"], "show has no flag --ful"),
        (&["show", "a"], "show takes 2 files, not 1"),
        (&["show", "-n", "x", "a", "b"], "-n wants a number"),
        (&["diff", "a", "b"], "diff takes 4 files, not 2"),
        (&["disasm", "a", "b"], "disasm takes 0 or 1 files, not 2"),
    ];
    for (args, message) in refused {
        let wanted = format!("joblog: {}; `joblog --help` lists the commands\n", message);
        assert_eq!(joblog(args, b""), (2, String::new(), wanted), "{:?}", args)
    }
    let (status, out, err) = joblog(&["show", "/no/such/job", "/no/such/log"], b"");
    assert_eq!((status, out.as_str(), err.starts_with("joblog: /no/such/job: ")), (2, "", true), "{}", err);
}

#[test]
fn text_to_bytes_and_back() {
    let bytes = b"NV\x01\0\0\0JN\x06\x02\0\0\0\0\0\x03\x03\0\0\0\0\x02UF\x06\x04\0\0\0\0\0";
    let f = Folder::new("bytes");
    let (job, text) = (f.file("job", bytes), f.file("text", "NV @1\nJN V0@2, u8@3\nUF V0@4\n"));
    let wanted = (0, String::from_utf8(bytes.to_vec()).unwrap(), String::new());
    assert_eq!(joblog(&["asm", &text], b""), wanted);
    assert_eq!(joblog(&["asm", "--number"], b"NV\nJN V0, u8 # both\nUF V0"), wanted);
    assert_eq!(joblog(&["disasm", &job], b"").1, fs::read_to_string(&text).unwrap());
    assert_eq!(joblog(&["disasm"], bytes).1, fs::read_to_string(&text).unwrap());
    assert_eq!(joblog(&["asm"], b"UF\n").0, 2);
    assert_eq!(joblog(&["asm"], b"\xff").2, "joblog: standard input: not text\n");
}

#[test]
fn a_log_is_shown() {
    let f = Folder::new("show");
    let job = f.file("job", b"FV\x01\0\0\0UF\x07\x02\0\0\0JN\0\0\0\0\0\x07\0\0\0\0XX");
    let good = "0 0 06010000000000\n1 0 0702000000\n";
    let whole = f.file("log", good.to_string() + "2 0 0000000000\n3 5\n");
    let (status, out, err) = joblog(&["show", "--errors", "--why", &job, &whole], b"");
    let wanted = "\
3 (not read)   → malformed
    byte 0 (58; byte 25 of the job): no record has this mark
4 records; 0 typed: 3, 5 malformed: 1; first error: record 3, malformed
";
    assert_eq!((status, out.as_str(), err.as_str()), (1, wanted, ""));
    let (_, out, _) = joblog(&["show", "-n", "1", "--full", &job, &whole], b"");
    assert_eq!(out.lines().next(), Some("0 FV  @1   → typed V0@1"));
    assert_eq!(out.lines().count(), 2);
    let short = f.file("short", good);
    let (status, out, _) = joblog(&["show", "-n", "0", &job, &short], b"");
    let told = "the log does not fit the job: it is too short: no line for record 2 and those after it";
    assert_eq!((status, out), (2, format!("2 records; 0 typed: 2; {}\n", told)));
    let job = f.file("ok", b"FV\x01\0\0\0");
    let log = f.file("ok.log", "0 0 06010000000000\n");
    assert_eq!(joblog(&["show", &job, &log], b"").0, 0);
}

/// the names of every job, and of the one whose name is the end of JOB's path
#[test]
fn a_log_is_shown_with_names() {
    let f = Folder::new("named");
    fs::create_dir_all(f.0.join("fun")).unwrap();
    let bytes = b"FV\x05\0\0\0UF\x06\x07\0\0\0\0\0";
    let (one, other) = (f.file("fun/one", bytes), f.file("fun/other", bytes));
    let log = f.file("log", "0 0 06050000000000\n1 0 0705000000\n");
    let names =
        f.file("names", "@ 5 a.move:1:2\nV 0 x\njob fun/one\r\nV 0 coin\r\njob other\n@ 7 z\njob ther\n@ 5 y\n");
    let lines = |args: &[&str]| joblog(&[&["show", "--names", &names], args].concat(), b"").1;
    assert!(lines(&["--full", &one, &log]).starts_with("0 FV  @a.move:1:2   → typed V0 (coin)@a.move:1:2\n"));
    assert!(lines(&["--full", &other, &log]).contains("\n1 UF  V0 (x)@z   → typed _@a.move:1:2\n"));
    assert!(lines(&[&one, &log]).starts_with("0 FV   → typed V0 (coin)\n"));
    assert_eq!(joblog(&["show", "--names", "/no/such/names", &one, &log], b"").0, 2);
    assert_eq!(joblog(&["show", "--names"], b"").0, 2)
}

#[test]
fn two_builds_are_compared() {
    let f = Folder::new("diff");
    let job1 = f.file("job1", b"FV\x01\0\0\0SN\0\0\x05\0\0\0SV");
    let log1 = f.file("log1", "0 0 06010000000000\n1 0\n2 0\n");
    let job2 = f.file("job2", b"FV\x02\0\0\0SN\0\0\x07\0\0\0SV");
    let log2 = f.file("log2", "0 0 06020000000000\n1 0\n2 0\n");
    let run = |a: &str, b: &str, c: &str, d: &str| joblog(&["diff", a, b, c, d], b"");
    assert_eq!(run(&job1, &log1, &job2, &log2), (0, "equal but for locations: 3 records\n".into(), String::new()));
    let full = f.file("full", "0 0 06020000000000\n1 0\n2 7\n");
    let wanted = "record 2: the answers differ\n  1: 0 typed\n  2: 7 full\n";
    assert_eq!(run(&job1, &log1, &job2, &full), (1, wanted.into(), String::new()));
    let short = f.file("short", "0 0 06020000000000\n");
    let wanted = "joblog: log 2 does not fit its job: it is too short: no line for record 1 and those after it\n";
    assert_eq!(run(&job1, &log1, &job2, &short), (2, String::new(), wanted.into()));
}

/// a release of one function that fails and one that is well: report's status, what it writes, and its words
#[test]
fn a_release_is_reported() {
    let f = Folder::new("report");
    for below in ["jobs", "logs"] {
        fs::create_dir_all(f.0.join(below)).unwrap()
    }
    let jobs = f.0.join("jobs").to_str().unwrap().to_string();
    let logs = f.0.join("logs").to_str().unwrap().to_string();
    let bad = f.file("jobs/bad", joblog(&["asm"], b"BC @1 ()@2\nSV").1);
    let log = f.file("logs/bad.log", "0 0\n1 0 02010000000002000000\n");
    let wanted = "\
error[SV code 2] no base type: `()` where neither `()`, a reference nor a list is wanted
  --> bad, record 1 (byte 11): SV
    type   ()    main.move:2:1
    constraint at @1
not known: the logs are by no run that is known: there is no manifest
1 function: 0 ok, 1 failed, 0 not known; 2 records; 1 failure: no base type (SV code 2): 1; DO NOT PUBLISH
";
    let names = f.file("names", "@ 2 main.move:2:1\nX\n");
    let (json, html, junit) = (f.file("json", ""), f.file("html", ""), f.file("junit", ""));
    let args = ["--names", &names, "--json", &json, "--html", &html, "--junit", &junit, &jobs, &logs];
    let told = format!("joblog: {}: line 2: no name\n", names);
    assert_eq!(joblog(&[&["report"], &args[..]].concat(), b""), (1, wanted.into(), told));
    let read = |path: &str| fs::read_to_string(path).unwrap();
    assert!(read(&json)
        .starts_with("{\"v\":1,\"kind\":\"failure\",\"job\":\"bad\",\"record\":1,\"byte\":11,\"mark\":\"SV\","));
    assert_eq!(read(&json).lines().count(), 3);
    assert!(read(&html).starts_with("<!doctype html>") && read(&html).contains("main.move:2:1"));
    assert!(read(&junit).contains("<testcase classname=\"release\" name=\"bad\">"));
    // one job beside its log; then it is well, and no run is known
    assert_eq!(joblog(&["report", &bad, &log], b"").0, 1);
    fs::write(&bad, joblog(&["asm"], b"BC @1 u8@2\nSV").1).unwrap();
    fs::write(&log, "0 0\n1 0\n").unwrap();
    let (status, out, _) = joblog(&["report", "-v", &jobs, &logs], b"");
    assert_eq!((status, out.starts_with("ok: bad: 2 records, 15 bytes\nnot known: ")), (2, true), "{}", out);
    let (status, out, _) = joblog(&["report", &bad, &logs], b"");
    assert_eq!((status, out.as_str()), (2, ""));
    for args in [&["report", "a"][..], &["report", "--html"], &["report", "--why", "a", "b"], &["report", "/no", "/no"]]
    {
        let (status, out, err) = joblog(args, b"");
        assert_eq!((status, out.as_str(), err.starts_with("joblog: ")), (2, "", true), "{:?}: {}", args, err)
    }
}

#[test]
fn answers_are_explained() {
    for n in 0..=18 {
        let (status, out, _) = joblog(&["explain", &n.to_string()], b"");
        assert!(status == 0 && out.starts_with(&format!("{} ", n)), "{}: {}", n, out);
        assert!(["given for: ", "means: ", "do: ", "example:"].iter().all(|w| out.contains(w)), "{}", out)
    }
    assert_eq!(joblog(&["explain", "SV"], b"").1.matches("SV code ").count(), 4);
    assert!(joblog(&["explain", "XP"], b"").1.starts_with("XP code 5\n"));
    assert!(joblog(&["explain", "SV", "code", "4"], b"").1.starts_with("SV code 4\n"));
    assert_eq!(joblog(&["explain", "19"], b""), (2, String::new(), "joblog: there is no answer 19\n".into()));
    assert_eq!(joblog(&["explain"], b"").0, 2)
}
