//! `joblog report`: what is told of every answer, what is not known, and that damage is never taken for good.
use joblog::{
    manifest::{self, Line},
    names::Book,
    pairs::ANSWERS,
    report::{self, base, html, jsonl, junit, release, text, vouch, Asked, Release, Verdict},
    sums::sha256,
    text::assemble,
};
use std::{
    fs,
    path::{Path, PathBuf},
};

const TEXTS: &str = include_str!("../src/explain.txt");

/// a folder of its own with jobs, logs and perhaps a manifest
struct Folder(PathBuf);

impl Folder {
    fn new(name: &str) -> Folder {
        let path = std::env::temp_dir().join(format!("joblog-report-{}-{}", name, std::process::id()));
        fs::remove_dir_all(&path).ok();
        for below in ["jobs", "logs"] {
            fs::create_dir_all(path.join(below)).unwrap()
        }
        Folder(path)
    }
    fn path(&self, name: &str) -> PathBuf {
        self.0.join(name)
    }
    fn write(&self, name: &str, bytes: impl AsRef<[u8]>) {
        fs::create_dir_all(self.path(name).parent().unwrap()).unwrap();
        fs::write(self.path(name), bytes).unwrap()
    }
    fn job(&self, name: &str, bytes: &[u8], log: &str) {
        self.write(&format!("jobs/{}", name), bytes);
        self.write(&format!("logs/{}.log", name), log)
    }
    /// the manifest of a run over what is there
    fn manifest(&self, proved: bool) {
        let places = report::places(&self.path("jobs"), &self.path("logs")).unwrap();
        let line = |p: &report::Place| {
            let sum = |path: &Path| sha256(&[path.into()]).unwrap().remove(0).unwrap();
            let (job, log) = (fs::read(&p.job).unwrap(), fs::read(&p.log).unwrap());
            let found = report::job(&p.name, &job, Some(&log), Default::default(), false);
            let (job_sha256, log_sha256) = (sum(&p.job), sum(&p.log));
            let (job, program_sha256) = (p.name.clone(), sum(Path::new("/bin/sh")));
            let (records, read, bytes) = (found.records, found.read, found.bytes);
            Line { job, job_sha256, log_sha256, program_sha256, records, read, bytes, proved }.text()
        };
        self.write("logs/manifest.jsonl", places.iter().map(line).collect::<String>())
    }
    fn asked(&self) -> Asked {
        Asked { jobs: self.path("jobs"), logs: self.path("logs"), ..Asked::default() }
    }
    fn report(&self) -> Release {
        release(&self.asked()).unwrap()
    }
    fn status(&self) -> i32 {
        self.report().status()
    }
}

impl Drop for Folder {
    fn drop(&mut self) {
        fs::remove_dir_all(&self.0).ok();
    }
}

fn block(text: &str, name: &str) -> String {
    let behind = text.lines().skip_while(|l| *l != name).skip(1);
    behind.map_while(|l| l.strip_prefix("    ")).map(|l| format!("{}\n", l)).collect()
}

/// the examples of explain.txt: head, job, log
fn examples() -> Vec<(String, Vec<u8>, String)> {
    let one = |t: &str| {
        let head = t.lines().next().unwrap().to_string();
        (head, assemble(&block(t, "example:"), false).unwrap(), block(t, "log:"))
    };
    TEXTS.split("\n\n").map(one).filter(|(_, job, _)| !job.is_empty()).collect()
}

const WELL: [(&str, &str, &str); 4] = [
    ("a", "FV @1\nJN V0@2, u8@3\nUF V0@4", "0 0 06010000000000\n1 0 06020000000000\n2 0 03030000000002\n"),
    ("below/b", "BC @1 u8@2\nSV", "0 0\n1 0\n"),
    ("c", "JN u8@1, u8@2", "0 0 03020000000002\n"),
    ("d", "SD {copy}\nIN S0@1", "0 0 0000\n1 0 0501000000000000\n"),
];

fn well(name: &str) -> Folder {
    let f = Folder::new(name);
    for (name, job, log) in WELL {
        f.job(name, &assemble(job, false).unwrap(), log)
    }
    f.manifest(true);
    f
}

//---- what is told ------------------------------------------------------------------------------------------------

/// tests/report.txt has what is told of every answer and every code; with JOBLOG_EXPECTED=write it is written anew
#[test]
fn every_answer_is_told() {
    let mut out = String::new();
    for (head, job, log) in examples() {
        let name = head.split(' ').next().map_or(String::new(), |n| format!("example/{}", n));
        let job = report::job(&name, &job, Some(log.as_bytes()), Default::default(), false);
        assert_eq!(job.unknown, Vec::<String>::new(), "{}", head);
        assert_eq!(job.verdict() == Verdict::Well, head == "0 typed", "{}", head);
        let number = head.split_once(" code ").map_or(head.split(' ').next().unwrap().into(), |_| head.clone());
        assert!(head == "0 typed" || job.failures.iter().any(|f| f.label() == number), "{}", head);
        out += &format!("== {}\n{}\n", head, text::text(&Release { jobs: vec![job], ..Release::default() }, true))
    }
    let path = Path::new(env!("CARGO_MANIFEST_DIR")).join("tests/report.txt");
    if std::env::var("JOBLOG_EXPECTED").is_ok_and(|w| w == "write") {
        fs::write(&path, &out).unwrap()
    }
    assert_eq!(out, fs::read_to_string(path).unwrap());
    for a in ANSWERS.iter().filter(|a| a.number != 15) {
        assert!(out.contains(&format!("== {} {}\n", a.number, a.word)), "{}", a.number)
    }
}

#[test]
fn a_release_that_is_well() {
    let f = well("well");
    let r = f.report();
    assert_eq!(
        (r.status(), text::text(&r, false).as_str()),
        (0, "4 functions: 4 ok, 0 failed, 0 not known; 8 records; publish\n")
    );
    assert!(text::text(&r, true).starts_with("ok: a: 3 records, 31 bytes\nok: below/b: 2 records, "));
    let lines = jsonl::lines(&r);
    assert_eq!(lines.lines().count(), 5);
    let first =
        r#"{"v":1,"kind":"job","job":"a","verdict":"ok","records":3,"read":31,"bytes":31,"failures":0,"unknown":[]}"#;
    assert_eq!(lines.lines().next(), Some(first));
    assert!(lines.ends_with("publish\"}\n") && lines.contains(r#""kind":"release","verdict":"ok","status":0,"#));
}

/// 1: BC of a unit, and SV answers 0 with a row
#[test]
fn a_zero_with_rows_is_an_error() {
    let f = well("rows");
    f.job("e", &assemble("BC @1 ()@2\nSV", false).unwrap(), "0 0\n1 0 02010000000002000000\n");
    f.manifest(true);
    let r = f.report();
    assert_eq!(r.status(), 1);
    let told =
        "error[SV code 2] no base type: `()` where neither `()`, a reference nor a list is wanted\n  --> e, record 1 (byte 11): SV\n    type   ()    @2\n    constraint at @1\n";
    assert!(text::text(&r, false).starts_with(told), "{}", text::text(&r, false));
    assert!(junit::xml(&r).contains("<testsuite name=\"joblog report\" tests=\"6\" failures=\"1\" errors=\"0\">"));
    // a failure that is known decides, also where something else is not known
    fs::remove_file(f.path("logs/a.log")).unwrap();
    assert_eq!(f.status(), 1)
}

/// 02's R-8: of a 0 of MJ each pair that is not 0, as of the JN or SU that it is
#[test]
fn a_zero_with_a_pair_that_failed_is_an_error() {
    let f = well("pairs");
    let job = "MJ join u8@1, u8@2; subtype &@3 u8@4, &mut@5 u8@6; join u8{drop}@7, u8@8";
    let payload = "000700 03020000000002 011a00 0103000000000304000000000201050000000103060000000002 0a0000";
    let log = format!("0 0 {}\n", payload.replace(' ', ""));
    f.job("e", &assemble(job, false).unwrap(), &log);
    f.manifest(true);
    let r = f.report();
    assert_eq!(r.status(), 1);
    let told = "error[1] subtype error: `&u8` is immutable where `&mut u8` is wanted\n  --> e, record 0 (byte 0): MJ, pair 1: SU  &u8  <:  &mut u8\n    left   &u8    @3\n";
    let text = text::text(&r, false);
    assert!(text.starts_with(told), "{}", text);
    let told = "error[10] abilities disagree: one name with two different ability marks\n  --> e, record 0 (byte 0): MJ, pair 2: JN  u8{drop}  ~  u8\n";
    assert!(text.contains(told), "{}", text);
    let lines = jsonl::lines(&r);
    let fields = r#""mark":"MJ","number":10,"pair":2,"code":0,"word":"abilities disagree""#;
    assert!(lines.contains(fields) && lines.contains(r#""number":1,"pair":1,"#), "{}", lines)
}

#[test]
fn what_differs_first_is_marked() {
    let (job, log) = ("SU (vector<u8@1>@2, ())@3, (vector<bool@4>@5, ())@6", "0 2 0301000000000203040000000006\n");
    let job = report::job("f", &assemble(job, false).unwrap(), Some(log.as_bytes()), Default::default(), false);
    let lines: Vec<_> = job.failures.iter().flat_map(|f| &f.types).map(|t| &t.text[t.differs.clone()]).collect();
    assert_eq!(lines, ["u8", "bool"]);
    let (job, log) = ("FV @1\nJN V0@1, (V0@1, u8@2)@3", "0 0 06010000000000\n1 4 01000000\n");
    let job = report::job("f", &assemble(job, false).unwrap(), Some(log.as_bytes()), Default::default(), false);
    assert_eq!(job.failures[0].places, ["@1"])
}

#[test]
fn names_are_printed_and_decide_nothing() {
    let text = "S 0 0xA::receipt::Receipt\nP 7 T\n@ 3 receipt.move:41:9\njob f\n@ 6 own.move:1:1\nS 0 0xB::o::Own\n";
    let (book, told) = Book::of(&format!("{}nonsense\nS 0 twice\nS 99999 far\n@ 5 \n# note\n\n", text));
    assert_eq!(told.iter().map(|(n, _)| *n).collect::<Vec<_>>(), [7, 8, 9, 10]);
    let job = assemble("SD {}\nJN S0@3, P7@6", false).unwrap();
    let log = "0 0 0000\n1 2 05030000000000000206000000070000000\n";
    let log = log.replace("0206000000070000000\n", "02060000000700000000\n");
    let told = |name: &str, book: &Book| {
        let job = report::job(name, &job, Some(log.as_bytes()), book.job(name), false);
        assert_eq!((job.unknown.len(), job.failures.len()), (0, 1), "{:?}", job.unknown);
        (job.failures[0].told.clone(), job.failures[0].places.join(" "))
    };
    let words = |a: &str, b: &str| format!("`{}` and `{}` do not go together", a, b);
    assert_eq!(told("f", &book), (words("0xB::o::Own", "T"), "receipt.move:41:9 own.move:1:1".into()));
    assert_eq!(told("g", &book), (words("0xA::receipt::Receipt", "T"), "receipt.move:41:9 @6".into()));
    assert_eq!(told("f", &Book::default()), (words("S0", "P7"), "@3 @6".into()))
}

/// the page: no part from elsewhere, nothing of a job or a name read as markup
#[test]
fn one_page() {
    let f = well("page");
    f.job("<b>&\"e", &assemble("JN u8@1, bool@2", false).unwrap(), "0 2 0301000000000203020000000006\n");
    f.manifest(true);
    let mut asked = f.asked();
    asked.lines = true;
    asked.book = Book::of("@ 2 <script>alert(1)</script>\n").0;
    let r = release(&asked).unwrap();
    let page = html::page(&r);
    for outside in ["http", "src=", "href=", "url(", "@import", "<b>&\"e", "<script>alert"] {
        assert!(!page.contains(outside), "{}", outside)
    }
    assert!(page.contains("&lt;b&gt;&amp;&quot;e") && page.contains("&lt;script&gt;alert(1)&lt;/script&gt;"));
    assert!(page.contains("<mark>u8</mark>") && page.contains("<mark>bool</mark>"));
    assert_eq!(page.matches("<tr class=function").count(), 5);
    let xml = junit::xml(&r);
    assert!(xml.contains("name=\"&lt;b&gt;&amp;&quot;e\"") && !xml.contains("<script>"))
}

//---- what is not known ---------------------------------------------------------------------------------------

fn unknown(r: &Release) -> String {
    r.jobs.iter().flat_map(|j| &j.unknown).chain(&r.unknown).cloned().collect::<Vec<_>>().join("; ")
}

#[test]
fn logs_by_no_run_that_is_known() {
    let f = well("vouched");
    fs::remove_file(f.path("logs/manifest.jsonl")).unwrap();
    assert_eq!(
        (f.status(), unknown(&f.report()).as_str()),
        (2, "the logs are by no run that is known: there is no manifest")
    );
    f.manifest(false);
    assert_eq!(f.status(), 2);
    let with = |change: &dyn Fn(&mut vouch::Asked)| {
        let mut asked = f.asked();
        change(&mut asked.vouch);
        release(&asked).unwrap().status()
    };
    assert_eq!(with(&|v| v.quick = true), 0);
    f.manifest(true);
    assert_eq!(f.status(), 0);
    assert_eq!(with(&|v| v.program = Some("/bin/sh".into())), 0);
    assert_eq!(with(&|v| v.program = Some(f.path("jobs/a"))), 2);
    let path = f.path("logs/manifest.jsonl");
    let text = fs::read_to_string(&path).unwrap();
    let changed = |change: &dyn Fn(&mut Line)| {
        let mut lines: Vec<Line> = manifest::read(&text).into_values().collect();
        change(&mut lines[1]);
        f.write("logs/manifest.jsonl", lines.iter().map(Line::text).collect::<String>());
        f.status()
    };
    assert_eq!(changed(&|_| ()), 0);
    assert_eq!(changed(&|l| l.records += 1), 2);
    assert_eq!(changed(&|l| l.read -= 1), 2);
    assert_eq!(changed(&|l| l.program_sha256 = "0".repeat(64)), 2);
    assert_eq!(changed(&|l| l.program_sha256.clear()), 2);
    assert_eq!(changed(&|l| l.proved = false), 2);
    assert_eq!(changed(&|l| l.job = "another".into()), 2);
    // the last line of a job counts, and a line without its line break does not
    f.write("logs/manifest.jsonl", text.replace("\"records\":3", "\"records\":4") + &text);
    assert_eq!(f.status(), 0);
    f.write("logs/manifest.jsonl", text.trim_end());
    assert_eq!(f.status(), 2);
    // a run is at work
    f.write("logs/manifest.jsonl", &text);
    let file = fs::OpenOptions::new().append(true).open(&path).unwrap();
    file.lock().unwrap();
    assert_eq!((f.status(), unknown(&f.report()).as_str()), (2, "a run is at work on these logs"))
}

#[test]
fn jobs_that_are_gone_new_or_linked() {
    let f = well("gone");
    fs::remove_file(f.path("jobs/c")).unwrap();
    let r = f.report();
    assert_eq!((r.status(), r.notes.as_slice()), (0, &["the run had jobs that are gone: c".to_string()][..]));
    // a name that would move the cursor does not
    f.job("\u{1b}[2K", b"SV", "0 0\n");
    assert!(text::text(&f.report(), true).contains("not known: \u{fffd}[2K: the run has no line of it\n"));
    fs::remove_file(f.path("jobs/\u{1b}[2K")).unwrap();
    // a job behind a link counts as any other
    std::os::unix::fs::symlink(f.path("jobs/a"), f.path("jobs/linked")).unwrap();
    assert_eq!((f.status(), unknown(&f.report()).as_str()), (2, "it has no log; the run has no line of it"));
    fs::remove_file(f.path("jobs/linked")).unwrap();
    std::os::unix::fs::symlink(f.path("none"), f.path("jobs/linked")).unwrap();
    assert!(release(&f.asked()).is_err());
    fs::remove_file(f.path("jobs/linked")).unwrap();
    std::os::unix::fs::symlink(f.path("jobs"), f.path("jobs/below/circle")).unwrap();
    assert!(release(&f.asked()).is_err_and(|e| e.contains("a link to a folder that it is in")));
    let empty = Folder::new("empty");
    empty.write("logs/manifest.jsonl", "");
    assert_eq!((empty.status(), unknown(&empty.report()).as_str()), (2, "there are no jobs"))
}

/// each kind of damage, with the manifest of the run, with one of the damaged logs, and without any
#[test]
fn damaged_logs_are_never_well() {
    let whole = WELL[0].2;
    let kinds = [
        String::new(),
        "\n".into(),
        whole[..whole.len() - 1].into(),
        whole.lines().next().unwrap().to_string() + "\n",
        whole.replace("2 0 03030000000002\n", "2 0\n"),
        whole.replace("2 0 03030000000002\n", "2 0 0303000000000203030000000002\n"),
        whole.replace("2 0 03030000000002\n", "2 0 GARBAGE\n"),
        whole.replace("2 0 03030000000002\n", "2 0 0303000000000A\n"),
        whole.replace("2 0 ", "2 00 "),
        whole.replace("2 0 ", "2 +0 "),
        whole.replace("2 0 ", "2  0 "),
        whole.replace("2 0 ", "02 0 "),
        whole.replace("0302\n", "0302 \n").replace("0002\n", "0002 \n"),
        whole.replace('\n', "\r\n"),
        whole.to_string() + "3 0\n",
        whole.to_string() + "3 0",
        whole.to_string() + "\n",
        "# a note\n".to_string() + whole,
        "0 0 GARBAGE\n".into(),
        "0 0 06010000000100\n1 0 06020000000000\n2 0 03030000000002\n".into(),
        "0 0 06020000000000\n1 0 06020000000000\n2 0 03030000000002\n".into(),
        "0 0 06010000000000\n1 0 03030000000006\n2 0 03030000000002\n".into(),
        "0 17\n".into(),
        "0 15\n".into(),
        "\u{feff}".to_string() + whole,
    ];
    let f = well("damaged");
    for log in &kinds {
        f.write("logs/a.log", log);
        assert_eq!(f.status(), 2, "{:?}", log);
        let job = fs::read(f.path("jobs/a")).unwrap();
        let found = report::job("a", &job, Some(log.as_bytes()), Default::default(), false);
        assert!(found.unknown.iter().any(|u| u.starts_with("the log is not the job's")), "{:?}", log);
        let (_, summary) = joblog::show::show(&job, log, Default::default());
        assert!(summary.code() == 2 || log.starts_with('#'), "{:?}: {}", log, summary.text())
    }
    f.write("logs/a.log", [0xff, 0xfe]);
    assert_eq!(f.status(), 2);
    f.write("logs/a.log", whole);
    assert_eq!(f.status(), 0);
    // the log of another job, with a manifest that has just this log
    f.job("c", &assemble("JN bool@1, bool@2", false).unwrap(), "0 0 03020000000002\n");
    f.manifest(true);
    assert_eq!(
        (f.status(), unknown(&f.report()).as_str()),
        (2, "the log is not the job's: record 0: this JN cannot have this answer")
    )
}

/// xorshift: the same tries each time
struct Chance(u64);

impl Chance {
    fn below(&mut self, n: usize) -> usize {
        self.0 ^= self.0 << 13;
        self.0 ^= self.0 >> 7;
        self.0 ^= self.0 << 17;
        (self.0 % n as u64) as usize
    }
}

#[test]
fn a_thousand_changed_bytes_are_never_well() {
    let f = well("changed");
    let files =
        ["logs/a.log", "logs/below/b.log", "logs/c.log", "logs/d.log", "jobs/a", "jobs/d", "logs/manifest.jsonl"];
    let mut chance = Chance(11);
    let mut without = 0;
    for i in 0..1000 {
        let file = files[chance.below(files.len())];
        let good = fs::read(f.path(file)).unwrap();
        let mut bad = good.clone();
        let at = chance.below(bad.len());
        match chance.below(4) {
            0 => drop(bad.remove(at)),
            1 => bad.insert(at, bad[at]),
            2 => bad.truncate(at),
            _ => bad[at] ^= 1 + chance.below(255) as u8,
        }
        if bad == good {
            continue;
        }
        f.write(file, &bad);
        let status = f.status();
        assert_ne!(status, 0, "try {}: {} at {}", i, file, at);
        without += (status == 2) as usize;
        f.write(file, &good)
    }
    assert!(without > 900, "{}", without);
    assert_eq!(f.status(), 0)
}

//---- an earlier release ------------------------------------------------------------------------------------------

#[test]
fn beside_an_earlier_release() {
    let (one, two) = (well("before"), well("now"));
    let asm = |text: &str| assemble(text, false).unwrap();
    // locations alone; a record; an answer that is not the job's; one more and one less
    two.job(
        "a",
        &asm("FV @8\nJN V0@9, u8@10\nUF V0@11"),
        "0 0 06080000000000\n1 0 06090000000000\n2 0 030a0000000002\n",
    );
    two.job("c", &asm("JN u8@1, bool@2"), "0 2 0301000000000203020000000006\n");
    two.job("e", &asm("SV"), "0 0\n");
    fs::remove_file(two.path("jobs/d")).unwrap();
    two.manifest(true);
    let against = |one: &Folder, two: &Folder| {
        let now = two.report();
        base::against(&two.asked(), &now, Book::default(), &one.path("jobs"), &one.path("logs")).unwrap()
    };
    let told = base::text(&against(&one, &two), true);
    let wanted = "\
equal: a: 3 records, equal but for locations
equal: below/b: 2 records, equal but for locations
differs: c: record 0: the records differ
  before: JN  u8@1  ~  u8@2
  now   : JN  u8@1  ~  bool@2
gone: d
added: e
new failure: c: incompatible (2): `u8` and `bool` do not go together
beside the earlier release: 2 equal, 1 differs, 1 added, 1 gone, 0 not known; failures: 1 new, 0 gone
";
    assert_eq!(told, wanted);
    let back = base::text(&against(&two, &one), false);
    assert!(back.contains("failure gone: c: incompatible (2)") && back.contains("added: d\ngone: e\n"), "{}", back);
    // a failure that moved, its locations alone, is neither new nor gone
    one.job("c", &asm("JN u8@7, bool@9"), "0 2 0307000000000203090000000006\n");
    one.job("f", &asm("JN u8{drop}@1, u8@2"), "0 10\n");
    two.job("f", &asm("JN u8{drop}@3, u8@4"), "0 10\n");
    two.manifest(true);
    one.manifest(true);
    assert!(base::sums(&against(&one, &two)).ends_with("failures: 0 new, 0 gone"));
    fs::remove_file(one.path("logs/c.log")).unwrap();
    let r = against(&one, &two);
    assert!(base::text(&r, false).contains("not known: c: ") && r.unknown.len() == 1, "{}", base::text(&r, false))
}
