//! What test.sh runs, under both maps.
use joblog::{
    diff::{diff, Difference},
    location::blank_record,
    pairs::{Pair, Pairs},
    payload::Outcome as Said,
};
use oracle::{
    gen::{self, Chance, Made},
    job::{self, with_stack, Job, Outcome},
    list, order,
    record::{self, hex, read_record, Record},
    release,
    show::{self, show},
    text::{assemble, disassemble, Detail},
};
use std::collections::BTreeSet;

const REAL_MAP: bool = cfg!(feature = "hashmap");

fn log(stream: &[u8]) -> String {
    job::log(stream, false, false)
}

fn asm(text: &str) -> Vec<u8> {
    assemble(text, true).unwrap()
}

/// the numbers of a job's answers
fn numbers(stream: &[u8]) -> Vec<u8> {
    log(stream).lines().map(|l| l.split(' ').nth(1).unwrap().parse().unwrap()).collect()
}

fn last(text: &str) -> u8 {
    *numbers(&asm(text)).last().unwrap()
}

fn made() -> Vec<Made> {
    let mut jobs: Vec<_> = (0..2000).map(|i| gen::random(11, i, 25, None, false)).collect();
    jobs.extend((0..).map_while(|i| gen::exhaustive(i, false)));
    jobs.extend((0..70).map(|i| gen::limits(11, i, false)));
    jobs
}

//---- 01 ------------------------------------------------------------------------------------------------

#[test]
fn marked_calls() {
    let text = include_str!("../marked.txt");
    let blocks: Vec<_> = text.split("\n\n").skip(1).collect();
    assert_eq!(blocks.len(), 15);
    for b in blocks {
        let (name, rest) = b.split_once('\n').unwrap();
        let (job, wanted) = rest.split_once("log\n").unwrap();
        let stream = assemble(job, false).unwrap();
        assert_eq!(log(&stream).trim_end(), wanted.trim_end(), "{}", name);
    }
}

/// 02's R-7, its worked values: of each job the last answer or two, by a second reading of 02
#[test]
fn literals() {
    let two_ends = "NL @1 9\nNL @2 100\nJN V1@3, V0@4\n";
    for (job, wanted) in [
        ("NL @1 9\nJN V0@2, u8@3".to_string(), "1 2 0602000000000003030000000002"),
        ("NL @1 9\nJN V0@2, u16@3".into(), "1 0 06020000000000"),
        ("NL @1 9\nJN V0, u16@3\nNL @4 20\nJN V1@5, V0@6".into(), "3 2 0605000000010003030000000007"),
        ("NL @1 64\nSV\nUF V0".into(), "2 0 03010000001703"),
        ("NL @1 65\nSV\nUF V0".into(), "2 0 03010000001704"),
        ("NL @1 128\nSV\nUF V0".into(), "2 0 03010000001704"),
        ("NL @1 129\nSV\nUF V0".into(), "2 0 03010000001709"),
        ("NL @1 256\nSV\nUF V0".into(), "2 0 03010000001709"),
        ("NL @1 0".into(), "0 5"),
        ("NL @1 257".into(), "0 5"),
        (two_ends.to_string() + "JN V0@5, u64@6", "3 2 0605000000000003060000000003"),
        (two_ends.to_string() + "SV\nUF V0\nUF V1\nUF V2", "6 0 03010000001704"),
        // SN needs no bits, and lowers no need
        ("FV @1\nSN V0 @2\nJN V0, u8@3".into(), "2 0 06000000000000"),
        ("NL @1 9\nSN V0 @2\nJN V0, u8@3".into(), "2 2 0600000000000003030000000002"),
    ] {
        let log = log(&assemble(&job, false).unwrap());
        assert_eq!(log.lines().last(), Some(wanted), "{}", job)
    }
}

/// 02's R-8, the worked records: the second pair answered, refused, and refused once it has bound a variable
#[test]
fn pairs() {
    let many = |middle: &str| format!("FV@1\nMJ join V0@2, u8@3; {}; join V0@9, u8@10\nFV@11", middle);
    let refused = "join (V0@2, u8{copy, drop, store}@5)@6, (bool@7, u8@8)@9";
    for (job, wanted) in [
        (
            many("subtype &@5 u8@6, &mut@7 u8@8"),
            "0 000700 06020000000000 011a00 01050000000003060000000002 01070000000103080000000002 000700 060a0000000200",
        ),
        (many("join u8{copy, drop, store}@5, u8@6"), "0 000700 06020000000000 0a0000 000700 060a0000000200"),
        (format!("FV@1\nMJ {}; join V0@10, u8@11\nRD V0", refused), "0 0a0000 000700 060a0000000000"),
    ] {
        let log = log(&assemble(&job, false).unwrap());
        let answers: Vec<_> = log.lines().map(|l| l.split_once(' ').unwrap().1).collect();
        assert_eq!(answers[1].replace(' ', ""), wanted.replace(' ', ""), "{}", job);
        let last = if job.ends_with("RD V0") { "0 030b0000000002" } else { "0 060b0000000300" };
        assert_eq!(answers[2], last, "{}", job)
    }
    // an error keeps what it took, and puts back what it bound; a refusal of a pair ends no job
    let error = "FV\nMJ join (V0, u8), (bool, bool); join V0, u8\nUF V0";
    assert_eq!((numbers(&asm(error)), last("MJ join u8, u8{drop}")), (vec![0, 0, 0], 0));
    assert_eq!(last(&format!("{}MJ join V0, V1; join V1, V0", "FV\n".repeat(1023))), 0);
    let full = format!("{}MJ join V0, V1; join V2, V3; join V1, V0\nFV", "FV\n".repeat(1023));
    let log = log(&asm(&full));
    assert!(log.ends_with("\n1024 7\n") && log.contains("070000"), "{}", log.lines().nth(1023).unwrap())
}

/// 02's R-9, its worked values: of each job the last answers, the links by the driver
#[test]
fn links() {
    for (job, wanted) in [
        (
            "FV\nFV\nFV\nJL V0, V1\nJL V1, V2\nUL V0\nJL V0, bool\nJL V2, u8\nUL V0",
            &[
                "0 0600000000030000000000",
                "0 0600000000040001000000",
                "0 070000000002000000",
                "0 0600000000060002000000",
                "2 030000000000060300000000000202000000",
                "0 0300000000000603000000",
            ][..],
        ),
        ("FV\nFV\nJN V0, V1\nJL (V0, V0), (V1, V1)", &["0 0400000000000206000000000300060000000004000 6000000"]),
        ("FV\nFV\nJN V0, vector<V1>\nJN V1, vector<V0>\nJL V0, V1", &["4 0000000002000000"]),
        (
            "JL u8, u8\nUL (u8, _)\nJL u8, u8{drop}",
            &["0 0300000000000200000000", "0 040000000000020300000000000207000000 0000000000", "10"],
        ),
    ] {
        let log = log(&assemble(job, false).unwrap());
        let answers: Vec<_> = log.lines().map(|l| l.split_once(' ').unwrap().1).collect();
        let wanted: Vec<_> =
            wanted.iter().map(|w| w.split_at(2)).map(|(n, p)| n.to_string() + &p.replace(' ', "")).collect();
        assert_eq!(answers[answers.len() - wanted.len()..], wanted, "{}", job)
    }
}

/// 02's R-11, the worked values: of each job the last answers, and what stays in core.rs's map and list
#[test]
fn what_is_kept() {
    for (job, wanted, state) in [
        (
            "FV @1\nFV @2\nFV @3\nNV @4\nJN V2@5, vector<V3@6>@7\nJN V1@8, u8@9\nKP V2",
            &["0 0200000003000100"][..],
            "next V2, S0; bindings [V0 = vector<V1@6>@7]; numeric [V1 @4]; constraints []",
        ),
        (
            "FV @1\nFV @2\nFV @3\nJN V1@4, vector<V2@6>@5\nBC @7 (V1@9,)@8\nKP",
            &["0 0100000002000100"],
            "next V2, S0; bindings [V0 = vector<V1@6>@5]; numeric []; constraints [base @7 (V0@9,)@8]",
        ),
        (
            "FV @1\nJN V0@2, u8@3\nKP\nFV @4\nUF V0@5",
            &["0", "0 06040000000000", "0 0705000000"],
            "next V1, S0; bindings []; numeric []; constraints []",
        ),
        // what is bound to one that stays goes, a circle stays whole; SN's mark and a need stay
        (
            "FV@1\nFV@2\nFV@3\nNL@4 9\nJN V0@5, vector<V1@6>@7\nJN V1@8, vector<V2@9>@10\nJN V2@11, vector<V1@12>@13\nSN V2 @14\nKP V3, V1, V3",
            &["0 0100000002000100 0300 0200"],
            "next V3, S0; bindings [V0 = vector<V1@9>@10, V1 = vector<V0@12>@13]; numeric [V1 @14, V2 @4 9 bits]; constraints []",
        ),
        ("FV@1\nKP V1", &["6"], "next V1, S0; bindings []; numeric []; constraints []"),
    ] {
        let told = job::log(&assemble(job, false).unwrap(), false, true);
        let answers: Vec<_> = told.lines().filter(|l| !l.starts_with('#')).map(|l| l.split_once(' ').unwrap().1).collect();
        let wanted: Vec<_> =
            wanted.iter().map(|w| w.split_once(' ').map_or(w.to_string(), |(n, p)| format!("{} {}", n, p.replace(' ', "")))).collect();
        assert!(answers.ends_with(&wanted.iter().map(String::as_str).collect::<Vec<_>>()), "{}: {}", job, told);
        assert_eq!(told.lines().last(), Some(&*format!("# {}", state)), "{}", job)
    }
}

/// 02's R-1: core.rs's failures of code 4 with ability, type and rule; 9 and 16 by the driver, in list order
#[test]
fn abilities_on_the_log() {
    let sv = |stream: &str| {
        log(&record::unhex(stream).unwrap()).lines().last().unwrap().split_once(' ').unwrap().1.to_string()
    };
    let worked = "5344 0f 02 01 18 494e 05 02000000 00 0000 03030000000001 03040000000002 5356";
    assert_eq!(sv(worked), "0 04020000000103030000000001010402000000080304000000000201");
    assert_eq!(sv(&format!("{} 5356", worked)), "0");
    let ask = |t: &str| sv(&format!("5344 00 01 01 5344 00 00 5344 01 01 10 494e 05 02000000 00 0000 {} 5356", t));
    assert_eq!(ask("03030000000005 03040000000001"), "0 04020000000103030000000005060400000001000200");
    assert_eq!(ask("03030000001005 03040000000002"), "16");
    // S2 has copy and a phantom parameter, S1 nothing
    assert_eq!(ask("0503000000000200 0504000000000100"), "0");
    assert_eq!(ask("0503000000100200 0504000000000100"), "16");
    // two vectors in a circle: behind a mark, and as a vector's argument, of which nothing is asked
    let circle = "FV\nFV\nJN V3, vector<V4>\nJN V4, vector<V3>\nJN V2, ";
    assert_eq!(last(&format!("SD {{}}<{{copy}}>\nIN S0<_>\n{}vector<V3>{{copy}}\nSV", circle)), 9);
    assert_eq!(last(&format!("IN vector<_>\n{}V3\nSV", circle)), 9);
    assert_eq!(last(&format!("SD {{}}<{{copy}}>\nIN S0<_>\n{}V3\nIN S0<u8{{drop}}>\nSV", circle)), 9)
}

#[test]
fn worked_example_by_its_bytes() {
    let stream = record::unhex("4e5601000000 4a4e06020000000000 03030000000002 55460604000000 0000").unwrap();
    assert_eq!(log(&stream), "0 0 06010000000000\n1 0 06020000000000\n2 0 03030000000002\n");
}

#[test]
fn edges_of_the_record_form() {
    let nested = |n: usize| format!("UF {}u8{}", "vector<".repeat(n - 1), ">".repeat(n - 1));
    assert_eq!((last(&nested(64)), last(&nested(65))), (0, 5));
    // eight lists of eight lists of eight variables: 2 + 73 * 7 + 512 * 7 bytes
    let list = |part: &str| format!("({})", vec![part; 8].join(", "));
    let long = format!("FV\nUF {}", list(&list(&list("V0"))));
    let fits = long.replacen("V0, V0, V0", "P1, _, _", 1);
    assert_eq!((asm(&long).len() - 6, last(&long)), (4097, 5));
    assert_eq!((asm(&fits).len() - 6, last(&fits)), (4096, 0));
    let vars = |n| numbers(&asm(&"FV\n".repeat(n)));
    assert_eq!((vars(1024)[1023], vars(1025)[1024]), (0, 7));
}

/// 02's R-6: where a reference may not stand, and which refusal is met first
#[test]
fn doubled_references() {
    let cases = [
        ("UF &&u8", 18),
        ("UF &mut &u8", 18),
        ("UF &&mut u8", 18),
        ("UF (u8, &&u8)", 18),
        ("UF vector<&&u8>", 18),
        ("UF &vector<&u8>", 0),
        ("SD {} <{}>\nUF S0<&&u8>", 18),
        ("TS [P1 = &&u8] P1", 18),
        ("TS [P1 = u8] &&P1", 18),
        ("TS [P1 = &u8] &P1", 0),
        ("JN u8, &&u8", 18),
        // a variable bound to a reference is let through, and RD shows what that makes
        ("FV\nJN V0, &u8\nRD &V0", 0),
        // cut before the inner tag, after it, after its location
        ("hex 5546 01 00000000 00", 5),
        ("hex 5546 01 00000000 00 01", 18),
        ("hex 5546 01 00000000 00 01 00000000", 18),
        // faults further left, and further right
        ("hex 4a4e 06 00000000 0000 01 00000000 00 01", 6),
        ("hex 4a4e 01 00000000 02 01 00000000 00 01", 5),
        ("hex 4a4e 01 00000000 00 01 00000000 02 09", 18),
        ("hex 4a4e 01 00000000 00 01 00000000 00 06 00000000 0000", 18),
        ("hex 5546 01 00000000 00 09", 5),
    ];
    for (text, number) in cases {
        assert_eq!(last(text), number, "{}", text);
    }
    let under = |vectors: usize| last(&format!("UF {}&&u8{}", "vector<".repeat(vectors), ">".repeat(vectors)));
    assert_eq!((under(62), under(63)), (18, 5));
    // nothing is read after it
    assert_eq!(numbers(&asm("SV\nUF &&u8\nSV")), [0, 18])
}

#[test]
fn refusals_by_the_rules_of_01() {
    let cases = [
        ("hex 5858", 5),
        ("hex 4a4e09", 5),
        ("UF V0", 6),
        ("UF S0", 6),
        ("FV\nJN V0, vector<V0>\nJN V0, vector<V0>\nJN vector<V0>, V0", 4),
        ("FV\nFV\nJN V0, vector<V1>\nJN V1, vector<V0>\nRD &V0", 9),
        ("JN u8, u8{drop}", 10),
        ("JN vector<u8>{}, vector<bool>", 10),
        ("FV\nIN vector<V0>", 11),
        ("FV\nTS [] V0", 11),
        ("TS [P1 = u8] vector<P2>", 12),
        ("TS [P1 = u8, P1 = u8] P1", 13),
    ];
    for (text, number) in cases {
        assert_eq!(last(text), number, "{}", text);
    }
    let row = format!("({})", vec!["P1"; 8].join(", "));
    let square = format!("({})", vec![row.as_str(); 8].join(", "));
    assert_eq!(last(&format!("TS [P1 = {}] {}", row, row)), 0);
    assert_eq!(last(&format!("TS [P1 = {}] {}", row, square)), 14);
    assert_eq!(last(&("SD {}\n".repeat(256) + "UF S255")), 0);
    assert_eq!(last(&"SD {}\n".repeat(257)), 7);
    assert_eq!(last(&"SC ()\n".repeat(513)), 7);
}

#[test]
fn a_constraint_on_a_type_in_itself_is_silent() {
    let stream = asm("FV\nFV\nJN V0, vector<V1>\nJN V1, vector<V0>\nNC bits V0\nSV\nFV");
    assert_eq!(log(&stream).lines().last(), Some("5 -"));
}

#[test]
fn an_integer_type_that_core_rs_has_not_is_silent() {
    for t in ["u16", "u32", "u256"] {
        let stream = asm(&format!("FV\nJN V0, vector<{}>\nFV", t));
        assert_eq!(log(&stream).lines().last(), Some("1 -"), "{}", t)
    }
}

//---- states ----------------------------------------------------------------------------------------------

#[test]
fn errors_and_refusals_put_the_state_back() {
    for i in 0..300 {
        let m = gen::random(12, i, 25, None, false);
        let (mut job, mut rest) = (Job::new(), &m.stream[..]);
        while !rest.is_empty() {
            let before = job.state();
            let (outcome, n) = job.next(rest);
            let mut after = job.state();
            match outcome {
                Outcome::Core(0, _) => (),
                Outcome::Core(..) => {
                    assert!(after.next_var >= before.next_var);
                    after.next_var = before.next_var;
                    assert_eq!(before, after)
                }
                _ => assert_eq!(before, after),
            }
            if n == 0 {
                break; // under the real map a later run may take fewer variables
            }
            rest = &rest[n..];
        }
    }
}

#[test]
fn jobs_side_by_side_do_not_meet() {
    let streams: Vec<_> = (0..20).map(|i| gen::random(13, i, 25, None, true).stream).collect();
    let mut jobs: Vec<_> = streams.iter().map(|s| (Job::new(), &s[..], String::new(), 0)).collect();
    while jobs.iter().any(|(_, rest, _, _)| !rest.is_empty()) {
        for (job, rest, log, n) in jobs.iter_mut().filter(|(_, rest, _, _)| !rest.is_empty()) {
            let (outcome, length) = job.next(rest);
            *log += &format!("{} {}\n", n, job::answer_text(&outcome));
            *n += 1;
            *rest = if length == 0 { &[] } else { &rest[length..] };
        }
    }
    if !REAL_MAP {
        jobs.iter().zip(&streams).for_each(|((_, _, got, _), s)| assert_eq!(got, &log(s)))
    }
}

//---- generator and list ---------------------------------------------------------------------------------------

#[test]
fn a_seed_gives_one_job() {
    let bytes = |seed, i| gen::random(seed, i, 25, None, false).stream;
    if !REAL_MAP {
        (0..200).for_each(|i| assert_eq!(bytes(1, i), bytes(1, i)))
    }
    assert_ne!(bytes(1, 0), bytes(2, 0));
    assert_ne!(bytes(1, 0), bytes(1, 1));
}

#[test]
fn every_mark_and_answer_is_made() {
    let entries: Vec<_> = with_stack(|| made().iter().map(list::entry).collect());
    let counts = list::counts(&entries);
    let marks: BTreeSet<_> = counts.keys().map(|(m, _)| m.as_str()).collect();
    let all = [
        "BC", "CN", "FV", "IN", "JL", "JN", "KP", "MJ", "NC", "NV", "RD", "SC", "SD", "SN", "SU", "SV", "TS", "UF",
        "UL", "XP",
    ];
    assert_eq!(marks.into_iter().collect::<Vec<_>>(), all);
    for n in [0, 2, 3, 4] {
        assert!(counts[&("JN".to_string(), n)] > 20, "JN {}", n);
        assert!(counts[&("JL".to_string(), n)] > 20, "JL {}", n)
    }
    for n in 0..5 {
        assert!(counts[&("SU".to_string(), n)] > 20, "SU {}", n)
    }
    for n in [0, 9, 17] {
        assert!(counts[&("XP".to_string(), n)] > 2, "XP {}", n)
    }
}

#[test]
fn the_replay_list_is_core_rs_s() {
    let entries = list::parse(include_str!("../replay.list")).unwrap();
    assert_eq!(entries.len(), 180);
    assert!(list::counts(&entries).keys().all(|(_, n)| *n <= 4));
    if !REAL_MAP {
        entries.iter().for_each(|e| assert_eq!(log(&e.stream), e.log, "{}", e.name));
    }
    let again = list::parse(&list::print(&entries)).unwrap();
    let same = |(a, b): (&list::Entry, &list::Entry)| (&a.name, &a.stream, &a.log) == (&b.name, &b.stream, &b.log);
    assert!(entries.iter().zip(&again).all(same));
}

#[test]
fn map_order_changes_no_resolved_type() {
    let entries: Vec<_> = (0..500).map(|i| list::entry(&order::made(3, i))).collect();
    let counts = order::compare(&entries);
    assert_eq!(counts["jobs"], 500);
    let none = ["jobs of unequal length", "lines before SV that differ", "of these, resolved types differ"];
    for what in none.into_iter().chain(["of these, apart from locations"]) {
        assert_eq!(counts[what], 0, "{}", what)
    }
    assert_eq!(counts["of these, bytes differ"] > 0, REAL_MAP);
}

//---- text ------------------------------------------------------------------------------------------------------

#[test]
fn text_round_trip() {
    with_stack(|| {
        for m in made() {
            let text = disassemble(&m.stream);
            assert!(!text.contains("hex"), "{}", m.name);
            assert_eq!(text.lines().count(), m.outcomes.len(), "{}", m.name);
            assert_eq!(assemble(&text, false).as_deref(), Ok(&m.stream[..]), "{}", m.name);
        }
    })
}

#[test]
fn text_round_trip_of_spoilt_streams() {
    let mut chance = Chance::new(14, 0);
    for i in 0..3000 {
        let mut stream = gen::random(14, i, 8, None, false).stream;
        let at = chance.below(stream.len());
        match chance.below(3) {
            0 => stream[at] = chance.bits() as u8,
            1 => stream.truncate(at),
            _ => drop(stream.remove(at)),
        }
        let text = disassemble(&stream);
        assert_eq!(assemble(&text, false).as_deref(), Ok(&stream[..]), "{}", hex(&stream));
    }
}

#[test]
fn records_round_trip() {
    let m = gen::random(15, 0, 60, None, true);
    let (mut known, mut rest) = (oracle::text::any_variable(), &m.stream[..]);
    while !rest.is_empty() {
        let (r, n) = read_record(rest, &known).unwrap();
        assert_eq!(r.bytes(), &rest[..n]);
        if let Record::SD(_, params) = r {
            known.params.push(params.len())
        }
        rest = &rest[n..];
    }
}

//---- printer ------------------------------------------------------------------------------------------------------

#[test]
fn every_made_job_can_be_shown() {
    with_stack(|| {
        for m in made() {
            let e = list::entry(&m);
            let shown = show::Options { detail: Detail::Full, why: true, ..Default::default() };
            let (_, summary) = show(&e.stream, &e.log, shown);
            assert_eq!(summary.wrong, None, "{}", m.name);
        }
    })
}

//---- releases ------------------------------------------------------------------------------------------------------

/// the number of the first record that is not well, and its answer, of MJ that of its first pair that is not
fn first_fault(stream: &[u8]) -> Option<(usize, usize)> {
    let log = log(stream);
    let mut pairs = Pairs::new(stream, &log).map(|p| p.unwrap());
    let number = |p: &Pair| match &p.payload {
        Said::Pairs(all) => all.iter().map(Said::number).find(|n| *n > 0).unwrap_or(0),
        said => said.number(),
    };
    pairs.find(|p| !p.payload.is_well()).map(|p| (p.n, number(&p)))
}

/// What is told of a release is what core.rs's side says; 8, and 7 for nodes, it does not know.
#[test]
fn a_release_has_its_faults() {
    if REAL_MAP {
        return;
    }
    with_stack(|| {
        for f in release::release(7, 10) {
            let told = f.fault.as_ref().map(|t| (t.record, t.answer as usize));
            let found = first_fault(&f.stream);
            let uncounted = matches!((found, told), (None, Some((_, 8))) | (Some((_, 14)), Some((_, 7))));
            assert!(found == told || uncounted, "{}: {:?} {:?}", f.name, found, f.fault)
        }
    })
}

//---- R-4 ----------------------------------------------------------------------------------------------------------

/// a stream with every location field set to 0
fn blanked(m: &Made) -> Vec<u8> {
    let (mut out, mut known, mut rest) = (vec![], oracle::text::any_variable(), &m.stream[..]);
    while let Ok((r, n)) = read_record(rest, &known) {
        out.extend(blank_record(&rest[..n], &known.params));
        if let Record::SD(_, params) = r {
            known.params.push(params.len())
        }
        rest = &rest[n..];
    }
    out.extend(blank_record(rest, &known.params));
    out
}

#[test]
fn locations_decide_nothing() {
    with_stack(|| {
        for m in made().iter().filter(|m| !REAL_MAP || !disassemble(&m.stream).contains("SV")) {
            let (one, two) = (&m.stream, &blanked(m));
            match diff((one, &log(one)), (two, &log(two))) {
                Difference::None(_) => (),
                Difference::Found(what) => panic!("{}: {}", m.name, what),
                Difference::Misfit(_, what) => panic!("{}: {}", m.name, what),
            }
        }
    })
}
