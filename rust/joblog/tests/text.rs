//! Text to bytes, and a job with its log for people.
use joblog::{
    diff::{diff, Difference},
    location::{blank_payload, blank_record},
    names::Book,
    payload,
    record::{read_record, unhex, Known, Record},
    show::{show, Options},
    text::{any_variable, assemble, disassemble, Detail},
};

fn asm(text: &str) -> Vec<u8> {
    assemble(text, true).unwrap()
}

#[test]
fn text_that_is_no_job_is_refused() {
    let lines = [
        "XX u8",
        "JN u8",
        "JN u8 u8",
        "JN u8, u8, u8",
        "UF (u8)",
        "UF vector",
        "UF u8<u8>",
        "UF V70000",
        "UF Q1",
        "UF u8{fly}",
        "UF (_, _, _, _, _, _, _, _, _)",
        "SN u8",
        "NC often u8",
        "TS P1 = u8 u8",
        "SD copy",
        "hex 0",
        "UF &muty",
        "FV @4294967296",
        "SD {} <{}, {}>\nUF S0<u8>",
    ];
    for line in lines {
        assert!(assemble(line, false).is_err(), "{}", line)
    }
    assert_eq!(assemble("SV\n\n  UF  Q1", false), Err("line 3: a type is wanted at `Q1`".into()));
    assert!(assemble(&format!("UF {}u8", "&".repeat(1_000_000)), false).is_err());
}

/// 02's R-7
#[test]
fn how_wide_a_literal_is() {
    let bytes = assemble("NL @1 9\nNL 256", false).unwrap();
    assert_eq!(bytes, b"NL\x01\0\0\0\x09\0NL\0\0\0\0\0\x01");
    assert_eq!(disassemble(&bytes), "NL @1 9\nNL 256\n");
    assert_eq!(blank_record(&bytes[..8], &[]), b"NL\0\0\0\0\x09\0");
    // read when both bytes are there
    for text in ["NL @1 0", "NL @1 257", "NL @1 65535"] {
        let bytes = assemble(text, false).unwrap();
        let told = |n| read_record(&bytes[..n], &any_variable()).map_err(|x| (x.number, x.at)).err();
        assert_eq!((told(8), told(7)), (Some((5, 6)), Some((5, 7))), "{}", text)
    }
    assert!(["NL @1", "NL @1 65536", "NL @1 nine"].iter().all(|text| assemble(text, false).is_err()))
}

/// 02's R-8
#[test]
fn pairs_of_one_record() {
    let text = "FV @1\nMJ join V0@2, u8@3; subtype &@5 u8@6, &mut@7 u8@8; join V0@9, u8@10\n";
    let job = assemble(text, false).unwrap();
    assert_eq!((job[6..10].to_vec(), disassemble(&job)), (b"MJ\x03\0".to_vec(), text.to_string()));
    assert_eq!(assemble(&(text.trim_end().to_string() + ";"), false), Ok(job.clone()));
    let payload = "000700 06020000000000 011a00 0105000000000306000000000201070000000103080000000002 0a0000";
    let log = format!("0 0 06010000000000\n1 0 {}\n", payload.replace(' ', ""));
    let (lines, summary) = show(&job, &log, Options::default());
    let record = "MJ  join V0, u8; subtype &u8, &mut u8; join V0, u8";
    let told = "pair 0 typed V0; pair 1 subtype error: &u8 where &mut u8 is wanted; pair 2 abilities disagree";
    assert_eq!(lines.lines().last().unwrap(), format!("1 {}   → typed; {}", record, told));
    let wanted = "2 records; 0 typed: 2; failed pairs: 2; first error: record 1, subtype error";
    assert_eq!((summary.text(), summary.code()), (wanted.into(), 1));
    // locations of the record, and of its payload pair by pair: 4's is a location, 10 shows nothing
    let (blank, hex) =
        (text.replace(['1', '2', '3', '5', '6', '7', '9'], "0").replace("u8@8", "u8@0"), |h| unhex(h).unwrap());
    let blank = assemble(&blank.replace("@00", "@0"), false).unwrap();
    assert_eq!(blank_record(&job[6..], &[]), blank[6..]);
    let told = hex(
        "000700 06020000000000 0a0000 040400 09000000 011a00 01050000000003060000000002 01070000000103080000000002",
    );
    let none = hex(
        "000700 06000000000000 0a0000 040400 00000000 011a00 01000000000003000000000002 01000000000103000000000002",
    );
    assert_eq!(blank_payload(&job[6..], 0, &told, &[]), none)
}

/// .. and which of its bytes are none: 5 where the count or a pair's byte stands, or where the bytes end
#[test]
fn pairs_that_cannot_be_read() {
    let at = |text: &str, cut: usize| {
        let bytes = assemble(text, false).unwrap();
        read_record(&bytes[..bytes.len() - cut], &any_variable()).map_err(|x| (x.number, x.at)).err()
    };
    let many = |n: usize| "MJ ".to_string() + &vec!["join (), ()"; n].join("; ");
    assert_eq!((at("MJ", 0), at("MJ", 1), at(&many(16), 0)), (Some((5, 2)), Some((5, 2)), Some((5, 2))));
    assert_eq!((at(&many(1), 0), at(&many(15), 0), at(&many(15), 1)), (None, None, Some((5, 2 + 1 + 15 * 11 - 1))));
    assert_eq!(at("hex 4d4a 01 02 0000000000 0000000000", 0), Some((5, 3)));
    assert_eq!(at("hex 4d4a 02 00 0000000000 0000000000 02", 0), Some((5, 14)));
    for text in ["MJ u8, u8", "MJ join u8", "MJ meet u8, u8", "MJ join u8, u8, u8", "MJ join u8, u8 subtype u8, u8"] {
        assert!(assemble(text, false).is_err(), "{}", text)
    }
    assert!(assemble(&many(255), false).is_ok() && assemble(&many(256), false).is_err())
}

/// 02's R-9: 02's worked values, shown and held beside one another
#[test]
fn how_many_links_are_followed() {
    let text = "FV\nFV\nFV\nJL V0, V1\nJL V1, V2\nUL V0\nJL V0, bool\nJL V2, u8\nUL V0\nUL (V0,)\n";
    let (job, rest) = (assemble(text, false).unwrap(), "UL (V0,)@4\nJL &mut@1 _@2, P7@3\n");
    assert_eq!(disassemble(&job), text);
    assert_eq!(disassemble(&assemble(rest, false).unwrap()), rest);
    let log = "0 0 06000000000000\n1 0 06000000000100\n2 0 06000000000200\n3 0 0600000000030000000000\n\
        4 0 0600000000040001000000\n5 0 070000000002000000\n6 0 0600000000060002000000\n\
        7 2 030000000000060300000000000202000000\n8 0 0300000000000603000000\n9 0 040000000000010600000000000000000000\n";
    let (lines, summary) = show(&job, log, Options::default());
    let wanted = "3 JL  V0  ~  V1   → typed V3; links: 0\n4 JL  V1  ~  V2   → typed V4; links: 1\n\
        5 UL  V0   → typed _; links: 2\n6 JL  V0  ~  bool   → typed V6; links: 2\n\
        7 JL  V2  ~  u8   → incompatible: bool and u8; links: 2\n8 UL  V0   → typed bool; links: 3\n\
        9 UL  (V0,)   → typed (V0,); links: 0\n";
    assert_eq!(lines.split_inclusive('\n').skip(3).collect::<String>(), wanted);
    assert_eq!((summary.code(), summary.wrong), (1, None));
    // another number of links is a difference, wherever the record stands
    assert!(matches!(diff((&job, log), (&job, log)), Difference::None(10)));
    let other = log.replace("8 0 0300000000000603000000", "8 0 0300000000000602000000");
    let Difference::Found(found) = diff((&job, log), (&job, &other)) else { panic!("no difference") };
    assert!(found.to_string().contains("links: 3") && found.to_string().contains("links: 2"), "{}", found)
}

/// .. their locations are JN's and UF's, and a byte of the number is taken for none and for no tag
#[test]
fn links_are_no_locations() {
    let blanked = |text: &str, number, payload: &str| {
        blank_payload(&assemble(text, false).unwrap(), number, &unhex(payload).unwrap(), &[])
    };
    for (text, number, payload, plain) in [
        ("UL V0@9", 0, "0601020304 0000 01020304", "0600000000 0000 01020304"),
        ("UL V0@9", 0, "0701020304 06010203", "0700000000 06010203"),
        ("JL V0@9, V1@8", 0, "0301020304 0002 03010000", "0300000000 0002 03010000"),
        ("JL V0@9, V1@8", 2, "0001020304 0801020304 05060708", "0000000000 0800000000 05060708"),
        ("JL V0@9, V1@8", 4, "01020304 05060708", "00000000 05060708"),
        ("JN V0@9, V1@8", 2, "0001020304 0801020304 0506070809", "0000000000 0800000000 0500000000"),
        ("JL V0@9, V1@8", 7, "", ""),
        ("JL V0@9, V1@8", 0, "010203", "010203"),
    ] {
        assert_eq!(blanked(text, number, payload), unhex(plain).unwrap(), "{}", text)
    }
    let record = |text: &str| blank_record(&assemble(text, false).unwrap(), &[]);
    assert_eq!(record("JL V0@9, &@8 u8@7"), assemble("JL V0, &u8", false).unwrap());
    assert_eq!(record("UL V0@9"), assemble("UL V0", false).unwrap())
}

#[test]
fn every_stream_has_a_text() {
    for stream in [&b"XX"[..], b"", b"UF", b"UF\x09", b"UF\x01\0\0\0\0\x02", b"SVSV\x80", &[0xff; 5000]] {
        assert_eq!(assemble(&disassemble(stream), false).as_deref(), Ok(stream))
    }
    let doubled = asm("FV\nUF &mut &u8");
    assert_eq!(assemble(&disassemble(&doubled), false), Ok(doubled))
}

/// 02's R-6: in a payload they may stand, in a record they are 18
#[test]
fn doubled_references() {
    let job = asm("FV\nRD V0\nSU &vector<&u8>, &mut &u8\nFV");
    let log = "0 0 06010000000000\n1 0 01050000000001060000000103070000000002\n2 18\n";
    let (lines, summary) = show(&job, log, Options::default());
    assert_eq!(lines, "0 FV   → typed V0\n1 RD  V0   → typed &&mut u8\n2 (not read)   → doubled reference\n");
    let wanted = "3 records; 0 typed: 2, 18 doubled reference: 1; first error: record 2, doubled reference";
    assert_eq!((summary.text(), summary.code()), (wanted.into(), 1));
}

/// 02's R-1: code 4, by the declaration and by an argument
#[test]
fn missing_abilities() {
    let job = asm("SD {}<{copy}>\nIN S0<vector<signer>>\nIN S0<signer>\nSV\nSV");
    let log = "0 0 0000\n1 0 050300000000000006020000000000\n2 0 050500000000000006040000000200\n\
        3 0 040300000001030200000000050601000000010002000405000000010304000000000101\n4 0\n";
    let (lines, summary) = show(&job, log, Options::default());
    let told =
        "vector<V1> lacks copy by its argument 0 (constraint @3); signer lacks copy by its declaration (constraint @5)";
    assert_eq!(lines.lines().nth(3).unwrap(), format!("3 SV   → typed; failed: {}", told));
    assert_eq!(lines.lines().nth(4).unwrap(), "4 SV   → typed");
    let counts = "5 records; 0 typed: 5; failed constraints: 2";
    assert_eq!(summary.text(), format!("{}; first error: record 3, failed constraints", counts));
    assert_eq!(summary.code(), 1)
}

/// .. and payloads that are none of code 4
#[test]
fn no_missing_ability() {
    let told = |payload: &str| {
        let bytes = unhex(payload).unwrap();
        payload::read(&Record::SV, 0, &bytes, &any_variable()).map_or(2, |_| 0)
    };
    let row = "0401000000 01 03020000000001";
    assert_eq!(told(&format!("{}01", row).replace(' ', "")), 0);
    assert_eq!(told(&format!("{}0207", row).replace(' ', "")), 0);
    // no rule, two that are none, no place, a second row that is cut, a code that is none
    for wrong in ["", "00", "03", "02", "0104", "0105"] {
        assert_eq!(told(&format!("{}{}", row, wrong).replace(' ', "")), 2, "{}", wrong)
    }
    // cut, no ability, two of them, no type
    for wrong in ["0401000000", "0401000000000302000000000101", "0401000000030302000000000101", "040100000001"] {
        assert_eq!(told(wrong), 2, "{}", wrong)
    }
}

/// 01's seven, then 02's three
#[test]
fn builtins_by_number() {
    let names = ["address", "signer", "u8", "u64", "u128", "vector<()>", "bool", "u16", "u32", "u256"];
    for (n, name) in names.into_iter().enumerate() {
        let text = format!("UF {}\n", name);
        let stream = assemble(&text, false).unwrap();
        assert_eq!((stream[8] as usize, disassemble(&stream)), (n, text));
        let payload: String = stream[2..].iter().map(|b| format!("{:02x}", b)).collect();
        let (lines, _) = show(&stream, &format!("0 0 {}\n", payload), Options::default());
        assert!(lines.contains(&format!("typed {}", name)), "{}", lines)
    }
}

const JOB: &str = "FV\nJN V0, vector<u64>\nSU &u8, &mut u8\nJN (u8, bool), (u8,)\nSC ()\nSV\nJN (), _";
/// core.rs's
const LOG: &str = "\
0 0 06010000000000
1 0 06020000000000
2 1 0105000000000306000000000201070000000103080000000002
3 3 040b000000000203090000000002030a0000000006040d0000000001030c0000000002
4 0
5 0 030e000000000f000000
6 0 0010000000
";

#[test]
fn what_in_would_take() {
    let job = asm("RM (_, vector<u8>)\nRM &u8");
    let log = "0 0 0f000000060000000500000006000000\n1 0 04000000000000000000000001000000\n";
    let wanted = "\
0 RM  (_, vector<u8>)   → typed 15 nodes, 6 places, 5 variables, 6 constraints
1 RM  &u8   → typed 4 nodes, 0 places, 0 variables, 1 constraints
";
    assert_eq!(show(&job, log, Options::default()).0, wanted)
}

#[test]
fn a_type_as_it_is_in_the_end() {
    let job = asm("FV\nXP vector<V0>\nXP u8\nXP (u8,){copy}");
    let log = "0 0 06010000000000\n1 0 0303000000170508020000000502000000\n2 0 03040000001702\n3 17\n";
    let wanted = "\
0 FV   → typed V0
1 XP  vector<V0>   → typed vector<!>; not inferred: @2
2 XP  u8   → typed u8
3 XP  (u8,)   → already expanded
";
    let (lines, summary) = show(&job, log, Options::default());
    assert_eq!(lines, wanted);
    let counts = "4 records; 0 typed: 3, 17 already expanded: 1; not inferred: 1";
    assert_eq!(summary.text(), format!("{}; first error: record 1, a type that is not inferred", counts))
}

#[test]
fn a_job_and_its_log_for_people() {
    let (lines, summary) = show(&asm(JOB), LOG, Options::default());
    let wanted = "\
0 FV   → typed V0
1 JN  V0  ~  vector<u64>   → typed V0
2 SU  &u8  <:  &mut u8   → subtype error: &u8 where &mut u8 is wanted
3 JN  (u8, bool)  ~  (u8,)   → arity mismatch: (u8, bool) and (u8,)
4 SC  ()   → typed
5 SV   → typed; failed: () is no single type (constraint @14)
6 JN  ()  ~  _   → typed ()
";
    assert_eq!(lines, wanted);
    let counts = "7 records; 0 typed: 5, 1 subtype error: 1, 3 arity mismatch: 1; failed constraints: 1";
    let wanted = format!("{}; first error: record 2, subtype error", counts);
    assert_eq!((summary.text(), summary.code()), (wanted.clone(), 1));

    let line = |i: usize| format!("{}\n", lines.lines().nth(i).unwrap());
    let shown = |errors, n| show(&asm(JOB), LOG, Options { errors, lines: n, ..Default::default() });
    assert_eq!(shown(true, 9).0, line(2) + &line(3) + &line(5));
    assert_eq!(shown(true, 1).0, line(2));
    assert_eq!(shown(false, 2).0, line(0) + &line(1));
    assert_eq!(shown(true, 0).1.text(), wanted)
}

#[test]
fn a_log_that_does_not_fit_is_told_once() {
    let stream = asm("FV\nUF V0");
    let summary = |log: &str| {
        let s = show(&stream, log, Options::default()).1;
        (s.text(), s.code())
    };
    assert_eq!(summary("0 0 06010000000000\n1 0 0702000000\n"), ("2 records; 0 typed: 2; no error".into(), 0));
    let misfit = |counts: &str, what: &str| (format!("{}; the log does not fit the job: {}", counts, what), 2);
    let one = "1 records; 0 typed: 1";
    let two = "2 records; 0 typed: 2";
    for (log, counts, what) in [
        ("", "0 records", "it is too short: no line for record 0 and those after it"),
        ("0 0 06010000000000\n", one, "it is too short: no line for record 1 and those after it"),
        ("0 0 06010000000000\n1 0 0702000000\n2 0\n", two, "it has more lines than the job has records"),
        (
            "0 0 0601\n1 0 0702000000\n",
            "0 records",
            "record 0: its payload has no type where one belongs: byte 2 of that, the bytes end inside the record",
        ),
        ("1 0\n", "0 records", "record 0: `1 0` is not its line"),
        ("0 5\n", "0 records", "record 0 is not one that is answered with 5"),
        ("0 99\n", "0 records", "record 0: there is no answer 99"),
        ("0 7 00\n", "0 records", "record 0: its payload has 1 bytes too many"),
    ] {
        assert_eq!(summary(log), misfit(counts, what), "{}", log)
    }
    assert_eq!(show(&[], "", Options::default()).1.text(), "0 records; no error")
}

#[test]
fn why_a_record_is_not_read() {
    let why = |text: &str, log: &str| {
        let (lines, summary) = show(&asm(text), log, Options { why: true, ..Default::default() });
        assert_eq!(summary.wrong, None);
        lines.lines().last().unwrap().trim().to_string()
    };
    let first = [
        ("hex 5858", 5, "byte 0 (58; byte 0 of the job): no record has this mark"),
        ("hex 55", 5, "byte 1 (byte 1 of the job): the bytes end inside the record"),
        ("hex 5546 09", 5, "byte 2 (09; byte 2 of the job): a type's tag is 0 to 8"),
        ("hex 5546 01 00000000 02", 5, "byte 7 (02; byte 7 of the job): mutable is 0 or 1"),
        ("hex 5546 03 00000000 01", 5, "byte 7 (01; byte 7 of the job): an ability mark is 0, or 16 plus a set"),
        ("hex 5546 03 00000000 10 02", 5, "byte 8 (02; byte 8 of the job): an integer type's ability mark has drop"),
        ("hex 5546 03 00000000 11 09", 5, "byte 8 (09; byte 8 of the job): an integer type's ability mark has drop"),
        ("hex 5546 03 00000000 00 0a", 5, "byte 8 (0a; byte 8 of the job): no builtin has this number"),
        ("hex 5546 04 00000000 00 09", 5, "byte 8 (09; byte 8 of the job): a list has at most 8 parts"),
        ("hex 5346", 5, "byte 0 (53; byte 0 of the job): no record has this mark"),
        ("hex 5344 10", 5, "byte 2 (10; byte 2 of the job): a set of abilities is 0 to 15"),
        ("hex 5344 00 09", 5, "byte 3 (09; byte 3 of the job): a struct has at most 8 parameters"),
        ("hex 5344 00 01 20", 5, "byte 4 (20; byte 4 of the job): a parameter byte is 0 to 31"),
        ("hex 5453 09", 5, "byte 2 (09; byte 2 of the job): TS lists at most 8 parameters"),
        ("hex 4e43 00000000 03", 5, "byte 6 (03; byte 6 of the job): a numeric constraint's kind is 0 to 2"),
        ("UF S0", 6, "byte 8 (00; byte 8 of the job): this struct is not declared"),
        ("UF V0", 6, "byte 7 (00; byte 7 of the job): this variable is not taken yet"),
        ("UF &&u8", 18, "byte 8 (01; byte 8 of the job): a reference stands directly under a reference"),
        (
            "hex 5546 01 00000000 01 01",
            18,
            "byte 8 (01; byte 8 of the job): a reference stands directly under a reference",
        ),
        ("hex 5546 01 00000000 01", 5, "byte 8 (byte 8 of the job): the bytes end inside the record"),
        ("hex 5546 01 00000000 01 09", 5, "byte 8 (09; byte 8 of the job): a type's tag is 0 to 8"),
    ];
    for (text, number, wanted) in first {
        assert_eq!(why(text, &format!("0 {}\n", number)), wanted, "{}", text)
    }
    let deep = |n: usize, inner: &str| format!("UF {}{}{}", "vector<".repeat(n), inner, ">".repeat(n));
    let too_deep =
        |at: usize, b: &str| format!("byte {} ({}; byte {} of the job): types nest at most 64 deep", at, b, at);
    assert_eq!(why(&deep(64, "u8"), "0 5\n"), too_deep(450, "03"));
    // a reference at nesting 63 and at 64 over another
    let doubled = "byte 442 (01; byte 442 of the job): a reference stands directly under a reference";
    assert_eq!(why(&deep(62, "&&u8"), "0 18\n"), doubled);
    assert_eq!(why(&deep(63, "&&u8"), "0 5\n"), too_deep(449, "01"));
    let long = format!("UF {}", ["(", &["(_, _, _, _, _, _, _, _)"; 8].join(", "), ")"].concat());
    let long = long.replace('_', "(P1, P1, P1, P1, P1, P1, P1, P1)");
    let wanted = "byte 4096 (00; byte 4096 of the job): a record has at most 4,096 bytes";
    assert_eq!(why(&long, "0 5\n"), wanted);
    // how many variables a join took the log does not tell: V2 is taken, of V3 and V4 it is not known
    let not_taken = |at: usize, b: &str| {
        format!("byte {} ({}; byte {} of the job): this variable is not taken yet", at, b, at + 28)
    };
    let wanted = format!("the first of these that is so: {}; or {}", not_taken(15, "03"), not_taken(22, "04"));
    let log = "0 0 06010000000000\n1 0 06020000000100\n2 0 06040000000200\n3 6\n";
    assert_eq!(why("FV\nFV\nJN V0, V1\nTS [] (V3, V4)", log), wanted)
}

#[test]
fn locations_are_no_difference() {
    let side = |text: &str, log: &str| (assemble(text, false).unwrap(), log.to_string());
    let found = |a: &(Vec<u8>, String), b: &(Vec<u8>, String)| match diff((&a.0, &a.1), (&b.0, &b.1)) {
        Difference::None(n) => format!("none of {}", n),
        Difference::Found(what) => what.to_string(),
        Difference::Misfit(i, what) => format!("{}: {}", i, what),
    };
    let a = side("FV @1\nUF V0 @2", "0 0 06010000000000\n1 0 0702000000\n");
    let b = side("FV @7\nUF V0 @8", "0 0 06070000000000\n1 0 0708000000\n");
    assert_eq!(found(&a, &b), "none of 2");
    let c = side("FV @7\nUF V0 @8", "0 0 06070000000000\n1 0 0808000000\n");
    assert_eq!(found(&a, &c), "record 1: the answers differ\n  1: 0 typed _@2\n  2: 0 typed !@8");
    let d = side("FV @7\nUF _ @8", "0 0 06070000000000\n1 0 0708000000\n");
    assert_eq!(found(&a, &d), "record 1: the records differ\n  1: UF  V0@2\n  2: UF  _@8");
    let e = side("FV @7", "0 0 06070000000000\n");
    assert_eq!(found(&a, &e), "record 1: job 1 has it, job 2 has ended");
    assert_eq!(found(&e, &a), "record 1: job 2 has it, job 1 has ended");
    let g = |locations: &str| side(&format!("SV\nUF &mut{} &u8", locations), "0 0\n1 18\n");
    assert_eq!(found(&g("@1"), &g("@2")), "none of 2");
    // code 4, by its declaration, by an argument, and a row behind them: ability, rule and place are no locations
    let h = |at: &str, rest: &str| {
        let row =
            format!("04{0}01 03{0}0001 01 04{0}08 03{0}0005 06{0}0100 {1} 02{0} 08{0}", at, rest).replace(' ', "");
        blank_payload(b"SV", 0, &unhex(&row).unwrap(), &[])
    };
    assert_eq!(h("01000000", "0203"), h("09080706", "0203"));
    assert_ne!(h("01000000", "0203"), h("01000000", "0204"));
    assert_ne!(h("01000000", "0203"), h("01000000", "01"));
    // a type, then codes: a code's 5 is no struct's tag
    let x = |at: &str, rest: &str| {
        let bytes = format!("03{0}1705 08{0} 05{0} 05{0}{1}", at, rest).replace(' ', "");
        blank_payload(b"XP", 0, &unhex(&bytes).unwrap(), &[])
    };
    assert_eq!(x("01000000", ""), x("09080706", ""));
    assert_ne!(x("01000000", ""), x("01000000", "0501000000"));
    let f = side("FV @7\nFV", "0 0 06070000000000\n");
    assert_eq!(found(&a, &f), "2: it is too short: no line for record 1 and those after it");
}

/// What follows an answer 5, 6 or 18 is never read, so it makes no difference, and a difference before it does.
#[test]
fn what_is_never_read_is_no_difference() {
    let found = |a: &str, b: &str, log: &str| {
        let (a, b) = (assemble(a, false).unwrap(), assemble(b, false).unwrap());
        match diff((&a, log), (&b, log)) {
            Difference::None(n) => format!("none of {}", n),
            Difference::Found(what) => what.to_string().lines().next().unwrap().into(),
            Difference::Misfit(i, what) => format!("{}: {}", i, what),
        }
    };
    let log = "0 0 06000000000000\n1 6\n";
    let one = |at: &str| format!("FV\nJN V9{0}, u8{0}\nUF u8{0}", at);
    assert_eq!(found(&one("@1"), &one("@2"), log), "none of 2");
    assert_eq!(found(&one("@1"), "FV\nJN V9, u8", log), "none of 2");
    assert_eq!(found(&one("@1"), "FV\nJN V9, bool\nFV", log), "none of 2");
    assert_eq!(found(&one("@1"), "FV\nJN V8, u8", log), "record 1: the records differ");
    assert_eq!(found(&one("@1"), "FV\nSU V9, u8", log), "record 1: the records differ");
    let log = "0 18\n";
    assert_eq!(found("UF &@1 &@2 u8@3\nFV @4", "UF &@5 &@6 u8@7\nNV", log), "none of 1");
    assert_eq!(found("UF &@1 &@2 u8@3", "UF &mut &u8", log), "record 0: the records differ");
    let log = "0 5\n";
    assert_eq!(found("hex 5546 01 00000000 02 03", "hex 5546 01 09000000 02 00", log), "none of 1");
    assert_eq!(found("hex 5546 01 00000000 02", "hex 5546 01 00000000 03", log), "record 0: the records differ");
    assert_eq!(found("hex 5546", "hex 5546 09", log), "record 0: the records differ")
}

/// each kind of the names that docs/RECORDS.md shows
#[test]
fn numbers_by_their_names() {
    let part = include_str!("../../../docs/RECORDS.md").split("## Names for a job's numbers").nth(1).unwrap();
    let shown = part.lines().skip_while(|l| !l.starts_with("    ")).map_while(|l| l.strip_prefix("    "));
    let (book, told) = Book::of(&shown.map(|l| format!("{}\n", l)).collect::<String>());
    assert_eq!(told, []);
    let job = assemble("FV\nFV\nFV\nFV\nSD {}<{copy}>\nJN V3@1, S0<P7@236>@5", false).unwrap();
    let taken: String = (0..4).map(|v| format!("{} 0 06000000000{}00\n", v, v)).collect();
    let log = taken + "4 0 0000\n5 0 06010000000300\n";
    let last = |name: &str, detail| {
        let (lines, summary) = show(&job, &log, Options { detail, names: book.job(name), ..Options::default() });
        assert_eq!(summary.code(), 0, "{}", summary.text());
        lines.lines().last().unwrap().to_string()
    };
    let full = "5 JN  V3 (coin)@1  ~  0xA::receipt::Receipt<T@receipt.move:41:9>@5   → typed V3 (coin)@1";
    assert_eq!(last("receipt/new", Detail::Full), full);
    assert_eq!(last("receipt/old", Detail::Types), "5 JN  V3  ~  0xA::receipt::Receipt<T>   → typed V3");
    // the numbers in a spelling are no variables, so V3's name is not V0's or theirs
    let job = assemble("FV\nFV\nFV\nFV\nSD {}<{copy}>\nCN (V3@1, S0<P7@236>@5, V0, V1, V2)", false).unwrap();
    let log = log[..4 * "0 0 06000000000000\n".len()].to_string()
        + "4 0 0000\n5 0 0400000000000506000000000000"
        + "050000000000000002000000000700000000"
        + "060000000001000600000000020006000000000300\n";
    let (lines, summary) = show(&job, &log, Options { names: book.job("receipt/new"), ..Options::default() });
    assert_eq!(summary.code(), 0, "{}", summary.text());
    let wanted =
        "5 CN  (V3 (coin), 0xA::receipt::Receipt<T>, V0, V1, V2)   → typed (V0, 0xA::receipt::Receipt<T>, V1, V2, V3)";
    assert_eq!(lines.lines().last(), Some(wanted))
}

/// 02's R-11, its first worked value: old and new numbers, and from there on the new ones
#[test]
fn what_is_kept_and_under_which_number() {
    let text = "FV @1\nFV @2\nFV @3\nNV @4\nJN V2@5, vector<V3@6>@7\nJN V1@8, u8@9\nKP V2\nRD V0@10\nFV @11\n";
    let job = assemble(text, false).unwrap();
    assert_eq!(disassemble(&job), text);
    let log = "0 0 06010000000000\n1 0 06020000000100\n2 0 06030000000200\n3 0 06040000000300\n4 0 06050000000200\n\
        5 0 06080000000100\n6 0 0200000003000100\n7 0 030700000000 05 06060000000100\n8 0 060b0000000200\n";
    let log = log.replace("00 05 06", "000506");
    let (book, _) = Book::of("V 0 x\nV 2 coin\nV 3 y\n");
    let (lines, summary) = show(&job, &log, Options { names: book.job("any"), ..Options::default() });
    let wanted = "4 JN  V2 (coin)  ~  vector<V3 (y)>   → typed V2 (coin)\n5 JN  V1  ~  u8   → typed V1\n\
        6 KP  V2 (coin)   → typed; V2 (coin) is now V0, V3 (y) is now V1\n7 RD  V0   → typed vector<V1>\n\
        8 FV   → typed V2\n";
    assert_eq!(lines.split_inclusive('\n').skip(4).collect::<String>(), wanted);
    assert_eq!((summary.code(), summary.wrong), (0, None));
    // another variable that stays is a difference, and no location is in it
    assert!(matches!(diff((&job, &log), (&job, &log)), Difference::None(9)));
    let other = (text.replace("KP V2", "KP V2, V1"), log.replace("0200000003000100", "010000000200010003000200"));
    let other = (
        assemble(&other.0, false).unwrap(),
        other.1.replace("0600000001", "0600000002").replace("b0000000200", "b0000000300"),
    );
    let Difference::Found(found) = diff((&job, &log), (&other.0, &other.1)) else { panic!("no difference") };
    assert!(found.to_string().contains("KP  V2, V1"), "{}", found);
    let plain = assemble("KP V258", false).unwrap();
    assert_eq!((blank_record(&plain, &[]), blank_payload(&plain, 0, &[1, 1, 0, 0], &[])), (plain, vec![1, 1, 0, 0]));
    // none
    let (none, log) = (assemble("FV\nKP\nFV", false).unwrap(), "0 0 06000000000000\n1 0\n2 0 06000000000000\n");
    assert_eq!((&none[6..9], disassemble(&none)), (&b"KP\0"[..], "FV\nKP\nFV\n".into()));
    assert!(show(&none, log, Options::default()).0.contains("\n1 KP   → typed; no variable stays\n2 FV   → typed V0\n"))
}

/// .. 5 where the bytes end, 6 at a variable that is not taken, which is met by place
#[test]
fn a_list_that_cannot_be_read() {
    let known = |vars| Known { vars, params: vec![] };
    let at =
        |digits: &str, vars| read_record(&unhex(digits).unwrap(), &known(vars)).map_err(|x| (x.number, x.at)).err();
    assert_eq!((at("4b50", 9), at("4b5001", 9), at("4b500100", 9)), (Some((5, 2)), Some((5, 3)), Some((5, 4))));
    assert_eq!(
        (at("4b500108", 9), at("4b5002 0800 09", 9), at("4b5002 0900 09", 9)),
        (Some((5, 4)), Some((5, 6)), Some((6, 3)))
    );
    assert_eq!((at("4b5002 0800 0800", 9), at("4b5002 0800 0900", 9), at("4b5000", 0)), (None, Some((6, 5)), None));
    let many = |n: usize, last: &str| format!("KP {}, {}", vec!["V1"; n - 1].join(", "), last);
    let bytes = assemble(&many(255, "V2"), false).unwrap();
    assert_eq!((bytes.len(), read_record(&bytes, &known(3)).unwrap().1), (513, 513));
    assert_eq!(read_record(&bytes, &known(2)).map_err(|x| (x.number, x.at)).err(), Some((6, 511)));
    assert!(assemble(&many(256, "V2"), false).is_err());
    for text in ["KP u8", "KP V0 V1", "KP 0", "KP V70000", "KP @1"] {
        assert!(assemble(text, false).is_err(), "{}", text)
    }
}
