//! Logs that are not their job's, told without running the job (src/fits.rs): for each record its own log, which fits,
//! and others, which do not.
use joblog::{pairs::Pairs, text::assemble};

/// what of the log does not fit
fn wrong(job: &str, log: &str) -> Option<String> {
    let job = assemble(job, false).unwrap();
    Pairs::of_log(&job, log).find_map(Result::err)
}

/// a line for each of these answers; of spaces, which are for the eye, only that behind the number stays
fn log(answers: &[&str]) -> String {
    let line = |(i, a): (usize, &&str)| match a.split_once(' ') {
        Some((number, payload)) => format!("{} {} {}\n", i, number, payload.replace(' ', "")),
        None => format!("{} {}\n", i, a),
    };
    answers.iter().enumerate().map(line).collect()
}

#[test]
fn a_join_without_variables_is_known() {
    for (job, own, others) in [
        (
            "JN u8@1, u8@2",
            "0 03020000000002",
            &["0 03010000000002", "0 03020000000003", "0", "4 01000000", "8", "10"][..],
        ),
        ("JN bool@1, bool@2", "0 03020000000006", &["0 03020000000002", "0 06020000000000"]),
        (
            "JN u8@1, bool@2",
            "2 0301000000000203020000000006",
            &["0 03020000000002", "2 0302000000000603010000000002", "3 0301000000000203020000000006", "10"],
        ),
        (
            "JN &mut@1 u8@2, &@3 u8@4",
            "0 010300000000 03040000000002",
            &[
                "0 010300000001 03040000000002",
                "0 010100000000 03040000000002",
                "1 0101000000010302000000000201030000000003040000000002",
            ],
        ),
        ("JN &@1 u8@2, &mut@3 u8@4", "0 010100000000 03040000000002", &["0 010300000000 03040000000002"]),
        (
            "SU &@1 u8@2, &mut@3 u8@4",
            "1 0101000000000302000000000201030000000103040000000002",
            &["0 01030000000103040000000002", "2 0101000000000302000000000201030000000103040000000002"],
        ),
        ("SU _@1, !@2", "0 0802000000", &["0 0701000000", "2 07010000000802000000"]),
        (
            "JN (u8@1, u8@2)@3, (u8@4,)@5",
            "3 0403000000000203010000000002030200000000020405000000000103040000000002",
            &["2 0403000000000203010000000002030200000000020405000000000103040000000002"],
        ),
        ("JN u8{drop}@1, u8@2", "10", &["0 03020000000002", "2 0301000000120203020000000002"]),
        ("JN P1@1, P1{copy}@2", "0 02020000000100000001", &["0 02010000000100000000"]),
    ] {
        assert_eq!(wrong(job, &log(&[own])), None, "{}", job);
        for other in others.iter() {
            assert!(wrong(job, &log(&[other])).is_some(), "{}: {}", job, other)
        }
    }
}

#[test]
fn other_records() {
    for (job, own, others) in [
        (
            "UF u8@1",
            "0 03010000000002",
            &["0 03020000000002", "0 03010000000006", "0", "2 0301000000000203010000000002", "11", "9"][..],
        ),
        ("RD vector<u8@1>@2", "0 0302000000000503010000000002", &["0 0302000000000503010000000006", "9", "14", "2"]),
        (
            "CN vector<u8@1>@2",
            "0 0300000000000503000000000002",
            &["0 0302000000000503010000000002", "0 0300000000000503000000000006", "9", "14", "2", "11"],
        ),
        (
            "TS [P1 = u8@1] vector<P1@2>@3",
            "0 0303000000000503010000000002",
            &["0 0303000000000503020000000002", "12", "13", "11"],
        ),
        ("TS [P1 = u8@1] P2@2", "12", &["0 02020000000200000000", "13", "0"]),
        ("TS [P1 = u8@1, P1 = u8@2] P1@3", "13", &["0 03010000000002", "12", "11"]),
        (
            "IN vector<u8@1>@2",
            "0 0302000000000506020000000000",
            &["0 0302000000000503010000000002", "0 0302000000000506020000000100", "11", "10"],
        ),
        ("RM vector<_@1>@2", "0 09000000020000000300000002000000", &["0 09000000020000000300000003000000", "11", "7"]),
        (
            "XP vector<u8@1>@2",
            "0 03020000001705 03010000001702",
            &[
                "0 03020000000005 03010000001702",
                "0 03020000001705 03010000001302",
                "0 03020000001305 03010000001702",
                "0 03020000001705 03010000001702 0501000000",
                "0 03020000001705 0801000000 0501000000",
                "9",
                "14",
                "17",
                "11",
            ],
        ),
        ("XP u8{drop}@1", "0 03010000001202", &["0 03010000001702", "17"]),
        ("XP (_@1, &@2 signer@3)@4", "0 04040000001302 0701000000 010200000000 03030000001201", &["17"]),
        ("XP (u8@1,){copy}@2", "17", &["0 04020000001101 03010000001702", "9", "14", "0"]),
        ("XP vector<(u8@1,){copy}@2>{copy}@3", "17", &["0 0303000000110504020000001101 03010000001702"]),
        ("SD {copy}", "0 0000", &["0 0100", "0", "7", "0 000000"]),
        ("FV @1", "0 06010000000000", &["0 06020000000000", "0 06010000000100", "0 03010000000002", "0", "7", "6"]),
        ("NC @1 numeric u8@2", "0", &["0 00", "1", "2"]),
        (
            "MJ join u8@1, u8@2; subtype &@3 u8@4, &mut@5 u8@6",
            "0 000700 03020000000002 011a00 0103000000000304000000000201050000000103060000000002",
            &[
                "0 000700 03010000000002 011a00 0103000000000304000000000201050000000103060000000002",
                "0 000700 03020000000002 000d00 01050000000103060000000002",
                "0 000700 03020000000002 0a0000",
                "0 000700 03020000000002",
                "0 000700 03020000000002 050000",
                "0",
                "2 0301000000000203020000000002",
                "14",
            ],
        ),
        ("MJ join u8@1, u8@2", "0 070000", &["10", "0 0e0000", "0 080000", "0 060000"]),
        ("MJ join u8@1, u8@2", "7", &["7 070000", "8"]),
        ("MJ join u8{drop}@1, u8@2", "0 0a0000", &["0 000700 03020000000002", "0 020e00 0301000000120203020000000002"]),
        ("SV", "0", &["0 01010000000301000000000600", "9", "16", "0 0101000000030100000000 06"]),
        ("RM &@1 &@2 u8@3", "18", &["5", "6", "0 00000000000000000000000000000000"]),
        ("UF V0@1", "6", &["5", "18", "0 0701000000", "0 06010000000000"]),
    ] {
        assert_eq!(wrong(job, &log(&[own])), None, "{}", job);
        for other in others {
            assert!(wrong(job, &log(&[other])).is_some(), "{}: {}", job, other)
        }
    }
}

/// the variables that a pair takes may be named after it
#[test]
fn pairs_take_variables() {
    let job = "FV @1\nFV @2\nMJ join V0@3, V1@4; join V0@5, u8@6\nUF V3@7";
    let after = |last: &str| {
        log(&["0 06010000000000", "0 06020000000100", "0 000700 06040000000200 000700 06060000000300", last])
    };
    assert_eq!(wrong(job, &after("0 03060000000002")), None);
    assert!(wrong(job, &after("6")).is_some());
    assert!(wrong(job, &after("0 03060000000002").replace("06060000000300", "0606000000ff04")).is_some());
}

/// 02's R-9: without variables no link is followed, and the number counts towards 14
#[test]
fn links_that_can_be_followed() {
    for (job, own, others) in [
        (
            "JL u8@1, u8@2",
            "0 0302000000000200000000",
            &["0 0302000000000201000000", "0 0301000000000200000000", "0 03020000000002", "14", "9"][..],
        ),
        (
            "JL u8@1, bool@2",
            "2 030100000000020302000000000600000000",
            &["2 030100000000020302000000000601000000", "0 0302000000000600000000", "14", "10"],
        ),
        ("JL u8{drop}@1, u8@2", "10", &["14", "0 0302000000000200000000"]),
        ("UL u8@1", "0 0301000000000200000000", &["0 0301000000000201000000", "0 03020000000002 00000000", "14", "9"]),
        ("FV @1\nUL V0@2", "0 070200000000000000", &["0 070200000001000000", "9", "8"]),
        ("FV @1\nJL V0@2, _@3", "0 0602000000000000000000", &["0 0602000000000001000000", "0 0702000000 00000000"]),
        ("FV @1\nJL V0@2, u8@3", "0 0602000000000000000000", &["0 06020000000000ffffffff"]),
    ] {
        let told = |answer: &str| {
            let fv = if job.starts_with("FV") { &["0 06010000000000"][..] } else { &[] };
            log(&[fv, &[answer]].concat())
        };
        assert_eq!(wrong(job, &told(own)), None, "{}", job);
        for other in others {
            assert!(wrong(job, &told(other)).is_some(), "{}: {}", job, other)
        }
    }
    // a chain is as long as there are variables before its end
    let job = "FV @1\nFV @2\nJN V0@3, V1@4\nUL V0@5";
    let chain = |links: &str| {
        let ul = format!("0 0705000000{}", links);
        log(&["0 06010000000000", "0 06020000000100", "0 06040000000200", &ul])
    };
    assert_eq!(wrong(job, &chain("01000000")), None);
    assert!(wrong(job, &chain("00040000")).is_some());
}

/// .. both types and the number in 4,096 bytes, and in 4,097
#[test]
fn the_longest_answers_with_links() {
    let list = |of: &[String]| format!("({})", of.join(", "));
    let eight = list(&vec!["P7".to_string(); 8]);
    let parts = [vec![list(&vec![eight.clone(); 8]); 5], vec![list(&vec![eight; 6]), "(P7, vector<()>)".into()]];
    for (other, long) in [("vector<()>", false), ("&u8", true)] {
        let job = format!("JL {}, {}", list(&parts.concat()), other);
        assert_eq!(assemble(&job, false).unwrap().len(), 2 + 4092 + long as usize);
        assert_eq!(wrong(&job, &log(&["14"])).is_none(), long)
    }
    for (part, long) in [("vector<()>", false), ("&u8", true)] {
        let job = format!("UL {}", list(&[list(&parts.concat()[..6]), "P7".into(), "vector<()>".into(), part.into()]));
        assert_eq!(assemble(&job, false).unwrap().len(), 2 + 4092 + long as usize);
        assert_eq!(wrong(&job, &log(&["14"])).is_none(), long)
    }
}

/// constraints on types that are no variables: each row must be there, in the order of the list, and no other
#[test]
fn rows_are_those_of_the_list() {
    let job = "NC @1 numeric bool@2\nBC @3 &@4 u8@5\nBC @6 u8@7\nSC @8 ()@9\nSV\nSV";
    let (one, two, three) =
        ("010100000003020000000006", "02030000000104000000 0003050000000002", "030800000000 09000000");
    let told =
        |rows: &[&str]| log(&["0", "0", "0", "0", format!("0 {}", rows.concat().replace(' ', "")).trim_end(), "0"]);
    // the `u8` at 7 is a base type, and 1 is NC's code alone
    assert_eq!(wrong(job, &told(&[one, two, three])), None);
    for rows in [&[][..], &[one], &[one, two], &[two, one, three], &[one, one, two, three], &[one, two, three, three]] {
        assert!(wrong(job, &told(rows)).is_some(), "{:?}", rows)
    }
    let row = "0 010100000003020000000006";
    let twice = "NC @1 numeric bool@2\nSV\nSV";
    assert_eq!(wrong(twice, &log(&["0", row, "0"])), None);
    assert!(wrong(twice, &log(&["0", row, row])).is_some());
}

/// FV tells how many variables are taken; a join of variables may take some, and what may not be taken is not shown
#[test]
fn variables_as_the_job_has_them() {
    let job = "FV @1\nFV @2\nJN V0@3, V1@4\nFV @5";
    let own = |join: &str, last: &str| log(&["0 06010000000000", "0 06020000000100", join, last]);
    assert_eq!(wrong(job, &own("0 06040000000200", "0 06050000000300")), None);
    assert!(wrong(job, &own("0 06040000000200", "0 06050000000200")).is_some());
    assert!(wrong(job, &own("0 0604000000ff04", "0 06050000000300")).is_some());
    assert!(wrong("FV @1\nFV @2", &log(&["0 06010000000000", "0 06020000000200"])).is_some());
    assert!(wrong("FV @1\nUF V0@2", &log(&["0 06010000000000", "0 06020000000100"])).is_some());
    assert!(wrong("UF V0@2", &log(&["0 0702000000"])).is_some());
    // a spelling has numbers and no variables, yet no more of them than there are
    let spelled = |payload: &str| log(&["0 06010000000000", "0 06020000000100", payload, "0 06050000000200"]);
    let job = "FV @1\nFV @2\nCN (V1@3,)@4\nFV @5";
    assert_eq!(wrong(job, &spelled("0 0400000000000106000000000000")), None);
    assert!(wrong(job, &spelled("0 0400000000000106000000000100")).is_some());
    let three = "0400000000000106000000000000"
        .replace("06000000000000", "040000000000030600000000000006000000000100060000000002 00");
    assert!(wrong(job, &spelled(&format!("0 {}", three.replace(' ', "")))).is_some());
    // an answer that is 6 names the first variable that is not taken
    assert_eq!(wrong("FV @1\nUF V1@2", &log(&["0 06010000000000", "6"])), None);
    assert!(wrong("FV @1\nUF V0@2", &log(&["0 06010000000000", "6"])).is_some());
}
