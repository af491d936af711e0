//! What one answer says, by mark and number, and what is no answer to a record.
use joblog::{
    payload::{read, Answers, Failure, Outcome, Reason, Rule},
    record::{read_record, unhex, Kind, Known, Ty},
    text::{any_variable, assemble},
};

fn known(params: &[usize]) -> Known {
    Known { params: params.to_vec(), ..any_variable() }
}

fn said(text: &str, number: usize, payload: &[u8]) -> Result<Outcome, String> {
    let bytes = assemble(text, false).unwrap();
    let (r, n) = read_record(&bytes, &any_variable()).unwrap();
    assert_eq!(n, bytes.len());
    read(&r, number, payload, &known(&[]))
}

const U8: &[u8] = b"\x03\x07\0\0\0\0\x02";
const V0: &[u8] = b"\x06\x07\0\0\0\0\0";

fn u8_type() -> Ty {
    Ty { loc: 7, kind: Kind::Builtin(0, 2, vec![]) }
}
fn v0() -> Ty {
    Ty { loc: 7, kind: Kind::Var(0) }
}

#[test]
fn a_zero_of_each_mark() {
    for text in ["FV @7", "NV @7", "NL @7 9"] {
        assert_eq!(said(text, 0, V0), Ok(Outcome::Type(v0())));
        // another location, no variable, none, two
        for wrong in [b"\x06\x08\0\0\0\0\0", U8, b"", &[V0, V0].concat()] {
            assert!(said(text, 0, wrong).is_err(), "{}: {:?}", text, wrong)
        }
    }
    for text in ["JN u8, V0", "SU u8, u8", "UF V0", "RD V0", "TS [P1 = u8] P1", "IN u8"] {
        assert_eq!(said(text, 0, U8), Ok(Outcome::Type(u8_type())));
        assert!(
            said(text, 0, b"").is_err()
                && said(text, 0, &[U8, U8].concat()).is_err()
                && said(text, 0, &U8[..6]).is_err()
        )
    }
    for text in ["SN V0 @1", "NC @1 numeric V0", "BC @1 V0", "SC @1 V0"] {
        assert_eq!(said(text, 0, b""), Ok(Outcome::Done));
        assert!(said(text, 0, U8).is_err())
    }
    assert_eq!(said("SD {}", 0, b"\0\0"), Ok(Outcome::Declared(0)));
    assert!(
        said("SD {}", 0, b"\x01\0").is_err() && said("SD {}", 0, b"").is_err() && said("SD {}", 0, b"\0\0\0").is_err()
    );
    // without locations, variables by first appearance
    let first = |v: u8| [b"\x06\0\0\0\0", &[v, 0][..]].concat();
    let pair = |a: u8, b: u8| [&b"\x04\0\0\0\0\0\x02"[..], &first(a), &first(b)].concat();
    let spelled = said("CN V0", 0, &pair(0, 1)).unwrap();
    assert!(matches!(&spelled, Outcome::Spelled(t) if t.bytes() == pair(0, 1)) && spelled.is_well());
    assert_eq!((spelled.taken(), spelled.number()), (2, 0));
    assert!(said("CN V0", 0, &pair(0, 0)).is_ok());
    for wrong in [U8, V0, b"", &first(1), &pair(0, 2), &pair(1, 0), &[first(0), first(0)].concat(), &first(0)[..6]] {
        assert!(said("CN V0", 0, wrong).is_err(), "{:?}", wrong)
    }
    let four = [1, 0, 0, 0, 2, 0, 0, 0, 3, 0, 0, 0, 4, 0, 0, 0];
    assert_eq!(said("RM u8", 0, &four), Ok(Outcome::Needs([1, 2, 3, 4])));
    assert!(said("RM u8", 0, &four[1..]).is_err() && said("RM u8", 0, &[&four[..], b"\0"].concat()).is_err());
}

#[test]
fn a_zero_of_sv_with_rows_is_no_success() {
    let none = said("SV", 0, b"").unwrap();
    assert!(none.is_well() && none == Outcome::Done);
    let row = |code: u8, ability: &[u8], rule: &[u8]| [&[code, 9, 0, 0, 0], ability, U8, rule].concat();
    let cases = [
        (row(1, b"", b""), Reason::NoIntegerType, "is no integer type"),
        (row(2, b"", b""), Reason::NoBaseType, "is no base type"),
        (row(3, b"", b""), Reason::NoSingleType, "is no single type"),
        (row(4, b"\x01", b"\x01"), Reason::Lacks(1, Rule::Declaration), "lacks copy by its declaration"),
        (row(4, b"\x08", b"\x02\x03"), Reason::Lacks(8, Rule::Argument(3)), "lacks key by its argument 3"),
    ];
    for (i, (bytes, reason, words)) in cases.iter().enumerate() {
        let failed = said("SV", 0, bytes).unwrap();
        assert_eq!(failed, Outcome::Failed(vec![Failure { loc: 9, ty: u8_type(), reason: *reason }]));
        assert!(!failed.is_well() && failed.number() == 0 && reason.code() as usize == (i + 1).min(4));
        assert_eq!(reason.to_string(), *words);
        for cut in 1..bytes.len() {
            assert!(said("SV", 0, &bytes[..cut]).is_err(), "{} of {:?}", cut, bytes)
        }
    }
    let all = cases.iter().flat_map(|(bytes, ..)| bytes.clone()).collect::<Vec<_>>();
    assert!(matches!(said("SV", 0, &all), Ok(Outcome::Failed(rows)) if rows.len() == cases.len()));
    for wrong in
        [row(0, b"", b""), row(5, b"", b""), row(4, b"\x03", b"\x01"), row(4, b"\x01", b"\x03"), row(1, b"", b"\x01")]
    {
        assert!(said("SV", 0, &wrong).is_err(), "{:?}", wrong)
    }
}

#[test]
fn a_zero_of_xp_with_codes_is_no_success() {
    assert_eq!(said("XP u8", 0, U8), Ok(Outcome::Expanded(u8_type(), vec![])));
    assert!(said("XP u8", 0, U8).unwrap().is_well());
    let two = [U8, b"\x05\x09\0\0\0\x05\x0a\0\0\0"].concat();
    let open = said("XP u8", 0, &two).unwrap();
    assert_eq!(open, Outcome::Expanded(u8_type(), vec![9, 10]));
    assert!(!open.is_well() && open.number() == 0);
    for cut in (1..two.len()).filter(|n| *n != U8.len() && *n != U8.len() + 5) {
        assert!(said("XP u8", 0, &two[..cut]).is_err(), "{}", cut)
    }
    // a code that is none, and a type where a code belongs
    assert!(said("XP u8", 0, &[U8, b"\x04\x09\0\0\0"].concat()).is_err() && said("XP u8", 0, b"").is_err());
    assert!(said("XP u8", 0, &[U8, U8].concat()).is_err());
}

/// 02's R-8: the worked payload; what a pair cannot be answered is no answer to the record
#[test]
fn a_zero_of_mj_with_a_pair_that_failed_is_no_success() {
    let worked = "MJ join V0@2, u8@3; subtype &@5 u8@6, &mut@7 u8@8; join V0@9, u8@10";
    let first = unhex("000700 06020000000000").unwrap();
    let second = unhex("011a00 01050000000003060000000002 01070000000103080000000002").unwrap();
    let third = unhex("000700 060a0000000200").unwrap();
    let all = [&first[..], &second, &third].concat();
    let Ok(Outcome::Pairs(pairs)) = said(worked, 0, &all) else { panic!("{:?}", said(worked, 0, &all)) };
    assert_eq!(pairs.iter().map(Outcome::number).collect::<Vec<_>>(), [0, 1, 0]);
    let told = Outcome::Pairs(pairs.clone());
    assert!(!told.is_well() && told.number() == 0 && told.taken() == 3 && pairs[0].is_well() && !pairs[1].is_well());
    for cut in 0..all.len() {
        assert!(said(worked, 0, &all[..cut]).is_err(), "{}", cut)
    }
    assert!(said(worked, 0, &[&all[..], b"\0"].concat()).is_err() && said(worked, 7, &all).is_err());
    // a refused pair has no payload, and there is no pair of 5 or 19
    let with = |number: u8| said(worked, 0, &[&first[..], &[number, 0, 0], &third].concat());
    for number in [7, 8, 10, 14] {
        assert!(matches!(with(number), Ok(Outcome::Pairs(p)) if p[1] == Outcome::Refused(number as usize)));
        assert!(said(worked, 0, &[&first[..], &[number, 1, 0, 0], &third].concat()).is_err())
    }
    assert!(with(19).is_err());
    // so long as its pairs are
    let long = |n: u16| [&b"\x02"[..], &n.to_le_bytes(), U8, &vec![0; n as usize - 7]].concat();
    assert_eq!(said("MJ join u8, V0", 0, &long(4097)), Err("pair 0: its payload is longer than 4,096 bytes".into()));
}

/// 02's R-9: what JN and UF say, and behind it the number of links
#[test]
fn links_stand_behind_what_else_is_said() {
    let linked = |said| Ok(Outcome::Linked(Box::new(said), 0x0102));
    let tail = |payload: &[u8]| [payload, b"\x02\x01\0\0"].concat();
    for text in ["JL u8, V0", "UL V0"] {
        let well = said(text, 0, &tail(U8));
        assert_eq!(well, linked(Outcome::Type(u8_type())));
        let well = well.unwrap();
        assert!(well.is_well() && well.number() == 0 && well.links() == Some(0x0102));
        // no number, a cut one, a byte more, no type
        for wrong in [U8, &tail(U8)[..10], &[&tail(U8), &b"\0"[..]].concat(), &tail(b""), b""] {
            assert!(said(text, 0, wrong).is_err(), "{}: {:?}", text, wrong)
        }
    }
    assert_eq!(said("UL V0", 0, &tail(V0)).unwrap().taken(), 1);
    for number in 1..=3 {
        let failed = said("JL u8, V0", number, &tail(&[U8, V0].concat())).unwrap();
        assert_eq!(failed, Outcome::Linked(Box::new(Outcome::Mismatch(number, u8_type(), v0())), 0x0102));
        assert!(!failed.is_well() && failed.number() == number);
        assert!(said("JL u8, V0", number, &[U8, V0].concat()).is_err())
    }
    assert_eq!(said("JL V0, V0", 4, &tail(b"\x09\0\0\0")), linked(Outcome::Recursive(9)));
    assert!(said("JL V0, V0", 4, b"\x09\0\0\0").is_err());
    // a refusal shows none, and nor does any other record
    assert_eq!(said("JL V0, V0", 7, b""), Ok(Outcome::Refused(7)));
    assert!(said("JL V0, V0", 7, &tail(b"")).is_err() && said("JN u8, V0", 0, &tail(U8)).is_err());
    assert_eq!(said("JN u8, V0", 0, U8).unwrap().links(), None);
    // 4,096 bytes are the most, the number among them: a payload of UL is UF's and four bytes
    let long = |n: usize| [vec![4, 0, 0, 0, 0, 0, 0], vec![0; n]].concat();
    assert!(said("UL u8", 0, &long(4090)).unwrap_err().contains("longer than 4,096"));
    assert!(!said("UL u8", 0, &long(4089)).unwrap_err().contains("longer than 4,096"));
}

#[test]
fn errors_and_refusals() {
    for number in 1..=3 {
        let two = [U8, V0].concat();
        let outcome = said("SU u8, u8", number, &two).unwrap();
        assert_eq!(outcome, Outcome::Mismatch(number, u8_type(), v0()));
        assert!(!outcome.is_well() && outcome.number() == number);
        assert!(said("SU u8, u8", number, U8).is_err() && said("SU u8, u8", number, &[&two, U8].concat()).is_err());
    }
    assert_eq!(said("JN V0, V0", 4, b"\x09\0\0\0"), Ok(Outcome::Recursive(9)));
    assert!(said("JN V0, V0", 4, b"\x09\0\0").is_err() && said("JN V0, V0", 4, b"").is_err());
    for number in 5..=18 {
        let outcome = said("SV", number, b"").unwrap();
        assert_eq!(outcome, Outcome::Refused(number));
        assert!(!outcome.is_well() && outcome.number() == number && said("SV", number, b"\0").is_err())
    }
    for none in [19, 256, usize::MAX] {
        assert!(said("SV", none, b"").is_err())
    }
}

#[test]
fn from_bytes_one_after_the_other() {
    let mut answers = Answers::new();
    let join = b"JN\x07\0\0\0\0\x06\x07\0\0\0\0\0";
    // a variable is known once it is taken
    assert!(answers.read(join, 0, V0).is_err());
    assert_eq!(answers.read(b"FV\x07\0\0\0", 0, V0), Ok(Outcome::Type(v0())));
    assert_eq!(answers.read(join, 0, V0), Ok(Outcome::Type(v0())));
    // so is a struct with its arguments
    let unfold = [&b"UF\x05\0\0\0\0\0\0\0"[..], U8].concat();
    assert!(answers.read(&unfold, 0, &unfold[2..]).is_err());
    assert_eq!(answers.read(b"SD\0\x01\0", 0, b"\0\0"), Ok(Outcome::Declared(0)));
    assert!(matches!(answers.read(&unfold, 0, &unfold[2..]), Ok(Outcome::Type(_))));
    // the next struct has the next number, and 256 are all
    for number in 1..=255 {
        assert!(answers.read(b"SD\0\0", 7, b"").is_err() && answers.read(b"SD\0\0", 0, b"\0\0").is_err());
        assert_eq!(answers.read(b"SD\0\0", 0, &[number, 0]), Ok(Outcome::Declared(number as u16)))
    }
    assert_eq!(answers.read(b"SD\0\0", 7, b""), Ok(Outcome::Refused(7)));
    assert!(answers.read(b"SD\0\0", 0, b"\0\x01").is_err());
}

#[test]
fn what_cannot_be_read_is_refused() {
    let (unknown, doubled) = (&b"UF\x06\0\0\0\0\0\0"[..], &b"UF\x01\0\0\0\0\0\x01\0\0\0\0\0\0\0\0\0\0"[..]);
    let long = [&b"SV"[..], &[0; 4096]].concat();
    for (record, wanted) in [(&b"XX"[..], 5), (b"SVSV", 5), (b"", 5), (&long, 5), (unknown, 6), (doubled, 18)] {
        for number in 0..20 {
            let said = Answers::new().read(record, number, b"");
            // 15 says nothing of the record
            let good = number == wanted || number == 15;
            assert_eq!(said, if good { Ok(Outcome::Refused(number)) } else { said.clone() });
            assert_eq!(said.is_ok(), good, "{} to {:?}", number, record);
            assert!(Answers::new().read(record, number, b"\0").is_err())
        }
    }
    for number in [5, 6, 18] {
        assert!(Answers::new().read(b"SV", number, b"").is_err())
    }
}

/// 02's R-11: pairs of numbers, the old ones rising, the new ones from 0 on
#[test]
fn variables_that_stay() {
    let numbers = |pairs: &[(u16, u16)]| -> Vec<u8> {
        pairs.iter().flat_map(|(old, new)| [old.to_le_bytes(), new.to_le_bytes()].concat()).collect()
    };
    let kept = said("KP V5, V2, V5", 0, &numbers(&[(2, 0), (3, 1), (5, 2)])).unwrap();
    assert_eq!(kept, Outcome::Kept(vec![(2, 0), (3, 1), (5, 2)]));
    assert!(kept.is_well() && kept.number() == 0 && kept.taken() == 6);
    assert_eq!(said("KP", 0, b""), Ok(Outcome::Kept(vec![])));
    assert!(said("KP", 0, &numbers(&[(1023, 0)])).is_ok());
    for wrong in [
        &[(5, 0)][..],
        &[(2, 0), (3, 1)],
        &[(2, 1), (5, 2)],
        &[(2, 0), (5, 2)],
        &[(2, 0), (5, 0)],
        &[(5, 0), (2, 1)],
        &[(2, 0), (2, 1), (5, 2)],
        &[(0, 2), (1, 5)],
    ] {
        assert!(said("KP V2, V5", 0, &numbers(wrong)).is_err(), "{:?}", wrong)
    }
    for cut in [&[2, 0, 0][..], &[2], b"\x02\0\0\0\0"] {
        assert!(said("KP V2", 0, cut).is_err(), "{:?}", cut)
    }
    // 1,024 fit
    let all: Vec<_> = (0..1024).map(|v| (v, v)).collect();
    assert_eq!((numbers(&all).len(), said("KP V9", 0, &numbers(&all)).is_ok()), (4096, true))
}

/// .. and what may be said after it
#[test]
fn what_is_known_after_a_kp() {
    let mut answers = Answers::new();
    let mut ask = |text: &str, number, payload: &str| {
        answers.read(&assemble(text, false).unwrap(), number, &unhex(payload).unwrap())
    };
    for (v, text) in ["FV", "FV", "NV"].into_iter().enumerate() {
        assert!(ask(text, 0, &format!("06000000000{}00", v)).is_ok())
    }
    assert!(ask("NC numeric vector<V2>", 0, "").is_ok());
    // V3 is not taken; a constraint's variable stays
    assert!(ask("KP V0", 0, "0000 0000 0200 0100 0300 0200").is_err());
    assert!(ask("KP V0", 0, "0000 0000").is_err());
    assert!(ask("KP V0", 7, "").is_err() && ask("KP V0", 14, "").is_err());
    assert!(ask("KP V0", 0, "0000 0000 0200 0100").is_ok());
    // .. under its new number, and the old one is not taken
    assert_eq!(ask("UF V2", 6, ""), Ok(Outcome::Refused(6)));
    assert!(ask("SV", 0, "01 00000000 0300000000 0005 06000000000200").is_err());
    assert!(ask("SV", 0, "01 00000000 0300000000 0005 06000000000100").is_ok());
    // SV may have taken variables, of the numeric one
    assert!(ask("KP", 0, "").is_ok());
    assert!(ask("FV", 0, "06000000000100").is_err() && ask("FV", 0, "06000000000000").is_ok());
    assert!(ask("SV", 0, "").is_ok() && ask("FV", 0, "06000000000200").is_err())
}
