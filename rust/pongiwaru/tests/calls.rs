//! The calls from Rust, and this crate's names beside the header's and joblog's.
use pongiwaru::{
    answer_bytes, line_bytes, Answer, State, ANSWER_BYTES, HEADER, LINE_BYTES, MANY_ANSWER_BYTES, MANY_LINE_BYTES,
    ROWS, ROW_BYTES, WORDS,
};

/// the worked example of docs/RECORDS.md
const STREAM: &[u8] = include_bytes!("../../../crates/joinlog/stdin");
const LOG: &str = include_str!("../../../crates/joinlog/stdout");

/// UF of `&&u8`
const DOUBLED: &[u8] = b"UF\x01\0\0\0\0\0\x01\0\0\0\0\0\x03\0\0\0\0\0\x02";

/// SubtypeError to SUBTYPE_ERROR
fn in_header(name: &str) -> String {
    let mut out = String::new();
    for c in name.chars() {
        if c.is_uppercase() && !out.is_empty() {
            out.push('_')
        }
        out.push(c.to_ascii_uppercase())
    }
    out
}

#[test]
fn answers_are_the_header_s() {
    let ours: Vec<_> = Answer::ALL.iter().map(|a| (in_header(&format!("{:?}", a)), a.number())).collect();
    let first = HEADER.iter().position(|(name, _)| *name == "RAN").expect("the header names its answers");
    let header: Vec<_> = HEADER[first..].iter().map(|(name, number)| (name.to_string(), *number)).collect();
    assert_eq!(ours, header);
    assert!(ours.is_sorted_by_key(|(_, number)| number));
}

#[test]
fn words_are_joblog_s() {
    let joblog: Vec<_> = joblog::pairs::ANSWERS.iter().map(|a| (a.number as u32, a.word)).collect();
    assert_eq!(Answer::ALL.iter().map(|a| (a.number(), a.words())).collect::<Vec<_>>(), joblog)
}

#[test]
fn a_job_at_once_by_records_and_in_pieces() {
    assert_eq!(State::fresh().log(STREAM).unwrap(), LOG.as_bytes());

    let (mut state, mut rest, mut log, mut n) = (State::fresh(), STREAM, String::new(), 0);
    while !rest.is_empty() {
        let (record, after) = state.split(rest);
        let (answer, payload) = state.record(record);
        let payload: String = payload.iter().map(|b| format!("{:02x}", b)).collect();
        log += &format!("{} {} {}\n", n, answer.number(), payload);
        (rest, n) = (after, n + 1);
    }
    assert_eq!(log, LOG);

    let (mut pieces, mut index, mut out, mut text) = (State::fresh(), 0, vec![0; LINE_BYTES], vec![]);
    let lines = pieces.job(&STREAM[..6], true, &mut out, &mut index);
    assert_eq!((lines.answer, lines.read, lines.written, lines.ended, index), (Answer::Ran, 0, 0, false, 0));
    let mut read = 0;
    for ended in [false, false, true] {
        // room for one line
        let lines = pieces.job(&STREAM[read..], false, &mut out, &mut index);
        assert_eq!((lines.answer, lines.ended), (Answer::Ran, ended));
        text.extend_from_slice(&out[..lines.written]);
        read += lines.read
    }
    assert_eq!((text, read, index), (LOG.into(), STREAM.len(), 3));
    assert!(pieces == state)
}

#[test]
fn the_archive_is_the_header_s() {
    assert_eq!(pongiwaru::lent::version_and_layout(), (pongiwaru::VERSION, pongiwaru::LAYOUT))
}

/// the payload's bytes, said by joblog
#[test]
fn what_an_answer_says() {
    use joblog::payload::{Answers, Outcome, Reason, Rule};
    let (mut state, mut answers) = (State::fresh(), Answers::new());
    let mut ask = |record: &[u8]| {
        let (answer, payload) = state.record(record);
        let said = answers.read(record, answer.number() as usize, &payload).unwrap();
        assert_eq!(said.is_well(), answer.is_well(record, &payload));
        said
    };
    assert_eq!(ask(b"SD\0\x01\x01"), Outcome::Declared(0));
    assert!(matches!(ask(b"IN\x05\x02\0\0\0\0\0\0\x03\x03\0\0\0\0\x01"), Outcome::Type(_)));
    let Outcome::Failed(rows) = ask(b"SV") else { panic!("a failed SV is taken for a success") };
    assert_eq!((rows.len(), rows[0].loc, rows[0].reason), (1, 2, Reason::Lacks(1, Rule::Declaration)));
    assert_eq!(ask(b"SV"), Outcome::Done);
    assert_eq!(ask(DOUBLED), Outcome::Refused(18));
    // XP of a struct and of a list of one in it, then with a variable that is bound to nothing
    let struct_of = |part: &[u8]| [b"XP\x05\x05\x05\x05\x05\0\0\0", part].concat();
    assert!(matches!(ask(&struct_of(b"\x03\x05\x05\x05\x05\0\x02")), Outcome::Expanded(_, open) if open.is_empty()));
    ask(b"FV\x01\0\0\0");
    assert!(matches!(ask(&struct_of(b"\x06\x09\0\0\0\x01\0")), Outcome::Expanded(_, open) if open == [9]));
    let marked = ask(b"XP\x04\0\0\0\0\x10\0");
    assert_eq!(marked, Outcome::Refused(17))
}

#[test]
fn refusals_leave_all_as_it_was() {
    let mut state = State::fresh();
    state.record(b"FV\x01\0\0\0");
    let before = state.clone();
    let mut short = [7; ANSWER_BYTES - 1];
    assert_eq!(state.record_in(b"SV", &mut short), (Answer::UnsoundState, 0));
    assert_eq!(state.record(b"XX"), (Answer::Malformed, vec![]));
    assert_eq!(state.record(b"SVSV"), (Answer::Malformed, vec![]));
    assert_eq!(state.record(b"UF\x06\0\0\0\0\x01\0"), (Answer::UnknownName, vec![]));
    assert_eq!(state.record(DOUBLED), (Answer::DoubledReference, vec![]));
    assert_eq!(state.split(b"XXSV"), (&b""[..], &b"XXSV"[..]));
    assert_eq!(state.split(DOUBLED), (&b""[..], DOUBLED));
    assert!(state == before && short == [7; ANSWER_BYTES - 1]);
    assert!(!Answer::Malformed.is_well(b"XX", &[]) && !Answer::Incompatible.is_well(b"JN", &[0; 10]));
    assert!(Answer::Malformed.is_refusal() && !Answer::Incompatible.is_refusal() && Answer::Incompatible.is_error())
}

/// 02's R-8: a pair of 10 between two that bind V0 and show it
const PAIRS: &[u8] = b"MJ\x03\0\x06\x02\0\0\0\0\0\x03\x03\0\0\0\0\x02\
    \0\x03\x05\0\0\0\x17\x02\x03\x06\0\0\0\0\x02\
    \x01\x06\x09\0\0\0\0\0\x03\x0a\0\0\0\0\x02";

#[test]
fn many_pairs_in_one_record() {
    let told = b"\0\x07\0\x06\x02\0\0\0\0\0\x0a\0\0\0\x07\0\x06\x0a\0\0\0\x02\0";
    let (mut state, mut room) = (State::fresh(), vec![7; MANY_ANSWER_BYTES]);
    state.record(b"FV\x01\0\0\0");
    assert_eq!([PAIRS, b"MJ", b"M", b"FV"].map(answer_bytes), [61_485, 61_485, 4096, 4096]);
    assert_eq!([PAIRS, b"MJ", b"M", b"FV"].map(line_bytes), [122_995, 122_995, 8217, 8217]);
    assert_eq!(state.record_in(PAIRS, &mut room[..MANY_ANSWER_BYTES - 1]), (Answer::UnsoundState, 0));
    assert_eq!(state.record_in(b"MJ", &mut room[..ANSWER_BYTES]), (Answer::UnsoundState, 0));
    assert_eq!(state.record_in(b"M", &mut room[..ANSWER_BYTES]), (Answer::Malformed, 0));
    assert!(room.iter().all(|b| *b == 7));
    assert_eq!(state.clone().record(PAIRS), (Answer::Ran, told.to_vec()));
    assert_eq!(state.record_in(PAIRS, &mut room), (Answer::Ran, told.len()));
    assert!(room.starts_with(told) && room[told.len()..].iter().all(|b| *b == 7));
    // no success, though its number is 0
    assert!(!Answer::Ran.is_well(PAIRS, told) && Answer::Ran.is_well(PAIRS, &told[..10]));
    // six nodes read, three more and two variables by the third pair's merge, nothing by the second
    assert_eq!((state.words()[0], state.words()[2]), (9, 3))
}

/// 02's R-11: a caller's numbers after KP, by its payload
#[test]
fn what_is_kept_has_other_numbers() {
    use joblog::payload::{Answers, Outcome};
    let (mut state, mut answers) = (State::fresh(), Answers::new());
    let mut ask = |record: &[u8]| {
        let (answer, payload) = state.record(record);
        assert_eq!(answer.is_well(record, &payload), answer == Answer::Ran);
        (answers.read(record, answer.number() as usize, &payload).unwrap(), state.words()[..3].to_vec())
    };
    for _ in 0..3 {
        ask(b"FV\0\0\0\0");
    }
    // V2 is a vector of V1, and V0 `u8`
    ask(b"JN\x06\0\0\0\0\x02\0\x03\0\0\0\0\0\x05\x06\0\0\0\0\x01\0");
    ask(b"JN\x06\0\0\0\0\0\0\x03\0\0\0\0\0\x02");
    assert_eq!(ask(b"KP\x01\x03\0").0, Outcome::Refused(6));
    assert_eq!(ask(b"KP\x01\x02\0"), (Outcome::Kept(vec![(1, 0), (2, 1)]), vec![2, 1, 2]));
    assert_eq!(ask(b"UF\x06\0\0\0\0\x02\0").0, Outcome::Refused(6));
    assert!(
        matches!(ask(b"RD\x06\0\0\0\0\x01\0").0, Outcome::Type(t) if t.bytes() == b"\x03\0\0\0\0\0\x05\x06\0\0\0\0\0\0")
    );
    assert_eq!(ask(b"KP\0"), (Outcome::Kept(vec![]), vec![0, 0, 0]))
}

/// the slow engine: of its four marks what `record` gives, of others Malformed
#[test]
fn records_checked() {
    let mut state = State::fresh();
    state.record(b"FV\x01\0\0\0");
    state.record(b"FV\x01\0\0\0");
    let mut both = |record: &[u8]| {
        let mut other = state.clone();
        let (answer, slowly) = (state.record(record), other.check_record(record));
        assert!(answer == slowly && state == other, "{:?}, and not {:?}", slowly, answer);
        answer.0
    };
    assert_eq!(both(b"JN\x06\x02\0\0\0\0\0\x03\x03\0\0\0\0\x02"), Answer::Ran);
    assert_eq!(both(b"SU\x06\x02\0\0\0\x01\0\x06\x03\0\0\0\0\0"), Answer::Ran);
    assert_eq!(both(b"UF\x06\x04\0\0\0\x01\0"), Answer::Ran);
    assert_eq!(both(b"RD\x06\x05\0\0\0\x01\0"), Answer::Ran);
    assert_eq!(both(b"JN\x06\x02\0\0\0\0\0\0\x03\0\0\0"), Answer::Incompatible);
    assert_eq!(both(b"UF\x06\x04\0\0\0\x07\0"), Answer::UnknownName);
    assert_eq!(both(DOUBLED), Answer::DoubledReference);
    let before = state.clone();
    assert_eq!(state.check_record(b"FV\x01\0\0\0"), (Answer::Malformed, vec![]));
    assert_eq!(state.check_record(PAIRS), (Answer::Malformed, vec![]));
    assert!(state == before);
    let mut unsound = State::kept(&[], before.rows());
    assert_eq!(unsound.check_record(b"SV"), (Answer::UnsoundState, vec![]))
}

/// `log` goes on where an MJ finds less room than its line may have; `job` waits for it
#[test]
fn a_log_has_room_for_many_pairs() {
    let stream = [&b"FV\x01\0\0\0"[..], PAIRS, b"SV", PAIRS].concat();
    let log = String::from_utf8(State::fresh().log(&stream).unwrap()).unwrap();
    assert_eq!(log.lines().map(|l| &l[..3]).collect::<Vec<_>>(), ["0 0", "1 0", "2 0", "3 0"]);
    let (mut state, mut index, mut out) = (State::fresh(), 0, vec![0; MANY_LINE_BYTES]);
    let lines = state.job(&stream, false, &mut out, &mut index);
    assert_eq!((lines.read, lines.ended, index), (6, false, 1));
    let lines = state.job(&stream[6..], false, &mut out[..MANY_LINE_BYTES - 1], &mut index);
    assert_eq!((lines.read, lines.written, lines.ended, index), (0, 0, false, 1));
    let lines = state.job(&stream[6..], false, &mut out, &mut index);
    // behind its line there is room for SV's, and not for another's
    assert_eq!((lines.read, lines.ended, index), (PAIRS.len() + 2, false, 3))
}

/// 02's R-1: a struct's parameter asks for copy; a signer has it not, and a `u8` only by its mark
#[test]
fn missing_abilities_and_a_mark_contradicted() {
    let mut state = State::fresh();
    assert_eq!(state.record(b"SD\0\x01\x01").0, Answer::Ran);
    assert_eq!(state.record(b"IN\x05\x02\0\0\0\0\0\0\x03\x03\0\0\0\0\x01").0, Answer::Ran);
    let row = b"\x04\x02\0\0\0\x01\x03\x03\0\0\0\0\x01\x01";
    assert_eq!(state.record(b"SV"), (Answer::Ran, row.to_vec()));
    assert!(!Answer::Ran.is_well(b"SV", row) && Answer::Ran.is_well(b"SV", &[]));
    assert_eq!(state.record(b"SV"), (Answer::Ran, vec![]));
    assert_eq!(state.record(b"IN\x05\x02\0\0\0\0\0\0\x03\x03\0\0\0\x12\x02").0, Answer::Ran);
    assert_eq!(state.record(b"SV"), (Answer::AbilityMarkContradicted, vec![]));
    assert_eq!(Answer::AbilityMarkContradicted.number(), 16)
}

#[test]
fn a_kept_state_goes_on_and_an_unsound_one_is_refused() {
    let mut state = State::fresh();
    state.record(b"FV\x01\0\0\0");
    let mut kept = State::kept(state.words(), state.rows());
    assert_eq!(kept.record(b"FV\x02\0\0\0").1, b"\x06\x02\0\0\0\x01\0");
    let rows = [[0; ROW_BYTES]; ROWS];
    for words in [vec![], vec![0; WORDS - 1], vec![1; WORDS]] {
        let mut unsound = State::kept(&words, &rows);
        assert_eq!(unsound.record(b"SV"), (Answer::UnsoundState, vec![]));
        assert_eq!(unsound.log(b"SV"), None);
        assert_eq!(unsound.split(b"SV"), (&b""[..], &b"SV"[..]));
        assert_eq!(unsound.words(), words)
    }
}

#[test]
fn numbers_and_answers() {
    for a in Answer::ALL {
        assert_eq!(Answer::of(a.number()), Some(*a))
    }
    assert_eq!([19, 20].map(Answer::of), [None; 2]);
    assert_eq!(Answer::SubtypeError.to_string(), "subtype error")
}

#[test]
fn a_fresh_job_from_words_that_hold_anything() {
    let mut log = vec![0; 8 * LINE_BYTES];
    let (mut state, mut index) = (State::fresh(), 7);
    assert!(state.log(STREAM).is_some());
    for _ in 0..2 {
        let lines = state.fresh_job(STREAM, false, &mut log, &mut index);
        assert_eq!((lines.answer, lines.read, lines.ended, index), (Answer::Ran, STREAM.len(), true, 3));
        assert_eq!(&log[..lines.written], LOG.as_bytes());
    }
}
