//! The lent state, the comparison and the damage, tried on core.rs behind the engine's calls; and, where the archive is
//! linked, on the engine.
use oracle::{
    bench,
    calls::{answer_bytes, engine, job_of, line_bytes, Calls, Lines, Mimic, LINE, MIN_ANSWER},
    compare::{self, Alter, Altered, Tally, ALTERS},
    count::counted,
    damage,
    gen::{self, Chance, Profile},
    job::{is_wider, put_pair, put_stay, with_stack, Job, Outcome},
    keep,
    lender::Lender,
    lent::{drop_mark, encode, fresh, sound, Lent, Params, View},
    many,
    record::{read_record, Record},
    spelled,
    text::{any_variable, assemble, disassemble},
    traps,
};
use std::collections::BTreeSet;

/// the engine where it is linked, and core.rs in its place
fn all() -> Vec<&'static dyn Calls> {
    engine().map(|e| e as &dyn Calls).into_iter().chain([&Mimic as &dyn Calls]).collect()
}

fn after(text: &str) -> Lent {
    let (stream, mut job, mut at) = (assemble(text, true).unwrap(), Job::new(), 0);
    while at < stream.len() {
        let (outcome, n) = job.next(&stream[at..]);
        assert!(matches!(outcome, Outcome::Core(0, _)), "{}", text);
        at += n
    }
    let declared: Vec<_> = (0..job.known().params.len()).map(|i| job.declared(i)).collect();
    encode(&job.state(), &declared).unwrap()
}

//---- states ----------------------------------------------------------------------------------------------

#[test]
fn states_written_are_sound_and_read_again() {
    for i in 0..300 {
        let (m, mut job, mut at) = (gen::random(21, i, 25, None, false), Job::new(), 0);
        while at < m.stream.len() {
            let (outcome, n) = job.next(&m.stream[at..]);
            if n == 0 || matches!(outcome, Outcome::Silent(_)) {
                break; // under the real map a later run may take fewer variables
            }
            at += n;
            let declared: Vec<_> = (0..job.known().params.len()).map(|i| job.declared(i)).collect();
            let lent = encode(&job.state(), &declared).unwrap();
            assert_eq!(sound(&lent.words, &lent.params), Ok(()));
            assert!(lent.view().state() == job.state());
            assert!(declared.iter().enumerate().all(|(i, d)| lent.view().declared(i) == *d));
            let again = Job::load(&lent.view().state(), &declared);
            assert!(again.state() == job.state())
        }
    }
}

/// word, its new value, the rule that breaks
type Break = (usize, u32, &'static str);

#[test]
fn each_rule_of_a_sound_state() {
    // nodes: 0 u8, 1 vector<u8>, 2 V1, 3 (), 4 P7, 5 &(), 6 _, 7 (V0, _)
    let mut s = fresh();
    s.declare(&(3, vec![1, 17]));
    (0..4).for_each(|_| assert!(s.add_var().is_some()));
    let u8_ = s.add_node(3, 1, 0x12, 2, &[]).unwrap();
    let vector = s.add_node(3, 2, 0, 5, &[u8_]).unwrap();
    let v1 = s.add_node(6, 3, 1, 0, &[]).unwrap();
    let unit = s.add_node(0, 4, 0, 0, &[]).unwrap();
    s.add_node(2, 5, 7, 15, &[]);
    s.add_node(1, 6, 1, unit as u32, &[]);
    let any = s.add_node(7, 7, 0, 0, &[]).unwrap();
    s.add_node(5, 8, 16, 0, &[v1, any]);
    (s.bind(0, v1), s.bind(1, vector), s.set_mark(2, 9));
    s.add_constraint(0, 10, vector, 15);
    s.add_constraint(3, 11, u8_, 0);
    assert_eq!(sound(&s.words, &s.params), Ok(()));
    s.set_need(2, 256);
    assert_eq!(sound(&s.words, &s.params), Ok(()));
    let (place, declared) = (12_293, 23_557);
    let [node, var, held] = [(5, 6), (16_389, 5), (21_509, 4)].map(|(start, width)| move |i: usize| start + width * i);
    let breaks: Vec<Break> = vec![
        (0, 2049, "counts within limits"),
        (0, 7, "words past the counts are zero"),
        (1, 4097, "counts within limits"),
        (1, 1, "words past the counts are zero"),
        (2, 1025, "counts within limits"),
        (3, 513, "counts within limits"),
        (4, 257, "counts within limits"),
        (4, 0, "words past the counts are zero"),
        (24_068, 1, "words past the counts are zero"),
        (place + 3, 1, "words past the counts are zero"),
        (node(0), 9, "a node's fields"),
        (node(0) + 2, 0x15, "an integer type's mark has drop"),
        (node(0) + 2, 15, "an ability mark"),
        (node(0) + 3, 10, "a name"),
        (node(0) + 3, 5, "as many places as arguments"),
        (node(1) + 4, 3, "places below the used count"),
        (node(1) + 4, u32::MAX, "places below the used count"),
        (place, 1, "a node's parts have smaller numbers"),
        (node(2) + 2, 4, "a node's fields"),
        (node(3) + 2, 1, "a node's fields"),
        (node(4) + 3, 16, "a node's fields"),
        (node(5) + 2, 2, "a node's fields"),
        (node(5) + 3, 5, "a node's fields"),
        (node(7) + 3, 1, "a name"),
        (var(0), 2, "a variable's fields"),
        (var(0) + 1, 8, "a binding is a node"),
        (var(0) + 1, 6, "no binding is `_`"),
        (var(1) + 1, 2, "a chain of variables ends"),
        (var(3) + 1, 1, "unbound: no node"),
        (var(2) + 2, 0, "a variable's need"),
        (var(2) + 4, 257, "a variable's need"),
        (var(3) + 4, 1, "a variable's need"),
        (held(0), 6, "a constraint's fields"),
        (held(0) + 2, 8, "a constraint's fields"),
        (held(0) + 3, 16, "a constraint's abilities"),
        (held(1) + 3, 1, "a constraint's abilities"),
        (declared, 16, "a declaration's fields"),
        (declared + 1, 9, "a declaration's fields"),
        (declared + 1, 1, "parameter bytes past the count are zero"),
    ];
    for (word, value, rule) in breaks {
        let mut t = s.clone();
        t.words[word] = value;
        assert_eq!(sound(&t.words, &t.params), Err(rule), "word {}", word);
        for calls in all() {
            assert_eq!(Lender::new(calls, &t).record(b"SV", MIN_ANSWER).unwrap().number, 15, "word {}", word)
        }
    }
    for (row, at, value) in [(0, 0, 32), (0, 2, 1), (1, 0, 1), (255, 7, 1)] {
        let mut t = s.clone();
        t.params[row][at] = value;
        assert!(sound(&t.words, &t.params).is_err());
        all().iter().for_each(|c| assert_eq!(Lender::new(*c, &t).record(b"SV", 4096).unwrap().number, 15))
    }
}

#[test]
fn each_integer_type_in_a_state() {
    for n in [2, 3, 4, 7, 8, 9] {
        let mut s = fresh();
        (s.add_node(3, 1, 0, n, &[]), s.add_node(3, 2, 0x12, n, &[]));
        assert_eq!(sound(&s.words, &s.params), Ok(()), "{}", n);
        let mut t = s.clone();
        t.add_node(3, 3, 0x11, n, &[]);
        assert_eq!(sound(&t.words, &t.params), Err("an integer type's mark has drop"), "{}", n);
        for calls in all() {
            let number = |s| Lender::new(calls, s).record(b"SV", MIN_ANSWER).unwrap().number;
            assert_eq!((number(&s), number(&t)), (0, 15), "{}", n)
        }
    }
}

//---- comparison ---------------------------------------------------------------------------------------------

#[test]
fn the_engine_agrees_with_core_rs() {
    if cfg!(feature = "hashmap") {
        return; // SV's order is the real map's
    }
    with_stack(|| {
        for calls in all() {
            let mut tally = Tally::default();
            let found = compare::many(calls, 31, 150, 25, None, &mut tally);
            assert!(found.is_none(), "{}", compare::report(&found.unwrap()));
            assert!(tally.count(|n| n <= 4) > 2000 && tally.count(|n| n == 16) > 0);
            assert!(tally.missing.iter().all(|n| *n > 0), "{:?}", tally.missing)
        }
    })
}

/// 02's R-8: refused pairs among pairs that go on, by each number that a pair can have
#[test]
fn pairs_of_one_record() {
    if cfg!(feature = "hashmap") {
        return;
    }
    with_stack(|| {
        for calls in all() {
            assert!(many::edges(calls).unwrap() > 80);
            let mut tally = Tally::default();
            let found = compare::many(calls, 36, 150, 25, Some(Profile::Pairs), &mut tally);
            assert!(found.is_none(), "{}", compare::report(&found.unwrap()));
            for i in 0..40 {
                let m = gen::pairs_at_limits(37, i);
                let found = compare::stream(calls, &fresh(), &m.stream, &mut Chance::new(37, i), &mut tally);
                assert!(found.is_ok(), "{}: {}", m.name, found.unwrap_err().what)
            }
            let had = |n: u8| tally.pairs.get(&n).copied().unwrap_or(0);
            assert!([0, 1, 2, 3, 4, 7, 10, 14].into_iter().all(|n| had(n) > 3), "{:?}", tally.pairs);
            assert!(had(8) > 3 || !calls.counts(), "{:?}", tally.pairs)
        }
    })
}

/// What counting says of each pair is what core.rs's `join` answers, where neither comes to a limit that core.rs has not.
#[test]
fn pairs_are_counted_as_core_rs_answers_them() {
    if cfg!(feature = "hashmap") {
        return;
    }
    with_stack(|| {
        let (mut held, mut limits) = (0, 0);
        for i in 0..120 {
            let (m, mut job, mut at) = (gen::random(38, i, 20, Some(Profile::Pairs), false), Job::new(), 0);
            while at < m.stream.len() {
                let (r, n) = read_record(&m.stream[at..], job.known()).unwrap();
                let declared: Vec<_> = (0..job.known().params.len()).map(|i| job.declared(i)).collect();
                let before = encode(&job.state(), &declared);
                let outcome = job.record(&r);
                at += n;
                let (Record::MJ(_), Some(before)) = (&r, before) else { continue };
                let c = counted(before.view(), &r);
                if c.number == 7 || c.pairs.iter().any(|n| matches!(n, 7 | 8)) {
                    limits += 1;
                    continue;
                }
                assert_eq!(outcome, Outcome::Core(0, c.payload.unwrap()), "{}", m.name);
                held += 1
            }
        }
        assert!(held > 500, "{} held, {} at limits", held, limits)
    })
}

/// 02's R-7
#[test]
fn literals_beside_a_second_reading() {
    if cfg!(feature = "hashmap") {
        return;
    }
    with_stack(|| {
        for calls in all() {
            let mut tally = Tally::default();
            let found = compare::many(calls, 33, 150, 25, Some(Profile::Numbers), &mut tally);
            assert!(found.is_none(), "{}", compare::report(&found.unwrap()));
            assert!(tally.records[&("NL", 0)] > 300 && tally.records[&("JN", 2)] > 100);
            let mut tally = damage::Tally::default();
            damage::needs(calls, 34, 1, &mut tally).unwrap();
            assert!(tally.of("15: a variable's need") > 100, "{}", tally.text());
            let mut solved = damage::Tally::default();
            damage::literals(calls, 35, 10, &mut solved).unwrap();
            assert!(solved.went_on() > 100, "{}", solved.text())
        }
    })
}

#[test]
fn altered_answers_are_found_and_shrunk() {
    if cfg!(feature = "hashmap") {
        return;
    }
    with_stack(|| {
        for calls in all() {
            for alter in ALTERS
                .into_iter()
                .filter(|a| calls.counts() || !matches!(a, Alter::Count | Alter::Told | Alter::Kept | Alter::Copied))
            {
                let altered = Altered { calls, alter };
                let profile = (alter == Alter::Need).then_some(Profile::Numbers);
                let found = compare::many(&altered, 32, 100, 25, profile, &mut Tally::default());
                let found = found.unwrap_or_else(|| panic!("{:?} was not found", alter));
                let small = compare::smallest(&altered, found);
                assert!(compare::disagrees(&altered, &small.start, &small.stream).is_some());
                assert!(compare::disagrees(calls, &small.start, &small.stream).is_none());
                let text = disassemble(&small.stream);
                // what makes a chain cannot be left out, and IN makes some
                let small = text.lines().count() <= 3 && small.stream.len() <= 42;
                assert!(small || alter == Alter::Left, "{:?}: {}", alter, text)
            }
        }
    })
}

//---- clearing (02, R-11) -------------------------------------------------------------------------------------------

#[test]
fn clearings_beside_core_rs() {
    if cfg!(feature = "hashmap") {
        return;
    }
    with_stack(|| {
        for calls in all() {
            assert!(keep::all(calls, 39, 200).unwrap() > 4000);
            let mut tally = Tally::default();
            let found = compare::many(calls, 39, 100, 25, Some(Profile::Kept), &mut tally);
            assert!(found.is_none(), "{}", compare::report(&found.unwrap()));
            assert!(tally.records[&("KP", 0)] > 500, "{}", tally.text())
        }
    })
}

/// a stream's records but those of a mark
fn without(stream: &[u8], mark: &str) -> Vec<u8> {
    let (mut known, mut rest, mut out) = (any_variable(), stream, vec![]);
    while let Ok((r, n)) = read_record(rest, &known) {
        if let Record::SD(_, params) = &r {
            known.params.push(params.len())
        }
        out.extend(if r.mark() == mark { &[] } else { &rest[..n] });
        rest = &rest[n..]
    }
    out
}

/// how many records of a stream are answered with 7
fn full(calls: &dyn Calls, stream: &[u8]) -> usize {
    let mut lender = Lender::new(calls, &fresh());
    let (_, _, log) = lender.job(stream, false, 1 << 22, 0).unwrap();
    String::from_utf8(log).unwrap().lines().filter(|l| l.ends_with(" 7")).count()
}

/// Functions that are cleared after each have space; the same without KP have none.
#[test]
fn what_is_cleared_is_used_again() {
    if cfg!(feature = "hashmap") {
        return;
    }
    with_stack(|| {
        for calls in all() {
            // core.rs in the engine's place knows of variables alone
            for i in (0..6).filter(|i| calls.counts() || i % 2 == 0) {
                let m = gen::functions(40, i);
                let mut tally = Tally::default();
                let found = compare::stream(calls, &fresh(), &m.stream, &mut Chance::new(40, i), &mut tally);
                assert!(found.is_ok(), "{}: {}", m.name, found.unwrap_err().what);
                assert!(tally.records[&("KP", 0)] >= 4, "{}", m.name);
                assert!(full(calls, &m.stream) == 0 && full(calls, &without(&m.stream, "KP")) > 0, "{}", m.name)
            }
        }
    })
}

/// KP by the clearing of the words, with one fault or none; all else by core.rs.
enum Clearing {
    Right,
    NumberKept,
    MarkDropped,
    PlacesCopied,
}

/// each node with places of its own
fn with_own_places(lent: &Lent) -> Option<Lent> {
    let mut out = lent.clone();
    out.words[..2].fill(0);
    out.words[5..16_389].fill(0);
    for n in 0..lent.view().nodes() {
        let [tag, loc, a, b, ..] = lent.view().node(n);
        let parts = if (3..=5).contains(&tag) { lent.view().parts(n) } else { vec![] };
        out.add_node(tag, loc, a, b, &parts)?;
    }
    Some(out)
}

impl Clearing {
    fn keep(&self, w: &mut [u32], p: &Params, record: &[u8]) -> Option<Vec<u8>> {
        sound(w, p).ok()?;
        let read = read_record(record, job_of(View { words: w, params: p }).known());
        let (Record::KP(listed), n) = read.ok()? else { return None };
        if n < record.len() {
            return None;
        }
        let (mut left, mut out) = (View { words: w, params: p }.cleared(&listed), vec![]);
        put_stay(&left.stay, &mut out);
        match self {
            Clearing::NumberKept => {
                if let Some([a, b, c, d]) = out.last_chunk_mut() {
                    (*c, *d) = (*a, *b)
                }
            }
            Clearing::MarkDropped => drop_mark(&mut left.lent.words),
            Clearing::PlacesCopied => left.lent = with_own_places(&left.lent).unwrap_or(left.lent),
            _ => (),
        }
        w.copy_from_slice(&left.lent.words);
        Some(out)
    }
}

impl Calls for Clearing {
    fn record(&self, w: &mut [u32], p: &mut Params, r: &[u8], a: &mut [u8], length: &mut u32) -> u32 {
        match self.keep(w, p, r) {
            Some(shown) => {
                a[..shown.len()].copy_from_slice(&shown);
                *length = shown.len() as u32;
                0
            }
            None => Mimic.record(w, p, r, a, length),
        }
    }
    fn split(&self, w: &mut [u32], p: &mut Params, stream: &[u8], rest: &mut usize) {
        Mimic.split(w, p, stream, rest)
    }
    fn job(&self, w: &mut [u32], p: &mut Params, s: &[u8], more: bool, log: &mut [u8], lines: &mut Lines) -> u32 {
        // a job of one record
        let (mut shown, mut length) = (vec![0; MIN_ANSWER], 0);
        let number = self.record(w, p, s, &mut shown, &mut length);
        let digits: String = shown[..length as usize].iter().map(|b| format!("{:02x}", b)).collect();
        let line = format!("0 {}{}{}\n", number, if digits.is_empty() { "" } else { " " }, digits);
        log[..line.len()].copy_from_slice(line.as_bytes());
        *lines = Lines { written: line.len(), read: s.len(), index: lines.index + 1, ended: !more };
        0
    }
}

#[test]
fn faulty_clearings_are_found() {
    with_stack(|| {
        assert_eq!(keep::states(&Clearing::Right, 41, 60).err(), None);
        for (i, faulty) in [Clearing::NumberKept, Clearing::MarkDropped, Clearing::PlacesCopied].iter().enumerate() {
            assert!(keep::states(faulty, 41, 60).is_err(), "fault {}", i)
        }
    })
}

//---- links (02, R-9) -----------------------------------------------------------------------------------------------

fn number_of_links(answer: &[u8]) -> u32 {
    u32::from_le_bytes(*answer.last_chunk().unwrap())
}

/// V0 is bound to V1, V1 to V2 and so on, and the last is open
fn chain(vars: u32) -> Lent {
    let mut s = fresh();
    (0..vars).for_each(|_| assert!(s.add_var().is_some()));
    for v in 1..vars {
        let next = s.add_node(6, 0, v, 0, &[]).unwrap();
        s.bind(v as usize - 1, next)
    }
    s
}

/// a chain as long as there may be, one variable less, and a sum that no u16 holds
#[test]
fn the_longest_chains() {
    with_stack(|| {
        for calls in all() {
            let answer = |lent: &Lent, text: &str| {
                let answer = Lender::new(calls, lent).record(&assemble(text, false).unwrap(), MIN_ANSWER).unwrap();
                (answer.number, answer.payload.last_chunk().map_or(0, |n| u32::from_le_bytes(*n)))
            };
            let (full, one) = (chain(1024), chain(1023));
            assert_eq!(answer(&full, "UL V0"), (0, 1023));
            assert_eq!((answer(&full, "UL V1022"), answer(&full, "UL V1023")), ((0, 1), (0, 0)));
            assert_eq!((answer(&full, "UL (V0, V0)"), answer(&full, "UL &V0")), ((0, 0), (0, 0)));
            // a merge wants a variable, whatever it would have counted
            assert_eq!((answer(&full, "JL V0, V1"), answer(&full, "JL V0, u8")), ((7, 0), (7, 0)));
            assert_eq!((answer(&full, "JL V1023, u8"), answer(&full, "JL V0, V0")), ((0, 0), (0, 0)));
            assert_eq!((answer(&one, "JL V0, V1"), answer(&one, "JL V0, V1022")), ((0, 1022 + 1021), (0, 1022)));
            // the second merge finds none left
            assert_eq!(answer(&one, "JL (V0, V0), (V1, V1)").0, 7);
            let (ends, links) = (512, traps::LINKED as u32);
            let sum = ends * (2 * links - 1) + ends * (ends - 1);
            assert_eq!(answer(&traps::linked(), "JL V0, V2"), (0, sum));
            assert!(sum > 10 * 65_535)
        }
    })
}

/// a type of so many bytes, 16 or more
fn long(bytes: usize) -> String {
    let few =
        [(5, "()"), (7, "u8"), (10, "P7"), (11, "&()"), (12, "vector<()>"), (13, "&u8"), (16, "&P7"), (22, "((), P7)")];
    match few.iter().find(|(n, _)| *n == bytes) {
        Some((_, text)) => text.to_string(),
        None if bytes < 7 + 8 * 16 => format!("vector<{}>", long(bytes - 7)),
        None => {
            let (each, rest) = ((bytes - 7) / 8, (bytes - 7) % 8);
            format!("({}, {})", vec![long(each); 7].join(", "), long(each + rest))
        }
    }
}

/// 02's 14: a payload of 4,092 bytes has room for the number, one of 4,093 has none
#[test]
fn links_count_towards_the_longest_answer() {
    with_stack(|| {
        for calls in all() {
            let state = after(&format!("FV\nFV\nFV\nJN V0, {}\nJN V1, vector<()>\nJN V2, &u8", long(4080)));
            let answer = |text: &str| {
                let record = assemble(text, false).unwrap();
                let answer = Lender::new(calls, &state).record(&record, MIN_ANSWER).unwrap();
                (answer.number, answer.payload.len())
            };
            for (plain, counted, short, long) in [
                ("UF", "UL", long(4092), long(4093)),
                ("JN", "JL", "V0, V1".into(), "V0, V2".into()),
                ("JN", "JL", format!("{}, vector<()>", long(4080)), format!("{}, &u8", long(4080))),
            ] {
                let number = if plain == "UF" { 0 } else { 2 };
                assert_eq!(answer(&format!("{} {}", plain, short)), (number, 4092));
                assert_eq!(answer(&format!("{} {}", counted, short)), (number, 4096));
                assert_eq!(answer(&format!("{} {}", plain, long)), (number, 4093));
                assert_eq!(answer(&format!("{} {}", counted, long)), (14, 0))
            }
            // what joins is at least five bytes shorter than its operands, and a record has 4,096
            assert_eq!(answer(&format!("JL {}, _", long(4089))), (0, 4093));
            // 4 has its location and the number
            let circle = after("FV\nFV\nJN V0, vector<V1>\nJN V1, vector<V0>");
            let answer =
                Lender::new(calls, &circle).record(&assemble("JL V0, V1", false).unwrap(), MIN_ANSWER).unwrap();
            assert_eq!((answer.number, answer.payload.len(), number_of_links(&answer.payload)), (4, 8, 2))
        }
    })
}

//---- doubled references -----------------------------------------------------------------------------------------

/// V0 is &&u8, V1 &mut &u8, V2 numeric, V3 open, as a state from before R-6 may have them
fn doubled() -> Lent {
    let mut s = fresh();
    (0..4).for_each(|_| assert!(s.add_var().is_some()));
    for (v, mutable) in [(0, 0), (1, 1)] {
        let u8_ = s.add_node(3, 1, 0, 2, &[]).unwrap();
        let inner = s.add_node(1, 2, 0, u8_ as u32, &[]).unwrap();
        let outer = s.add_node(1, 3, mutable, inner as u32, &[]).unwrap();
        s.bind(v, outer)
    }
    s.set_mark(2, 4);
    s
}

#[test]
fn doubled_references_in_a_state() {
    let (lent, hexed) = (doubled(), |t: &str| assemble(&format!("UF {}", t), false).unwrap()[2..].to_vec());
    assert_eq!(sound(&lent.words, &lent.params), Ok(()));
    let answers = [
        ("UF V0", 0, "&@3 &@2 u8@1"),
        ("RD (V1,)", 0, "(&mut@3 &@2 u8@1,)"),
        ("SU V1, V0", 0, "V4"),
        ("SU V0, V1", 1, "&@3 &@2 u8@1, &mut@3 &@2 u8@1"),
        ("JN V0, &V3", 0, "V5"),
        ("JN V2, V0", 2, "V2, &@3 &@2 u8@1"),
        ("JN V0, vector<u8>", 2, "&@3 &@2 u8@1, vector<u8>"),
        ("TS [P1 = V0] &P1", 0, "&V0"),
        ("UF &&u8", 18, ""),
    ];
    for calls in all() {
        for (record, number, types) in answers {
            let answer = Lender::new(calls, &lent).record(&assemble(record, false).unwrap(), MIN_ANSWER).unwrap();
            let types: Vec<u8> = types.split(", ").filter(|t| !t.is_empty()).flat_map(hexed).collect();
            assert_eq!((answer.number, answer.payload), (number, types), "{}", record)
        }
    }
}

#[test]
fn doubled_references_beside_core_rs() {
    if cfg!(feature = "hashmap") {
        return;
    }
    let text = "JN V2, V0\nSU V1, V0\nUF V1\nRD (V0, V1)\nNC numeric V0\nBC V1\nSV\nJN V0, &V3\nRD V3\nUF &&u8\nSV";
    with_stack(|| {
        for calls in all() {
            let mut tally = Tally::default();
            let found =
                compare::stream(calls, &doubled(), &assemble(text, true).unwrap(), &mut Chance::new(1, 0), &mut tally);
            assert!(found.is_ok(), "{}", found.unwrap_err().what);
            assert_eq!((tally.lines, tally.records[&("??", 18)]), (10, 1));
            assert_eq!(tally.doubled.into_iter().collect::<Vec<_>>(), [("JN", 1), ("RD", 1), ("SV", 1), ("UF", 1)])
        }
    })
}

/// All bytes are handed back, the line is printed and the job ends; so with 5.
#[test]
fn eighteen_ends_a_job() {
    let stream = |record: &str| assemble(&format!("SV\n{}\nSV", record), false).unwrap();
    for calls in all() {
        for (record, number) in [("UF (u8, &&u8)", 18), ("hex 5858", 5)] {
            let (all, mut lender) = (stream(record), Lender::new(calls, &fresh()));
            assert_eq!((lender.split(&all[2..]), lender.unchanged()), (Ok(0), true));
            for more in [false, true] {
                // where more is to follow a record is taken only with 4,096 bytes at hand
                let bytes = if more { [&all[..], &[0; 5000]].concat() } else { all.clone() };
                let (_, lines, log) = lender.job(&bytes, more, 100_000, 7).unwrap();
                assert_eq!(String::from_utf8(log).unwrap(), format!("7 0\n8 {}\n", number));
                assert_eq!((lines.read, lines.index, lines.ended), (2, 9, true));
            }
        }
    }
}

//---- damage --------------------------------------------------------------------------------------------------

/// V0 is u256
fn wider() -> Lent {
    let mut s = fresh();
    let (v, t) = (s.add_var().unwrap(), s.add_node(3, 1, 0, 9, &[]).unwrap());
    s.bind(v, t);
    s
}

/// V0 and V1 are bound to V2
fn merged() -> Lent {
    after("FV\nFV\nFV\nJN V0, V1")
}
/// JL of V2, which is open, and V0
const JOINED: &[u8] = b"JL\x06\0\0\0\0\x02\0\x06\0\0\0\0\0\0";

#[test]
fn damage_is_answered_as_it_must_be() {
    with_stack(|| {
        for calls in all() {
            let mut tally = damage::Tally::default();
            damage::records(calls, 61, 20, &mut tally).unwrap();
            damage::wild(calls, 42, 6, &mut tally).unwrap();
            assert!(tally.of("5") > 100 && tally.of("6") > 20 && tally.went_on() > 100, "{}", tally.text());
            assert!(tally.of("18") > 0, "{}", tally.text());
            let of_records = tally.wider();
            damage::lend(&mut Lender::new(calls, &wider()), b"SV", MIN_ANSWER, &mut tally).unwrap();
            assert!(of_records > 0 && tally.wider() == of_records + 1, "{}", tally.text())
        }
    })
}

/// Calls with one fault each.
enum Careless {
    PastAnswer,
    BesideWords,
    TakesUnsound,
    RefusesSound,
    KeepsOnRefusal,
    PayloadOnRefusal,
    FiveForSix,
    FiveForDoubled,
    SplitsDoubled,
    GoesOnAfterDoubled,
    WiderUnread,
    WiderUnsound,
    /// an MJ with a buffer for others, and others with none for an MJ
    ShortMany,
    LongForOne,
    /// an MJ in a log with room for others
    ShortLog,
    /// each pair in the state that the record began with
    FromTheStart,
    LinkTooMany,
    LeftChainAlone,
}

const CARELESS: [Careless; 18] = [
    Careless::PastAnswer,
    Careless::BesideWords,
    Careless::TakesUnsound,
    Careless::RefusesSound,
    Careless::KeepsOnRefusal,
    Careless::PayloadOnRefusal,
    Careless::FiveForSix,
    Careless::FiveForDoubled,
    Careless::SplitsDoubled,
    Careless::GoesOnAfterDoubled,
    Careless::WiderUnread,
    Careless::WiderUnsound,
    Careless::ShortMany,
    Careless::LongForOne,
    Careless::ShortLog,
    Careless::FromTheStart,
    Careless::LinkTooMany,
    Careless::LeftChainAlone,
];

fn read_as_wider(lent: &Lent, record: &[u8]) -> bool {
    let read = read_record(record, job_of(lent.view()).known());
    read.is_ok_and(|(r, _)| r.types().into_iter().any(is_wider))
}

/// An MJ whose pairs do not know of one another.
fn from_the_start(w: &mut [u32], p: &mut Params, record: &[u8], a: &mut [u8], length: &mut u32) -> Option<u32> {
    sound(w, p).ok()?;
    let read = read_record(record, job_of(View { words: w, params: p }).known());
    let (Record::MJ(pairs), n) = read.ok()? else { return None };
    if n < record.len() || a.len() < answer_bytes(record) {
        return None;
    }
    let (start, mut out) = (Lent { words: w.to_vec(), params: *p }, vec![]);
    for (case, x, y) in pairs {
        (w.copy_from_slice(&start.words), *p = start.params);
        let number = Mimic.record(w, p, &case.record(x, y).bytes(), a, length);
        put_pair(number as u8, &a[..*length as usize], &mut out)
    }
    a[..out.len()].copy_from_slice(&out);
    *length = out.len() as u32;
    Some(0)
}

impl Careless {
    /// what those that are careless about MJ answer
    fn of_many(&self, w: &mut [u32], p: &mut Params, r: &[u8], a: &mut [u8], length: &mut u32) -> Option<u32> {
        match self {
            Careless::ShortMany if (MIN_ANSWER..answer_bytes(r)).contains(&a.len()) => {
                let mut long = vec![0; answer_bytes(r)];
                let number = Mimic.record(w, p, r, &mut long, length);
                a[..*length as usize].copy_from_slice(&long[..*length as usize]);
                Some(number)
            }
            Careless::LongForOne if r == b"M" && a.len() < answer_bytes(b"MJ") => {
                *length = 0;
                Some(15)
            }
            Careless::FromTheStart => from_the_start(w, p, r, a, length),
            _ => None,
        }
    }
}

impl Calls for Careless {
    fn counts(&self) -> bool {
        false
    }
    fn record(&self, w: &mut [u32], p: &mut Params, r: &[u8], a: &mut [u8], length: &mut u32) -> u32 {
        let (end, first) = (a.len(), w.as_mut_ptr());
        if let Some(number) = self.of_many(w, p, r, a, length) {
            return number;
        }
        let lent = Lent { words: w.to_vec(), params: *p };
        match (self, Mimic.record(w, p, r, a, length)) {
            // the guards stand there, in the same allocation
            (Careless::PastAnswer, n) => unsafe {
                *a.as_mut_ptr().add(end) = 0;
                n
            },
            (Careless::BesideWords, n) => unsafe {
                *first.sub(1) = 0;
                n
            },
            (Careless::TakesUnsound, 15) => 5,
            (Careless::RefusesSound, 0) => 15,
            (Careless::KeepsOnRefusal, n @ 5..=15) => {
                w[7] ^= 1;
                n
            }
            (Careless::PayloadOnRefusal, n @ 5..=15) => {
                a[0] ^= 1;
                n
            }
            (Careless::FiveForSix, 6) | (Careless::FiveForDoubled, 18) => 5,
            (Careless::WiderUnread, 0) if read_as_wider(&lent, r) => 5,
            (Careless::WiderUnsound, 0) if !job_of(lent.view()).has_state() => 15,
            (Careless::LinkTooMany, n @ 0..=4) => {
                compare::a_link_more(r, &mut a[..*length as usize]);
                n
            }
            (Careless::LeftChainAlone, n @ 0..=4) => {
                compare::left_alone(lent.view(), r, &mut a[..*length as usize]);
                n
            }
            (_, n) => n,
        }
    }
    fn split(&self, w: &mut [u32], p: &mut Params, stream: &[u8], rest: &mut usize) {
        Mimic.split(w, p, stream, rest);
        let number = read_record(stream, &any_variable()).err().map(|x| x.number);
        if let (Careless::SplitsDoubled, Some(18)) = (self, number) {
            *rest -= 1
        }
    }
    fn job(&self, w: &mut [u32], p: &mut Params, s: &[u8], more: bool, log: &mut [u8], lines: &mut Lines) -> u32 {
        if let (Careless::ShortLog, true) = (self, (LINE..line_bytes(s)).contains(&log.len())) {
            let mut long = vec![0; line_bytes(s)];
            let number = Mimic.job(w, p, s, more, &mut long, lines);
            log[..lines.written].copy_from_slice(&long[..lines.written]);
            return number;
        }
        let number = Mimic.job(w, p, s, more, log, lines);
        if let Careless::GoesOnAfterDoubled = self {
            lines.ended &= !log[..lines.written].ends_with(b" 18\n")
        }
        number
    }
}

#[test]
fn careless_calls_are_found() {
    with_stack(|| {
        for (i, careless) in CARELESS.iter().enumerate() {
            let mut tally = damage::Tally::default();
            let found = damage::records(careless, 61, 20, &mut tally)
                .and_then(|_| damage::wild(careless, 42, 6, &mut tally))
                .and_then(|_| damage::lend(&mut Lender::new(careless, &wider()), b"SV", MIN_ANSWER, &mut tally))
                .and_then(|_| damage::lend(&mut Lender::new(careless, &merged()), JOINED, MIN_ANSWER, &mut tally))
                .and_then(|_| many::edges(careless).map(drop));
            assert!(found.is_err(), "fault {}", i)
        }
    })
}

#[test]
fn a_state_of_core_rs_goes_through_the_calls() {
    let lent = after("SD {copy} <{}>\nFV\nNV\nJN V0, S0<V1>\nNC bits V1\nIN vector<_>");
    for calls in all() {
        let mut lender = Lender::new(calls, &lent);
        let record = assemble("SD {copy} <{}>\nRD S0<V1>", true).unwrap()[5..].to_vec();
        assert_eq!(lender.record(&record, 4096).unwrap().number, 0);
        assert!(lender.unchanged());
        assert_eq!(lender.record(&record, 4095).unwrap().number, 15);
        assert_eq!(lender.record(b"XX", 4095).unwrap().number, 15)
    }
}

//---- spellings -----------------------------------------------------------------------------------------------------

/// 02's R-12: equal bytes beside equal types, and answers sent back
#[test]
fn spellings_are_equal_where_the_types_agree() {
    with_stack(|| {
        for calls in all() {
            let tally = spelled::many(calls, 71, 40).unwrap();
            assert_eq!(tally.jobs, 40);
            assert!(tally.equal > 1000 && tally.otherwise_written > 1000 && tally.unequal > 1000);
            assert!(tally.near.len() == 7 && tally.again.contains_key(&0), "{}", tally.text());
            // but for a list turned round they miss one another
            let missed = tally.near.iter().filter(|(what, _)| !what.contains("list") && !what.contains("both"));
            assert!(
                missed.map(|(_, [unequal, equal])| *unequal > 0 && *equal == 0).all(|good| good),
                "{}",
                tally.text()
            );
            let altered = Altered { calls, alter: Alter::Spelled };
            assert!(spelled::many(&altered, 71, 40).is_err())
        }
    })
}

//---- traps and benchmarks ----------------------------------------------------------------------------------------

#[test]
fn the_header_promises_the_stack_that_is_tried_and_256_kib() {
    let (_, rest) = include_str!("../../crates/exports/pongiwaru.h").split_once("PONGIWARU_STACK_BYTES = ").unwrap();
    let bytes: usize = rest.split_whitespace().next().unwrap().parse().unwrap();
    assert_eq!(bytes, traps::STACK + (256 << 10))
}

#[test]
fn traps_are_answered_at_once() {
    let Some(engine) = engine() else { return };
    let lines = traps::run(engine);
    let number =
        |state: &str, record: &str| lines.iter().find(|l| l.state == state && l.record == record).unwrap().number;
    assert_eq!((number("ladder", "RD V0"), number("ladder", "UF V0"), number("ladder", "JN V0, V2")), (7, 14, 7));
    assert_eq!((number("tower", "RD V0"), number("circle", "RD V0"), number("deep", "JN V0, V2")), (7, 9, 8));
    let asks = |state, set| number(state, format!("SV, 512 ask {}", set).as_str());
    assert_eq!((asks("ladder", "copy, drop, store"), asks("ladder", "all four"), asks("tower", "drop")), (0, 14, 0));
    assert_eq!((asks("circle", "nothing"), asks("right", "nothing"), asks("right", "all four")), (9, 9, 9));
    assert_eq!((asks("leaning", "drop"), asks("leaning", "copy, drop, store")), (0, 14));
    assert_eq!((asks("chain", "drop"), asks("chain", "copy, drop, store"), asks("chains", "all four")), (0, 14, 0));
    assert_eq!((number("crossed", "JN V0, V2"), number("crossed", "SU V2, V0")), (0, 0));
    assert_eq!((number("literals", "SV"), number("literals", "JN V0, V2")), (0, 0));
    let asks_for = |what| number("numeric", format!("SV, 273 ask for {}", what).as_str());
    assert_eq!((asks_for("a number"), asks_for("bits"), asks_for("an order")), (0, 0, 0));
    let all_four = lines.iter().find(|l| l.state == "numeric" && l.record == "SV, 60 ask for all four").unwrap();
    assert!(all_four.number == 0 && all_four.payload > 4000, "{}", all_four.text());
    let pairs =
        |state: &str, record: &str| &lines.iter().find(|l| l.state == state && l.record == record).unwrap().pairs;
    // at once, each of them; and in `beneath` each goes down all 254 calls
    assert_eq!(*pairs("ladder", "MJ 15 times join V0, V2"), [7; 15]);
    assert_eq!(*pairs("ladder", "MJ 15 times join V0, V0"), [0; 15]);
    assert_eq!(*pairs("beneath", "MJ 15 times join V0, V2"), [4; 15]);
    assert!(lines.iter().any(|l| l.pairs == [14; 15]));
    lines.iter().for_each(|l| assert!(!l.slow(), "{}", l.text()));
    // what is deepest is seen: a type 2,046 deep, 100 bytes a level and more
    let stacks = traps::most_stack(&lines);
    assert!(stacks.iter().all(|stack| (2046 * 100..traps::STACK).contains(stack)), "{:?}", stacks)
}

#[test]
fn benchmark_jobs_have_core_rs_s_logs() {
    let Some(engine) = engine() else { return };
    for name in bench::WORKS {
        let work = bench::work(name);
        assert!(bench::same_logs(&work, engine), "{}", name);
        let sizes = [["small", "middle", "large"], ["body-10", "body-100", "body-1000"]];
        let size = sizes.iter().find_map(|names| names.iter().position(|n| *n == name));
        assert!(size.is_none_or(|i| 10usize.pow(i as u32 + 1) == work.vars()), "{}: {}", name, work.vars());
        let answers: BTreeSet<_> = work.counts().into_keys().map(|(_, number)| number).collect();
        assert_eq!(answers.len(), if name.starts_with("body") { 5 } else { 1 }, "{}", name)
    }
}

#[test]
fn costs_are_told_for_each_place_once_both_logs_are_equal() {
    let Some(engine) = engine() else { return };
    let places: usize = bench::costs::AXES.iter().map(|a| a.at.len()).sum();
    let table = bench::costs::table(engine, 1);
    assert_eq!(table.lines().skip(1).filter(|l| l.split('\t').count() == 5).count(), places * 3 * 2)
}
