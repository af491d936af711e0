//! What a table of whole jobs does not show: a record of each mark, a lent record, and the slowest records on sound states.
use super::{timed, Lent};
use crate::{
    calls::{answer_bytes, Calls, Lines},
    compare::pairs_shown,
    lent::{self, fresh, sound, MAX_CONSTRAINTS},
    record::{unhex, MAX_PAIRS},
    text::assemble,
    traps,
};
use std::fmt::Write as _;

//---- by mark -------------------------------------------------------------------------------------------------

/// records of a row: the time of a call without them is taken off, and the rest shared among them
const EACH: usize = 16;
const DECLARED: &str = "SD {copy, drop} <{drop}>\n";
/// read first in both calls of a row: it is its part to save the rows of all variables, once in a call
const FIRST: &str = "UF u8\n";

pub struct Row {
    pub name: &'static str,
    answer: u8,
    records: usize,
    /// an MJ's pairs, and what each of them is answered
    pairs: Option<(usize, u8)>,
    /// run before, and not timed
    before: Vec<u8>,
    /// what both calls begin with
    first: &'static str,
    text: String,
}

impl Row {
    /// records, of an MJ pairs: what the time is shared among
    pub fn shares(&self) -> usize {
        self.pairs.map_or(self.records, |(n, _)| n)
    }

    /// what the call without the row's records reads, and the one with them
    fn streams(&self) -> [Vec<u8>; 2] {
        [declared(self.first), declared(&(self.first.to_string() + &self.text))]
    }
}

fn lines(n: usize, line: impl Fn(usize) -> String) -> String {
    (0..n).map(|i| line(i) + "\n").collect()
}

/// variables of the two states that the rows are tried on: the larger one has room for what they take
const SIZES: [usize; 2] = [100, 960];

/// V0 to V15 u64, to V23 vectors, to V27 structs, to V35 merged by two, to V79 open, to V95 numeric with a constraint each;
/// and past the first 100 variables two in three u64.
fn state(vars: usize) -> String {
    let more = lines(vars - 100, |_| "FV".into()) + &lines((vars - 100) * 2 / 3, |i| format!("JN V{}, u64", 100 + i));
    let taken = lines(80, |_| "FV".into()) + &lines(16, |_| "NV".into());
    let bound = |i| format!("JN V{}, {}", i, if i < 16 { "u64" } else { ["vector<u8>", "S0<u64>"][i / 24] });
    let merged = lines(4, |i| format!("JN V{}, V{}", 28 + i, 32 + i));
    taken + &lines(28, bound) + &merged + &lines(16, |i| format!("NC numeric V{}", 80 + i)) + &more
}

fn row(name: &'static str, answer: u8, records: usize, line: impl Fn(usize) -> String) -> Row {
    Row { name, answer, records, pairs: None, before: vec![], first: FIRST, text: lines(records, line) }
}

/// records of a state with the declaration
fn declared(text: &str) -> Vec<u8> {
    let skipped = assemble(DECLARED, true).unwrap().len();
    assemble(&(DECLARED.to_string() + text), true).unwrap()[skipped..].to_vec()
}

/// one SV on a list that SV has emptied and these records fill
fn solved(name: &'static str, constrained: String) -> Row {
    Row { before: declared(&("SV\n".to_string() + &constrained)), ..row(name, 0, 1, |_| "SV".into()) }
}

/// one MJ of as many pairs as it may have, told by the pair
fn many(name: &'static str, answer: u8, pair: impl Fn(usize) -> String) -> Row {
    let text = format!("MJ {}", (0..MAX_PAIRS).map(pair).collect::<Vec<_>>().join("; "));
    Row { pairs: Some((MAX_PAIRS, answer)), ..row(name, 0, 1, |_| text.clone()) }
}

fn pairs() -> [Row; 6] {
    [
        many("MJ, no variable", 0, |_| "join vector<u8>, vector<u8>".into()),
        many("MJ, binds", 0, |i| format!("join V{}, vector<u8>", 36 + i)),
        many("MJ, merges two open", 0, |i| format!("join V{}, V{}", 36 + i, 60 + i)),
        many("MJ, a bound one", 0, |i| format!("join V{}, u64", i)),
        many("MJ, fails with 2", 2, |i| format!("join V{}, bool", i)),
        many("MJ, fails with 1", 1, |_| "subtype &u8, &mut u8".into()),
    ]
}

/// of so many variables; the constraints' stay too
fn clearings() -> [Row; 3] {
    let kp = |name, n: usize| {
        let listed: Vec<_> = (0..n).map(|v| format!("V{}", v)).collect();
        row(name, 0, 1, |_| format!("KP {}", listed.join(", ")))
    };
    [kp("KP, none listed", 0), kp("KP, 16 listed", 16), kp("KP, 100 listed", 100)]
}

pub fn rows() -> Vec<Row> {
    let each = |name, line: &str| row(name, 0, EACH, |_| line.into());
    let over = |name, answer, line: fn(usize) -> String| row(name, answer, EACH, line);
    let one = vec![
        Row { first: "", ..row("a call's first, UF", 0, 1, |_| FIRST.trim_end().into()) },
        each("SD", "SD {copy} <{}>"),
        each("FV", "FV"),
        each("NV", "NV"),
        over("SN", 0, |i| format!("SN V{}", 36 + i)),
        each("JN, no variable", "JN vector<u8>, vector<u8>"),
        over("JN, binds", 0, |i| format!("JN V{}, vector<u8>", 36 + i)),
        over("JN, merges two open", 0, |i| format!("JN V{}, V{}", 36 + i, 60 + i)),
        over("JN, a bound one", 0, |i| format!("JN V{}, u64", i)),
        over("JN, fails with 2", 2, |i| format!("JN V{}, bool", i)),
        over("JN, fails with 4", 4, |i| format!("JN V{}, vector<V{}>", 36 + i, 36 + i)),
        each("JL, no variable", "JL vector<u8>, vector<u8>"),
        over("JL, binds", 0, |i| format!("JL V{}, vector<u8>", 36 + i)),
        over("JL, merges two open", 0, |i| format!("JL V{}, V{}", 36 + i, 60 + i)),
        over("JL, a bound one", 0, |i| format!("JL V{}, u64", i)),
        over("JL, fails with 2", 2, |i| format!("JL V{}, bool", i)),
        over("JL, fails with 4", 4, |i| format!("JL V{}, vector<V{}>", 36 + i, 36 + i)),
        each("SU, no variable", "SU &mut u8, &u8"),
        over("SU, binds", 0, |i| format!("SU V{}, u64", 36 + i)),
        over("SU, fails with 1", 1, |_| "SU &u8, &mut u8".into()),
        over("UF", 0, |i| format!("UF V{}", i)),
        over("UL", 0, |i| format!("UL V{}", i)),
        over("RD, a variable", 0, |i| format!("RD V{}", i)),
        over("RD, a list", 0, |i| format!("RD (V{}, vector<V{}>)", i, 16 + i % 8)),
        over("CN, a variable", 0, |i| format!("CN V{}", i)),
        over("CN, a list", 0, |i| format!("CN (V{}, vector<V{}>)", i, 16 + i % 8)),
        over("XP, a variable", 0, |i| format!("XP V{}", i)),
        over("XP, a list", 0, |i| format!("XP (V{}, vector<V{}>)", i, 16 + i % 8)),
        over("TS", 0, |i| format!("TS [P1 = V{}] (P1, vector<P1>)", i)),
        each("IN", "IN S0<_>"),
        each("RM", "RM S0<_>"),
        over("NC", 0, |i| format!("NC numeric V{}", i)),
        over("BC", 0, |i| format!("BC V{}", i)),
        over("SC", 0, |i| format!("SC V{}", i)),
        row("SV, 16 of each", 0, 1, |_| "SV".into()),
        solved("SV, empty list", String::new()),
        solved("SV, 16 NC", lines(16, |i| format!("NC numeric V{}", i))),
        solved("SV, 16 IN", lines(16, |_| "IN S0<u8>".into())),
        solved("SV, 16 IN that fail", lines(16, |_| "IN S0<P1>".into())),
    ];
    one.into_iter().chain(pairs()).chain(clearings()).collect()
}

/// a job that goes on from the state that is lent; the log's length
#[no_mangle]
#[inline(never)]
pub fn oracle_timed_more(calls: &dyn Calls, stream: &[u8], lent: &mut Lent) -> usize {
    let mut lines = Lines::default();
    let number = calls.job(&mut lent.words, &mut lent.params, stream, false, &mut lent.log, &mut lines);
    assert!(number == 0 && lines.read == stream.len());
    lines.written
}

pub struct Marks<'a> {
    calls: &'a dyn Calls,
    state: lent::Lent,
    lent: Lent,
}

impl Marks<'_> {
    pub fn new(calls: &dyn Calls, vars: usize) -> Marks<'_> {
        let mut lent = Lent::new();
        super::oracle_timed_fresh_job(&assemble(&(DECLARED.to_string() + &state(vars)), true).unwrap(), &mut lent);
        let state = lent::Lent { words: lent.words.clone(), params: lent.params };
        assert!(state.words[2] == vars as u32 && sound(&state.words, &state.params).is_ok());
        Marks { calls, state, lent }
    }

    /// one call on the state after the records before it: seconds, and the log's length
    fn once(&mut self, before: &[u8], stream: &[u8]) -> (f64, usize) {
        self.lent.words.copy_from_slice(&self.state.words);
        self.lent.params = self.state.params;
        if !before.is_empty() {
            let Lent { words, params, log, .. } = &mut self.lent;
            assert!(self.calls.job(words, params, before, false, log, &mut Lines::default()) == 0)
        }
        let mut n = 0;
        (timed(|| n = oracle_timed_more(self.calls, stream, &mut self.lent)), n)
    }

    /// seconds of a call without the row's records, and of one with them
    fn both(&mut self, row: &Row, streams: &[Vec<u8>; 2]) -> [f64; 2] {
        [0, 1].map(|k| self.once(&row.before, &streams[k]).0)
    }

    /// whether every answer is the row's
    fn answered(&mut self, row: &Row, [without, with]: &[Vec<u8>; 2]) -> bool {
        let (_, skipped) = self.once(&row.before, without);
        let (_, n) = self.once(&row.before, with);
        let log = std::str::from_utf8(&self.lent.log[skipped..n]).unwrap();
        let answers: Vec<_> = log.lines().map(|l| l.split(' ').nth(1)).collect();
        let pairs = |(n, number): (usize, u8)| {
            let payload = unhex(log.trim_end().split(' ').nth(2).unwrap()).unwrap();
            pairs_shown(&payload).iter().filter(|(m, _)| *m == number).count() == n
        };
        let all = answers.iter().all(|a| *a == Some(&row.answer.to_string()));
        answers.len() == row.records && all && row.pairs.is_none_or(pairs)
    }

    /// nanoseconds of a record of the row, or of a pair
    fn measured(&mut self, row: &Row, runs: usize) -> f64 {
        let streams = row.streams();
        assert!(self.answered(row, &streams), "{}: another answer", row.name);
        let mut best = [f64::MAX; 2];
        for _ in 0..runs {
            let now = self.both(row, &streams);
            best = [best[0].min(now[0]), best[1].min(now[1])]
        }
        (best[1] - best[0]) * 1e9 / row.shares() as f64
    }
}

fn marks_table(calls: &dyn Calls, runs: usize) -> String {
    let mut states = SIZES.map(|n| Marks::new(calls, n));
    let mut out = format!(
        "by mark, engine alone, ns a record, of MJ a pair, on states of {:?} variables, and the difference:\n",
        SIZES
    );
    for row in rows() {
        let [a, b] = [0, 1].map(|i| states[i].measured(&row, runs));
        writeln!(out, "  {:<20}{:>8.0}{:>8.0}{:>+8.0}", row.name, a, b, b - a).unwrap()
    }
    out
}

/// Each row's two calls on each state, for a profiler that counts them apart.
pub fn marks_once(calls: &dyn Calls) -> String {
    let mut states = SIZES.map(|n| Marks::new(calls, n));
    let told = |row: &Row| {
        let streams = row.streams();
        for s in &mut states {
            s.both(row, &streams);
        }
        format!("{}\t{}\n", row.shares(), row.name)
    };
    rows().iter().map(told).collect()
}

//---- lent records ------------------------------------------------------------------------------------------------

/// V0 bound to V1, V1 to V2 and so on, for n variables; the last is open.
fn open_chain(n: usize) -> lent::Lent {
    let mut s = fresh();
    (0..n).for_each(|_| assert!(s.add_var().is_some()));
    for v in 1..n {
        let next = s.add_node(6, 0, v as u32, 0, &[]).unwrap();
        s.bind(v - 1, next)
    }
    s
}

/// Such a chain that ends in `()`, and two variables more: lists of lists, four deep, whose ends are all V0, or all V1.
fn chain(n: usize) -> lent::Lent {
    let mut s = open_chain(n);
    let unit = s.add_node(0, 0, 0, 0, &[]).unwrap();
    s.bind(n - 1, unit);
    for v in 0..2 {
        let end = s.add_node(6, 0, v, 0, &[]).unwrap();
        let top = (0..4).fold(end, |below, _| s.add_node(4, 0, 0, 8, &[below; 8]).unwrap());
        let list = s.add_var().unwrap();
        s.bind(list, top)
    }
    s
}

/// Such an open chain, all of it numeric, with as many constraints on V0 as there may be.
fn numeric_chain(n: usize) -> lent::Lent {
    let mut s = open_chain(n);
    (0..n).for_each(|v| s.set_mark(v, 1));
    let first = s.add_node(6, 0, 0, 0, &[]).unwrap();
    (0..MAX_CONSTRAINTS).for_each(|_| assert!(s.add_constraint(1, 1, first, 0).is_some()));
    s
}

/// An open chain with as many ability constraints on V0 as there may be, each for all four.
fn asking_chain(n: usize, last: Option<u8>) -> lent::Lent {
    let mut s = open_chain(n);
    if let Some(builtin) = last {
        let end = s.add_node(3, 0, 0, builtin as u32, &[]).unwrap();
        s.bind(n - 1, end)
    }
    let first = s.add_node(6, 0, 0, 0, &[]).unwrap();
    (0..MAX_CONSTRAINTS).for_each(|_| assert!(s.add_constraint(0, 1, first, 15).is_some()));
    s
}

/// so many open variables
fn taken(n: usize) -> lent::Lent {
    let mut s = fresh();
    (0..n).for_each(|_| assert!(s.add_var().is_some()));
    s
}

/// each variable a list of the next, round about: all nodes and variables
fn ring() -> lent::Lent {
    let mut s = taken(lent::MAX_VARS);
    for v in 0..lent::MAX_VARS {
        let next = s.add_node(6, 0, ((v + 1) % lent::MAX_VARS) as u32, 0, &[]).unwrap();
        let list = s.add_node(4, 0, 0, 1, &[next]).unwrap();
        s.bind(v, list)
    }
    s
}

/// lists of lists of eight, with `n` variables at their ends
fn ends(n: usize, variable: fn(usize) -> usize) -> String {
    let nest = |parts: Vec<String>| {
        let lists = parts.chunks(8).map(|c| if c.len() == 1 { c[0].clone() } else { format!("({})", c.join(", ")) });
        lists.collect::<Vec<_>>()
    };
    nest(nest(nest((0..n).map(|i| format!("V{}", variable(i))).collect()))).remove(0)
}

/// the best of some runs of one lent record: its answer, and seconds
fn lent_record(calls: &dyn Calls, state: &lent::Lent, record: &str, runs: usize) -> (u32, f64) {
    assert_eq!(sound(&state.words, &state.params), Ok(()));
    let bytes = assemble(record, true).unwrap();
    let (mut answer, mut length, mut number, mut best) = (vec![0; answer_bytes(&bytes)], 0, 0, f64::MAX);
    for _ in 0..runs {
        let (mut words, mut params) = (state.words.clone(), state.params);
        best = best.min(timed(|| number = calls.record(&mut words, &mut params, &bytes, &mut answer, &mut length)))
    }
    (number, best)
}

/// UL beside UF, and JL beside JN, where the chains are long (02, R-9)
fn links_table(calls: &dyn Calls, runs: usize) -> String {
    let mut out = String::from("a lent record, and the one that counts its links:\n");
    let (long, half, linked) = (chain(1000), chain(500), traps::linked());
    for (state, lent, plain, fields, shown) in [
        ("chain of 1,000", &long, "UF", "V0", "V0"),
        ("chain of 1,000", &long, "JN", "V0, ()", "V0, ()"),
        ("chain of 1,000", &long, "JN", "V0, V1", "V0, V1"),
        ("chain of 500", &half, "JN", "V500, V501", "4,096 V0 and V1"),
        ("chain of 480", &linked, "JN", "V0, V2", "512 V8 and V9"),
    ] {
        let counting = if plain == "UF" { "UL" } else { "JL" };
        let [(number, a), (_, b)] =
            [plain, counting].map(|m| lent_record(calls, lent, &format!("{} {}", m, fields), runs));
        writeln!(out, "  {:<18}{} of {:<24}{:>2}{:>10.1}{:>10.1} us", state, plain, shown, number, a * 1e6, b * 1e6)
            .unwrap()
    }
    out
}

fn lent_table(calls: &(dyn Calls + Sync), runs: usize) -> String {
    let mut out = String::from("a lent record, its answer:\n");
    let [middle, large] = SIZES.map(|n| Marks::new(calls, n).state);
    let (long, half, numeric) = (chain(1000), chain(500), numeric_chain(1000));
    let (open, signer) = (asking_chain(1000, None), asking_chain(1000, Some(1)));
    let [apart, numbered] = ["RD", "CN"].map(|mark| format!("{} {}", mark, ends(504, |i| i)));
    let [wide, spelled] = ["RD", "CN"].map(|mark| format!("{} {}", mark, ends(504, |_| 0)));
    for (state, lent, record, shown) in [
        ("fresh", &fresh(), "UF u8", "UF u8"),
        ("100 variables", &middle, "UF V0", "UF V0"),
        ("960 variables", &large, "UF V0", "UF V0"),
        ("chain of 1,000", &long, "UF u8", "UF u8"),
        ("chain of 1,000", &long, "UF V0", "UF V0"),
        ("chain of 1,000", &long, "RD V0", "RD V0"),
        ("chain of 1,000", &long, &wide, "RD of a list with 504 V0"),
        ("chain of 1,000", &long, "CN V0", "CN V0"),
        ("chain of 1,000", &long, &spelled, "CN of a list with 504 V0"),
        ("504 variables", &taken(504), &apart, "RD of a list with 504 variables"),
        ("504 variables", &taken(504), &numbered, "CN of a list with 504 variables"),
        ("chain of 1,000", &long, "RD V1000", "RD of a list with 4,096 V0"),
        ("chain of 500", &half, "JN V500, V501", "JN of 4,096 V0 and V1"),
        ("100 variables", &middle, "KP", "KP, what constraints reach stays"),
        ("960 variables", &large, "KP", "KP, what constraints reach stays"),
        ("chain of 1,000", &long, "KP V0", "KP V0, 1,000 stay"),
        ("1,024 variables", &ring(), "KP V0", "KP V0, all stay"),
        ("chain of 1,000", &numeric, "SV", "SV, numeric, 512 constraints"),
        ("chain of 1,000", &open, "SV", "SV, 512 ask all four"),
        ("chain to a signer", &signer, "SV", "SV, 512 ask all four"),
    ] {
        let (number, seconds) = lent_record(calls, lent, record, runs);
        writeln!(out, "  {:<18}{:<30}{:>2}{:>10.1} us", state, shown, number, seconds * 1e6).unwrap()
    }
    let mut tried = traps::run(calls);
    tried.sort_by(|a, b| b.seconds.total_cmp(&a.seconds));
    writeln!(out, "the slowest of {} records on other sound states (oracle traps):", tried.len()).unwrap();
    tried.iter().take(4).for_each(|l| writeln!(out, "  {}", l.text()).unwrap());
    out
}

//---- a long job, cleared or not (02, R-11) -----------------------------------------------------------------------

/// as many functions as fit without KP
const FUNCTIONS: usize = 170;

/// Functions one after the other, each with four variables, a constraint and its SV. `every`: so many, and then KP of none.
fn functions(every: Option<usize>) -> Vec<u8> {
    let (mut text, mut v) = (DECLARED.to_string(), 0);
    for n in 1..=FUNCTIONS {
        text += &format!("FV\nFV\nNV\nJN V{}, vector<V{}>\nJN V{}, V{}\n", v + 1, v + 2, v, v + 1);
        text += &format!("SU V{}, u64\nRD V{}\nUF V{}\nNC numeric V{}\nSV\n", v + 2, v, v + 1, v + 2);
        v += 4;
        if every.is_some_and(|every| n % every == 0) {
            text += "KP\n";
            v = 0
        }
    }
    assemble(&text, true).unwrap()
}

fn functions_table(runs: usize) -> String {
    let mut out = format!("a job of {} functions, engine alone, ns a function:\n", FUNCTIONS);
    let mut lent = Lent::new();
    for (shown, every) in [("without KP", None), ("KP after each ten", Some(10)), ("KP after each", Some(1))] {
        let stream = functions(every);
        let n = super::oracle_timed_fresh_job(&stream, &mut lent);
        let log = std::str::from_utf8(&lent.log[..n]).unwrap();
        assert!(log.lines().all(|l| l.split(' ').nth(1) == Some("0")), "{}: another answer", shown);
        let [nodes, _, vars, ..] = lent.words[..] else { unreachable!("words") };
        let once = |lent: &mut Lent| timed(|| super::oracle_timed_fresh_job(&stream, lent));
        let best = (0..runs).map(|_| once(&mut lent)).fold(f64::MAX, f64::min);
        let each = best * 1e9 / FUNCTIONS as f64;
        writeln!(out, "  {:<20}{:>8.0}, {} nodes and {} variables at the end", shown, each, nodes, vars).unwrap()
    }
    out
}

pub fn table(calls: &(dyn Calls + Sync), runs: usize) -> String {
    let one = marks_table(calls, 10 * runs) + &links_table(calls, runs);
    one + &functions_table(runs) + &lent_table(calls, runs)
}
