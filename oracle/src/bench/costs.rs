//! Cost against the variables in use, the length of a chain and the size of a type: JN, RD and SV, ours beside core.rs's
//! from bytes to a log. The table that tools/costs.py draws.
use super::{apart::oracle_timed_more, form_on, oracle_timed_fresh_job, timed, Counter, Form, Lent};
use crate::{
    calls::{job_of, Calls},
    lent::{self, fresh, sound},
    text::assemble,
};
use std::{fmt::Write as _, hint::black_box};

pub const RECORDS: [&str; 3] = ["JN", "RD", "SV"];

/// A point's state, the records that are timed on it, and how many these are.
struct Point {
    state: lent::Lent,
    records: String,
    many: usize,
}

/// the state that these records leave
fn left(before: String) -> lent::Lent {
    let mut lent = Lent::new();
    oracle_timed_fresh_job(&assemble(&before, true).unwrap(), &mut lent);
    lent::Lent { words: lent.words, params: lent.params }
}

/// what a picture's columns go by, and the points' places on it
pub struct Axis {
    pub name: &'static str,
    pub at: &'static [usize],
    point: fn(&str, usize) -> Point,
}

pub const AXES: [Axis; 3] = [
    Axis { name: "variables", at: &[10, 20, 50, 100, 200, 500, 1000], point: by_variables },
    Axis { name: "links of a chain", at: &[1, 2, 5, 10, 20, 50, 100, 200, 500, 900], point: by_links },
    Axis { name: "parts of a type", at: &[1, 9, 25, 49, 97, 201], point: by_parts },
];

fn lines(n: usize, line: impl Fn(usize) -> String) -> String {
    (0..n).map(|i| line(i) + "\n").collect()
}

/// `vars` variables, the first half of them u64; 16 constraints for SV
fn by_variables(record: &str, vars: usize) -> Point {
    let half = vars / 2;
    let asked = if record == "SV" { lines(16, |i| format!("NC numeric V{}", i % half)) } else { String::new() };
    let state = left(lines(vars, |_| "FV".into()) + &lines(half, |i| format!("JN V{}, u64", i)) + &asked);
    match record {
        "JN" => Point { state, records: lines(half.min(16), |i| format!("JN V{}, u64", half + i)), many: half.min(16) },
        "RD" => Point { state, records: lines(16, |_| "RD (V0, vector<V1>)".into()), many: 16 },
        _ => Point { state, records: "SV\n".into(), many: 1 },
    }
}

/// V0 bound to V1, V1 to V2 and so on, and the last to u64; of 900 variables, all bound; 16 constraints for SV
fn by_links(record: &str, links: usize) -> Point {
    let mut state = fresh();
    (0..900).for_each(|_| assert!(state.add_var().is_some()));
    let end = state.add_node(3, 0, 0, 3, &[]).unwrap();
    for v in 0..900 {
        let next = if v + 1 < links { state.add_node(6, 0, v as u32 + 1, 0, &[]).unwrap() } else { end };
        state.bind(v, next)
    }
    if record == "SV" {
        let first = state.add_node(6, 0, 0, 0, &[]).unwrap();
        (0..16).for_each(|_| assert!(state.add_constraint(1, 1, first, 0).is_some()))
    }
    match record {
        "JN" => Point { state, records: lines(16, |_| "JN V0, u64".into()), many: 16 },
        "RD" => Point { state, records: lines(16, |_| "RD V0".into()), many: 16 },
        _ => Point { state, records: "SV\n".into(), many: 1 },
    }
}

/// a type of `inner` types of eight parts each, and what is left of them
fn tree(open: &str, close: &str, leaf: &str, inner: usize) -> String {
    if inner == 0 {
        return leaf.into();
    }
    let part = |i| tree(open, close, leaf, (inner - 1) / 8 + (i < (inner - 1) % 8) as usize);
    open.to_string() + &(0..8).map(part).collect::<Vec<_>>().join(", ") + close
}

/// 100 variables, the first half of them u64; of SV a struct whose argument is such a type
fn by_parts(record: &str, parts: usize) -> Point {
    let inner = parts / 8;
    let argument = tree("S0<", ">", "u8", inner);
    let asked = format!("IN S0<{}, u8, u8, u8, u8, u8, u8, u8>\n", argument);
    let declared = "SD {copy, drop} <{drop}, {drop}, {drop}, {drop}, {drop}, {drop}, {drop}, {drop}>\n".to_string();
    let state = declared + &lines(100, |_| "FV".into()) + &lines(50, |i| format!("JN V{}, u64", i));
    match record {
        "JN" => {
            let records = lines(4, |i| format!("JN V{}, {}", 50 + i, tree("(", ")", "u8", inner)));
            Point { state: left(state), records, many: 4 }
        }
        "RD" => {
            let records = lines(4, |_| format!("RD {}", tree("(", ")", "V0", inner)));
            Point { state: left(state), records, many: 4 }
        }
        _ => Point { state: left(state + &asked), records: "SV\n".into(), many: 1 },
    }
}

//---- measuring -------------------------------------------------------------------------------------------------

/// read before the timed records on both sides: it is its part to save all rows, and to fill the caches
const FIRST: &str = "UF u8\n";

/// nanoseconds of a record, from the best call with the records and the best with the first one alone
fn a_record(p: &Point, runs: usize, mut call: impl FnMut(&[u8]) -> f64) -> f64 {
    let [first, all] = [FIRST.to_string(), FIRST.to_string() + &p.records].map(|t| assemble(&t, true).unwrap());
    let mut best = [f64::MAX; 2];
    for _ in 0..runs {
        best = [best[0].min(call(&first)), best[1].min(call(&all))]
    }
    (best[1] - best[0]).max(0.0) * 1e9 / p.many as f64
}

/// .. and the log of the last call
fn ours(calls: &dyn Calls, p: &Point, runs: usize) -> (f64, Vec<u8>) {
    let (mut at, mut n) = (Lent::new(), 0);
    let call = |stream: &[u8]| {
        at.words.copy_from_slice(&p.state.words);
        at.params = p.state.params;
        timed(|| n = oracle_timed_more(calls, stream, &mut at))
    };
    let ns = a_record(p, runs, call);
    (ns, at.log[..n].to_vec())
}

/// core.rs keeps a copy of its substitution where a join may fail
fn theirs(p: &Point, runs: usize) -> (f64, Vec<u8>) {
    let mut log = Vec::with_capacity(1 << 20);
    let view = p.state.view();
    let params: Vec<usize> = (0..view.structs()).map(|i| view.declared(i).1.len()).collect();
    let call = |stream: &[u8]| {
        let mut job = job_of(p.state.view());
        let mut form = Form { bytes: stream, at: 0, params: params.clone() };
        Counter::set(view.vars() as u64);
        let seconds = timed(|| form_on(&mut job, &mut form, true, &mut log));
        drop(black_box(job));
        seconds
    };
    let ns = a_record(p, runs, call);
    (ns, log)
}

/// A line for each axis, record, side and place: nanoseconds of a record. Both sides' logs are equal.
pub fn table(calls: &dyn Calls, runs: usize) -> String {
    let mut out =
        String::from("# oracle bench costs: axis, record, side, place on the axis, nanoseconds of a record\n");
    for axis in &AXES {
        for record in RECORDS {
            for &x in axis.at {
                let p = (axis.point)(record, x);
                assert!(record != "SV" || p.state.view().constraints() > 0, "{} {}", axis.name, x);
                assert_eq!(sound(&p.state.words, &p.state.params), Ok(()));
                let sides = [("ours", ours(calls, &p, runs)), ("core.rs", theirs(&p, runs))];
                assert!(sides[0].1 .1 == sides[1].1 .1, "{} {} {}: logs differ", axis.name, record, x);
                for (side, (ns, _)) in &sides {
                    writeln!(out, "{}\t{}\t{}\t{}\t{:.0}", axis.name, record, side, x, ns).unwrap()
                }
            }
        }
    }
    out
}
