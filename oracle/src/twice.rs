//! The engine beside the slow one, from equal states (02, R-14): the states of jobs, with their types in each of the four records,
//! and edges. `Lender` holds number, payload, words, parameter bytes and buffers to one another.
use crate::{
    calls::{answer_bytes, Calls, MIN_ANSWER},
    compare::begun,
    damage::known_of,
    lender::Lender,
    lent::{fresh, Lent, View, MAX_NODES, MAX_PLACES, MAX_VARS},
    record::{read_record, Record, Ty},
    text::assemble,
};

//---- the states of jobs ------------------------------------------------------------------------------------

fn all_types(r: Record) -> Vec<Ty> {
    match r {
        Record::JN(a, b) | Record::SU(a, b) | Record::JL(a, b) => vec![a, b],
        Record::MJ(pairs) => pairs.into_iter().flat_map(|(_, a, b)| [a, b]).take(4).collect(),
        Record::UF(t) | Record::RD(t) | Record::CN(t) | Record::XP(t) | Record::IN(t) | Record::UL(t) => vec![t],
        Record::NC(_, _, t) | Record::BC(_, t) | Record::SC(_, t) => vec![t],
        _ => vec![],
    }
}

/// A record's types in each of the four: each pair both ways, each type.
pub fn around(record: &[u8], s: View) -> Vec<Vec<u8>> {
    let Ok((r, _)) = read_record(record, &known_of(s)) else { return vec![] };
    let mut out = vec![];
    let types = all_types(r);
    for pair in types.chunks(2) {
        let (a, b) = (&pair[0], pair.last().unwrap());
        for (a, b) in [(a, b), (b, a)] {
            out.push(Record::JN(a.clone(), b.clone()).bytes());
            out.push(Record::SU(a.clone(), b.clone()).bytes())
        }
        out.extend(pair.iter().flat_map(|t| [Record::UF(t.clone()).bytes(), Record::RD(t.clone()).bytes()]))
    }
    out.sort();
    out.dedup();
    out
}

/// Each state that a job comes to, and on it what is around the job's next record.
fn job(calls: &dyn Calls, start: &Lent, stream: &[u8]) -> Result<usize, (usize, String)> {
    let (mut lender, mut beside) = (Lender::alone(calls, start), Lender::new(calls, start));
    let (mut at, mut tried) = (0, 0);
    while at < stream.len() {
        let told = |what| (at, what);
        let n = lender.split(&stream[at..]).map_err(told)?;
        let record = &stream[at..at + n];
        let lent = lender.lent();
        for r in around(record, lent.view()) {
            beside.lend(&lent);
            beside.record(&r, MIN_ANSWER).map_err(|what| told(format!("{}: {}", crate::record::hex(&r), what)))?;
            tried += 1
        }
        lender.record(record, answer_bytes(record)).map_err(told)?;
        at += n;
        if n == 0 {
            break;
        }
    }
    Ok(tried)
}

/// Jobs as `compare` makes them; how many records both answered.
pub fn jobs(calls: &dyn Calls, seed: u64, count: u64) -> Result<usize, String> {
    (0..count).try_fold(0, |tried, i| {
        let (start, m) = begun(calls, seed, i, 25, None);
        match job(calls, &start, &m.stream) {
            Ok(n) => Ok(tried + n),
            Err((at, what)) => Err(format!("{}, at byte {}: {}", m.name, at, what)),
        }
    })
}

//---- edges -------------------------------------------------------------------------------------------------

struct Edges<'a> {
    calls: &'a dyn Calls,
    tried: usize,
}

impl Edges<'_> {
    /// The record's answer by both, and what it leaves.
    fn left(&mut self, start: &Lent, record: &str) -> Result<(u32, Lent), String> {
        let mut lender = Lender::new(self.calls, start);
        let answer = lender.record(&assemble(record, true).unwrap(), MIN_ANSWER)?;
        self.tried += 1;
        Ok((answer.number, lender.lent()))
    }

    fn wants(&mut self, what: &str, start: &Lent, record: &str, number: u32) -> Result<Lent, String> {
        match self.left(start, record).map_err(|e| format!("{}, {}: {}", what, record, e))? {
            (n, left) if n == number => Ok(left),
            (n, _) => Err(format!("{}, {}: {}, and not {}", what, record, n, number)),
        }
    }
}

fn with_vars(many: usize) -> Lent {
    let mut s = fresh();
    (0..many).for_each(|_| assert!(s.add_var().is_some()));
    s
}

/// V0 is bound to V1, V1 to V2 and so on, and the last to `()`.
pub fn chain(long: usize) -> Lent {
    let mut s = with_vars(long);
    for v in 0..long {
        let node = if v + 1 < long { s.add_node(6, 0, v as u32 + 1, 0, &[]) } else { s.add_node(0, 0, 0, 0, &[]) };
        s.bind(v, node.unwrap())
    }
    s
}

/// All variables but so many are taken, V0 and V1 unbound and numeric, the others bound to `()`, each with a mark and a need.
fn all_but(free: usize) -> Lent {
    let mut s = with_vars(MAX_VARS - free);
    let unit = s.add_node(0, 0, 0, 0, &[]).unwrap();
    for v in 0..MAX_VARS - free {
        s.set_mark(v, v as u32);
        s.set_need(v, 1 + v as u32 % 256);
        if v > 1 {
            s.bind(v, unit)
        }
    }
    s
}

/// V0 and V1 are vectors of vectors and so on, so many of them, around `u8`.
fn nested(levels: usize) -> Lent {
    let mut s = with_vars(2);
    for v in 0..2 {
        let u8_ = s.add_node(3, 2, 0, 2, &[]).unwrap();
        let top = (0..levels).fold(u8_, |below, k| s.add_node(3, k as u32, 0, 5, &[below]).unwrap());
        s.bind(v, top)
    }
    s
}

/// V0 and V1 are lists of eight lists of eight of V2 and of V3, which are open: 64 merges. `bound` further variables are bound.
fn merges(bound: usize) -> Lent {
    let mut s = with_vars(4 + bound);
    for v in 0..2 {
        let end = s.add_node(6, 0, v + 2, 0, &[]).unwrap();
        let list = s.add_node(4, 1, 0, 8, &[end; 8]).unwrap();
        let top = s.add_node(4, 2, 0, 8, &[list; 8]).unwrap();
        s.bind(v as usize, top)
    }
    let unit = s.add_node(0, 0, 0, 0, &[]).unwrap();
    (0..bound).for_each(|v| s.bind(v + 4, unit));
    s
}

/// .. with `many` lists of such lists, so 64 times as many merges; all variables but those that they take are bound
fn most(many: usize) -> Lent {
    let mut s = with_vars(MAX_VARS - 64 * many - 1);
    for v in 0..2 {
        let end = s.add_node(6, 0, v + 2, 0, &[]).unwrap();
        let list = (0..2).fold(end, |below, k| s.add_node(4, k, 0, 8, &[below; 8]).unwrap());
        let top = s.add_node(4, 2, 0, many as u32, &vec![list; many]).unwrap();
        s.bind(v as usize, top)
    }
    let unit = s.add_node(0, 0, 0, 0, &[]).unwrap();
    (2..s.view().vars()).for_each(|v| s.bind(v, unit));
    s
}

fn bound(s: View) -> usize {
    (0..s.vars()).filter(|v| s.binding(*v).is_some()).count()
}

/// The records at edges; told: how many, and the most entries that a history surely had.
pub fn edges(calls: &dyn Calls) -> Result<(usize, usize), String> {
    let mut e = Edges { calls, tried: 0 };
    for long in [100, 1000, MAX_VARS] {
        let number = if long == MAX_VARS { 7 } else { 0 };
        for record in ["UF V0", "RD V0"] {
            e.wants("chain", &chain(long), record, 0)?;
        }
        for record in ["JN V0, V1", "SU V1, V0", "JN V0, V0", "JN V0, ()", "SU (), V0"] {
            e.wants("chain", &chain(long), record, if record == "JN V0, V0" { 0 } else { number })?;
        }
        e.wants("chain", &chain(long), "JN V0, u8", if long == MAX_VARS { 7 } else { 2 })?;
    }
    // none free: no merge, but an open variable is bound
    e.wants("none free", &all_but(0), "JN V0, V1", 7)?;
    e.wants("none free", &all_but(0), "JN V2, ()", 7)?;
    e.wants("none free", &all_but(0), "JN V0, u8", 0)?;
    e.wants("none free", &all_but(0), "JN V0, vector<V1>", 2)?;
    e.wants("one free", &all_but(1), "JN V0, V1", 0)?;
    e.wants("one free", &all_but(1), "JN (V0, V1), (V1, V0)", 7)?;
    e.wants("two free, and marked", &all_but(2), "JN V2, ()", 2)?;
    // a run that takes every variable that is left, and one that wants one more
    e.wants("every variable left", &merges(MAX_VARS - 4 - 64), "JN V0, V1", 7)?;
    e.wants("every variable left", &merges(MAX_VARS - 5 - 64), "JN V0, V1", 0)?;
    e.wants("one too few", &merges(MAX_VARS - 4 - 63), "SU V0, V1", 7)?;
    // as deep as a join goes, and one deeper
    e.wants("as deep as may be", &nested(254), "JN V0, V1", 0)?;
    e.wants("too deep", &nested(255), "JN V0, V1", 8)?;
    full(&mut e)?;
    let mut top = 0;
    for many in 1..=8 {
        let start = most(many);
        let left = e.left(&start, "JN V0, V1")?.1;
        let merged = left.view().vars() - start.view().vars();
        top = top.max(bound(start.view()) + 3 * merged)
    }
    Ok((e.tried, top))
}

/// Nodes or places that are all taken, or all but a few: 7 where they do not do, and never 15.
fn full(e: &mut Edges) -> Result<(), String> {
    let mut full = 0;
    for left in 0..24 {
        for table in [0, 1] {
            for record in ["JN V0, V1", "SU V1, V0", "RD V0", "RD (V0, V2)", "UF V0", "JN V2, (u8, V3)"] {
                let mut s = merges(4);
                s.words[table] = ([MAX_NODES, MAX_PLACES][table] - left) as u32;
                let at = |what| format!("{} left of table {}, {}: {}", left, table, record, what);
                match e.left(&s, record).map_err(at)?.0 {
                    15 => return Err(at("15".to_string())),
                    7 => full += 1,
                    _ => {}
                }
            }
        }
    }
    if full == 0 { Err("nowhere full".to_string()) } else { Ok(()) }
}
