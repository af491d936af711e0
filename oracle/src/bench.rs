//! The engine beside core.rs on the same jobs, in one process: records per second, as the variables in use grow.
//!
//! The engine reads the stream's bytes and writes the log, one call for a job. core.rs is timed twice over: alone, its
//! types at hand and its answers dropped unread; and from bytes to a log, as the engine works.
pub mod apart;
pub mod body;
pub mod costs;

use crate::{
    calls::{Calls, Lines},
    diagnostics::Diagnostic,
    gen::Chance,
    job::{ability_bits, mark_in, mark_out, module, struct_name, tparam, Job, Outcome, BUILTINS},
    lent::{fresh, Params},
    naming::ast::{
        probe::{number as var_number, tvar},
        TParam, TVar, Type, TypeName_, Type_,
    },
    record::{read_record, Record, VECTOR},
    shared::Counter,
    text::assemble,
    typing::{
        core::{self, Subst},
        expand,
    },
};
use move_ir_types::location::*;
use std::{collections::BTreeMap, fmt::Write as _, hint::black_box, io::Write as _, mem, time::Instant};

//---- jobs ------------------------------------------------------------------------------------------------

pub struct Work {
    pub name: &'static str,
    pub records: usize,
    pub streams: Vec<Vec<u8>>,
}

/// Records that take variables and bind them, until `vars` are in use; then `more` that read, join and test types over them.
/// Every answer is 0, so that core.rs can run without a copy of its substitution.
fn grown(vars: usize, more: usize) -> Vec<u8> {
    let mut c = Chance::new(7, vars as u64);
    let mut text = String::from("SD {copy, drop} <{}>\n");
    let merged = (vars / 20).max(1);
    let taken = vars - merged;
    (0..taken).for_each(|i| text += if i % 4 == 3 { "NV\n" } else { "FV\n" });
    for i in 0..merged {
        // two open ends merge into a fresh variable
        writeln!(text, "JN V{}, V{}", i, taken / 2 + i).unwrap()
    }
    for i in merged..taken * 2 / 5 {
        let t = if i % 4 == 3 { "u64" } else { c.one(&["u64", "vector<u8>", "&P7"]) };
        writeln!(text, "JN V{}, {}", i, t).unwrap()
    }
    for _ in 0..more {
        let (a, b) = (c.below(taken), c.below(taken));
        let line = match c.below(24) {
            0 => format!("JN _, V{}", a),
            1 => format!("SU V{}, V{}", a, a),
            2 => "SU &mut u8, &u8".into(),
            3 => "JN vector<u8>, vector<_>".into(),
            4 => format!("TS [P1 = V{}] (P1, vector<P1>)", a),
            5 => "TS [P7 = u8, P8 = S0<u8>] S0<vector<P8>>".into(),
            6..=9 => format!("UF V{}", a),
            10..=14 => format!("RD V{}", a),
            _ => format!("RD (V{}, vector<V{}>)", a, b),
        };
        writeln!(text, "{}", line).unwrap()
    }
    assemble(&text, true).unwrap()
}

/// The jobs of the replay list that without SV are answered with 0 throughout, with RD for CN: core.rs tells SV's failures
/// in messages, which are not written here, and spells no type.
fn short() -> Vec<Vec<u8>> {
    let entries = crate::list::parse(include_str!("../replay.list")).unwrap();
    entries.iter().filter_map(|e| answered(&e.stream)).collect()
}

fn answered(stream: &[u8]) -> Option<Vec<u8>> {
    let (mut job, mut at, mut out) = (Job::new(), 0, vec![]);
    while at < stream.len() {
        let (r, n) = read_record(&stream[at..], job.known()).ok()?;
        let r = if let Record::CN(t) = r { Record::RD(t) } else { r };
        if !matches!(r, Record::SV) {
            matches!(job.record(&r), Outcome::Core(0, _)).then_some(())?;
            out.extend(r.bytes())
        }
        at += n
    }
    Some(out)
}

pub const WORKS: [&str; 7] = ["small", "middle", "large", "short", "body-10", "body-100", "body-1000"];

/// 1,000 variables by statements alone would need more than 2,048 nodes: there 450 are taken ahead.
fn bodies(vars: usize, jobs: usize) -> Vec<Vec<u8>> {
    let ahead = if vars == 1000 { 450 } else { 0 };
    (0..).filter_map(|i| body::body(vars, ahead, i)).take(jobs).collect()
}

/// The jobs of a name.
pub fn work(name: &'static str) -> Work {
    let streams = match name {
        "small" => vec![grown(10, 1000)],
        "middle" => vec![grown(100, 1000)],
        "large" => vec![grown(1000, 1000)],
        "short" => short(),
        "body-10" => bodies(10, 40),
        "body-100" => bodies(100, 4),
        _ => bodies(1000, 1),
    };
    let records = streams.iter().map(|s| cut(s).len()).sum();
    Work { name, records, streams }
}

impl Work {
    /// Each record's mark, core.rs's answer, and the variables in use before and after it.
    fn each(&self, mut f: impl FnMut(&str, u8, [usize; 2])) {
        for stream in &self.streams {
            let (mut job, mut at) = (Job::new(), 0);
            while at < stream.len() {
                let vars = job.known().vars;
                let mark = std::str::from_utf8(&stream[at..at + 2]).unwrap();
                let (outcome, n) = job.next(&stream[at..]);
                let Outcome::Core(number, _) = outcome else { panic!("{}: {:?}", self.name, outcome) };
                f(mark, number, [vars, job.known().vars]);
                at += n
            }
        }
    }

    /// Variables in use at a job's end, at most; in a body, where SV comes.
    pub fn vars(&self) -> usize {
        let mut most = 0;
        self.each(|mark, _, [before, after]| match (self.is_body(), mark) {
            (true, "SV") => most = most.max(before),
            (true, _) => (),
            (false, _) => most = most.max(after),
        });
        most
    }

    /// Records by mark and answer.
    pub fn counts(&self) -> BTreeMap<(String, u8), usize> {
        let mut out = BTreeMap::new();
        self.each(|mark, number, _| *out.entry((mark.into(), number)).or_insert(0) += 1);
        out
    }

    /// Bodies have answers of 1 to 4: core.rs's callers keep a copy for those.
    fn is_body(&self) -> bool {
        self.name.starts_with("body")
    }
    pub fn sides(&self) -> &'static [&'static str] {
        if self.is_body() {
            &SIDES[..5]
        } else {
            &SIDES
        }
    }
}

//---- core.rs -----------------------------------------------------------------------------------------------

/// A record with its types built.
pub enum Op {
    Declare(u8, Vec<u8>),
    Fresh(Loc),
    Numeric(Loc),
    Mark(TVar, Loc),
    Join(fn(Subst, &Type, &Type) -> Result<(Subst, Type), core::TypingError>, Type, Type),
    Unfold(Type),
    Ready(Type),
    Expand(Type),
    Replace(Vec<TParam>, Vec<Type>, Type),
    Instantiate(Type),
    Builtin(Loc, u8, Type),
    Base(Loc, Type),
    Single(Loc, Type),
    Solve,
}

type Failed = Option<core::TypingError>;

/// A join; with `copy` the caller keeps what it needs to put back on 1 to 4.
fn joined(
    job: &mut Job,
    f: fn(Subst, &Type, &Type) -> Result<(Subst, Type), core::TypingError>,
    a: &Type,
    b: &Type,
    copy: bool,
    failed: &mut Failed,
) -> Option<Type> {
    let subst = mem::replace(&mut job.ctx.subst, Subst::empty());
    let kept = copy.then(|| subst.clone());
    match f(subst, a, b) {
        Ok((subst, t)) => {
            job.ctx.subst = subst;
            Some(t)
        }
        Err(e) => {
            job.ctx.subst = kept.expect("only a body's joins fail");
            *failed = Some(e);
            None
        }
    }
}

/// SV: all constraints of these jobs hold, so that there is no payload.
fn solve(ctx: &mut core::Context) {
    core::solve_constraints(ctx);
    assert!(ctx.env.take_diags().is_empty())
}

/// One call of core.rs; the type that it answers.
fn call(job: &mut Job, op: Op, copy: bool, failed: &mut Failed) -> Option<Type> {
    let ctx = &mut job.ctx;
    match op {
        Op::Declare(a, p) => drop(job.declare(a, &p, &mut vec![])),
        Op::Fresh(l) => return Some(core::make_tvar(ctx, l)),
        Op::Numeric(l) => return Some(core::make_num_tvar(ctx, l)),
        Op::Mark(v, l) => ctx.subst.set_num_var(v, l),
        Op::Join(f, a, b) => return joined(job, f, &a, &b, copy, failed),
        Op::Unfold(t) => return Some(core::unfold_type(&ctx.subst, t)),
        Op::Ready(t) => return Some(core::ready_tvars(&ctx.subst, t)),
        Op::Expand(mut t) => {
            expand::type_(ctx, &mut t);
            return Some(t);
        }
        Op::Replace(ids, args, t) => return Some(core::subst_tparams(&core::make_tparam_subst(&ids, args), t)),
        Op::Instantiate(t) => return Some(core::instantiate(ctx, t)),
        Op::Builtin(l, 0, t) => ctx.add_numeric_constraint(l, "+", t),
        Op::Builtin(l, 1, t) => ctx.add_bits_constraint(l, "|", t),
        Op::Builtin(l, _, t) => ctx.add_ordered_constraint(l, "<", t),
        Op::Base(l, t) => ctx.add_base_type_constraint(l, "base", t),
        Op::Single(l, t) => ctx.add_single_type_constraint(l, "single", t),
        Op::Solve => solve(ctx),
    }
    None
}

fn ops_of(stream: &[u8]) -> Vec<Op> {
    let mut form = Form::new(stream);
    let mut out = vec![];
    while form.at < stream.len() {
        out.push(form.record())
    }
    out
}

/// core.rs alone: `oracle_timed` in a name is for a profiler to find
#[no_mangle]
#[inline(never)]
pub fn oracle_timed_core(ops: Vec<Op>, copy: bool) {
    let mut job = Job::new();
    Counter::set(0);
    let mut failed = None;
    for op in ops {
        black_box(call(&mut job, op, copy, &mut failed));
    }
    drop(black_box(job))
}

/// core.rs from bytes to a log
#[no_mangle]
#[inline(never)]
pub fn oracle_timed_form(stream: &[u8], copy: bool, log: &mut Vec<u8>) {
    let (mut job, mut form) = (Job::new(), Form::new(stream));
    Counter::set(0);
    form_on(&mut job, &mut form, copy, log)
}

/// .. from where a job stands on
fn form_on(job: &mut Job, form: &mut Form, copy: bool, log: &mut Vec<u8>) {
    let (mut place, mut failed) = (0, None);
    log.clear();
    while form.at < form.bytes.len() {
        let op = form.record();
        let declared = matches!(op, Op::Declare(..)).then(|| form.params.len() as u16 - 1);
        let expands = matches!(op, Op::Expand(_));
        let answer = call(job, op, copy, &mut failed);
        write!(log, "{} ", place).unwrap();
        match (answer, declared, failed.take()) {
            (Some(t), ..) => {
                log.extend(b"0 ");
                put_type(&t, log);
                if expands {
                    put_codes(&job.ctx.env.take_diags(), log)
                }
            }
            (_, _, Some(e)) => put_error(&e, log),
            (_, Some(n), _) => {
                log.extend(b"0 ");
                put(&n.to_le_bytes(), log)
            }
            _ => log.push(b'0'),
        }
        log.push(b'\n');
        place += 1
    }
}

/// Reads records that are known to be right, straight into core.rs's types.
struct Form<'a> {
    bytes: &'a [u8],
    at: usize,
    params: Vec<usize>,
}

impl Form<'_> {
    fn new(bytes: &[u8]) -> Form<'_> {
        Form { bytes, at: 0, params: vec![] }
    }
    fn byte(&mut self) -> u8 {
        self.at += 1;
        self.bytes[self.at - 1]
    }
    fn array<const N: usize>(&mut self) -> [u8; N] {
        self.at += N;
        self.bytes[self.at - N..self.at].try_into().unwrap()
    }
    fn u16(&mut self) -> u16 {
        u16::from_le_bytes(self.array())
    }
    fn u32(&mut self) -> u32 {
        u32::from_le_bytes(self.array())
    }
    fn loc(&mut self) -> Loc {
        Loc::of(self.u32())
    }
    fn types(&mut self, n: usize) -> Vec<Type> {
        (0..n).map(|_| self.ty()).collect()
    }

    fn ty(&mut self) -> Type {
        let (tag, loc) = (self.byte(), self.loc());
        let t = match tag {
            0 => Type_::Unit,
            1 => Type_::Ref(self.byte() == 1, Box::new(self.ty())),
            2 => Type_::Param(tparam(loc, self.u32(), self.byte())),
            3 => {
                let (mark, n) = (mark_in(loc, self.byte()), self.byte());
                let name = TypeName_::Builtin(sp(loc, BUILTINS[n as usize].clone()));
                Type_::Apply(mark, sp(loc, name), self.types((n == VECTOR) as usize))
            }
            4 => {
                let (mark, n) = (mark_in(loc, self.byte()), self.byte() as usize);
                Type_::Apply(mark, sp(loc, TypeName_::Multiple(n)), self.types(n))
            }
            5 => {
                let (mark, n) = (mark_in(loc, self.byte()), self.u16());
                let name = TypeName_::ModuleType(module(loc), struct_name(loc, n));
                Type_::Apply(mark, sp(loc, name), self.types(self.params[n as usize]))
            }
            6 => Type_::Var(tvar(self.u16() as u64)),
            7 => Type_::Anything,
            _ => Type_::UnresolvedError,
        };
        sp(loc, t)
    }

    fn record(&mut self) -> Op {
        match &self.array() {
            b"SD" => {
                let (a, n) = (self.byte(), self.byte() as usize);
                self.params.push(n);
                Op::Declare(a, (0..n).map(|_| self.byte()).collect())
            }
            b"FV" => Op::Fresh(self.loc()),
            b"NV" => Op::Numeric(self.loc()),
            b"SN" => Op::Mark(tvar(self.u16() as u64), self.loc()),
            b"JN" => Op::Join(core::join, self.ty(), self.ty()),
            b"SU" => Op::Join(core::subtype, self.ty(), self.ty()),
            b"UF" => Op::Unfold(self.ty()),
            b"RD" => Op::Ready(self.ty()),
            b"XP" => Op::Expand(self.ty()),
            b"TS" => {
                let n = self.byte();
                let (ids, args) = (0..n).map(|_| (tparam(Loc::of(0), self.u32(), 0), self.ty())).unzip();
                Op::Replace(ids, args, self.ty())
            }
            b"IN" => Op::Instantiate(self.ty()),
            b"NC" => Op::Builtin(self.loc(), self.byte(), self.ty()),
            b"BC" => Op::Base(self.loc(), self.ty()),
            b"SC" => Op::Single(self.loc(), self.ty()),
            _ => Op::Solve,
        }
    }
}

fn put(bytes: &[u8], log: &mut Vec<u8>) {
    const DIGITS: &[u8; 16] = b"0123456789abcdef";
    bytes.iter().for_each(|b| log.extend([DIGITS[*b as usize >> 4], DIGITS[*b as usize & 15]]))
}

/// XP's codes
fn put_codes(open: &[Diagnostic], log: &mut Vec<u8>) {
    for d in open {
        put(&[5], log);
        put(&d.primary.0.start().to_le_bytes(), log)
    }
}

/// an answer of 1 to 4
fn put_error(e: &core::TypingError, log: &mut Vec<u8>) {
    use core::TypingError::*;
    let (number, types) = match e {
        SubtypeError(a, b) => (b'1', Some((a, b))),
        Incompatible(a, b) => (b'2', Some((a, b))),
        ArityMismatch(_, a, _, b) => (b'3', Some((a, b))),
        RecursiveType(_) => (b'4', None),
    };
    log.extend([number, b' ']);
    if let Some((a, b)) = types {
        put_type(a, log);
        put_type(b, log)
    }
    if let RecursiveType(l) = e {
        put(&l.start().to_le_bytes(), log)
    }
}

/// a type in hexadecimal, straight from core.rs's
fn put_type(t: &Type, log: &mut Vec<u8>) {
    let head = |tag: u8, log: &mut Vec<u8>| {
        put(&[tag], log);
        put(&t.loc.start().to_le_bytes(), log)
    };
    match &t.value {
        Type_::Unit => head(0, log),
        Type_::Ref(mutable, inner) => {
            head(1, log);
            put(&[*mutable as u8], log);
            put_type(inner, log)
        }
        Type_::Param(p) => {
            head(2, log);
            put(&(p.id.0 as u32).to_le_bytes(), log);
            put(&[ability_bits(&p.abilities)], log)
        }
        Type_::Apply(k, n, args) => {
            match &n.value {
                TypeName_::Builtin(b) => {
                    head(3, log);
                    let number = BUILTINS.iter().position(|x| x == &b.value).unwrap();
                    put(&[mark_out(k), number as u8], log)
                }
                TypeName_::Multiple(n) => {
                    head(4, log);
                    put(&[mark_out(k), *n as u8], log)
                }
                TypeName_::ModuleType(_, s) => {
                    head(5, log);
                    put(&[mark_out(k)], log);
                    put(&s.0.value.as_str()[1..].parse::<u16>().unwrap().to_le_bytes(), log)
                }
            }
            args.iter().for_each(|t| put_type(t, log))
        }
        Type_::Var(v) => {
            head(6, log);
            put(&(var_number(*v) as u16).to_le_bytes(), log)
        }
        Type_::Anything => head(7, log),
        Type_::UnresolvedError => head(8, log),
    }
}

//---- the engine ----------------------------------------------------------------------------------------------

pub struct Lent {
    words: Vec<u32>,
    params: Params,
    log: Vec<u8>,
}

impl Lent {
    pub fn new() -> Lent {
        let s = fresh();
        Lent { words: s.words, params: s.params, log: vec![0; 8 << 20] }
    }
}

/// a job on words that are zeroed first; the log's length
#[no_mangle]
#[inline(never)]
pub fn oracle_timed_job(calls: &dyn Calls, stream: &[u8], lent: &mut Lent) -> usize {
    let mut lines = Lines::default();
    lent.words.fill(0);
    lent.params.fill([0; 8]);
    let number = calls.job(&mut lent.words, &mut lent.params, stream, false, &mut lent.log, &mut lines);
    let told = &lent.words[..5];
    assert!(number == 0 && lines.ended && lines.read == stream.len(), "{} {:?} {:?}", number, told, lines);
    lines.written
}

/// a job by the call that clears the words itself; the log's length
#[no_mangle]
#[inline(never)]
pub fn oracle_timed_fresh_job(stream: &[u8], lent: &mut Lent) -> usize {
    let mut lines = Lines::default();
    let number =
        pongiwaru::lent::fresh_job(&mut lent.words, &mut lent.params, stream, false, &mut lent.log, &mut lines);
    assert!(number == 0 && lines.ended && lines.read == stream.len());
    lines.written
}

/// a job whose records are lent one by one: the state is tested at each
#[no_mangle]
#[inline(never)]
pub fn oracle_timed_records(calls: &dyn Calls, records: &[&[u8]], lent: &mut Lent) {
    lent.words.fill(0);
    lent.params.fill([0; 8]);
    let mut length = 0;
    for r in records {
        let number = calls.record(&mut lent.words, &mut lent.params, r, &mut lent.log[..4096], &mut length);
        assert!(number <= 4)
    }
}

impl Default for Lent {
    fn default() -> Lent {
        Lent::new()
    }
}

//---- measuring --------------------------------------------------------------------------------------------------

pub const SIDES: [&str; 7] =
    ["engine-fresh", "engine-zeroed", "engine-records", "core-copy", "form-copy", "core", "form"];

/// the bytes of each record
fn cut(stream: &[u8]) -> Vec<&[u8]> {
    let mut form = Form::new(stream);
    let mut out = vec![];
    while form.at < stream.len() {
        let at = form.at;
        form.record();
        out.push(&stream[at..form.at])
    }
    out
}

fn timed<T>(f: impl FnOnce() -> T) -> f64 {
    let start = Instant::now();
    black_box(f());
    start.elapsed().as_secs_f64()
}

/// Seconds of one run of all jobs on one side.
pub fn once(work: &Work, side: &str, calls: &dyn Calls, lent: &mut Lent) -> f64 {
    let mut log = Vec::with_capacity(8 << 20);
    let mut one = |stream: &Vec<u8>| match side {
        "engine-fresh" => timed(|| oracle_timed_fresh_job(stream, lent)),
        "engine-zeroed" => timed(|| oracle_timed_job(calls, stream, lent)),
        "engine-records" => {
            let records = cut(stream);
            timed(|| oracle_timed_records(calls, &records, lent))
        }
        "core-copy" | "core" => {
            let ops = ops_of(stream);
            timed(|| oracle_timed_core(ops, side == "core-copy"))
        }
        _ => timed(|| oracle_timed_form(stream, side == "form-copy", &mut log)),
    };
    work.streams.iter().map(|s| one(s)).sum()
}

/// The best of some runs: nanoseconds for a record.
pub fn measured(work: &Work, side: &str, calls: &dyn Calls, runs: usize) -> f64 {
    let mut lent = Lent::new();
    let best = (0..runs).map(|_| once(work, side, calls, &mut lent)).fold(f64::MAX, f64::min);
    best * 1e9 / work.records as f64
}

/// The engine's log is core.rs's.
pub fn same_logs(work: &Work, calls: &dyn Calls) -> bool {
    let (mut lent, mut log) = (Lent::new(), vec![]);
    work.streams.iter().all(|s| {
        oracle_timed_form(s, true, &mut log);
        let n = oracle_timed_job(calls, s, &mut lent);
        let zeroed = log == lent.log[..n];
        let n = oracle_timed_fresh_job(s, &mut lent);
        zeroed && log == lent.log[..n]
    })
}

/// A body's records by mark and by answer, in a hundred.
fn shares(w: &Work) -> String {
    let (mut marks, mut answers) = (BTreeMap::new(), BTreeMap::new());
    for ((mark, number), n) in w.counts() {
        *marks.entry(mark).or_insert(0) += n;
        *answers.entry(number).or_insert(0) += n
    }
    let part = |n: usize| format!("{:.1}", 100.0 * n as f64 / w.records as f64);
    let marks: Vec<_> = marks.into_iter().map(|(m, n)| format!("{} {}", m, part(n))).collect();
    let answers: Vec<_> = answers.into_iter().map(|(a, n)| format!("{}: {}", a, part(n))).collect();
    format!("  in 100 records: {}; answers {}\n", marks.join(", "), answers.join(", "))
}

/// Nodes in use at a job's end, at most.
fn most_nodes(w: &Work) -> u32 {
    let mut lent = Lent::new();
    let at_end = |s: &Vec<u8>| {
        oracle_timed_fresh_job(s, &mut lent);
        lent.words[0]
    };
    w.streams.iter().map(at_end).max().unwrap_or(0)
}

/// A table for people.
pub fn table(calls: &(dyn Calls + Sync), runs: usize) -> String {
    let mut out = String::new();
    for w in WORKS.map(work) {
        assert!(same_logs(&w, calls), "{}: logs differ", w.name);
        let ns: Vec<_> = w.sides().iter().map(|s| measured(&w, s, calls, runs)).collect();
        let (jobs, most) = (w.streams.len(), most_nodes(&w));
        writeln!(
            out,
            "{}: {} variables in use, {} nodes, {} jobs, {} records",
            w.name,
            w.vars(),
            most,
            jobs,
            w.records
        )
        .unwrap();
        out += &shares(&w);
        for (side, n) in w.sides().iter().zip(&ns) {
            let ratio = n / ns[0];
            writeln!(out, "  {:<15}{:>8.0} ns a record{:>8.2} times engine-fresh", side, n, ratio).unwrap()
        }
    }
    out + &apart::table(calls, runs)
}
