//! CN over two jobs that begin with the same SDs (02, R-12): whether two answers have equal bytes exactly where the
//! resolved types agree, and whether an answer that a record may carry is answered with itself. Agreement is decided by
//! a walk over core.rs's own types, which knows nothing of bytes.
use crate::{
    calls::{answer_bytes, Calls, MIN_ANSWER},
    gen::{Chance, Maker},
    job::{ability_bits, mark_out, type_in, Job, Outcome},
    lender::Lender,
    lent,
    naming::ast::{TVar, Type, Type_},
    record::{self, hex, Kind, Known, Record, Ty, MAX_RECORD},
    typing::core,
};
use std::collections::{BTreeMap, HashMap};

//---- agreement ---------------------------------------------------------------------------------------------

/// The variables of two types that stand for one another.
#[derive(Default)]
struct Renaming {
    there: HashMap<TVar, TVar>,
    back: HashMap<TVar, TVar>,
}

impl Renaming {
    fn variables(&mut self, v: TVar, w: TVar) -> bool {
        *self.there.entry(v).or_insert(w) == w && *self.back.entry(w).or_insert(v) == v
    }

    fn agree(&mut self, a: &Type, b: &Type) -> bool {
        match (&a.value, &b.value) {
            (Type_::Unit, Type_::Unit) | (Type_::Anything, Type_::Anything) => true,
            (Type_::UnresolvedError, Type_::UnresolvedError) => true,
            (Type_::Var(v), Type_::Var(w)) => self.variables(*v, *w),
            (Type_::Ref(m, x), Type_::Ref(n, y)) => m == n && self.agree(x, y),
            (Type_::Param(x), Type_::Param(y)) => {
                x.id == y.id && ability_bits(&x.abilities) == ability_bits(&y.abilities)
            }
            (Type_::Apply(k, x, xs), Type_::Apply(l, y, ys)) => {
                let heads = mark_out(k) == mark_out(l) && x.value == y.value && xs.len() == ys.len();
                heads && xs.iter().zip(ys).all(|(x, y)| self.agree(x, y))
            }
            _ => false,
        }
    }
}

fn agree(a: &Type, b: &Type) -> bool {
    Renaming::default().agree(a, b)
}

//---- near misses -------------------------------------------------------------------------------------------

/// The first part, from the left, that `f` changes, changed.
fn first(t: &Ty, f: &mut dyn FnMut(&Ty) -> Option<Kind>) -> Option<Ty> {
    if let Some(kind) = f(t) {
        return Some(Ty { loc: t.loc, kind });
    }
    let mut parts = t.parts().to_vec();
    let changed = parts.iter_mut().find_map(|p| first(p, f).map(|q| *p = q));
    changed.map(|_| t.with_parts(parts))
}

fn with_mark(t: &Ty, mark: impl Fn(u8) -> u8) -> Option<Kind> {
    match &t.kind {
        Kind::Builtin(m, n, ts) => Some(Kind::Builtin(mark(*m), *n, ts.clone())),
        Kind::List(m, ts) => Some(Kind::List(mark(*m), ts.clone())),
        Kind::Struct(m, n, ts) => Some(Kind::Struct(mark(*m), *n, ts.clone())),
        _ => None,
    }
}

/// Types that differ in one thing from `t`; `other` is a variable that does not stand in it.
fn misses(t: &Ty, other: u16) -> Vec<(&'static str, Ty)> {
    let (mut met, mut last) = (vec![], None);
    let again = first(t, &mut |t| match t.kind {
        Kind::Var(v) if met.contains(&v) => Some(Kind::Var(other)),
        Kind::Var(v) => {
            met.push(v);
            None
        }
        _ => None,
    });
    let merged = first(t, &mut |t| match (&t.kind, last) {
        (Kind::Var(v), Some(w)) if *v != w => Some(Kind::Var(w)),
        (Kind::Var(v), _) => {
            last = Some(*v);
            None
        }
        _ => None,
    });
    // drop is asked of an integer's mark
    let marked = first(t, &mut |t| with_mark(t, |m| if m == 0 { 0x17 } else { 0 }));
    let abilities = first(t, &mut |t| match t.kind {
        Kind::Param(id, set) => Some(Kind::Param(id, set ^ 1)),
        _ => None,
    });
    let turned = first(t, &mut |t| match &t.kind {
        Kind::List(m, ts) if ts.len() > 1 => Some(Kind::List(*m, ts.iter().rev().cloned().collect())),
        _ => None,
    });
    let mutable = first(t, &mut |t| match &t.kind {
        Kind::Ref(m, inner) => Some(Kind::Ref(!m, inner.clone())),
        _ => None,
    });
    let all = [
        ("a variable twice, and two", again),
        ("two variables, and one twice", merged),
        ("an ability mark", marked),
        ("a parameter's abilities", abilities),
        ("a list's order", turned),
        ("`&` and `&mut`", mutable),
    ];
    all.into_iter().filter_map(|(what, t)| t.map(|t| (what, t))).collect()
}

//---- one job -----------------------------------------------------------------------------------------------

const TEMPLATE: &str = "one type, made in both jobs";

/// An answer 0 of CN.
struct Told {
    /// what was asked for: a type of both jobs, by the job's index among them and what it misses, or any type
    of: Option<(usize, &'static str)>,
    record: Vec<u8>,
    payload: Vec<u8>,
    resolved: Type,
}

/// A job in core.rs and in the engine.
struct Side<'a> {
    job: Job,
    lender: Lender<'a>,
    chance: Chance,
    told: Vec<Told>,
}

impl<'a> Side<'a> {
    fn new(calls: &'a dyn Calls, chance: Chance) -> Side<'a> {
        let lender = Lender::new(calls, &lent::fresh());
        Side { job: Job::new(), lender, chance, told: vec![] }
    }

    /// Both answers; none where the engine comes to a limit that core.rs does not know.
    fn both(&mut self, r: &Record) -> Result<Option<(Outcome, Vec<u8>)>, String> {
        let bytes = r.bytes();
        if bytes.len() > MAX_RECORD {
            return Ok(None);
        }
        let (outcome, answer) = (self.job.record(r), self.lender.record(&bytes, answer_bytes(&bytes))?);
        match &outcome {
            _ if matches!(answer.number, 7 | 8) => Ok(None),
            Outcome::Core(n, _) | Outcome::Refused(n, _) if *n as u32 == answer.number => {
                Ok(Some((outcome, answer.payload)))
            }
            Outcome::Silent(_) => Ok(None),
            _ => Err(format!("{}: core.rs: {:?}; ours: {}", hex(&bytes), outcome, answer.number)),
        }
    }

    fn variable(&mut self) -> Result<Option<u16>, String> {
        let (v, loc) = (self.job.known().vars as u16, self.chance.below(99) as u32);
        Ok(self.both(&Record::FV(loc))?.map(|_| v))
    }

    /// CN of a type, kept where it is answered with 0. false: the job is over
    fn ask(&mut self, t: Ty, of: Option<(usize, &'static str)>) -> Result<bool, String> {
        let r = Record::CN(t.clone());
        let Some((outcome, payload)) = self.both(&r)? else { return Ok(false) };
        if let Outcome::Core(0, _) = outcome {
            let resolved = core::ready_tvars(&self.job.ctx.subst, type_in(&t));
            self.told.push(Told { of, record: r.bytes(), payload, resolved })
        }
        Ok(true)
    }

    /// The template with the job's variables for its own, and at any locations; here and there a part is a new variable
    /// that was joined with it.
    fn made(&mut self, t: &Ty, variables: &[u16]) -> Result<Option<Ty>, String> {
        let mut parts = vec![];
        for p in t.parts() {
            let Some(p) = self.made(p, variables)? else { return Ok(None) };
            parts.push(p)
        }
        let mut t = t.with_parts(parts);
        t.loc = self.chance.below(1000) as u32;
        let bound = match t.kind {
            Kind::Var(v) => {
                t.kind = Kind::Var(variables[v as usize]);
                false
            }
            Kind::Anything | Kind::Ref(..) => false,
            _ => self.chance.percent(15),
        };
        if !bound {
            return Ok(Some(t));
        }
        let Some(v) = self.variable()? else { return Ok(None) };
        let stands = Ty { loc: self.chance.below(1000) as u32, kind: Kind::Var(v) };
        let joined = self.both(&Record::JN(stands.clone(), t.clone()))?;
        Ok(joined.map(|(outcome, _)| if matches!(outcome, Outcome::Core(0, _)) { stands } else { t }))
    }
}

//---- many pairs of jobs ------------------------------------------------------------------------------------

/// What was run.
#[derive(Default)]
pub struct Tally {
    pub jobs: usize,
    pub answers: usize,
    /// pairs of answers that are equal; of these, whose types have other variables or locations
    pub equal: usize,
    pub otherwise_written: usize,
    pub unequal: usize,
    /// by what a type misses of one of the other job: pairs that are unequal, and pairs that are equal all the same
    pub near: BTreeMap<&'static str, [usize; 2]>,
    /// answers sent back: by the number that they are answered with
    pub again: BTreeMap<u32, usize>,
}

impl Tally {
    pub fn text(&self) -> String {
        let mut out = format!("{} pairs of jobs, {} answers 0 of CN\n", self.jobs, self.answers);
        out += &format!(
            "pairs of answers: {} equal and their types agree, {} of these of types that are not written alike; {} unequal and they do not\n",
            self.equal, self.otherwise_written, self.unequal
        );
        for (what, [unequal, equal]) in &self.near {
            let apart = if *what == TEMPLATE { "" } else { "one thing apart, " };
            out += &format!("{}{}: {} unequal, {} equal\n", apart, what, unequal, equal)
        }
        let again: Vec<_> = self.again.iter().map(|(n, count)| format!("{}: {}", n, count)).collect();
        out + &format!("sent back, by answer (0: with itself): {}\n", again.join(", "))
    }

    fn pair(&mut self, a: &Told, b: &Told) -> Result<(), String> {
        let (same, agree) = (a.payload == b.payload, agree(&a.resolved, &b.resolved));
        if same != agree {
            let what = if agree { "agree, and their bytes differ" } else { "do not agree, and their bytes are equal" };
            return Err(format!("{} and {}: the types {}", hex(&a.record), hex(&b.record), what));
        }
        let written = |t: &Told| crate::job::type_out(&t.resolved).bytes();
        match same {
            true => {
                self.equal += 1;
                self.otherwise_written += (written(a) != written(b)) as usize
            }
            false => self.unequal += 1,
        }
        if let (Some((i, x)), Some((j, y))) = (a.of, b.of) {
            let missed = if x == TEMPLATE { y } else { x };
            if i == j && (x == TEMPLATE || y == TEMPLATE) {
                self.near.entry(missed).or_default()[same as usize] += 1
            }
        }
        Ok(())
    }
}

/// An answer sent back on a state with these structs and as many variables as it names.
fn back(calls: &dyn Calls, declared: &[Record], payload: &[u8], tally: &mut Tally) -> Result<(), String> {
    let mut lender = Lender::new(calls, &lent::fresh());
    let params = declared.iter().map(|r| if let Record::SD(_, ps) = r { ps.len() } else { 0 }).collect();
    let any = Known { params, vars: lent::LIMITS[2], ..Known::default() };
    let vars = record::read_type(payload, &any).map_err(|x| format!("{}: {}", hex(payload), x.rule))?.0.taken();
    for r in declared.iter().cloned().chain((0..vars).map(|_| Record::FV(0))) {
        lender.record(&r.bytes(), MIN_ANSWER)?;
    }
    let bytes = [b"CN", payload].concat();
    let wanted = match record::read_record(&bytes, &Known { vars, ..any }) {
        Ok((_, n)) if n == bytes.len() => 0,
        Ok(_) => 5,
        Err(x) => x.number as u32,
    };
    let answer = lender.record(&bytes, MIN_ANSWER)?;
    if answer.number != wanted || (wanted == 0 && answer.payload != payload) {
        return Err(format!("{} sent back: {} {}, not {}", hex(payload), answer.number, hex(&answer.payload), wanted));
    }
    *tally.again.entry(wanted).or_insert(0) += 1;
    Ok(())
}

/// The job's own records, then CN of its variables and of some types.
fn grow(side: &mut Side, m: &mut Maker, declared: &[Record]) -> Result<bool, String> {
    for r in declared {
        side.both(r)?;
    }
    for n in 6..18 {
        let (vars, params) = (side.job.known().vars, side.job.known().params.clone());
        let r = m.record(n, vars, &params);
        if !matches!(r, Record::SD(..)) && side.both(&r)?.is_none() {
            return Ok(false);
        }
    }
    let vars = side.job.known().vars;
    for v in 0..vars.min(12) {
        if !side.ask(Ty { loc: 9, kind: Kind::Var(v as u16) }, None)? {
            return Ok(false);
        }
    }
    for _ in 0..8 {
        let t = m.over(vars, &side.job.known().params.clone());
        if !side.ask(t, None)? {
            return Ok(false);
        }
    }
    Ok(true)
}

const VARIABLES: u16 = 3;

/// The templates in one job, each with what misses it by one thing, over variables in an order of the job's own.
fn templates(side: &mut Side, templates: &[Ty]) -> Result<bool, String> {
    let mut variables = vec![];
    for _ in 0..VARIABLES + 1 {
        let Some(v) = side.variable()? else { return Ok(false) };
        let at = side.chance.below(variables.len() + 1);
        variables.insert(at, v)
    }
    for (i, t) in templates.iter().enumerate() {
        let all = [(TEMPLATE, t.clone())].into_iter().chain(misses(t, VARIABLES));
        for (what, t) in all.collect::<Vec<_>>() {
            let Some(t) = side.made(&t, &variables)? else { return Ok(false) };
            if !side.ask(t, Some((i, what)))? {
                return Ok(false);
            }
        }
    }
    Ok(true)
}

/// Pairs of jobs up to `count`; stops at the first fault.
pub fn many(calls: &dyn Calls, seed: u64, count: u64) -> Result<Tally, String> {
    let mut tally = Tally::default();
    for i in 0..count {
        let mut m = Maker::new(Chance::new(seed ^ 0x7370_656c, i));
        let mut chance = Chance::new(seed ^ 0x7061_6972, i);
        let declared: Vec<_> = (0..chance.below(4)).map(|_| m.declaration()).collect();
        let params: Vec<_> = declared.iter().map(|r| if let Record::SD(_, ps) = r { ps.len() } else { 0 }).collect();
        let both: Vec<_> = (0..3).map(|_| m.over(VARIABLES as usize, &params)).collect();
        let mut told = vec![];
        for _ in 0..2 {
            let mut side = Side::new(calls, Chance::new(chance.bits(), i));
            // at a limit the job is over
            if grow(&mut side, &mut m, &declared)? {
                templates(&mut side, &both)?;
            }
            told.push(side.told)
        }
        for (k, a) in told[0].iter().enumerate() {
            told[1].iter().chain(&told[0][k + 1..]).try_for_each(|b| tally.pair(a, b))?
        }
        for t in told.iter().flatten() {
            back(calls, &declared, &t.payload, &mut tally)?
        }
        tally.jobs += 1;
        tally.answers += told.iter().map(Vec::len).sum::<usize>()
    }
    Ok(tally)
}
