//! Which answers a record can have: what of a log can be told without running the job. Where no variable is in the
//! way that is the whole answer; elsewhere its shape, and how many variables may be taken.
use crate::{
    payload::{Failure, Outcome, Reason, Rule, MAX_PAYLOAD},
    record::{Kind, Record, Ty, TypingCase},
};

pub const MAX_VARS: usize = 1024;
pub const MAX_STRUCTS: usize = 256;

/// A constraint on the list; of a variable's type nothing is known.
struct Constraint {
    code: u8,
    loc: u32,
    ty: Option<Ty>,
}

/// What is known of the state that a record meets.
#[derive(Default)]
pub struct State {
    pub structs: usize,
    /// each struct as SD declares it: abilities and parameter bytes
    declared: Vec<(u8, Vec<u8>)>,
    /// at least and at most so many variables are taken
    pub low: usize,
    pub high: usize,
    numeric: bool,
    constraints: Vec<Constraint>,
}

/// the numbers that a record which is read can be answered with
fn numbers(r: &Record) -> &'static [usize] {
    match r {
        Record::SN(..) | Record::KP(_) => &[0],
        Record::SD(..) | Record::FV(_) | Record::NV(_) | Record::NL(..) => &[0, 7],
        Record::NC(..) | Record::BC(..) | Record::SC(..) => &[0, 7],
        Record::JN(..) | Record::JL(..) => &[0, 2, 3, 4, 7, 8, 10, 14],
        Record::SU(..) => &[0, 1, 2, 3, 4, 7, 8, 10, 14],
        Record::UF(_) | Record::UL(_) => &[0, 7, 14],
        Record::RD(_) | Record::CN(_) => &[0, 7, 9, 14],
        Record::TS(..) => &[0, 7, 11, 12, 13, 14],
        Record::IN(_) => &[0, 7, 11],
        Record::RM(_) => &[0, 11],
        Record::SV => &[0, 7, 9, 14, 16],
        Record::XP(_) => &[0, 7, 9, 14, 17],
        Record::MJ(_) => &[0, 7],
    }
}

fn open(t: &Ty) -> bool {
    t.taken() > 0
}

/// a constraint's type after a KP; none where a variable in it has gone, which none of a constraint's does
fn moved(t: &Ty, kept: &[(u16, u16)]) -> Option<Ty> {
    t.moved(&|v| kept.binary_search_by_key(&v, |(old, _)| *old).ok().map(|i| kept[i].1))
}

//---- a join, as far as it goes without variables -------------------------------------------------

/// in a pattern: some variable
const SOME: Kind = Kind::Var(u16::MAX);

/// A failure with its number and the two types that it is of.
struct Failed<'t>(usize, &'t Ty, &'t Ty);

struct Join {
    /// SU
    lean: bool,
    /// a variable was met, so an earlier failure is possible
    open: bool,
}

impl Join {
    fn parts<'t>(&mut self, a: &'t [Ty], b: &'t [Ty]) -> Result<Vec<Ty>, Failed<'t>> {
        a.iter().zip(b).map(|(a, b)| self.join(a, b)).collect()
    }

    fn reference<'t>(&mut self, a: &'t Ty, b: &'t Ty) -> Result<Ty, Failed<'t>> {
        let (Kind::Ref(m, x), Kind::Ref(n, y)) = (&a.kind, &b.kind) else { unreachable!("two references") };
        if self.lean && *n && !*m {
            return Err(Failed(1, a, b));
        }
        let loc = if !self.lean && !*m && *n { a.loc } else { b.loc };
        let mutable = if self.lean { *n } else { *m && *n };
        Ok(Ty { loc, kind: Kind::Ref(mutable, Box::new(self.join(x, y)?)) })
    }

    fn name<'t>(&mut self, a: &'t Ty, b: &'t Ty) -> Result<Ty, Failed<'t>> {
        let (m, n) = match (&a.kind, &b.kind) {
            (Kind::List(_, x), Kind::List(_, y)) if x.len() != y.len() => return Err(Failed(3, a, b)),
            (Kind::List(m, _), Kind::List(n, _)) => (m, n),
            (Kind::Builtin(m, x, _), Kind::Builtin(n, y, _)) if x == y => (m, n),
            (Kind::Struct(m, x, _), Kind::Struct(n, y, _)) if x == y => (m, n),
            (Kind::UnresolvedError, _) => return Ok(b.clone()),
            (_, Kind::UnresolvedError) => return Ok(a.clone()),
            _ => return Err(Failed(2, a, b)),
        };
        if m != n {
            return Err(Failed(10, a, b));
        }
        let parts = self.parts(a.parts(), b.parts())?;
        Ok(b.with_parts(parts))
    }

    fn join<'t>(&mut self, a: &'t Ty, b: &'t Ty) -> Result<Ty, Failed<'t>> {
        match (&a.kind, &b.kind) {
            (Kind::Anything, _) => Ok(b.clone()),
            (_, Kind::Anything) => Ok(a.clone()),
            (Kind::Unit, Kind::Unit) => Ok(b.clone()),
            (Kind::Ref(..), Kind::Ref(..)) => self.reference(a, b),
            (Kind::Param(x, _), Kind::Param(y, _)) if x == y => Ok(b.clone()),
            (Kind::Var(x), Kind::Var(y)) if x == y => Ok(b.clone()),
            (Kind::Var(_), _) | (_, Kind::Var(_)) => {
                self.open = true;
                Ok(Ty { loc: 0, kind: SOME })
            }
            _ => self.name(a, b),
        }
    }
}

/// whether the join goes on to a variable beside another type
fn meets_variable(a: &Ty, b: &Ty) -> bool {
    let mut join = Join { lean: false, open: false };
    join.join(a, b).ok();
    join.open
}

/// bytes of the number of links
const LINKS: usize = 4;

/// JL's 14: of errors alone, since a type that joins is written in fewer bytes than its operands.
fn long_failure(a: &Ty, b: &Ty) -> bool {
    let mut join = Join { lean: false, open: false };
    match join.join(a, b) {
        _ if join.open => true,
        Err(Failed(number, x, y)) => number != 10 && x.bytes().len() + y.bytes().len() > MAX_PAYLOAD - LINKS,
        Ok(_) => false,
    }
}

/// Whether `t` is what `pattern` shows. With `free` a variable of the pattern may have become any type.
fn like(pattern: &Ty, t: &Ty, free: bool) -> bool {
    match &pattern.kind {
        k if *k == SOME => matches!(t.kind, Kind::Var(_)),
        Kind::Var(_) if free => true,
        _ => {
            let (x, y) = (pattern.parts(), t.parts());
            let heads = pattern.with_parts(vec![]) == t.with_parts(vec![]) && x.len() == y.len();
            heads && x.iter().zip(y).all(|(x, y)| like(x, y, free))
        }
    }
}

//---- TS, IN and RM -------------------------------------------------------------------------------

fn map(t: &Ty, f: &dyn Fn(&Ty) -> Option<Ty>) -> Ty {
    f(t).unwrap_or_else(|| t.with_parts(t.parts().iter().map(|p| map(p, f)).collect()))
}

/// the number of TS, or the type that it answers with
fn replaced(args: &[(u32, Ty)], t: &Ty) -> Result<Ty, usize> {
    let listed = |id: u32| args.iter().find(|(i, _)| *i == id).map(|(_, t)| t);
    fn all(t: &Ty, f: &dyn Fn(u32) -> bool) -> bool {
        let own = if let Kind::Param(id, _) = t.kind { f(id) } else { true };
        own && t.parts().iter().all(|p| all(p, f))
    }
    if args.iter().enumerate().any(|(i, (id, _))| args[..i].iter().any(|(other, _)| other == id)) {
        Err(13)
    } else if open(t) {
        Err(11)
    } else if !all(t, &|id| listed(id).is_some()) {
        Err(12)
    } else {
        Ok(map(t, &|t| if let Kind::Param(id, _) = t.kind { listed(id).cloned() } else { None }))
    }
}

fn instantiated(t: &Ty) -> Ty {
    match &t.kind {
        Kind::Anything => Ty { loc: t.loc, kind: SOME },
        Kind::Ref(..) => t.with_parts(t.parts().iter().map(instantiated).collect()),
        _ => t.with_parts(t.parts().iter().map(|_| Ty { loc: 0, kind: SOME }).collect()),
    }
}

/// RM's four numbers, by RECORDS' table.
pub fn needs(t: &Ty) -> [u32; 4] {
    let k = t.parts().len() as u32;
    let own = match t.kind {
        Kind::Anything => [2, 0, 1, 0],
        Kind::Ref(..) => [2, 0, 0, 1],
        Kind::Builtin(..) | Kind::List(..) | Kind::Struct(..) => {
            let blanks = t.parts().iter().filter(|p| p.kind == Kind::Anything).count() as u32;
            [2 + k + 4 * blanks, 2 * k, k + blanks, 2 * k]
        }
        _ => [1, 0, 0, 0],
    };
    t.parts().iter().map(needs).fold(own, |sum, n| std::array::from_fn(|i| sum[i] + n[i]))
}

/// the constraints that IN adds, in the order of the list
fn added(t: &Ty, out: &mut Vec<Constraint>) {
    let code = match t.kind {
        Kind::Ref(..) => {
            let inner = t.parts()[0].clone();
            out.push(Constraint { code: 2, loc: t.loc, ty: Some(inner) });
            return added(&t.parts()[0], out);
        }
        Kind::List(..) => 3,
        _ => 2,
    };
    for _ in t.parts() {
        out.push(Constraint { code: 4, loc: t.loc, ty: None });
        out.push(Constraint { code, loc: t.loc, ty: None })
    }
    t.parts().iter().for_each(|p| added(p, out))
}

//---- XP ------------------------------------------------------------------------------------------

const BASE: u8 = 7;
const KEY: u8 = 8;
const STORE: u8 = 4;
const SIGNER: u8 = 1;

/// whether a list or struct with an ability mark stands in it, which is 17
fn marked(t: &Ty) -> bool {
    matches!(t.kind, Kind::List(16.., _) | Kind::Struct(16.., ..)) || t.parts().iter().any(marked)
}

/// no variable, and a mark on every name
fn whole(t: &Ty) -> bool {
    let own = !matches!(t.kind, Kind::Var(_) | Kind::Builtin(0, ..) | Kind::List(0, _) | Kind::Struct(0, ..));
    own && t.parts().iter().all(whole)
}

/// the locations of the `!` in it, from left to right
fn errors(t: &Ty, out: &mut Vec<u32>) {
    if t.kind == Kind::UnresolvedError {
        out.push(t.loc)
    }
    t.parts().iter().for_each(|p| errors(p, out))
}

/// whether all of the first are among the second, in their order
fn among(few: &[u32], all: &[u32]) -> bool {
    let mut all = all.iter();
    few.iter().all(|x| all.any(|y| x == y))
}

impl State {
    /// the abilities of a type without variables
    fn abilities(&self, t: &Ty) -> u8 {
        let every = |ts: &mut dyn Iterator<Item = &Ty>| ts.fold(15, |set, t| set & self.abilities(t));
        match &t.kind {
            Kind::Unit => BASE,
            Kind::Ref(..) => 3,
            Kind::Var(_) | Kind::Anything | Kind::UnresolvedError => 15,
            Kind::Param(_, set) => *set,
            Kind::Builtin(m @ 16.., ..) | Kind::List(m @ 16.., _) | Kind::Struct(m @ 16.., ..) => m - 16,
            Kind::Builtin(_, SIGNER, _) => 2,
            Kind::Builtin(_, _, ts) | Kind::List(_, ts) => BASE & every(&mut ts.iter()),
            Kind::Struct(_, n, ts) => {
                let (set, params) = &self.declared[*n as usize];
                let had = every(&mut ts.iter().zip(params).filter(|(_, p)| **p < 16).map(|(t, _)| t));
                set & (had & BASE | if had & STORE != 0 { KEY } else { 0 })
            }
        }
    }

    /// whether `t` is `u` as XP shows it; of what stands for a variable nothing more is known than that it is whole
    fn expands(&self, u: &Ty, t: &Ty) -> bool {
        let mark = if open(u) { None } else { Some(16 + self.abilities(u)) };
        let head = |of: &Ty, m: u8| {
            let mut head = of.with_parts(vec![]);
            if let Kind::Builtin(own, ..) | Kind::List(own, _) | Kind::Struct(own, ..) = &mut head.kind {
                *own = m
            }
            head
        };
        match (&u.kind, &t.kind) {
            (Kind::Var(_), _) => true,
            (Kind::Builtin(16.., ..), _) => self.same_parts(u, t, u.with_parts(vec![]) == t.with_parts(vec![])),
            (Kind::Builtin(..) | Kind::List(..) | Kind::Struct(..), _) => {
                let known = mark.is_none_or(|m| head(u, m) == t.with_parts(vec![]));
                self.same_parts(u, t, known && head(u, 0) == head(t, 0))
            }
            _ => self.same_parts(u, t, u.with_parts(vec![]) == t.with_parts(vec![])),
        }
    }
    fn same_parts(&self, u: &Ty, t: &Ty, heads: bool) -> bool {
        let (x, y) = (u.parts(), t.parts());
        heads && x.len() == y.len() && x.iter().zip(y).all(|(u, t)| self.expands(u, t))
    }

    /// The type and the codes: a code for some of its `!`, and none where no variable is.
    fn expanded(&self, u: &Ty, t: &Ty, codes: &[u32]) -> bool {
        let mut found = vec![];
        errors(t, &mut found);
        let told = among(codes, &found) && (open(u) || codes.is_empty());
        !marked(u) && whole(t) && told && self.expands(u, t)
    }
}

//---- SV ------------------------------------------------------------------------------------------

/// whether a constraint of this code fails on a type that is no variable
fn fails(code: u8, t: &Ty) -> bool {
    match (code, &t.kind) {
        (1, Kind::Builtin(_, n, _)) => !crate::record::BUILTINS[*n as usize].integer,
        (1, _) => true,
        (2, k) => matches!(k, Kind::Unit | Kind::Ref(..) | Kind::List(..)),
        (_, k) => matches!(k, Kind::Unit | Kind::List(..)),
    }
}

/// how many of the rows from the front a constraint may have made, at least and at most
fn rows(c: &Constraint, rows: &[Failure]) -> (usize, usize) {
    let own = |f: &&Failure| f.reason.code() == c.code && f.loc == c.loc;
    match &c.ty {
        Some(t) if fails(c.code, t) => {
            let it = rows.first().filter(own).is_some_and(|f| f.ty == *t);
            (1, it as usize)
        }
        Some(_) => (0, 0),
        None if c.code == 4 => {
            let mut last = 0;
            let rising = rows.iter().take_while(|f| own(f) && std::mem::replace(&mut last, ability(f)) < ability(f));
            (0, rising.count())
        }
        None => (0, rows.first().filter(own).map_or(0, |_| 1)),
    }
}

/// the ability's bit, or 0 where the argument that lacks it is none of the type's
fn ability(f: &Failure) -> u8 {
    match f.reason {
        Reason::Lacks(_, Rule::Argument(place)) if place as usize >= f.ty.parts().len() => 0,
        Reason::Lacks(bit, _) => bit,
        _ => 0,
    }
}

impl State {
    /// whether the rows are those of the list, constraint by constraint
    fn solved(&self, found: &[Failure]) -> bool {
        let mut at = std::collections::BTreeSet::from([0]);
        for c in &self.constraints {
            let reach = |i: &usize| {
                let (least, most) = rows(c, &found[*i..]);
                (*i + least)..(*i + most + 1)
            };
            at = at.iter().flat_map(reach).collect()
        }
        at.contains(&found.len())
    }

    fn done(&self, r: &Record, payload: &Outcome) -> bool {
        match (r, payload) {
            (Record::SD(..), Outcome::Declared(n)) => *n as usize == self.structs && self.structs < MAX_STRUCTS,
            (Record::RM(t), Outcome::Needs(n)) => !open(t) && *n == needs(t),
            (Record::SV, Outcome::Done) => self.solved(&[]),
            (Record::SV, Outcome::Failed(fs)) => self.solved(fs),
            (Record::XP(u), Outcome::Expanded(t, codes)) => self.expanded(u, t, codes),
            (Record::MJ(pairs), Outcome::Pairs(all)) => {
                let fits = |((case, a, b), o): (&(TypingCase, Ty, Ty), &Outcome)| {
                    self.fits(&case.record(a.clone(), b.clone()), o)
                };
                pairs.len() == all.len() && pairs.iter().zip(all).all(|p| fits(p).is_ok())
            }
            (Record::SN(..) | Record::NC(..) | Record::BC(..) | Record::SC(..), Outcome::Done) => true,
            (Record::FV(_) | Record::NV(_) | Record::NL(..), Outcome::Type(Ty { kind: Kind::Var(v), .. })) => {
                (self.low..=self.high).contains(&(*v as usize)) && (*v as usize) < MAX_VARS
            }
            (r, Outcome::Type(t)) => self.typed(r, t),
            (Record::CN(u), Outcome::Spelled(t)) => like(&u.numbered(), t, true),
            (Record::KP(_), Outcome::Kept(all)) => {
                let types = self.constraints.iter().filter_map(|c| c.ty.as_ref());
                payload.taken() <= self.high && types.map(|t| moved(t, all)).all(|t| t.is_some())
            }
            _ => false,
        }
    }

    fn typed(&self, r: &Record, t: &Ty) -> bool {
        match r {
            Record::UF(u) | Record::UL(u) => matches!(u.kind, Kind::Var(_)) || u == t,
            Record::RD(u) => like(u, t, true),
            Record::TS(args, u) => replaced(args, u).is_ok_and(|u| u == *t),
            Record::IN(u) => !open(u) && like(&instantiated(u), t, false),
            Record::JN(a, b) | Record::SU(a, b) | Record::JL(a, b) => {
                let mut join = Join { lean: matches!(r, Record::SU(..)), open: false };
                join.join(a, b).is_ok_and(|u| like(&u, t, false))
            }
            _ => false,
        }
    }

    /// the most links that UL or JL can follow here
    fn links(&self, r: &Record) -> usize {
        match r {
            Record::UL(Ty { kind: Kind::Var(_), .. }) => self.high.saturating_sub(1),
            // two chains of each merge, and each merge takes a variable
            Record::JL(a, b) if meets_variable(a, b) => 2 * (MAX_VARS - 1) * MAX_VARS,
            _ => 0,
        }
    }

    /// 1 to 4, 8, 10 and 14 of a join
    fn failed(&self, lean: bool, a: &Ty, b: &Ty, payload: &Outcome) -> bool {
        let mut join = Join { lean, open: false };
        match (join.join(a, b).err(), payload) {
            _ if join.open => true,
            (Some(Failed(10, ..)), p) => p.number() == 10,
            (Some(Failed(n, x, y)), Outcome::Mismatch(m, a, b)) => n == *m && x == a && y == b,
            _ => false,
        }
    }

    fn other(&self, r: &Record, payload: &Outcome) -> bool {
        match (payload.number(), r) {
            (7, Record::SD(..)) => self.structs == MAX_STRUCTS,
            (7, Record::FV(_) | Record::NV(_) | Record::NL(..)) => self.high == MAX_VARS,
            (7, _) => true,
            (_, Record::JN(a, b)) => self.failed(false, a, b, payload),
            (_, Record::SU(a, b)) => self.failed(true, a, b, payload),
            (14, Record::JL(a, b)) => long_failure(a, b),
            (_, Record::JL(a, b)) => self.failed(false, a, b, payload),
            (11, Record::IN(t) | Record::RM(t)) => open(t),
            (14, Record::TS(args, t)) => replaced(args, t).is_ok(),
            (n, Record::TS(args, t)) => {
                replaced(args, t).is_err_and(|m| m == n || (m, n) == (11, 12) || (m, n) == (12, 11))
            }
            (9 | 14, Record::UF(t) | Record::RD(t) | Record::CN(t) | Record::XP(t)) => open(t),
            (14, Record::UL(t)) => matches!(t.kind, Kind::Var(_)) || t.bytes().len() > MAX_PAYLOAD - LINKS,
            (17, Record::XP(t)) => open(t) || marked(t),
            (9 | 16, Record::SV) => self.constraints.iter().any(|c| c.code == 4),
            _ => true,
        }
    }

    /// Whether a record that is read can have this answer in this state.
    pub fn fits(&self, r: &Record, payload: &Outcome) -> Result<(), String> {
        let number = payload.number();
        if !numbers(r).contains(&number) {
            return Err(format!("{} is never answered with {}", r.mark(), number));
        }
        if payload.links().is_some_and(|n| n as usize > self.links(r)) {
            return Err(format!("this {} cannot follow so many links", r.mark()));
        }
        let payload = payload.plain();
        match if number == 0 { self.done(r, payload) } else { self.other(r, payload) } {
            true => Ok(()),
            false => Err(format!("this {} cannot have this answer", r.mark())),
        }
    }

    /// The state after a record with this answer.
    pub fn after(&mut self, r: &Record, payload: &Outcome) -> Result<(), String> {
        self.low = self.low.max(r.taken());
        match (r, payload.number()) {
            (Record::JN(a, b) | Record::SU(a, b) | Record::JL(a, b), 0..=4) if open(a) || open(b) => {
                self.high = MAX_VARS
            }
            (Record::SD(set, params), 0) => {
                self.structs += 1;
                self.declared.push((*set, params.clone()))
            }
            (Record::FV(_) | Record::NV(_) | Record::NL(..), 0) => {
                self.numeric |= !matches!(r, Record::FV(_));
                self.low = payload.taken();
                self.high = self.low
            }
            (Record::SN(..), 0) => self.numeric = true,
            (Record::IN(t), 0) => {
                let n = needs(t)[2] as usize;
                (self.low, self.high) = (self.low + n, MAX_VARS.min(self.high + n));
                added(t, &mut self.constraints)
            }
            (Record::NC(loc, _, t), 0) => self.add(1, *loc, t),
            (Record::BC(loc, t), 0) => self.add(2, *loc, t),
            (Record::SC(loc, t), 0) => self.add(3, *loc, t),
            (Record::MJ(pairs), 0) => {
                // what a pair takes depends on its types alone, as far as it is known
                let all = if let Outcome::Pairs(all) = payload { &all[..] } else { &[] };
                for ((case, a, b), o) in pairs.iter().zip(all) {
                    self.after(&case.record(a.clone(), b.clone()), o)?
                }
            }
            (Record::KP(_), 0) => {
                self.kept(if let Outcome::Kept(all) = payload { all } else { &[] });
                return Ok(());
            }
            (Record::SV, 0) => {
                self.high = if self.numeric { MAX_VARS } else { self.high };
                self.constraints.clear()
            }
            _ => (),
        }
        self.low = self.low.max(payload.taken());
        let fits = self.low <= self.high;
        fits.then_some(()).ok_or("its answer shows a variable that is not taken".into())
    }

    /// so many variables are taken from here on, and the constraints' types have their new numbers
    fn kept(&mut self, all: &[(u16, u16)]) {
        (self.low, self.high) = (all.len(), all.len());
        self.numeric &= !all.is_empty();
        for c in &mut self.constraints {
            c.ty = c.ty.as_ref().and_then(|t| moved(t, all))
        }
    }

    fn add(&mut self, code: u8, loc: u32, t: &Ty) {
        let ty = (!matches!(t.kind, Kind::Var(_))).then(|| t.clone());
        self.constraints.push(Constraint { code, loc, ty })
    }
}
