//! The driver: a job's records one after the other, each answered by a call of core.rs.
//!
//! `Outcome::Core` is core.rs's own answer, 0 to 4. `Outcome::Refused` is NOT core.rs's: it follows 01's rules,
//! from the reader, from a count, or from the assertion at which core.rs panicked. Two limits are not modelled,
//! because core.rs counts neither: 7 for nodes or argument places, and 8. Of MJ (02, R-8), which core.rs has not, each pair is a
//! call of its `join` or `subtype`; which pairs are 7 or 8 is told by whoever counts (`record_within`).
//!
//! A literal's need (02, R-7) stands beside core.rs's map. In a job that has one, JN, SU and SV's numeric step are answered
//! by 02's rules on trees (`count`), whose answer without the needs must be core.rs's; and the integer types that core.rs
//! has not are structs without parameters in its map, which is all that it asks of them but in `NC`.
//!
//! Of JL and UL (02, R-9) all but the last four bytes is core.rs's. UL's links are counted along its bindings; JL's by
//! `count`, whose answer and state must be core.rs's.
//!
//! core.rs never clears, and gives no number again. KP (02, R-11) is the driver's own reach over core.rs's trees: what stays is put
//! back into core.rs's map and list under new numbers, and its counter goes on behind them.
use crate::{
    count::{joined, needs, settled, tail},
    diagnostics::{
        codes::{AbilitySafety, Code, TypeSafety},
        Diagnostic,
    },
    expansion::ast::{AbilitySet, Address, ModuleIdent, ModuleIdent_},
    naming::ast::{
        self as N, probe as nprobe, BuiltinTypeName_, StructDefinition, StructFields, StructTypeParameter, TParam,
        TParamID, TVar, Type, TypeName_, Type_,
    },
    parser::ast::{Ability_, ModuleName, StructName},
    record::{self, Kind, Known, Record, Ty, TypingCase},
    shared::{unique_map::UniqueMap, CompilationEnv, Counter, NumericalAddress},
    state_text::state_text,
    typing::{
        core::{self, probe as cprobe, Constraint, Context, ModuleInfo, Subst, TypingError},
        expand,
    },
};
use move_ir_types::location::*;
use move_symbol_pool::Symbol;
use std::{
    cell::RefCell,
    collections::{BTreeMap, BTreeSet, HashMap, HashSet},
    fmt::Write,
    panic::{catch_unwind, AssertUnwindSafe},
    sync::Once,
};

pub const MAX_VARS: u64 = 1024;
pub const MAX_CONSTRAINTS: usize = 512;
pub const MAX_STRUCTS: usize = 256;
pub const MAX_PAYLOAD: usize = 4096;
/// why core.rs is silent about u16, u32 and u256
pub const WIDER: &str = "core.rs has no such integer type";
/// above it a type is not handed to a walk of core.rs that writes it out
const HUGE: u64 = 4_000_000;

#[derive(Debug, Clone, PartialEq, Eq)]
pub enum Outcome {
    /// core.rs's answer, 0 to 4, and its payload
    Core(u8, Vec<u8>),
    /// 5 to 14 by 01's rules, 16 to 18 by 02's, and why
    Refused(u8, String),
    /// core.rs does not end here and 01 answers 0: there is nothing to compare with, and the job ends
    Silent(String),
}

/// A job's state as core.rs holds it; variables by number, a type as 01 writes it.
#[derive(Debug, Clone, PartialEq, Eq)]
pub struct State {
    pub next_var: u64,
    pub structs: usize,
    pub bindings: Vec<(u16, Ty)>,
    pub marks: Vec<(u16, u32)>,
    /// 02's R-7: how many bits a marked variable needs, where it needs any
    pub needs: Vec<(u16, u16)>,
    pub constraints: Vec<Held>,
}

/// kind: 0 numeric, 1 bits, 2 ordered, 3 base, 4 single, 5 abilities
#[derive(Debug, Clone, PartialEq, Eq)]
pub struct Held {
    pub kind: u8,
    pub loc: u32,
    pub abilities: u8,
    pub ty: Ty,
}

impl State {
    /// 02's R-11, over trees: what KP of these variables leaves, and the variables that stay, by rising number.
    fn cleared(&self, listed: &[u16]) -> (State, Vec<u16>) {
        let bound: BTreeMap<u16, &Ty> = self.bindings.iter().map(|(v, t)| (*v, t)).collect();
        let (mut kept, mut open) = (BTreeSet::new(), listed.to_vec());
        self.constraints.iter().for_each(|h| variables(&h.ty, &mut open));
        while let Some(v) = open.pop() {
            if kept.insert(v) {
                bound.get(&v).into_iter().for_each(|t| variables(t, &mut open))
            }
        }
        let stay: Vec<u16> = kept.into_iter().collect();
        let to = |v: u16| stay.binary_search(&v).ok().map(|new| new as u16);
        let moved = |t: &Ty| t.moved(&to).expect("a type that stays has its variables");
        let after = State {
            next_var: stay.len() as u64,
            structs: self.structs,
            bindings: self.bindings.iter().filter_map(|(v, t)| Some((to(*v)?, moved(t)))).collect(),
            marks: self.marks.iter().filter_map(|(v, loc)| Some((to(*v)?, *loc))).collect(),
            needs: self.needs.iter().filter_map(|(v, bits)| Some((to(*v)?, *bits))).collect(),
            constraints: self.constraints.iter().map(|h| Held { ty: moved(&h.ty), ..h.clone() }).collect(),
        };
        (after, stay)
    }

    fn has_wider(&self) -> bool {
        let bound = self.bindings.iter().map(|(_, t)| t);
        bound.chain(self.constraints.iter().map(|h| &h.ty)).any(is_wider)
    }
}

/// the variables in a type, added
fn variables(t: &Ty, out: &mut Vec<u16>) {
    if let Kind::Var(v) = t.kind {
        out.push(v)
    }
    t.parts().iter().for_each(|p| variables(p, out))
}

//---- types in and out ------------------------------------------------------------------------------

const ABILITIES: [(u8, Ability_); 4] =
    [(1, Ability_::Copy), (2, Ability_::Drop), (4, Ability_::Store), (8, Ability_::Key)];

fn ability_set(loc: Loc, bits: u8) -> AbilitySet {
    let of = ABILITIES.iter().filter(|(b, _)| bits & b != 0).map(|(_, a)| *a);
    AbilitySet::from_abilities_(loc, of).unwrap()
}

pub(crate) fn ability_bits(s: &AbilitySet) -> u8 {
    ABILITIES.iter().filter(|(_, a)| s.has_ability_(*a)).map(|(b, _)| b).sum()
}

pub(crate) fn mark_in(loc: Loc, mark: u8) -> Option<AbilitySet> {
    (mark != 0).then(|| ability_set(loc, mark - 16))
}

pub(crate) fn mark_out(s: &Option<AbilitySet>) -> u8 {
    s.as_ref().map_or(0, |s| 16 + ability_bits(s))
}

pub(crate) fn module(loc: Loc) -> ModuleIdent {
    let address = Address::anonymous(loc, NumericalAddress(1));
    sp(loc, ModuleIdent_::new(address, ModuleName(sp(loc, Symbol::from("M")))))
}

pub(crate) fn struct_name(loc: Loc, n: u16) -> StructName {
    StructName(sp(loc, Symbol::from(format!("S{}", n).as_str())))
}

/// what the name of a struct that stands for an integer type begins with
const WIDE: &str = "W";

/// copy, drop and store: an integer type's abilities
const PRIMITIVES: u8 = 7;
/// the ids from here on, which no record has, stand for integer types that expand.rs is to leave alone
const EXPANDED: u64 = 1 << 32;

fn stand_in(loc: Loc, n: u8) -> StructName {
    StructName(sp(loc, Symbol::from(format!("{}{}", WIDE, n).as_str())))
}

/// the integer type that a struct stands for
fn stood_for(name: &TypeName_) -> Option<u8> {
    match name {
        TypeName_::ModuleType(_, s) => s.0.value.as_str().strip_prefix(WIDE)?.parse().ok(),
        _ => None,
    }
}

/// expand.rs takes a marked struct for an error, and gives an unmarked one its abilities: parameters it leaves as they are
fn as_parameters(t: &Type) -> Type {
    let value = match &t.value {
        Type_::Ref(m, inner) => Type_::Ref(*m, Box::new(as_parameters(inner))),
        Type_::Apply(k, n, args) => match stood_for(&n.value) {
            Some(number) => {
                let id = TParamID(EXPANDED + 32 * number as u64 + mark_out(k) as u64);
                let bits = k.as_ref().map_or(PRIMITIVES, ability_bits);
                Type_::Param(TParam { id, ..tparam(t.loc, 0, bits) })
            }
            None => Type_::Apply(k.clone(), n.clone(), args.iter().map(as_parameters).collect()),
        },
        other => other.clone(),
    };
    sp(t.loc, value)
}

pub(crate) fn tparam(loc: Loc, id: u32, bits: u8) -> TParam {
    TParam {
        id: TParamID(id as u64),
        user_specified_name: sp(loc, Symbol::from("P")),
        abilities: ability_set(loc, bits),
    }
}

/// core.rs's, by number; the numbers after them are 02's
pub(crate) const BUILTINS: [BuiltinTypeName_; 7] = [
    BuiltinTypeName_::Address,
    BuiltinTypeName_::Signer,
    BuiltinTypeName_::U8,
    BuiltinTypeName_::U64,
    BuiltinTypeName_::U128,
    BuiltinTypeName_::Vector,
    BuiltinTypeName_::Bool,
];

/// whether a builtin that core.rs has not stands in it
pub fn is_wider(t: &Ty) -> bool {
    matches!(t.kind, Kind::Builtin(_, n, _) if n as usize >= BUILTINS.len()) || t.parts().iter().any(is_wider)
}

fn types_in(ts: &[Ty]) -> Vec<Type> {
    ts.iter().map(type_in).collect()
}

pub fn type_in(t: &Ty) -> Type {
    let loc = Loc::of(t.loc);
    let apply = |mark, name, args: &[Ty]| Type_::Apply(mark_in(loc, mark), sp(loc, name), types_in(args));
    sp(
        loc,
        match &t.kind {
            Kind::Unit => Type_::Unit,
            Kind::Ref(mutable, inner) => Type_::Ref(*mutable, Box::new(type_in(inner))),
            Kind::Param(id, bits) => Type_::Param(tparam(loc, *id, *bits)),
            Kind::Builtin(m, n, args) => match BUILTINS.get(*n as usize) {
                Some(b) => apply(*m, TypeName_::Builtin(sp(loc, b.clone())), args),
                None => apply(*m, TypeName_::ModuleType(module(loc), stand_in(loc, *n)), args),
            },
            Kind::List(m, args) => apply(*m, TypeName_::Multiple(args.len()), args),
            Kind::Struct(m, n, args) => apply(*m, TypeName_::ModuleType(module(loc), struct_name(loc, *n)), args),
            Kind::Var(v) => Type_::Var(nprobe::tvar(*v as u64)),
            Kind::Anything => Type_::Anything,
            Kind::UnresolvedError => Type_::UnresolvedError,
        },
    )
}

pub fn type_out(t: &Type) -> Ty {
    let kind = match &t.value {
        Type_::Unit => Kind::Unit,
        Type_::Ref(mutable, inner) => Kind::Ref(*mutable, Box::new(type_out(inner))),
        Type_::Param(tp) => match tp.id.0.checked_sub(EXPANDED) {
            Some(n) => {
                Kind::Builtin(if n % 32 == 0 { 16 + PRIMITIVES } else { (n % 32) as u8 }, (n / 32) as u8, vec![])
            }
            None => Kind::Param(tp.id.0 as u32, ability_bits(&tp.abilities)),
        },
        Type_::Apply(k, n, args) => {
            let (m, args) = (mark_out(k), args.iter().map(type_out).collect());
            match &n.value {
                TypeName_::Builtin(b) => {
                    let number = BUILTINS.iter().position(|x| x == &b.value).unwrap();
                    Kind::Builtin(m, number as u8, args)
                }
                TypeName_::Multiple(_) => Kind::List(m, args),
                TypeName_::ModuleType(_, s) => match stood_for(&n.value) {
                    Some(number) => Kind::Builtin(m, number, args),
                    None => Kind::Struct(m, s.0.value.as_str()[1..].parse().unwrap(), args),
                },
            }
        }
        Type_::Var(v) => Kind::Var(nprobe::number(*v) as u16),
        Type_::Anything => Kind::Anything,
        Type_::UnresolvedError => Kind::UnresolvedError,
    };
    Ty { loc: t.loc.start(), kind }
}

/// 02, R-12: locations zero and unbound variables numbered from 0 by first appearance, left to right. `met`: those so far.
pub fn spelled(t: &Ty, met: &mut Vec<u16>) -> Ty {
    let mut all = |ts: &[Ty]| ts.iter().map(|t| spelled(t, met)).collect();
    let kind = match &t.kind {
        Kind::Ref(m, inner) => Kind::Ref(*m, Box::new(spelled(inner, met))),
        Kind::Builtin(m, n, ts) => Kind::Builtin(*m, *n, all(ts)),
        Kind::List(m, ts) => Kind::List(*m, all(ts)),
        Kind::Struct(m, n, ts) => Kind::Struct(*m, *n, all(ts)),
        Kind::Var(v) => {
            if !met.contains(v) {
                met.push(*v)
            }
            Kind::Var(met.iter().position(|w| w == v).unwrap() as u16)
        }
        other => other.clone(),
    };
    Ty { loc: 0, kind }
}

fn type_of(c: &Constraint) -> &Type {
    match c {
        Constraint::AbilityConstraint { ty, .. } => ty,
        Constraint::NumericConstraint(_, _, t)
        | Constraint::BitsConstraint(_, _, t)
        | Constraint::OrderedConstraint(_, _, t) => t,
        Constraint::BaseTypeConstraint(_, _, t) | Constraint::SingleTypeConstraint(_, _, t) => t,
    }
}

/// core.rs's `Constraint` has no `Clone`
fn copy_of(c: &Constraint) -> Constraint {
    use Constraint as C;
    match c {
        C::AbilityConstraint { loc, msg, ty, constraints } => {
            C::AbilityConstraint { loc: *loc, msg: msg.clone(), ty: ty.clone(), constraints: constraints.clone() }
        }
        C::NumericConstraint(l, o, t) => C::NumericConstraint(*l, o, t.clone()),
        C::BitsConstraint(l, o, t) => C::BitsConstraint(*l, o, t.clone()),
        C::OrderedConstraint(l, o, t) => C::OrderedConstraint(*l, o, t.clone()),
        C::BaseTypeConstraint(l, m, t) => C::BaseTypeConstraint(*l, m.clone(), t.clone()),
        C::SingleTypeConstraint(l, m, t) => C::SingleTypeConstraint(*l, m.clone(), t.clone()),
    }
}

fn held(c: &Constraint) -> Held {
    let (kind, loc, abilities) = match c {
        Constraint::NumericConstraint(l, ..) => (0, l, 0),
        Constraint::BitsConstraint(l, ..) => (1, l, 0),
        Constraint::OrderedConstraint(l, ..) => (2, l, 0),
        Constraint::BaseTypeConstraint(l, ..) => (3, l, 0),
        Constraint::SingleTypeConstraint(l, ..) => (4, l, 0),
        Constraint::AbilityConstraint { loc, constraints, .. } => (5, loc, ability_bits(constraints)),
    };
    Held { kind, loc: loc.start(), abilities, ty: type_out(type_of(c)) }
}

fn unheld(h: &Held) -> Constraint {
    let (loc, ty) = (Loc::of(h.loc), type_in(&h.ty));
    match h.kind {
        0 => Constraint::NumericConstraint(loc, "+", ty),
        1 => Constraint::BitsConstraint(loc, "|", ty),
        2 => Constraint::OrderedConstraint(loc, "<", ty),
        3 => Constraint::BaseTypeConstraint(loc, "base".into(), ty),
        4 => Constraint::SingleTypeConstraint(loc, "single".into(), ty),
        _ => Constraint::AbilityConstraint { loc, msg: None, ty, constraints: ability_set(loc, h.abilities) },
    }
}

//---- panics ------------------------------------------------------------------------------------------

thread_local!(static PANIC: RefCell<Option<String>> = const { RefCell::new(None) });

/// Runs `f`; a panic in it gives its message instead of a report on stderr.
fn caught<T>(f: impl FnOnce() -> T) -> Result<T, String> {
    static HOOK: Once = Once::new();
    HOOK.call_once(|| {
        let report = std::panic::take_hook();
        std::panic::set_hook(Box::new(move |info| {
            let words = info.payload();
            let text = match (words.downcast_ref::<String>(), words.downcast_ref::<&str>()) {
                (Some(s), _) => s.clone(),
                (_, Some(s)) => s.to_string(),
                _ => String::new(),
            };
            let kept = PANIC.with(|p| p.borrow_mut().as_mut().map(|m| *m = text));
            if kept.is_none() {
                report(info)
            }
        }));
    });
    PANIC.with(|p| *p.borrow_mut() = Some(String::new()));
    let done = catch_unwind(AssertUnwindSafe(f));
    let message = PANIC.with(|p| p.borrow_mut().take()).unwrap();
    done.map_err(|_| message)
}

/// 01's number for an assertion or panic of core.rs
const PANICS: [(&str, u8); 7] = [
    ("ICE failed naming", 10),
    ("ICE instantiate type variable", 11),
    ("ICE tvar in subst_tparams", 11),
    ("ICE unmapped tparam in subst_tparams_base", 12),
    ("assertion failed: old_val.is_none()", 13),
    ("assertion failed: label_added", 16),
    ("ICE expanding pre expanded type", 17),
];

fn number_of_panic(message: &str) -> u8 {
    match PANICS.iter().find(|(start, _)| message.starts_with(start)) {
        Some((_, number)) => *number,
        None => panic!("core.rs panicked in a way that 01 has no number for: {}", message),
    }
}

/// where core.rs points to the argument that lacks an ability
fn hint_of(d: &Diagnostic) -> Option<&Loc> {
    d.secondary.iter().find(|(_, m)| m.contains("can have the ability")).map(|(loc, _)| loc)
}

//---- a job -------------------------------------------------------------------------------------------

type Answer = Result<(u8, Vec<u8>), Outcome>;

pub struct Job {
    known: Known,
    /// its state has a type that core.rs has not, so that every record is silent
    wider: bool,
    /// 02's R-7: what the numeric variables need, where they need any bits
    needs: BTreeMap<u16, u16>,
    pub(crate) ctx: Context<'static>,
}

impl Job {
    pub fn new() -> Job {
        // a Context borrows its environment; a job's (one empty list) is never given back
        let env: &'static mut CompilationEnv = Box::leak(Box::new(CompilationEnv::new()));
        let prog = N::Program { modules: UniqueMap::new(), scripts: BTreeMap::new() };
        let mut ctx = Context::new(env, None, &prog);
        let empty = ModuleInfo {
            friends: UniqueMap::new(),
            structs: UniqueMap::new(),
            functions: UniqueMap::new(),
            constants: UniqueMap::new(),
        };
        ctx.modules.add(module(Loc::of(0)), empty).ok().unwrap();
        let mut job = Job { known: Known::default(), wider: false, needs: BTreeMap::new(), ctx };
        (BUILTINS.len()..record::BUILTINS.len())
            .for_each(|n| job.add_struct(stand_in(Loc::of(0), n as u8), PRIMITIVES, &[]));
        job
    }

    /// The first record of `stream`: its outcome and how many bytes it has, 0 where it is not read.
    pub fn next(&mut self, stream: &[u8]) -> (Outcome, usize) {
        self.next_within(stream, &[])
    }

    /// .. with the numbers of an MJ's pairs, as `record_within` has them
    pub fn next_within(&mut self, stream: &[u8], pairs: &[u8]) -> (Outcome, usize) {
        match record::read_record(stream, &self.known) {
            Ok((r, n)) => (self.record_within(&r, pairs), n),
            Err(x) => (Outcome::Refused(x.number, format!("not read: byte {}, {}", x.at, x.rule)), 0),
        }
    }

    /// One record that is known to be read; all but 0 to 4 leave the state as at entry.
    pub fn record(&mut self, r: &Record) -> Outcome {
        self.record_within(r, &[])
    }

    /// .. where a pair of MJ that was counted to be 7 or 8 is refused so, and core.rs is not asked: it knows neither limit
    pub fn record_within(&mut self, r: &Record, pairs: &[u8]) -> Outcome {
        match r {
            _ if self.needs.is_empty() && (self.wider || r.types().into_iter().any(is_wider)) => {
                Outcome::Silent(WIDER.into())
            }
            Record::MJ(all) => self.many(all, pairs),
            _ => self.one(r),
        }
    }

    /// 02's R-8: one pair after the other, each in the state that the one before it left
    fn many(&mut self, all: &[(TypingCase, Ty, Ty)], counted: &[u8]) -> Outcome {
        let mut out = vec![];
        for (i, (case, a, b)) in all.iter().enumerate() {
            match counted.get(i) {
                Some(n @ (7 | 8)) => put_pair(*n, &[], &mut out),
                _ => match self.one(&case.record(a.clone(), b.clone())) {
                    Outcome::Core(n, payload) => put_pair(n, &payload, &mut out),
                    Outcome::Refused(n, _) => put_pair(n, &[], &mut out),
                    silent => return silent,
                },
            }
        }
        Outcome::Core(0, out)
    }

    fn one(&mut self, r: &Record) -> Outcome {
        let (subst, vars, needs) = (self.ctx.subst.clone(), self.known.vars, self.needs.clone());
        let constraints: Vec<_> = self.ctx.constraints.iter().map(copy_of).collect();
        Counter::set(vars as u64);
        let done = caught(|| self.run(r));
        let full = Counter::peek() > MAX_VARS || self.ctx.constraints.len() > MAX_CONSTRAINTS;
        let outcome = match done {
            Ok(Err(outcome @ Outcome::Silent(_))) => outcome,
            _ if full => Outcome::Refused(7, "no variable or constraint left".into()),
            Ok(Err(outcome)) => outcome,
            Err(message) => Outcome::Refused(number_of_panic(&message), message.lines().next().unwrap_or("").into()),
            Ok(Ok((_, payload))) if payload.len() > MAX_PAYLOAD => {
                Outcome::Refused(14, "payload too long (7 where its nodes do not fit)".into())
            }
            Ok(Ok((number, payload))) => Outcome::Core(number, payload),
        };
        if let Outcome::Core(..) = outcome {
            self.known.vars = Counter::peek() as usize;
        } else {
            self.ctx.subst = subst;
            self.needs = needs;
            self.ctx.constraints = constraints;
            self.ctx.env.take_diags();
        }
        outcome
    }

    pub fn known(&self) -> &Known {
        &self.known
    }

    /// false: its state is not core.rs's
    pub fn has_state(&self) -> bool {
        !self.wider
    }

    /// A job whose state is `s`; its structs are declared one after the other.
    pub fn load(s: &State, declared: &[(u8, Vec<u8>)]) -> Job {
        let mut job = Job::new();
        for (abilities, bytes) in declared {
            job.declare(*abilities, bytes, &mut vec![]).ok().unwrap()
        }
        job.known.vars = s.next_var as usize;
        job.wider = s.has_wider() && s.needs.is_empty();
        if job.wider {
            return job;
        }
        job.hold(s);
        job.ctx.constraints = s.constraints.iter().map(unheld).collect();
        job
    }

    /// The bindings, marks and needs are those of `s`.
    fn hold(&mut self, s: &State) {
        self.ctx.subst = Subst::empty();
        s.bindings.iter().for_each(|(v, t)| self.ctx.subst.insert(nprobe::tvar(*v as u64), type_in(t)));
        let marks = s.marks.iter().map(|(v, l)| (nprobe::tvar(*v as u64), Loc::of(*l)));
        marks.for_each(|(v, l)| cprobe::mark(&mut self.ctx.subst, v, l));
        self.needs = s.needs.iter().copied().collect()
    }

    /// Declaration n: abilities and parameter bytes, as core.rs holds them.
    pub fn declared(&self, n: usize) -> (u8, Vec<u8>) {
        let info = self.ctx.modules.get(&module(Loc::of(0))).unwrap();
        let def = info.structs.get(&struct_name(Loc::of(0), n as u16)).unwrap();
        let byte = |p: &StructTypeParameter| ability_bits(&p.param.abilities) + 16 * p.is_phantom as u8;
        (ability_bits(&def.abilities), def.type_parameters.iter().map(byte).collect())
    }

    pub fn state(&self) -> State {
        let n = |v: TVar| nprobe::number(v) as u16;
        let s = &self.ctx.subst;
        State {
            next_var: self.known.vars as u64,
            structs: self.known.params.len(),
            bindings: cprobe::bindings(s).into_iter().map(|(v, t)| (n(v), type_out(&t))).collect(),
            marks: cprobe::num_vars(s).into_iter().map(|(v, l)| (n(v), l.start())).collect(),
            needs: self.needs.iter().map(|(v, bits)| (*v, *bits)).collect(),
            constraints: self.ctx.constraints.iter().map(held).collect(),
        }
    }

    fn run(&mut self, r: &Record) -> Answer {
        let mut out = vec![];
        let put = |out: &mut Vec<u8>, t: Type| type_out(&t).write(out);
        match r {
            Record::SD(abilities, params) => self.declare(*abilities, params, &mut out)?,
            Record::FV(loc) => put(&mut out, core::make_tvar(&mut self.ctx, Loc::of(*loc))),
            Record::NV(loc) => put(&mut out, core::make_num_tvar(&mut self.ctx, Loc::of(*loc))),
            Record::NL(loc, bits) => {
                put(&mut out, core::make_num_tvar(&mut self.ctx, Loc::of(*loc)));
                self.needs.insert(self.known.vars as u16, *bits);
            }
            Record::SN(v, loc) => self.ctx.subst.set_num_var(nprobe::tvar(*v as u64), Loc::of(*loc)),
            Record::JN(..) | Record::SU(..) | Record::JL(..) if !self.needs.is_empty() => return self.joined(r),
            Record::JN(a, b) => return Ok(self.join(core::join, a, b)),
            Record::SU(a, b) => return Ok(self.join(core::subtype, a, b)),
            Record::JL(a, b) => return self.join_links(r, a, b),
            Record::UF(t) => put(&mut out, core::unfold_type(&self.ctx.subst, type_in(t))),
            Record::UL(t) => {
                put(&mut out, core::unfold_type(&self.ctx.subst, type_in(t)));
                out.extend(self.links(&t.kind).to_le_bytes())
            }
            Record::RD(t) => {
                let t = type_in(t);
                self.readable(&t)?;
                put(&mut out, core::ready_tvars(&self.ctx.subst, t))
            }
            Record::CN(t) => {
                let t = type_in(t);
                self.readable(&t)?;
                spelled(&type_out(&core::ready_tvars(&self.ctx.subst, t)), &mut vec![]).write(&mut out)
            }
            Record::TS(args, t) => {
                let tps: Vec<_> = args.iter().map(|(id, _)| tparam(Loc::of(0), *id, 0)).collect();
                let args: Vec<_> = args.iter().map(|(_, t)| type_in(t)).collect();
                let s = core::make_tparam_subst(&tps, args);
                put(&mut out, core::subst_tparams(&s, type_in(t)))
            }
            Record::IN(t) => put(&mut out, core::instantiate(&mut self.ctx, type_in(t))),
            Record::NC(loc, kind, t) => match kind {
                0 => self.ctx.add_numeric_constraint(Loc::of(*loc), "+", type_in(t)),
                1 => self.ctx.add_bits_constraint(Loc::of(*loc), "|", type_in(t)),
                _ => self.ctx.add_ordered_constraint(Loc::of(*loc), "<", type_in(t)),
            },
            Record::BC(loc, t) => self.ctx.add_base_type_constraint(Loc::of(*loc), "base", type_in(t)),
            Record::SC(loc, t) => self.ctx.add_single_type_constraint(Loc::of(*loc), "single", type_in(t)),
            Record::SV => self.solve(&mut out)?,
            Record::RM(t) => match needs(t) {
                Some(four) => four.iter().for_each(|n| out.extend((*n as u32).to_le_bytes())),
                None => return Err(Outcome::Refused(11, "a variable".into())),
            },
            Record::XP(t) => self.expand(type_in(t), &mut out)?,
            Record::KP(listed) => self.keep(listed, &mut out),
            r => unimplemented!("{} in the driver", r.mark()),
        }
        Ok((0, out))
    }

    pub(crate) fn declare(&mut self, abilities: u8, params: &[u8], out: &mut Vec<u8>) -> Result<(), Outcome> {
        let number = self.known.params.len() as u16;
        if self.known.params.len() == MAX_STRUCTS {
            return Err(Outcome::Refused(7, "no struct left".into()));
        }
        self.add_struct(struct_name(Loc::of(0), number), abilities, params);
        self.known.params.push(params.len());
        out.extend(number.to_le_bytes());
        Ok(())
    }

    fn add_struct(&mut self, name: StructName, abilities: u8, params: &[u8]) {
        let loc = Loc::of(0);
        let param =
            |(i, p): (usize, &u8)| StructTypeParameter { param: tparam(loc, i as u32, p % 16), is_phantom: *p >= 16 };
        let def = StructDefinition {
            attributes: UniqueMap::new(),
            abilities: ability_set(loc, abilities),
            type_parameters: params.iter().enumerate().map(param).collect(),
            fields: StructFields::Native(loc),
        };
        let module = self.ctx.modules.get_mut(&module(loc)).unwrap();
        module.structs.add(name, def).ok().unwrap()
    }

    /// 1 to 4 put back all bindings and marks, as the compiler does by dropping the failed `Subst`.
    fn join(
        &mut self,
        f: fn(Subst, &Type, &Type) -> Result<(Subst, Type), TypingError>,
        a: &Ty,
        b: &Ty,
    ) -> (u8, Vec<u8>) {
        let two = |a: &Type, b: &Type| [type_out(a).bytes(), type_out(b).bytes()].concat();
        match f(self.ctx.subst.clone(), &type_in(a), &type_in(b)) {
            Ok((subst, t)) => {
                self.ctx.subst = subst;
                (0, type_out(&t).bytes())
            }
            Err(TypingError::SubtypeError(a, b)) => (1, two(&a, &b)),
            Err(TypingError::Incompatible(a, b)) => (2, two(&a, &b)),
            Err(TypingError::ArityMismatch(_, a, _, b)) => (3, two(&a, &b)),
            Err(TypingError::RecursiveType(l)) => (4, l.start().to_le_bytes().to_vec()),
        }
    }

    /// how many of core.rs's bindings lead from variable to variable
    fn links(&self, of: &Kind) -> u32 {
        let bindings: HashMap<_, _> = cprobe::bindings(&self.ctx.subst).into_iter().collect();
        let variable = |t: &Type| if let Type_::Var(v) = t.value { Some(v) } else { None };
        let first = if let Kind::Var(v) = of { Some(nprobe::tvar(*v as u64)) } else { None };
        let chain = std::iter::successors(first, |v| bindings.get(v).and_then(variable));
        chain.skip(1).count() as u32
    }

    /// JL: core.rs's join, and the links by 02's rules on trees; where these meet a limit, that is the answer.
    fn join_links(&mut self, r: &Record, a: &Ty, b: &Ty) -> Answer {
        let before = self.state();
        let core = self.join(core::join, a, b);
        let (number, said, links, after) = joined(&before, r);
        if number > 4 {
            return Err(Outcome::Refused(number, "by 02's rules on trees".into()));
        }
        let left = State { next_var: Counter::peek(), ..self.state() };
        assert!(core == (number, said.clone()), "driver: core.rs gives {:?}, and by 02's rules it is {}", core, number);
        assert!(left == after, "driver: core.rs leaves {}", state_text(&left));
        Ok((number, [said, tail(r, links)].concat()))
    }

    /// KP: the map, the list, the needs and the counter are those of what stays. Where a type that core.rs has not outlives all
    /// needs, the rest is silent.
    fn keep(&mut self, listed: &[u16], out: &mut Vec<u8>) {
        let (after, stay) = self.state().cleared(listed);
        self.hold(&after);
        self.ctx.constraints = after.constraints.iter().map(unheld).collect();
        Counter::set(after.next_var);
        self.wider = after.has_wider() && after.needs.is_empty();
        put_stay(&stay, out)
    }

    /// A record's outcome, all left as it was. It declares nothing and adds no constraint.
    pub fn aside(&mut self, r: &Record) -> Outcome {
        let (subst, known, needs) = (self.ctx.subst.clone(), self.known.clone(), self.needs.clone());
        let outcome = self.record(r);
        (self.ctx.subst, self.known, self.needs) = (subst, known, needs);
        outcome
    }

    /// Joins where literals need bits: by 02's rules on trees, which without needs must be core.rs.
    fn joined(&mut self, r: &Record) -> Answer {
        let s = self.state();
        self.held_to_core(&s, r);
        let (number, payload, links, after) = joined(&s, r);
        Counter::set(after.next_var);
        match number {
            0 => self.hold(&after),
            1..=4 => (),
            n => return Err(Outcome::Refused(n, "by 02's rules on trees".into())),
        }
        Ok((number, [payload, tail(r, links)].concat()))
    }

    /// where core.rs has every type
    fn held_to_core(&mut self, s: &State, r: &Record) {
        if s.has_wider() || r.types().into_iter().any(is_wider) {
            return;
        }
        let (number, payload, _, after) = joined(&State { needs: vec![], ..s.clone() }, r);
        let (Record::JN(a, b) | Record::SU(a, b) | Record::JL(a, b)) = r else { return };
        if number <= 4 {
            let vars = Counter::peek();
            let core = self.join(if matches!(r, Record::SU(..)) { core::subtype } else { core::join }, a, b);
            let left = State { next_var: Counter::peek(), needs: vec![], ..self.state() };
            assert!(core == (number, payload), "driver: without needs core.rs gives {:?}", core);
            assert!(left == after, "driver: without needs core.rs leaves {}", state_text(&left));
            Counter::set(vars);
            self.hold(s)
        }
    }

    /// 02's R-5. What is too large to be written out is 14, or 17 where a marked list or struct is in it.
    fn expand(&mut self, mut t: Type, out: &mut Vec<u8>) -> Result<(), Outcome> {
        self.readable(&t).map_err(|o| match o {
            Outcome::Refused(14, _) if self.marked(&mut HashSet::new(), &t) => {
                Outcome::Refused(17, "a marked list or struct in a type that is not written out".into())
            }
            o => o,
        })?;
        let kept = self.ctx.subst.clone();
        if !self.needs.is_empty() {
            t = as_parameters(&t);
            let bindings = cprobe::bindings(&kept).into_iter();
            bindings.for_each(|(v, b)| self.ctx.subst.insert(v, as_parameters(&b)))
        }
        expand::type_(&mut self.ctx, &mut t);
        self.ctx.subst = kept;
        type_out(&t).write(out);
        for d in self.ctx.env.take_diags() {
            assert!(d.code == Code::T(TypeSafety::UninferredType));
            out.push(5);
            out.extend(d.primary.0.start().to_le_bytes());
        }
        Ok(())
    }

    /// whether a list or struct with an ability mark is in the type, each variable looked at once
    fn marked(&self, seen: &mut HashSet<TVar>, t: &Type) -> bool {
        match &t.value {
            Type_::Ref(_, i) => self.marked(seen, i),
            Type_::Apply(Some(_), sp!(_, n @ (TypeName_::Multiple(_) | TypeName_::ModuleType(..))), _) => {
                stood_for(n).is_none()
            }
            Type_::Apply(_, _, args) => args.iter().any(|a| self.marked(seen, a)),
            Type_::Var(v) => seen.insert(*v) && self.ctx.subst.get(*v).is_some_and(|b| self.marked(seen, b)),
            _ => false,
        }
    }

    //---- where core.rs would not end (a stack overflow is no panic) ------------------------------------

    /// some bytes more than the wholly read type has; None if it runs into itself
    fn read_size(&self, t: &Type) -> Option<u64> {
        fn go(s: &Subst, seen: &mut HashMap<TVar, Option<u64>>, t: &Type) -> Option<u64> {
            Some(match &t.value {
                Type_::Ref(_, i) => 6u64.saturating_add(go(s, seen, i)?),
                Type_::Apply(_, _, args) => {
                    let mut n = 8u64;
                    for a in args {
                        n = n.saturating_add(go(s, seen, a)?)
                    }
                    n
                }
                Type_::Param(_) => 10,
                Type_::Var(v) => match (s.get(*v), seen.get(v)) {
                    (None, _) => 7,
                    (Some(_), Some(size)) => (*size)?,
                    (Some(b), None) => {
                        seen.insert(*v, None);
                        let n = go(s, seen, b)?;
                        seen.insert(*v, Some(n));
                        n
                    }
                },
                _ => 5,
            })
        }
        go(&self.ctx.subst, &mut HashMap::new(), t)
    }

    pub(crate) fn readable(&self, t: &Type) -> Result<(), Outcome> {
        match self.read_size(t) {
            None => Err(Outcome::Refused(9, "core.rs would not end".into())),
            Some(n) if n > HUGE => Err(Outcome::Refused(14, "not written out (7 where its nodes do not fit)".into())),
            Some(_) => Ok(()),
        }
    }

    //---- SV ------------------------------------------------------------------------------------------

    /// core.rs solves the list and drops it. Where it would not end, asserts or names a phantom argument, the driver
    /// refuses first, in list order: 9, then 16 (02, R-1). Where an ability constraint after those is too large, or a
    /// message would not end, core.rs is silent. The diagnostics carry no type, so each constraint is then solved again
    /// alone to see which of them it was (that adds diagnostics only: the numeric step finds nothing left to do); both
    /// must agree.
    fn solve(&mut self, out: &mut Vec<u8>) -> Result<(), Outcome> {
        let mut all = std::mem::take(&mut self.ctx.constraints);
        // numeric step first, alone: what may be solved depends on the bindings that it makes
        match self.needs.is_empty() {
            true => core::solve_constraints(&mut self.ctx),
            false => {
                self.settle()?;
                all.retain(|c| !self.of_a_stand_in(c))
            }
        }
        for c in &all {
            if let Constraint::AbilityConstraint { ty, constraints, .. } = c {
                self.unhindered(c, ty, constraints)?
            }
        }
        let solvable = |c: &Constraint| if self.will_fail(c) { self.printable(type_of(c)) } else { Ok(()) };
        all.iter().try_for_each(solvable)?;
        self.ctx.constraints = all.iter().map(copy_of).collect();
        self.solve_rest();
        let together = self.ctx.env.take_diags();
        let mut singly = vec![];
        for c in all {
            let t = core::unfold_type(&self.ctx.subst, type_of(&c).clone());
            self.ctx.constraints = vec![c];
            self.solve_rest();
            for d in self.ctx.env.take_diags() {
                self.failure(&d, &t, out);
                singly.push(d);
            }
        }
        assert!(format!("{:?}", together) == format!("{:?}", singly), "driver: attribution differs");
        Ok(())
    }

    /// SV's numeric step where literals need bits
    fn settle(&mut self) -> Result<(), Outcome> {
        let full = |n| Outcome::Refused(n, "by 02's rules on trees".into());
        let after = settled(&self.state()).map_err(full)?;
        Counter::set(after.next_var);
        self.hold(&after);
        Ok(())
    }

    /// a numeric constraint that is met by an integer type that core.rs has not
    fn of_a_stand_in(&self, c: &Constraint) -> bool {
        let numeric = matches!(
            c,
            Constraint::NumericConstraint(..) | Constraint::BitsConstraint(..) | Constraint::OrderedConstraint(..)
        );
        let unfolded = core::unfold_type(&self.ctx.subst, type_of(c).clone());
        numeric && matches!(&unfolded.value, Type_::Apply(_, n, _) if stood_for(&n.value).is_some())
    }

    fn solve_rest(&mut self) {
        let before = Counter::peek();
        core::solve_constraints(&mut self.ctx);
        assert!(before == Counter::peek(), "driver: a second numeric step did something");
    }

    fn failure(&self, d: &Diagnostic, t: &Type, out: &mut Vec<u8>) {
        let code = match d.code {
            Code::T(TypeSafety::BuiltinOperation) => 1,
            Code::T(TypeSafety::ExpectedBaseType) => 2,
            Code::T(TypeSafety::ExpectedSingleType) => 3,
            Code::A(AbilitySafety::Constraint) => 4,
            x => panic!("driver: unexpected diagnostic {:?}", x),
        };
        out.push(code);
        out.extend(d.primary.0.start().to_le_bytes());
        if code != 4 {
            return type_out(t).write(out);
        }
        let named = |a: &Ability_| d.primary.1.contains(&format!("'{}'", a));
        let (bit, ability) = *ABILITIES.iter().find(|(_, a)| named(a)).unwrap();
        out.push(bit);
        type_out(t).write(out);
        out.extend(self.ability_rule(d, ability, t))
    }

    /// only to know when core.rs would write a message
    fn will_fail(&self, c: &Constraint) -> bool {
        let t = core::unfold_type(&self.ctx.subst, type_of(c).clone());
        let list = matches!(&t.value, Type_::Apply(_, sp!(_, TypeName_::Multiple(_)), _));
        match c {
            // what `unhindered` lets through is small
            Constraint::AbilityConstraint { .. } => false,
            Constraint::BaseTypeConstraint(..) => list || matches!(&t.value, Type_::Ref(..)),
            Constraint::SingleTypeConstraint(..) => list,
            _ => !matches!(t.value.builtin_name(), Some(b) if b.value.is_numeric()),
        }
    }

    /// core.rs's `error_format` writes a type out whole
    fn printable(&self, t: &Type) -> Result<(), Outcome> {
        match self.read_size(t) {
            Some(n) if n <= HUGE => Ok(()),
            _ => Err(Outcome::Silent("core.rs's message about a failed constraint would not end".into())),
        }
    }

    /// 9 or 16 of an ability constraint; silent where the type is too large to be worked through
    fn unhindered(&mut self, c: &Constraint, ty: &Type, asked: &AbilitySet) -> Result<(), Outcome> {
        match self.read_size(ty) {
            None => return Err(Outcome::Refused(9, "an ability constraint runs into itself".into())),
            Some(_) => self.printable(ty)?,
        }
        let t = core::unfold_type(&self.ctx.subst, ty.clone());
        let had = core::infer_abilities(&self.ctx, &self.ctx.subst, t.clone());
        let missing = |a: Ability_| asked.has_ability_(a) && !had.has_ability_(a);
        match ABILITIES.iter().any(|(_, a)| missing(*a) && self.granted(*a, &t)) {
            true => self.contradicted(c, &t),
            false => Ok(()),
        }
    }

    /// What core.rs does where the driver finds 16: it asserts, or its hint is a phantom argument.
    fn contradicted(&mut self, c: &Constraint, t: &Type) -> Result<(), Outcome> {
        self.ctx.constraints = vec![copy_of(c)];
        self.solve_rest();
        let diags = self.ctx.env.take_diags();
        let (args, phantom) = self.arguments(t);
        let at_phantom = |hint: &Loc| args.iter().zip(&phantom).any(|(a, phantom)| *phantom && a.loc == *hint);
        assert!(diags.iter().any(|d| hint_of(d).is_some_and(at_phantom)), "driver: 16, and core.rs names no phantom");
        Err(Outcome::Refused(16, "only a phantom argument lacks what a mark lacks".into()))
    }

    /// the arguments of a named type, and for each whether it is phantom
    fn arguments<'t>(&self, t: &'t Type) -> (&'t [Type], Vec<bool>) {
        match &t.value {
            Type_::Apply(_, sp!(_, TypeName_::ModuleType(m, s)), args) => {
                (args, self.ctx.struct_tparams(m, s).iter().map(|p| p.is_phantom).collect())
            }
            Type_::Apply(_, _, args) => (args, vec![false; args.len()]),
            _ => (&[], vec![]),
        }
    }

    fn lacks(&self, a: Ability_, t: &Type) -> bool {
        !core::infer_abilities(&self.ctx, &self.ctx.subst, t.clone()).has_ability_(a.requires())
    }

    /// declared, and no argument but phantom ones lacks what is needed
    fn granted(&self, a: Ability_, t: &Type) -> bool {
        let declared = match &t.value {
            Type_::Apply(_, sp!(_, TypeName_::Multiple(_)), _) => AbilitySet::collection(t.loc),
            Type_::Apply(_, sp!(_, TypeName_::Builtin(b)), _) => b.value.declared_abilities(b.loc),
            Type_::Apply(_, sp!(_, TypeName_::ModuleType(m, s)), _) => self.ctx.struct_declared_abilities(m, s).clone(),
            _ => return false,
        };
        let (args, phantom) = self.arguments(t);
        declared.has_ability_(a) && !args.iter().zip(phantom).any(|(t, phantom)| !phantom && self.lacks(a, t))
    }

    /// 02's R-1: the rule, read off core.rs's labels; its hint looks at phantom arguments too
    fn ability_rule(&self, d: &Diagnostic, ability: Ability_, t: &Type) -> Vec<u8> {
        let Some(hint) = hint_of(d) else { return vec![1] };
        let (args, phantom) = self.arguments(t);
        let rust = args.iter().position(|a| self.lacks(ability, a)).unwrap();
        assert!(args[rust].loc == *hint, "driver: hint elsewhere");
        let place = (0..args.len()).find(|i| !phantom[*i] && self.lacks(ability, &args[*i])).unwrap();
        vec![2, place as u8]
    }
}

/// a pair of MJ's payload: number, length, payload
pub fn put_pair(number: u8, payload: &[u8], out: &mut Vec<u8>) {
    out.push(number);
    out.extend((payload.len() as u16).to_le_bytes());
    out.extend(payload)
}

/// KP's payload: old and new number of each variable that stays
pub fn put_stay(stay: &[u16], out: &mut Vec<u8>) {
    for (new, old) in stay.iter().enumerate() {
        out.extend(old.to_le_bytes());
        out.extend((new as u16).to_le_bytes())
    }
}

//---- whole jobs ----------------------------------------------------------------------------------------

/// A log line without its record number: answer number and payload; `-` where core.rs is silent.
pub fn answer_text(o: &Outcome) -> String {
    match o {
        Outcome::Core(number, payload) if payload.is_empty() => number.to_string(),
        Outcome::Core(number, payload) => format!("{} {}", number, record::hex(payload)),
        Outcome::Refused(number, _) => number.to_string(),
        Outcome::Silent(_) => "-".into(),
    }
}

/// The outcomes of a stream's records; ends after 5, 6, 18 or silence, or with the bytes.
pub fn outcomes(mut stream: &[u8], mut each: impl FnMut(&Job, &Outcome)) {
    let mut job = Job::new();
    while !stream.is_empty() {
        let (outcome, n) = job.next(stream);
        each(&job, &outcome);
        if n == 0 || matches!(outcome, Outcome::Silent(_)) {
            break;
        }
        stream = &stream[n..];
    }
}

/// The log of a stream as joinlog prints it. With `notes`, a `#` line after each answer that is not core.rs's.
pub fn log(stream: &[u8], notes: bool, states: bool) -> String {
    let (mut out, mut n) = (String::new(), 0);
    outcomes(stream, |job, o| {
        writeln!(out, "{} {}", n, answer_text(o)).unwrap();
        match o {
            Outcome::Refused(_, why) | Outcome::Silent(why) if notes => {
                writeln!(out, "# not core.rs's: {}", why).unwrap()
            }
            _ => (),
        }
        if states {
            writeln!(out, "# {}", state_text(&job.state())).unwrap();
        }
        n += 1;
    });
    out
}

/// Runs `f` where core.rs's recursion has room.
pub fn with_stack<T: Send + 'static>(f: impl FnOnce() -> T + Send + 'static) -> T {
    let thread = std::thread::Builder::new().stack_size(512 << 20).spawn(f).unwrap();
    thread.join().unwrap_or_else(|e| std::panic::resume_unwind(e))
}
