//! Jobs made from a seed: the same seed gives the same job. A job grows record by record beside core.rs, so
//! that variables taken by merges, IN and SV are used too.
use crate::{
    job::{Job, Outcome},
    record::{Kind, Record, Ty, TypingCase, BUILTINS, MAX_NESTING, MAX_PAIRS, MAX_RECORD, VECTOR},
};

const SIGNER: u8 = 1;
const U8: u8 = 2;
const U64: u8 = 3;
const U128: u8 = 4;
const BOOL: u8 = 6;
/// the needs at which a wider integer type is wanted, and those before
const NEEDS: [u16; 13] = [1, 7, 8, 9, 16, 17, 32, 33, 64, 65, 128, 129, 256];
/// the most that KP lists
const MAX_LISTED: usize = 255;
const PARAM_IDS: [u32; 5] = [0, 1, 7, 8, 4_000_000_000];

//---- chance --------------------------------------------------------------------------------------------

/// SplitMix64
#[derive(Clone)]
pub struct Chance(u64);

impl Chance {
    pub fn new(seed: u64, index: u64) -> Chance {
        let mut c = Chance(seed);
        let mixed = c.bits() ^ index.wrapping_mul(0x9e37_79b9_7f4a_7c15);
        Chance(mixed)
    }
    pub fn bits(&mut self) -> u64 {
        self.0 = self.0.wrapping_add(0x9e37_79b9_7f4a_7c15);
        let mut z = self.0;
        z = (z ^ (z >> 30)).wrapping_mul(0xbf58_476d_1ce4_e5b9);
        z = (z ^ (z >> 27)).wrapping_mul(0x94d0_49bb_1331_11eb);
        z ^ (z >> 31)
    }
    pub fn below(&mut self, n: usize) -> usize {
        (self.bits() % n as u64) as usize
    }
    pub fn percent(&mut self, n: usize) -> bool {
        self.below(100) < n
    }
    pub fn one<T: Clone>(&mut self, of: &[T]) -> T {
        of[self.below(of.len())].clone()
    }
    pub fn weighted<T: Clone>(&mut self, of: &[(usize, T)]) -> T {
        let mut n = self.below(of.iter().map(|(w, _)| w).sum());
        for (w, x) in of {
            if n < *w {
                return x.clone();
            }
            n -= w
        }
        unreachable!()
    }
}

//---- types ---------------------------------------------------------------------------------------------

/// What a job is about.
#[derive(Clone, Copy, Debug, PartialEq, Eq)]
pub enum Profile {
    All,
    Refs,
    /// few variables, shared by many types, often in a circle
    Knots,
    Numbers,
    Lists,
    Structs,
    Fresh,
    /// every second record is IN or SV (02, R-1). Never by chance alone, so that the other profiles' jobs stay
    Abilities,
    /// before every second record stands MJ (02, R-8). Nor is this by chance
    Pairs,
    /// before every third record stands KP (02, R-11). Nor is this by chance
    Kept,
}

impl Profile {
    pub fn named(name: &str) -> Option<Profile> {
        use Profile::*;
        let all = [All, Refs, Knots, Numbers, Lists, Structs, Fresh, Abilities, Pairs, Kept];
        all.into_iter().find(|p| format!("{:?}", p).to_lowercase() == name)
    }
}

#[derive(Clone, Copy, PartialEq, Eq)]
enum Marks {
    None,
    /// as naming gives them to types without arguments
    Primitives,
    Mixed,
    /// any, on one type in ten
    Tenth,
}

#[derive(Clone, Copy)]
enum Shape {
    Unit,
    Int,
    Plain(u8),
    Param,
    Anything,
    Error,
    NoParts,
    Var,
    Ref,
    Vector,
    List,
    Struct,
}

fn bare(kind: Kind) -> Ty {
    Ty { loc: 0, kind }
}

/// an integer type's mark has drop
fn with_drop(builtin: Option<u8>, mark: u8) -> u8 {
    mark | if builtin.is_some_and(|n| BUILTINS[n as usize].integer) && mark != 0 { 2 } else { 0 }
}

/// A reference to `t`, or to what `t` refers to: no record has a reference directly under a reference (02, R-6).
fn reference(mutable: bool, t: Ty) -> Kind {
    match t.kind {
        Kind::Ref(_, inner) => Kind::Ref(mutable, inner),
        _ => Kind::Ref(mutable, Box::new(t)),
    }
}

pub struct Maker {
    chance: Chance,
    /// for the ids that TS lists twice; its own, so that all else is drawn as without them. None: never twice
    twice: Option<Chance>,
    /// for CN in the place of RD, likewise
    spelled: Chance,
    /// for XP between the other records, likewise
    expand: Chance,
    /// for MJ between them, likewise. None: never, since what refuses a pair is not core.rs's
    many: Option<Chance>,
    /// for JL in the place of JN and UL in that of UF, likewise. None: in no place
    linked: Option<Chance>,
    /// for KP between the other records, likewise. None: never, since core.rs clears nothing
    keep: Option<Chance>,
    pub profile: Profile,
    marks: Marks,
    /// locations are 1, 2, 3 .., or for some jobs any number
    locs: u32,
    any_loc: bool,
    depth: usize,
    var_weight: usize,
    few: usize,
    /// the record NL (02, R-7): in jobs of the profile numbers that are asked for by name, never by chance, so that all
    /// other jobs stay
    literals: bool,
    /// in one of two of these the integer types are core.rs's alone, so that it can answer beside the needs; else all six
    plain: bool,
    /// of IN and SV, how many in a hundred are SV
    solve: usize,
    vars: usize,
    params: Vec<usize>,
}

impl Maker {
    pub fn new(mut chance: Chance) -> Maker {
        use Profile::*;
        let profile =
            chance.weighted(&[(4, All), (2, Refs), (4, Knots), (3, Numbers), (2, Lists), (2, Structs), (2, Fresh)]);
        let knots = profile == Knots;
        Maker {
            twice: Some(Chance(!chance.0)),
            spelled: Chance(chance.0.rotate_left(32)),
            expand: Chance(chance.0.rotate_left(16)),
            many: Some(Chance(chance.0.rotate_left(48))),
            linked: Some(Chance((!chance.0).rotate_left(16))),
            keep: Some(Chance((!chance.0).rotate_left(32))),
            profile,
            marks: chance.weighted(&[(45, Marks::None), (40, Marks::Primitives), (15, Marks::Mixed)]),
            locs: 0,
            any_loc: chance.percent(10),
            depth: chance.one(&[2, 3, 3, 4, 5]),
            var_weight: if knots { chance.one(&[32, 64]) } else { chance.one(&[4, 8, 16, 32]) },
            few: if knots { chance.one(&[2, 3, 5]) } else { 0 },
            literals: false,
            plain: false,
            solve: 0,
            vars: 0,
            params: vec![],
            chance,
        }
    }

    /// with `cut`: no record whose answer core.rs alone does not give
    fn answered_by_core(&mut self, cut: bool) {
        if cut {
            (self.twice, self.many, self.linked, self.keep) = (None, None, None, None)
        }
    }

    fn of_profile(mut self, profile: Profile) -> Maker {
        self.profile = profile;
        self.literals = profile == Profile::Numbers;
        self.plain = self.literals && self.chance.percent(50);
        if profile == Profile::Abilities {
            (self.few, self.var_weight) = self.chance.one(&[(0, 8), (0, 32), (3, 64), (6, 64)]);
            // without marks there is no 16, and a long list is solved
            (self.solve, self.marks) =
                self.chance.one(&[(50, Marks::Tenth), (30, Marks::Tenth), (15, Marks::Tenth), (3, Marks::None)])
        }
        self
    }

    fn loc(&mut self) -> u32 {
        self.locs += 1;
        if self.any_loc && self.chance.percent(50) {
            self.chance.bits() as u32
        } else {
            self.locs
        }
    }

    fn mark(&mut self, builtin: Option<u8>) -> u8 {
        match (self.marks, builtin) {
            (Marks::None, _) | (Marks::Primitives, None | Some(VECTOR)) => 0,
            (Marks::Primitives, Some(SIGNER)) => 0x12,
            (Marks::Primitives, _) => 0x17,
            (Marks::Mixed, _) => {
                let any = 16 + self.chance.below(16) as u8;
                with_drop(builtin, self.chance.one(&[0, 0, 0, any, 0x17]))
            }
            (Marks::Tenth, _) => {
                let any = 16 + self.chance.below(16) as u8;
                with_drop(builtin, if self.chance.percent(10) { any } else { 0 })
            }
        }
    }

    fn var(&mut self) -> Kind {
        let (n, few) = (self.vars, self.few.min(self.vars));
        Kind::Var(if few > 0 && self.chance.percent(80) {
            self.chance.below(few)
        } else if n > 4 && self.chance.percent(50) {
            n - 4 + self.chance.below(4)
        } else {
            self.chance.below(n)
        } as u16)
    }

    fn shape(&mut self, depth: usize, closed: bool) -> Shape {
        use Profile as P;
        use Shape::*;
        let p = self.profile;
        let leaf = |w: usize| if p == P::Knots || p == P::Numbers { w / 4 } else { w };
        let part = |w: usize| if depth > 1 { w } else { 0 };
        let many = |of: Profile, w: usize| part(if p == of { 30 } else { w });
        let structs = if p == P::Abilities { 20 } else { 5 };
        self.chance.weighted(&[
            (leaf(4), Unit),
            (if p == P::Numbers { 40 } else { leaf(24) }, Int),
            (leaf(8), Plain(BOOL)),
            (leaf(4), Plain(0)),
            (leaf(4), Plain(SIGNER)),
            (leaf(8), Param),
            (if matches!(p, P::Fresh | P::Abilities) { 24 } else { 4 }, Anything),
            (if p == P::Numbers { 12 } else { 4 }, Error),
            (1, NoParts),
            (if closed || self.vars == 0 { 0 } else { 4 * self.var_weight }, Var),
            (many(P::Refs, 5) * 4, Ref),
            (part(if p == P::Knots { 60 } else { 24 }), Vector),
            (many(P::Lists, 5) * 4, List),
            (if self.params.is_empty() { 0 } else { many(P::Structs, structs) * 4 }, Struct),
        ])
    }

    fn integer(&mut self) -> u8 {
        match self.literals && !self.plain {
            true => self.chance.one(&[U8, U64, U128, 7, 8, 9]),
            false => self.chance.one(&[U8, U64, U64, U128]),
        }
    }

    /// a type without locations and marks
    pub fn tree(&mut self, depth: usize, closed: bool) -> Ty {
        let parts = |m: &mut Maker, n: usize| (0..n).map(|_| m.tree(depth - 1, closed)).collect();
        bare(match self.shape(depth, closed) {
            Shape::Unit => Kind::Unit,
            Shape::Int => Kind::Builtin(0, self.integer(), vec![]),
            Shape::Plain(n) => Kind::Builtin(0, n, vec![]),
            Shape::Param => Kind::Param(self.chance.one(&PARAM_IDS), self.chance.below(16) as u8),
            Shape::Anything => Kind::Anything,
            Shape::Error => Kind::UnresolvedError,
            Shape::NoParts => Kind::List(0, vec![]),
            Shape::Var => self.var(),
            Shape::Ref => reference(self.chance.percent(50), self.tree(depth - 1, closed)),
            Shape::Vector => Kind::Builtin(0, VECTOR, parts(self, 1)),
            Shape::List => {
                let n = self.chance.one(&[1, 2, 2, 2, 3, 4]);
                Kind::List(0, parts(self, n))
            }
            Shape::Struct => {
                let s = self.chance.below(self.params.len());
                Kind::Struct(0, s as u16, parts(self, self.params[s]))
            }
        })
    }

    fn any_tree(&mut self, closed: bool) -> Ty {
        let depth = 1 + self.chance.below(self.depth);
        self.tree(depth, closed)
    }

    /// a type like `t`, here and there another part, mutability or count
    fn changed(&mut self, t: &Ty, percent: usize) -> Ty {
        if self.chance.percent(percent) {
            let c = self.chance.below(10);
            return match c {
                0..=4 if self.vars > 0 => bare(self.var()),
                5 => bare(Kind::Anything),
                6 => bare(Kind::UnresolvedError),
                _ => self.tree(2, false),
            };
        }
        let all = |m: &mut Maker, ts: &[Ty]| ts.iter().map(|t| m.changed(t, percent)).collect::<Vec<_>>();
        bare(match &t.kind {
            Kind::Ref(mutable, inner) => {
                let flip = self.chance.percent(40);
                reference(*mutable != flip, self.changed(inner, percent))
            }
            Kind::Builtin(m, n, ts) => Kind::Builtin(*m, *n, all(self, ts)),
            Kind::Struct(m, n, ts) => Kind::Struct(*m, *n, all(self, ts)),
            Kind::List(m, ts) => {
                let mut ts = all(self, ts);
                if self.chance.percent(if self.profile == Profile::Lists { 25 } else { 5 }) {
                    ts.pop();
                }
                Kind::List(*m, ts)
            }
            other => other.clone(),
        })
    }

    /// locations and marks, from the outside in
    fn dressed(&mut self, mut t: Ty) -> Ty {
        t.loc = self.loc();
        let all = |m: &mut Maker, ts: Vec<Ty>| ts.into_iter().map(|t| m.dressed(t)).collect();
        t.kind = match t.kind {
            Kind::Ref(mutable, inner) => Kind::Ref(mutable, Box::new(self.dressed(*inner))),
            Kind::Builtin(_, n, ts) => Kind::Builtin(self.mark(Some(n)), n, all(self, ts)),
            Kind::List(_, ts) => Kind::List(self.mark(None), all(self, ts)),
            Kind::Struct(_, n, ts) => Kind::Struct(self.mark(None), n, all(self, ts)),
            other => other,
        };
        t
    }

    fn ty(&mut self, closed: bool) -> Ty {
        let t = self.any_tree(closed);
        self.dressed(t)
    }

    /// a type for IN: about abilities, mostly a struct
    fn instance(&mut self, closed: bool) -> Ty {
        if self.profile != Profile::Abilities || self.params.is_empty() || self.chance.percent(40) {
            return self.ty(closed);
        }
        let (depth, s) = (self.depth, self.chance.below(self.params.len()));
        let args = (0..self.params[s]).map(|_| self.tree(depth - 1, closed)).collect();
        self.dressed(bare(Kind::Struct(0, s as u16, args)))
    }

    fn small(&mut self) -> Ty {
        let depth = self.chance.one(&[1, 1, 2]);
        let t = self.tree(depth, false);
        self.dressed(t)
    }

    fn pair(&mut self) -> (Ty, Ty) {
        let a = self.any_tree(false);
        let percent = if matches!(self.profile, Profile::Refs | Profile::Lists | Profile::Structs) { 10 } else { 25 };
        let b = if self.chance.percent(75) { self.changed(&a, percent) } else { self.any_tree(false) };
        let mut or_var = |t: Ty| if self.vars > 0 && self.chance.percent(35) { bare(self.var()) } else { t };
        let (a, b) = (or_var(a), or_var(b));
        (self.dressed(a), self.dressed(b))
    }

    //---- records -----------------------------------------------------------------------------------------

    fn mark_of_record(&mut self, n: usize) -> &'static str {
        use Profile as P;
        let first = if self.profile == P::Abilities { 6 } else { 3 };
        if (n < first && self.chance.percent(50)) || (self.params.is_empty() && self.chance.percent(10)) {
            return "SD";
        }
        // core.rs has three of the integer types: the others come after the first need
        if self.literals && self.vars == 0 {
            return "NL";
        }
        if self.vars == 0 || (self.vars < 2 && self.chance.percent(70)) {
            return self.chance.one(&["FV", "NV"]);
        }
        let p = self.profile;
        if p == P::Abilities && self.chance.percent(50) {
            return if self.chance.percent(self.solve) { "SV" } else { "IN" };
        }
        let by = |of: Profile, w: usize, other: usize| if p == of { w } else { other };
        self.chance.weighted(&[
            (3, "SD"),
            (by(P::Knots, 10, 20), "FV"),
            (by(P::Numbers, 40, 15), "NV"),
            (by(P::Numbers, 40, 12), "SN"),
            (by(P::Knots, 200, 120), "JN"),
            (by(P::Refs, 140, 60), "SU"),
            (20, "UF"),
            (by(P::Knots, 40, 30), "RD"),
            (15, "TS"),
            (by(P::Fresh, 100, 25), "IN"),
            (by(P::Numbers, 40, 12), "NC"),
            (10, "BC"),
            (10, "SC"),
            (if matches!(p, P::Numbers | P::Fresh) { 20 } else { 8 }, "SV"),
            (if self.literals { 60 } else { 0 }, "NL"),
        ])
    }

    pub fn declaration(&mut self) -> Record {
        let n = self.chance.one(&[0, 0, 1, 1, 1, 2, 2, 3, 8]);
        Record::SD(self.chance.below(16) as u8, (0..n).map(|_| self.chance.below(32) as u8).collect())
    }

    fn arguments(&mut self) -> Vec<(u32, Ty)> {
        let mut ids = PARAM_IDS.to_vec();
        for i in 0..ids.len() {
            let j = i + self.chance.below(ids.len() - i);
            ids.swap(i, j)
        }
        if self.chance.percent(10) {
            ids.truncate(3)
        }
        if let Some(twice) = &mut self.twice {
            let (i, j) = (twice.below(ids.len()), twice.below(ids.len()));
            if i != j && twice.percent(6) {
                ids[i] = ids[j]
            }
        }
        ids.into_iter().map(|id| (id, self.small())).collect()
    }

    /// the n-th record, `vars` taken and `params` declared so far
    pub fn record(&mut self, n: usize, vars: usize, params: &[usize]) -> Record {
        self.vars = vars;
        self.params = params.to_vec();
        match self.mark_of_record(n) {
            "SD" => self.declaration(),
            "FV" => Record::FV(self.loc()),
            "NV" => Record::NV(self.loc()),
            "NL" => Record::NL(self.loc(), self.need()),
            "SN" => {
                let Kind::Var(v) = self.var() else { unreachable!() };
                Record::SN(v, self.loc())
            }
            "JN" => {
                let mark = if self.counts() { Record::JL } else { Record::JN };
                self.pair_of(mark)
            }
            "SU" => self.pair_of(Record::SU),
            "UF" => {
                let mark = if self.counts() { Record::UL } else { Record::UF };
                mark(self.var_or_type())
            }
            "RD" => {
                let t = self.var_or_type();
                self.read(t)
            }
            "TS" => {
                let closed = self.chance.percent(97);
                Record::TS(self.arguments(), self.ty(closed))
            }
            "IN" => {
                let closed = self.chance.percent(97);
                Record::IN(self.instance(closed))
            }
            "NC" => Record::NC(self.loc(), self.chance.below(3) as u8, self.small()),
            "BC" => Record::BC(self.loc(), self.small()),
            "SC" => Record::SC(self.loc(), self.small()),
            _ => Record::SV,
        }
    }

    /// XP before the next record, or none; some types have marked lists and structs
    pub fn expansion(&mut self, vars: usize, params: &[usize]) -> Option<Record> {
        let often = if self.profile == Profile::Abilities { 50 } else { 10 };
        (self.vars, self.params) = (vars, params.to_vec());
        let own = self.expand.clone();
        self.aside(own, |m| {
            let wanted = m.chance.percent(often);
            m.marks = m.chance.weighted(&[(60, Marks::Primitives), (20, Marks::None), (20, Marks::Tenth)]);
            let t = m.var_or_type();
            m.expand = m.chance.clone();
            wanted.then_some(Record::XP(t))
        })
    }

    /// drawn from `own` and with marks of its own, so that all else is drawn as without it
    fn aside<T>(&mut self, own: Chance, f: impl FnOnce(&mut Maker) -> T) -> T {
        let others = (std::mem::replace(&mut self.chance, own), self.marks, self.locs, self.few);
        let made = f(self);
        (self.chance, self.marks, self.locs, self.few) = others;
        made
    }

    /// MJ before the next record, or none
    pub fn many(&mut self, vars: usize, params: &[usize]) -> Option<Record> {
        let own = self.many.clone()?;
        let often = if self.profile == Profile::Pairs { 50 } else { 8 };
        (self.vars, self.params) = (vars, params.to_vec());
        self.aside(own, |m| {
            let wanted = m.chance.percent(often);
            let n = m.chance.weighted(&[(3, 1), (5, 2), (5, 3), (3, 5), (2, 8), (1, MAX_PAIRS)]);
            // some of the variables come again and again
            m.few = if m.chance.percent(50) { 3 } else { m.few };
            let r = Record::MJ((0..n).map(|_| m.one_of_many()).collect());
            m.many = Some(m.chance.clone());
            wanted.then_some(r)
        })
    }

    /// KP before the next record, or none: of no variable, of all, mostly of a few
    pub fn keep(&mut self, vars: usize) -> Option<Record> {
        let own = self.keep.clone()?;
        let often = if self.profile == Profile::Kept { 33 } else { 4 };
        self.vars = vars;
        self.aside(own, |m| {
            let wanted = m.chance.percent(often);
            let n = m.chance.weighted(&[(2, 0), (3, 1), (4, 2), (4, 3), (3, 6), (2, MAX_LISTED)]);
            let r = m.listed(n);
            m.keep = Some(m.chance.clone());
            wanted.then_some(r)
        })
    }

    /// KP of n variables, some of them twice; of as many as it can list: of all. A job's first literal stays: from its needs alone
    /// the driver knows that there are types that core.rs has not.
    fn listed(&mut self, n: usize) -> Record {
        let any = |m: &mut Maker| if let Kind::Var(v) = m.var() { v } else { unreachable!("a variable") };
        let literal = self.literals.then_some(0);
        Record::KP(match n {
            _ if self.vars == 0 => vec![],
            MAX_LISTED => (0..self.vars.min(n) as u16).rev().collect(),
            _ => (0..n).map(|_| any(self)).chain(literal).collect(),
        })
    }

    fn case(&mut self) -> TypingCase {
        self.chance.one(&[TypingCase::Join, TypingCase::Subtype])
    }

    /// a pair; of one in ten the second parts' marks disagree, once the first are joined
    fn one_of_many(&mut self) -> (TypingCase, Ty, Ty) {
        let case = self.case();
        if self.chance.percent(90) {
            let (a, b) = self.pair();
            return (case, a, b);
        }
        let (a, b) = (self.small(), self.small());
        (case, self.list_with(a, 0x17), self.list_with(b, 0))
    }

    /// a list of `t` and of a `u8` with this mark
    fn list_with(&mut self, t: Ty, mark: u8) -> Ty {
        let u8_ = Ty { loc: self.loc(), kind: Kind::Builtin(mark, U8, vec![]) };
        Ty { loc: self.loc(), kind: Kind::List(0, vec![t, u8_]) }
    }

    fn need(&mut self) -> u16 {
        match self.chance.percent(70) {
            true => self.chance.one(&NEEDS),
            false => 1 + self.chance.below(256) as u16,
        }
    }

    fn pair_of(&mut self, mark: fn(Ty, Ty) -> Record) -> Record {
        let (a, b) = self.pair();
        mark(a, b)
    }

    /// whether the next JN or UF counts its links
    fn counts(&mut self) -> bool {
        self.linked.as_mut().is_some_and(|own| own.percent(40))
    }

    /// RD, or as often CN
    fn read(&mut self, t: Ty) -> Record {
        if self.spelled.percent(50) {
            Record::CN(t)
        } else {
            Record::RD(t)
        }
    }

    /// a type over so many variables and these structs
    pub fn over(&mut self, vars: usize, params: &[usize]) -> Ty {
        (self.vars, self.params) = (vars, params.to_vec());
        self.ty(false)
    }

    fn var_or_type(&mut self) -> Ty {
        if self.vars > 0 && self.chance.percent(60) {
            let v = bare(self.var());
            return self.dressed(v);
        }
        self.ty(false)
    }
}

//---- jobs ------------------------------------------------------------------------------------------------

/// A job's stream and the outcomes of its records.
#[derive(Clone)]
pub struct Made {
    pub name: String,
    pub stream: Vec<u8>,
    pub outcomes: Vec<Outcome>,
}

struct Growing {
    job: Job,
    made: Made,
    /// drop each record that core.rs does not answer
    cut: bool,
}

impl Growing {
    fn new(name: String, cut: bool) -> Growing {
        let made = Made { name, stream: vec![], outcomes: vec![] };
        Growing { job: Job::new(), made, cut }
    }

    /// false: core.rs is silent, and the job is over
    fn add(&mut self, r: &Record) -> bool {
        let bytes = r.bytes();
        if bytes.len() > MAX_RECORD {
            return true;
        }
        let outcome = self.job.record(r);
        let silent = matches!(outcome, Outcome::Silent(_));
        if matches!(outcome, Outcome::Core(..)) || !(self.cut || silent) {
            self.made.stream.extend(bytes);
            self.made.outcomes.push(outcome)
        }
        !silent || self.cut
    }

    /// records of the maker's, with XP, MJ and KP between them
    fn grow(&mut self, m: &mut Maker, numbers: std::ops::Range<usize>) {
        for n in numbers {
            let known = self.job.known().clone();
            let between =
                [m.expansion(known.vars, &known.params), m.many(known.vars, &known.params), m.keep(known.vars)];
            if between.into_iter().flatten().any(|r| !self.add(&r)) {
                break;
            }
            let r = m.record(n, self.job.known().vars, &known.params);
            if !self.add(&r) {
                break;
            }
        }
    }

    fn add_all(&mut self, records: impl Iterator<Item = Record>) {
        records.for_each(|r| {
            self.add(&r);
        })
    }
}

/// without a profile, each job has one by chance
pub fn random(seed: u64, index: u64, records: usize, profile: Option<Profile>, cut: bool) -> Made {
    let mut m = Maker::new(Chance::new(seed, index));
    m = match profile {
        Some(profile) => m.of_profile(profile),
        None => m,
    };
    m.answered_by_core(cut);
    let mut g = Growing::new(format!("random-{}-{}-{:?}", seed, index, m.profile).to_lowercase(), cut);
    g.grow(&mut m, 0..records);
    g.made
}

/// records on the state that a job has
pub fn onward(job: Job, seed: u64, index: u64, records: usize) -> Made {
    let mut m = Maker::new(Chance::new(seed, index));
    let name = format!("onward-{}-{}-{:?}", seed, index, m.profile).to_lowercase();
    let made = Made { name, stream: vec![], outcomes: vec![] };
    let mut g = Growing { job, made, cut: false };
    g.grow(&mut m, 3..3 + records);
    g.made
}

fn v(n: u16) -> Ty {
    bare(Kind::Var(n))
}

fn plain(n: u8) -> Ty {
    bare(Kind::Builtin(0, n, vec![]))
}

fn vector(t: Ty) -> Ty {
    bare(Kind::Builtin(0, VECTOR, vec![t]))
}

fn few_types() -> Vec<Ty> {
    let reference = |mutable, t| bare(reference(mutable, t));
    let list = |parts| bare(Kind::List(0, parts));
    vec![
        bare(Kind::Unit),
        bare(Kind::Anything),
        bare(Kind::UnresolvedError),
        plain(U8),
        plain(BOOL),
        bare(Kind::Param(7, 0)),
        bare(Kind::Param(8, 0)),
        v(0),
        v(1),
        vector(v(0)),
        vector(v(1)),
        vector(plain(U8)),
        reference(false, v(0)),
        reference(true, v(1)),
        reference(true, plain(U8)),
        list(vec![]),
        list(vec![v(0)]),
        list(vec![v(0), v(1)]),
        list(vec![v(1), plain(U8)]),
        bare(Kind::Struct(0, 0, vec![v(0)])),
        bare(Kind::Struct(0, 0, vec![bare(Kind::Anything)])),
    ]
}

fn few_states() -> Vec<Vec<Record>> {
    vec![
        vec![],
        vec![Record::SN(0, 90)],
        vec![Record::SN(1, 91)],
        vec![Record::JN(v(0), v(1))],
        vec![Record::JN(v(0), plain(U8))],
        vec![Record::JN(v(1), vector(v(0)))],
        vec![Record::JN(v(0), bare(Kind::UnresolvedError))],
        vec![Record::SN(0, 90), Record::JN(v(0), v(1)), Record::JN(v(1), plain(U8))],
    ]
}

/// every pair of some types, joined and as subtype, in some states; then both variables read
pub fn exhaustive(index: usize, cut: bool) -> Option<Made> {
    let types = few_types();
    let n = types.len();
    let (state, rest) = (index / (2 * n * n), index % (2 * n * n));
    let (case, a, b) = (rest / (n * n), types[rest / n % n].clone(), types[rest % n].clone());
    let mut records = vec![Record::SD(0, vec![0]), Record::FV(1), Record::FV(2)];
    records.extend(few_states().get(state)?.clone());
    records.push(if case == 0 { Record::JN(a, b) } else { Record::SU(a, b) });
    records.extend(if index % 2 == 0 {
        [Record::RD(v(0)), Record::CN(v(1)), Record::FV(3)]
    } else {
        [Record::CN(v(0)), Record::RD(v(1)), Record::FV(3)]
    });
    let mut m = Maker::new(Chance::new(0, 0));
    (m.locs, m.any_loc, m.marks) = (10, false, Marks::None);
    let mut g = Growing::new(format!("exhaustive-{}", index), cut);
    g.add_all(records.into_iter().map(|r| match r {
        Record::JN(a, b) => Record::JN(m.dressed(a), m.dressed(b)),
        Record::SU(a, b) => Record::SU(m.dressed(a), m.dressed(b)),
        Record::RD(t) => Record::RD(m.dressed(t)),
        Record::CN(t) => Record::CN(m.dressed(t)),
        other => other,
    }));
    Some(g.made)
}

//---- near the limits ----------------------------------------------------------------------------------------

/// A job that comes near one of 01's limits: variables, constraints, structs, nesting, record or payload
/// length, or the depth of a join.
pub fn limits(seed: u64, index: u64, cut: bool) -> Made {
    let mut m = Maker::new(Chance::new(seed ^ 0x6c69_6d69_7473, index));
    m.answered_by_core(cut);
    let kinds = ["variables", "constraints", "structs", "nesting", "length", "depth", "payload", "links"];
    let kind = kinds[index as usize % kinds.len()];
    let mut g = Growing::new(format!("limits-{}-{}-{}", seed, index, kind), cut);
    let near = m.chance.below(6);
    match kind {
        "variables" => g.add_all((0..1024 - near as u32).map(Record::FV)),
        "constraints" => g.add_all((0..512 - near as u32).map(|i| Record::BC(i, bare(Kind::Unit)))),
        "structs" => g.add_all((0..256 - near % 3).map(|i| Record::SD((i % 16) as u8, vec![]))),
        "depth" => chains(&mut g, 121 + near),
        "links" => one_end(&mut g, 290 + 10 * near),
        _ => g.add_all((0..3).map(Record::FV)),
    }
    for n in 10..20 {
        let (vars, params) = (g.job.known().vars, g.job.known().params.clone());
        let r = match kind {
            "nesting" if n % 2 == 0 => {
                m.vars = vars;
                let (a, b) = (m.nested(MAX_NESTING - near % 3), m.nested(MAX_NESTING));
                Record::JN(m.dressed(a), m.dressed(b))
            }
            "length" if n % 2 == 0 => m.long_join(4096 - near),
            "links" if n % 2 == 0 => m.over_chains(vars),
            "payload" if n < 14 => m.doubling(n as u16 - 10),
            "payload" if n < 17 => m.read(bare(Kind::Var(0))),
            _ => m.record(n, vars, &params),
        };
        if kind == "payload" && n < 17 {
            g.add(&Record::XP(bare(Kind::Var(0))));
        }
        if !g.add(&r) {
            break;
        }
    }
    g.made
}

/// two chains with one end, of n links; many leave few nodes
fn one_end(g: &mut Growing, n: usize) {
    g.add_all((0..3).map(Record::FV));
    g.add_all((0..n).map(|_| Record::JN(v(0), v(1))))
}

/// two chains V0 = vector<V2> = .. and V1 = vector<V3> = .. of n vectors
fn links(g: &mut Growing, n: usize) {
    g.add_all((0..2 * n as u32 + 2).map(Record::FV));
    g.add_all((0..2 * n as u16).map(|i| Record::JN(v(i), vector(v(i + 2)))))
}

/// .. and the join of their heads
fn chains(g: &mut Growing, n: usize) {
    links(g, n);
    g.add(&Record::JN(v(0), v(1)));
}

/// a job whose join comes to 01's greatest depth, or past it, which core.rs does not know
pub fn deep(seed: u64, index: u64) -> Made {
    let mut m = Maker::new(Chance::new(seed ^ 0x6465_6570, index));
    let mut g = Growing::new(format!("deep-{}-{}", seed, index), false);
    chains(&mut g, 124 + m.chance.below(7));
    g.add(&Record::SU(v(0), v(1)));
    g.made
}

/// A job of several functions, cleared after each (02, R-11): together they take more variables, or more nodes, than there are.
pub fn functions(seed: u64, index: u64) -> Made {
    let mut m = Maker::new(Chance::new(seed ^ 0x6675_6e63, index));
    let kind = ["variables", "nodes"][index as usize % 2];
    let mut g = Growing::new(format!("functions-{}-{}-{}", seed, index, kind), false);
    for _ in 0..4 {
        match kind {
            "variables" => g.add_all((0..400).map(Record::FV)),
            _ => {
                g.add_all((0..4).map(Record::FV));
                g.add_all((0..350).map(|_| Record::JN(bare(Kind::Unit), bare(Kind::Unit))))
            }
        }
        g.grow(&mut m, 10..16);
        m.vars = g.job.known().vars;
        let n = m.chance.below(4);
        let kept = m.listed(n);
        if !g.add(&kept) {
            break;
        }
    }
    g.made
}

fn pairs(all: &[(TypingCase, Ty, Ty)]) -> Record {
    Record::MJ(all.to_vec())
}

/// A job with MJs (02, R-8) whose pairs come to a limit in the middle: variables or nodes, that nearly all are taken, or a join's
/// depth; marks that disagree between two pairs that bind; or errors of two types that are too long, likewise.
pub fn pairs_at_limits(seed: u64, index: u64) -> Made {
    use TypingCase::*;
    let mut m = Maker::new(Chance::new(seed ^ 0x7061_6972_73, index));
    let kind = ["variables", "nodes", "depth", "marks", "long"][index as usize % 5];
    let mut g = Growing::new(format!("pairs-{}-{}-{}", seed, index, kind), false);
    let near = m.chance.below(20);
    match kind {
        "variables" => g.add_all((0..1024 - near as u32).map(Record::FV)),
        "nodes" => {
            g.add_all((0..8).map(Record::FV));
            g.add_all((0..990 + near).map(|_| Record::JN(bare(Kind::Unit), bare(Kind::Unit))))
        }
        "depth" => links(&mut g, 118 + near),
        "long" => {
            g.add_all((0..8).map(Record::FV));
            let long = |m: &mut Maker| m.wide(8);
            let (a, b) = (long(&mut m), long(&mut m));
            g.add_all([Record::JN(v(0), a), Record::JN(v(1), vector(b))].into_iter())
        }
        _ => g.add_all((0..8).map(Record::FV)),
    }
    for _ in 0..4 {
        m.vars = g.job.known().vars;
        let mut all: Vec<_> = (0..3 + m.chance.below(8)).map(|_| m.one_of_many()).collect();
        let at = m.chance.below(all.len());
        let (bound, other) =
            (m.vars as u16 - 1 - m.chance.below(6) as u16, m.vars as u16 - 1 - m.chance.below(6) as u16);
        let refused = match kind {
            "long" | "depth" => (m.case(), v(0), v(1)),
            _ => (m.case(), m.list_with(v(bound), 0x17), m.list_with(plain(BOOL), 0)),
        };
        all.splice(at..at, [(Join, v(other), plain(U8)), refused, (Subtype, v(bound), plain(U64))]);
        // past a join too deep core.rs has variables that the engine has not
        if !g.add(&pairs(&all)) || kind == "depth" {
            break;
        }
        g.grow(&mut m, 10..12)
    }
    g.made
}

impl Maker {
    /// lists of lists of eight, so many of them: too long for an answer together with another such type
    fn wide(&mut self, n: usize) -> Ty {
        let row = |m: &mut Maker| bare(Kind::List(0, (0..8).map(|_| m.tree(1, true)).collect()));
        let rows = (0..n).map(|_| bare(Kind::List(0, (0..4 + self.chance.below(2)).map(|_| row(self)).collect())));
        let t = bare(Kind::List(0, rows.collect()));
        self.dressed(t)
    }

    /// a type of nesting n
    fn nested(&mut self, n: usize) -> Ty {
        if n == 1 {
            return self.tree(1, false);
        }
        let inner = self.nested(n - 1);
        bare(match self.chance.below(3) {
            0 => Kind::Builtin(0, VECTOR, vec![inner]),
            1 if !matches!(inner.kind, Kind::Ref(..)) => reference(true, inner),
            _ => Kind::List(0, vec![inner]),
        })
    }

    /// a join of two lists of lists whose record has about `bytes` bytes
    fn long_join(&mut self, bytes: usize) -> Record {
        let count = (bytes - 2 - 2 * 7) / 2 / (8 * 7 + 7);
        let row = |m: &mut Maker| bare(Kind::List(0, (0..8).map(|_| bare(m.var())).collect()));
        let side = |m: &mut Maker| {
            let mut rows: Vec<_> = (0..count).map(|_| row(m)).collect();
            while rows.len() > 1 {
                rows = rows.chunks(8).map(|c| bare(Kind::List(0, c.to_vec()))).collect()
            }
            let t = rows.remove(0);
            m.dressed(t)
        };
        self.vars = self.vars.max(3);
        Record::JN(side(self), side(self))
    }

    /// JL of two lists of variables of chains, or UL of one
    fn over_chains(&mut self, vars: usize) -> Record {
        self.vars = vars;
        let n = 1 + self.chance.below(8);
        let side = |m: &mut Maker| {
            let parts = (0..n).map(|_| bare(Kind::Var(m.chance.one(&[0, 1, 2, vars as u16 / 2])))).collect();
            m.dressed(bare(Kind::List(0, parts)))
        };
        match self.chance.below(4) {
            0 => Record::UL(v(self.chance.below(vars) as u16)),
            _ => Record::JL(side(self), side(self)),
        }
    }

    /// V0 = (V1, V1, ..), V1 = (V2, V2, ..): each step makes the whole type larger
    fn doubling(&mut self, step: u16) -> Record {
        let width = 6 + self.chance.below(3);
        let next = if step < 2 { Kind::Var(step + 1) } else { Kind::Param(step as u32, 0) };
        let list = bare(Kind::List(0, vec![bare(next); width]));
        Record::JN(bare(Kind::Var(step.min(2))), self.dressed(list))
    }
}
