//! A record by 01's and 02's rules on trees. What it takes: nodes, argument places, variables and constraints, and the 7 or
//! 8 where a limit is met, which core.rs does not count. And what JN, SU and SV's joins answer and leave, with the needs of
//! literals (02, R-7), which core.rs does not know: without needs they must be core.rs's. And how many links a join follows
//! (02, R-9), summed at each merge. KP is a clearing of the words (`lent`). Uses no code of the engine's; not claimed to be independent of the definition.
use crate::{
    job::{put_pair, put_stay, State, MAX_PAYLOAD},
    lent::{View, MAX_CONSTRAINTS, MAX_NODES, MAX_PLACES, MAX_STRUCTS, MAX_VARS},
    record::{Kind, Record, Ty, TypingCase},
};
use std::collections::{BTreeMap, HashMap};

const MAX_DEPTH: usize = 256;
const PRIMITIVES: u8 = 16 + 7;
/// the integer types, narrowest first, each with its bits
const WIDTHS: [(u8, u16); 6] = [(2, 8), (7, 16), (8, 32), (3, 64), (4, 128), (9, 256)];
/// what SV gives a literal that nothing decides: from u64 on
const DEFAULTS: &[(u8, u16)] = WIDTHS.split_at(3).1;

/// Rows in use.
#[derive(Debug, Clone, Copy, PartialEq, Eq)]
pub struct Used {
    pub nodes: usize,
    pub places: usize,
    pub vars: usize,
    pub constraints: usize,
}

pub fn used(s: View) -> Used {
    Used { nodes: s.nodes(), places: s.places(), vars: s.vars(), constraints: s.constraints() }
}

/// The answer's number as far as counting tells (14 is not seen), and the rows in use after it. Of JN, SU, JL and MJ, where it
/// is 0 to 4, also the payload, of JL with its links; likewise of KP.
#[derive(Debug, Clone, PartialEq, Eq)]
pub struct Counted {
    pub number: u32,
    pub used: Used,
    pub payload: Option<Vec<u8>>,
    /// of MJ the number of each pair, 14 among them
    pub pairs: Vec<u8>,
}

/// what ends a run
#[derive(Debug, Clone, PartialEq, Eq)]
enum Stop {
    /// 1 to 3, with both types
    Two(u32, Ty, Ty),
    /// 4, with its location
    Recursive(u32),
    /// from 7 on
    Number(u32),
}
type Run<T> = Result<T, Stop>;
const FULL: Stop = Stop::Number(7);

impl Stop {
    fn number(&self) -> u32 {
        match self {
            Stop::Two(n, ..) | Stop::Number(n) => *n,
            Stop::Recursive(_) => 4,
        }
    }
    fn payload(&self) -> Vec<u8> {
        match self {
            Stop::Two(_, a, b) => [a.bytes(), b.bytes()].concat(),
            Stop::Recursive(loc) => loc.to_le_bytes().to_vec(),
            Stop::Number(_) => vec![],
        }
    }
}

fn two<T>(number: u32, a: &Ty, b: &Ty) -> Run<T> {
    Err(Stop::Two(number, a.clone(), b.clone()))
}

/// a numeric mark: its location, and how many bits are needed
#[derive(Debug, Clone, Copy)]
struct Mark {
    loc: u32,
    need: u16,
}

struct Sim {
    bound: HashMap<u16, Ty>,
    marks: BTreeMap<u16, Mark>,
    used: Used,
    /// what all merges so far have followed
    links: u32,
}

fn at(loc: u32, kind: Kind) -> Ty {
    Ty { loc, kind }
}

impl Sim {
    fn node(&mut self, places: usize) -> Run<()> {
        let (nodes, places) = (self.used.nodes + 1, self.used.places + places);
        if nodes > MAX_NODES || places > MAX_PLACES {
            return Err(FULL);
        }
        (self.used.nodes, self.used.places) = (nodes, places);
        Ok(())
    }
    fn var(&mut self) -> Run<u16> {
        if self.used.vars == MAX_VARS {
            return Err(FULL);
        }
        self.used.vars += 1;
        Ok(self.used.vars as u16 - 1)
    }
    fn constraint(&mut self) -> Run<()> {
        if self.used.constraints == MAX_CONSTRAINTS {
            return Err(FULL);
        }
        self.used.constraints += 1;
        Ok(())
    }

    /// one node for each tag
    fn read(&mut self, t: &Ty) -> Run<()> {
        t.parts().iter().try_for_each(|p| self.read(p))?;
        self.built(t)
    }
    fn built(&mut self, t: &Ty) -> Run<()> {
        self.node(if matches!(t.kind, Kind::Ref(..)) { 0 } else { t.parts().len() })
    }

    fn end(&self, mut v: u16) -> u16 {
        while let Some(Ty { kind: Kind::Var(next), .. }) = self.bound.get(&v) {
            v = *next
        }
        v
    }

    /// how many bindings lead from variable to variable up to the end
    fn links(&self, v: u16) -> u32 {
        match self.bound.get(&v) {
            Some(Ty { kind: Kind::Var(next), .. }) => 1 + self.links(*next),
            _ => 0,
        }
    }

    //---- join ------------------------------------------------------------------------------------------

    fn join(&mut self, depth: usize, sub: bool, a: &Ty, b: &Ty) -> Run<Ty> {
        if depth > MAX_DEPTH {
            return Err(Stop::Number(8));
        }
        match (&a.kind, &b.kind) {
            (Kind::Anything, _) | (Kind::Unit, Kind::Unit) => Ok(b.clone()),
            (_, Kind::Anything) => Ok(a.clone()),
            (Kind::Ref(false, _), Kind::Ref(true, _)) if sub => two(1, a, b),
            (Kind::Ref(m, t), Kind::Ref(n, u)) => {
                let loc = if !sub && !m && *n { a.loc } else { b.loc };
                let inner = self.join(depth + 1, sub, t, u)?;
                self.node(0)?;
                Ok(at(loc, Kind::Ref(*n && (sub || *m), Box::new(inner))))
            }
            (Kind::Param(x, _), Kind::Param(y, _)) if x == y => Ok(b.clone()),
            (Kind::List(_, ts), Kind::List(_, us)) if ts.len() != us.len() => two(3, a, b),
            (Kind::Builtin(k, n, ts), Kind::Builtin(l, m, us)) if n == m => {
                let parts = self.join_all(depth, sub, k == l, ts, us)?;
                Ok(at(b.loc, Kind::Builtin(*l, *m, parts)))
            }
            (Kind::List(k, ts), Kind::List(l, us)) => {
                let parts = self.join_all(depth, sub, k == l, ts, us)?;
                Ok(at(b.loc, Kind::List(*l, parts)))
            }
            (Kind::Struct(k, n, ts), Kind::Struct(l, m, us)) if n == m => {
                let parts = self.join_all(depth, sub, k == l, ts, us)?;
                Ok(at(b.loc, Kind::Struct(*l, *m, parts)))
            }
            (Kind::Var(_), _) | (_, Kind::Var(_)) => self.join_var(depth, sub, a, b),
            (Kind::UnresolvedError, _) => Ok(b.clone()),
            (_, Kind::UnresolvedError) => Ok(a.clone()),
            _ => two(2, a, b),
        }
    }

    fn join_all(&mut self, depth: usize, sub: bool, marks: bool, ts: &[Ty], us: &[Ty]) -> Run<Vec<Ty>> {
        if !marks {
            return Err(Stop::Number(10));
        }
        let parts = ts.iter().zip(us).map(|(t, u)| self.join(depth + 1, sub, t, u)).collect::<Run<Vec<_>>>()?;
        self.node(parts.len())?;
        Ok(parts)
    }

    /// arms 7 to 9
    fn join_var(&mut self, depth: usize, sub: bool, a: &Ty, b: &Ty) -> Run<Ty> {
        match (&a.kind, &b.kind) {
            (Kind::Var(x), Kind::Var(y)) if x == y => Ok(b.clone()),
            (Kind::Var(x), Kind::Var(y)) => self.merge(depth, sub, (a.loc, *x), (b.loc, *y)),
            (Kind::Var(x), _) if !self.bound.contains_key(x) => match self.bind(a.loc, *x, b)? {
                true => Ok(a.clone()),
                false => two(2, a, b),
            },
            (_, Kind::Var(y)) if !self.bound.contains_key(y) => match self.bind(b.loc, *y, a)? {
                true => Ok(b.clone()),
                false => two(2, a, b),
            },
            (Kind::Var(x), _) => {
                let fresh = self.var()?;
                self.bound.insert(fresh, b.clone());
                self.merge(depth, sub, (a.loc, *x), (b.loc, fresh))
            }
            (_, Kind::Var(y)) => {
                let fresh = self.var()?;
                self.bound.insert(fresh, a.clone());
                self.merge(depth, sub, (a.loc, fresh), (b.loc, *y))
            }
            _ => unreachable!(),
        }
    }

    fn merge(&mut self, depth: usize, sub: bool, (loc1, id1): (u32, u16), (loc2, id2): (u32, u16)) -> Run<Ty> {
        let (end1, end2) = (self.end(id1), self.end(id2));
        self.links += self.links(id1) + self.links(id2);
        let read = |s: &Sim, e: u16, loc| s.bound.get(&e).cloned().unwrap_or(at(loc, Kind::Anything));
        let (t, u) = (read(self, end1, loc1), read(self, end2, loc2));
        let open = [&t, &u].iter().filter(|t| t.kind == Kind::Anything).count();
        (0..open + 2).try_for_each(|_| self.node(0))?;
        let fresh = self.var()?;
        if let Some(mark) = self.merged(end1, end2) {
            self.marks.insert(fresh, mark);
        }
        self.bound.insert(end1, at(loc1, Kind::Var(fresh)));
        self.bound.insert(end2, at(loc2, Kind::Var(fresh)));
        let joined = self.join(depth + 1, sub, &t, &u)?;
        if let Some(t) = self.bound.get(&fresh) {
            return Err(Stop::Recursive(t.loc));
        }
        if self.bind(loc2, fresh, &joined)? {
            return Ok(at(loc2, Kind::Var(fresh)));
        }
        (0..open).try_for_each(|_| self.node(0))?;
        let shown = |t: &Ty, id: u16| if t.kind == Kind::Anything { at(t.loc, Kind::Var(id)) } else { t.clone() };
        two(2, &shown(&t, id1), &shown(&u, id2))
    }

    /// the second's location, and the larger need
    fn merged(&self, end1: u16, end2: u16) -> Option<Mark> {
        let (first, second) = (self.marks.get(&end1), self.marks.get(&end2));
        let need = first.iter().chain(&second).map(|m| m.need).max()?;
        Some(Mark { loc: second.or(first)?.loc, need })
    }

    /// false: the numeric check turns it down
    fn bind(&mut self, loc: u32, v: u16, t: &Ty) -> Run<bool> {
        let wide = |need: u16| match t.kind {
            Kind::Builtin(_, n, _) => WIDTHS.iter().any(|(b, bits)| *b == n && *bits >= need),
            _ => matches!(t.kind, Kind::Anything | Kind::UnresolvedError),
        };
        if self.marks.get(&v).is_some_and(|mark| !wide(mark.need)) {
            return Ok(false);
        }
        if occurs(v, t) {
            return Err(Stop::Recursive(loc));
        }
        if t.kind != Kind::Anything {
            self.bound.insert(v, t.clone());
        }
        Ok(true)
    }

    //---- the other records -----------------------------------------------------------------------------------

    /// whether reading the type meets a variable inside its own binding; each variable looked at once
    fn runs_into_itself(&self, t: &Ty, seen: &mut HashMap<u16, bool>) -> bool {
        match &t.kind {
            Kind::Var(v) => match (self.bound.get(v), seen.get(v)) {
                (None, _) => false,
                (_, Some(over)) => !over,
                (Some(b), None) => {
                    seen.insert(*v, false);
                    let found = self.runs_into_itself(b, seen);
                    seen.insert(*v, true);
                    found
                }
            },
            _ => t.parts().iter().any(|p| self.runs_into_itself(p, seen)),
        }
    }

    fn ready(&mut self, t: &Ty) -> Run<()> {
        match &t.kind {
            Kind::Var(v) => match self.bound.get(&self.end(*v)).cloned() {
                None => self.node(0),
                Some(b) => self.ready(&b),
            },
            Kind::Ref(..) | Kind::Builtin(..) | Kind::List(..) | Kind::Struct(..) => {
                t.parts().iter().try_for_each(|p| self.ready(p))?;
                self.built(t)
            }
            _ => Ok(()),
        }
    }

    fn replace(&mut self, ids: &[u32], t: &Ty) -> Run<()> {
        match &t.kind {
            Kind::Var(_) => Err(Stop::Number(11)),
            Kind::Param(id, _) if !ids.contains(id) => Err(Stop::Number(12)),
            Kind::Ref(..) | Kind::Builtin(..) | Kind::List(..) | Kind::Struct(..) => {
                t.parts().iter().try_for_each(|p| self.replace(ids, p))?;
                self.built(t)
            }
            _ => Ok(()),
        }
    }

    fn instantiate(&mut self, t: &Ty) -> Run<Ty> {
        match &t.kind {
            Kind::Var(_) => Err(Stop::Number(11)),
            Kind::Anything => {
                self.node(0)?;
                Ok(at(t.loc, Kind::Var(self.var()?)))
            }
            Kind::Ref(m, inner) => {
                self.constraint()?;
                let inner = self.instantiate(inner)?;
                self.node(0)?;
                Ok(at(t.loc, Kind::Ref(*m, Box::new(inner))))
            }
            Kind::Builtin(k, n, ts) => Ok(at(t.loc, Kind::Builtin(*k, *n, self.arguments(t.loc, ts)?))),
            Kind::List(k, ts) => Ok(at(t.loc, Kind::List(*k, self.arguments(t.loc, ts)?))),
            Kind::Struct(k, n, ts) => Ok(at(t.loc, Kind::Struct(*k, *n, self.arguments(t.loc, ts)?))),
            _ => Ok(t.clone()),
        }
    }

    /// a variable and two constraints for each argument, then the arguments, each joined to its variable
    fn arguments(&mut self, loc: u32, ts: &[Ty]) -> Run<Vec<Ty>> {
        let mut vars = vec![];
        for _ in ts {
            self.node(0)?;
            vars.push(at(loc, Kind::Var(self.var()?)));
            (0..2).try_for_each(|_| self.constraint())?
        }
        let made = ts.iter().map(|t| self.instantiate(t)).collect::<Run<Vec<_>>>()?;
        let parts = vars.iter().zip(&made).map(|(v, t)| self.join(1, false, v, t)).collect::<Run<Vec<_>>>()?;
        self.node(ts.len())?;
        Ok(parts)
    }

    /// SV's numeric step
    fn settle(&mut self) -> Run<()> {
        for (v, Mark { loc, .. }) in self.marks.clone() {
            let end = self.end(v);
            let open = self.bound.get(&end).is_none_or(|t| t.kind == Kind::UnresolvedError);
            if open {
                (0..2).try_for_each(|_| self.node(0))?;
                let need = self.marks.get(&end).map_or(0, |mark| mark.need);
                let (number, _) = DEFAULTS.iter().find(|(_, bits)| *bits >= need).unwrap();
                let integer = at(loc, Kind::Builtin(PRIMITIVES, *number, vec![]));
                self.join(1, false, &integer, &at(loc, Kind::Var(v)))?;
            }
        }
        Ok(())
    }

    /// JN's, SU's or JL's type
    fn joined(&mut self, r: &Record) -> Option<Run<Ty>> {
        match r {
            Record::JN(a, b) | Record::JL(a, b) => Some(self.join(1, false, a, b)),
            Record::SU(a, b) => Some(self.join(1, true, a, b)),
            _ => None,
        }
    }

    /// 02's R-8: what a pair is answered as JN or SU. 1 to 4 put back bindings and marks, a refusal all that the run took.
    fn pair(&mut self, case: TypingCase, a: &Ty, b: &Ty) -> (u8, Vec<u8>) {
        let (bound, marks, used) = (self.bound.clone(), self.marks.clone(), self.used);
        let (number, payload) = match self.join(1, case == TypingCase::Subtype, a, b) {
            Ok(t) => (0, t.bytes()),
            Err(stop) => (stop.number() as u8, stop.payload()),
        };
        let number = if payload.len() > MAX_PAYLOAD { 14 } else { number };
        if number > 0 {
            (self.bound, self.marks) = (bound, marks)
        }
        if number <= 4 {
            return (number, payload);
        }
        self.used = used;
        (number, vec![])
    }

    fn run(&mut self, structs: usize, r: &Record) -> Run<()> {
        match r {
            Record::SD(..) if structs == MAX_STRUCTS => Err(FULL),
            Record::FV(_) | Record::NV(_) | Record::NL(..) => self.var().map(drop),
            Record::RD(t) | Record::CN(t) | Record::XP(t) if self.runs_into_itself(t, &mut HashMap::new()) => {
                Err(Stop::Number(9))
            }
            Record::RD(t) | Record::CN(t) => self.ready(t),
            Record::TS(args, t) => {
                let ids: Vec<_> = args.iter().map(|(id, _)| *id).collect();
                let twice = (1..ids.len()).any(|i| ids[..i].contains(&ids[i]));
                if twice {
                    return Err(Stop::Number(13));
                }
                self.replace(&ids, t)
            }
            Record::IN(t) => self.instantiate(t).map(drop),
            Record::NC(..) | Record::BC(..) | Record::SC(..) => self.constraint(),
            Record::SV => {
                self.settle()?;
                self.used.constraints = 0;
                Ok(())
            }
            _ => Ok(()),
        }
    }
}

fn occurs(v: u16, t: &Ty) -> bool {
    t.kind == Kind::Var(v) || t.parts().iter().any(|p| occurs(v, p))
}

fn types(r: &Record) -> Vec<&Ty> {
    match r {
        Record::JN(a, b) | Record::SU(a, b) | Record::JL(a, b) => vec![a, b],
        Record::MJ(pairs) => pairs.iter().flat_map(|(_, a, b)| [a, b]).collect(),
        Record::TS(args, t) => args.iter().map(|(_, t)| t).chain([t]).collect(),
        Record::UF(t) | Record::RD(t) | Record::CN(t) | Record::IN(t) | Record::XP(t) | Record::UL(t) => vec![t],
        Record::NC(_, _, t) | Record::BC(_, t) | Record::SC(_, t) => vec![t],
        _ => vec![],
    }
}

/// 02's table: the nodes, argument places, variables and constraints that IN of a type takes, none for one with a
/// variable in it.
pub fn needs(t: &Ty) -> Option<[usize; 4]> {
    let own = match t.kind {
        Kind::Unit | Kind::UnresolvedError | Kind::Param(..) => [1, 0, 0, 0],
        Kind::Anything => [2, 0, 1, 0],
        Kind::Ref(..) => [2, 0, 0, 1],
        Kind::Builtin(..) | Kind::List(..) | Kind::Struct(..) => [2, 0, 0, 0],
        Kind::Var(_) => return None,
    };
    let add = |a: [usize; 4], b: [usize; 4]| std::array::from_fn(|i| a[i] + b[i]);
    t.parts().iter().try_fold(own, |sum, p| {
        let beside = match (&t.kind, &p.kind) {
            (Kind::Ref(..), _) => [0; 4],
            (_, Kind::Anything) => [5, 2, 2, 2],
            _ => [1, 2, 1, 2],
        };
        Some(add(add(sum, beside), needs(p)?))
    })
}

/// 02's R-9: what JL shows behind its payload
pub fn tail(r: &Record, links: u32) -> Vec<u8> {
    if let Record::JL(..) = r {
        links.to_le_bytes().to_vec()
    } else {
        vec![]
    }
}

/// a join's payload as far as its run goes
fn shown(done: &Run<Ty>) -> Option<Vec<u8>> {
    match done {
        Ok(t) => Some(t.bytes()),
        Err(Stop::Number(_)) => None,
        Err(stop) => Some(stop.payload()),
    }
}

/// KP (02, R-11), which takes nothing: what a clearing of the words leaves.
fn cleared(s: View, listed: &[u16]) -> Counted {
    let (left, mut payload) = (s.cleared(listed), vec![]);
    put_stay(&left.stay, &mut payload);
    Counted { number: 0, used: used(left.lent.view()), payload: Some(payload), pairs: vec![] }
}

/// A record on a sound state whose types are small enough to be trees.
pub fn counted(s: View, r: &Record) -> Counted {
    if let Record::KP(listed) = r {
        return cleared(s, listed);
    }
    let before = used(s);
    let mut sim = Sim::new(&s.state(), before);
    let (mut payload, mut pairs) = (None, vec![]);
    let done = types(r).into_iter().try_for_each(|t| sim.read(t)).and_then(|_| match (r, sim.joined(r)) {
        (_, Some(done)) => {
            payload = shown(&done).map(|said| [said, tail(r, sim.links)].concat());
            done.map(drop)
        }
        (Record::MJ(all), _) => {
            let mut out = vec![];
            for (case, a, b) in all {
                let (number, bytes) = sim.pair(*case, a, b);
                put_pair(number, &bytes, &mut out);
                pairs.push(number)
            }
            payload = Some(out);
            Ok(())
        }
        _ => sim.run(s.structs(), r),
    });
    let number = done.map_or_else(|stop| stop.number(), |_| 0);
    let reads =
        matches!(r, Record::UF(_) | Record::UL(_) | Record::RD(_) | Record::CN(_) | Record::TS(..) | Record::XP(_));
    Counted { number, used: if reads || number > 4 { before } else { sim.used }, payload, pairs }
}

//---- what needs decide (02, R-7) ---------------------------------------------------------------------------

impl Sim {
    fn new(s: &State, used: Used) -> Sim {
        let needs: HashMap<u16, u16> = s.needs.iter().copied().collect();
        let mark = |(v, loc): &(u16, u32)| (*v, Mark { loc: *loc, need: needs.get(v).copied().unwrap_or(0) });
        Sim { bound: s.bindings.iter().cloned().collect(), marks: s.marks.iter().map(mark).collect(), used, links: 0 }
    }

    /// `s` with the bindings, marks and needs that are here
    fn leave(self, s: &State) -> State {
        let mut bindings: Vec<_> = self.bound.into_iter().collect();
        bindings.sort_by_key(|(v, _)| *v);
        State {
            next_var: self.used.vars as u64,
            bindings,
            marks: self.marks.iter().map(|(v, m)| (*v, m.loc)).collect(),
            needs: self.marks.iter().filter(|(_, m)| m.need > 0).map(|(v, m)| (*v, m.need)).collect(),
            ..s.clone()
        }
    }

    /// rows are counted from none on: a state of trees has no nodes
    fn of(s: &State) -> Sim {
        Sim::new(s, Used { nodes: 0, places: 0, vars: s.next_var as usize, constraints: 0 })
    }
}

/// JN, SU or JL: the number, the payload without JL's links, these, and the state after it.
pub fn joined(s: &State, r: &Record) -> (u8, Vec<u8>, u32, State) {
    let mut sim = Sim::of(s);
    let done = sim.joined(r).expect("a join");
    let links = sim.links;
    match done {
        Ok(t) => (0, t.bytes(), links, sim.leave(s)),
        // all bindings and marks are put back; variables stay taken
        Err(stop) => {
            (stop.number() as u8, stop.payload(), links, State { next_var: sim.used.vars as u64, ..s.clone() })
        }
    }
}

/// SV's numeric step. It gives none of 1 to 4.
pub fn settled(s: &State) -> Result<State, u8> {
    let mut sim = Sim::of(s);
    match sim.settle() {
        Ok(()) => Ok(sim.leave(s)),
        Err(Stop::Number(n)) => Err(n as u8),
        Err(stop) => panic!("by 02's rules SV's join gives {}", stop.number()),
    }
}
