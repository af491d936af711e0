//! A function body as a type checker walks it: IN and TS for a call, SU for each argument, FV and JN for a let, JN where
//! branches meet, UF at a dot, and at the end SV and of each local RD or XP. One statement in eleven is wrong: a join or subtype
//! that answers 1 to 4 and is put back.
use crate::{
    gen::Chance,
    job::{Job, Outcome},
    record::{read_type, Kind},
    text::assemble,
};

const DECLARED: &str = "SD {copy, drop} <{drop}>\n";
/// what locals are bound to; `S0<u64>` for the dots
const TYPES: [&str; 4] = ["u64", "S0<u64>", "vector<u8>", "bool"];

struct Local {
    var: u16,
    /// its place in TYPES
    ty: usize,
}

struct Body {
    chance: Chance,
    job: Job,
    stream: Vec<u8>,
    locals: Vec<Local>,
}

/// The records of a body that has `vars` variables in use when SV comes, `ahead` of them by FV before its first
/// statement; None where its last statement takes too many.
pub fn body(vars: usize, ahead: usize, index: u64) -> Option<Vec<u8>> {
    let chance = Chance::new(12, index ^ (vars as u64) << 32);
    let mut b = Body { chance, job: Job::new(), stream: vec![], locals: vec![] };
    b.ask(DECLARED);
    for _ in 0..ahead {
        b.ask("FV");
    }
    b.local();
    while b.job.known().vars < vars {
        b.statement()
    }
    (b.job.known().vars == vars).then(|| b.end())
}

impl Body {
    /// Adds a record; the first variable in its answer, if there is one.
    fn ask(&mut self, line: &str) -> Option<u16> {
        let declared = if self.stream.is_empty() { "" } else { DECLARED };
        let skipped = assemble(declared, true).unwrap().len();
        // numbered by record: all marks get one location, so that the order in which SV meets them does not show
        let bytes = &assemble(&(declared.to_string() + line), true).unwrap()[skipped..];
        let (outcome, n) = self.job.next(bytes);
        let Outcome::Core(_, payload) = outcome else { panic!("{}: {:?}", line, outcome) };
        assert!(n == bytes.len());
        self.stream.extend(bytes);
        let (answer, _) = read_type(&payload, self.job.known()).ok()?;
        let inside = answer.parts().first().map(|p| p.kind.clone());
        [Some(answer.kind.clone()), inside].into_iter().flatten().find_map(|k| match k {
            Kind::Var(v) => Some(v),
            _ => None,
        })
    }

    fn statement(&mut self) {
        let kinds = [(9, Body::local as fn(&mut Body)), (5, Body::call), (6, Body::dot), (2, Body::branch)];
        let more = [(4, Body::sum as fn(&mut Body)), (4, Body::declared), (3, Body::wrong)];
        let f = self.chance.weighted(&[&kinds[..], &more].concat());
        f(self)
    }

    fn any(&mut self) -> u16 {
        let i = self.chance.below(self.locals.len());
        self.locals[i].var
    }
    fn of(&mut self, ty: usize) -> Option<u16> {
        let all: Vec<_> = self.locals.iter().filter(|l| l.ty == ty).map(|l| l.var).collect();
        (!all.is_empty()).then(|| self.chance.one(&all))
    }

    /// `let x = ..;`
    fn local(&mut self) {
        let ty = self.chance.below(TYPES.len());
        let var = self.ask("FV").unwrap();
        if self.chance.percent(30) {
            self.ask(&format!("SC V{}", var));
        }
        self.ask(&format!("JN V{}, {}", var, TYPES[ty]));
        self.locals.push(Local { var, ty })
    }

    /// `let x;`, and never given a type
    fn declared(&mut self) {
        self.ask("FV");
        if self.chance.percent(25) {
            let var = self.any();
            self.ask(&format!("BC V{}", var));
        }
    }

    /// `f(a, ..)`, where f is `fun f<T>(S0<T>, &T, ..)`
    fn call(&mut self) {
        let arg = self.ask("IN S0<_>").unwrap();
        self.ask(&format!("TS [P1 = V{}] (S0<P1>, &P1)", arg));
        self.ask("TS [P1 = u64] (vector<P1>, P1)");
        let a = self.any();
        self.ask(&format!("SU V{}, V{}", a, arg));
        if self.chance.percent(60) {
            self.ask("SU &mut u64, &u64");
        }
        if self.chance.percent(40) {
            self.ask("SU u64, _");
        }
    }

    /// `x.f`
    fn dot(&mut self) {
        let (x, y) = (self.any(), self.any());
        self.ask(&format!("UF V{}", x));
        self.ask(&format!("UF &V{}", y));
        if self.chance.percent(50) {
            self.ask("TS [P0 = u64] vector<P0>");
        }
    }

    /// `if (..) x else y`
    fn branch(&mut self) {
        let ty = self.chance.below(TYPES.len());
        if let (Some(a), Some(b)) = (self.of(ty), self.of(ty)) {
            self.ask(&format!("JN V{}, V{}", a, b));
        }
    }

    /// `1 + ..`
    fn sum(&mut self) {
        let n = self.ask("NV").unwrap();
        let kind = self.chance.one(&["numeric", "bits", "ordered"]);
        self.ask(&format!("NC {} V{}", kind, n));
        if let (Some(m), true) = (self.of(0), self.chance.percent(30)) {
            self.ask(&format!("JN V{}, V{}", m, n));
        }
    }

    fn wrong(&mut self) {
        let open = self.ask("FV").unwrap();
        let line = match self.chance.below(6) {
            0 => format!("SU (V{}, &u8), (bool, &mut u8)", open),
            1 => format!("SU (V{}, u8), (u8, u8, u8)", open),
            2 => format!("JN V{}, vector<V{}>", open, open),
            _ => format!("JN V{}, address", self.any()),
        };
        self.ask(&line);
    }

    fn end(mut self) -> Vec<u8> {
        self.ask("SV");
        for i in 0..self.locals.len() {
            let v = self.locals[i].var;
            self.ask(&format!("{} V{}", ["RD", "XP"][i % 2], v));
        }
        self.stream
    }
}
