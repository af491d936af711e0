//! One thing that is wrong: an answer that is not 0, a row of SV, a code of XP, or a pair of MJ that is not 0.
use crate::{
    names::Names,
    pairs::{word, Pair},
    payload::{self, Outcome, Reason, Rule, UNINFERRED},
    record::{Kind, Record, Ty, TypingCase, ABILITIES},
    show::record,
    text::{Detail, Printer},
};
use std::ops::Range;

/// A type as text, and where in the text the first part stands in which it differs from the other one.
pub struct Shown {
    pub text: String,
    pub differs: Range<usize>,
    /// without names, with locations and ability marks
    pub plain: String,
    pub loc: u32,
    pub place: String,
}

/// Where reading stopped, in the record and in the job, and by which rule.
pub struct Stop {
    pub at: usize,
    pub in_job: usize,
    pub rule: &'static str,
}

pub struct Failure {
    pub record: usize,
    /// where the record begins in the job
    pub at: usize,
    /// empty where the record is not read
    pub mark: &'static str,
    /// the answer's; of a pair of MJ the pair's
    pub number: usize,
    /// of MJ, from 0
    pub pair: Option<usize>,
    /// 1 to 4 of a row of SV, 5 of XP; else 0
    pub code: u8,
    /// what is wrong, in a sentence
    pub told: String,
    pub text: String,
    /// without names, with locations and ability marks
    pub plain: String,
    /// both types of 1 to 3, SV's type, or what XP shows
    pub types: Vec<Shown>,
    pub locations: Vec<u32>,
    pub places: Vec<String>,
    /// 5, 6 and 18: where reading stopped; of several the first that is so
    pub stops: Vec<Stop>,
    /// 5, 6 and 18: bytes from the record's first on, none of which is read
    pub unread: Option<usize>,
}

pub const CODES: [&str; 5] =
    ["no integer type", "no base type", "no single type", "ability missing", "type not inferred"];

impl Failure {
    /// the answer's word, or what a row of SV or a code of XP is of
    pub fn word(&self) -> &'static str {
        match self.code {
            0 => word(self.number),
            code => CODES[code as usize - 1],
        }
    }
    /// `2`, or `SV code 4`: what `joblog explain` takes
    pub fn label(&self) -> String {
        match self.code {
            0 => self.number.to_string(),
            UNINFERRED => format!("XP code {}", UNINFERRED),
            code => format!("SV code {}", code),
        }
    }
    pub fn kind(&self) -> String {
        format!("{} ({})", self.word(), self.label())
    }
}

/// The first part in which two types differ, their locations and marks apart.
fn difference<'t>(a: &'t Ty, b: &'t Ty) -> Option<(&'t Ty, &'t Ty)> {
    let head = |t: &Ty| {
        let mut t = t.with_parts(vec![]);
        t.loc = 0;
        if let Kind::Builtin(m, ..) | Kind::List(m, _) | Kind::Struct(m, ..) = &mut t.kind {
            *m = 0
        }
        t
    };
    let (x, y) = (a.parts(), b.parts());
    if head(a) != head(b) || x.len() != y.len() {
        return Some((a, b));
    }
    x.iter().zip(y).find_map(|(x, y)| difference(x, y))
}

struct Teller<'a> {
    p: &'a Pair<'a>,
    names: Names<'a>,
}

impl Teller<'_> {
    fn printer(&self, detail: Detail) -> Printer<'_> {
        Printer { detail, names: self.names }
    }
    fn ty(&self, t: &Ty) -> String {
        format!("`{}`", self.printer(Detail::Types).ty(t))
    }
    fn shown(&self, t: &Ty, part: Option<&Ty>) -> Shown {
        let (text, differs) = self.printer(Detail::Types).marked(t, part);
        let plain = Printer { detail: Detail::Full, names: Names::default() }.ty(t);
        Shown { text, differs, plain, loc: t.loc, place: self.place(t.loc) }
    }
    fn place(&self, loc: u32) -> String {
        if loc == 0 {
            String::new()
        } else {
            self.names.place(loc)
        }
    }

    fn failure(&self, told: String) -> Failure {
        let p = self.p;
        // of 10 and 17 the ability marks are what is wrong
        let text = record(p, self.printer(if matches!(p.number, 10 | 17) { Detail::Marks } else { Detail::Types }));
        let plain = record(p, Printer { detail: Detail::Full, names: Names::default() });
        let mark = p.read.as_ref().map_or("", Record::mark);
        Failure {
            record: p.n,
            at: p.at,
            mark,
            number: p.number,
            pair: None,
            code: 0,
            told,
            text,
            plain,
            types: vec![],
            locations: vec![],
            places: vec![],
            stops: vec![],
            unread: None,
        }
    }

    fn at(&self, mut f: Failure, locations: Vec<u32>) -> Failure {
        f.locations = locations.into_iter().filter(|l| *l != 0).collect();
        f.places = f.locations.iter().map(|l| self.names.place(*l)).collect();
        f
    }

    fn mismatch(&self, number: usize, a: &Ty, b: &Ty) -> Failure {
        let (x, y) = (self.ty(a), self.ty(b));
        let told = match number {
            1 => format!("{} is immutable where {} is wanted", x, y),
            3 => format!("{} and {} have {} and {} parts", x, y, a.parts().len(), b.parts().len()),
            _ if matches!(self.p.read, Ok(Record::SU(..))) => format!("{} where {} is wanted", x, y),
            _ => format!("{} and {} do not go together", x, y),
        };
        let (left, right) = difference(a, b).unzip();
        let types = vec![self.shown(a, left), self.shown(b, right)];
        self.at(Failure { types, ..self.failure(told) }, vec![a.loc, b.loc])
    }

    fn row(&self, row: &payload::Failure) -> Failure {
        let t = &row.ty;
        let ability = |bit: u8| ABILITIES.iter().find(|(b, _)| *b == bit).map_or("an ability", |(_, name)| name);
        let told = match row.reason {
            Reason::Lacks(bit, Rule::Declaration) => {
                format!("{} lacks {}: its declaration has it not", self.ty(t), ability(bit))
            }
            Reason::Lacks(bit, Rule::Argument(n)) => {
                let argument = t.parts().get(n as usize).map_or(String::new(), |a| format!(", {},", self.ty(a)));
                // key asks store of the arguments, the others ask themselves
                let asked = if bit == 8 { "store" } else { ability(bit) };
                format!("{} lacks {}: its argument {}{} lacks {}", self.ty(t), ability(bit), n, argument, asked)
            }
            Reason::NoIntegerType => format!("{} where an integer type is wanted", self.ty(t)),
            Reason::NoBaseType => format!("{} where neither `()`, a reference nor a list is wanted", self.ty(t)),
            Reason::NoSingleType => format!("{} where neither `()` nor a list is wanted", self.ty(t)),
        };
        let f = Failure { code: row.reason.code(), types: vec![self.shown(t, None)], ..self.failure(told) };
        self.at(f, vec![row.loc])
    }

    /// a code of XP: the variable stood at this location
    fn open(&self, t: &Ty, loc: u32) -> Failure {
        let told = format!("nothing decides a type of {}", self.ty(t));
        let f = Failure { code: UNINFERRED, types: vec![self.shown(t, None)], ..self.failure(told) };
        self.at(f, vec![loc])
    }

    /// the locations of a record that is read
    fn operands(&self) -> Vec<u32> {
        match &self.p.read {
            Ok(Record::FV(loc) | Record::NV(loc) | Record::NL(loc, _) | Record::SN(_, loc)) => vec![*loc],
            Ok(Record::NC(loc, ..) | Record::BC(loc, _) | Record::SC(loc, _)) => vec![*loc],
            Ok(r) => r.types().iter().map(|t| t.loc).collect(),
            Err(_) => vec![],
        }
    }

    fn refused(&self, number: usize) -> Failure {
        let f = self.failure(crate::explain::given_for(number));
        self.at(f, self.operands())
    }

    fn not_read(&self) -> Failure {
        let stop = |x: &crate::record::Refusal| Stop { at: x.at, in_job: self.p.at + x.at, rule: x.rule };
        let stops: Vec<Stop> = self.p.read.as_ref().err().into_iter().flatten().map(stop).collect();
        let one = |s: &Stop| format!("byte {} of the record: {}", s.at, s.rule);
        let told = stops.iter().map(one).collect::<Vec<_>>().join("; or ");
        Failure { stops, unread: Some(self.p.bytes.len()), ..self.failure(told) }
    }
}

/// What is wrong with pair `i` of MJ, told as of the JN or SU that it is.
fn of_pair(p: &Pair, i: usize, of: &(TypingCase, Ty, Ty), payload: &Outcome, names: Names) -> Vec<Failure> {
    let (case, a, b) = of.clone();
    let one = Pair {
        n: p.n,
        at: p.at,
        bytes: p.bytes,
        read: Ok(case.record(a, b)),
        number: payload.number(),
        raw: vec![],
        payload: payload.clone(),
        moved: p.moved,
    };
    let within = |text: String| format!("MJ, pair {}: {}", i, text);
    let put = |f: Failure| Failure { mark: "MJ", pair: Some(i), text: within(f.text), plain: within(f.plain), ..f };
    failures(&one, names).into_iter().map(put).collect()
}

/// What is wrong with a record's answer.
pub fn failures(p: &Pair, names: Names) -> Vec<Failure> {
    let teller = Teller { p, names };
    match p.payload.plain() {
        payload if payload.is_well() => vec![],
        Outcome::Pairs(all) => {
            let Ok(Record::MJ(pairs)) = &p.read else { return vec![] };
            let told = pairs.iter().zip(all).enumerate().map(|(i, (of, o))| of_pair(p, i, of, o, names));
            told.flatten().collect()
        }
        Outcome::Failed(rows) => rows.iter().map(|row| teller.row(row)).collect(),
        Outcome::Expanded(t, open) => open.iter().map(|loc| teller.open(t, *loc)).collect(),
        Outcome::Mismatch(n, a, b) => vec![teller.mismatch(*n, a, b)],
        Outcome::Recursive(loc) => {
            let told = "a variable would have to hold itself".to_string();
            vec![teller.at(teller.failure(told), vec![*loc])]
        }
        _ if p.read.is_err() => vec![teller.not_read()],
        other => vec![teller.refused(other.number())],
    }
}
