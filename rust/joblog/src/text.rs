//! Jobs as text, one record to a line, in Move's syntax (README.md has the grammar): printer and parser.
use crate::{
    names::Names,
    record::{self, Kind, Known, Record, Ty, TypingCase, ABILITIES, BUILTINS, MAX_RECORD},
};
use std::{fmt::Write, ops::Range};

const NUMERIC_KINDS: [&str; 3] = ["numeric", "bits", "ordered"];
const CASES: [&str; 2] = ["join", "subtype"];

//---- printing ----------------------------------------------------------------------------------------

/// Whether locations and ability marks are printed; without them the text is for the eye only.
#[derive(Clone, Copy, PartialEq, Eq)]
pub enum Detail {
    Full,
    /// ability marks, no locations
    Marks,
    Types,
}

pub fn abilities(set: u8) -> String {
    let names: Vec<_> = ABILITIES.iter().filter(|(b, _)| set & b != 0).map(|(_, n)| *n).collect();
    format!("{{{}}}", names.join(", "))
}

/// How types and records are printed: with what detail, and by which names.
#[derive(Clone, Copy)]
pub struct Printer<'a> {
    pub detail: Detail,
    pub names: Names<'a>,
}

/// A text that grows, and where in it the part that is looked for stands.
struct Marked<'t> {
    out: String,
    part: Option<&'t Ty>,
    range: Range<usize>,
}

impl Printer<'_> {
    /// For a spelling, whose variables are numbers and none of the job's.
    pub fn without_variables(self) -> Self {
        Printer { names: self.names.without_variables(), ..self }
    }

    pub fn ty(&self, t: &Ty) -> String {
        self.marked(t, None).0
    }

    /// A type's text, and where a part of it stands: the very part, not one that is equal to it.
    pub fn marked(&self, t: &Ty, part: Option<&Ty>) -> (String, Range<usize>) {
        let mut text = Marked { out: String::new(), part, range: 0..0 };
        self.write(t, &mut text);
        (text.out, text.range)
    }

    fn at(&self, loc: u32) -> String {
        match (loc, self.detail) {
            (0, _) | (_, Detail::Types | Detail::Marks) => String::new(),
            _ => self.names.of('@', loc).map_or_else(|| format!("@{}", loc), |name| format!("@{}", name)),
        }
    }

    fn mark(&self, m: u8) -> String {
        match (m, self.detail) {
            (0, _) | (_, Detail::Types) => String::new(),
            _ => abilities(m - 16),
        }
    }

    fn named(&self, kind: char, number: u32) -> String {
        let plain = || format!("{}{}", kind, number);
        match (kind, self.names.of(kind, number)) {
            ('V', Some(name)) => format!("V{} ({})", number, name),
            (_, Some(name)) => name.into(),
            (_, None) => plain(),
        }
    }

    pub fn variable(&self, v: u16) -> String {
        self.named('V', v as u32)
    }

    fn comma(&self, ts: &[Ty], text: &mut Marked) {
        for (i, t) in ts.iter().enumerate() {
            text.out += if i == 0 { "" } else { ", " };
            self.write(t, text)
        }
    }

    fn angled(&self, ts: &[Ty], text: &mut Marked) {
        if !ts.is_empty() {
            text.out += "<";
            self.comma(ts, text);
            text.out += ">"
        }
    }

    fn reference(&self, t: &Ty, mutable: bool, text: &mut Marked) {
        let loc = self.at(t.loc);
        text.out += if mutable { "&mut" } else { "&" };
        text.out += &loc;
        text.out += if mutable || !loc.is_empty() { " " } else { "" };
        self.write(&t.parts()[0], text)
    }

    fn body(&self, t: &Ty, text: &mut Marked) {
        match &t.kind {
            Kind::Unit => text.out += "()",
            Kind::Ref(..) => (),
            Kind::Param(id, set) => {
                text.out += &self.named('P', *id);
                text.out += &if *set != 0 && self.detail != Detail::Types { abilities(*set) } else { String::new() }
            }
            Kind::Builtin(m, n, args) => {
                text.out += BUILTINS[*n as usize].name;
                self.angled(args, text);
                text.out += &self.mark(*m)
            }
            Kind::List(m, args) => {
                text.out += "(";
                self.comma(args, text);
                // a comma tells a list of one from its part, and the empty list from `()`
                text.out += if args.len() < 2 { ",)" } else { ")" };
                text.out += &self.mark(*m)
            }
            Kind::Struct(m, n, args) => {
                text.out += &self.named('S', *n as u32);
                self.angled(args, text);
                text.out += &self.mark(*m)
            }
            Kind::Var(v) => text.out += &self.variable(*v),
            Kind::Anything => text.out += "_",
            Kind::UnresolvedError => text.out += "!",
        }
    }

    fn write(&self, t: &Ty, text: &mut Marked) {
        let start = text.out.len();
        if let Kind::Ref(mutable, _) = t.kind {
            self.reference(t, mutable, text)
        } else {
            self.body(t, text);
            text.out += &self.at(t.loc)
        }
        if text.part.is_some_and(|p| std::ptr::eq(p, t)) {
            text.range = start..text.out.len()
        }
    }

    fn located(&self, loc: u32, rest: String) -> String {
        match self.at(loc) {
            at if at.is_empty() => rest,
            at if rest.is_empty() => at,
            at => format!("{} {}", at, rest),
        }
    }

    /// A record's fields; the operands of JN, SU and JL apart, for the caller to join.
    pub fn fields(&self, r: &Record) -> Vec<String> {
        match r {
            Record::SD(set, params) => {
                let param = |p: &u8| (if *p >= 16 { "phantom " } else { "" }).to_string() + &abilities(p % 16);
                let params: Vec<_> = params.iter().map(param).collect();
                let angled = if params.is_empty() { String::new() } else { format!(" <{}>", params.join(", ")) };
                vec![abilities(*set) + &angled]
            }
            Record::FV(loc) | Record::NV(loc) => vec![self.located(*loc, String::new())],
            Record::NL(loc, bits) => vec![self.located(*loc, bits.to_string())],
            Record::SN(v, loc) => {
                vec![format!("{} {}", self.variable(*v), self.at(*loc)).trim_end().into()]
            }
            Record::JN(a, b) | Record::SU(a, b) | Record::JL(a, b) => vec![self.ty(a), self.ty(b)],
            Record::UF(t) | Record::RD(t) | Record::IN(t) => vec![self.ty(t)],
            Record::RM(t) | Record::CN(t) | Record::XP(t) | Record::UL(t) => vec![self.ty(t)],
            Record::TS(args, t) => {
                let one = |(id, t): &(u32, Ty)| format!("{} = {}", self.named('P', *id), self.ty(t));
                vec![format!("[{}] {}", args.iter().map(one).collect::<Vec<_>>().join(", "), self.ty(t))]
            }
            Record::NC(loc, kind, t) => {
                vec![self.located(*loc, format!("{} {}", NUMERIC_KINDS[*kind as usize], self.ty(t)))]
            }
            Record::BC(loc, t) | Record::SC(loc, t) => vec![self.located(*loc, self.ty(t))],
            Record::SV => vec![String::new()],
            Record::MJ(pairs) => {
                let one = |(case, a, b): &(TypingCase, Ty, Ty)| {
                    format!("{} {}, {}", CASES[*case as usize], self.ty(a), self.ty(b))
                };
                vec![pairs.iter().map(one).collect::<Vec<_>>().join("; ")]
            }
            Record::KP(listed) => {
                vec![listed.iter().map(|v| self.variable(*v)).collect::<Vec<_>>().join(", ")]
            }
        }
    }
}

/// without names
impl From<Detail> for Printer<'_> {
    fn from(detail: Detail) -> Self {
        Printer { detail, names: Names::default() }
    }
}

pub fn type_text(t: &Ty, d: Detail) -> String {
    Printer::from(d).ty(t)
}

/// A record's fields without names.
pub fn fields(r: &Record, d: Detail) -> Vec<String> {
    Printer::from(d).fields(r)
}

pub fn record_text(r: &Record) -> String {
    format!("{} {}", r.mark(), fields(r, Detail::Full).join(", ")).trim_end().into()
}

/// What a stream without its log may name: any variable, and the structs declared so far.
pub fn any_variable() -> Known {
    Known { vars: 1 << 16, params: vec![] }
}

/// The text of a stream; what cannot be read stands as `hex`, so every stream has one.
pub fn disassemble(mut stream: &[u8]) -> String {
    let (mut out, mut known) = (String::new(), any_variable());
    while !stream.is_empty() {
        match record::read_record(stream, &known) {
            Ok((r, n)) => {
                writeln!(out, "{}", record_text(&r)).unwrap();
                if let Record::SD(_, params) = &r {
                    known.params.push(params.len())
                }
                stream = &stream[n..]
            }
            Err(_) => {
                writeln!(out, "hex {}", record::hex(stream)).unwrap();
                break;
            }
        }
    }
    out
}

//---- parsing ------------------------------------------------------------------------------------------

struct Parser<'a> {
    rest: &'a str,
    /// the next location for a place that names none; None: such a place has 0
    auto: &'a mut Option<u32>,
    params: &'a [usize],
    depth: usize,
}

/// A type that nests deeper fits into no record: each level has six bytes or more.
const MAX_DEPTH: usize = MAX_RECORD / 6;

type Parsed<T> = Result<T, String>;

impl Parser<'_> {
    fn skip(&mut self) {
        self.rest = self.rest.trim_start()
    }
    fn take(&mut self, word: &str) -> bool {
        self.skip();
        match self.rest.strip_prefix(word) {
            Some(rest) => {
                self.rest = rest;
                true
            }
            None => false,
        }
    }
    fn want(&mut self, word: &str) -> Parsed<()> {
        if self.take(word) {
            Ok(())
        } else {
            self.fail(&format!("`{}`", word))
        }
    }
    fn fail<T>(&self, wanted: &str) -> Parsed<T> {
        Err(format!("{} is wanted at `{}`", wanted, self.rest))
    }
    fn word(&mut self) -> &str {
        self.skip();
        let end = self.rest.find(|c: char| !c.is_ascii_alphanumeric() && c != '_').unwrap_or(self.rest.len());
        let (word, rest) = self.rest.split_at(end);
        self.rest = rest;
        word
    }
    fn number(&mut self, max: u32) -> Parsed<u32> {
        let rest = self.rest;
        match self.word().parse() {
            Ok(n) if n <= max => Ok(n),
            _ => Err(format!("a number up to {} is wanted at `{}`", max, rest)),
        }
    }
    /// what a literal needs; the record has room for others, so that a 5 can be made
    fn bits(&mut self) -> Parsed<u16> {
        Ok(self.number(u16::MAX as u32)? as u16)
    }
    fn loc(&mut self) -> Parsed<u32> {
        if self.take("@") {
            return self.number(u32::MAX);
        }
        match self.auto {
            None => Ok(0),
            Some(n) => {
                *n += 1;
                Ok(*n)
            }
        }
    }
    fn abilities(&mut self) -> Parsed<u8> {
        self.want("{")?;
        let mut set = 0;
        while !self.take("}") {
            let rest = self.rest;
            let word = self.word();
            match ABILITIES.iter().find(|(_, n)| *n == word) {
                Some((bit, _)) => set |= bit,
                None => return Err(format!("an ability is wanted at `{}`", rest)),
            }
            if !self.take(",") && !self.rest.starts_with('}') {
                return self.fail("`,` or `}`");
            }
        }
        Ok(set)
    }
    fn opens_set(&mut self) -> bool {
        self.skip();
        self.rest.starts_with('{')
    }
    fn mark(&mut self) -> Parsed<u8> {
        if self.opens_set() {
            Ok(16 + self.abilities()?)
        } else {
            Ok(0)
        }
    }
    /// one type or more up to `close`, a comma between two and perhaps at the end; whether one stood there
    fn types(&mut self, close: &str) -> Parsed<(Vec<Ty>, bool)> {
        let mut ts = vec![self.ty()?];
        loop {
            let comma = self.take(",");
            if self.take(close) {
                return Ok((ts, comma));
            }
            if !comma {
                return self.fail(&format!("`,` or `{}`", close));
            }
            ts.push(self.ty()?)
        }
    }
    /// after `(`
    fn list(&mut self) -> Parsed<Kind> {
        let ts = if self.take(",") {
            self.want(")")?;
            vec![]
        } else {
            let (ts, comma) = self.types(")")?;
            if ts.len() == 1 && !comma {
                return Err("a list of one part is written `(T,)`".into());
            }
            ts
        };
        if ts.len() > 8 {
            return Err("a list has at most 8 parts".into());
        }
        Ok(Kind::List(self.mark()?, ts))
    }
    fn angled(&mut self) -> Parsed<Vec<Ty>> {
        if self.take("<") {
            Ok(self.types(">")?.0)
        } else {
            Ok(vec![])
        }
    }

    fn ty(&mut self) -> Parsed<Ty> {
        self.depth += 1;
        if self.depth > MAX_DEPTH {
            return Err("types nest too deep for any record".into());
        }
        let t = self.one_type();
        self.depth -= 1;
        t
    }

    fn one_type(&mut self) -> Parsed<Ty> {
        if self.take("&") {
            let mutable =
                self.rest.starts_with("mut") && !self.rest[3..].starts_with(|c: char| c.is_ascii_alphanumeric());
            if mutable {
                self.want("mut")?
            }
            let loc = self.loc()?;
            return Ok(Ty { loc, kind: Kind::Ref(mutable, Box::new(self.ty()?)) });
        }
        let kind = if self.take("()") {
            Kind::Unit
        } else if self.take("!") {
            Kind::UnresolvedError
        } else if self.take("(") {
            self.list()?
        } else {
            self.named()?
        };
        Ok(Ty { kind, loc: self.loc()? })
    }

    fn named(&mut self) -> Parsed<Kind> {
        let rest = self.rest;
        let word = self.word().to_string();
        if word == "_" {
            return Ok(Kind::Anything);
        }
        if let Some(n) = BUILTINS.iter().position(|b| b.name == word) {
            let args = self.angled()?;
            if args.len() != BUILTINS[n].arguments {
                return Err(format!("{} has {} arguments here: `{}`", word, args.len(), rest));
            }
            return Ok(Kind::Builtin(self.mark()?, n as u8, args));
        }
        let wrong = || format!("a type is wanted at `{}`", rest);
        let number = word.get(1..).and_then(|n| n.parse::<u32>().ok()).ok_or_else(wrong)?;
        match (&word[..1], u16::try_from(number)) {
            ("P", _) => Ok(Kind::Param(number, if self.opens_set() { self.abilities()? } else { 0 })),
            ("V", Ok(v)) => Ok(Kind::Var(v)),
            ("S", Ok(s)) => {
                let args = self.angled()?;
                match self.params.get(s as usize) {
                    Some(n) if *n != args.len() => Err(format!("S{} has {} parameters: `{}`", s, n, rest)),
                    _ => Ok(Kind::Struct(self.mark()?, s, args)),
                }
            }
            _ => Err(wrong()),
        }
    }

    fn var(&mut self) -> Parsed<u16> {
        self.want("V")?;
        Ok(self.number(u16::MAX as u32)? as u16)
    }

    fn declaration(&mut self) -> Parsed<Record> {
        let set = self.abilities()?;
        let mut params = vec![];
        if self.take("<") {
            while !self.take(">") {
                let phantom = self.take("phantom");
                params.push(self.abilities()? + if phantom { 16 } else { 0 });
                if !self.take(",") && !self.rest.starts_with('>') {
                    return self.fail("`,` or `>`");
                }
            }
        }
        if params.len() > 8 {
            return Err("a struct has at most 8 parameters".into());
        }
        Ok(Record::SD(set, params))
    }

    fn arguments(&mut self) -> Parsed<Vec<(u32, Ty)>> {
        self.want("[")?;
        let mut args = vec![];
        while !self.take("]") {
            self.want("P")?;
            let id = self.number(u32::MAX)?;
            self.want("=")?;
            args.push((id, self.ty()?));
            if !self.take(",") && !self.rest.starts_with(']') {
                return self.fail("`,` or `]`");
            }
        }
        if args.len() > 8 {
            return Err("TS lists at most 8 parameters".into());
        }
        Ok(args)
    }

    fn two(&mut self) -> Parsed<(Ty, Ty)> {
        let a = self.ty()?;
        self.want(",")?;
        Ok((a, self.ty()?))
    }

    fn case(&mut self) -> Parsed<TypingCase> {
        let rest = self.rest;
        match self.word() {
            "join" => Ok(TypingCase::Join),
            "subtype" => Ok(TypingCase::Subtype),
            _ => Err(format!("join or subtype is wanted at `{}`", rest)),
        }
    }
    /// the record has room for none and for more than 15, so that a 5 can be made
    fn pairs(&mut self) -> Parsed<Vec<(TypingCase, Ty, Ty)>> {
        let mut pairs = vec![];
        self.skip();
        while !self.rest.is_empty() {
            let case = self.case()?;
            let (a, b) = self.two()?;
            pairs.push((case, a, b));
            if !self.take(";") {
                break;
            }
        }
        if pairs.len() > u8::MAX as usize {
            return Err("MJ has no room for so many pairs".into());
        }
        Ok(pairs)
    }

    fn listed(&mut self) -> Parsed<Vec<u16>> {
        let mut listed = vec![];
        self.skip();
        while !self.rest.is_empty() {
            listed.push(self.var()?);
            if !self.take(",") {
                break;
            }
        }
        if listed.len() > u8::MAX as usize {
            return Err("KP lists at most 255 variables".into());
        }
        Ok(listed)
    }

    fn numeric_kind(&mut self) -> Parsed<u8> {
        let rest = self.rest;
        let word = self.word();
        let n = NUMERIC_KINDS.iter().position(|k| *k == word);
        n.map(|n| n as u8).ok_or_else(|| format!("numeric, bits or ordered is wanted at `{}`", rest))
    }

    fn record(&mut self) -> Parsed<Record> {
        let mark = self.word().to_string();
        Ok(match mark.as_str() {
            "SD" => self.declaration()?,
            "FV" => Record::FV(self.loc()?),
            "NV" => Record::NV(self.loc()?),
            "NL" => Record::NL(self.loc()?, self.bits()?),
            "SN" => Record::SN(self.var()?, self.loc()?),
            "JN" => self.two().map(|(a, b)| Record::JN(a, b))?,
            "SU" => self.two().map(|(a, b)| Record::SU(a, b))?,
            "JL" => self.two().map(|(a, b)| Record::JL(a, b))?,
            "UF" => Record::UF(self.ty()?),
            "UL" => Record::UL(self.ty()?),
            "RD" => Record::RD(self.ty()?),
            "TS" => Record::TS(self.arguments()?, self.ty()?),
            "IN" => Record::IN(self.ty()?),
            "NC" => Record::NC(self.loc()?, self.numeric_kind()?, self.ty()?),
            "BC" => Record::BC(self.loc()?, self.ty()?),
            "SC" => Record::SC(self.loc()?, self.ty()?),
            "SV" => Record::SV,
            "RM" => Record::RM(self.ty()?),
            "CN" => Record::CN(self.ty()?),
            "XP" => Record::XP(self.ty()?),
            "MJ" => Record::MJ(self.pairs()?),
            "KP" => Record::KP(self.listed()?),
            _ => return Err(format!("`{}` is no mark", mark)),
        })
    }
}

/// The bytes of a job's text. With `number`, places that name no location get 1, 2, 3 .. from left to right.
pub fn assemble(text: &str, number: bool) -> Result<Vec<u8>, String> {
    let (mut out, mut params) = (vec![], vec![]);
    let mut auto = number.then_some(0);
    for (i, line) in text.lines().enumerate() {
        let line = line.split('#').next().unwrap().trim();
        let at_line = |e: String| format!("line {}: {}", i + 1, e);
        if line.is_empty() {
            continue;
        }
        if let Some(digits) = line.strip_prefix("hex ") {
            out.extend(record::unhex(digits).ok_or_else(|| at_line("pairs of hexadecimal digits are wanted".into()))?);
            continue;
        }
        let mut p = Parser { rest: line, auto: &mut auto, params: &params, depth: 0 };
        let r = p.record().map_err(at_line)?;
        p.skip();
        if !p.rest.is_empty() {
            return Err(at_line(format!("left over: `{}`", p.rest)));
        }
        if let Record::SD(_, ps) = &r {
            params.push(ps.len())
        }
        out.extend(r.bytes())
    }
    Ok(out)
}
