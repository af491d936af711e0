//! 01's record form, with 02's u16, u32 and u256 and its doubled references: types and records as trees, read from
//! bytes and written to bytes.

pub const MAX_RECORD: usize = 4096;
pub const MAX_NESTING: usize = 64;
/// of MJ
pub const MAX_PAIRS: usize = 15;

pub struct Builtin {
    pub name: &'static str,
    pub arguments: usize,
    /// an ability mark on it must have drop
    pub integer: bool,
}

const fn builtin(name: &'static str, arguments: usize, integer: bool) -> Builtin {
    Builtin { name, arguments, integer }
}

/// by number
pub const BUILTINS: [Builtin; 10] = [
    builtin("address", 0, false),
    builtin("signer", 0, false),
    builtin("u8", 0, true),
    builtin("u64", 0, true),
    builtin("u128", 0, true),
    builtin("vector", 1, false),
    builtin("bool", 0, false),
    builtin("u16", 0, true),
    builtin("u32", 0, true),
    builtin("u256", 0, true),
];
pub const VECTOR: u8 = 5;
pub const ABILITIES: [(u8, &str); 4] = [(1, "copy"), (2, "drop"), (4, "store"), (8, "key")];

#[derive(Debug, Clone, PartialEq, Eq)]
pub struct Ty {
    pub loc: u32,
    pub kind: Kind,
}

/// The first byte of `Builtin`, `List` and `Struct` is the ability mark: 0, or 16 plus the set.
#[derive(Debug, Clone, PartialEq, Eq)]
pub enum Kind {
    Unit,
    Ref(bool, Box<Ty>),
    Param(u32, u8),
    Builtin(u8, u8, Vec<Ty>),
    List(u8, Vec<Ty>),
    Struct(u8, u16, Vec<Ty>),
    Var(u16),
    Anything,
    UnresolvedError,
}

/// Whether a pair of MJ is answered as JN or as SU: its byte in the record.
#[derive(Debug, Clone, Copy, PartialEq, Eq)]
pub enum TypingCase {
    Join,
    Subtype,
}

impl TypingCase {
    /// the record that a pair is answered as
    pub fn record(self, a: Ty, b: Ty) -> Record {
        match self {
            TypingCase::Join => Record::JN(a, b),
            TypingCase::Subtype => Record::SU(a, b),
        }
    }
}

#[derive(Debug, Clone, PartialEq, Eq)]
#[non_exhaustive]
pub enum Record {
    SD(u8, Vec<u8>),
    FV(u32),
    NV(u32),
    SN(u16, u32),
    JN(Ty, Ty),
    SU(Ty, Ty),
    UF(Ty),
    RD(Ty),
    TS(Vec<(u32, Ty)>, Ty),
    IN(Ty),
    NC(u32, u8, Ty),
    BC(u32, Ty),
    SC(u32, Ty),
    SV,
    /// 02's R-3
    RM(Ty),
    /// 02's R-12
    CN(Ty),
    /// 02's R-5
    XP(Ty),
    /// 02's R-7: how many bits the literal needs
    NL(u32, u16),
    /// 02's R-8
    MJ(Vec<(TypingCase, Ty, Ty)>),
    /// 02's R-9: JN with its links counted
    JL(Ty, Ty),
    /// 02's R-9: UF with its links counted
    UL(Ty),
    /// 02's R-11: the variables that are kept
    KP(Vec<u16>),
}

/// What a record may name: variables below `vars`, structs with as many arguments as declared.
#[derive(Debug, Clone, Default)]
pub struct Known {
    pub vars: usize,
    pub params: Vec<usize>,
}

/// Where in the record reading stops, and by which rule: the answer's number is 5, 6 or 18.
#[derive(Debug, Clone, Copy, PartialEq, Eq)]
pub struct Refusal {
    pub number: u8,
    pub at: usize,
    pub rule: &'static str,
}

fn malformed<T>(at: usize, rule: &'static str) -> Read<T> {
    Err(Refusal { number: 5, at, rule })
}

fn unknown_name(at: usize, rule: &'static str) -> Refusal {
    Refusal { number: 6, at, rule }
}

const NOT_TAKEN: &str = "this variable is not taken yet";
const DOUBLED: &str = "a reference stands directly under a reference";

//---- reading: the first of 5, 6 and 18 that is met from left to right -----------------------------

/// Where a type stands. A payload's may nest deeper than a record's and have doubled references.
#[derive(Clone, Copy, PartialEq, Eq)]
enum Of {
    Record,
    Payload,
}

struct Reader<'a> {
    bytes: &'a [u8],
    at: usize,
    known: &'a Known,
    of: Of,
    /// variables read, and where
    met: Vec<(usize, u16)>,
}

type Read<T> = Result<T, Refusal>;

impl<'a> Reader<'a> {
    fn new(bytes: &'a [u8], known: &'a Known, of: Of) -> Self {
        Reader { bytes, at: 0, known, of, met: vec![] }
    }
    fn byte(&mut self) -> Read<u8> {
        match self.bytes.get(self.at) {
            Some(b) => {
                self.at += 1;
                Ok(*b)
            }
            None if self.at == MAX_RECORD => malformed(self.at, "a record has at most 4,096 bytes"),
            None => malformed(self.at, "the bytes end inside the record"),
        }
    }
    fn byte_to(&mut self, max: u8, rule: &'static str) -> Read<u8> {
        match self.byte()? {
            b if b <= max => Ok(b),
            _ => malformed(self.at - 1, rule),
        }
    }
    fn u16(&mut self) -> Read<u16> {
        Ok(u16::from_le_bytes([self.byte()?, self.byte()?]))
    }
    fn u32(&mut self) -> Read<u32> {
        Ok(u32::from_le_bytes([self.byte()?, self.byte()?, self.byte()?, self.byte()?]))
    }
    /// tested when both bytes are read
    fn bits(&mut self) -> Read<u16> {
        let at = self.at;
        match self.u16()? {
            bits @ 1..=256 => Ok(bits),
            _ => malformed(at, "a literal needs 1 to 256 bits"),
        }
    }
    fn set(&mut self) -> Read<u8> {
        self.byte_to(15, "a set of abilities is 0 to 15")
    }
    fn var(&mut self) -> Read<u16> {
        let at = self.at;
        let v = self.u16()?;
        self.met.push((at, v));
        if (v as usize) < self.known.vars {
            Ok(v)
        } else {
            Err(unknown_name(at, NOT_TAKEN))
        }
    }
    fn mark(&mut self) -> Read<u8> {
        match self.byte()? {
            m @ (0 | 16..=31) => Ok(m),
            _ => malformed(self.at - 1, "an ability mark is 0, or 16 plus a set"),
        }
    }
    fn types(&mut self, n: usize, depth: usize) -> Read<Vec<Ty>> {
        (0..n).map(|_| self.ty(depth)).collect()
    }

    fn tag(&mut self, depth: usize) -> Read<u8> {
        let tag = self.byte_to(8, "a type's tag is 0 to 8")?;
        if depth > MAX_NESTING && self.of == Of::Record {
            return malformed(self.at - 1, "types nest at most 64 deep");
        }
        Ok(tag)
    }

    fn ty(&mut self, depth: usize) -> Read<Ty> {
        let tag = self.tag(depth)?;
        self.after_tag(tag, depth)
    }

    /// the type under a reference: 18 is met at its tag, before its location is read
    fn referred(&mut self, depth: usize) -> Read<Ty> {
        let tag = self.tag(depth)?;
        if tag == 1 && self.of == Of::Record {
            return Err(Refusal { number: 18, at: self.at - 1, rule: DOUBLED });
        }
        self.after_tag(tag, depth)
    }

    fn after_tag(&mut self, tag: u8, depth: usize) -> Read<Ty> {
        let loc = self.u32()?;
        let kind = match tag {
            0 => Kind::Unit,
            1 => {
                let mutable = self.byte_to(1, "mutable is 0 or 1")? == 1;
                Kind::Ref(mutable, Box::new(self.referred(depth + 1)?))
            }
            2 => Kind::Param(self.u32()?, self.set()?),
            3 => self.builtin(depth)?,
            4 => {
                let (m, n) = (self.mark()?, self.byte_to(8, "a list has at most 8 parts")?);
                Kind::List(m, self.types(n as usize, depth + 1)?)
            }
            5 => self.declared(depth)?,
            6 => Kind::Var(self.var()?),
            7 => Kind::Anything,
            _ => Kind::UnresolvedError,
        };
        Ok(Ty { loc, kind })
    }

    fn builtin(&mut self, depth: usize) -> Read<Kind> {
        let (m, n) = (self.mark()?, self.byte()?);
        let Some(b) = BUILTINS.get(n as usize) else {
            return malformed(self.at - 1, "no builtin has this number");
        };
        if b.integer && m != 0 && m & 2 == 0 {
            return malformed(self.at - 1, "an integer type's ability mark has drop");
        }
        Ok(Kind::Builtin(m, n, self.types(b.arguments, depth + 1)?))
    }

    fn declared(&mut self, depth: usize) -> Read<Kind> {
        let m = self.mark()?;
        let at = self.at;
        let n = self.u16()?;
        let unknown = unknown_name(at, "this struct is not declared");
        let count = *self.known.params.get(n as usize).ok_or(unknown)?;
        Ok(Kind::Struct(m, n, self.types(count, depth + 1)?))
    }

    fn declaration(&mut self) -> Read<Record> {
        let (abilities, n) = (self.set()?, self.byte_to(8, "a struct has at most 8 parameters")?);
        let param = |r: &mut Self| r.byte_to(31, "a parameter byte is 0 to 31");
        Ok(Record::SD(abilities, (0..n).map(|_| param(self)).collect::<Read<_>>()?))
    }

    fn arguments(&mut self) -> Read<Record> {
        let n = self.byte_to(8, "TS lists at most 8 parameters")?;
        let args = (0..n).map(|_| Ok((self.u32()?, self.ty(1)?))).collect::<Read<_>>()?;
        Ok(Record::TS(args, self.ty(1)?))
    }

    fn pair(&mut self) -> Read<(TypingCase, Ty, Ty)> {
        let case = match self.byte_to(1, "a pair's byte is 0 or 1")? {
            0 => TypingCase::Join,
            _ => TypingCase::Subtype,
        };
        Ok((case, self.ty(1)?, self.ty(1)?))
    }

    fn many(&mut self) -> Read<Record> {
        match self.byte()? as usize {
            n @ 1..=MAX_PAIRS => Ok(Record::MJ((0..n).map(|_| self.pair()).collect::<Read<_>>()?)),
            _ => malformed(self.at - 1, "MJ has 1 to 15 pairs"),
        }
    }

    fn listed(&mut self) -> Read<Record> {
        let n = self.byte()?;
        Ok(Record::KP((0..n).map(|_| self.var()).collect::<Read<_>>()?))
    }

    fn record(&mut self) -> Read<Record> {
        Ok(match &[self.byte()?, self.byte()?] {
            b"SD" => self.declaration()?,
            b"FV" => Record::FV(self.u32()?),
            b"NV" => Record::NV(self.u32()?),
            b"SN" => Record::SN(self.var()?, self.u32()?),
            b"JN" => Record::JN(self.ty(1)?, self.ty(1)?),
            b"SU" => Record::SU(self.ty(1)?, self.ty(1)?),
            b"UF" => Record::UF(self.ty(1)?),
            b"RD" => Record::RD(self.ty(1)?),
            b"TS" => self.arguments()?,
            b"IN" => Record::IN(self.ty(1)?),
            b"NC" => Record::NC(self.u32()?, self.byte_to(2, "a numeric constraint's kind is 0 to 2")?, self.ty(1)?),
            b"BC" => Record::BC(self.u32()?, self.ty(1)?),
            b"SC" => Record::SC(self.u32()?, self.ty(1)?),
            b"SV" => Record::SV,
            b"RM" => Record::RM(self.ty(1)?),
            b"CN" => Record::CN(self.ty(1)?),
            b"XP" => Record::XP(self.ty(1)?),
            b"NL" => Record::NL(self.u32()?, self.bits()?),
            b"MJ" => self.many()?,
            b"JL" => Record::JL(self.ty(1)?, self.ty(1)?),
            b"UL" => Record::UL(self.ty(1)?),
            b"KP" => self.listed()?,
            _ => return malformed(0, "no record has this mark"),
        })
    }
}

/// The first record of a stream and how many bytes it has; byte 4,097 is never read.
pub fn read_record(stream: &[u8], known: &Known) -> Read<(Record, usize)> {
    let mut r = Reader::new(&stream[..stream.len().min(MAX_RECORD)], known, Of::Record);
    Ok((r.record()?, r.at))
}

/// Where reading may stop if it is not known how many variables are taken, only that those below `taken` are: at each
/// other variable that is met, and where it stops in any case.
pub fn stops(stream: &[u8], known: &Known, taken: usize) -> Vec<Refusal> {
    let mut r = Reader::new(&stream[..stream.len().min(MAX_RECORD)], known, Of::Record);
    let last = r.record().err();
    let open = r.met.iter().filter(|(_, v)| (taken..known.vars).contains(&(*v as usize)));
    open.map(|(at, _)| unknown_name(*at, NOT_TAKEN)).chain(last).collect()
}

/// The first type of a payload and how many bytes it has.
pub fn read_type(payload: &[u8], known: &Known) -> Read<(Ty, usize)> {
    let mut r = Reader::new(payload, known, Of::Payload);
    Ok((r.ty(1)?, r.at))
}

//---- writing ----------------------------------------------------------------------------------------

impl Ty {
    pub fn write(&self, out: &mut Vec<u8>) {
        let head = |out: &mut Vec<u8>, tag: u8, fields: &[u8]| {
            out.push(tag);
            out.extend(self.loc.to_le_bytes());
            out.extend(fields);
        };
        match &self.kind {
            Kind::Unit => head(out, 0, &[]),
            Kind::Ref(mutable, _) => head(out, 1, &[*mutable as u8]),
            Kind::Param(id, abilities) => {
                head(out, 2, &id.to_le_bytes());
                out.push(*abilities)
            }
            Kind::Builtin(m, n, _) => head(out, 3, &[*m, *n]),
            Kind::List(m, args) => head(out, 4, &[*m, args.len() as u8]),
            Kind::Struct(m, n, _) => {
                head(out, 5, &[*m]);
                out.extend(n.to_le_bytes())
            }
            Kind::Var(v) => head(out, 6, &v.to_le_bytes()),
            Kind::Anything => head(out, 7, &[]),
            Kind::UnresolvedError => head(out, 8, &[]),
        }
        self.parts().iter().for_each(|t| t.write(out))
    }

    pub fn parts(&self) -> &[Ty] {
        match &self.kind {
            Kind::Ref(_, t) => std::slice::from_ref(t),
            Kind::Builtin(_, _, ts) | Kind::List(_, ts) | Kind::Struct(_, _, ts) => ts,
            _ => &[],
        }
    }

    /// The same with other parts, as many as there were; none for its head alone, where a reference's is a `()`.
    pub fn with_parts(&self, mut parts: Vec<Ty>) -> Ty {
        let kind = match &self.kind {
            Kind::Ref(m, _) => {
                let blank = Ty { loc: 0, kind: Kind::Unit };
                Kind::Ref(*m, Box::new(parts.pop().unwrap_or(blank)))
            }
            Kind::Builtin(m, n, _) => Kind::Builtin(*m, *n, parts),
            Kind::List(m, _) => Kind::List(*m, parts),
            Kind::Struct(m, n, _) => Kind::Struct(*m, *n, parts),
            other => other.clone(),
        };
        Ty { loc: self.loc, kind }
    }

    pub fn bytes(&self) -> Vec<u8> {
        let mut out = vec![];
        self.write(&mut out);
        out
    }

    /// whether a reference stands directly under a reference in it
    pub fn has_doubled(&self) -> bool {
        let is_ref = |t: &Ty| matches!(t.kind, Kind::Ref(..));
        self.parts().iter().any(|t| is_ref(self) && is_ref(t) || t.has_doubled())
    }

    /// The same without locations, each variable as its number by first appearance, left to right, from 0.
    pub fn numbered(&self) -> Ty {
        self.numbered_on(&mut vec![])
    }

    /// `met`: the variables met before it, in order
    fn numbered_on(&self, met: &mut Vec<u16>) -> Ty {
        if let Kind::Var(v) = self.kind {
            let number = met.iter().position(|w| *w == v).unwrap_or(met.len());
            met.resize(met.len().max(number + 1), v);
            return Ty { loc: 0, kind: Kind::Var(number as u16) };
        }
        let parts = self.parts().iter().map(|t| t.numbered_on(met)).collect();
        Ty { loc: 0, ..self.with_parts(parts) }
    }

    /// The same with other variables in the place of those in it; none where one has none.
    pub fn moved(&self, to: &impl Fn(u16) -> Option<u16>) -> Option<Ty> {
        if let Kind::Var(v) = self.kind {
            return Some(Ty { loc: self.loc, kind: Kind::Var(to(v)?) });
        }
        Some(self.with_parts(self.parts().iter().map(|t| t.moved(to)).collect::<Option<_>>()?))
    }

    /// one more than the highest variable in it
    pub fn taken(&self) -> usize {
        let own = if let Kind::Var(v) = self.kind { v as usize + 1 } else { 0 };
        self.parts().iter().map(Ty::taken).fold(own, usize::max)
    }
}

impl Record {
    pub fn types(&self) -> Vec<&Ty> {
        match self {
            Record::SD(..) | Record::FV(_) | Record::NV(_) | Record::NL(..) | Record::SN(..) => vec![],
            Record::SV | Record::KP(_) => vec![],
            Record::JN(a, b) | Record::SU(a, b) | Record::JL(a, b) => vec![a, b],
            Record::MJ(pairs) => pairs.iter().flat_map(|(_, a, b)| [a, b]).collect(),
            Record::TS(args, t) => args.iter().map(|(_, a)| a).chain([t]).collect(),
            Record::UF(t) | Record::RD(t) | Record::IN(t) => vec![t],
            Record::RM(t) | Record::CN(t) | Record::XP(t) | Record::UL(t) => vec![t],
            Record::NC(_, _, t) | Record::BC(_, t) | Record::SC(_, t) => vec![t],
        }
    }

    /// one more than the highest variable in it
    pub fn taken(&self) -> usize {
        let own = match self {
            Record::SN(v, _) => *v as usize + 1,
            Record::KP(listed) => listed.iter().max().map_or(0, |v| *v as usize + 1),
            _ => 0,
        };
        self.types().into_iter().map(Ty::taken).fold(own, usize::max)
    }

    pub fn mark(&self) -> &'static str {
        match self {
            Record::SD(..) => "SD",
            Record::FV(..) => "FV",
            Record::NV(..) => "NV",
            Record::SN(..) => "SN",
            Record::JN(..) => "JN",
            Record::SU(..) => "SU",
            Record::UF(..) => "UF",
            Record::RD(..) => "RD",
            Record::TS(..) => "TS",
            Record::IN(..) => "IN",
            Record::NC(..) => "NC",
            Record::BC(..) => "BC",
            Record::SC(..) => "SC",
            Record::SV => "SV",
            Record::RM(..) => "RM",
            Record::CN(..) => "CN",
            Record::XP(..) => "XP",
            Record::NL(..) => "NL",
            Record::MJ(..) => "MJ",
            Record::JL(..) => "JL",
            Record::UL(..) => "UL",
            Record::KP(..) => "KP",
        }
    }

    pub fn bytes(&self) -> Vec<u8> {
        let mut out = self.mark().as_bytes().to_vec();
        match self {
            Record::SD(abilities, params) => {
                out.extend([*abilities, params.len() as u8]);
                out.extend(params)
            }
            Record::FV(loc) | Record::NV(loc) => out.extend(loc.to_le_bytes()),
            Record::NL(loc, bits) => {
                out.extend(loc.to_le_bytes());
                out.extend(bits.to_le_bytes())
            }
            Record::SN(v, loc) => {
                out.extend(v.to_le_bytes());
                out.extend(loc.to_le_bytes())
            }
            Record::KP(listed) => {
                out.push(listed.len() as u8);
                listed.iter().for_each(|v| out.extend(v.to_le_bytes()))
            }
            Record::TS(args, _) => {
                out.push(args.len() as u8);
                for (id, t) in args {
                    out.extend(id.to_le_bytes());
                    t.write(&mut out)
                }
            }
            Record::NC(loc, kind, _) => {
                out.extend(loc.to_le_bytes());
                out.push(*kind)
            }
            Record::BC(loc, _) | Record::SC(loc, _) => out.extend(loc.to_le_bytes()),
            Record::MJ(pairs) => write_pairs(pairs, &mut out),
            _ => (),
        }
        match self {
            Record::JN(a, b) | Record::SU(a, b) | Record::JL(a, b) => {
                a.write(&mut out);
                b.write(&mut out)
            }
            Record::UF(t) | Record::RD(t) | Record::TS(_, t) | Record::IN(t) => t.write(&mut out),
            Record::RM(t) | Record::CN(t) | Record::XP(t) | Record::UL(t) => t.write(&mut out),
            Record::NC(_, _, t) | Record::BC(_, t) | Record::SC(_, t) => t.write(&mut out),
            _ => (),
        }
        out
    }
}

fn write_pairs(pairs: &[(TypingCase, Ty, Ty)], out: &mut Vec<u8>) {
    out.push(pairs.len() as u8);
    for (case, a, b) in pairs {
        out.push(*case as u8);
        a.write(out);
        b.write(out)
    }
}

pub fn hex(bytes: &[u8]) -> String {
    bytes.iter().map(|b| format!("{:02x}", b)).collect()
}

pub fn unhex(text: &str) -> Option<Vec<u8>> {
    let digits: Vec<u8> = text.bytes().filter(|b| *b != b' ').collect();
    digits
        .chunks(2)
        .map(|p| u8::from_str_radix(std::str::from_utf8(p).ok().filter(|p| p.len() == 2)?, 16).ok())
        .collect()
}
