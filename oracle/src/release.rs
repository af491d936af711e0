//! A release from a seed: jobs of functions that are well, and one function with each fault that an answer or a code
//! of SV or XP names. What is told of each is what `joblog report` must say.
use crate::{
    gen::{Chance, Maker},
    job::{outcomes, Outcome},
    record::{Known, Record, MAX_RECORD},
    text::assemble,
};
use pongiwaru::Answer;

/// The first record of a job that is not well: its number, its answer, of MJ that of its first pair that is not well, and of a 0
/// the codes of SV's rows or of XP.
#[derive(Clone, Debug, PartialEq, Eq)]
pub struct Told {
    pub record: usize,
    pub answer: u8,
    pub codes: &'static [u8],
}

pub struct Function {
    pub name: String,
    pub stream: Vec<u8>,
    pub fault: Option<Told>,
}

//---- faults --------------------------------------------------------------------------------------------

/// What a fault's records may name: the next variables V and structs S, a type T, another one U, an ability of
/// those that a signer has not.
struct Words {
    vars: usize,
    structs: usize,
    a: &'static str,
    b: &'static str,
    ability: &'static str,
}

struct Fault {
    answer: u8,
    codes: &'static [u8],
    /// its records as text, the last one at fault; the signs of `Words::put` stand for words
    records: fn(&Words) -> String,
    /// whether the job goes on after it as a function that is well
    goes_on: bool,
}

const fn fault(answer: u8, records: fn(&Words) -> String) -> Fault {
    Fault { answer, codes: &[], records, goes_on: matches!(answer, 1..=4 | 10..=13 | 17) }
}
const fn rows(codes: &'static [u8], records: fn(&Words) -> String) -> Fault {
    Fault { answer: 0, codes, records, goes_on: true }
}

/// every answer but 15, which no job from a fresh state has, and every code
const FAULTS: [Fault; 44] = [
    fault(1, |w| w.put("SU &T, &mut T")),
    fault(1, |w| w.put("SU (U, &vector<T>), (U, &mut vector<T>)")),
    fault(2, |w| w.put("JN vector<T>, vector<U>")),
    fault(2, |w| w.put("NV\nJN V0, T")),
    fault(3, |w| w.put("JN (T, U), (T,)")),
    fault(3, |w| w.put("SU (T, U), (T, U, T)")),
    fault(4, |w| w.put("FV\nJN V0, (vector<V0>, T)")),
    fault(2, |w| w.put("FV\nFV\nJN V0, V1\nJL (V0, T), (V1, U)")),
    fault(4, |w| w.put("FV\nJL V0, (vector<V0>, T)")),
    // a pair's number stands for the answer's
    fault(1, |w| w.put("MJ join T, T; subtype &T, &mut T")),
    fault(2, |w| w.put("FV\nMJ join V0, T; join V0, U; join U, U")),
    fault(10, |w| w.put("MJ join vector<T>{copy, drop}, vector<T>{drop}; join U, U")),
    fault(5, |w| w.put("UF T\nhex 5858")),
    fault(5, |w| w.put("hex 554609")),
    fault(5, |w| w.put("FV\nhex 4a4e060100")),
    fault(6, |w| w.put("UF V0")),
    fault(6, |w| w.put("UF vector<S0>")),
    // a number that none has after a KP, and in one
    fault(6, |w| w.put("FV\nFV\nKP V1\nUF V1")),
    fault(6, |w| w.put("FV\nKP V0, V1")),
    fault(7, |w| w.put(&("FV\n".repeat(1024 - w.vars) + "NV"))),
    fault(7, |w| w.put(&("SD {drop} <{}>\n".repeat(256 - w.structs) + "SD {}"))),
    fault(7, |w| w.put(&("SV\n".to_string() + &"BC T\n".repeat(512) + "SC U"))),
    fault(7, |w| w.put(&(eightfold(&["V1", "V2", "V3", "T"]) + "RD V0"))),
    fault(8, |w| w.put(&(chain(0) + &chain(4) + "JN V0, V4"))),
    fault(9, |w| w.put("FV\nFV\nJN V0, vector<V1>\nJN V1, (V0, T)\nRD V0")),
    fault(10, |w| w.put("JN vector<T>{copy, drop}, vector<T>{drop}")),
    fault(11, |w| w.put("FV\nIN vector<V0>")),
    fault(11, |w| w.put("FV\nRM (T, V0)")),
    fault(11, |w| w.put("FV\nTS [P0 = T] (P0, V0)")),
    fault(12, |w| w.put("TS [P0 = T] (P0, P1)")),
    fault(13, |w| w.put("TS [P0 = T, P0 = U] P0")),
    fault(14, |w| w.put(&(eightfold(&["V1", "V2", "P1"]) + "RD V0"))),
    fault(16, |w| w.put("SV\nSD {} <{copy}>\nIN S0<vector<T>{}>\nSV")),
    fault(17, |w| w.put("XP (T,){copy}")),
    fault(17, |w| w.put("SD {drop}\nFV\nJN V0, &vector<S0{drop}>\nXP (U, V0)")),
    fault(18, |w| w.put("UF &mut &T")),
    fault(18, |w| w.put("SU T, (U, vector<&&T>)")),
    rows(&[1], |w| w.put("NC bits vector<T>\nSV")),
    rows(&[2, 3], |w| w.put("BC &T\nSC ()\nSV")),
    rows(&[3], |w| w.put("FV\nSC V0\nJN V0, (T, U)\nSV")),
    rows(&[4], |w| w.put("SD {} <ABILITY>\nIN S0<signer>\nSV")),
    rows(&[4, 4], |w| w.put("SD {copy, store} <{}>\nSD {} <{copy, store}>\nIN S1<S0<signer>>\nSV")),
    rows(&[5], |w| w.put("FV\nXP (T, vector<V0>)")),
    rows(&[5, 5], |w| w.put("FV\nFV\nJN V0, (U, V1)\nXP (&V0, V1)")),
];

/// four variables from V`first` on, each bound to 63 lists around the next, the last to as many around ()
fn chain(first: usize) -> String {
    let link = |v: usize| if v % 4 < 3 { format!("V{}", v + 1) } else { "()".into() };
    let bound = |v: usize| format!("JN V{}, {}{}{}\n", v, "(".repeat(63), link(v), ",)".repeat(63));
    "FV\n".repeat(4) + &(first..first + 4).map(bound).collect::<String>()
}

/// variables from V0 on, each bound to a list of eight of one of `parts`
fn eightfold(parts: &[&str]) -> String {
    let bound = |(v, part): (usize, &&str)| format!("JN V{}, ({})\n", v, [*part; 8].join(", "));
    "FV\n".repeat(parts.len()) + &parts.iter().enumerate().map(bound).collect::<String>()
}

impl Words {
    fn of(chance: &mut Chance, known: &Known) -> Words {
        const TYPES: [&str; 5] = ["bool", "address", "vector<u8>", "vector<bool>", "(u64, bool)"];
        let a = chance.below(5);
        let b = (a + 1 + chance.below(4)) % 5;
        let ability = chance.one(&["{copy}", "{store}", "{key}"]);
        Words { vars: known.vars, structs: known.params.len(), a: TYPES[a], b: TYPES[b], ability }
    }

    /// V0, V1 .. become the next variables, S0, S1 the next structs, T and U types
    fn put(&self, text: &str) -> String {
        let lines = text.split_inclusive('\n').map(|l| if l.starts_with("hex") { l.into() } else { self.line(l) });
        lines.collect()
    }

    fn line(&self, line: &str) -> String {
        let (mark, fields) = line.split_at(line.find([' ', '\n']).unwrap_or(line.len()));
        let fields = fields.replace("ABILITY", self.ability).replace('T', self.a).replace('U', self.b);
        let mut out = mark.to_string();
        let mut rest = fields.as_str();
        while let Some(at) = rest.find(['V', 'S']) {
            let base = if rest[at..].starts_with('V') { self.vars } else { self.structs };
            let digits = rest[at + 1..].find(|c: char| !c.is_ascii_digit()).unwrap_or(rest.len() - at - 1);
            let number: usize = rest[at + 1..at + 1 + digits].parse().unwrap();
            out += &format!("{}{}", &rest[..=at], base + number);
            rest = &rest[at + 1 + digits..]
        }
        out + rest
    }
}

//---- functions ------------------------------------------------------------------------------------------

fn all(stream: &[u8]) -> (Vec<Outcome>, Known) {
    let (mut out, mut known) = (vec![], Known::default());
    outcomes(stream, |job, o| {
        out.push(o.clone());
        known = job.known().clone()
    });
    (out, known)
}

/// whether the stream goes on with `r` as a function that is well: answered 0, with no row and no code, and nothing fails
/// if SV comes next
fn well(stream: &[u8], r: &Record) -> bool {
    let bytes = r.bytes();
    if bytes.len() > MAX_RECORD {
        return false;
    }
    let (outcomes, _) = all(&[stream, &bytes, b"SV"].concat());
    let none = |o: &Outcome| matches!(o, Outcome::Core(0, payload) if payload.is_empty());
    match &outcomes[..] {
        [.., Outcome::Core(0, payload), next] => none(next) && Answer::Ran.is_well(&bytes, payload),
        _ => false,
    }
}

/// Up to `records` further ones after a stream, each well, and SV at the end; how many they are.
fn grow(stream: &mut Vec<u8>, maker: &mut Maker, records: usize) -> usize {
    let mut added = 0;
    for n in 0..2 * records {
        let (_, known) = all(stream);
        let between = maker.expansion(known.vars, &known.params);
        let many = maker.many(known.vars, &known.params);
        let r = maker.record(n, known.vars, &known.params);
        for r in between.into_iter().chain(many).chain([r]).chain(maker.keep(known.vars)) {
            if added < records && well(stream, &r) {
                stream.extend(r.bytes());
                added += 1
            }
        }
    }
    stream.extend(b"SV");
    added + 1
}

fn function(seed: u64, index: u64, name: String, fault: Option<&Fault>) -> Function {
    let (mut maker, mut chance) = (Maker::new(Chance::new(seed, 2 * index)), Chance::new(seed, 2 * index + 1));
    let mut stream = vec![];
    let before = grow(&mut stream, &mut maker, 4 + chance.below(12));
    let Some(fault) = fault else { return Function { name, stream, fault: None } };
    let words = Words::of(&mut chance, &all(&stream).1);
    let text = (fault.records)(&words);
    stream.extend(assemble(&text, true).unwrap_or_else(|e| panic!("{}: {}", text, e)));
    if fault.goes_on {
        grow(&mut stream, &mut maker, chance.below(8));
    }
    let record = before + text.lines().count() - 1;
    Function { name, stream, fault: Some(Told { record, answer: fault.answer, codes: fault.codes }) }
}

/// `count` functions that are well and one with each fault, in an order of the seed
pub fn release(seed: u64, count: usize) -> Vec<Function> {
    let mut faults: Vec<Option<&Fault>> = FAULTS.iter().map(Some).collect();
    faults.resize(FAULTS.len() + count, None);
    let mut chance = Chance::new(seed, 0);
    for i in 0..faults.len() {
        let j = i + chance.below(faults.len() - i);
        faults.swap(i, j)
    }
    let named = |(i, fault): (usize, &Option<&Fault>)| {
        function(seed, i as u64, format!("module{}/function{}", i / 20, i), *fault)
    };
    faults.iter().enumerate().map(named).collect()
}

impl Told {
    /// `RECORD ANSWER`, and the codes
    pub fn text(&self) -> String {
        let codes: String = self.codes.iter().map(|c| format!(" {}", c)).collect();
        format!("{} {}{}", self.record, self.answer, codes)
    }
}
