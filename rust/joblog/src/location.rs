//! Which bytes of a record and of a payload are location fields, and both with these fields set to 0: the tables of
//! crates/definition/specs/Locations.antt. A record need not be well formed: the fields are those that its tags,
//! counts and numbers lead to.
use crate::record::BUILTINS;

#[derive(Clone, Copy)]
enum Part {
    Plain,
    Location,
    /// a type's tag
    Type,
    /// a tag in a row of types that goes on to the end, parts and all
    Types,
    Builtin,
    List,
    Struct,
    /// the second byte of a struct's number, after the first
    StructHigh(u8),
    /// TS's count
    Pairs,
    /// the code of a failure, in a row that goes on to the end
    Failures,
    /// the rule of a missing ability
    Rule,
    /// the code of a variable that is not inferred, in a row that goes on to the end
    Codes,
    /// MJ's count
    Many,
    /// a pair's number, in a row that goes on to the end; the bytes of its payload's length
    Pair,
    PairLow(u8),
    PairHigh(u8, u8),
    /// a tag in a row of types of so many bytes
    TypesIn(usize),
}
use Part::*;

const LOC: [Part; 4] = [Location; 4];

/// what stands after a type's location, by its tag
const TAGS: [&[Part]; 9] = [
    &[],
    &[Plain, Type],
    &[Plain, Plain, Plain, Plain, Plain],
    &[Plain, Builtin],
    &[Plain, List],
    &[Plain, Struct],
    &[Plain, Plain],
    &[],
    &[],
];
/// .. and how many bytes that is without its parts
const WIDTHS: [usize; 9] = [0, 1, 5, 2, 2, 3, 2, 0, 0];

struct Mark {
    mark: [u8; 2],
    fields: &'static [Part],
    /// the payload of a 0
    payload: &'static [Part],
    /// so many bytes of each payload's end are no location and no type: the links' number
    tail: usize,
}

const fn row(mark: &[u8; 2], fields: &'static [Part], payload: &'static [Part]) -> Mark {
    Mark { mark: *mark, fields, payload, tail: 0 }
}

const fn counted(mark: &[u8; 2], fields: &'static [Part]) -> Mark {
    Mark { tail: 4, ..row(mark, fields, &[Types]) }
}

const MARKS: [Mark; 22] = [
    row(b"SD", &[], &[]),
    row(b"FV", &LOC, &[Types]),
    row(b"NV", &LOC, &[Types]),
    row(b"SN", &[Plain, Plain, Location, Location, Location, Location], &[Types]),
    row(b"JN", &[Type, Type], &[Types]),
    row(b"SU", &[Type, Type], &[Types]),
    row(b"UF", &[Type], &[Types]),
    row(b"RD", &[Type], &[Types]),
    row(b"TS", &[Pairs], &[Types]),
    row(b"IN", &[Type], &[Types]),
    row(b"NC", &[Location, Location, Location, Location, Plain, Type], &[Types]),
    row(b"BC", &[Location, Location, Location, Location, Type], &[Types]),
    row(b"SC", &[Location, Location, Location, Location, Type], &[Types]),
    row(b"SV", &[], &[Failures]),
    row(b"RM", &[Type], &[]),
    row(b"CN", &[Type], &[]),
    row(b"XP", &[Type], &[Type, Codes]),
    row(b"NL", &[Location, Location, Location, Location, Plain, Plain], &[Types]),
    row(b"MJ", &[Many], &[Pair]),
    counted(b"UL", &[Type]),
    counted(b"JL", &[Type, Type]),
    row(b"KP", &[], &[]),
];

fn of_mark(record: &[u8]) -> Option<&'static Mark> {
    MARKS.iter().find(|m| record.starts_with(&m.mark))
}

fn width(tag: usize) -> usize {
    WIDTHS.get(tag).copied().unwrap_or(0)
}

fn types_in(bytes: usize) -> Vec<Part> {
    if bytes == 0 {
        vec![]
    } else {
        vec![TypesIn(bytes)]
    }
}

/// What a byte brings before all that is awaited. `params`: how many parameters each declared struct has.
fn brings(part: Part, b: u8, params: &[usize]) -> Vec<Part> {
    let n = b as usize;
    match part {
        Plain | Location => vec![],
        Type => [&LOC, TAGS.get(n).copied().unwrap_or(&[])].concat(),
        Types => [&LOC[..], &vec![Plain; width(n)], &[Types]].concat(),
        TypesIn(bytes) => [&LOC[..], &vec![Plain; width(n)], &types_in(bytes.saturating_sub(5 + width(n)))].concat(),
        Builtin => vec![Type; BUILTINS.get(n).map_or(0, |b| b.arguments)],
        List => vec![Type; n],
        Struct => vec![StructHigh(b)],
        StructHigh(low) => vec![Type; params.get(u16::from_le_bytes([low, b]) as usize).copied().unwrap_or(0)],
        Pairs => [[Plain, Plain, Plain, Plain, Type].repeat(n), vec![Type]].concat(),
        Failures if b == 4 => [&LOC[..], &[Plain, Type, Rule]].concat(),
        Failures => [&LOC[..], &[Type, Failures]].concat(),
        Rule if b == 2 => vec![Plain, Failures],
        Rule => vec![Failures],
        Codes => [&LOC[..], &[Codes]].concat(),
        Many => [Plain, Type, Type].repeat(n),
        Pair => vec![PairLow(b)],
        PairLow(number) => vec![PairHigh(number, b)],
        PairHigh(4, _) => [&LOC[..], &[Pair]].concat(),
        PairHigh(_, low) => [types_in(u16::from_le_bytes([low, b]) as usize), vec![Pair]].concat(),
    }
}

fn blank(bytes: &mut [u8], fields: &[Part], params: &[usize]) {
    let mut awaited: Vec<Part> = fields.iter().rev().copied().collect();
    for b in bytes {
        let Some(part) = awaited.pop() else { return };
        awaited.extend(brings(part, *b, params).into_iter().rev());
        if let Location = part {
            *b = 0
        }
    }
}

pub fn blank_record(record: &[u8], params: &[usize]) -> Vec<u8> {
    let mut out = record.to_vec();
    if let Some(mark) = of_mark(record) {
        blank(&mut out[2..], mark.fields, params)
    }
    out
}

/// The payload of the answer `number` to a record.
pub fn blank_payload(record: &[u8], number: usize, payload: &[u8], params: &[usize]) -> Vec<u8> {
    let mut out = payload.to_vec();
    let mark = of_mark(record);
    let fields = match (number, mark) {
        (0, Some(mark)) => mark.payload,
        (1..=3, _) => &[Types],
        (4, _) => &LOC,
        _ => &[],
    };
    let end = out.len().saturating_sub(mark.map_or(0, |mark| mark.tail));
    blank(&mut out[..end], fields, params);
    out
}
