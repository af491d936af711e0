//! A job made smaller while it still shows something: fewer records, then smaller types, then zero fields.
use crate::{
    record::{read_record, Kind, Record, Ty, TypingCase},
    text::any_variable,
};

/// The records of a stream, and what of it cannot be read.
fn parsed(stream: &[u8]) -> (Vec<Record>, Vec<u8>) {
    let (mut known, mut rest, mut out) = (any_variable(), stream, vec![]);
    while let Ok((r, n)) = read_record(rest, &known) {
        if let Record::SD(_, params) = &r {
            known.params.push(params.len())
        }
        out.push(r);
        rest = &rest[n..];
    }
    (out, rest.to_vec())
}

fn bytes(records: &[Record], tail: &[u8]) -> Vec<u8> {
    let mut out: Vec<u8> = records.iter().flat_map(Record::bytes).collect();
    out.extend(tail);
    out
}

/// The smallest stream found for which `shows` still holds; `shows(stream)` holds.
pub fn shrink(stream: &[u8], mut shows: impl FnMut(&[u8]) -> bool) -> Vec<u8> {
    let (mut records, mut tail) = parsed(stream);
    if !tail.is_empty() && shows(&bytes(&records, &[])) {
        tail.clear()
    }
    loop {
        let size = weight(&records);
        fresh_start(&mut records, &mut |r| shows(&bytes(r, &tail)));
        fewer(&mut records, &mut |r| shows(&bytes(r, &tail)));
        lighter(&mut records, &mut |r| shows(&bytes(r, &tail)));
        if weight(&records) >= size {
            return bytes(&records, &tail);
        }
    }
}

/// how many bytes, and their sum
fn weight(records: &[Record]) -> (usize, usize) {
    let b = bytes(records, &[]);
    (b.len(), b.iter().map(|b| *b as usize).sum())
}

//---- a shorter beginning -----------------------------------------------------------------------------------

/// The first records give way to as many fresh variables as the others name.
fn fresh_start(records: &mut Vec<Record>, shows: &mut dyn FnMut(&[Record]) -> bool) {
    for at in (1..records.len()).rev() {
        let mut rest = records[at..].to_vec();
        let mut named = vec![];
        rest.iter_mut().for_each(|r| variables(r, &mut |v| named.push(*v)));
        named.sort();
        named.dedup();
        let renumber = |v: &mut u16| *v = named.binary_search(v).unwrap() as u16;
        rest.iter_mut().for_each(|r| variables(r, &mut |v| renumber(v)));
        let made = [vec![Record::FV(0); named.len()], rest].concat();
        if weight(&made) < weight(records) && shows(&made) {
            *records = made;
            return;
        }
    }
}

/// each variable that a record names
fn variables(r: &mut Record, each: &mut dyn FnMut(&mut u16)) {
    fn go(t: &mut Ty, each: &mut dyn FnMut(&mut u16)) {
        match &mut t.kind {
            Kind::Var(v) => each(v),
            Kind::Ref(_, inner) => go(inner, each),
            Kind::Builtin(_, _, ts) | Kind::List(_, ts) | Kind::Struct(_, _, ts) => {
                ts.iter_mut().for_each(|t| go(t, each))
            }
            _ => (),
        }
    }
    match r {
        Record::SN(v, _) => each(v),
        Record::KP(listed) => listed.iter_mut().for_each(&mut *each),
        _ => (),
    }
    types_of(r).into_iter().for_each(|t| go(t, each))
}

//---- fewer records ---------------------------------------------------------------------------------------

fn fewer(records: &mut Vec<Record>, shows: &mut dyn FnMut(&[Record]) -> bool) {
    let mut chunk = records.len();
    while chunk > 0 {
        let mut at = 0;
        while at < records.len() {
            let end = records.len().min(at + chunk);
            let plain = [&records[..at], &records[end..]].concat();
            if shows(&plain) {
                *records = plain;
                continue;
            }
            match chunk == 1 {
                true => match renumbered(records, at).filter(|r| shows(r)) {
                    Some(r) => *records = r,
                    None => at += 1,
                },
                false => at += chunk,
            }
        }
        chunk /= 2
    }
}

/// Without a record that takes a variable or declares a struct, the later numbers one lower.
fn renumbered(records: &[Record], at: usize) -> Option<Vec<Record>> {
    let declares = |r: &Record| matches!(r, Record::SD(..));
    let takes = |r: &Record| matches!(r, Record::FV(_) | Record::NV(_) | Record::NL(..));
    let (of, is_struct): (fn(&Record) -> bool, bool) = match &records[at] {
        r if declares(r) => (declares, true),
        r if takes(r) => (takes, false),
        _ => return None,
    };
    let number = records[..at].iter().filter(|r| of(r)).count() as u16;
    let mut rest = [&records[..at], &records[at + 1..]].concat();
    for r in &mut rest[at..] {
        match is_struct {
            true => types_of(r).into_iter().for_each(|t| lower(t, number)),
            false => variables(r, &mut |v| *v -= (*v > number) as u16),
        }
    }
    Some(rest)
}

/// struct numbers above one, one lower
fn lower(t: &mut Ty, above: u16) {
    match &mut t.kind {
        Kind::Struct(_, s, ts) => {
            *s -= (*s > above) as u16;
            ts.iter_mut().for_each(|t| lower(t, above))
        }
        Kind::Ref(_, inner) => lower(inner, above),
        Kind::Builtin(_, _, ts) | Kind::List(_, ts) => ts.iter_mut().for_each(|t| lower(t, above)),
        _ => (),
    }
}

fn types_of(r: &mut Record) -> Vec<&mut Ty> {
    match r {
        Record::JN(a, b) | Record::SU(a, b) | Record::JL(a, b) => vec![a, b],
        Record::MJ(pairs) => pairs.iter_mut().flat_map(|(_, a, b)| [a, b]).collect(),
        Record::TS(args, t) => args.iter_mut().map(|(_, t)| t).chain([t]).collect(),
        Record::UF(t) | Record::RD(t) | Record::CN(t) | Record::IN(t) => vec![t],
        Record::RM(t) | Record::XP(t) | Record::UL(t) => vec![t],
        Record::NC(_, _, t) | Record::BC(_, t) | Record::SC(_, t) => vec![t],
        _ => vec![],
    }
}

//---- lighter records ---------------------------------------------------------------------------------------

fn lighter(records: &mut Vec<Record>, shows: &mut dyn FnMut(&[Record]) -> bool) {
    for i in 0..records.len() {
        while let Some(r) = lighter_records(&records[i]).into_iter().find(|r| {
            let mut other = records.clone();
            other[i] = r.clone();
            weight(&other) < weight(records) && shows(&other)
        }) {
            records[i] = r
        }
    }
}

fn lighter_records(r: &Record) -> Vec<Record> {
    let mut out = vec![];
    let mut plain = r.clone();
    match &mut plain {
        Record::FV(l) | Record::NV(l) | Record::SN(_, l) | Record::BC(l, _) | Record::SC(l, _) => *l = 0,
        Record::NC(l, k, _) => (*l, *k) = (0, 0),
        Record::NL(l, bits) => (*l, *bits) = (0, 1),
        Record::MJ(pairs) => pairs.iter_mut().for_each(|(case, ..)| *case = TypingCase::Join),
        Record::SD(a, params) => {
            *a = 0;
            params.iter_mut().for_each(|p| *p = 0)
        }
        _ => (),
    }
    out.push(plain);
    if let Record::TS(args, t) = r {
        out.extend((0..args.len()).map(|i| Record::TS([&args[..i], &args[i + 1..]].concat(), t.clone())))
    }
    if let Record::MJ(pairs) = r {
        if pairs.len() > 1 {
            out.extend((0..pairs.len()).map(|i| Record::MJ([&pairs[..i], &pairs[i + 1..]].concat())))
        }
        out.extend(pairs.iter().map(|(case, a, b)| case.record(a.clone(), b.clone())))
    }
    if let Record::KP(listed) = r {
        out.extend((0..listed.len()).map(|i| Record::KP([&listed[..i], &listed[i + 1..]].concat())));
        out.extend((0..listed.len()).map(|i| Record::KP([&listed[..i], &[0], &listed[i + 1..]].concat())))
    }
    let count = types_of(&mut r.clone()).len();
    for k in 0..count {
        let t = types_of(&mut r.clone())[k].clone();
        for s in smaller(&t) {
            let mut other = r.clone();
            *types_of(&mut other)[k] = s;
            out.push(other)
        }
    }
    out
}

/// one step simpler: a part in its place, `()`, no location, no mark, one element less, or a simpler part
fn smaller(t: &Ty) -> Vec<Ty> {
    let at = |kind: Kind| Ty { loc: t.loc, kind };
    let mut out: Vec<Ty> = t.parts().to_vec();
    out.extend([Kind::Unit, Kind::Anything].map(|kind| Ty { loc: 0, kind }));
    out.push(Ty { loc: 0, kind: t.kind.clone() });
    let without = |ts: &[Ty], i: usize| [&ts[..i], &ts[i + 1..]].concat();
    let with = |ts: &[Ty], i: usize, p: Ty| {
        let mut ts = ts.to_vec();
        ts[i] = p;
        ts
    };
    let changed = |ts: &[Ty]| -> Vec<Vec<Ty>> {
        (0..ts.len())
            .flat_map(|i| smaller(&ts[i]).into_iter().map(move |p| (i, p)))
            .map(|(i, p)| with(ts, i, p))
            .collect()
    };
    match &t.kind {
        Kind::Ref(m, inner) => {
            out.extend(smaller(inner).into_iter().map(|p| at(Kind::Ref(*m, Box::new(p)))));
            out.push(at(Kind::Ref(false, inner.clone())))
        }
        Kind::Param(id, _) => out.push(at(Kind::Param(*id, 0))),
        Kind::Builtin(m, n, ts) => {
            out.push(at(Kind::Builtin(0, *n, ts.clone())));
            out.extend(changed(ts).into_iter().map(|ts| at(Kind::Builtin(*m, *n, ts))))
        }
        Kind::List(m, ts) => {
            out.push(at(Kind::List(0, ts.clone())));
            out.extend((0..ts.len()).map(|i| at(Kind::List(*m, without(ts, i)))));
            out.extend(changed(ts).into_iter().map(|ts| at(Kind::List(*m, ts))))
        }
        Kind::Struct(m, n, ts) => {
            out.push(at(Kind::Struct(0, *n, ts.clone())));
            out.extend(changed(ts).into_iter().map(|ts| at(Kind::Struct(*m, *n, ts))))
        }
        _ => (),
    }
    out
}
