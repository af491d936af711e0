//! MJ at its edges (02, R-8): what is read, the answer buffer, the room of a log, the longest payload, and the worked records.
//! Each is lent, and run as a job.
use crate::{
    calls::{Calls, Lines},
    job::{put_pair, Job, Outcome},
    lender::{Answer, Lender},
    lent::{fresh, Lent},
    record::{hex, unhex, Kind, Record, Ty, TypingCase, MAX_PAIRS, VECTOR},
    text::assemble,
};

const ANSWER: usize = pongiwaru::MANY_ANSWER_BYTES;
const LINE: usize = pongiwaru::MANY_LINE_BYTES;
const OTHERS: usize = pongiwaru::ANSWER_BYTES;
const OTHERS_LINE: usize = pongiwaru::LINE_BYTES;

type Tried = Result<(), String>;

fn asm(text: &str) -> Vec<u8> {
    assemble(text, false).unwrap_or_else(|e| panic!("{}: {}", text, e))
}

fn bytes(digits: &str) -> Vec<u8> {
    unhex(digits).unwrap()
}

fn many(n: usize, pair: &str) -> String {
    "MJ ".to_string() + &vec![pair; n].join("; ")
}

//---- types of just so many bytes -----------------------------------------------------------------------------

/// sizes of at most eight parts that have so many bytes together
fn parts(rest: usize, most: usize) -> Option<Vec<usize>> {
    match (rest, most) {
        (0, _) => Some(vec![]),
        (_, 0) => None,
        _ => [5, 7, 10, 11, 13].into_iter().find_map(|n| {
            let mut all = parts(rest.checked_sub(n)?, most - 1)?;
            all.push(n);
            Some(all)
        }),
    }
}

/// A type of n bytes, from 17 on a list.
fn of_bytes(n: usize) -> Ty {
    let at = |kind| Ty { loc: 0, kind };
    let under = |t| at(Kind::Ref(false, Box::new(t)));
    let (unit, u8_) = (at(Kind::Unit), at(Kind::Builtin(0, 2, vec![])));
    match n {
        5 => unit,
        7 => u8_,
        10 => at(Kind::Param(7, 0)),
        11 => under(unit),
        13 => under(u8_),
        _ => {
            let (rest, eight) = (n - 7, (n - 7) / 8);
            let sizes = match rest {
                136.. => [vec![eight; 7], vec![rest - 7 * eight]].concat(),
                34.. => vec![rest / 2, rest - rest / 2],
                _ => parts(rest, 8).unwrap_or_else(|| panic!("no type of {} bytes", n)),
            };
            at(Kind::List(0, sizes.into_iter().map(of_bytes).collect()))
        }
    }
}

fn vector_of_bytes(n: usize) -> Ty {
    Ty { loc: 0, kind: Kind::Builtin(0, VECTOR, vec![of_bytes(n - 7)]) }
}

fn var(n: u16) -> Ty {
    Ty { loc: 0, kind: Kind::Var(n) }
}

/// an MJ of one pair, of so many bytes
fn of_length(n: usize) -> Vec<u8> {
    let pair = (TypingCase::Join, of_bytes(2000), of_bytes(n - 4 - 2000));
    Record::MJ(vec![pair]).bytes()
}

//---- one case ------------------------------------------------------------------------------------------------

/// The state after these records, each of them answered with 0.
fn after(calls: &dyn Calls, records: &[Vec<u8>]) -> Result<Lent, String> {
    let mut lender = Lender::new(calls, &fresh());
    for r in records {
        let answer = lender.record(r, pongiwaru::answer_bytes(r))?;
        if answer.number != 0 {
            return Err(format!("{}: {}", hex(r), answer.number));
        }
    }
    Ok(lender.lent())
}

fn records(text: &str) -> Vec<Vec<u8>> {
    text.lines().map(asm).collect()
}

struct Case<'a> {
    calls: &'a dyn Calls,
    start: Lent,
    tried: usize,
}

impl Case<'_> {
    /// a lent record's answer
    fn lent(&mut self, record: &[u8], room: usize, number: u32, payload: &[u8]) -> Result<Lent, String> {
        self.tried += 1;
        let mut lender = Lender::new(self.calls, &self.start);
        let answer = lender.record(record, room)?;
        match answer == (Answer { number, payload: payload.to_vec() }) {
            true => Ok(lender.lent()),
            false => Err(format!(
                "{} with {} bytes lent: {} {}, not {} {}",
                hex(record),
                room,
                answer.number,
                hex(&answer.payload),
                number,
                hex(payload)
            )),
        }
    }

    /// whether a job, lent so much of a log, takes the record, and with which line
    fn job(&mut self, stream: &[u8], room: usize, index: u64, line: Option<&str>) -> Tried {
        self.tried += 1;
        let mut lender = Lender::new(self.calls, &self.start);
        let (number, Lines { read, ended, .. }, log) = lender.job(stream, false, room, index)?;
        let wanted = line.map(|l| format!("{}\n", l)).unwrap_or_default();
        let waits = line.is_none() && read == 0 && !ended && lender.unchanged();
        match number == 0 && log == wanted.as_bytes() && (line.is_some() || waits) {
            true => Ok(()),
            false => Err(format!("{} with {} bytes of log: {}", hex(stream), room, String::from_utf8_lossy(&log))),
        }
    }

    /// so many nodes, where they are counted, and variables more than at the start
    fn took(&self, left: &Lent, nodes: u32, vars: u32) -> Tried {
        let [n, v] = [0, 2].map(|i| left.words[i].wrapping_sub(self.start.words[i]));
        match (n == nodes || !self.calls.counts()) && v == vars {
            true => Ok(()),
            false => Err(format!("{} nodes and {} variables taken, not {} and {}", n, v, nodes, vars)),
        }
    }

    /// .. lent with just enough and one byte less, and as a job likewise
    fn both(&mut self, record: &[u8], number: u32, payload: &[u8]) -> Result<Lent, String> {
        self.lent(record, ANSWER - 1, 15, &[])?;
        let text = if payload.is_empty() { String::new() } else { format!(" {}", hex(payload)) };
        self.job(record, LINE - 1, 0, None)?;
        self.job(record, LINE, 0, Some(&format!("0 {}{}", number, text)))?;
        self.lent(record, ANSWER, number, payload)
    }
}

//---- the edges -----------------------------------------------------------------------------------------------

/// count, pairs' bytes, bytes left over, names and doubled references: by place
fn read(case: &mut Case) -> Tried {
    let unit = many(1, "join (), ()");
    let pair = &asm(&unit)[3..];
    let told = |n: usize| vec![bytes("000500 0000000000"); n].concat();
    case.both(&asm("MJ"), 5, &[])?;
    case.both(b"MJ", 5, &[])?;
    case.both(&asm(&unit), 0, &told(1))?;
    case.both(&asm(&many(15, "join (), ()")), 0, &told(15))?;
    case.both(&asm(&many(16, "join (), ()")), 5, &[])?;
    case.both(&[b"MJ\x01\x02", &pair[1..]].concat(), 5, &[])?;
    case.both(&[b"MJ\x02", pair, b"\x02", &pair[1..]].concat(), 5, &[])?;
    case.lent(&[&asm(&unit)[..], b"\0"].concat(), ANSWER, 5, &[])?;
    case.both(&[b"MJ\x02", pair].concat(), 5, &[])?;
    case.both(&asm("MJ join V0, u8; join (), V1"), 6, &[])?;
    case.both(&asm("MJ join V0, u8; join (), &&u8; join (), V1"), 18, &[])?;
    case.both(&asm("MJ join V0, V1; join (), &&u8"), 6, &[])?;
    case.both(&of_length(4097), 5, &[])?;
    let longest = of_length(4096);
    case.both(&longest, 0, &by_core(&longest)).map(drop)
}

/// core.rs's payload, pair by pair
fn by_core(record: &[u8]) -> Vec<u8> {
    match Job::new().next(record).0 {
        Outcome::Core(0, payload) => payload,
        other => panic!("{}: {:?}", hex(record), other),
    }
}

/// the buffer and the log's room go by two bytes
fn room(case: &mut Case) -> Tried {
    let v1 = bytes("06 01000000 0100");
    let fv = asm("FV @1");
    case.lent(&fv, OTHERS, 0, &v1)?;
    case.lent(&fv, OTHERS - 1, 15, &[])?;
    for short in [&b"M"[..], b"", b"JM", b"M\0", b"J"] {
        case.lent(short, OTHERS, 5, &[])?;
        case.lent(short, OTHERS - 1, 15, &[])?;
    }
    case.lent(b"MJ", OTHERS, 15, &[])?;
    let line = format!("0 0 {}", hex(&v1));
    case.job(&fv, OTHERS_LINE, 0, Some(&line))?;
    case.job(&fv, OTHERS_LINE - 1, 0, None)?;
    case.job(b"M", OTHERS_LINE, 0, Some("0 5"))?;
    case.job(b"MJ", OTHERS_LINE, 0, None)?;
    // an MJ after another record waits, and then has its turn
    let both = [&fv[..], &asm("MJ join (), ()")].concat();
    case.job(&both, LINE, 0, Some(&line))?;
    case.job(&both, LINE + line.len() + 1, 0, Some(&format!("{}\n1 0 0005000000000000", line)))
}

/// all 15 pairs with 4,096 bytes each; one byte more is 14
fn longest(calls: &dyn Calls) -> Result<usize, String> {
    let bind = |v, t| Record::JN(var(v), t).bytes();
    let fv = vec![asm("FV"); 3];
    let binds = [bind(0, of_bytes(2048)), bind(1, vector_of_bytes(2048)), bind(2, vector_of_bytes(2049))];
    let mut case = Case { calls, start: after(calls, &[&fv[..], &binds].concat())?, tried: 0 };
    let (mut pair, mut refused) = (vec![], vec![]);
    put_pair(2, &[of_bytes(2048).bytes(), vector_of_bytes(2048).bytes()].concat(), &mut pair);
    put_pair(14, &[], &mut refused);
    if pair.len() != 3 + 4096 {
        return Err(format!("a pair of {} bytes", pair.len()));
    }
    let all = Record::MJ(vec![(TypingCase::Join, var(0), var(1)); MAX_PAIRS]).bytes();
    let payload = pair.repeat(MAX_PAIRS);
    let left = case.both(&all, 0, &payload)?;
    case.took(&left, 15 * 4, 15)?;
    // the last number that a record can have
    let index = u64::MAX - 1;
    case.job(&all, LINE, index, Some(&format!("{} 0 {}", index, hex(&payload))))?;
    let two =
        |other| Record::MJ(vec![(TypingCase::Join, var(0), var(other)), (TypingCase::Join, var(0), var(1))]).bytes();
    let left = case.both(&two(2), 0, &[refused, pair.clone()].concat())?;
    case.took(&left, 4 + 2, 1)?;
    Ok(case.tried)
}

/// 02's worked records (issue of R-8), over V0
fn worked(case: &mut Case) -> Tried {
    let (first, third) = ("000700 06020000000000", "000700 060a0000000200");
    let second = "011a00 01050000000003060000000002 01070000000103080000000002";
    let pairs = |middle: &str| asm(&format!("MJ join V0@2, u8@3; {}; join V0@9, u8@10", middle));
    let left = case.both(&pairs("subtype &@5 u8@6, &mut@7 u8@8"), 0, &bytes(&[first, second, third].concat()))?;
    case.took(&left, 11, 2)?;
    let marked = "u8{copy, drop, store}@5";
    let left = case.both(&pairs(&format!("join {}, u8@6", marked)), 0, &bytes(&[first, "0a0000", third].concat()))?;
    case.took(&left, 9, 2)?;
    // the second pair is refused once it has bound V0, and the third binds it
    let lists = format!("MJ join (V0@1, {})@2, (bool@3, u8@4)@5; join V0@6, u8@7", marked);
    let left = case.both(&asm(&lists), 0, &bytes("0a0000 000700 06060000000000"))?;
    let mut bound = Case { calls: case.calls, start: left, tried: 0 };
    bound.lent(&asm("UF V0@8"), OTHERS, 0, &bytes("03070000000002")).map(drop)
}

/// How many calls were made; or the first that is not answered as it must be.
pub fn edges(calls: &dyn Calls) -> Result<usize, String> {
    let mut case = Case { calls, start: after(calls, &records("FV @1"))?, tried: 0 };
    read(&mut case)?;
    room(&mut case)?;
    worked(&mut case)?;
    Ok(case.tried + longest(calls)?)
}
