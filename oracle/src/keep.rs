//! KP at its edges (02, R-11), and on states that no job has: shared places, gaps, circles, doubled references, marks anywhere.
//! Each is held to the driver's clearing of trees, and where rows are counted, word for word to `lent`'s clearing.
use crate::{
    calls::{job_of, Calls, Lines},
    compare::{after_clearing, same_state},
    gen::Chance,
    job::{put_stay, Outcome},
    lender::Lender,
    lent::{fresh, sound, Lent, LIMITS, MAX_CONSTRAINTS, MAX_NODES, MAX_PLACES, MAX_VARS},
    record::{hex, read_record, Known, Record},
    text::assemble,
};

const ANSWER: usize = pongiwaru::ANSWER_BYTES;
const LINE: usize = pongiwaru::LINE_BYTES;
/// the most that a record lists
const MOST: usize = 255;

type Tried = Result<(), String>;

fn asm(text: &str) -> Vec<u8> {
    assemble(text, false).unwrap_or_else(|e| panic!("{}: {}", text, e))
}

fn kp(listed: &[u16]) -> Vec<u8> {
    Record::KP(listed.to_vec()).bytes()
}

struct Case<'a> {
    calls: &'a dyn Calls,
    start: Lent,
    tried: usize,
}

impl Case<'_> {
    fn on(calls: &dyn Calls, start: Lent) -> Case<'_> {
        Case { calls, start, tried: 0 }
    }

    /// One record's answer and the state that it leaves, lent; as a job it has the same line and leaves the same.
    fn both(&mut self, record: &[u8]) -> Result<(u32, Vec<u8>, Lent), String> {
        self.tried += 2;
        let mut lender = Lender::new(self.calls, &self.start);
        let answer = lender.record(record, ANSWER)?;
        let left = lender.lent();
        lender.lend(&self.start);
        let (number, Lines { .. }, log) = lender.job(record, false, LINE, 0)?;
        let payload = if answer.payload.is_empty() { String::new() } else { format!(" {}", hex(&answer.payload)) };
        let line = format!("0 {}{}\n", answer.number, payload);
        match number == 0 && log == line.as_bytes() && lender.lent() == left {
            true => Ok((answer.number, answer.payload, left)),
            false => Err(format!("{}: lent {}as a job {}", hex(record), line, String::from_utf8_lossy(&log))),
        }
    }

    /// a record with this answer
    fn wants(&mut self, record: &[u8], number: u32, payload: &[u8]) -> Result<Lent, String> {
        let (n, shown, left) = self.both(record)?;
        match (n, &shown[..]) == (number, payload) {
            true => Ok(left),
            false => Err(format!("{}: {} {}, not {} {}", hex(record), n, hex(&shown), number, hex(payload))),
        }
    }

    /// a KP by the driver, which sees trees, and by the words
    fn keeps(&mut self, listed: &[u16]) -> Result<Lent, String> {
        let mut job = job_of(self.start.view());
        let Outcome::Core(0, wanted) = job.record(&Record::KP(listed.to_vec())) else {
            panic!("no state of core.rs's")
        };
        let left = self.wants(&kp(listed), 0, &wanted)?;
        let mut lender = Lender::new(self.calls, &self.start);
        lender.record(&kp(listed), ANSWER)?;
        same_state(&lender, &job, Some(&Record::KP(listed.to_vec())))?;
        Ok(left)
    }

    /// .. where a tree would be too large: by the words alone
    fn keeps_words(&mut self, listed: &[u16]) -> Result<Lent, String> {
        let wanted = self.start.view().cleared(listed);
        let mut payload = vec![];
        put_stay(&wanted.stay, &mut payload);
        let left = self.wants(&kp(listed), 0, &payload)?;
        let mut lender = Lender::new(self.calls, &self.start);
        lender.record(&kp(listed), ANSWER)?;
        after_clearing(&lender, listed)?;
        Ok(left)
    }

    /// a state of the rows that are kept, as many as told
    fn rows(&self, left: &Lent, wanted: [usize; 3]) -> Tried {
        let rows = [0, 1, 2].map(|i| left.words[i] as usize);
        match !self.calls.counts() || rows == wanted {
            true => Ok(()),
            false => Err(format!("{:?} nodes, places and variables, not {:?}", rows, wanted)),
        }
    }
}

//---- what is read ------------------------------------------------------------------------------------------------

fn vars(n: usize) -> Lent {
    let mut s = fresh();
    (0..n).for_each(|_| assert!(s.add_var().is_some()));
    s
}

/// count, numbers, bytes left over: by place
fn read(calls: &dyn Calls) -> Result<usize, String> {
    let mut case = Case::on(calls, vars(5));
    let twice = |v: u16| v.to_le_bytes().repeat(2);
    for cut in [&b"KP"[..], b"K", b"KP\x01", b"KP\x01\0", b"KP\x02\x04\0", b"KP\x02\x04\0\x09"] {
        case.wants(cut, 5, &[])?;
    }
    for over in [&b"KP\0\0"[..], b"KP\x01\0\0\0"] {
        case.wants_lent(over, 5)?
    }
    for (record, number) in
        [(&b"KP\x01\x05\0"[..], 6), (b"KP\x02\x04\0\x05\0", 6), (b"KP\x02\x05\0", 6), (b"KP\x01\x04\x01", 6)]
    {
        case.wants(record, number, &[])?;
    }
    let all: Vec<u16> = (0..MOST as u16).map(|i| i % 5).collect();
    case.keeps(&all)?;
    case.keeps(&[])?;
    case.wants(&kp(&[4; MOST]), 0, &[&[4, 0], &twice(0)[..2]].concat())?;
    // 6 at the last of 255, 5 where that is cut
    let mut last = vec![4; MOST - 1];
    last.push(5);
    case.wants(&kp(&last), 6, &[])?;
    case.wants(&kp(&last)[..2 + 1 + 2 * MOST - 1], 5, &[])?;
    Ok(case.tried)
}

impl Case<'_> {
    /// bytes left over, which a job would read on
    fn wants_lent(&mut self, record: &[u8], number: u32) -> Tried {
        self.tried += 1;
        let answer = Lender::new(self.calls, &self.start).record(record, ANSWER)?;
        match answer.number == number {
            true => Ok(()),
            false => Err(format!("{}: {}, not {}", hex(record), answer.number, number)),
        }
    }
}

//---- 02's worked values (issue of R-11) -------------------------------------------------------------------------------

impl Case<'_> {
    /// the state that a whole job leaves, whose log ends so
    fn job(&mut self, text: &str, wanted: &[&str]) -> Result<Lent, String> {
        self.tried += 1;
        let mut lender = Lender::new(self.calls, &self.start);
        let (_, _, log) = lender.job(&asm(text), false, 1 << 20, 0)?;
        let log = String::from_utf8_lossy(&log).into_owned();
        let lines: Vec<_> = log.lines().map(|l| l.split_once(' ').unwrap().1).collect();
        match lines.ends_with(wanted) {
            true => Ok(lender.lent()),
            false => Err(format!("{}\ngives {}", text, log)),
        }
    }
}

fn worked(calls: &dyn Calls) -> Result<usize, String> {
    let mut case = Case::on(calls, fresh());
    let first = "FV @1\nFV @2\nFV @3\nNV @4\nJN V2@5, vector<V3@6>@7\nJN V1@8, u8@9\nKP V2";
    let left = case.job(first, &["0 0200000003000100"])?;
    case.rows(&left, [2, 1, 2])?;
    let read = format!("{}\nRD V0@10\nFV@11", first);
    case.job(&read, &["0 0200000003000100", "0 0307000000000506060000000100", "0 060b0000000200"])?;
    let second = "FV @1\nFV @2\nFV @3\nJN V1@4, vector<V2@6>@5\nBC @7 (V1@9,)@8\nKP";
    let left = case.job(second, &["0 0100000002000100"])?;
    case.rows(&left, [4, 2, 2])?;
    if calls.counts() && left.view().constraint(0)[2] != 3 {
        return Err("the constraint holds another node".into());
    }
    case.job("FV@1\nJN V0@2, u8@3\nKP\nFV@4\nUF V0@5", &["0", "0 06040000000000", "0 0705000000"])?;
    let circle = "FV\nFV\nJN V0, vector<V1>\nJN V1, vector<V0>\nKP V1\nRD V0";
    case.job(circle, &["0 0000000001000100", "9"])?;
    // a job's first record, and twice in a row: the second keeps all under their numbers
    case.job("KP\nKP\nFV", &["0", "0", "0 06000000000000"])?;
    case.job(&format!("{}\nKP V0", first), &["0 0200000003000100", "0 0000000001000100"])?;
    // 2 puts back what stood after KP, and not what stood before it
    let bound = "FV\nFV\nJN V1, u8\nKP V1\nJN V0, bool\nUF V0";
    case.job(bound, &["0 01000000", "2 0300000000000203000000000006", "0 03000000000002"])?;
    let open = "FV\nFV\nKP V1\nJN (V0, u8), (bool, bool)\nUF V0\nFV";
    case.job(open, &["2 0300000000000203000000000006", "0 0700000000", "0 06000000000100"])?;
    Ok(case.tried)
}

/// .. and lent
fn put_back(calls: &dyn Calls) -> Result<usize, String> {
    let mut s = vars(2);
    let u8_ = s.add_node(3, 0, 0, 2, &[]).unwrap();
    s.bind(1, u8_);
    let mut case = Case::on(calls, s);
    case.start = case.keeps(&[1])?;
    let shown = [asm("UF u8")[2..].to_vec(), asm("UF bool")[2..].to_vec()].concat();
    case.start = case.wants(&asm("JN V0, bool"), 2, &shown)?;
    case.wants(&asm("UF V0"), 0, &asm("UF u8")[2..])?;
    Ok(case.tried)
}

//---- tables that are full --------------------------------------------------------------------------------------------

/// V0 is a list of eight `()`, and all rows of the tables but the structs' are taken; V1023 holds the last node.
fn full() -> Lent {
    let mut s = vars(MAX_VARS);
    let unit = s.add_node(0, 1, 0, 0, &[]).unwrap();
    (0..MAX_PLACES).for_each(|_| assert!(s.add_place(unit).is_some()));
    let list = s.add_list(4088).unwrap();
    s.bind(0, list);
    while s.view().nodes() < MAX_NODES - 1 {
        s.add_node(0, 2, 0, 0, &[]);
    }
    let last = s.add_node(6, 3, 5, 0, &[]).unwrap();
    s.bind(1023, last);
    s
}

/// Variables that stand in a ring of lists, each through the next eight: all stay by one.
fn ring() -> Lent {
    let mut s = vars(MAX_VARS);
    for v in 0..MAX_VARS {
        let next = s.add_node(6, 0, ((v + 1) % MAX_VARS) as u32, 0, &[]).unwrap();
        let list = s.add_node(4, 0, 0, 1, &[next]).unwrap();
        s.bind(v, list)
    }
    s
}

/// All are kept, 4,096 bytes, or none; and each table is filled again.
fn tables(calls: &dyn Calls) -> Result<usize, String> {
    let mut case = Case::on(calls, ring());
    let left = case.keeps(&[700])?;
    case.rows(&left, [MAX_NODES, MAX_VARS, MAX_VARS])?;
    if left.words != case.start.words && calls.counts() {
        return Err("all is kept, and something is another".into());
    }
    case.wants(&asm("FV"), 7, &[])?;
    case.wants(
        &asm("UF V0"),
        if calls.counts() { 7 } else { 0 },
        &if calls.counts() { vec![] } else { asm("UF (V1,)")[2..].to_vec() },
    )?;
    let mut full = Case::on(calls, full());
    let none = full.keeps_words(&[])?;
    full.rows(&none, [0, 0, 0])?;
    let left = full.keeps_words(&[0, 1023])?;
    full.rows(&left, [3, 8, 3])?;
    full.keeps_words(&[0])?;
    Ok(case.tried + full.tried + filled(calls, &none)? + filled(calls, &left)?)
}

/// A state whose nodes, variables and constraints are filled by records until they are 7, and cleared.
fn filled(calls: &dyn Calls, start: &Lent) -> Result<usize, String> {
    let mut tried = 0;
    for (record, table) in [("JN (), ()", 0), ("FV", 2), ("BC ()", 3)] {
        if !calls.counts() && table == 0 {
            continue;
        }
        let (mut lender, bytes) = (Lender::new(calls, start), asm(record));
        let mut taken = 0;
        while lender.record(&bytes, ANSWER)?.number == 0 {
            taken += 1
        }
        let width = if table == 0 { 2 } else { 1 };
        let room = LIMITS[table] - start.words[table] as usize;
        if taken != room / width {
            return Err(format!("{} fits {} times, and {} are left", record, taken, room));
        }
        let mut case = Case::on(calls, lender.lent());
        let cleared = case.keeps_words(&[])?;
        let constraints = if table == 3 { MAX_CONSTRAINTS } else { 0 };
        if cleared.words[3] as usize != constraints {
            return Err("KP changes the list of constraints".into());
        }
        tried += taken + case.tried
    }
    Ok(tried)
}

//---- states that no job has --------------------------------------------------------------------------------------------

/// A sound state by chance. Its nodes share places, some of which nobody has; variables are bound to any node, in circles too,
/// and marked wherever it may be; references stand under references.
pub fn scattered(seed: u64, i: u64) -> Lent {
    let mut chance = Chance::new(seed ^ 0x7363_6174, i);
    let many = chance.one(&[3, 8, 20]);
    let mut s = vars(1 + chance.below(many));
    s.declare(&(7, vec![0, 16]));
    for _ in 0..chance.below(4 * many) {
        node(&mut s, &mut chance);
    }
    for v in 0..s.view().vars() {
        bind(&mut s, v, &mut chance)
    }
    for _ in 0..chance.one(&[0, 0, 1, 3]) {
        if s.view().nodes() > 0 {
            let (kind, at) = (chance.below(6) as u32, chance.below(s.view().nodes()));
            s.add_constraint(kind, chance.below(9) as u32, at, if kind == 0 { chance.below(16) as u8 } else { 0 });
        }
    }
    s
}

/// one node more, of any kind; of lists half have places that others have
fn node(s: &mut Lent, chance: &mut Chance) {
    let (n, loc) = (s.view().nodes(), chance.below(9) as u32);
    let mark = chance.one(&[0, 0, 0, 16, 23]);
    match chance.below(10) {
        0..=2 => drop(s.add_node(6, loc, chance.below(s.view().vars()) as u32, 0, &[])),
        3 => drop(s.add_node(chance.one(&[0, 8]), loc, 0, 0, &[])),
        4 => drop(s.add_node(3, loc, chance.one(&[0, 23]), chance.one(&[2, 3]), &[])),
        5 if n > 0 => drop(s.add_node(1, loc, chance.below(2) as u32, chance.below(n) as u32, &[])),
        6 if n > 0 => drop(s.add_node(3, loc, mark, 5, &[chance.below(n)])),
        7 if n > 0 => drop(s.add_node(5, loc, mark, 0, &[chance.below(n), chance.below(n)])),
        _ => list(s, mark, loc, chance),
    }
    // a place that nobody has, yet
    if n > 0 && chance.percent(15) {
        s.add_place(chance.below(n));
    }
}

fn list(s: &mut Lent, mark: u32, loc: u32, chance: &mut Chance) {
    let (n, places) = (s.view().nodes(), s.view().places());
    let many = chance.below(if n == 0 { 1 } else { 4 });
    if chance.percent(50) && places >= many {
        s.add_shared(loc, mark, chance.below(places - many + 1), many);
    } else {
        let parts: Vec<_> = (0..many).map(|_| chance.below(n)).collect();
        s.add_node(4, loc, mark, many as u32, &parts);
    }
}

/// a binding and a mark, where the state stays sound
fn bind(s: &mut Lent, v: usize, chance: &mut Chance) {
    let before = s.clone();
    if s.view().nodes() > 0 && chance.percent(70) {
        s.bind(v, chance.below(s.view().nodes()));
        if sound(&s.words, &s.params).is_err() {
            *s = before
        }
    }
    if chance.percent(40) {
        s.set_mark(v, chance.below(9) as u32);
        s.set_need(v, chance.one(&[0, 0, 1, 9, 64, 65, 256]))
    }
}

/// some of so many variables
fn some(vars: usize, chance: &mut Chance) -> Vec<u16> {
    let n = chance.one(&[0, 1, 1, 2, 3]);
    (0..n).map(|_| chance.below(vars) as u16).collect()
}

/// KP of some variables on `count` such states, what it leaves read by RD, and KP of some of the survivors.
pub fn states(calls: &dyn Calls, seed: u64, count: u64) -> Result<usize, String> {
    let mut tried = 0;
    for i in 0..count {
        let (start, mut chance) = (scattered(seed, i), Chance::new(seed ^ 0x6b65_6570, i));
        assert_eq!(sound(&start.words, &start.params), Ok(()), "state {}", i);
        let told = |e| format!("state {}: {}", i, e);
        let mut case = Case::on(calls, start);
        for _ in 0..3 {
            let listed = some(case.start.view().vars(), &mut chance);
            case.start = case.keeps(&listed).map_err(told)?;
            if case.start.view().vars() == 0 {
                break;
            }
            case.reads().map_err(told)?
        }
        tried += case.tried
    }
    Ok(tried)
}

impl Case<'_> {
    /// RD of each variable, as core.rs reads it
    fn reads(&mut self) -> Tried {
        let known = Known { vars: self.start.view().vars(), params: vec![2] };
        for v in 0..known.vars {
            let record = asm(&format!("RD V{}", v));
            let (r, _) = read_record(&record, &known).unwrap();
            match job_of(self.start.view()).record(&r) {
                Outcome::Core(n, payload) => drop(self.wants(&record, n as u32, &payload)?),
                Outcome::Refused(n, _) => drop(self.wants(&record, n as u32, &[])?),
                Outcome::Silent(_) => (),
            }
        }
        Ok(())
    }
}

/// How many calls were made; or the first that is not answered as it must be.
pub fn edges(calls: &dyn Calls) -> Result<usize, String> {
    Ok(read(calls)? + worked(calls)? + put_back(calls)? + tables(calls)?)
}

pub fn all(calls: &dyn Calls, seed: u64, count: u64) -> Result<usize, String> {
    Ok(edges(calls)? + states(calls, seed, count)?)
}
