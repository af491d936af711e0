//! States on which a walk written word for word would not end in practice: types with more parts than any machine
//! counts, as deep as the tables allow, or running into themselves. Lent, and every record tried on each.
use crate::{
    calls::{answer_bytes, line_bytes, Calls, CHECKED, MIN_ANSWER},
    compare::pairs_shown,
    lender::{Answer, Lender},
    lent::{fresh, sound, Lent, MAX_NODES, MAX_VARS},
    record::{read_record, Record, MAX_PAIRS},
    text::{any_variable, assemble},
};
use std::{
    collections::{BTreeMap, BTreeSet, VecDeque},
    time::Instant,
};

/// seconds that a call may take, of an MJ for each pair: several times the slowest one's, since others may be at work on the
/// machine
pub const LIMIT: f64 = 0.2;
/// the stack that every call fits, this caller's part of it included
pub const STACK: usize = 768 << 10;

pub struct Line {
    pub state: &'static str,
    pub record: String,
    pub number: u32,
    pub payload: usize,
    /// of MJ the numbers of its pairs
    pub pairs: Vec<u8>,
    /// the best of three
    pub seconds: f64,
    /// bytes of stack that the record took, lent and as a job, from the caller's frame on
    pub stack: [usize; 2],
}

impl Line {
    pub fn text(&self) -> String {
        let (n, ms) = (self.number, self.seconds * 1000.0);
        let [lent, job] = self.stack;
        let answer = format!("{:<8} {:<34} {:>2}, {:>4} bytes, {:.3} ms", self.state, self.record, n, self.payload, ms);
        format!("{}{}, stack {} and {}", answer, self.of_pairs(), lent, job)
    }

    fn of_pairs(&self) -> String {
        let mut counts = BTreeMap::new();
        self.pairs.iter().for_each(|n| *counts.entry(n).or_insert(0) += 1);
        let told: Vec<_> = counts.iter().map(|(n, count)| format!("{}: {}", n, count)).collect();
        if told.is_empty() {
            String::new()
        } else {
            format!(", pairs {}", told.join(", "))
        }
    }

    fn is_many(&self) -> bool {
        self.record.starts_with("MJ")
    }

    /// whether the call took longer than one may
    pub fn slow(&self) -> bool {
        self.seconds >= LIMIT * self.pairs.len().max(1) as f64
    }
}

//---- states ------------------------------------------------------------------------------------------------

const LEVELS: usize = 200;

/// node k + 1 lists node k eight times
fn rungs(s: &mut Lent, bottom: usize, levels: usize) -> usize {
    (0..levels).fold(bottom, |below, k| s.add_node(4, k as u32, 0, 8, &[below; 8]).unwrap())
}

/// V0 and V2 are ladders, on V1 and on u8; V3 is numeric, V4 to V7 open
fn ladder() -> Lent {
    let mut s = fresh();
    (0..8).for_each(|_| assert!(s.add_var().is_some()));
    let v1 = s.add_node(6, 1, 1, 0, &[]).unwrap();
    let first = rungs(&mut s, v1, LEVELS);
    let u8_ = s.add_node(3, 2, 0, 2, &[]).unwrap();
    let second = rungs(&mut s, u8_, LEVELS);
    (s.bind(0, first), s.bind(2, second), s.set_mark(3, 3));
    s
}

/// V0 is a list of seven ladders on a signer, which has drop alone, and of what is last
fn leaning(last: impl Fn(&mut Lent) -> usize) -> Lent {
    let mut s = fresh();
    (0..8).for_each(|_| assert!(s.add_var().is_some()));
    let signer = s.add_node(3, 2, 0, 1, &[]).unwrap();
    let ladder = rungs(&mut s, signer, LEVELS);
    let last = last(&mut s);
    let top = s.add_node(4, 3, 0, 8, &[ladder, ladder, ladder, ladder, ladder, ladder, ladder, last]).unwrap();
    s.bind(0, top);
    s
}

/// .. a list with an ability mark at the bottom of a ladder, for XP
fn marked_ladder(s: &mut Lent) -> usize {
    let u8_ = s.add_node(3, 2, 0, 2, &[]).unwrap();
    let marked = s.add_node(4, 3, 16, 1, &[u8_]).unwrap();
    let first = s.add_node(4, 4, 0, 8, &[u8_, u8_, u8_, u8_, u8_, u8_, u8_, marked]).unwrap();
    rungs(s, first, LEVELS)
}

/// V0 is that ladder, V2 a list of it and of what has no mark
fn marked() -> Lent {
    let mut s = fresh();
    (0..8).for_each(|_| assert!(s.add_var().is_some()));
    let top = marked_ladder(&mut s);
    let u8_ = s.add_node(3, 2, 0, 2, &[]).unwrap();
    let list = s.add_node(4, 5, 0, 2, &[u8_, top]).unwrap();
    (s.bind(0, top), s.bind(2, list));
    s
}

/// .. a circle of two vectors, which a walk from left to right comes to last
fn far_right(s: &mut Lent) -> usize {
    let vars = [1, 2].map(|v| s.add_node(6, 4, v, 0, &[]).unwrap());
    for (v, part) in [(1, vars[1]), (2, vars[0])] {
        let vector = s.add_node(3, 5, 0, 5, &[part]).unwrap();
        s.bind(v, vector)
    }
    vars[0]
}

/// V0 and V2 are vectors as deep as the nodes allow, on V1 and on u8
fn deep() -> Lent {
    let mut s = fresh();
    (0..8).for_each(|_| assert!(s.add_var().is_some()));
    let levels = MAX_NODES / 2 - 20;
    for (v, bottom) in [(0, s.add_node(6, 1, 1, 0, &[])), (2, s.add_node(3, 2, 0, 2, &[]))] {
        let top = (0..levels).fold(bottom.unwrap(), |below, k| s.add_node(3, k as u32, 0, 5, &[below]).unwrap());
        s.bind(v, top)
    }
    s.set_mark(3, 3);
    s
}

/// V0 is a type with all nodes but the spare ones, V2 what is 253 levels above its end V1. With one spare RD goes down all of it;
/// with four a join of the two goes down 254 calls, and then looks for V1 in all that is left of V0; with 128 so does each of 15
/// pairs.
fn deepest(reference: bool, spare: usize) -> Lent {
    let mut s = fresh();
    (0..8).for_each(|_| assert!(s.add_var().is_some()));
    let mut top = s.add_node(6, 1, 1, 0, &[]).unwrap();
    for level in 1..MAX_NODES - spare {
        let next = if reference { s.add_node(1, 0, 1, top as u32, &[]) } else { s.add_node(4, 0, 0, 1, &[top]) };
        top = next.unwrap();
        if level == 253 {
            s.bind(2, top)
        }
    }
    s.bind(0, top);
    s
}

/// V0 is a list of a variable that is a list of a variable, and so on, through all variables
fn turns() -> Lent {
    let mut s = fresh();
    (0..MAX_VARS).for_each(|_| assert!(s.add_var().is_some()));
    let mut below = s.add_node(6, 1, 1, 0, &[]).unwrap();
    for v in 8..MAX_VARS {
        s.bind(v, below);
        let variable = s.add_node(6, 0, v as u32, 0, &[]).unwrap();
        below = s.add_node(4, 0, 0, 1, &[variable]).unwrap()
    }
    s.bind(0, below);
    s
}

/// The stream of 62 records: V0 to V30, each but the last a list of eight of the next.
fn tower(calls: &dyn Calls, closed: bool) -> Lent {
    let list = |n: usize| format!("({})", vec![format!("V{}", n); 8].join(", "));
    let joins: Vec<_> = (0..30).map(|i| format!("JN V{}, {}\n", i, list(i + 1))).collect();
    let last = if closed { format!("JN V30, {}", list(0)) } else { "JN V30, (u8, u8, u8, u8, u8, u8, u8, u8)".into() };
    let stream = assemble(&("FV\n".repeat(31) + &joins.concat() + &last), true).unwrap();
    let mut lender = Lender::new(calls, &fresh());
    let (number, lines, _) = lender.job(&stream, false, 1 << 20, 0).unwrap();
    assert_eq!((number, lines.index), (0, 62));
    lender.lent()
}

/// V0 and V1 are such towers, V0 on V2 and so on, V1 on V3
fn towers(calls: &dyn Calls) -> Lent {
    let list = |part: &str| format!("({})", [part; 8].join(", "));
    let part = |v: usize| if v < 58 { format!("V{}", v + 2) } else { "u8".into() };
    let joins: String = (0..60).map(|v| format!("JN V{}, {}\n", v, list(&part(v)))).collect();
    let stream = assemble(&("FV\n".repeat(60) + &joins), true).unwrap();
    let mut lender = Lender::new(calls, &fresh());
    let (number, lines, _) = lender.job(&stream, false, 1 << 20, 0).unwrap();
    assert_eq!((number, lines.index), (0, 120));
    lender.lent()
}

/// how many links V8's chain has in `linked`
pub const LINKED: usize = 480;

/// V8 is bound to V9, V9 to V10 and so on. V0 is a list of lists of eight, three deep, whose ends are all V8; V2 such a list
/// of V9. Their join merges each of 512 ends, and the chain is a link longer each time.
pub fn linked() -> Lent {
    let mut s = fresh();
    (0..LINKED + 9).for_each(|_| assert!(s.add_var().is_some()));
    for v in 8..LINKED + 8 {
        let next = s.add_node(6, 0, v as u32 + 1, 0, &[]).unwrap();
        s.bind(v, next)
    }
    let unit = s.add_node(0, 0, 0, 0, &[]).unwrap();
    s.bind(LINKED + 8, unit);
    for (v, end) in [(0, 8), (2, 9)] {
        let end = s.add_node(6, 0, end, 0, &[]).unwrap();
        let top = rungs(&mut s, end, 3);
        s.bind(v, top)
    }
    s
}

/// V0 is bound to V2, V2 to V4 and so on, V1 to V3 and so on: two chains through all variables
fn chains() -> Lent {
    let mut s = fresh();
    (0..1000).for_each(|_| assert!(s.add_var().is_some()));
    for v in 0..998 {
        let next = s.add_node(6, 0, v + 2, 0, &[]).unwrap();
        s.bind(v as usize, next)
    }
    s.set_mark(999, 4);
    s
}

/// V0 is bound to V1, V1 to V2 and so on, and the last to a signer
fn chain() -> Lent {
    let mut s = fresh();
    (0..1000).for_each(|_| assert!(s.add_var().is_some()));
    for v in 0..1000 {
        let next = if v < 999 { s.add_node(6, 0, v + 1, 0, &[]) } else { s.add_node(3, 0, 0, 1, &[]) };
        s.bind(v as usize, next.unwrap())
    }
    s
}

/// V0 is the last of as many lists as there can be, each of the eight types before it: all have places of others
fn dense() -> Lent {
    let mut s = fresh();
    (0..8).for_each(|_| assert!(s.add_var().is_some()));
    for k in 0..MAX_NODES {
        let node = if k < 8 { s.add_node(6, 1, k as u32, 0, &[]) } else { s.add_list(k - 8) };
        s.add_place(node.unwrap()).unwrap();
    }
    s.bind(0, MAX_NODES - 1);
    s.bind(2, MAX_NODES / 2);
    s
}

/// V0 is a tree of lists with 792 open variables as its leaves, V2 a list of eight lists, each of the eight types before it.
/// A join binds each variable to one of the last of these lists, and looks for it in all that are before.
fn crossed() -> Lent {
    let mut s = fresh();
    (0..800).for_each(|_| assert!(s.add_var().is_some()));
    for k in 0..1018 {
        let node = if k < 8 { s.add_node(3, 1, 0, 2, &[]) } else { s.add_list(k - 8) };
        s.add_place(node.unwrap()).unwrap();
    }
    s.bind(2, 1017);
    let mut trees: VecDeque<_> = (8..800).map(|v| s.add_node(6, 1, v, 0, &[]).unwrap()).collect();
    while trees.len() > 1 {
        let eight: Vec<_> = trees.drain(..8).collect();
        trees.push_back(s.add_node(4, 0, 0, 8, &eight).unwrap())
    }
    s.bind(0, trees[0]);
    s
}

/// V0 is bound to V1, V1 to V2 and so on, all numeric, and the last to a parameter without abilities
fn numeric() -> Lent {
    let mut s = fresh();
    (0..1023).for_each(|_| assert!(s.add_var().is_some()));
    for v in 0..1023 {
        let next = if v < 1022 { s.add_node(6, 0, v + 1, 0, &[]) } else { s.add_node(2, 0, 1, 0, &[]) };
        s.bind(v as usize, next.unwrap());
        s.set_mark(v as usize, 0)
    }
    s
}

/// V0 is bound to V1, V1 to V2 and so on; all need bits, and the last is open
fn literals() -> Lent {
    let mut s = fresh();
    (0..1000).for_each(|_| assert!(s.add_var().is_some()));
    for v in 0..1000 {
        s.set_mark(v, v as u32);
        s.set_need(v, 1 + (v as u32 * 7) % 256);
        if v < 999 {
            let next = s.add_node(6, 0, v as u32 + 1, 0, &[]).unwrap();
            s.bind(v, next)
        }
    }
    s
}

//---- records ------------------------------------------------------------------------------------------------

const RECORDS: [&str; 35] = [
    "UF V0",
    "UF (V0, V0)",
    "UL V0",
    "RD V0",
    "RD (V0, V2, V0)",
    "CN V0",
    "CN (V0, V2, V0)",
    "XP V0",
    "XP (V0, V2, V0)",
    "JN V0, V2",
    "JN V2, V0",
    "SU V0, V2",
    "SU V2, V0",
    "JN V0, V0",
    "JN V1, V0",
    "JN V0, V1",
    "JL V0, V1",
    "JL V0, V2",
    "JL (V0, V0), (V2, V4)",
    "JL (V0, V1), (V1, V0)",
    "JN V1, vector<V0>",
    "JN V4, (V0, V0)",
    "JN (V0, V0), (V2, V4)",
    "JN V3, V0",
    "TS [P1 = V0] (P1, P1)",
    "IN (_, vector<_>)",
    "SN V0",
    "NC numeric V0",
    "BC V0",
    "SC V2",
    "SV",
    "KP",
    "KP V0",
    "KP V2, V1, V0",
    "KP V7, V3",
];

/// Pairs that an MJ has as often as it can, and pairs that it has once, before those.
const MANY: [(&str, &str); 9] = [
    ("", "join V0, V2"),
    ("", "join V2, V0"),
    ("", "subtype V0, V2"),
    ("", "join V0, V0"),
    ("", "join V4, (V0, V0)"),
    ("", "join (V0, V0), (V2, V4)"),
    ("", "join vector<V0>, (V2,)"),
    ("", "join V3, V0"),
    ("join V5, V2; subtype V6, u8; ", "join V0, V5"),
];

/// its name, and its text
fn many((once, again): (&str, &str)) -> (String, String) {
    let times = MAX_PAIRS - once.matches(';').count();
    (format!("MJ {}{} times {}", once, times, again), format!("MJ {}{}", once, vec![again; times].join("; ")))
}

/// A record's answer; and as a job of this record alone it gives the same line and leaves the same state.
fn tried(calls: &(dyn Calls + Sync), state: &'static str, lent: &Lent, record: &str) -> Line {
    let bytes = assemble(record, true).unwrap();
    let call = || {
        let mut lender = Lender::alone(calls, lent);
        lender.warm(answer_bytes(&bytes));
        let start = Instant::now();
        let a = lender.record(&bytes, answer_bytes(&bytes)).unwrap();
        (start.elapsed().as_secs_f64(), a, lender.lent())
    };
    let job = || {
        let mut lender = Lender::alone(calls, lent);
        let (number, _, log) = lender.job(&bytes, false, line_bytes(&bytes), 0).unwrap();
        (number, log, lender.lent())
    };
    let (_, by_record) = on_a_thread(STACK, || painted(STACK, call));
    let (mut seconds, mut answer, mut by_job) = (f64::MAX, None, 0);
    for _ in 0..3 {
        let (took, a, left) = on_a_thread(STACK, call);
        seconds = took.min(seconds);
        assert_ne!(a.number, 15);
        assert_eq!(sound(&left.words, &left.params), Ok(()));
        assert!(cleared(lent, &bytes).is_none_or(|wanted| wanted == left), "{}: {}", state, record);
        let ((number, log, left_by_job), stack) = on_a_thread(STACK, || painted(STACK, job));
        by_job = stack;
        assert_eq!((number, log), (0, line(&a).into_bytes()));
        assert!(left_by_job == left, "{}: {}", state, record);
        answer = Some(a)
    }
    let a = answer.unwrap();
    Line {
        state,
        record: record.into(),
        number: a.number,
        payload: a.payload.len(),
        pairs: pairs_shown(if bytes.starts_with(b"MJ") { &a.payload } else { &[] }).iter().map(|(n, _)| *n).collect(),
        seconds,
        stack: [by_record, by_job],
    }
}

/// what KP leaves, by a clearing of the words
fn cleared(lent: &Lent, bytes: &[u8]) -> Option<Lent> {
    match read_record(bytes, &any_variable()) {
        Ok((Record::KP(listed), _)) => Some(lent.view().cleared(&listed).lent),
        _ => None,
    }
}

/// the log's line of record 0
fn line(a: &Answer) -> String {
    let digits: String = a.payload.iter().map(|b| format!("{:02x}", b)).collect();
    format!("0 {}{}{}\n", a.number, if digits.is_empty() { "" } else { " " }, digits)
}

fn on_a_thread<T: Send>(stack: usize, work: impl FnOnce() -> T + Send) -> T {
    std::thread::scope(|s| std::thread::Builder::new().stack_size(stack).spawn_scoped(s, work).unwrap().join().unwrap())
}

//---- the stack that a call takes ---------------------------------------------------------------------------

const COLOUR: u8 = 0xa5;
/// what a thread keeps above the frames that are looked at, and a page or more that is not painted
const KEPT: usize = 32 << 10;

/// The stack below this function's frame, up to where a thread of so many bytes surely has it, in one colour; the frame's place.
#[inline(never)]
fn paint(stack: usize) -> usize {
    let frame = 0u8;
    let here = std::hint::black_box(std::ptr::addr_of!(frame)) as usize;
    // below the frame nothing is live, but for the 128 bytes that a function may use without saying so
    (here - (stack - KEPT)..here - 256).for_each(|at| unsafe { (at as *mut u8).write_volatile(COLOUR) });
    here
}

/// How far down below that place another colour is found.
#[inline(never)]
fn taken(stack: usize, here: usize) -> usize {
    let deepest = (here - (stack - KEPT)..here).find(|at| unsafe { (*at as *const u8).read_volatile() } != COLOUR);
    here - deepest.unwrap_or(here)
}

/// What the work gives, and how much it took of a thread's stack.
#[inline(never)]
fn painted<T>(stack: usize, work: impl FnOnce() -> T) -> (T, usize) {
    let here = paint(stack);
    let given = work();
    (given, taken(stack, here))
}

/// as many constraints of a kind, as the words number them, as have room in an answer where all fail
const FAILING: [(usize, u32, u8, &str); 4] =
    [(60, 0, 15, "all four"), (273, 1, 0, "a number"), (273, 2, 0, "bits"), (273, 3, 0, "an order")];

/// The state with constraints on V0, for SV to solve.
fn constrained(calls: &dyn Calls, lent: &Lent) -> Lent {
    let mut lender = Lender::new(calls, lent);
    for record in ["NC numeric V0", "BC V0", "SC V0"] {
        lender.record(&assemble(record, true).unwrap(), MIN_ANSWER).unwrap();
    }
    lender.lent()
}

/// The state with constraints of a kind on V0's type, as many as `many` and as there is room for.
fn asked(lent: &Lent, many: usize, kind: u32, set: u8) -> Lent {
    let mut s = lent.clone();
    let node = s.view().binding(0).unwrap();
    (0..many).all(|_| s.add_constraint(kind, 1, node, set).is_some());
    s
}

/// Of each state its answers, those of MJ's pairs, and its slowest call and MJ: the rows of docs/RUNS.md.
pub fn by_state(lines: &[Line]) -> Vec<String> {
    fn told<T: Ord + ToString>(of: impl Iterator<Item = T>) -> String {
        of.collect::<BTreeSet<_>>().iter().map(T::to_string).collect::<Vec<_>>().join(", ")
    }
    let slowest = |of: &mut dyn Iterator<Item = &Line>| {
        let slow = of.max_by(|a, b| a.seconds.total_cmp(&b.seconds)).unwrap();
        format!("{:.2} ms, {} ({})", slow.seconds * 1000.0, slow.record, slow.number)
    };
    lines
        .chunk_by(|a, b| a.state == b.state)
        .map(|of| {
            let (many, one): (Vec<_>, Vec<_>) = of.iter().partition(|l| l.is_many());
            let (answers, pairs) =
                (told(one.iter().map(|l| l.number)), told(many.iter().flat_map(|l| l.pairs.clone())));
            let [slow, slow_many] = [one, many].map(|of| slowest(&mut of.into_iter()));
            format!("{}: {}; slowest {}; pairs {}; slowest MJ {}", of[0].state, answers, slow, pairs, slow_many)
        })
        .collect()
}

/// The most stack that a call took, lent and as a job.
pub fn most_stack(lines: &[Line]) -> [usize; 2] {
    [0, 1].map(|k| lines.iter().map(|l| l.stack[k]).max().unwrap_or(0))
}

/// The seconds of the slowest call, MJ left out, and of the slowest MJ.
pub fn slowest(lines: &[Line]) -> [f64; 2] {
    let of = |many: bool| lines.iter().filter(move |l| l.is_many() == many).map(|l| l.seconds);
    [of(false).fold(0.0, f64::max), of(true).fold(0.0, f64::max)]
}

fn states(calls: &dyn Calls) -> Vec<(&'static str, Lent)> {
    vec![
        ("ladder", ladder()),
        ("deep", deep()),
        ("deepest", deepest(true, 1)),
        ("lists", deepest(false, 1)),
        ("under", deepest(true, 4)),
        ("beneath", deepest(true, 128)),
        ("turns", turns()),
        ("tower", tower(calls, false)),
        ("circle", tower(calls, true)),
        ("towers", towers(calls)),
        ("linked", linked()),
        ("chains", chains()),
        ("chain", chain()),
        ("leaning", leaning(|s| s.add_node(3, 4, 0, 2, &[]).unwrap())),
        ("right", leaning(far_right)),
        ("marked", marked()),
        ("leans on", leaning(marked_ladder)),
        ("dense", dense()),
        ("crossed", crossed()),
        ("numeric", numeric()),
        ("literals", literals()),
    ]
}

//---- the slow engine ------------------------------------------------------------------------------------------

/// seconds that its call may take
pub const SLOW_LIMIT: f64 = 10.0;
/// of its thread, so that a call that does not fit STACK is told and no crash
const SLOW_STACK: usize = 1 << 20;

/// A call of the slow engine, on a trap.
pub struct Slow {
    pub state: &'static str,
    pub record: &'static str,
    pub number: u32,
    pub seconds: f64,
    pub stack: usize,
}

impl Slow {
    pub fn text(&self) -> String {
        let ms = self.seconds * 1000.0;
        format!("{:<8} {:<34} {:>2}, slowly {:.3} ms, stack {}", self.state, self.record, self.number, ms, self.stack)
    }
    /// whether it took longer or more stack than it may
    pub fn over(&self) -> bool {
        self.seconds >= SLOW_LIMIT || self.stack >= STACK
    }
}

/// The slow engine's answer and state are the engine's.
fn slowly(calls: &(dyn Calls + Sync), state: &'static str, lent: &Lent, record: &'static str) -> Slow {
    let bytes = assemble(record, true).unwrap();
    let mut lender = Lender::alone(calls, lent);
    let answer = lender.record(&bytes, MIN_ANSWER).unwrap();
    let call = || {
        let mut lender = Lender::alone(calls, lent);
        lender.warm(MIN_ANSWER);
        let start = Instant::now();
        let a = lender.check(&bytes, MIN_ANSWER).unwrap();
        (start.elapsed().as_secs_f64(), a, lender.lent())
    };
    let ((seconds, a, left), stack) = on_a_thread(SLOW_STACK, || painted(SLOW_STACK, call));
    assert!(a == answer && left == lender.lent(), "{}: {}", state, record);
    Slow { state, record, number: a.number, seconds, stack }
}

/// The seconds of its slowest call, and the bytes of stack of its deepest.
pub fn most_slowly(lines: &[Slow]) -> [f64; 2] {
    let most = |of: fn(&Slow) -> f64| lines.iter().map(of).fold(0.0, f64::max);
    [most(|l| l.seconds), most(|l| l.stack as f64)]
}

/// The slow engine on every state, with every record that it has.
pub fn run_slowly(calls: &(dyn Calls + Sync)) -> Vec<Slow> {
    let own = |r: &&&str| CHECKED.iter().any(|mark| r.as_bytes().starts_with(mark));
    let on = |(name, lent): &(&'static str, Lent)| -> Vec<_> {
        RECORDS.iter().filter(own).map(|r| slowly(calls, name, lent, r)).collect()
    };
    states(calls).iter().flat_map(on).collect()
}

/// Every record on every state, each call on a thread of its own.
pub fn run(calls: &(dyn Calls + Sync)) -> Vec<Line> {
    let states = states(calls);
    let mut lines = vec![];
    for (name, lent) in &states {
        assert_eq!(sound(&lent.words, &lent.params), Ok(()), "{}", name);
        lines.extend(RECORDS.iter().map(|r| tried(calls, name, lent, r)));
        for of in MANY {
            let (named, text) = many(of);
            let mut line = tried(calls, name, lent, &text);
            line.record = named;
            lines.push(line)
        }
        let mut solved = tried(calls, name, &constrained(calls, lent), "SV");
        solved.record = "SV with constraints on V0".into();
        lines.push(solved);
        for (set, name_of_set) in [(0, "nothing"), (2, "drop"), (7, "copy, drop, store"), (15, "all four")] {
            let mut solved = tried(calls, name, &asked(lent, 512, 0, set), "SV");
            solved.record = format!("SV, 512 ask {}", name_of_set);
            lines.push(solved)
        }
        for (many, kind, set, what) in FAILING {
            let mut solved = tried(calls, name, &asked(lent, many, kind, set), "SV");
            solved.record = format!("SV, {} ask for {}", many, what);
            lines.push(solved)
        }
    }
    lines
}
