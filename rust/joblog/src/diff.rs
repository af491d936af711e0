//! Two jobs with their logs, equal but for location fields? By R-4 (docs/requests/R-4.md), where the jobs are, the
//! logs are; the first difference is named. What follows an answer 5, 6 or 18 is never read, and decides nothing.
use crate::{
    location::{blank_payload, blank_record},
    pairs::{Pair, Pairs},
    show::{answer, record},
    text::Detail,
};

pub enum Difference {
    /// so many records, and none differs
    None(usize),
    /// what differs first
    Found(Found),
    /// a log that does not fit its job: the first or the second
    Misfit(usize, String),
}

/// The first difference.
pub enum Found {
    /// a record, `records` or `answers`, and what each of the two has
    Differs(usize, &'static str, [String; 2]),
    /// a record that one of the two has alone: 0 or 1
    Ended(usize, usize),
}

impl Found {
    /// .. with these names for the two
    pub fn text(&self, names: [&str; 2]) -> String {
        let name = |i: usize| names[i].trim();
        match self {
            Found::Differs(n, what, [a, b]) => {
                format!("record {}: the {} differ\n  {}: {}\n  {}: {}", n, what, names[0], a, names[1], b)
            }
            Found::Ended(n, i) => format!("record {}: {} has it, {} has ended", n, name(*i), name(1 - i)),
        }
    }
}

/// the two as jobs 1 and 2
impl std::fmt::Display for Found {
    fn fmt(&self, f: &mut std::fmt::Formatter) -> std::fmt::Result {
        match self {
            Found::Differs(..) => f.write_str(&self.text(["1", "2"])),
            Found::Ended(..) => f.write_str(&self.text(["job 1", "job 2"])),
        }
    }
}

/// One job with its log.
pub type Side<'a> = (&'a [u8], &'a str);

/// The bytes that decide: of a record that is not read those up to where reading stopped, or may have stopped last.
fn decided<'a>(p: &Pair<'a>) -> &'a [u8] {
    let end = match &p.read {
        Ok(_) => p.bytes.len(),
        Err(stops) => stops.iter().map(|x| x.at + if x.number == 6 { 2 } else { 1 }).max().unwrap_or(0),
    };
    &p.bytes[..end.min(p.bytes.len())]
}

fn differ(a: &Pair, a_params: &[usize], b: &Pair, b_params: &[usize]) -> Option<Found> {
    let told = |what: &'static str, one: &dyn Fn(&Pair) -> String| Some(Found::Differs(a.n, what, [one(a), one(b)]));
    let payload = |p: &Pair, params: &[usize]| blank_payload(p.bytes, p.number, &p.raw, params);
    if blank_record(decided(a), a_params) != blank_record(decided(b), b_params) {
        told("records", &|p| record(p, Detail::Full))
    } else if a.number != b.number || payload(a, a_params) != payload(b, b_params) {
        told("answers", &|p| format!("{} {}", p.number, answer(p, Detail::Full)))
    } else {
        None
    }
}

pub fn diff(one: Side, two: Side) -> Difference {
    let (mut one, mut two) = (Pairs::new(one.0, one.1), Pairs::new(two.0, two.1));
    for n in 0.. {
        let (a, b) = match (one.next().transpose(), two.next().transpose()) {
            (Err(e), _) => return Difference::Misfit(1, e),
            (_, Err(e)) => return Difference::Misfit(2, e),
            (Ok(None), Ok(None)) => return Difference::None(n),
            (Ok(Some(a)), Ok(Some(b))) => (a, b),
            (Ok(a), Ok(_)) => {
                return Difference::Found(Found::Ended(n, a.is_none() as usize));
            }
        };
        if let Some(found) = differ(&a, one.params(), &b, two.params()) {
            return Difference::Found(found);
        }
    }
    unreachable!("a job ends")
}
