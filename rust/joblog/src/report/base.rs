//! A release beside an earlier one: function by function added, gone, equal but for locations, or where they
//! part; and which failures are new or gone. It changes no verdict.
use super::{failure::Failure, jsonl, junit::escape, places, release, text::s, Asked, Job, Place, Release};
use crate::{
    diff::{diff, Difference},
    json::string,
    names::Book,
};
use std::{
    collections::{BTreeMap, BTreeSet},
    fmt::Write,
    fs,
    path::Path,
};

pub enum Change {
    Added,
    Gone,
    /// so many records, equal but for locations
    Equal(usize),
    /// the first difference, in lines
    Differs(String),
    /// a log that is missing, or not its job's
    Unknown(String),
}

impl Change {
    fn word(&self) -> &'static str {
        match self {
            Change::Added => "added",
            Change::Gone => "gone",
            Change::Equal(_) => "equal",
            Change::Differs(_) => "differs",
            Change::Unknown(_) => "not known",
        }
    }
    fn told(&self) -> String {
        match self {
            Change::Added | Change::Gone => String::new(),
            Change::Equal(n) => format!("{}, equal but for locations", s(*n, "record")),
            Change::Differs(what) | Change::Unknown(what) => what.clone(),
        }
    }
}

/// A failure as it is without locations.
#[derive(Clone, PartialEq, Eq, PartialOrd, Ord)]
pub struct Told {
    pub job: String,
    pub kind: String,
    pub told: String,
    pub text: String,
}

#[derive(Default)]
pub struct Base {
    pub functions: Vec<(String, Change)>,
    pub new: Vec<Told>,
    pub gone: Vec<Told>,
    /// why the earlier release is not known, where it is not
    pub unknown: Vec<String>,
}

fn side(place: &Place) -> Result<(Vec<u8>, String), String> {
    let read = |path: &Path| fs::read(path).map_err(|e| format!("{}: {}", path.display(), e));
    let (job, log) = (read(&place.job)?, read(&place.log)?);
    String::from_utf8(log).map(|log| (job, log)).map_err(|_| format!("{}: no text", place.log.display()))
}

fn change(before: &Place, now: &Place) -> Change {
    let (one, two) = match (side(before), side(now)) {
        (Ok(one), Ok(two)) => (one, two),
        (Err(e), _) | (_, Err(e)) => return Change::Unknown(e),
    };
    match diff((&one.0, &one.1), (&two.0, &two.1)) {
        Difference::None(n) => Change::Equal(n),
        Difference::Found(found) => Change::Differs(found.text(["before", "now   "])),
        Difference::Misfit(1, e) => Change::Unknown(format!("the earlier log does not fit its job: {}", e)),
        Difference::Misfit(_, e) => Change::Unknown(format!("the log does not fit its job: {}", e)),
    }
}

fn functions(before: &[Place], now: &[Place]) -> Vec<(String, Change)> {
    let by_name = |of: &[Place]| of.iter().enumerate().map(|(i, p)| (p.name.clone(), i)).collect::<BTreeMap<_, _>>();
    let (old, new) = (by_name(before), by_name(now));
    let names: BTreeSet<_> = old.keys().chain(new.keys()).cloned().collect();
    let one = |name: String| {
        let change = match (old.get(&name), new.get(&name)) {
            (Some(a), Some(b)) => change(&before[*a], &now[*b]),
            (None, _) => Change::Added,
            (_, None) => Change::Gone,
        };
        (name, change)
    };
    names.into_iter().map(one).collect()
}

fn told(job: &Job, f: &Failure) -> Told {
    Told { job: job.name.clone(), kind: f.kind(), told: f.told.clone(), text: f.text.clone() }
}

/// those of `of` that `without` has not, each as often as it is more often there
fn more(of: &[Told], without: &[Told]) -> Vec<Told> {
    let mut left: BTreeMap<&Told, usize> = BTreeMap::new();
    without.iter().for_each(|t| *left.entry(t).or_insert(0) += 1);
    let mut out = vec![];
    for t in of {
        match left.get_mut(t) {
            Some(n) if *n > 0 => *n -= 1,
            _ => out.push(t.clone()),
        }
    }
    out
}

/// `now`, which is what was asked for, beside the jobs and logs of an earlier release.
pub fn against(asked: &Asked, now: &Release, book: Book, jobs: &Path, logs: &Path) -> Result<Base, String> {
    let vouch = super::vouch::Asked { quick: asked.vouch.quick, ..Default::default() };
    let earlier = Asked { jobs: jobs.into(), logs: logs.into(), vouch, book, lines: false };
    let (mut places_before, places_now) = (places(jobs, logs)?, places(&asked.jobs, &asked.logs)?);
    let mut before = release(&earlier)?;
    if !asked.jobs.is_dir() && !jobs.is_dir() {
        // two files are one function
        places_before[0].name = places_now[0].name.clone();
        before.jobs[0].name = places_now[0].name.clone()
    }
    let all = |r: &Release| r.failures().map(|(j, f)| told(j, f)).collect::<Vec<_>>();
    let (old, new) = (all(&before), all(now));
    let of_jobs = before.jobs.iter().flat_map(|j| j.unknown.iter().map(|u| format!("{}: {}", j.name, u)));
    Ok(Base {
        functions: functions(&places_before, &places_now),
        new: more(&new, &old),
        gone: more(&old, &new),
        unknown: before.unknown.iter().cloned().chain(of_jobs).collect(),
    })
}

pub fn sums(base: &Base) -> String {
    let count = |word: &str| base.functions.iter().filter(|(_, c)| c.word() == word).count();
    let words = ["equal", "differs", "added", "gone", "not known"];
    let told: Vec<_> = words.iter().map(|w| format!("{} {}", count(w), w)).collect();
    format!(
        "beside the earlier release: {}; failures: {} new, {} gone",
        told.join(", "),
        base.new.len(),
        base.gone.len()
    )
}

pub fn text(base: &Base, more: bool) -> String {
    let mut out = String::new();
    for (name, change) in &base.functions {
        let told = change.told();
        match change {
            Change::Equal(_) if !more => (),
            _ if told.is_empty() => writeln!(out, "{}: {}", change.word(), name).unwrap(),
            _ => writeln!(out, "{}: {}: {}", change.word(), name, told).unwrap(),
        }
    }
    for (what, which) in [("new failure", &base.new), ("failure gone", &base.gone)] {
        for t in which {
            writeln!(out, "{}: {}: {}: {}", what, t.job, t.kind, t.told).unwrap()
        }
    }
    base.unknown.iter().for_each(|u| writeln!(out, "note: the earlier release is not known: {}", u).unwrap());
    out + &sums(base) + "\n"
}

pub fn lines(base: &Base) -> String {
    let one = |(name, change): &(String, Change)| {
        let fields = [("job", string(name)), ("change", string(change.word())), ("told", string(&change.told()))];
        jsonl::object("base", &fields)
    };
    let failure = |change: &'static str| {
        move |t: &Told| {
            let fields = [
                ("job", string(&t.job)),
                ("change", string(change)),
                ("what", string(&t.kind)),
                ("told", string(&t.told)),
                ("text", string(&t.text)),
            ];
            jsonl::object("base failure", &fields)
        }
    };
    let functions: String = base.functions.iter().map(one).collect();
    let new: String = base.new.iter().map(failure("new")).collect();
    functions + &new + &base.gone.iter().map(failure("gone")).collect::<String>()
}

pub fn html(base: &Base) -> String {
    format!(
        "<details id=base><summary>{}</summary><pre>{}</pre></details>\n",
        escape(&sums(base)),
        escape(&text(base, false))
    )
}
