//! Names for a job's numbers, as a compiler writes them beside it (docs/RECORDS.md, Names for a job's numbers). They
//! are printed, and decide nothing.
use std::collections::HashMap;

/// names by kind (S, P, V or @) and number
type Part = HashMap<(char, u32), String>;

/// What a file of names says: for every job, and for single ones.
#[derive(Default)]
pub struct Book {
    every: Part,
    jobs: HashMap<String, Part>,
}

/// The names of one job.
#[derive(Clone, Copy, Default)]
pub struct Names<'a> {
    own: Option<&'a Part>,
    every: Option<&'a Part>,
    no_variables: bool,
}

impl<'a> Names<'a> {
    /// The name of a struct (`S`), parameter (`P`), variable (`V`) or location (`@`).
    pub fn of(&self, kind: char, number: u32) -> Option<&'a str> {
        let found = |part: Option<&'a Part>| part.and_then(|p| p.get(&(kind, number)));
        if kind == 'V' && self.no_variables {
            return None;
        }
        found(self.own).or_else(|| found(self.every)).map(String::as_str)
    }
    /// .. of structs, parameters and locations alone
    pub fn without_variables(self) -> Self {
        Names { no_variables: true, ..self }
    }
    /// a location by its name, or as `@236`
    pub fn place(&self, loc: u32) -> String {
        self.of('@', loc).map_or_else(|| format!("@{}", loc), String::from)
    }
}

fn entry(line: &str) -> Option<((char, u32), String)> {
    let (kind, rest) = line.split_once(' ')?;
    let (digits, name) = rest.split_once(' ')?;
    let kind = match kind {
        "S" => 'S',
        "P" => 'P',
        "V" => 'V',
        "@" => '@',
        _ => return None,
    };
    let plain = digits.bytes().all(|b| b.is_ascii_digit());
    let number = digits.parse().ok().filter(|n: &u32| plain && (matches!(kind, 'P' | '@') || *n < 1 << 16))?;
    let clean = !name.is_empty() && !name.chars().any(char::is_control);
    clean.then(|| ((kind, number), name.to_string()))
}

impl Book {
    /// The names of a text, and of each line that says nothing: its number from 1 and why.
    pub fn of(text: &str) -> (Book, Vec<(usize, String)>) {
        let (mut book, mut told, mut job) = (Book::default(), vec![], None);
        for (i, line) in text.split('\n').enumerate() {
            let line = line.strip_suffix('\r').unwrap_or(line);
            if line.is_empty() || line.starts_with('#') {
                continue;
            }
            if let Some(name) = line.strip_prefix("job ").filter(|n| !n.is_empty()) {
                job = Some(name.to_string());
                continue;
            }
            let Some((key, name)) = entry(line) else {
                told.push((i + 1, "no name".into()));
                continue;
            };
            let part = match &job {
                Some(job) => book.jobs.entry(job.clone()).or_default(),
                None => &mut book.every,
            };
            match part.contains_key(&key) {
                true => told.push((i + 1, format!("a second name for {} {}", key.0, key.1))),
                false => drop(part.insert(key, name)),
            }
        }
        (book, told)
    }

    /// The names of the job at a path: of the longest job's name that the path ends with.
    pub fn path(&self, path: &str) -> Names<'_> {
        let own = |n: &&String| path.strip_suffix(n.as_str()).is_some_and(|p| p.is_empty() || p.ends_with('/'));
        self.job(self.jobs.keys().filter(own).max_by_key(|n| n.len()).map_or("", |n| n))
    }

    /// The names of the job JOBS/`name`.
    pub fn job(&self, name: &str) -> Names<'_> {
        Names { own: self.jobs.get(name), every: Some(&self.every), no_variables: false }
    }
}
