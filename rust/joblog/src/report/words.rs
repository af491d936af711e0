//! `joblog report`: its words, and the files that it writes.
use super::{base, html, jsonl, junit, release, text, vouch, Asked};
use crate::names::Book;
use std::{
    fs,
    io::Write,
    path::{Path, PathBuf},
};

#[derive(Default)]
struct Words {
    json: Option<PathBuf>,
    junit: Option<PathBuf>,
    html: Option<PathBuf>,
    names: Option<PathBuf>,
    base: Option<(PathBuf, PathBuf)>,
    vouch: vouch::Asked,
    more: bool,
    files: Vec<PathBuf>,
}

impl Words {
    fn of(args: &[String]) -> Result<Words, String> {
        let mut words = Words::default();
        let mut args = args.iter();
        while let Some(a) = args.next() {
            let mut file = || args.next().map(PathBuf::from).ok_or(format!("{} wants a file", a));
            match a.as_str() {
                "-v" => words.more = true,
                "--quick" => words.vouch.quick = true,
                "--json" => words.json = Some(file()?),
                "--junit" => words.junit = Some(file()?),
                "--html" => words.html = Some(file()?),
                "--names" => words.names = Some(file()?),
                "--manifest" => words.vouch.manifest = Some(file()?),
                "--program" => words.vouch.program = Some(file()?),
                "--base" => words.base = Some((file()?, file()?)),
                a if a.starts_with('-') => return Err(format!("report has no flag {}", a)),
                a => words.files.push(a.into()),
            }
        }
        match words.files.len() {
            2 => Ok(words),
            n => Err(format!("report takes 2 files or folders, not {}", n)),
        }
    }
}

/// The names of a file; what in it says nothing is told on standard error, where `tell`.
pub fn book(path: &Path, tell: bool) -> Result<Book, String> {
    let text = fs::read(path).map_err(|e| format!("{}: {}", path.display(), e))?;
    let text = String::from_utf8(text).map_err(|_| format!("{}: not text", path.display()))?;
    let (book, told) = Book::of(&text);
    told.iter().filter(|_| tell).for_each(|(n, what)| eprintln!("joblog: {}: line {}: {}", path.display(), n, what));
    Ok(book)
}

fn write(path: &Option<PathBuf>, text: impl FnOnce() -> String) -> Result<(), String> {
    match path {
        None => Ok(()),
        Some(path) => fs::write(path, text()).map_err(|e| format!("{}: {}", path.display(), e)),
    }
}

/// Its exit status: 0 publish, 1 do not, 2 not known.
pub fn command(args: &[String]) -> Result<i32, String> {
    let words = Words::of(args)?;
    let asked = Asked {
        jobs: words.files[0].clone(),
        logs: words.files[1].clone(),
        vouch: words.vouch,
        book: words.names.as_deref().map(|p| book(p, true)).transpose()?.unwrap_or_default(),
        lines: words.html.is_some(),
    };
    let mut made = release(&asked)?;
    if let Some((jobs, logs)) = &words.base {
        let book = words.names.as_deref().map(|p| book(p, false)).transpose()?.unwrap_or_default();
        made.base = Some(base::against(&asked, &made, book, jobs, logs)?)
    }
    write(&words.json, || jsonl::lines(&made))?;
    write(&words.junit, || junit::xml(&made))?;
    write(&words.html, || html::page(&made))?;
    let said = std::io::stdout().lock().write_all(text::text(&made, words.more).as_bytes());
    said.map_err(|e| format!("standard output: {}", e))?;
    Ok(made.status())
}
