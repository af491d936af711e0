//! The report as one page without outside parts: a table of functions with filters, both types side by side, and each
//! job opened in place.
use super::{
    failure::{Failure, Shown},
    junit::escape,
    text, Job, Line, Release, Verdict,
};
use std::{collections::BTreeSet, fmt::Write};

/// Jobs that are well are not opened in a page that is longer than this.
const LONG: usize = 20_000_000;

fn class(v: Verdict) -> &'static str {
    match v {
        Verdict::Well => "ok",
        Verdict::Failed => "failed",
        Verdict::Unknown => "unknown",
    }
}

fn side(name: &str, t: &Shown) -> String {
    let (before, rest) = t.text.split_at(t.differs.start);
    let (part, after) = rest.split_at(t.differs.len());
    let part = if part.is_empty() { String::new() } else { format!("<mark>{}</mark>", escape(part)) };
    format!(
        "<div><span class=where>{} {}</span><br><code>{}{}{}</code></div>",
        name,
        escape(&t.place),
        escape(before),
        part,
        escape(after)
    )
}

fn failure(f: &Failure) -> String {
    let sides: &[&str] = if f.types.len() == 2 { &["left", "right"] } else { &["type"] };
    let sides: String = sides.iter().zip(&f.types).map(|(name, t)| side(name, t)).collect();
    let unread = match f.unread {
        Some(n) => format!("<div>{}</div>", text::unread(f.record, n)),
        None => String::new(),
    };
    format!(
        "<div class=failure data-answer=\"{}\" data-mark=\"{}\"><b>{}</b> {}<div class=sides>{}</div>{}\
         <span class=where>record {}, byte {} {}</span> <code>{}</code></div>\n",
        escape(&f.kind()),
        f.mark,
        escape(&f.kind()),
        escape(&f.told),
        sides,
        unread,
        f.record,
        f.at,
        escape(&f.places.join(", ")),
        escape(&f.text)
    )
}

fn opened(lines: &[Line]) -> String {
    let one = |l: &Line| {
        let bad = if l.well { "" } else { " class=bad" };
        format!("<tr{}><td>{}<td><code>{}</code><td><code>{}</code>\n", bad, l.n, escape(&l.record), escape(&l.answer))
    };
    let rows: String = lines.iter().map(one).collect();
    let records = text::s(lines.len(), "record");
    format!("<details><summary>the job: {}</summary><div class=job><table>{}</table></div></details>", records, rows)
}

fn function(j: &Job, long: bool) -> String {
    let v = j.verdict();
    let lines = match long && v == Verdict::Well {
        true => format!("{} records; `joblog show JOB LOG` has them", j.records),
        false => opened(&j.lines),
    };
    let unknown: String = j.unknown.iter().map(|u| format!("<div>{}</div>", escape(u))).collect();
    let failures: String = j.failures.iter().map(failure).collect();
    format!(
        "<tr class=function data-verdict={} data-name=\"{}\"><td>{}<td class={}>{}<td>{}{}{}\n",
        class(v),
        escape(&j.name),
        escape(&j.name),
        class(v),
        v.word(),
        unknown,
        failures,
        lines
    )
}

fn choice(id: &str, label: &str, of: BTreeSet<String>) -> String {
    let options: String = of.iter().map(|o| format!("<option>{}</option>", escape(o))).collect();
    format!("<label>{}<select id={}><option value=\"\">all</option>{}</select></label>", label, id, options)
}

fn form(r: &Release) -> String {
    let answers = r.failures().map(|(_, f)| f.kind()).collect();
    let marks = r.failures().map(|(_, f)| f.mark.to_string()).filter(|m| !m.is_empty()).collect();
    let verdicts =
        "<label>Function<select id=verdict><option value=\"\">all</option><option value=failed>failed</option>\
                    <option value=unknown>not known</option><option value=ok>ok</option></select></label>";
    format!(
        "<form>{}{}{}<label>Text<input id=text type=search></label><span id=count></span></form>",
        verdicts,
        choice("answer", "Answer", answers),
        choice("mark", "Mark", marks)
    )
}

pub fn page(r: &Release) -> String {
    let mut rows = String::new();
    let worst = |j: &&Job| match j.verdict() {
        Verdict::Failed => 0,
        Verdict::Unknown => 1,
        Verdict::Well => 2,
    };
    let mut jobs: Vec<&Job> = r.jobs.iter().collect();
    jobs.sort_by_key(worst);
    for j in jobs {
        let row = function(j, rows.len() > LONG);
        rows += &row
    }
    let mut told = String::new();
    let all = r.unknown.iter().map(|u| ("unknown", u)).chain(r.notes.iter().map(|n| ("where", n)));
    all.for_each(|(class, what)| write!(told, "<p class={}>{}</p>", class, escape(what)).unwrap());
    let base = r.base.as_ref().map_or(String::new(), super::base::html);
    format!(
        "<!doctype html>\n<html lang=en><meta charset=utf-8><meta name=viewport content=\"width=device-width\">\
         <title>joblog report: {}</title>\n<style>{}</style>\n<h1 class={}>{}</h1>\n<p>{}</p>{}{}\n{}\n\
         <table><thead><tr><th>Function<th>Verdict<th>What</thead>\n<tbody>{}</tbody></table>\n<script>{}</script></html>\n",
        text::advice(r),
        include_str!("page.css"),
        class(r.verdict()),
        text::advice(r),
        escape(&text::sums(r)),
        told,
        base,
        form(r),
        rows,
        include_str!("page.js")
    )
}
