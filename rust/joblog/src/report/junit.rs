//! The report for a build server: JUnit's XML, a test case for each function and one for the release.
use super::{failure::Failure, text, Job, Release, Verdict};

/// a text, or an attribute's value; what XML cannot have is left out
pub fn escape(s: &str) -> String {
    let mut out = String::new();
    for c in s.chars() {
        match c {
            '&' => out += "&amp;",
            '<' => out += "&lt;",
            '>' => out += "&gt;",
            '"' => out += "&quot;",
            '\n' => out += "&#10;",
            '\t' => out += "&#9;",
            c if c < ' ' || matches!(c, '\u{fffe}' | '\u{ffff}') => (),
            c => out.push(c),
        }
    }
    out
}

fn told(tag: &str, kind: &str, message: &str, body: &str) -> String {
    let (kind, message, body) = (escape(kind), escape(message), escape(body));
    format!("      <{} type=\"{}\" message=\"{}\">{}</{}>\n", tag, kind, message, body, tag)
}

fn case(name: &str, inside: String) -> String {
    match (escape(name), inside.is_empty()) {
        (name, true) => format!("    <testcase classname=\"release\" name=\"{}\"/>\n", name),
        (name, false) => {
            format!("    <testcase classname=\"release\" name=\"{}\">\n{}    </testcase>\n", name, inside)
        }
    }
}

fn unknown(why: &[String]) -> String {
    why.iter().map(|u| told("error", "not known", u, u)).collect()
}

fn job(j: &Job) -> String {
    let one = |f: &Failure| {
        let message = format!("record {}: {}", f.record, f.told);
        told("failure", &f.kind(), &message, &format!("{}\n{}", f.text, f.places.join(", ")))
    };
    // a function that is not known is an error, whatever its log says
    let failures: String = if j.unknown.is_empty() { j.failures.iter().map(one).collect() } else { String::new() };
    case(&j.name, failures + &unknown(&j.unknown))
}

pub fn xml(r: &Release) -> String {
    let whole = r.unknown.len().min(1);
    let tests = r.jobs.len() + 1;
    let (failed, errors) = (r.count(Verdict::Failed), r.count(Verdict::Unknown) + whole);
    let jobs: String = r.jobs.iter().map(job).collect();
    let end = case("the release as a whole", unknown(&r.unknown));
    format!(
        "<?xml version=\"1.0\" encoding=\"UTF-8\"?>\n<testsuites>\n  \
         <testsuite name=\"joblog report\" tests=\"{}\" failures=\"{}\" errors=\"{}\">\n{}{}    \
         <system-out>{}</system-out>\n  </testsuite>\n</testsuites>\n",
        tests,
        failed,
        errors,
        jobs,
        end,
        escape(&text::sums(r))
    )
}
