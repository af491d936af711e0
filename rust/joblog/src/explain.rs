//! `joblog explain`: explain.txt, which has for every answer and every code of SV and XP what it means, what to do, and
//! a job with its log.

const TEXTS: &str = include_str!("explain.txt");

fn all() -> impl Iterator<Item = (&'static str, &'static str)> {
    TEXTS.split("\n\n").filter_map(|t| t.trim_end().split_once('\n'))
}

/// What an answer is given for, in RECORDS' words.
pub fn given_for(number: usize) -> String {
    let head = format!("{} ", number);
    let rest = all().find(|(h, _)| h.starts_with(&head)).map_or("", |(_, rest)| rest);
    rest.lines().find_map(|l| l.strip_prefix("given for: ")).unwrap_or_default().into()
}

/// The text of an answer's number; of `SV`, of `SV code N`, or the same of `XP`. None where there is none.
pub fn explain(words: &[String]) -> Option<String> {
    let asked = words.join(" ");
    let wanted = |head: &str| match asked.as_str() {
        "SV" | "XP" => head.starts_with(&format!("{} code ", asked)),
        "" => false,
        _ if head.starts_with("SV") || head.starts_with("XP") => head == asked,
        _ => head.split_once(' ').is_some_and(|(number, _)| number == asked),
    };
    let texts: Vec<String> = all().filter(|(h, _)| wanted(h)).map(|(h, rest)| format!("{}\n{}\n", h, rest)).collect();
    (!texts.is_empty()).then(|| texts.join("\n"))
}
