//! src/explain.txt: every answer and every code of SV and XP, as pairs::ANSWERS and docs/RECORDS.md's tables have them, and each example beside its log.
use joblog::{
    pairs::{Pair, Pairs, ANSWERS},
    payload::Outcome,
    text::assemble,
};

const TEXTS: &str = include_str!("../src/explain.txt");
const RECORDS: &str = include_str!("../../../docs/RECORDS.md");

/// one text: its first line, and what stands behind each of its names, indented lines included
struct Text {
    head: &'static str,
    rest: &'static str,
}

fn texts() -> Vec<Text> {
    let one = |t: &'static str| t.trim_end().split_once('\n').map(|(head, rest)| Text { head, rest });
    TEXTS.split("\n\n").map(|t| one(t).expect("a first line and more")).collect()
}

impl Text {
    fn line(&self, name: &str) -> &'static str {
        self.rest
            .lines()
            .find_map(|l| l.strip_prefix(name))
            .unwrap_or_else(|| panic!("{}: no {}", self.head, name))
            .trim()
    }
    fn block(&self, name: &str) -> String {
        let behind = self.rest.lines().skip_while(|l| *l != name).skip(1);
        behind.map_while(|l| l.strip_prefix("    ")).map(|l| format!("{}\n", l)).collect()
    }
}

/// the cells of a row of RECORDS that follow the first one; the row is in the part that begins at `part`
fn cells(part: &str, first: &str) -> Vec<&'static str> {
    let rows = &RECORDS[RECORDS.find(part).unwrap()..];
    let row = rows.lines().find_map(|l| l.strip_prefix(&format!("| {} | ", first)));
    row.unwrap_or_else(|| panic!("{}: no row {}", part, first))
        .trim_end_matches('|')
        .split(" | ")
        .map(str::trim)
        .collect()
}

#[test]
fn every_answer_has_its_text() {
    let heads: Vec<String> = texts().iter().map(|t| t.head.to_string()).collect();
    let mut wanted: Vec<String> = ANSWERS.iter().map(|a| format!("{} {}", a.number, a.word)).collect();
    wanted.extend((1..=4).map(|code| format!("SV code {}", code)));
    wanted.push("XP code 5".into());
    assert_eq!(heads, wanted)
}

#[test]
fn records_says_the_same() {
    for t in texts() {
        let given_for = match t.head.split_once(" code ") {
            Some(("SV", code)) => cells("| code | given for |", code)[0],
            Some((_, code)) => cells("| XP's code | given for |", code)[0],
            None => {
                let (number, word) = t.head.split_once(' ').unwrap();
                let row = cells("| number | word | given for | payload |", number);
                assert_eq!(row[0], word, "{}", t.head);
                row[1]
            }
        };
        assert_eq!(t.line("given for:"), given_for, "{}", t.head);
        assert!(t.line("means:").len() > 30 && t.line("do:").ends_with('.'), "{}", t.head)
    }
    let rows = RECORDS.split("| number | word | given for | payload |").nth(1).unwrap();
    assert_eq!(rows.split("\n\n").next().unwrap().lines().skip(2).count(), ANSWERS.len())
}

/// what the last record of an example is answered with
fn last_is(t: &Text, last: &Pair) -> bool {
    match (t.head.split_once(" code "), &last.payload) {
        (Some(("SV", code)), Outcome::Failed(_)) => last.raw[0].to_string() == code && last.number == 0,
        (Some(("XP", "5")), Outcome::Expanded(_, open)) => !open.is_empty(),
        (Some(_), _) => false,
        (None, _) => t.head.starts_with(&format!("{} ", last.number)),
    }
}

#[test]
fn every_example_has_its_log() {
    for t in texts() {
        let (job, log) = (assemble(&t.block("example:"), false).unwrap(), t.block("log:"));
        if t.head == "15 unsound state" {
            assert!(job.is_empty() && log.is_empty());
            continue;
        }
        let pairs: Result<Vec<Pair>, String> = Pairs::new(&job, &log).collect();
        let pairs = pairs.unwrap_or_else(|e| panic!("{}: {}", t.head, e));
        assert!(pairs.last().is_some_and(|p| last_is(&t, p)), "{}: {}", t.head, log)
    }
}
