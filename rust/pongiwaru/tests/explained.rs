//! The examples of `joblog explain` (../joblog/src/explain.txt): the engine gives each the log that stands beside it.
use joblog::text::assemble;
use pongiwaru::State;

const TEXTS: &str = include_str!("../../joblog/src/explain.txt");

fn block(text: &str, name: &str) -> String {
    let behind = text.lines().skip_while(|l| *l != name).skip(1);
    behind.map_while(|l| l.strip_prefix("    ")).map(|l| format!("{}\n", l)).collect()
}

#[test]
fn examples() {
    let mut run = 0;
    for text in TEXTS.split("\n\n") {
        let (job, log) = (assemble(&block(text, "example:"), false).unwrap(), block(text, "log:"));
        let given = String::from_utf8(State::fresh().log(&job).unwrap()).unwrap();
        assert_eq!(given, log, "{}", text);
        run += !job.is_empty() as usize
    }
    // all of 0 to 18 but 15, SV's four codes and XP's one
    assert_eq!(run, 23)
}
