//! The commands; README.md has them with examples.
use oracle::{
    bench,
    calls::{self, Calls},
    compare, damage, gen, job, keep, lender, list, many, order, program, release, spelled, traps, twice,
};
use std::{
    fs,
    io::{Read, Write},
    path::Path,
    process::exit,
};

const USAGE: &str = "\
oracle log [--why] [--state] [STREAM]   core.rs's log of a stream
oracle gen random SEED COUNT RECORDS [PROFILE] [--cut]
                                                      a list of jobs with their logs
oracle gen exhaustive FIRST COUNT [STEP] [--cut]      --cut: without records that core.rs refuses
oracle gen limits SEED COUNT [--cut]
oracle gen order SEED COUNT                           jobs for `oracle order`
oracle release SEED COUNT FOLDER                      COUNT jobs that are well and one with each fault, in a
                                                      new FOLDER; prints `NAME RECORD ANSWER [CODE ..]` of each fault
oracle check [LIST]                                   run a list's jobs again, compare their logs
oracle counts [LIST]                                  records of a list by mark and answer
oracle order [LIST]                                   what this build's map order changes
oracle compare SEED COUNT [RECORDS] [--alter=WHAT] [--profile=PROFILE]
                                                      the engine beside core.rs, on jobs from a seed
oracle spelled SEED COUNT                             CN of COUNT pairs of jobs: equal bytes beside equal types
oracle twice SEED COUNT                               the engine beside the slow one: edges, and states of COUNT jobs
oracle many                                           MJ at its edges
oracle keep SEED COUNT                                KP at its edges, and on COUNT states that no job has
oracle damage records|states|wild SEED COUNT           damaged records, damaged states
oracle damage needs|literals SEED COUNT               every need on every variable; SV where needs stand anywhere
oracle traps [slow]                                   types with more parts than nodes, deep and looped ones
oracle bench [RUNS]                                   times beside core.rs, by mark, of lent records
oracle bench once WORK SIDE TIMES                     the same job again and again, for a profiler
oracle bench marks                                    for each mark a call without records and one with, likewise
oracle bench costs [RUNS]                             the table that tools/costs.py draws
oracle joinlog PROGRAM                                joinlog beside one call of the engine
Without a file, stdin is read.";

fn fail(message: &str) -> ! {
    eprintln!("{}", message);
    exit(2)
}

fn read(path: Option<&String>) -> Vec<u8> {
    let mut bytes = vec![];
    let done = match path {
        Some(p) => fs::read(p).map(|b| bytes = b),
        None => std::io::stdin().read_to_end(&mut bytes).map(|_| ()),
    };
    done.unwrap_or_else(|e| fail(&format!("{}: {}", path.map_or("stdin", |p| p), e)));
    bytes
}

fn read_text(path: Option<&String>) -> String {
    String::from_utf8(read(path)).unwrap_or_else(|_| fail("not text"))
}

fn read_list(path: Option<&String>) -> Vec<list::Entry> {
    list::parse(&read_text(path)).unwrap_or_else(|e| fail(&e))
}

fn write(bytes: &[u8]) {
    if std::io::stdout().lock().write_all(bytes).is_err() {
        exit(2)
    }
}

fn number(word: Option<&String>) -> u64 {
    word.and_then(|w| w.parse().ok()).unwrap_or_else(|| fail(USAGE))
}

fn generate(words: &[String], cut: bool) -> Vec<list::Entry> {
    let (seed, count) = (number(words.get(1)), number(words.get(2)));
    let made: Vec<_> = match words[0].as_str() {
        "random" => {
            let records = number(words.get(3)) as usize;
            let named = |w: &String| gen::Profile::named(w).unwrap_or_else(|| fail(USAGE));
            let profile = words.get(4).map(named);
            (0..count).map(|i| gen::random(seed, i, records, profile, cut)).collect()
        }
        "exhaustive" => {
            let step = words.get(3).map_or(1, |w| number(Some(w)));
            (0..count).map_while(|i| gen::exhaustive((seed + i * step) as usize, cut)).collect()
        }
        "limits" => (0..count).map(|i| gen::limits(seed, i, cut)).collect(),
        "order" => (0..count).map(|i| order::made(seed, i)).collect(),
        _ => fail(USAGE),
    };
    made.iter().map(list::entry).collect()
}

/// One file for each job; what is at fault is printed.
fn written(functions: &[release::Function], folder: &Path) -> std::io::Result<()> {
    fs::create_dir(folder)?;
    for f in functions {
        let path = folder.join(&f.name);
        fs::create_dir_all(path.parent().unwrap())?;
        fs::write(path, &f.stream)?;
        if let Some(told) = &f.fault {
            println!("{} {}", f.name, told.text())
        }
    }
    Ok(())
}

fn check(entries: &[list::Entry]) -> i32 {
    let differs = |e: &&list::Entry| job::log(&e.stream, false, false) != e.log;
    let wrong: Vec<_> = entries.iter().filter(differs).collect();
    wrong.iter().for_each(|e| println!("differs: {}", e.name));
    println!("{} jobs equal, {} differ", entries.len() - wrong.len(), wrong.len());
    !wrong.is_empty() as i32
}

/// The engine, or with --mimic core.rs behind its calls.
fn engine(mimic: bool) -> &'static (dyn Calls + Sync) {
    match calls::engine() {
        _ if mimic => &calls::Mimic,
        Some(engine) => engine,
        None => fail("built without the engine's archive: see README.md"),
    }
}

fn compare(words: &[String], calls: &dyn Calls, alter: Option<compare::Alter>, profile: Option<gen::Profile>) -> i32 {
    let records = words.get(3).map_or(25, |w| number(Some(w))) as usize;
    let altered = alter.map(|alter| compare::Altered { calls, alter });
    let calls = altered.as_ref().map_or(calls, |a| a as &dyn Calls);
    let mut tally = compare::Tally::default();
    let start = std::time::Instant::now();
    let found = compare::many(calls, number(words.get(1)), number(words.get(2)), records, profile, &mut tally);
    print!("{}{}", tally.text(), lender::asked());
    println!("{:.1} s", start.elapsed().as_secs_f64());
    let Some(found) = found else {
        println!("no disagreement");
        return 0;
    };
    println!("DISAGREEMENT in {}; smallest job:", found.name);
    print!("{}", compare::report(&compare::smallest(calls, found)));
    1
}

fn hurt(words: &[String], calls: &dyn Calls) -> i32 {
    let (seed, count) = (number(words.get(2)), number(words.get(3)));
    let mut tally = damage::Tally::default();
    let start = std::time::Instant::now();
    let done = match words.get(1).map(String::as_str) {
        Some("records") => damage::records(calls, seed, count, &mut tally),
        Some("states") => damage::states(calls, seed, count, &mut tally),
        Some("wild") => damage::wild(calls, seed, count, &mut tally),
        Some("needs") => damage::needs(calls, seed, count, &mut tally),
        Some("literals") => damage::literals(calls, seed, count, &mut tally),
        _ => fail(USAGE),
    };
    print!("{}{}{:.1} s\n", tally.text(), lender::asked(), start.elapsed().as_secs_f64());
    match done {
        Ok(()) => println!("all as they must be"),
        Err(what) => {
            println!("FAULT: {}", what);
            return 1;
        }
    }
    0
}

/// The engine beside the slow one.
fn twice(words: &[String], calls: &dyn Calls) -> i32 {
    let told = twice::edges(calls).and_then(|(tried, top)| {
        println!("{} records at edges, {} entries at most", tried, top);
        twice::jobs(calls, number(words.get(1)), number(words.get(2)))
    });
    print!("{}", lender::asked());
    match &told {
        Ok(tried) => println!("{} records on states of jobs: no disagreement", tried),
        Err(what) => println!("DISAGREEMENT: {}", what),
    }
    told.is_err() as i32
}

/// The engine on traps, and the slow one; `slow`: this alone.
fn trapped(which: Option<&str>) -> i32 {
    let lines = if which == Some("slow") { vec![] } else { traps::run(engine(false)) };
    lines.iter().for_each(|l| println!("{}", l.text()));
    traps::by_state(&lines).iter().for_each(|l| println!("{}", l));
    let [lent, job] = traps::most_stack(&lines);
    let [slow, many] = traps::slowest(&lines).map(|s| s * 1000.0);
    println!("slowest call: {:.3} ms, slowest MJ: {:.3} ms", slow, many);
    println!("most stack: {} bytes lent, {} as a job", lent, job);
    let slowly = traps::run_slowly(engine(false));
    slowly.iter().for_each(|l| println!("{}", l.text()));
    let [seconds, stack] = traps::most_slowly(&slowly);
    println!("the slow engine's slowest call: {:.3} ms; its most stack: {} bytes", seconds * 1000.0, stack);
    (lines.iter().any(traps::Line::slow) || slowly.iter().any(traps::Slow::over)) as i32
}

fn run(args: Vec<String>) -> i32 {
    let (flags, words): (Vec<String>, Vec<String>) = args.into_iter().partition(|a| a.starts_with("--"));
    let flag = |name: &str| flags.iter().any(|f| f == name);
    match words.first().map(String::as_str) {
        Some("log") => write(job::log(&read(words.get(1)), flag("--why"), flag("--state")).as_bytes()),
        Some("gen") if words.len() > 1 => write(list::print(&generate(&words[1..], flag("--cut"))).as_bytes()),
        Some("release") if words.len() == 4 => {
            let functions = release::release(number(words.get(1)), number(words.get(2)) as usize);
            written(&functions, words[3].as_ref()).unwrap_or_else(|e| fail(&format!("{}: {}", words[3], e)))
        }
        Some("check") => return check(&read_list(words.get(1))),
        Some("counts") => {
            let entries = read_list(words.get(1));
            println!("{} jobs", entries.len());
            for ((mark, answer), n) in list::counts(&entries) {
                println!("{} {} {}", mark, answer, n)
            }
        }
        Some("order") => {
            for (what, n) in order::compare(&read_list(words.get(1))) {
                println!("{}: {}", what, n)
            }
        }
        Some("compare") => {
            let named = |f: &String| {
                f.strip_prefix("--alter=").map(|w| compare::Alter::named(w).unwrap_or_else(|| fail(USAGE)))
            };
            let profile = |f: &String| {
                f.strip_prefix("--profile=").map(|w| gen::Profile::named(w).unwrap_or_else(|| fail(USAGE)))
            };
            let (alter, profile) = (flags.iter().find_map(named), flags.iter().find_map(profile));
            return compare(&words, engine(flag("--mimic")), alter, profile);
        }
        Some("spelled") if words.len() == 3 => {
            match spelled::many(engine(flag("--mimic")), number(words.get(1)), number(words.get(2))) {
                Ok(tally) => print!("{}", tally.text()),
                Err(what) => {
                    println!("FAULT: {}", what);
                    return 1;
                }
            }
        }
        Some("many") => match many::edges(engine(flag("--mimic"))) {
            Ok(tried) => println!("{} calls, all as they must be", tried),
            Err(what) => {
                println!("FAULT: {}", what);
                return 1;
            }
        },
        Some("twice") if words.len() == 3 => return twice(&words, engine(flag("--mimic"))),
        Some("keep") if words.len() == 3 => {
            match keep::all(engine(flag("--mimic")), number(words.get(1)), number(words.get(2))) {
                Ok(tried) => println!("{} calls, all as they must be", tried),
                Err(what) => {
                    println!("FAULT: {}", what);
                    return 1;
                }
            }
        }
        Some("bench") if words.get(1).map(String::as_str) == Some("once") => {
            let named = words.get(2).and_then(|w| bench::WORKS.into_iter().find(|n| n == w));
            let work = &bench::work(named.unwrap_or_else(|| fail(USAGE)));
            let side = words.get(3).filter(|s| bench::SIDES.contains(&s.as_str())).unwrap_or_else(|| fail(USAGE));
            let mut lent = bench::Lent::new();
            for _ in 0..number(words.get(4)) {
                bench::once(work, side, engine(false), &mut lent);
            }
            println!("{} records", work.records)
        }
        Some("bench") if words.get(1).map(String::as_str) == Some("marks") => {
            print!("{}", bench::apart::marks_once(engine(false)))
        }
        Some("bench") if words.get(1).map(String::as_str) == Some("costs") => {
            let runs = words.get(2).map_or(400, |w| number(Some(w)));
            print!("{}", bench::costs::table(engine(false), runs as usize))
        }
        Some("bench") => {
            let runs = words.get(1).map_or(200, |w| number(Some(w)));
            print!("{}", bench::table(engine(false), runs as usize))
        }
        Some("traps") => return trapped(words.get(1).map(String::as_str)),
        Some("damage") => return hurt(&words, engine(flag("--mimic"))),
        Some("joinlog") if words.len() == 2 => match program::run(engine(false), words[1].as_ref()) {
            Ok(told) => print!("{}", told),
            Err(what) => {
                println!("JOINLOG DIFFERS: {}", what);
                return 1;
            }
        },
        _ => fail(USAGE),
    }
    0
}

fn main() {
    let args = std::env::args().skip(1).collect();
    exit(job::with_stack(|| run(args)))
}
