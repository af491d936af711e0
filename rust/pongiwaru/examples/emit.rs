//! Writing a job (docs/RECORDS.md): the numbers of variables are learned from answers. Prints the job's log.
use pongiwaru::State;
use std::io::{stdout, Write};

// one record of the job: its payload, and the job is longer by it
fn ask(state: &mut State, job: &mut Vec<u8>, record: &[u8]) -> Vec<u8> {
    let (answer, payload) = state.record(record);
    job.extend_from_slice(record);
    assert!(answer.is_well(record, &payload), "{answer}, for whoever wrote the function");
    payload
}

// the variable that a payload shows: tag 6, location, number
fn variable(payload: &[u8]) -> [u8; 2] {
    assert_eq!(payload[0], 6);
    [payload[5], payload[6]]
}

fn var(location: u8, number: [u8; 2]) -> [u8; 7] {
    [6, location, 0, 0, 0, number[0], number[1]]
}

fn main() {
    let (mut state, mut job) = (State::fresh(), vec![]);
    let a = variable(&ask(&mut state, &mut job, b"FV\x01\0\0\0"));
    let b = variable(&ask(&mut state, &mut job, b"FV\x02\0\0\0"));
    // a merge takes a variable: the result is none of the two
    let c = variable(&ask(&mut state, &mut job, &[b"JN", &var(3, a)[..], &var(4, b)].concat()));
    // .. and so the next one is not the third
    let d = variable(&ask(&mut state, &mut job, b"FV\x05\0\0\0"));
    assert_eq!((c, d), ([2, 0], [3, 0]));
    let log = State::fresh().log(&job).expect("a fresh state is sound");
    stdout().write_all(&log).unwrap();
}
