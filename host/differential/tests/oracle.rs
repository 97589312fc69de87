//! The port on the oracle's lists and on the recorded ones: also where the crate is no judge.

use crosscheck::records::{answers, cases, Case};
use crosscheck::refusals::End;
use differential::port::{answer, write_command};
use std::path::Path;

fn list(folder: &str, name: &str) -> Vec<(Case, Vec<u8>)> {
    let path = Path::new(env!("CARGO_MANIFEST_DIR")).join("../..").join(folder).join(name);
    let cases = cases(&std::fs::read(path.with_extension("stdin")).unwrap());
    let answers = answers(&std::fs::read_to_string(path.with_extension("stdout")).unwrap());
    assert_eq!(cases.len(), answers.len());
    cases.into_iter().zip(answers).collect()
}

/// The safe crate has no open frame where an opening for amendments is refused: its answer ends with that refusal.
fn due_of_the_port(case: &Case, due: Vec<u8>) -> Vec<u8> {
    match (case, End::split(&due).0) {
        (Case::Amend(_) | Case::Hold(_), end) if end != End::ACCEPTED => end.bytes(),
        _ => due,
    }
}

/// A command is an enum in Rust: an unknown one, and a value beyond a field's type, cannot be said, and must be refused.
fn cannot_be_said(case: &Case, due: &[u8]) -> bool {
    match case {
        Case::WriteCommand(call) if write_command(call).is_none() => {
            assert!(due[0] == 16 || due[0] == 18);
            true
        }
        _ => false,
    }
}

/// Where the port departs from a recorded answer of the crate: the list, the case, and the answer that is due of the port.
fn departures() -> Vec<(String, usize, Vec<u8>)> {
    let path = Path::new(env!("CARGO_MANIFEST_DIR")).join("../recorded/departures");
    let text = std::fs::read_to_string(path).unwrap();
    let line = |line: &str| match line.split(' ').collect::<Vec<_>>()[..] {
        [list, case, "28", due] => {
            (list.into(), case.parse().unwrap(), answers(&format!("{due}\n1 cases\n")).remove(0))
        }
        _ => panic!("a line of departures: {line}"),
    };
    text.lines().map(line).collect()
}

fn compared(folder: &str, names: &[&str], departures: &[(String, usize, Vec<u8>)]) {
    for name in names {
        let mut left_out = 0;
        for (place, (case, mut due)) in list(folder, name).into_iter().enumerate() {
            if let Some((_, _, ours)) = departures.iter().find(|(list, at, _)| list == name && *at == place) {
                assert_ne!(*ours, due, "no departure: {name}, record {place}");
                due.clone_from(ours);
            }
            if cannot_be_said(&case, &due) {
                left_out += 1;
            } else {
                assert_eq!(answer(&case), due_of_the_port(&case, due), "{folder}, {name}, record {place}");
            }
        }
        println!("{folder}, {name}: {left_out} cases cannot be said to the safe crate");
    }
}

#[test]
fn answers_of_the_oracle() {
    compared("tools/oracle/out", &["read", "opened", "built", "amended", "held", "places", "commands"], &[]);
}

#[test]
fn answers_of_the_crate() {
    let departures = departures();
    compared("host/recorded", &["read", "opened", "built"], &departures);
    assert_eq!(departures.len(), 1);
}
