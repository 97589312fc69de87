//! Compares the oracle's answers with the crate's. Arguments: the folder with the lists (tools/oracle/out if none is
//! given), then the lists' names (all if none is given). Ends with 1 if there is a difference.

use crosscheck::records::{answers, cases, hex, Case};
use crosscheck::refusals::End;
use crosscheck::{end_due, judge, read_back, Judge, Judged};
use factory::{OpenSsl, Soft};
use std::path::{Path, PathBuf};
use std::{env, fs, process};

const LISTS: [&str; 7] = ["read", "opened", "built", "amended", "held", "places", "commands"];

#[derive(Default)]
struct Counts {
    cases: usize,
    compared: usize,
    port_alone: usize,
    to_fault: usize,
    number_only: usize,
    outside: usize,
    read_back: usize,
    differences: usize,
}

fn differs(list: &str, record: usize, ours: &[u8], crate_says: &str) {
    println!("{list}, record {record}: oracle {}, crate {crate_says}", hex(ours));
}

impl Counts {
    /// What the crate says to a case where the oracle says something else, or the rule where the crate is no judge.
    fn judged<F: Judge>(&mut self, case: &Case, ours: &[u8]) -> Option<String> {
        let end = || End::split(ours).0;
        let whole = |theirs: Vec<u8>| (ours != theirs).then(|| hex(&theirs));
        match judge::<F>(case) {
            Judged::Outside => {
                self.outside += 1;
                let says = "is no judge, the place is not the one that the rules name";
                (end() != end_due(case, end().number)).then(|| says.into())
            }
            Judged::Number(number) => {
                self.number_only += 1;
                (end() != End::refused(number)).then(|| format!("{number:02x} (number only)"))
            }
            Judged::Whole(theirs) => {
                self.compared += 1;
                whole(theirs)
            }
            Judged::PortAlone { theirs, ours: due } => {
                self.port_alone += 1;
                (due.as_deref() != Some(ours)).then(|| format!("{} (row 28)", hex(&theirs)))
            }
            Judged::ToFault(theirs) => {
                self.to_fault += 1;
                whole(theirs)
            }
        }
    }
}

fn compare<F: Judge>(list: &str, folder: &Path) -> Counts {
    let input = fs::read(folder.join(list).with_extension("stdin")).expect("the list's cases");
    let output = fs::read_to_string(folder.join(list).with_extension("stdout")).expect("the list's answers");
    let (cases, answers) = (cases(&input), answers(&output));
    assert_eq!(cases.len(), answers.len());
    let mut counts = Counts { cases: cases.len(), ..Counts::default() };
    for (i, (case, ours)) in cases.iter().zip(&answers).enumerate() {
        if let Some(says) = counts.judged::<F>(case, ours) {
            counts.differences += 1;
            differs(list, i, ours, &says);
        }
        if let Some(good) = read_back::<F>(case, ours) {
            counts.read_back += 1;
            if !good {
                counts.differences += 1;
                differs(list, i, ours, "reads it otherwise");
            }
        }
    }
    counts
}

fn report<F: Judge>(cipher: &str, lists: &[String], folder: &Path) -> usize {
    let mut differences = 0;
    for list in lists {
        let c = compare::<F>(list, folder);
        println!(
            "{cipher}, {list}: {} cases, {} compared whole, {} by row 28, {} up to a fault, {} by number, {} outside, {} read back, {} differences",
            c.cases, c.compared, c.port_alone, c.to_fault, c.number_only, c.outside, c.read_back, c.differences
        );
        differences += c.differences;
    }
    differences
}

fn main() {
    let mut arguments = env::args().skip(1);
    let default = Path::new(env!("CARGO_MANIFEST_DIR")).join("../../tools/oracle/out");
    let folder = arguments.next().map_or(default, PathBuf::from);
    let mut lists: Vec<String> = arguments.collect();
    if lists.is_empty() {
        lists = LISTS.map(String::from).to_vec();
    }
    let differences = report::<OpenSsl>("OpenSSL", &lists, &folder) + report::<Soft>("aes-soft", &lists, &folder);
    println!("{differences} differences");
    process::exit((differences > 0).into());
}
