//! Records answers of the crate, in the format of tools/oracle: lists `read`, `opened` and `built`, each a case file
//! (`.stdin`) and the crate's answers (`.stdout`). Arguments: a seed, then the folder to write into. Only answers that
//! are the crate's whole are kept; amendments are not, since the crate has none. The place of a refusal is not the
//! crate's: crosscheck computes it by the rules. Where ours departs from a kept answer, `departures` has a line: the list, the
//! case counted from 0, the row of docs/DIFFERENCES.md, and the answer that is due of ours.

use crosscheck::records::{hex, Case};
use crosscheck::{judge, Judged};
use differential::cases;
use differential::encode::record;
use differential::random::Random;
use factory::OpenSsl;
use std::path::Path;
use std::{env, fs};

/// How many answers of each call are kept: half of them accepted, half refused as far as the crate refuses there.
const EACH: usize = 100;
const NAMES: [&str; 3] = ["read", "opened", "built"];
/// Random cases tried; the last calls are full long before.
const TRIED: usize = 200_000;

#[derive(Default)]
struct List {
    cases: Vec<u8>,
    answers: String,
    count: usize,
}

impl List {
    fn push(&mut self, case: &Case, answer: &[u8]) {
        self.cases.extend(record(case));
        self.answers += &hex(answer);
        self.answers.push('\n');
        self.count += 1;
    }

    fn write(&self, folder: &Path, name: &str) {
        let path = folder.join(name);
        fs::write(path.with_extension("stdin"), &self.cases).expect("the case file");
        let text = format!("{}{} cases\n", self.answers, self.count);
        fs::write(path.with_extension("stdout"), text).expect("the answers");
        println!("{name}: {} cases", self.count);
    }
}

/// The call's number in the case files.
fn kind(case: &Case) -> usize {
    differential::encode::encode(case)[0].into()
}

fn main() {
    let mut arguments = env::args().skip(1);
    let seed = arguments.next().and_then(|text| text.parse().ok()).expect("a seed");
    let folder = arguments.next().expect("a folder");
    let mut random = Random::new(seed);
    let mut lists = [List::default(), List::default(), List::default()];
    let mut kept = [[0; 2]; 18];
    let mut departures = String::new();
    for _ in 0..TRIED {
        let case = cases::any(&mut random);
        let (answer, departs) = match judge::<OpenSsl>(&case) {
            Judged::Whole(answer) => (answer, None),
            Judged::PortAlone { theirs, ours } => (theirs, Some(ours.expect("the crate says what row 28 says"))),
            _ => continue,
        };
        let (kind, refused) = (kind(&case), usize::from(answer[0] != 0));
        if matches!(case, Case::AmendLent(_)) || kept[kind][refused] == EACH / 2 {
            continue;
        }
        kept[kind][refused] += 1;
        let list = match kind {
            13 | 14 | 16 => 0,
            9..=11 => 2,
            _ => 1,
        };
        if let Some(ours) = departs {
            departures += &format!("{} {} 28 {}\n", NAMES[list], lists[list].count, hex(&ours));
        }
        lists[list].push(&case, &answer);
    }
    for (list, name) in lists.iter().zip(NAMES) {
        list.write(Path::new(&folder), name);
    }
    fs::write(Path::new(&folder).join("departures"), departures).expect("the departures");
}
