//! Case files are written as they are read, and the recorded answers are the crate's, over either cipher.

use crosscheck::records::{answers, cases};
use crosscheck::{judge, Judge, Judged};
use differential::cases::{any, any_held};
use differential::encode::record;
use differential::lists;
use differential::random::Random;
use factory::{OpenSsl, Soft};
use std::path::Path;

#[test]
fn written_and_read() {
    let mut random = Random::new(7);
    let drawn = (0..8000).map(|i| match i {
        0..5000 => any(&mut random),
        5000..6000 => any_held(&mut random),
        _ => lists::any(&mut random),
    });
    let file: Vec<u8> = drawn.flat_map(|case| record(&case)).collect();
    let again: Vec<u8> = cases(&file).iter().flat_map(record).collect();
    assert_eq!(file, again);
}

fn recorded<F: Judge>(list: &str) -> usize {
    let path = Path::new(env!("CARGO_MANIFEST_DIR")).join("../recorded").join(list);
    let cases = cases(&std::fs::read(path.with_extension("stdin")).unwrap());
    let answers = answers(&std::fs::read_to_string(path.with_extension("stdout")).unwrap());
    assert_eq!(cases.len(), answers.len());
    for (case, answer) in cases.iter().zip(answers) {
        let (Judged::Whole(theirs) | Judged::PortAlone { theirs, .. }) = judge::<F>(case) else { panic!("not whole") };
        assert_eq!(theirs, answer);
    }
    cases.len()
}

#[test]
fn recorded_answers() {
    let lists = ["read", "opened", "built"];
    assert_eq!(lists.map(recorded::<OpenSsl>), [300, 800, 150]);
    assert_eq!(lists.map(recorded::<Soft>), [300, 800, 150]);
}
