//! The generator keeps its word.

use oracle::answer;
use oracle::compare::Comparison;
use oracle::generate::{self, Family};
use oracle::random::Random;

#[test]
fn sound_scripts_are_accepted() {
    for index in 0..3_000 {
        let source = generate::of_family(Family::Sound, &mut Random::new(7, index));
        if let Err(refusal) = answer::accept(&source) {
            panic!("{refusal}\n{}", String::from_utf8_lossy(&source));
        }
    }
}

#[test]
fn every_answer_comes_often_enough() {
    let comparison = Comparison { seed: 1, count: 5_000, rivals: Vec::new() };
    let tally = comparison.run().expect("no program, no difference");
    let refusals = [1, 4, 5, 6, 7, 8, 9, 10, 11, 12, 13, 14, 15, 16, 17];
    let mut labels: Vec<String> = refusals.map(|number| format!("refused {number:>2}")).to_vec();
    labels.extend(["returned", "waiting", "divided", "board 23", "board 24"].map(str::to_owned));
    for label in labels {
        assert!(tally.answers.of(&label) >= 10, "{label}\n{tally}");
    }
}

#[test]
fn a_seed_and_an_index_give_one_script() {
    for index in 0..50 {
        assert_eq!(generate::script(3, index).source, generate::script(3, index).source);
    }
    assert_ne!(generate::script(3, 1).source, generate::script(4, 1).source);
}
