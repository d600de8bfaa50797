//! The random directories are what they are made for.

use esi::directory::{look_up, Broken, Directory};
use esi::entry::{text_of, Rule};
use esi::sample::{sample, Place, LONGEST_TEXT, MOST_RECORDS, PLACES, ROUND, RULES};
use std::collections::HashSet;

#[test]
fn a_round_breaks_each_rule_at_each_place() {
    let broken: HashSet<_> = (0..ROUND).filter_map(|seed| sample(seed).broken).collect();
    assert_eq!(broken.len(), RULES.len() * PLACES.len());
}

#[test]
fn the_rule_that_is_meant_is_broken_where_it_is_meant() {
    for seed in 0..10 * ROUND {
        let sample = sample(seed);
        let read = Directory::read(&sample.directory);
        let Some((rule, place)) = sample.broken else {
            let entries = read.unwrap().entries().to_vec();
            assert!(entries.len() <= MOST_RECORDS);
            for entry in &entries {
                let text = text_of(&entry.id).into_bytes();
                assert_eq!(look_up(&sample.directory, &text), (0, entry.premise));
            }
            continue;
        };
        let Broken { rule: met, record } = read.unwrap_err();
        assert_eq!(met, rule, "seed {seed}");
        if !matches!(rule, Rule::Length | Rule::IdOnce | Rule::PremiseOnce) {
            let count = sample.directory.len() / 24;
            let meant = match place {
                Place::First => 0,
                Place::Middle => count / 2,
                Place::Last => count - 1,
            };
            assert_eq!(record, meant, "seed {seed}");
        }
    }
}

#[test]
fn texts_have_every_length_and_meet_every_answer() {
    let mut answers = HashSet::new();
    for seed in 0..ROUND {
        let sample = sample(seed);
        let lengths: HashSet<usize> = sample.texts.iter().map(Vec::len).collect();
        assert!((0..=LONGEST_TEXT).all(|length| lengths.contains(&length)));
        assert!(sample.texts.iter().all(|text| !text.contains(&0)));
        answers.extend(
            sample
                .texts
                .iter()
                .map(|text| look_up(&sample.directory, text).0),
        );
    }
    assert_eq!(answers, HashSet::from([0, 20, 21, 22]));
}
