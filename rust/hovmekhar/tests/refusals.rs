//! The kinds of refusals, and what they say.

use hovmekhar::{Kind, Refusal};
use std::collections::HashSet;

/// Each number of the refusal table has its kind, and no other number has one.
#[test]
fn kinds_and_numbers() {
    let numbers: Vec<u8> = Kind::ALL.iter().map(|kind| kind.number()).collect();
    assert_eq!(numbers, (1..=23).collect::<Vec<u8>>());
    for number in 0..=u8::MAX {
        let kind = Refusal { number, spot: 3 }.kind();
        assert_eq!(
            kind.map(Kind::number),
            numbers.contains(&number).then_some(number)
        );
        assert_eq!(Kind::of(number), kind);
    }
}

/// Each kind has its own text and, but for two that ask the same, its own advice.
#[test]
fn texts() {
    let texts: HashSet<&str> = Kind::ALL.iter().map(|kind| kind.text()).collect();
    assert_eq!(texts.len(), Kind::ALL.len());
    let advice: HashSet<&str> = Kind::ALL.iter().map(|kind| kind.advice()).collect();
    assert_eq!(advice.len(), Kind::ALL.len() - 1);
    for kind in Kind::ALL {
        assert_eq!(kind.to_string(), kind.text());
        assert!(!kind.text().is_empty() && !kind.advice().is_empty());
    }
}

/// A refusal says its number and a sentence, which has the spot, but for those whose
/// spot is always the same.
#[test]
fn sentences() {
    for kind in Kind::ALL {
        let number = kind.number();
        let refusal = Refusal { number, spot: 777 };
        let sentence = refusal.sentence().to_string();
        assert_eq!(refusal.to_string(), format!("refusal {number}: {sentence}"));
        let one_spot = [1, 4, 14, 19, 22].contains(&number);
        assert_eq!(sentence == kind.text(), one_spot, "{sentence}");
        assert_eq!(sentence.contains("777"), !one_spot, "{sentence}");
    }
    let unknown = Refusal { number: 0, spot: 0 };
    assert_eq!(unknown.to_string(), "refusal 0: no refusal has this number");
}

/// Answers can be keys.
#[test]
fn answers_are_hashed() {
    let bundle = [1, 0, 1, 0, 0, 0, 0, 1, 0, 0, 0];
    let (tally, _) = hovmekhar::judge_vec(&bundle).expect("accepted");
    assert!(HashSet::from([tally]).contains(&tally));
    let screened = hovmekhar::screen(&bundle, &[0]).expect("screened");
    assert!(HashSet::from([screened]).contains(&screened));
    let mut table = [0; hovmekhar::TABLE_SIZE];
    let summary = hovmekhar::Summary::fresh(1, &mut table).expect("a log");
    assert!(HashSet::from([summary]).contains(&summary));
}
