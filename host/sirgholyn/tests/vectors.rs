//! The baseline of the benchmark, an ordinary implementation with vectors, gives the model's bytes and numbers.

mod common;
#[path = "../benches/vectors/mod.rs"]
mod vectors;

use common::formulas::{any_kind_joined, clash_chain, clashing, wide_over_choices, Order};
use common::{in_model, WAYS};
use model::generator::{damage, largest_with, text_of, Random};
use model::valleys::Valley;

/// Compares number, counts and every byte in all ways; the answer is the number.
fn compare(text: &[u8]) -> u8 {
    let mut number = 0;
    for way in WAYS {
        let expected = model::reencode(text, in_model(way), model::Room::enough());
        let found = vectors::reencode(text, way.form, way.arrangement);
        let seen = || format!("{way:?} {}", String::from_utf8_lossy(text));
        match (expected, found) {
            (Ok(expected), Ok(found)) => {
                let numbers = [found.choices, found.clauses, found.lines];
                assert_eq!(
                    numbers,
                    [expected.choices, expected.clauses, expected.lines]
                );
                assert_eq!(found.highest, expected.highest);
                assert!(found.log == expected.log, "another log: {}", seen());
                assert!(
                    found.formula == expected.formula,
                    "another formula: {}",
                    seen()
                );
            }
            (Err(expected), Err(found)) => {
                assert_eq!(found, expected, "{}", seen());
                number = found;
            }
            _ => panic!("one is refused: {}", seen()),
        }
    }
    number
}

#[test]
fn random_formulas() {
    for seed in 0..1_000 {
        let random = &mut Random::new(seed);
        assert_eq!(compare(&any_kind_joined(random).text), 0);
    }
}

#[test]
fn clashes() {
    for seed in 0..50 {
        for order in [Order::Rising, Order::Falling, Order::Mixed] {
            let random = &mut Random::new(seed);
            assert_eq!(compare(&text_of(&clashing(random, order))), 0);
        }
    }
    assert_eq!(compare(&clash_chain(100)), 0);
}

#[test]
fn valleys() {
    for seed in 0..8 {
        let random = &mut Random::new(seed);
        for valley in [
            Valley::random(random, 40, 8, 104),
            Valley::crowded(random, 7, 6, 20),
        ] {
            assert_eq!(compare(&text_of(&valley.formula())), 0);
            assert_eq!(compare(&text_of(&valley.shuffled_formula(random))), 0);
        }
    }
}

#[test]
fn large() {
    assert_eq!(compare(&largest_with(64)), 0);
    assert_eq!(compare(&wide_over_choices(5, 60, 1_000)), 0);
}

#[test]
fn damaged_texts() {
    let mut numbers = [0; 10];
    for seed in 0..2_000 {
        let random = &mut Random::new(seed);
        let mut text = any_kind_joined(random).text;
        for _ in 0..random.between(1, 3) {
            text = damage(random, &text);
        }
        numbers[usize::from(compare(&text))] += 1;
    }
    assert!([1, 2, 3, 4, 7, 8].iter().all(|&number| numbers[number] > 0));
}
