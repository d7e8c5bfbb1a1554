//! The sizes told before the run: those of the sessions, of numbers of every length, of the largest formulas; and the
//! buffers that are made by them.

mod common;

use common::formulas::{clash_chain, unit_chain, wide_over_choices};
use common::{
    compare_sizes, counts_of, expect_exact, work_for, write_sizes, NO_STEPS, STEPS, WAYS,
};
use model::generator::{clauses_apart, largest_with, text_of, Random};
use model::reading::{read_formula, Formula, INPUT_LIMITS};
use model::sessions::{CHAIN, COPIES, F, SIX};
use model::texts::formula_text;
use model::valleys::Valley;
use sirgholyn::{reencode, sizes, walk_back, Error, ReencodeRoom, Refusal, Settings, WalkBackRoom};

/// The workspace that the rule asks for.
fn work_of(text: &[u8]) -> usize {
    work_for(&read_formula(text, &INPUT_LIMITS).unwrap())
}

/// The model's sizes on just enough workspace, with which just these buffers are accepted and each one short is not.
/// On one entry less number 11.
fn expect_told(text: &[u8], way: Settings) -> [u64; 6] {
    let work = work_of(text);
    assert_eq!(compare_sizes(text, way, work - 1), Err(11));
    let tally = compare_sizes(text, way, work).unwrap();
    expect_exact(text, way, work, tally);
    assert_eq!(sizes(text, way, None), Ok(tally));
    counts_of(&tally)
}

#[test]
fn sessions() {
    for (text, counter, order) in [
        ("p cnf 0 0", [0, 0, 0, 0, 0, 10], [0, 0, 0, 0, 0, 10]),
        ("p cnf 0 1\n0\n", [0, 0, 1, 0, 0, 12], [0, 0, 1, 0, 0, 12]),
        (
            "p cnf 3 2\n1 2 0\n-1 3 0\n",
            [0, 3, 0, 4, 31, 10],
            [0, 3, 0, 4, 31, 10],
        ),
        (F, [1, 10, 21, 18, 150, 175], [1, 10, 8, 41, 371, 77]),
        (SIX, [1, 11, 20, 21, 179, 175], [1, 11, 4, 37, 343, 42]),
        (COPIES, [1, 9, 20, 21, 175, 152], [1, 9, 7, 42, 351, 53]),
        (CHAIN, [1, 13, 20, 27, 261, 187], [1, 13, 4, 43, 433, 46]),
    ] {
        for way in &WAYS[..2] {
            assert_eq!(expect_told(text.as_bytes(), *way), counter, "{text}");
        }
        for way in &WAYS[2..] {
            assert_eq!(expect_told(text.as_bytes(), *way), order, "{text}");
        }
    }
}

/// One choice whose literals and new variables have numbers of every length up to the limit, beside others.
#[test]
fn numbers_of_every_length() {
    for last in [5, 6, 9, 10, 95, 99, 100, 995, 999, 1_000, 7_999, 8_000] {
        for (sign, others) in [(1, 0), (-1, 4)] {
            let choice: Vec<i32> = (last - 4..=last).map(|variable| sign * variable).collect();
            let others = vec![vec![-choice[1], -choice[3]]; others];
            let text = formula_text(last, &[vec![choice], others].concat());
            for way in WAYS {
                for step in STEPS {
                    expect_told(&text, way.with_step(step));
                }
            }
        }
    }
}

/// As many choices of five as reach a number's length, and one fewer: the new formula's header counts its clauses.
#[test]
fn counts_of_every_length() {
    let mut lengths = std::collections::BTreeSet::new();
    for count in [
        0, 1, 2, 3, 6, 7, 8, 33, 34, 71, 72, 333, 334, 714, 715, 1_600,
    ] {
        let text = text_of(&clauses_apart(5, count));
        for way in WAYS {
            let [_, highest, clauses, ..] = expect_told(&text, way);
            lengths.insert([highest, clauses].map(|number| number.to_string().len()));
        }
    }
    let of = |place: usize| lengths.iter().map(move |length| length[place]);
    assert_eq!((of(0).max(), of(1).max()), (Some(5), Some(5)));
    for length in 1..=5 {
        assert!(of(0).any(|found| found == length) && of(1).any(|found| found == length));
    }
}

/// As many counts as fit are written, and nothing past them; a refusal leaves all of the tally zero.
#[test]
fn tallies_of_any_length() {
    let expected = [1, 10, 8, 41, 371, 77];
    for room in 0..=8 {
        let told = |work: usize| {
            let mut tally = vec![u64::MAX; room];
            let number = write_sizes(F.as_bytes(), WAYS[2], &mut vec![0; work], &mut tally);
            (number, tally)
        };
        let (number, tally) = told(8_972);
        let fits = room.min(expected.len());
        assert_eq!((number, &tally[..fits]), (0, &expected[..fits]));
        assert!(tally[fits..].iter().all(|&count| count == u64::MAX));
        assert_eq!(told(8_971), (11, vec![0; room]));
    }
}

/// Each number that there is, with all of the tally zero; `compare_sizes` looks at it.
#[test]
fn tally_zero_after_a_refusal() {
    let most = text_of(&clauses_apart(5, 1_600));
    let clause: Vec<i32> = (1..=1_000).collect();
    let clauses = [vec![clause; 60], vec![vec![1]]].concat();
    let long = text_of(&Formula::new(1_000, clauses));
    let enough = work_of(&most);
    for (number, text, step, work) in [
        (1, &b"p cnf 1"[..], 1, enough),
        (2, b"p cnf 8001 0", 1, enough),
        (3, b"p cnf 1 1\nx 0", 1, enough),
        (4, b"p cnf 1 1\n2 0", 1, enough),
        (7, b"p cnf 1 1\n1", 1, enough),
        (8, b"p cnf 1 1\n1 0 1 0", 1, enough),
        (9, &long, 1, enough),
        (11, &most, 1, enough - 1),
        (11, b"p cnf 0 0", 1, 0),
        (16, &most, 39, enough),
        (16, &most, 100, enough),
    ] {
        for way in WAYS {
            let way = way.with_step(step);
            assert_eq!(compare_sizes(text, way, work), Err(number));
            for step in NO_STEPS {
                let refused = compare_sizes(text, way.with_step(step), work);
                assert_eq!(refused, Err(15));
            }
            let mut none = [];
            assert_eq!(
                write_sizes(text, way, &mut vec![0; work], &mut none),
                number
            );
        }
    }
}

// Buffers

/// No buffer that comes back is larger than what it holds.
#[test]
fn buffers_are_just_so_large() {
    for text in [
        b"p cnf 0 0".to_vec(),
        F.into(),
        CHAIN.into(),
        text_of(&valley_of(75)),
        text_of(&clauses_apart(5, 1_600)),
        clash_chain(700),
        largest_with(64),
    ] {
        for way in WAYS {
            let new = reencode(&text, way, ReencodeRoom::default()).unwrap();
            assert_eq!(sizes(&text, way, None), Ok(new.tally));
            for (capacity, length, told) in [
                (new.log.capacity(), new.log.len(), new.tally.log_bytes),
                (
                    new.formula.capacity(),
                    new.formula.len(),
                    new.tally.formula_bytes,
                ),
                (
                    new.table.capacity(),
                    new.table.len(),
                    new.tally.choices as usize,
                ),
            ] {
                assert_eq!((capacity, length), (told, told), "{way:?}");
            }
        }
    }
}

/// A room that is set stays as it is set.
#[test]
fn rooms_that_are_larger() {
    let new = reencode(F.as_bytes(), WAYS[3], ReencodeRoom::default()).unwrap();
    let larger = ReencodeRoom {
        work: Some(1 << 20),
        log: Some(1_000),
        formula: Some(500),
        table: Some(9),
    };
    let found = reencode(F.as_bytes(), WAYS[3], larger).unwrap();
    assert_eq!(found, new);
    let rooms = [
        found.log.capacity(),
        found.formula.capacity(),
        found.table.capacity(),
    ];
    assert_eq!(rooms, [1_000, 500, 9]);
}

/// A log some hundred times as long as its formula, of just its own length, walked back over.
#[test]
fn a_log_far_longer_than_its_formula() {
    let text = clash_chain(700);
    let new = reencode(&text, WAYS[0], ReencodeRoom::default()).unwrap();
    assert!(new.log.len() > 100 * text.len());
    let none = b"s SATISFIABLE\nv 0\n";
    let lines = new.tally.lines as usize;
    let line = walk_back(&text, &new.log, lines, none, WalkBackRoom::default());
    assert_eq!(line, Err(Error::Refused(Refusal(44))));
}

// Large formulas

fn valley_of(traps: usize) -> Formula {
    Valley::random(&mut Random::new(1), traps, 12, traps * 13 / 5).formula()
}

#[test]
fn a_valley_of_600_traps() {
    let text = text_of(&valley_of(600));
    for way in WAYS {
        for (step, highest) in [(1, 13_778), (10, 19_151)] {
            let [choices, found, ..] = expect_told(&text, way.with_step(step));
            // the rules of two traps clash until nothing of them is left
            assert_eq!((choices, found), (598, highest));
        }
    }
}

/// The longest logs there are in the benchmarks: 0.4 and 1.5 GB, of which nothing is written.
#[test]
fn the_longest_logs() {
    for (text, way, expected) in [
        (
            unit_chain(8_000),
            WAYS[1],
            [0, 8_000, 1, 24_000, 383_111_010, 15],
        ),
        (
            wide_over_choices(5, 1_600, 52_000),
            WAYS[3],
            [1_600, 14_400, 4_822, 117_334, 1_476_782_957, 712_073],
        ),
    ] {
        let tally = sizes(&text, way, Some(work_of(&text))).unwrap();
        assert_eq!(counts_of(&tally), expected);
    }
}
