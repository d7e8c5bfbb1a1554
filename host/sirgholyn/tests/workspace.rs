//! The workspace that the rule asks for is enough, and more of it changes nothing: formulas on which a run fills it many
//! times over, and those that need much of it at once.

mod common;
#[path = "../benches/vectors/mod.rs"]
mod vectors;

use common::formulas::{
    any_kind_joined, clash_chain, clashes_apart, clashing, unit_chain, wide_over_choices,
    wide_over_valley, with_pairs, Order,
};
use common::{
    compare_read_back, expect_reencoded, in_model, new_formula, over_seeds, run_model, work_for,
    Room, WAYS,
};
use model::encoding::Encoding;
use model::generator::{clauses_apart, text_of, Random};
use model::reading::{read_formula, Formula, INPUT_LIMITS};
use model::valleys::Valley;
use sirgholyn::{Arrangement, Form, Settings};

fn by_model(text: &[u8], way: Settings, work: usize) -> Result<model::Reencoded, u8> {
    let room = model::Room {
        workspace: work as u64,
        ..model::Room::enough()
    };
    model::reencode(text, in_model(way), room)
}

/// Whether all clauses of the run and two entries for each of their literals are more than the rule asks for, so that
/// the deleted ones cannot all be kept.
fn is_filled(formula: &Formula, encoding: &Encoding) -> bool {
    let added = encoding.log.iter().filter(|line| !line.deletion);
    let added = added.map(|line| line.literals.len());
    let sizes = formula.clauses.iter().map(Vec::len).chain(added);
    let entries: usize = sizes.map(|size| 1 + 3 * size).sum();
    entries > work_for(formula)
}

/// The model's bytes on just enough workspace, on one entry more and on twice as much; on one entry less number 11.
/// The new formula is read back on just enough and on one entry less. The answer tells whether the run fills the
/// workspace.
fn expect_enough(text: &[u8], way: Settings) -> bool {
    let formula = read_formula(text, &INPUT_LIMITS).unwrap();
    let encoding = run_model(&formula, way);
    let enough = Room::exact(&formula, &encoding);
    let expected = by_model(text, way, enough.work);
    for work in [enough.work, enough.work + 1, 2 * enough.work] {
        let room = Room { work, ..enough };
        let number = expect_reencoded(&expected, text, way, &mut vec![-7; work], room);
        assert_eq!(number, 0, "{way:?} {work}");
    }
    let work = enough.work - 1;
    let room = Room { work, ..enough };
    let number = expect_reencoded(&Err(11), text, way, &mut vec![-7; work], room);
    assert_eq!(number, 11, "{way:?}");

    let new = new_formula(&encoding);
    let store = work_for(&new);
    assert_eq!(compare_read_back(&text_of(&new), store), 0);
    assert_eq!(compare_read_back(&text_of(&new), store - 1), 11);
    is_filled(&formula, &encoding)
}

#[test]
fn clashes() {
    for way in WAYS {
        assert!(expect_enough(&unit_chain(500), way));
        assert!(expect_enough(&clash_chain(300), way));
        assert!(!expect_enough(&clashes_apart(1_200), way));
    }
}

#[test]
fn wide_clauses_over_choices() {
    let random = &mut Random::new(1);
    let valley = Valley::random(random, 60, 6, 100);
    let linked = wide_over_valley(random, &valley, 40);
    for way in WAYS {
        for text in [
            &wide_over_choices(5, 80, 1_200),
            &wide_over_choices(64, 30, 6_000),
            &linked,
        ] {
            assert_eq!(expect_enough(text, way), way.form == Form::Order);
        }
    }
}

#[test]
fn choices() {
    for way in WAYS {
        for formula in [
            clauses_apart(64, 125),
            clauses_apart(5, 1_600),
            with_pairs(64, 4, 2),
        ] {
            expect_enough(&text_of(&formula), way);
        }
    }
}

/// Long logs, compared with those of the implementation with vectors: the workspace is filled many times over.
#[test]
fn long_logs() {
    for (text, form, megabytes) in [
        (unit_chain(3_000), Form::Counter, 50..55),
        (wide_over_choices(5, 500, 15_000), Form::Order, 120..130),
    ] {
        let way = Settings::new(form, Arrangement::Alignment);
        let formula = read_formula(&text, &INPUT_LIMITS).unwrap();
        let new = vectors::reencode(&text, way.form, way.arrangement)
            .ok()
            .unwrap();
        assert!(megabytes.contains(&(new.log.len() / 1_000_000)));
        let expected = model::Reencoded {
            choices: new.choices,
            highest: new.highest,
            clauses: new.clauses,
            lines: new.lines,
            log: new.log,
            formula: new.formula,
            // what stands on its own is taken as it is, each choice of five
            table: (0..new.choices)
                .map(|place| model::ChoiceRecord {
                    first: formula.variables + 1 + 4 * place as i32,
                    length: 5,
                    clauses: 1,
                })
                .collect(),
        };
        let room = Room {
            work: work_for(&formula),
            log: expected.log.len(),
            formula: expected.formula.len(),
            table: new.choices,
        };
        let work = &mut vec![-7; room.work];
        let number = expect_reencoded(&Ok(expected), &text, way, work, room);
        assert_eq!(number, 0);
    }
}

/// What another run has left in the workspace does not matter.
#[test]
fn used_workspace() {
    over_seeds(0..600, |seed, _: &mut ()| {
        let random = &mut Random::new(seed);
        let way = *random.one_of(&WAYS);
        let texts = [
            any_kind_joined(random).text,
            text_of(&clashing(random, Order::Mixed)),
            any_kind_joined(random).text,
        ];
        let mut work = vec![-7; 1 << 20];
        for text in &texts {
            let formula = read_formula(text, &INPUT_LIMITS).unwrap();
            let enough = Room::exact(&formula, &run_model(&formula, way));
            let expected = by_model(text, way, enough.work);
            let own = &mut work[..enough.work];
            assert_eq!(expect_reencoded(&expected, text, way, own, enough), 0);
        }
    });
}
