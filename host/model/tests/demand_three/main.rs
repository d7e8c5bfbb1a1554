//! Random small formulas. By full truth tables, every cut of the log and every assignment: demand 3, and the way
//! forward. Every cut and every plan: plans carried forward. In counter form, the number of lines.

mod back;
mod drawing;
mod forward;
mod lines;
mod lists;
mod occurred;
mod plans;
mod records;
mod tables;

use drawing::{drawn, drawn_cut, for_each_drawn, Drawn, WAYS};
use lists::{apply, count_holding, long_unique, unclashed};
use model::clearing::written_first;
use model::encoding::{Encoding, Tally};
use model::generator::{clauses_apart, paired, Joined, Random};
use model::texts::Line;
use model::{Arrangement, Form, Settings};
use occurred::{add_up, Occurred};
use plans::{Carried, OwnLog};
use records::used;
use std::ops::Range;
use tables::Tables;

/// Runs the formulas of the seeds that need at most so many variables.
fn run(seeds: Range<u64>, variables: (usize, usize), most: usize) -> Occurred {
    run_with(seeds, |random| drawn(random, variables), most, &[1])
}

/// The same on drawn formulas, each with one of the steps.
fn run_with(
    seeds: Range<u64>,
    draw: impl Fn(&mut Random) -> Joined,
    most: usize,
    steps: &[u32],
) -> Occurred {
    let mut occurred = Occurred::default();
    for_each_drawn(seeds, draw, steps, |drawn, random| {
        let Drawn {
            joined,
            settings,
            encoding,
        } = drawn;
        if used(&joined.formula, encoding).len() > most {
            return;
        }
        occurred.count(joined, encoding);
        let forward = &mut occurred.forward;
        if back::check(joined, *settings, random, forward) {
            occurred.count_satisfiable(&joined.formula, encoding, *settings);
        }
    });
    occurred
}

#[test]
fn small_formulas() {
    let occurred = run(0..6_000, (0, 12), 14);
    println!("{occurred:#?}");
    let tally = &occurred.tally;
    for count in [
        occurred.with_choice,
        occurred.with_joined_choice,
        occurred.satisfiable_with_free_choice,
        occurred.satisfiable_with_joined_free_choice,
        occurred.with_repeat,
        occurred.with_repeat_in_choice,
        occurred.left_out,
        occurred.left_out_beside_choice,
        tally.chained_clashes,
        tally.double_clashes,
        tally.empty_resolvents,
        tally.pure,
        tally.repeated_pairs,
        tally.several_negated,
        tally.replaced_by_nothing,
    ] {
        assert!(count > 50);
    }
    for tally in &occurred.satisfiable_tallies {
        assert_pairs(tally, 30);
    }
    assert_forward(&occurred, 500);
}

/// Choices with no, some and all pairs, and pairs in several copies, each more than so often.
fn assert_pairs(tally: &Tally, least: usize) {
    for count in [
        tally.unpaired,
        tally.partly_paired,
        tally.fully_paired,
        tally.repeated_pairs,
    ] {
        assert!(count > least);
    }
}

/// More than so many lines -li -s(i-1) changed an assignment, and none of them carries forward as -s(i-1) -li.
fn assert_forward(occurred: &Occurred, least: usize) {
    let forward = &occurred.forward;
    assert!(forward.changing_exclusions > least);
    assert_eq!(forward.failing_if_turned, forward.changing_exclusions);
}

#[test]
fn formulas_with_two_choices() {
    let occurred = run(0..600, (10, 11), 19);
    println!("{occurred:#?}");
    assert!(occurred.with_two_choices > 10);
    assert!(occurred.with_free_of_two_choices > 10);
    assert!(occurred.satisfiable_with_free_choice > 50);
    assert!(occurred.satisfiable_with_joined_free_choice > 10);
    assert!(occurred.with_repeat_in_choice > 10);
    assert!(occurred.left_out_beside_choice > 10);
    assert!(occurred.tally.aligned > 2);
    assert!(occurred.tally.unalignable > 2);
    for tally in &occurred.satisfiable_tallies {
        assert_pairs(tally, 5);
    }
    assert_forward(&occurred, 100);
}

/// Skipped numbers are in the tables where the highest is small, else only the numbers used.
fn with_steps(seeds: Range<u64>) -> Occurred {
    run_with(seeds, |random| drawn_cut(random, (0, 9)), 14, &[2, 3, 4, 7])
}

fn two_with_steps(seeds: Range<u64>) -> Occurred {
    let draw = |random: &mut Random| drawn_cut(random, (10, 11));
    run_with(seeds, draw, 20, &[2, 3, 5, 39, 100])
}

#[test]
fn small_formulas_with_steps() {
    let occurred = with_steps(10_000..14_000);
    println!("{occurred:#?}");
    assert!(occurred.tally.replaced_by_nothing > 50);
    for stepped in &occurred.stepped {
        for count in [
            stepped.skipping,
            stepped.skipping_within_full,
            stepped.joined,
            stepped.joined_of_three,
        ] {
            assert!(count > 20);
        }
    }
    assert_forward(&occurred, 300);
}

#[test]
fn formulas_with_two_choices_and_steps() {
    let occurred = two_with_steps(20_000..20_800);
    println!("{occurred:#?}");
    for stepped in &occurred.stepped {
        for count in [
            stepped.two_choices,
            stepped.skipping_between,
            stepped.joined_of_three,
        ] {
            assert!(count > 5);
        }
    }
    assert!(occurred.tally.aligned > 2);
    assert!(occurred.tally.unalignable > 2);
    assert_forward(&occurred, 100);
}

/// Plans carried forward, in counter form and in order form, listed and aligned: formulas with at least so many
/// choices, and one to so many plans.
fn carried(
    seeds: Range<u64>,
    variables: (usize, usize),
    (choices, plans): (usize, usize),
    steps: &[u32],
) -> [Carried; 4] {
    let mut carried: [Carried; 4] = Default::default();
    let draw = |random: &mut Random| match random.chance(50) {
        true => drawn(random, variables),
        false => drawn_cut(random, variables),
    };
    for_each_drawn(seeds, draw, steps, |drawn, random| {
        if drawn.encoding.choices.len() < choices {
            return;
        }
        let own = OwnLog::of(drawn);
        if (1..=plans).contains(&own.plans()) {
            let way = (drawn.settings.form, drawn.settings.arrangement);
            let index = WAYS.iter().position(|other| *other == way);
            let carried = &mut carried[index.expect("one of the ways")];
            carried.check(&own, random);
            carried.check_failing(&own, random);
        }
    });
    carried
}

fn plans_of_small(seeds: Range<u64>) -> [Carried; 4] {
    carried(seeds, (0, 8), (0, 40), &[1, 1, 2, 3, 7])
}

fn plans_of_two_choices(seeds: Range<u64>) -> [Carried; 4] {
    carried(seeds, (10, 11), (2, 40), &[1, 2, 3, 39])
}

#[test]
fn plans_carried_forward() {
    let ways = plans_of_small(30_000..31_000);
    println!("{ways:#?}");
    for carried in &ways {
        assert!(carried.plans > 200);
        for count in [
            carried.failing_plans,
            carried.inside_choices,
            carried.skipping,
            carried.changed,
            carried.changed_inside_choices,
            carried.with_new,
            carried.same,
            carried.other,
        ] {
            assert!(count > 500);
        }
    }
}

#[test]
fn plans_carried_forward_over_two_choices() {
    let ways = plans_of_two_choices(40_000..41_500);
    println!("{ways:#?}");
    let aligned: usize = ways.iter().map(|carried| carried.aligned).sum();
    assert!(aligned > 5);
    for carried in &ways {
        assert!(carried.with_two_choices > 4);
        for count in [
            carried.inside_choices,
            carried.skipping,
            carried.changed_inside_choices,
            carried.same,
            carried.other,
        ] {
            assert!(count > 500);
        }
    }
}

/// In counter form: the random formulas, and choices of up to 64 literals with some of their pairs.
#[test]
fn lines_in_counter_form() {
    let (mut total, mut fewer, mut long) = (Tally::default(), 0, 0);
    for seed in 0..6_000 {
        let random = &mut Random::new(seed);
        let formula = if seed < 5_000 {
            drawn(random, (5, 20)).formula
        } else {
            let (size, count) = (random.between(5, 64), random.between(1, 3));
            paired(random, clauses_apart(size, count))
        };
        let arrangement = random.one_of(&[Arrangement::AsListed, Arrangement::Alignment]);
        let step = *random.one_of(&[1, 2, 7, 100]);
        let (encoding, less) = lines::check(&formula, *arrangement, step);
        add_up(&mut total, &encoding.tally);
        fewer += usize::from(less > 0);
        let is_long = |(_, choice): &&(usize, Vec<i32>)| choice.len() > 16;
        long += encoding.choices.iter().filter(is_long).count();
    }
    println!("{total:#?}, fewer lines {fewer}, long choices {long}");
    assert_pairs(&total, 500);
    for count in [total.clashes, total.double_clashes, total.pure, fewer, long] {
        assert!(count > 500);
    }
}

/// Whether the choice, deleted with its pure literal first, can come back with another number of true
/// literals than one.
fn fails_if_deleted(standing: &[Vec<i32>], choice: &[i32], pure: i32, tables: &Tables) -> bool {
    let line = Line {
        deletion: true,
        literals: written_first(pure, choice),
    };
    let mut left = standing.to_vec();
    apply(&mut left, &line);
    let exactly_one = tables.before(&line, &tables.exactly_one(choice));
    !tables.list(&left).within(&exactly_one)
}

#[test]
fn free_choices_deleted_instead() {
    let (mut free_choices, mut failing) = (0, 0);
    for seed in 0..2_000 {
        let formula = drawn(&mut Random::new(seed), (5, 12)).formula;
        let settings = Settings::new(Form::Counter, Arrangement::AsListed);
        let standing = unclashed(&formula, &Encoding::run(&formula, settings));
        let tables = Tables::new(1..=formula.variables);
        for choice in long_unique(&standing) {
            let mut literals = choice.iter().copied();
            if let Some(pure) = literals.find(|literal| count_holding(&standing, -literal) == 0) {
                free_choices += 1;
                failing += usize::from(fails_if_deleted(&standing, &choice, pure, &tables));
            }
        }
    }
    println!("of {free_choices} free choices {failing} not exactly one if deleted");
    assert!(failing > 100);
}

#[test]
#[ignore = "some minutes"]
fn more_formulas() {
    println!("{:#?}", run(100_000..140_000, (0, 12), 15));
    println!("{:#?}", run(400_000..402_000, (10, 12), 20));
    println!("{:#?}", with_steps(500_000..530_000));
    println!("{:#?}", two_with_steps(600_000..602_000));
    println!("{:#?}", plans_of_small(700_000..715_000));
    println!("{:#?}", plans_of_two_choices(800_000..807_000));
}
