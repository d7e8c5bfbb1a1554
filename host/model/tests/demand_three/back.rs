//! One formula: every cut of its log, every assignment.

use crate::forward::{exclusions, Forward, Step};
use crate::lists::{apply, as_sets, long_unique, unclashed};
use crate::records::{going_into_choices, used};
use crate::tables::Tables;
use model::encoding::Encoding;
use model::generator::{written_clauses, Joined, Random};
use model::reading::Formula;
use model::texts::{answer_text, formula_text, log_text, Line};
use model::walk_back::{carry_back, is_true, satisfies, Assignment};
use model::{read_back, reencode, walk_back, Room, Settings};
use std::collections::BTreeSet;

/// Up to this highest variable the truth tables are over all numbers, beyond it over those that are used.
pub const FULL: i32 = 15;

fn tables_for(formula: &Formula, encoding: &Encoding) -> Tables {
    if encoding.highest <= FULL {
        Tables::new(1..=encoding.highest)
    } else {
        Tables::new(used(formula, encoding))
    }
}

/// All of demand 3 for one formula, and the way forward; the answer is whether it can be satisfied.
pub fn check(
    joined: &Joined,
    settings: Settings,
    random: &mut Random,
    forward: &mut Forward,
) -> bool {
    let Joined { text, formula } = joined;
    let encoding = Encoding::run(formula, settings);
    let seen = format!("{:?} {settings:?}", String::from_utf8_lossy(text));
    let tables = tables_for(formula, &encoding);
    let input = tables.list(&formula.clauses);
    let written = tables.list(&written_clauses(text));
    assert!(input == written, "as it is written, {seen}");
    let choices = encoding.choices.iter().map(|(_, choice)| choice.clone());
    let expected = long_unique(&unclashed(formula, &encoding));
    assert_eq!(as_sets(choices), as_sets(expected), "choices, {seen}");
    let in_choices = in_choices(formula, &encoding, &seen);
    let mut exactly_one = tables.whole();
    for &place in &in_choices {
        exactly_one = exactly_one.and(&tables.exactly_one(&formula.clauses[place]));
    }

    let exclusions = exclusions(&encoding);
    let mut standing = formula.clauses.clone();
    let mut before = input.clone();
    let mut good = input.clone();
    for (index, line) in encoding.log.iter().enumerate() {
        apply(&mut standing, line);
        good = tables.before(line, &good);
        exactly_one = tables.before(line, &exactly_one);
        let satisfying = tables.list(&standing);
        let after = index + 1;
        assert_eq!(
            satisfying.is_empty(),
            input.is_empty(),
            "can be satisfied, {after} lines of {seen}"
        );
        assert!(satisfying.within(&good), "back, {after} lines of {seen}");
        if random.chance(5) || after == encoding.log.len() {
            let kept = &encoding.log[..after];
            if let Some(found) = satisfying.find(random.below(1 << tables.variables.len())) {
                let values = tables.values(found, encoding.highest);
                assert!(satisfies(&values, &standing), "{seen}");
                walk_once(joined, kept, values, &seen);
            }
        }
        if !line.deletion {
            let step = Step {
                tables: &tables,
                before: &before,
                after: &satisfying,
            };
            let is_carried = forward.check(&step, &line.literals, &exclusions);
            assert!(is_carried, "forward, {after} lines of {seen}");
        }
        before = satisfying;
    }
    assert!(before.within(&exactly_one), "exactly one, {seen}");

    assert_eq!(standing, encoding.standing.clauses(), "{seen}");
    reencode_once(text, settings, &encoding, &seen);
    !input.is_empty()
}

/// The input clauses (by index) that go into some choice. Each record has the number of those that go into its own.
fn in_choices(formula: &Formula, encoding: &Encoding, seen: &str) -> BTreeSet<usize> {
    let by_choice = going_into_choices(formula, encoding);
    let counts: Vec<usize> = by_choice.iter().map(BTreeSet::len).collect();
    let records = encoding.table.iter().map(|record| record.clauses);
    assert!(records.eq(counts), "input clause counts, {seen}");
    let in_choices: BTreeSet<usize> = by_choice.into_iter().flatten().collect();
    let expected = encoding.input_clauses_in_choices();
    assert!(in_choices.iter().eq(&expected), "{seen}");
    in_choices
}

/// The reencode call gives what the run gives, and its new formula is read back as what stands.
fn reencode_once(text: &[u8], settings: Settings, encoding: &Encoding, seen: &str) {
    let standing = encoding.standing.clauses();
    let log = log_text(&encoding.log);
    let new = formula_text(encoding.highest, &standing);
    let room = Room {
        workspace: 1 << 40,
        log: log.len(),
        formula: new.len(),
        table: encoding.table.len(),
    };
    let result = reencode(text, settings, room).expect(seen);
    assert_eq!((&result.log, &result.formula), (&log, &new), "{seen}");
    assert_eq!(result.table, encoding.table, "{seen}");
    let read = read_back(&new, 1 << 40);
    assert_eq!(read, Ok((encoding.highest, standing)), "{seen}");
}

/// The walk-back call on one satisfying assignment, against the steps one by one.
fn walk_once(Joined { text, formula }: &Joined, kept: &[Line], mut values: Assignment, seen: &str) {
    let highest = kept
        .iter()
        .flat_map(|line| &line.literals)
        .map(|literal| literal.abs())
        .fold(formula.variables, i32::max);
    let mut answer = b"s SATISFIABLE\n".to_vec();
    answer.extend(answer_text(highest, |variable| is_true(variable, &values)));
    carry_back(kept, &mut values);
    let expected = answer_text(formula.variables, |variable| is_true(variable, &values));
    let line = walk_back(text, &log_text(kept), kept.len(), &answer, 1 << 40, 1 << 20);
    assert_eq!(line, Ok(expected), "{seen}");
    assert!(satisfies(&values, &formula.clauses), "{seen}");
}
