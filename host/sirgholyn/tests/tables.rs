//! Steps and tables of choices at their limits and one past them.

mod common;

use common::solvers::named;
use common::{compare_reencode, compare_sizes, run_model, Room, WAYS};
use model::generator::{clauses_apart, text_of};
use model::reading::Formula;
use model::sessions::F;
use model::texts::{answer_text, count_true};
use sirgholyn::limits::MOST_CHOICES;
use sirgholyn::{ChoiceRecord, Error, ReencodeRoom, Refusal, Settings, WalkBackRoom};

const LARGE: Room = Room {
    work: 1 << 19,
    log: 1 << 21,
    formula: 1 << 20,
    table: MOST_CHOICES,
};

/// So many choices of five, and one of another size, which is the last.
fn fives_and_one(fives: usize, size: i32) -> Formula {
    let mut formula = clauses_apart(5, fives);
    let first = formula.variables + 1;
    formula.variables += size;
    formula.clauses.push((first..=formula.variables).collect());
    formula
}

/// The highest variable with a step, or the number of the refusal; the bytes are the model's. `sizes` tells the same.
fn highest_of(formula: &Formula, way: Settings) -> Result<u64, u32> {
    let text = text_of(formula);
    let number = compare_reencode(&text, way, LARGE);
    let found = match sirgholyn::reencode(&text, way, ReencodeRoom::default()) {
        Ok(new) => Ok(new.tally.highest),
        Err(error) => {
            assert_eq!(error, Error::Refused(Refusal(number)));
            Err(number)
        }
    };
    let sized = compare_sizes(&text, way, LARGE.work);
    assert_eq!(sized.map(|tally| tally.highest), found);
    found
}

#[test]
fn highest_variable() {
    let fives = |count| clauses_apart(5, count);
    for (formula, step, expected) in [
        (fives(700), 95, Ok(69_924)),
        (fives(701), 95, Err(16)),
        (fives(700), 96, Err(16)),
        (fives(1_600), 1, Ok(14_400)),
        (fives(1_600), 38, Ok(68_784)),
        (fives(1_600), 39, Err(16)),
        (fives(1_600), 100, Err(16)),
        // the last choice begins at 69,953
        (fives_and_one(1_013, 48), 64, Ok(69_999)),
        (fives_and_one(1_013, 49), 64, Ok(70_000)),
        (fives_and_one(1_013, 50), 64, Err(16)),
        (fives_and_one(1_013, 64), 64, Err(16)),
        (fives_and_one(1_014, 49), 64, Err(16)),
        // clauses that are no choices
        (fives_and_one(1_013, 4), 64, Ok(69_892)),
        (fives_and_one(1_012, 65), 64, Ok(69_892)),
    ] {
        for way in [WAYS[0], WAYS[3]] {
            let found = highest_of(&formula, way.with_step(step));
            assert_eq!(found, expected, "step {step}, {:?}", way.form);
        }
    }
}

/// An answer by the table: the first literal of each choice is true, and all its new variables.
fn answer_by(table: &[ChoiceRecord], formula: &Formula) -> String {
    let mut answer = String::from("s SATISFIABLE\nv ");
    for (record, choice) in table.iter().zip(&formula.clauses) {
        answer += &format!("{} ", choice[0]);
        let new = record.first..record.first + record.length - 1;
        answer += &new.map(|s| format!("{s} ")).collect::<String>();
    }
    answer + "0\n"
}

/// Where the highest variable is 70,000, new formula and log are read as any others, and the line that the answer walks
/// back to is carried forward to the answer's values again.
#[test]
fn the_highest_variable_read_back_and_carried() {
    let formula = fives_and_one(1_013, 49);
    let text = text_of(&formula);
    for way in [WAYS[0], WAYS[2]] {
        let new = sirgholyn::reencode(&text, way.with_step(64), ReencodeRoom::default()).unwrap();
        let back = sirgholyn::read_back(&new.formula, None).unwrap();
        let counts = (back.counts.variables, back.counts.clauses);
        assert_eq!(counts, (70_000, new.tally.clauses));
        let literals = back.clauses().flatten();
        assert_eq!(literals.map(|literal| literal.abs()).max(), Some(70_000));

        let answer = answer_by(&new.table, &formula);
        let lines = new.tally.lines as usize;
        let room = WalkBackRoom::default();
        let line = sirgholyn::walk_back(&text, &new.log, lines, answer.as_bytes(), room).unwrap();
        let line = String::from_utf8(line).unwrap();
        for choice in &formula.clauses {
            assert_eq!(count_true(&line, choice), 1);
            assert!(line.contains(&format!(" {} ", choice[0])));
        }

        let plan = format!("s SATISFIABLE\n{line}");
        let line = sirgholyn::carry_forward(&text, &new.log, lines, plan.as_bytes(), room).unwrap();
        let is_true = named(answer.as_bytes());
        let expected = answer_text(70_000, |variable| is_true.contains(&variable));
        assert!(line == expected, "{way:?}");
    }
}

#[test]
fn steps() {
    for way in WAYS {
        let number = |step| compare_reencode(F.as_bytes(), way.with_step(step), LARGE);
        for step in 1..=100 {
            assert_eq!(number(step), 0);
        }
        for step in [0, 101, 102, 1_000, 1 << 31, u32::MAX - 1, u32::MAX] {
            assert_eq!(number(step), 15);
        }
        // within 1 to 100 in fewer bits
        for step in [1 << 7, 1 << 8, 1 << 16, 1 << 31].map(|bit| bit + 10) {
            assert_eq!(number(step), 15);
        }
    }
}

/// A table of each length around the number of choices; what lies past them is unchanged.
#[test]
fn tables_of_any_length() {
    for choices in [0, 1, 3] {
        let formula = clauses_apart(6, choices);
        let text = text_of(&formula);
        for way in WAYS {
            let way = way.with_step(7);
            let exact = Room::exact(&formula, &run_model(&formula, way));
            assert_eq!(exact.table, choices);
            for table in 0..choices + 3 {
                let number = if table < choices { 17 } else { 0 };
                let room = Room { table, ..exact };
                assert_eq!(compare_reencode(&text, way, room), number);
            }
        }
    }
}

/// The most choices of all, with just a record for each, and one short.
#[test]
fn the_longest_table() {
    let text = text_of(&clauses_apart(5, MOST_CHOICES));
    for (table, number) in [(MOST_CHOICES, 0), (MOST_CHOICES - 1, 17), (0, 17)] {
        let room = Room { table, ..LARGE };
        assert_eq!(compare_reencode(&text, WAYS[0], room), number);
    }
}

/// `compare_reencode` looks at the table as at the texts: after each kind of refusal it is all zero.
#[test]
fn table_zero_after_a_refusal() {
    let two = text_of(&clauses_apart(5, 2));
    let many = text_of(&clauses_apart(5, 1_600));
    let clause: Vec<i32> = (1..=1_000).collect();
    let long = text_of(&Formula::new(
        1_000,
        [vec![clause; 60], vec![vec![1]]].concat(),
    ));
    let text = |text: &'static str| (text.as_bytes(), WAYS[1], LARGE);
    let short = |work: usize, table, log, formula| {
        let room = Room {
            work,
            log,
            formula,
            table,
        };
        (two.as_slice(), WAYS[2].with_step(10), room)
    };
    let most = LARGE.work;
    for (number, (text, way, room)) in [
        (15, (two.as_slice(), WAYS[0].with_step(0), LARGE)),
        (1, text("p cnf 1")),
        (2, text("p cnf 8001 0")),
        (3, text("p cnf 1 1\nx 0")),
        (4, text("p cnf 1 1\n2 0")),
        (7, text("p cnf 1 1\n1")),
        (8, text("p cnf 1 1\n1 0 1 0")),
        (9, (long.as_slice(), WAYS[1], LARGE)),
        (11, short(8_000, 9, most, most)),
        (16, (many.as_slice(), WAYS[3].with_step(100), LARGE)),
        (17, short(most, 1, most, most)),
        (12, short(most, 9, 99, most)),
        (13, short(most, 9, most, 9)),
        (0, short(most, 9, most, most)),
    ] {
        assert_eq!(compare_reencode(text, way, room), number);
    }
}
