//! M-118: the table of records, the step, and the numbers 15, 16 and 17.

use model::generator::{
    clashing_at_1, clauses_apart, forbidding, many_choices, planned, text_of, varied, Random,
};
use model::log_reading::read_kept_lines;
use model::reading::{read_formula, Formula, INPUT_LIMITS};
use model::sessions::{CHAIN, F};
use model::texts::{count_true, formula_text};
use model::{read_back, reencode, walk_back, Arrangement, ChoiceRecord, Form, Reencoded};
use model::{Room, Settings};
use std::collections::BTreeSet;

const FORMS: [Form; 2] = [Form::Counter, Form::Order];

fn settings(form: Form, step: u32) -> Settings {
    Settings {
        step,
        ..Settings::new(form, Arrangement::AsListed)
    }
}

fn encode(text: &[u8], form: Form, step: u32) -> Result<Reencoded, u8> {
    reencode(text, settings(form, step), Room::enough())
}

fn record(first: i32, length: usize, clauses: usize) -> ChoiceRecord {
    ChoiceRecord {
        first,
        length,
        clauses,
    }
}

#[test]
fn three_clauses_joined_by_two_clashes() {
    for form in FORMS {
        let result = encode(CHAIN.as_bytes(), form, 1).unwrap();
        let log = String::from_utf8(result.log).unwrap();
        let clashes = "1 2 4 5 0\nd 3 1 2 0\nd -3 4 5 0\n\
                       1 2 4 6 7 8 0\nd 5 1 2 4 0\nd -5 6 7 8 0\n";
        assert!(log.starts_with(&format!("{clashes}-9 1 0\n9 -1 0\n-10 9 2 0\n")));
        assert_eq!(result.table, [record(9, 6, 3)]);
        assert_eq!(result.highest, 13);
    }
}

/// V 8: the least number above 8 that is 1 more than a multiple of the step.
#[test]
fn first_variables_of_one_choice() {
    for (step, first) in [
        (1, 9),
        (2, 9),
        (3, 10),
        (4, 9),
        (5, 11),
        (7, 15),
        (8, 9),
        (9, 10),
        (39, 40),
        (99, 100),
        (100, 101),
    ] {
        for form in FORMS {
            let result = encode(CHAIN.as_bytes(), form, step).unwrap();
            assert_eq!(result.table, [record(first, 6, 3)], "{step}");
            assert_eq!(result.highest, first + 4, "{step}");
        }
    }
}

/// Session F with step 10, where 7 to 10 are skipped: each log line and clause is that of step 1 with 11 to 14 for
/// 7 to 10.
#[test]
fn session_f_with_a_step() {
    for (form, tally) in [(Form::Counter, (14, 21, 18)), (Form::Order, (14, 8, 41))] {
        let result = encode(F.as_bytes(), form, 10).unwrap();
        assert_eq!(result.table, [record(11, 5, 1)]);
        assert_eq!((result.highest, result.clauses, result.lines), tally);
        let (one, ten) = (encode(F.as_bytes(), form, 1).unwrap(), result);
        let renamed = |literal: &i32| match literal.abs() {
            7..=10 => literal + 4 * literal.signum(),
            _ => *literal,
        };
        let lines = read_kept_lines(&one.log, one.lines).unwrap();
        let stepped = read_kept_lines(&ten.log, ten.lines).unwrap();
        for (line, stepped) in lines.iter().zip(&stepped) {
            let literals: Vec<i32> = line.literals.iter().map(renamed).collect();
            assert_eq!(
                (line.deletion, &literals),
                (stepped.deletion, &stepped.literals)
            );
        }
        let (_, clauses) = read_back(&one.formula, 1 << 40).unwrap();
        let clauses = clauses
            .iter()
            .map(|clause| clause.iter().map(renamed).collect());
        let expected = (14, clauses.collect());
        assert_eq!(read_back(&ten.formula, 1 << 40), Ok(expected));
    }
    let g = encode(F.as_bytes(), Form::Order, 10).unwrap();
    let answer = b"s SATISFIABLE\nv 1 2 3 4 5 -6 7 8 9 10 -11 -12 -13 14 0\n";
    let walked = walk_back(F.as_bytes(), &g.log, 41, answer, 1 << 40, 1 << 20);
    assert_eq!(walked, Ok(b"v -1 -2 -3 4 -5 -6 0\n".to_vec()));
}

/// Choices of 5, 6 and 7: 18 variables. With step 4 the choices have 21..24, 25..29 and 33..38.
#[test]
fn three_choices() {
    let clauses = [1..=5, 6..=11, 12..=18].map(|variables| variables.collect::<Vec<i32>>());
    let text = formula_text(18, &clauses);
    for (step, firsts, highest) in [
        (1, [19, 23, 28], 33),
        (2, [19, 23, 29], 34),
        (3, [19, 25, 31], 36),
        (4, [21, 25, 33], 38),
        (5, [21, 26, 31], 36),
        (6, [19, 25, 31], 36),
        (7, [22, 29, 36], 41),
        (18, [19, 37, 55], 60),
        (19, [20, 39, 58], 63),
        (39, [40, 79, 118], 123),
        (100, [101, 201, 301], 306),
    ] {
        for form in FORMS {
            let result = encode(&text, form, step).unwrap();
            let [one, two, three] = firsts;
            let table = [record(one, 5, 1), record(two, 6, 1), record(three, 7, 1)];
            assert_eq!((result.table, result.highest), (table.to_vec(), highest));
        }
    }
}

/// The numbers 1, 1 + step, 1 + 2 step and so on, up to the first that is above all used.
fn least_above(used: &BTreeSet<i32>, step: u32) -> i32 {
    let mut number = 1;
    while used.iter().any(|&variable| variable >= number) {
        number += step as i32;
    }
    number
}

/// The variables of the input and of each record, each record's first the least above those before it.
fn expect_firsts(variables: i32, table: &[ChoiceRecord], step: u32) -> BTreeSet<i32> {
    let mut used: BTreeSet<i32> = (1..=variables).collect();
    for record in table {
        assert_eq!(record.first, least_above(&used, step), "{table:?} {step}");
        used.extend((record.first..).take(record.length - 1));
    }
    used
}

fn variables_of(clauses: &[Vec<i32>]) -> BTreeSet<i32> {
    let literals = clauses.iter().flatten();
    literals.map(|literal| literal.abs()).collect()
}

/// How often the cases occurred.
#[derive(Debug, Default)]
struct Occurred {
    skipped: usize,
    several_choices: usize,
    /// Numbers skipped between two choices.
    skipped_between: usize,
    aligned: usize,
    /// Records by their count of input clauses: 1, 2, and more.
    counts: [usize; 3],
}

/// Drawn formulas under each step: first variables, skipped numbers, sizes, and the run with step 1.
#[test]
fn drawn_formulas_with_steps() {
    let mut occurred = Occurred::default();
    for seed in 0..3_000 {
        let random = &mut Random::new(seed);
        let (variables, clauses) = (random.between(5, 24), random.between(2, 26));
        let formula = planned(random, variables, clauses);
        let joined = varied(random, formula, 50, 40);
        let arrangement = *random.one_of(&[Arrangement::AsListed, Arrangement::Alignment]);
        let settings = Settings {
            step: *random.one_of(&[1, 2, 3, 4, 5, 7, 10, 39, 64, 99, 100]),
            ..Settings::new(*random.one_of(&FORMS), arrangement)
        };
        let result = reencode(&joined.text, settings, Room::enough()).unwrap();
        expect_table(&joined.text, &joined.formula, settings, &result);
        occurred.count(&joined.formula, settings, &result);
    }
    println!("{occurred:#?}");
    for count in [
        occurred.skipped,
        occurred.several_choices,
        occurred.skipped_between,
        occurred.aligned,
        occurred.counts[0],
        occurred.counts[1],
        occurred.counts[2],
    ] {
        assert!(count > 100);
    }
}

fn expect_table(text: &[u8], formula: &Formula, settings: Settings, result: &Reencoded) {
    let used = expect_firsts(formula.variables, &result.table, settings.step);
    assert_eq!(used.last().copied(), Some(result.highest));
    assert_eq!(result.table.len(), result.choices);

    // the new variables all stand in log lines, and no other number above V does
    let lines = read_kept_lines(&result.log, result.lines).unwrap();
    let literals: Vec<Vec<i32>> = lines.iter().map(|line| line.literals.clone()).collect();
    let in_log = variables_of(&literals);
    let is_new = |variable: &&i32| **variable > formula.variables;
    assert!(in_log.iter().filter(is_new).eq(used.iter().filter(is_new)));
    let (_, clauses) = read_back(&result.formula, 1 << 40).unwrap();
    assert!(variables_of(&clauses).is_subset(&used));

    let one = Settings {
        step: 1,
        ..settings
    };
    let one = reencode(text, one, Room::enough()).unwrap();
    let numbers: Vec<i32> = used.into_iter().collect();
    expect_renamed(&one, result, &numbers);
}

/// The run with step 1 has the same lines and clauses, with the variable i for numbers[i - 1].
fn expect_renamed(one: &Reencoded, stepped: &Reencoded, numbers: &[i32]) {
    let renamed = |clause: &Vec<i32>| -> Vec<i32> {
        let number = |literal: &i32| numbers[literal.unsigned_abs() as usize - 1];
        let renamed = |literal: &i32| literal.signum() * number(literal);
        clause.iter().map(renamed).collect()
    };
    assert_eq!(one.highest as usize, numbers.len());
    let [lines, others] =
        [one, stepped].map(|result| read_kept_lines(&result.log, result.lines).unwrap());
    assert_eq!(lines.len(), others.len());
    for (line, other) in lines.iter().zip(&others) {
        assert_eq!(line.deletion, other.deletion);
        assert_eq!(renamed(&line.literals), other.literals);
    }
    let [(_, clauses), (_, others)] =
        [one, stepped].map(|result| read_back(&result.formula, 1 << 40).unwrap());
    let clauses: Vec<Vec<i32>> = clauses.iter().map(renamed).collect();
    assert_eq!(clauses, others);
    let rest = |result: &Reencoded| -> Vec<(usize, usize)> {
        let records = result.table.iter();
        records
            .map(|record| (record.length, record.clauses))
            .collect()
    };
    assert_eq!(rest(one), rest(stepped));
}

impl Occurred {
    fn count(&mut self, formula: &Formula, settings: Settings, result: &Reencoded) {
        let table = &result.table;
        let has_choice = !table.is_empty();
        let several = table.len() > 1;
        let skips = |&next: &i32, before: i32| next > before + 1;
        let firsts = table.iter().map(|record| record.first);
        let ends = table
            .iter()
            .map(|record| record.first + record.length as i32 - 2);
        let pairs = firsts.clone().skip(1).zip(ends);
        let is_aligned = settings.arrangement == Arrangement::Alignment;
        self.skipped += firsts
            .take(1)
            .filter(|first| skips(first, formula.variables))
            .count();
        self.skipped_between += pairs.filter(|(next, end)| skips(next, *end)).count();
        self.several_choices += usize::from(several);
        self.aligned += usize::from(has_choice && is_aligned && settings.step > 1);
        for record in table {
            self.counts[record.clauses.min(3) - 1] += 1;
        }
    }
}

/// 3 and 4 literals that clash give a choice of 5 with count 2; beside it stands an input clause.
#[test]
fn counts_of_input_clauses() {
    let mut clauses = clashing_at_1(3, 4).to_vec();
    clauses.insert(0, (7..=11).collect());
    let text = formula_text(11, &clauses);
    for form in FORMS {
        let table = encode(&text, form, 6).unwrap().table;
        assert_eq!(table, [record(13, 5, 1), record(19, 5, 2)]);
    }
}

/// A resolvent that is not added goes into no choice, and neither do clauses of other choices or no choice.
#[test]
fn counts_beside_other_clashes() {
    let mut clauses = vec![vec![1, 2], vec![-1, -2]];
    clauses.extend([vec![3, 4], vec![-3, 5]]);
    clauses.extend([vec![6], vec![-6, 7, 8], vec![-8, 9, 10, 11], vec![-11, 12]]);
    let text = formula_text(12, &clauses);
    for form in FORMS {
        let result = encode(&text, form, 3).unwrap();
        assert_eq!(result.table, []);
    }
    clauses[7].extend([13, 14]);
    let text = formula_text(14, &clauses);
    for form in FORMS {
        let result = encode(&text, form, 3).unwrap();
        assert_eq!(result.table, [record(16, 6, 4)]);
    }
}

/// Clauses of k literals joined one by one: 1..5 and -5, then -6 and so on.
#[test]
fn counts_of_long_chains() {
    for links in [1, 5, 59] {
        let mut clauses: Vec<Vec<i32>> = vec![(1..=5).collect()];
        for link in 0..links {
            clauses.push(vec![-(5 + link), 6 + link]);
        }
        let text = formula_text(5 + links, &clauses);
        let table = encode(&text, Form::Order, 1).unwrap().table;
        assert_eq!(table, [record(6 + links, 5, 1 + links as usize)]);
    }
}

/// Aligned choices keep their places in the table.
#[test]
fn the_table_has_the_order_in_which_choices_are_taken() {
    let mut clauses: Vec<Vec<i32>> = vec![(8..=13).collect(), (1..=7).collect(), vec![-1, -9]];
    clauses.push(vec![-1, -9]);
    let text = formula_text(13, &clauses);
    for form in FORMS {
        for arrangement in [Arrangement::AsListed, Arrangement::Alignment] {
            let settings = Settings {
                step: 10,
                ..Settings::new(form, arrangement)
            };
            let result = reencode(&text, settings, Room::enough()).unwrap();
            assert_eq!(result.table, [record(21, 6, 1), record(31, 7, 1)]);
        }
    }
}

#[test]
fn steps_out_of_range() {
    let none = Room {
        workspace: 0,
        log: 0,
        formula: 0,
        table: 0,
    };
    for text in [F, "p cnf 0 0", "", "p cnf 1 1\nx", "p cnf 8001 0"] {
        for step in [0, 101, 102, 1_000, u32::MAX] {
            for form in FORMS {
                for room in [none, Room::enough()] {
                    let refused = reencode(text.as_bytes(), settings(form, step), room);
                    assert_eq!(refused, Err(15), "{text:?} {step}");
                }
            }
        }
        for step in [1, 2, 99, 100] {
            let result = encode(text.as_bytes(), Form::Counter, step);
            assert_ne!(result.err(), Some(15), "{text:?} {step}");
        }
    }
    assert_eq!(encode(b"", Form::Counter, 100), Err(1));
    assert!(encode(b"p cnf 0 0", Form::Counter, 100).is_ok());
}

/// With V 8,000 and step 99 the first choice has 8,020 and the last 69,994: one of 8 literals ends at 70,000.
#[test]
fn the_highest_variable() {
    for form in FORMS {
        let result = encode(&many_choices(8_000, 8), form, 99).unwrap();
        assert_eq!((result.choices, result.highest), (627, 70_000));
        assert_eq!(result.table[0], record(8_020, 5, 1));
        assert_eq!(result.table[626], record(69_994, 8, 1));
        let (highest, clauses) = read_back(&result.formula, 1 << 40).unwrap();
        assert_eq!((highest, clauses.len()), (70_000, result.clauses));
        assert_eq!(encode(&many_choices(8_000, 9), form, 99), Err(16));
        assert_eq!(encode(&many_choices(8_000, 64), form, 99), Err(16));
        // one multiple of 99 less below V
        let less = encode(&many_choices(7_920, 64), form, 99).unwrap();
        assert_eq!(less.highest, 70_000 - 99 + 56);
        assert_eq!(encode(&many_choices(7_921, 9), form, 99), Err(16));
    }
}

/// The log of the highest variables is walked back: with all variables false, the last literal of each choice is
/// the true one.
#[test]
fn the_highest_variable_walked_back() {
    let text = many_choices(8_000, 8);
    let result = encode(&text, Form::Order, 99).unwrap();
    let answer = b"s SATISFIABLE\nv 70000 -70000 0\n";
    let walk =
        |answer: &[u8]| walk_back(&text, &result.log, result.lines, answer, 1 << 40, 1 << 20);
    assert_eq!(walk(answer), Err(43));
    assert_eq!(walk(b"s SATISFIABLE\nv 70001 0\n"), Err(42));
    let line = String::from_utf8(walk(b"s SATISFIABLE\nv 0\n").unwrap()).unwrap();
    for clause in read_formula(&text, &INPUT_LIMITS).unwrap().clauses {
        assert_eq!(count_true(&line, &clause), 1);
        assert_eq!(count_true(&line, &clause[clause.len() - 1..]), 1);
    }
}

/// 700 and 701 choices of 5 with step 95, and the choices that take up most: 1,600 of 5, with steps 38 and 39.
#[test]
fn where_16_begins() {
    for (count, step, highest) in [
        (700, 95, Ok(69_924)),
        (701, 95, Err(16)),
        (1_600, 38, Ok(68_784)),
        (1_600, 39, Err(16)),
        (1_600, 100, Err(16)),
    ] {
        let text = text_of(&clauses_apart(5, count));
        for form in FORMS {
            let result = encode(&text, form, step).map(|result| result.highest);
            assert_eq!(result, highest, "{count} {step}");
        }
    }
}

/// 11, 16, 17, 12, 13: each room one short, alone and with all that come after it.
#[test]
fn numbers_in_their_order() {
    let formula = clauses_apart(5, 3);
    let text = text_of(&formula);
    for form in FORMS {
        let whole = encode(&text, form, 7).unwrap();
        let exact = Room {
            workspace: formula.workspace_needed(),
            log: whole.log.len(),
            formula: whole.formula.len(),
            table: 3,
        };
        let short = Room {
            workspace: exact.workspace - 1,
            log: exact.log - 1,
            formula: exact.formula - 1,
            table: 2,
        };
        let call = |room| reencode(&text, settings(form, 7), room);
        assert_eq!(call(exact), Ok(whole));
        assert_eq!(call(short), Err(11));
        let Room {
            log,
            formula,
            table,
            workspace,
        } = short;
        for table in [0, 1, table] {
            assert_eq!(call(Room { table, ..exact }), Err(17));
            let workspace = exact.workspace;
            assert_eq!(
                call(Room {
                    workspace,
                    table,
                    ..short
                }),
                Err(17)
            );
        }
        assert_eq!(call(Room { workspace, ..exact }), Err(11));
        assert_eq!(call(Room { log, ..exact }), Err(12));
        assert_eq!(
            call(Room {
                log,
                formula,
                ..exact
            }),
            Err(12)
        );
        assert_eq!(call(Room { formula, ..exact }), Err(13));
    }
}

#[test]
fn sixteen_before_seventeen() {
    let formula = clauses_apart(5, 1_600);
    let text = text_of(&formula);
    let workspace = formula.workspace_needed();
    for form in FORMS {
        let call = |step, workspace, table| {
            let room = Room {
                workspace,
                log: 0,
                formula: 0,
                table,
            };
            reencode(&text, settings(form, step), room).err()
        };
        assert_eq!(call(39, workspace - 1, 0), Some(11));
        for table in [0, 1_599, 1_600] {
            assert_eq!(call(39, workspace, table), Some(16));
        }
        assert_eq!(call(38, workspace, 1_599), Some(17));
        assert_eq!(call(38, workspace, 1_600), Some(12));
    }
}

/// Without a choice no record is written, and any step gives the same bytes.
#[test]
fn no_choice() {
    let four: Vec<i32> = (1..=4).collect();
    let forbidden = forbidding(&four);
    let text = formula_text(4, &[vec![four], forbidden].concat());
    for form in FORMS {
        let one = encode(&text, form, 1).unwrap();
        let room = Room {
            table: 0,
            ..Room::enough()
        };
        assert_eq!(one.table, []);
        assert_eq!(reencode(&text, settings(form, 100), room), Ok(one));
    }
}
