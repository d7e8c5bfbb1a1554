//! Formulas at the reader's limits.

use model::generator::{clauses_apart, largest_with, text_of};
use model::reading::{read_formula, Formula, Limits, INPUT_LIMITS, READ_BACK_LIMITS};
use model::{
    carry_forward, read_back, reencode, walk_back, Arrangement, Form, Reencoded, Room, Settings,
};

fn aligned(form: Form) -> Settings {
    Settings::new(form, Arrangement::Alignment)
}

#[test]
fn twenty_thousand_clauses() {
    for size in [5, 64] {
        let text = largest_with(size);
        for form in [Form::Counter, Form::Order] {
            let room = 1 << 30;
            let result = reencode(&text, aligned(form), Room::enough()).unwrap();
            assert!(result.choices > 100);
            let (highest, clauses) = read_back(&result.formula, 1 << 40).unwrap();
            assert_eq!((highest, clauses.len()), (result.highest, result.clauses));
            // With all variables false the choices are false: 44 when nothing is kept.
            let answer = b"s SATISFIABLE\nv 0\n";
            let walked = walk_back(&text, &result.log, result.lines, answer, 1 << 40, room);
            assert!(matches!(walked, Ok(_) | Err(44)));
            assert_eq!(
                walk_back(&text, &result.log, 0, answer, 1 << 40, room),
                Err(44)
            );
        }
    }
}

/// L 64, C 1, V 64.
#[test]
fn workspace_of_a_free_choice_of_64() {
    let text = text_of(&clauses_apart(64, 1));
    for form in [Form::Counter, Form::Order] {
        let encode = |workspace| {
            let room = Room {
                workspace,
                ..Room::enough()
            };
            reencode(&text, aligned(form), room)
        };
        let whole = encode(1 << 40).unwrap();
        assert_eq!((whole.choices, whole.highest), (1, 127));
        assert_eq!(encode(11_524), Ok(whole));
        assert_eq!(encode(11_523), Err(11));
    }
}

/// For each choice of k: 4(k-1) counter clauses and one deletion; in order form 3k-2 deletions more, after which
/// k-2 clauses stand.
#[test]
fn eight_thousand_variables_in_free_choices() {
    for (size, count, highest, tallies) in [
        (64, 125, 15_875, [(31_500, 31_625), (7_750, 55_375)]),
        (5, 1_600, 14_400, [(25_600, 27_200), (4_800, 48_000)]),
    ] {
        let text = text_of(&clauses_apart(size, count));
        for (form, tally) in [Form::Counter, Form::Order].into_iter().zip(tallies) {
            let result = reencode(&text, aligned(form), Room::enough()).unwrap();
            assert_eq!((result.clauses, result.lines), tally);
            assert_eq!(result.choices, count);
            assert_eq!(result.highest, highest);
            let (read, clauses) = read_back(&result.formula, 1 << 40).unwrap();
            assert_eq!((read, clauses.len()), (highest, result.clauses));
        }
    }
}

/// With all counter variables false, the last literal of each choice is the true one.
#[test]
fn free_choices_walked_back() {
    for (size, count) in [(64, 125), (5, 1_600)] {
        let (text, room) = (text_of(&clauses_apart(size, count)), 1 << 30);
        let settings = Settings::new(Form::Order, Arrangement::AsListed);
        let result = reencode(&text, settings, Room::enough()).unwrap();
        let answer = format!("s SATISFIABLE\nv {}", clause(1..=8_000, 1));
        let (log, lines) = (&result.log, result.lines);
        let walked = walk_back(&text, log, lines, answer.as_bytes(), 1 << 40, room);
        let expected = (1..=8_000).map(|v| if v % size as i32 == 0 { v } else { -v });
        assert_eq!(
            walked,
            Ok(format!("v {}", clause(expected, 1)).into_bytes())
        );
    }
}

/// How many numbers the log has, zeros counted.
fn numbers_in(log: &[u8]) -> u64 {
    let log = String::from_utf8_lossy(log);
    let words = log.split_whitespace().filter(|word| *word != "d");
    words.count() as u64
}

/// The line of the variables up to the highest, true where it is said.
fn line_with(highest: i32, is_true: impl Fn(i32) -> bool) -> String {
    let sign = |variable| {
        if is_true(variable) {
            variable
        } else {
            -variable
        }
    };
    format!("v {}", clause((1..=highest).map(sign), 1))
}

/// With all literals true, the first of each choice stays true, and all counter variables become true. With the last
/// ones true, no line changes anything.
#[test]
fn free_choices_carried_forward() {
    for (size, count) in [(64, 125), (5, 1_600)] {
        let text = text_of(&clauses_apart(size, count));
        let settings = Settings::new(Form::Order, Arrangement::AsListed);
        let Reencoded {
            log,
            lines,
            highest,
            ..
        } = reencode(&text, settings, Room::enough()).unwrap();
        let numbers = 8_000 + count as u64 + numbers_in(&log);
        let needed = 4 * numbers + 4 * highest as u64 + 64;
        let carried = |plan: &str, workspace, room| {
            let plan = format!("s SATISFIABLE\n{plan}");
            let line = carry_forward(&text, &log, lines, plan.as_bytes(), workspace, room);
            line.map(|line| String::from_utf8(line).unwrap())
        };
        let place = |variable: i32| (variable - 1) as usize % size + 1;

        let all = line_with(8_000, |_| true);
        let first = line_with(highest, |v| v > 8_000 || place(v) == 1);
        let room = first.len();
        assert_eq!(carried(&all, needed, room), Ok(first));
        assert_eq!(carried(&all, needed - 1, room), Err(11));
        assert_eq!(carried(&all, needed, room - 1), Err(14));

        let is_last = |v: i32| v <= 8_000 && place(v) == size;
        let last = line_with(8_000, is_last);
        let expected = line_with(highest, is_last);
        assert_eq!(carried(&last, needed, 1 << 30), Ok(expected));
        let all_but_one = line_with(8_000, |v| is_last(v) && v != 8_000);
        assert_eq!(carried(&all_but_one, needed, 1 << 30), Err(45));
    }
}

/// X is 70,000 with no clause and one line.
#[test]
fn a_plan_of_no_variables_carried_to_70_000() {
    let call = |log: &str, workspace, room| {
        let plan = b"s SATISFIABLE\nv 0\n";
        carry_forward(b"p cnf 0 0\n", log.as_bytes(), 1, plan, workspace, room)
    };
    let needed = 4 * 2 + 4 * 70_000 + 64;
    let line = line_with(70_000, |variable| variable == 70_000).into_bytes();
    let room = line.len();
    assert_eq!(call("70000 0\n", needed, room), Ok(line));
    assert_eq!(call("70000 0\n", needed, room - 1), Err(14));
    assert_eq!(call("70000 0\n", needed - 1, room), Err(11));
    assert_eq!(call("70001 0\n", needed, room), Err(31));
}

/// The clause that holds the literals, each written so many times.
fn clause(literals: impl Iterator<Item = i32>, times: usize) -> String {
    let words: String = literals.map(|l| format!("{l} ").repeat(times)).collect();
    words + "0\n"
}

fn read(header: &str, body: &str, limits: &Limits) -> Result<Formula, u8> {
    read_formula(format!("{header}\n{body}").as_bytes(), limits)
}

/// How many literals are kept, and how many clauses left out.
fn counts(read: Result<Formula, u8>) -> Result<(u64, usize), u8> {
    read.map(|formula| (formula.literal_count(), formula.left_out))
}

#[test]
fn sixty_thousand_literals_kept() {
    for times in [1, 2] {
        let full = clause(1..=6_000, times).repeat(10);
        for (clauses, more, expected) in [
            (10, "", Ok((60_000, 0))),
            (11, "0", Ok((60_000, 0))),
            (11, "1 -1 0", Ok((60_000, 1))),
            (12, "1 -1 0 0", Ok((60_000, 1))),
            (11, "1 0", Err(9)),
            (11, "1 1 0", Err(9)),
            (12, "1 -1 0 1 0", Err(9)),
            // before the closing 0
            (11, "1 x 0", Err(3)),
            (11, "1 6001 0", Err(4)),
            (11, "1", Err(7)),
            (11, "1 -1 x 0", Err(3)),
            (11, "1 -1", Err(7)),
            // after it
            (11, "1 0 x", Err(9)),
            (12, "1 0 6001", Err(9)),
            (12, "1 0", Err(9)),
            (11, "1 -1 0 x", Err(8)),
        ] {
            let read = read(
                &format!("p cnf 6000 {clauses}"),
                &format!("{full}{more}"),
                &INPUT_LIMITS,
            );
            assert_eq!(counts(read), expected, "{more:?}");
        }
    }
}

#[test]
fn a_million_literals_kept_in_reading_back() {
    let full = clause(1..=70_000, 2).repeat(14);
    for (last, expected) in [(20_000, Ok((1_000_000, 1))), (20_001, Err(9))] {
        let body = full.clone() + "1 -1 0\n" + &clause(1..=last, 1);
        let read = read("p cnf 70000 16", &body, &READ_BACK_LIMITS);
        assert_eq!(counts(read), expected, "{last}");
    }
}

#[test]
fn a_clause_left_out_adds_nothing() {
    let both_signs = || (1..=8_000).chain((1..=8_000).map(|variable| -variable));
    let full = clause(1..=6_000, 1).repeat(10);
    for times in [1, 5] {
        let left_out = clause(both_signs(), times);
        for body in [format!("{left_out}{full}"), format!("{full}{left_out}")] {
            let read = read("p cnf 8000 11", &body, &INPUT_LIMITS);
            assert_eq!(counts(read), Ok((60_000, 1)), "{times}");
        }
    }
}

#[test]
fn twenty_thousand_clauses_left_out() {
    let encode = |more: &str, workspace| {
        let text = format!("p cnf 1 20000\n{}{more}", "1 -1 0\n".repeat(20_000));
        let settings = Settings::new(Form::Counter, Arrangement::AsListed);
        let room = Room {
            workspace,
            log: 0,
            formula: 100,
            table: 0,
        };
        reencode(text.as_bytes(), settings, room).map(|result| result.formula)
    };
    let needed = 4 * 20_000 + 12 + 8_192;
    assert_eq!(encode("", needed), Ok(b"p cnf 1 0\n".to_vec()));
    assert_eq!(encode("", needed - 1), Err(11));
    assert_eq!(encode("1 -1 0\n", needed), Err(8));
}

#[test]
fn a_million_repeats_of_a_literal() {
    let repeats = "1 ".repeat(1_000_000);
    for (end, expected) in [("0", Ok((1, 0))), ("-1 0", Ok((0, 1))), ("", Err(7))] {
        let read = read("p cnf 1 1", &format!("{repeats}{end}"), &INPUT_LIMITS);
        assert_eq!(counts(read), expected, "{end:?}");
    }
}
