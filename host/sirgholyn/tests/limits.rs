//! The limits and one past them; buffers that suffice and buffers short by one.

mod common;

use common::formulas::{clash_chain, with_pairs, JOINED_F};
use common::lines::parts;
use common::{
    carrying_work, compare_read_back, compare_reencode, compare_sizes, new_formula, run_model,
    work_for, Carrying, Room, CARRYING, PLENTY, WAYS,
};
use model::generator::{
    all_but_one, clashing_at_1, clauses_apart, forbidding, largest_with, text_of,
};
use model::reading::{read_formula, Formula, INPUT_LIMITS};
use model::sessions;
use model::texts::{answer_text, log_text};
use sirgholyn::calls::{library, on_large_stack, Tally};
use sirgholyn::limits::MOST_CHOICES;
use sirgholyn::{
    Arrangement, CarryForwardRoom, ChoiceRecord, Error, Form, ReencodeRoom, Refusal, Settings,
    WalkBackRoom,
};
use std::slice;

const LARGE: Room = Room {
    work: PLENTY,
    log: PLENTY,
    formula: PLENTY,
    table: MOST_CHOICES,
};

fn reencode(text: &str) -> u32 {
    compare_reencode(text.as_bytes(), WAYS[0], LARGE)
}

fn sizes(text: &str) -> u32 {
    let sized = compare_sizes(text.as_bytes(), WAYS[2], PLENTY);
    sized.err().unwrap_or(0)
}

fn read_back(text: &str) -> u32 {
    compare_read_back(text.as_bytes(), 43_000_000)
}

/// Carries over no line an assignment that makes 1 true.
fn carry(carrying: Carrying, text: &str) -> u32 {
    let assignment = b"s SATISFIABLE\nv 1 0\n";
    carrying.compare(text.as_bytes(), b"", 0, assignment, 400_000, 50_000)
}

fn walk_back(text: &str) -> u32 {
    carry(Carrying::Back, text)
}

fn carry_forward(text: &str) -> u32 {
    carry(Carrying::Forward, text)
}

/// A formula with so many literals, a thousand to a clause; every clause has the same.
fn with_literals(variables: usize, literals: usize) -> String {
    let whole = literals / 1_000;
    let clause: String = (1..=1_000).map(|literal| format!("{literal} ")).collect();
    let rest: String = (1..=literals % 1_000)
        .map(|literal| format!("-{literal} "))
        .collect();
    format!(
        "p cnf {variables} {}\n{}{rest}0\n",
        whole + 1,
        (clause + "0\n").repeat(whole)
    )
}

const F: &[u8] = sessions::F.as_bytes();

#[test]
fn variables() {
    assert_eq!(reencode("p cnf 8000 1\n8000 -1 0"), 0);
    // the last variable clashes
    assert_eq!(reencode("p cnf 8000 2\n8000 1 0\n-8000 2 0"), 0);
    assert_eq!(reencode("p cnf 8000 2\n8000 0\n-8000 0"), 0);
    assert_eq!(reencode("p cnf 8000 1\n8001 0"), 4);
    assert_eq!(reencode("p cnf 8001 0"), 2);
    assert_eq!(reencode("p cnf 4294967297 0"), 2);
    assert_eq!(reencode("p cnf 18446744073709551617 0"), 2);
    assert_eq!(reencode("p cnf 9 1\n4294967297 0"), 4);
    assert_eq!(reencode("p cnf 9 1\n-18446744073709551617 0"), 4);
    assert_eq!(read_back("p cnf 70000 1\n70000 -1 0"), 0);
    assert_eq!(read_back("p cnf 70000 1\n-70001 0"), 4);
    assert_eq!(read_back("p cnf 70001 0"), 2);
}

#[test]
fn clauses() {
    let empty = |count: usize| format!("p cnf 0 {count}\n{}", "0 ".repeat(count));
    assert_eq!(reencode(&empty(20_000)), 0);
    assert_eq!(reencode(&empty(20_001)), 2);
    assert_eq!(reencode("p cnf 1 20000"), 8);
    assert_eq!(read_back(&empty(300_000)), 0);
    assert_eq!(read_back(&empty(300_001)), 2);
}

#[test]
fn literals() {
    assert_eq!(reencode(&with_literals(1_000, 60_000)), 0);
    assert_eq!(reencode(&with_literals(1_000, 60_001)), 9);
    assert_eq!(reencode(&with_literals(8_000, 60_000)), 0);
    assert_eq!(read_back(&with_literals(1_000, 1_000_000)), 0);
    assert_eq!(read_back(&with_literals(1_000, 1_000_001)), 9);
}

// Literals repeated, and clauses that hold a literal and its negation

/// A word with a blank after it, so many times.
fn words(word: &str, times: usize) -> String {
    format!("{word} ").repeat(times)
}

/// A clause of all literals of so many variables, those with `-` last.
fn all_literals(variables: usize) -> String {
    let words = |sign| (1..=variables).map(move |variable| format!("{sign}{variable} "));
    words("").chain(words("-")).collect::<String>() + "0\n"
}

/// The formula of `with_literals` with two words more in each whole clause.
fn with_repeats(variables: usize, literals: usize) -> String {
    with_literals(variables, literals).replace(" 1000 0\n", " 1 1000 1000 0\n")
}

/// The formula with one clause more, at the start and at the end.
fn with_clause(text: &str, clause: &str) -> [String; 2] {
    let (header, body) = text.split_once('\n').unwrap();
    let (variables, clauses) = header.rsplit_once(' ').unwrap();
    let header = format!("{variables} {}", clauses.parse::<usize>().unwrap() + 1);
    [
        format!("{header}\n{clause}{body}"),
        format!("{header}\n{body}{clause}"),
    ]
}

#[test]
fn literals_that_are_kept() {
    // the last clause is empty, so that walk-back ends with 44 and carrying forward with 45
    for (call, accepted, variables, most) in [
        (reencode as fn(&str) -> u32, 0, 8_000, 60_000),
        (sizes, 0, 8_000, 60_000),
        (walk_back, 44, 8_000, 60_000),
        (carry_forward, 45, 8_000, 60_000),
        (read_back, 0, 70_000, 1_000_000),
    ] {
        let full = with_repeats(variables, most);
        assert!(full.split(' ').count() > most + most / 1_000);
        assert_eq!(call(&full), accepted);
        assert_eq!(call(&with_repeats(variables, most + 1)), 9);
        for text in with_clause(&full, &all_literals(variables)) {
            assert_eq!(call(&text), accepted);
        }
        for text in with_clause(&full, "7 7 0\n") {
            assert_eq!(call(&text), 9);
        }
    }
}

/// On exactly the workspace that the rule asks for by what is kept and the header's C; with one entry fewer it is
/// refused.
#[test]
fn workspace_by_what_is_kept() {
    let exact = |text: &str, literals: usize| {
        let header = text.lines().next().unwrap().split(' ');
        let numbers: Vec<usize> = header.skip(2).map(|word| word.parse().unwrap()).collect();
        let work = 40 * literals + 4 * numbers[1] + 12 * numbers[0] + 8_192;
        let text = text.as_bytes();
        for (entries, number) in [(work, 0), (work - 1, 11)] {
            if numbers[0] <= 8_000 {
                let room = Room {
                    work: entries,
                    ..LARGE
                };
                assert_eq!(compare_reencode(text, WAYS[2], room), number);
                let sized = compare_sizes(text, WAYS[2], entries);
                assert_eq!(sized.err().unwrap_or(0), number);
            }
            assert_eq!(compare_read_back(text, entries), number);
        }
    };
    exact(JOINED_F, 17);
    exact("p cnf 1 1\n1 1 0\n", 1);
    exact("p cnf 1 1\n1 -1 0\n", 0);
    exact(&format!("p cnf 1 1\n{}0\n", words("1", 1_000_000)), 1);
    exact(&format!("p cnf 1 1\n{}-1 0\n", words("1", 1_000_000)), 0);
    exact(&format!("p cnf 1 20000\n{}", words("1 -1 0", 20_000)), 0);
    for variables in [8_000, 70_000] {
        let plain = format!("p cnf {variables} 2\n1 0\n2 -3 2 0\n");
        for text in with_clause(&plain, &all_literals(variables)) {
            exact(&text, 3);
        }
        let between = format!(
            "p cnf {variables} 3\n1 0\n{}2 -3 2 0\n",
            all_literals(variables)
        );
        exact(&between, 3);
    }
}

/// N counts what is kept, of a clause left out not even its 0.
#[test]
fn carrying_workspace_by_what_is_kept() {
    let assignment = b"s SATISFIABLE\nv 4 0\n";
    for (text, numbers, variables) in [
        (JOINED_F.to_string(), 24, 6),
        (format!("p cnf 4 1\n{}4 0\n", words("4", 100_000)), 2, 4),
        (format!("p cnf 8000 1\n{}", all_literals(8_000)), 0, 8_000),
        (format!("p cnf 4 20000\n{}", words("1 -1 0", 20_000)), 0, 4),
    ] {
        let work = 4 * (numbers + 3) + 4 * variables.max(5) + 64;
        let room = 6 * variables + 20;
        for carrying in CARRYING {
            let carry =
                |work| carrying.compare(text.as_bytes(), b"5 4 0\n", 1, assignment, work, room);
            assert_eq!(carry(work), 0);
            assert_eq!(carry(work - 1), 11);
        }
    }
}

/// A clause that is left out counts towards C, and its words are read as any others.
#[test]
fn clauses_left_out() {
    for (text, number) in [
        ("p cnf 2 2\n1 2 0\n1 -1 0\n", 0),
        ("p cnf 2 1\n1 2 0\n1 -1 0\n", 8),
        ("p cnf 2 1\n1 -1 0\n1 2 0\n", 8),
        ("p cnf 2 2\n1 -1 0\n", 8),
        ("p cnf 2 0\n1 -1 0\n", 8),
        ("p cnf 2 1\n1 -1 1 0\n", 0),
        ("p cnf 2 1\n1 -1", 7),
        ("p cnf 2 1\n1 1", 7),
        ("p cnf 2 1\n1 -1 3 0\n", 4),
        ("p cnf 2 1\n1 -1 -0 0\n", 3),
        ("p cnf 2 1\n1 -1 c 0\n", 3),
    ] {
        assert_eq!(reencode(text), number, "{text}");
        assert_eq!(sizes(text), number, "{text}");
        assert_eq!(read_back(text), number, "{text}");
        assert_eq!(walk_back(text), number, "{text}");
        assert_eq!(carry_forward(text), number, "{text}");
    }
}

#[test]
fn log_variables() {
    let carry = |carrying: Carrying, log: &str, named: &str| {
        let assignment = format!("s SATISFIABLE\nv {named}0\n");
        let (log, assignment) = (log.as_bytes(), assignment.as_bytes());
        carrying.compare(b"p cnf 1 0\n", log, 1, assignment, 1_000_000, 490_000)
    };
    for (log, named, number) in [
        ("70000 0\n", "70000 ", 0),
        ("70000 0\n", "70000 -70001 ", 42),
    ] {
        assert_eq!(carry(Carrying::Back, log, named), number);
    }
    for (log, named, number) in [
        ("70000 0\n", "1 ", 0),
        ("70000 0\n", "-2 ", 42),
        ("70000 0\n", "1 70000 ", 42),
    ] {
        assert_eq!(carry(Carrying::Forward, log, named), number);
    }
    for carrying in CARRYING {
        assert_eq!(carry(carrying, "-70000 0\n", ""), 0);
        assert_eq!(carry(carrying, "70001 0\n", ""), 31);
        assert_eq!(carry(carrying, "4294967297 0\n", ""), 31);
        assert_eq!(carry(carrying, "d 99999999999999999999999 0\n", ""), 31);
    }
}

/// The longest line of all: that of 70,000 variables of which none is true.
#[test]
fn the_longest_line() {
    let (formula, plan) = (b"p cnf 0 0\n", b"s SATISFIABLE\nv 0\n");
    let line = answer_text(70_000, |_| false);
    let work = 4 * 2 + 4 * 70_000 + 64;
    for (work, room, number) in [
        (work, line.len(), 0),
        (work - 1, line.len(), 11),
        (work, line.len() - 1, 14),
    ] {
        let found = Carrying::Forward.compare(formula, b"-70000 0\n", 1, plan, work, room);
        assert_eq!(found, number);
    }
    let open = CarryForwardRoom::default();
    let found = sirgholyn::carry_forward(formula, b"-70000 0\n", 1, plan, open);
    assert!(found == Ok(line));
}

#[test]
fn kept_numbers() {
    let assignment = b"s SATISFIABLE\nv 1 0\n";
    for kept in [0, 1, 2, 3, usize::MAX - 1, usize::MAX] {
        let expected = if kept < 2 { 0 } else { 34 };
        for carrying in CARRYING {
            let number = carrying.compare(b"p cnf 1 0\n", b"1 0\n", kept, assignment, 1_000, 100);
            assert_eq!(number, expected);
        }
    }
}

#[test]
fn short_by_one() {
    let read = read_formula(F, &INPUT_LIMITS).unwrap();
    for way in WAYS {
        let encoding = run_model(&read, way);
        let log = log_text(&encoding.log);
        let new = new_formula(&encoding);
        let new_text = text_of(&new);
        let enough = Room::exact(&read, &encoding);
        let reencode = |work, log, formula| {
            let room = Room {
                work: enough.work - work,
                log: enough.log - log,
                formula: enough.formula - formula,
                ..enough
            };
            compare_reencode(F, way, room)
        };
        assert_eq!(reencode(0, 0, 0), 0);
        assert_eq!(reencode(1, 0, 0), 11);
        assert_eq!(reencode(1, 1, 1), 11);
        assert_eq!(reencode(0, 1, 0), 12);
        assert_eq!(reencode(0, 1, 1), 12);
        assert_eq!(reencode(0, 0, 1), 13);
        assert_eq!(reencode(enough.work, enough.log, enough.formula), 11);
        assert_eq!(reencode(0, enough.log, enough.formula), 12);
        for missing in 1..=enough.log {
            assert_eq!(reencode(0, missing, 0), 12);
        }
        for missing in 1..=enough.formula {
            assert_eq!(reencode(0, 0, missing), 13);
        }

        let store = work_for(&new);
        assert_eq!(compare_read_back(&new_text, store), 0);
        assert_eq!(compare_read_back(&new_text, store - 1), 11);
        assert_eq!(compare_read_back(&new_text, 0), 11);

        let kept = encoding.log.len();
        // 1 and its counter, whichever form.
        let (plan, counter) = ("v 1 -2 -3 -4 -5 6 ", "7 8 9 10 ");
        let work = carrying_work(&read, &log, kept);
        for (carrying, given, line) in [
            (Carrying::Back, [plan, counter], [plan, ""]),
            (Carrying::Forward, [plan, ""], [plan, counter]),
        ] {
            let given = format!("s SATISFIABLE\n{}0\n", given.concat());
            let line = format!("{}0\n", line.concat()).len();
            let carry = |work, room| carrying.compare(F, &log, kept, given.as_bytes(), work, room);
            assert_eq!(carry(work, line), 0);
            assert_eq!(carry(work - 1, line), 11);
            assert_eq!(carry(work - 1, line - 1), 11);
            assert_eq!(carry(0, 0), 11);
            for room in 0..line {
                assert_eq!(carry(work, room), 14);
            }
        }
    }
}

/// Formulas at the limits with much work to do, byte for byte, on the least workspace that is accepted.
#[test]
fn largest() {
    for (text, way) in [
        (largest_with(5), WAYS[1]),
        (largest_with(64), WAYS[2]),
        (clash_chain(1_500), WAYS[3]),
    ] {
        let read = read_formula(&text, &INPUT_LIMITS).unwrap();
        let room = Room {
            work: work_for(&read),
            log: 1 << 27,
            formula: 1 << 23,
            ..LARGE
        };
        assert_eq!(compare_reencode(&text, way, room), 0);
    }
}

// Choices with a pure literal

/// The tally on buffers that just suffice; the bytes are the model's.
fn tally_of(formula: &Formula, way: Settings) -> Tally {
    let text = text_of(formula);
    let room = Room::exact(formula, &run_model(formula, way));
    let literals = formula.clauses.iter().map(Vec::len).sum::<usize>();
    let (clauses, variables) = (formula.clauses.len(), formula.variables as usize);
    let by_the_rule = 40 * literals + 4 * clauses + 12 * variables + 8_192;
    assert_eq!(room.work, by_the_rule);
    assert_eq!(compare_reencode(&text, way, room), 0);
    let exact = ReencodeRoom {
        work: Some(room.work),
        log: Some(room.log),
        formula: Some(room.formula),
        table: Some(room.table),
    };
    let new = sirgholyn::reencode(&text, way, exact);
    new.unwrap().tally
}

/// 8,000 variables in choices that nothing forbids.
#[test]
fn most_free_choices() {
    for (size, count) in [(64, 125), (5, 1_600)] {
        let formula = clauses_apart(size, count);
        for way in [WAYS[1], WAYS[2]] {
            let tally = tally_of(&formula, way);
            assert_eq!(tally.choices, count as u64);
        }
    }
}

/// The line that gives 1..8,000 their values.
fn line_of(is_true: impl Fn(usize) -> bool) -> String {
    let sign = |variable| if is_true(variable) { "" } else { "-" };
    let words: String = (1..=8_000).map(|v| format!("{}{v} ", sign(v))).collect();
    format!("v {words}0\n")
}

/// An answer with all of 1..8,000 true and the counters' variables false. In order form, where the new formula has
/// none of the first, the last literal of each choice comes back.
#[test]
fn most_free_choices_walked_back() {
    let answer = format!("s SATISFIABLE\n{}", line_of(|_| true));
    for (size, count) in [(64, 125), (5, 1_600)] {
        let formula = clauses_apart(size, count);
        let text = text_of(&formula);
        let last = line_of(|variable| variable % size == 0);
        for (form, expected) in [
            (Form::Counter, Err(Error::Refused(Refusal(44)))),
            (Form::Order, Ok(last.as_bytes())),
        ] {
            let way = Settings::new(form, Arrangement::AsListed);
            let new = sirgholyn::reencode(&text, way, ReencodeRoom::default()).unwrap();
            let lines = new.tally.lines as usize;
            let exact = WalkBackRoom {
                work: Some(carrying_work(&formula, &new.log, lines)),
                line: Some(last.len()),
            };
            let line = sirgholyn::walk_back(&text, &new.log, lines, answer.as_bytes(), exact);
            assert!(
                line.as_deref() == expected.as_ref().copied(),
                "{form:?} {size}"
            );
        }
    }
}

/// A plan with all of 1..8,000 true: of each choice the first literal stays true alone, and all counters are true.
#[test]
fn most_free_choices_carried_forward() {
    let plan = format!("s SATISFIABLE\n{}", line_of(|_| true));
    for (size, count) in [(64, 125), (5, 1_600)] {
        let formula = clauses_apart(size, count);
        let text = text_of(&formula);
        for form in [Form::Counter, Form::Order] {
            let way = Settings::new(form, Arrangement::AsListed);
            let new = sirgholyn::reencode(&text, way, ReencodeRoom::default()).unwrap();
            let lines = new.tally.lines as usize;
            let first = |variable: i32| variable as usize % size == 1;
            let stays = |variable: i32| variable > 8_000 || first(variable);
            let expected = answer_text(new.tally.highest as i32, stays);
            let exact = CarryForwardRoom {
                work: Some(carrying_work(&formula, &new.log, lines)),
                line: Some(expected.len()),
            };
            let line = sirgholyn::carry_forward(&text, &new.log, lines, plan.as_bytes(), exact);
            assert!(line == Ok(expected), "{form:?} {size}");
        }
    }
}

/// Sizes 5 to 64 are taken, the others deleted, whether all literals are pure or one.
#[test]
fn sizes_with_a_pure_literal() {
    for size in [1, 2, 3, 4, 5, 6, 63, 64, 65, 66] {
        let clause = clauses_apart(size, 1);
        for forbidden in all_but_one(&clause.clauses[0]) {
            let clauses = [clause.clauses.clone(), forbidding(&forbidden)].concat();
            let formula = Formula::new(size as i32, clauses);
            for way in WAYS {
                let choices = tally_of(&formula, way).choices;
                let taken = u64::from((5..=64).contains(&size));
                assert_eq!(choices, taken, "{size}, without {forbidden:?}, {way:?}");
            }
        }
    }
}

/// The size of the resolvent counts.
#[test]
fn sizes_joined_by_a_clash() {
    for size in [1, 4, 5, 6, 63, 64, 65, 66] {
        let half = 1 + size / 2;
        let clauses = clashing_at_1(half, size + 2 - half).to_vec();
        let formula = Formula::new(size + 1, clauses);
        for way in WAYS {
            let choices = tally_of(&formula, way).choices;
            assert_eq!(
                choices,
                u64::from((5..=64).contains(&size)),
                "{size}, {way:?}"
            );
        }
    }
}

// Choices of which pairs stand

/// The least buffers for a choice of 64, and each of them one short.
#[test]
fn a_choice_of_64() {
    // L 64, 4,096 and 8,128; C 1, 2,017 and 4,033
    for (copies, work, lines) in [(0, 11_524, 253), (1, 180_868, 2_269), (2, 350_212, 4_285)] {
        let formula = with_pairs(64, 1, copies);
        let text = text_of(&formula);
        for way in WAYS {
            let tally = tally_of(&formula, way);
            let of_order = if way.form == Form::Order {
                3 * 64 - 2
            } else {
                0
            };
            assert_eq!((tally.choices, tally.lines), (1, lines + of_order));
            for (work, log, new, number) in [
                (work, 0, 0, 0),
                (work - 1, 0, 0, 11),
                (work - 1, 1, 1, 11),
                (work, 1, 0, 12),
                (work, 1, 1, 12),
                (work, tally.log_bytes, 0, 12),
                (work, 0, 1, 13),
            ] {
                let room = Room {
                    work,
                    log: tally.log_bytes - log,
                    formula: tally.formula_bytes - new,
                    table: 1,
                };
                let found = compare_reencode(&text, way, room);
                assert_eq!(found, number, "{copies} {way:?} {room:?}");
            }
        }
    }
}

/// The log of such a choice ends where the buffer does: in each part of it, at a line's end and inside the line.
#[test]
fn logs_of_a_choice_of_64_cut_short() {
    for copies in [0, 1, 2] {
        let formula = with_pairs(64, 1, copies);
        let text = text_of(&formula);
        let encoding = run_model(&formula, WAYS[2]);
        let exact = Room::exact(&formula, &encoding);
        let parts = parts(&formula, &encoding);
        let mut ends = 0;
        for (place, line) in encoding.log.iter().enumerate() {
            ends += log_text(slice::from_ref(line)).len();
            let is_last = parts.get(place + 1) != Some(&parts[place]);
            for log in [ends - 1, ends].into_iter().filter(|_| is_last) {
                let room = Room { log, ..exact };
                let found = compare_reencode(&text, WAYS[2], room);
                let is_whole = place + 1 == parts.len() && log == ends;
                assert_eq!(found, if is_whole { 0 } else { 12 }, "{copies} {log}");
            }
        }
    }
}

/// Carried on the least workspace, with the last literal true.
#[test]
fn a_choice_of_64_carried() {
    let assignment = b"s SATISFIABLE\nv 64 0\n";
    let line = |highest| answer_text(highest, |variable| variable == 64).len();
    for copies in [0, 1, 2] {
        let formula = with_pairs(64, 1, copies);
        let text = text_of(&formula);
        for way in WAYS {
            let lines = run_model(&formula, way).log;
            let log = log_text(&lines);
            let work = carrying_work(&formula, &log, lines.len());
            for (carrying, line) in [(Carrying::Back, line(64)), (Carrying::Forward, line(127))] {
                for (work, room, number) in
                    [(work, line, 0), (work - 1, line, 11), (work, line - 1, 14)]
                {
                    let kept = lines.len();
                    let found = carrying.compare(&text, &log, kept, assignment, work, room);
                    assert_eq!(found, number, "{carrying:?} {copies} {way:?}");
                }
            }
        }
    }
}

/// C 20,000, nearly all of them pairs; with one clause more it is refused.
#[test]
fn most_pairs() {
    for (size, count) in [(64, 10), (64, 5), (5, 1_600), (5, 1_000)] {
        let mut formula = with_pairs(size, count, 2);
        formula.clauses.truncate(20_000);
        assert_eq!(formula.clauses.len(), 20_000);
        let of_pairs = 20_000 - count;
        let lines = count * (4 * (size - 1) + 1) + of_pairs;
        for (form, of_order) in [(Form::Counter, 0), (Form::Order, count * (3 * size - 2))] {
            let tally = tally_of(&formula, Settings::new(form, Arrangement::AsListed));
            assert_eq!(tally.choices, count as u64);
            assert_eq!(tally.lines, (lines + of_order) as u64, "{size} {form:?}");
        }
        formula.clauses.push(vec![-1, -2]);
        let text = String::from_utf8(text_of(&formula)).unwrap();
        assert_eq!(reencode(&text), 2);
    }
}

/// Calls with a tally of so many numbers: as many as fit are written, and nothing past them.
fn expect_tally(expected: &[u64], call: impl Fn(*mut u64, usize) -> u32 + Sync) {
    for room in 0..expected.len() + 3 {
        let mut tally = vec![77; room];
        let lent = &mut tally;
        let call = &call;
        assert_eq!(
            on_large_stack(move || call(lent.as_mut_ptr(), lent.len())).unwrap(),
            0
        );
        let fits = room.min(expected.len());
        assert_eq!(tally[..fits], expected[..fits]);
        assert!(tally[fits..].iter().all(|&number| number == 77));
    }
}

#[test]
fn tallies_of_any_length() {
    let text = b"p cnf 3 2\n1 2 0\n-1 3 0\n";
    let log = b"2 3 0\nd 1 2 0\nd -1 3 0\nd 2 3 0\n";
    let assignment = b"s SATISFIABLE\nv 2 0\n";
    // SAFETY, here and below: each pointer and length are those of one slice.
    expect_tally(&[0, 3, 0, 4, 31, 10], |tally, room| unsafe {
        let (mut work, mut log, mut formula) = ([0; 9_000], [0; 100], [0; 100]);
        let (t, w, l, f) = (text, &mut work, &mut log, &mut formula);
        let r = &mut [ChoiceRecord::default(); 1];
        library::sirgholyn_reencode(
            t.as_ptr(),
            t.len(),
            0,
            0,
            1,
            w.as_mut_ptr(),
            w.len(),
            l.as_mut_ptr(),
            l.len(),
            f.as_mut_ptr(),
            f.len(),
            r.as_mut_ptr(),
            r.len(),
            tally,
            room,
        )
    });
    for carry in [
        library::sirgholyn_walk_back,
        library::sirgholyn_carry_forward,
    ] {
        expect_tally(&[12], |tally, room| unsafe {
            let (mut work, mut line) = ([0; 1_000], [0; 100]);
            let (t, l, a, w, o) = (text, log, assignment, &mut work, &mut line);
            carry(
                t.as_ptr(),
                t.len(),
                l.as_ptr(),
                l.len(),
                4,
                a.as_ptr(),
                a.len(),
                w.as_mut_ptr(),
                w.len(),
                o.as_mut_ptr(),
                o.len(),
                tally,
                room,
            )
        });
    }
    expect_tally(&[3, 2, 4], |tally, room| unsafe {
        let mut store = [0; 9_000];
        let (t, s) = (text, &mut store);
        library::sirgholyn_read_back(t.as_ptr(), t.len(), s.as_mut_ptr(), s.len(), tally, room)
    });
}

#[test]
fn tally_zero_after_a_refusal() {
    for (text, room, number) in [
        (&b"p cnf 1 1\n2 0\n"[..], 9_000, 4),
        (&b"p cnf 1 2\n1 -1 0\n1 1 0\n1 0\n"[..], 9_000, 8),
        (&b"p cnf 1 1\n1 0\n"[..], 1, 11),
    ] {
        let (mut store, mut tally) = (vec![77; room], vec![77; 5]);
        let (s, t) = (&mut store, &mut tally);
        // SAFETY: each pointer and length are those of one slice.
        let answer = on_large_stack(move || unsafe {
            library::sirgholyn_read_back(
                text.as_ptr(),
                text.len(),
                s.as_mut_ptr(),
                s.len(),
                t.as_mut_ptr(),
                t.len(),
            )
        });
        assert_eq!(answer.unwrap(), number);
        assert!(tally.iter().all(|&count| count == 0));
        assert!(store.iter().all(|&entry| entry == 0));
    }
}
