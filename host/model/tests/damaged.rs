//! Damaged texts, logs and answers: each call gives a number of its own list
//! or a result that holds, and each number occurs.

use model::answer::read_answer;
use model::encoding::Encoding;
use model::generator::{
    answer_after, answer_for, damage, damage_log, noise, one_of_three_joined, planned, text_of,
    Joined, Random,
};
use model::log_reading::read_kept_lines;
use model::reading::{read_formula, Formula, INPUT_LIMITS};
use model::texts::{log_text, Line};
use model::walk_back::{highest_allowed, replay, satisfies};
use model::{carry_forward, read_back, reencode, walk_back, Arrangement, Form, Room, Settings};
use std::collections::BTreeMap;
use std::slice::from_ref;

/// One way, with one of the steps.
fn one_way(random: &mut Random, steps: &[u32]) -> Settings {
    let form = *random.one_of(&[Form::Counter, Form::Order]);
    let arrangement = *random.one_of(&[Arrangement::AsListed, Arrangement::Alignment]);
    let step = *random.one_of(steps);
    Settings {
        step,
        ..Settings::new(form, arrangement)
    }
}

#[test]
fn damaged_formulas() {
    let mut numbers: BTreeMap<u8, usize> = BTreeMap::new();
    for seed in 0..20_000 {
        let mut random = Random::new(seed);
        let size = random.below(8);
        let formula = if random.chance(30) {
            noise(&mut random, size, 4)
        } else {
            planned(&mut random, size, 6)
        };
        let mut text = one_of_three_joined(&mut random, formula).text;
        for _ in 0..random.below(3) {
            text = damage(&mut random, &text);
        }
        let settings = one_way(&mut random, &[0, 1, 1, 1, 1, 2, 3, 7, 39, 100, 101]);
        let room = Room {
            workspace: 8_192 + random.below(4_000) as u64,
            log: random.below(1_000),
            formula: random.below(400),
            table: random.below(3),
        };
        match reencode(&text, settings, room) {
            Ok(result) => {
                *numbers.entry(0).or_default() += 1;
                let (highest, clauses) = read_back(&result.formula, 1 << 40).unwrap();
                assert_eq!((highest, clauses.len()), (result.highest, result.clauses));
                assert!(result.log.len() <= room.log && result.formula.len() <= room.formula);
                assert!(result.table.len() == result.choices && result.choices <= room.table);
            }
            Err(number) => *numbers.entry(number).or_default() += 1,
        }
    }
    println!("{numbers:?}");
    let seen: Vec<u8> = numbers.keys().copied().collect();
    assert_eq!(seen, [0, 1, 2, 3, 4, 7, 8, 11, 12, 13, 15, 17]);
}

/// Walk-back, or carrying a plan forward.
type Call = fn(&[u8], &[u8], usize, &[u8], u64, usize) -> Result<Vec<u8>, u8>;

/// What is handed in for it, some of it damaged.
struct Damaged {
    text: Vec<u8>,
    log: Vec<u8>,
    keep: usize,
    answer: Vec<u8>,
    workspace: u64,
    room: usize,
}

/// A small formula, its own log, and an answer made for them, before the damage.
fn damaged(
    random: &mut Random,
    answer: impl Fn(&mut Random, &Formula, &Encoding) -> Vec<u8>,
) -> Damaged {
    let size = random.between(2, 7);
    let formula = planned(random, size, 8);
    let Joined { mut text, formula } = one_of_three_joined(random, formula);
    let settings = one_way(random, &[1, 1, 2, 7]);
    let encoding = Encoding::run(&formula, settings);
    let mut lines = encoding.log.clone();
    if random.chance(30) {
        lines = damage_log(random, &lines);
    }
    let mut log = log_text(&lines);
    let mut answer = answer(random, &formula, &encoding);
    if random.chance(5) {
        text = damage(random, &text);
    }
    if random.chance(10) {
        log = damage(random, &log);
    }
    if random.chance(30) {
        answer = damage(random, &answer);
    }
    let keep = if random.chance(70) {
        lines.len()
    } else {
        random.below(lines.len() + 2)
    };
    Damaged {
        text,
        log,
        keep,
        answer,
        workspace: if random.chance(95) { 1 << 40 } else { 200 },
        room: if random.chance(95) { 100 } else { 10 },
    }
}

/// The values of a line `v .. 0`, at the variables' indices.
fn values_of(line: Vec<u8>) -> Vec<bool> {
    let line = String::from_utf8(line).unwrap();
    let literals = line
        .strip_prefix("v ")
        .and_then(|rest| rest.strip_suffix("0\n"))
        .unwrap()
        .split_whitespace()
        .map(|word| word.parse::<i32>().unwrap());
    let mut values = vec![false];
    for literal in literals {
        assert_eq!(literal.unsigned_abs() as usize, values.len());
        values.push(literal > 0);
    }
    values
}

/// Damaged texts given to a call; its lines are checked. How often each number occurs, without those of the formula.
fn given_to(
    call: Call,
    answer: impl Fn(&mut Random, &Formula, &Encoding) -> Vec<u8>,
    check: impl Fn(&Formula, &[Line], Vec<bool>),
) -> BTreeMap<u8, usize> {
    let mut numbers: BTreeMap<u8, usize> = BTreeMap::new();
    for seed in 0..20_000 {
        let Damaged {
            text,
            log,
            keep,
            answer,
            workspace,
            room,
        } = damaged(&mut Random::new(seed), &answer);
        let number = match call(&text, &log, keep, &answer, workspace, room) {
            Ok(line) => {
                assert!(line.len() <= room);
                let formula = read_formula(&text, &INPUT_LIMITS).unwrap();
                let kept = read_kept_lines(&log, keep).unwrap();
                check(&formula, &kept, values_of(line));
                0
            }
            Err(number) => number,
        };
        *numbers.entry(number).or_default() += 1;
    }
    println!("{numbers:?}");
    numbers.retain(|number, _| ![1, 2, 3, 4, 7, 8].contains(number));
    numbers
}

/// The line is for 1..V and satisfies the formula.
#[test]
fn damaged_logs_and_answers() {
    let answer = |random: &mut Random, _: &Formula, encoding: &Encoding| {
        let values: Vec<bool> = (0..=encoding.highest).map(|_| random.chance(50)).collect();
        answer_for(random, &values)
    };
    let numbers = given_to(walk_back, answer, |formula, _, values| {
        assert_eq!(values.len(), formula.variables as usize + 1);
        assert!(satisfies(&values, &formula.clauses));
    });
    let expected = [0, 11, 14, 31, 32, 33, 34, 41, 42, 43, 44];
    assert!(numbers.keys().eq(&expected));
}

/// The line is for 1..X and satisfies what stands.
#[test]
fn damaged_logs_and_plans() {
    let plan =
        |random: &mut Random, formula: &Formula, _: &Encoding| answer_after(random, formula, &[]);
    let numbers = given_to(carry_forward, plan, |formula, kept, values| {
        assert_eq!(values.len(), highest_allowed(formula, kept) as usize + 1);
        assert!(satisfies(&values, &replay(&formula.clauses, kept).unwrap()));
    });
    let expected = [0, 11, 14, 31, 32, 34, 41, 42, 43, 45, 46];
    assert!(numbers.keys().eq(&expected));
}

/// The formula with a clause left away, a clause or two literals of it written once more, or a literal turned over.
fn neighbour(random: &mut Random, mut formula: Formula) -> Formula {
    if formula.clauses.is_empty() {
        return formula;
    }
    let place = random.below(formula.clauses.len());
    let mut copy = formula.clauses[place].clone();
    match random.below(6) {
        0 => {
            formula.clauses.remove(place);
        }
        1 if !copy.is_empty() => formula.clauses[place][0] *= -1,
        kind => {
            random.shuffle(&mut copy);
            copy.truncate(if kind == 2 { copy.len() } else { 2 });
            formula.clauses.push(copy);
        }
    }
    formula
}

/// What a plan that satisfies the formula becomes with these lines.
fn expected(formula: &Formula, kept: &[Line], plan: &[bool]) -> Result<Vec<bool>, u8> {
    let standing = replay(&formula.clauses, kept)?;
    let mut values = plan.to_vec();
    values.resize(highest_allowed(formula, kept) as usize + 1, false);
    for line in kept.iter().filter(|line| !line.deletion) {
        let is_false = !satisfies(&values, from_ref(&line.literals));
        if let (true, Some(first)) = (is_false, line.literals.first()) {
            values[first.unsigned_abs() as usize] = *first > 0;
        }
    }
    if satisfies(&values, &standing) {
        Ok(values)
    } else {
        Err(46)
    }
}

/// Logs of formulas that have no more than the variables in common, and of neighbours.
#[test]
fn logs_of_other_formulas() {
    let mut numbers: BTreeMap<u8, usize> = BTreeMap::new();
    for seed in 0..20_000 {
        let random = &mut Random::new(seed);
        let (size, clauses) = (random.between(4, 8), random.between(1, 9));
        let other = planned(random, size, clauses);
        let formula = if random.chance(20) {
            planned(random, size, clauses)
        } else {
            neighbour(random, other.clone())
        };
        let encoding = Encoding::run(&other, one_way(random, &[1, 1, 2, 7]));
        let keep = random.below(encoding.log.len() + 1);
        let kept = &encoding.log[..keep];
        let plan = answer_after(random, &formula, &[]);
        let values = read_answer(&plan, formula.variables).unwrap();
        let expected = if satisfies(&values, &formula.clauses) {
            expected(&formula, kept, &values)
        } else {
            Err(45)
        };
        let (text, log) = (text_of(&formula), log_text(&encoding.log));
        let line = carry_forward(&text, &log, keep, &plan, 1 << 40, 1 << 20);
        *numbers.entry(line.clone().err().unwrap_or(0)).or_default() += 1;
        assert_eq!(line.map(values_of), expected, "{kept:?} of {other:?}");
    }
    println!("{numbers:?}");
    let seen: Vec<u8> = numbers.keys().copied().collect();
    assert_eq!(seen, [0, 32, 45, 46]);
    for number in seen {
        assert!(numbers[&number] > 100, "{number}");
    }
}
