//! Seeded random formulas, made so that the remarkable cases occur often, and
//! random damage for texts.

use crate::counter::pairs;
use crate::encoding::Encoding;
use crate::reading::Formula;
use crate::standing::holds_opposites;
use crate::texts::{formula_text, Line};
use crate::walk_back::{highest_allowed, is_true, replay};
use crate::{Arrangement, Form, Settings};
use std::collections::HashSet;

/// An xorshift generator.
pub struct Random(u64);

impl Random {
    pub fn new(seed: u64) -> Self {
        Random(seed.wrapping_mul(0x9E37_79B9_7F4A_7C15) | 1)
    }

    fn next(&mut self) -> u64 {
        self.0 ^= self.0 << 13;
        self.0 ^= self.0 >> 7;
        self.0 ^= self.0 << 17;
        self.0
    }

    /// A number from 0 to limit - 1.
    pub fn below(&mut self, limit: usize) -> usize {
        ((self.next() >> 16) % limit.max(1) as u64) as usize
    }

    pub fn between(&mut self, low: usize, high: usize) -> usize {
        low + self.below(high + 1 - low)
    }

    pub fn chance(&mut self, percent: usize) -> bool {
        self.below(100) < percent
    }

    pub fn one_of<'a, T>(&mut self, list: &'a [T]) -> &'a T {
        &list[self.below(list.len())]
    }

    pub fn shuffle<T>(&mut self, list: &mut [T]) {
        for last in (1..list.len()).rev() {
            list.swap(last, self.below(last + 1));
        }
    }

    /// The variable or its negation.
    pub fn sign(&mut self, variable: i32) -> i32 {
        if self.chance(50) {
            variable
        } else {
            -variable
        }
    }
}

/// Adds a literal to a clause unless its variable is there.
fn put(clause: &mut Vec<i32>, literal: i32) {
    if !clause.iter().any(|other| other.abs() == literal.abs()) {
        clause.push(literal);
    }
}

/// Clauses without any plan.
pub fn noise(random: &mut Random, variables: usize, clause_count: usize) -> Formula {
    let mut clauses = Vec::new();
    for _ in 0..clause_count {
        let mut clause = Vec::new();
        for _ in 0..random.below(5) {
            if variables > 0 {
                let variable = random.between(1, variables) as i32;
                let literal = random.sign(variable);
                put(&mut clause, literal);
            }
        }
        clauses.push(clause);
    }
    Formula::new(variables as i32, clauses)
}

/// Sizes of the clauses that are meant to be unique, before clashes join them.
fn unique_sizes(random: &mut Random, variables: usize) -> Vec<usize> {
    let mut sizes = match random.below(8) {
        0 | 1 => vec![random.between(5, 7)],
        2 | 3 => vec![5, random.between(5, 6)],
        4 => vec![5, 5, 5],
        5 => (0..random.between(2, 5)).map(|_| random.below(4)).collect(),
        6 => vec![random.below(2); random.between(2, 4)],
        _ => vec![random.between(2, 4), random.between(2, 4)],
    };
    while sizes.iter().sum::<usize>() > variables {
        sizes.pop();
    }
    sizes
}

/// Unique literal clauses, some of them clashing, among clauses that hold
/// their literals' negations.
pub fn planned(random: &mut Random, variables: usize, clause_limit: usize) -> Formula {
    let mut literals: Vec<i32> = Vec::new();
    for variable in 1..=variables as i32 {
        let negated = random.chance(30);
        literals.push(if negated { -variable } else { variable });
    }
    random.shuffle(&mut literals);

    let mut unique: Vec<Vec<i32>> = Vec::new();
    for size in unique_sizes(random, variables) {
        unique.push(literals.drain(..size).collect());
    }
    let chosen: Vec<Vec<i32>> = unique.clone();
    let clashes = if random.chance(40) {
        0
    } else {
        random.between(1, 5)
    };
    if clashes > 0 && unique.len() < 3 && random.chance(70) {
        unique.push(Vec::new());
    }
    let in_a_row = random.chance(50);
    for number in 0..clashes {
        if literals.is_empty() || unique.len() < 2 {
            break;
        }
        let (first, second) = if in_a_row {
            (number % unique.len(), (number + 1) % unique.len())
        } else {
            (random.below(unique.len()), random.below(unique.len()))
        };
        if first != second {
            let literal = literals.remove(0);
            unique[first].push(literal);
            unique[second].push(-literal);
        }
    }

    let fillers = literals;
    let mut others = other_clauses(
        random,
        &chosen,
        &fillers,
        clause_limit.saturating_sub(unique.len()),
    );
    cover(random, &chosen, &mut others);
    for clause in &mut unique {
        random.shuffle(clause);
    }

    let mut clauses = unique;
    clauses.append(&mut others);
    if random.chance(70) {
        random.shuffle(&mut clauses);
    }
    if random.chance(5) {
        let place = random.below(clauses.len() + 1);
        clauses.insert(place, Vec::new());
    }
    clauses.truncate(clause_limit);
    Formula::new(variables as i32, clauses)
}

/// Clauses of negated chosen literals and fillers: pairs (also repeated, in both
/// orders), links, clauses with several negated literals.
fn other_clauses(
    random: &mut Random,
    chosen: &[Vec<i32>],
    fillers: &[i32],
    limit: usize,
) -> Vec<Vec<i32>> {
    let chosen: Vec<&Vec<i32>> = chosen.iter().filter(|clause| clause.len() > 1).collect();
    let mut others: Vec<Vec<i32>> = Vec::new();
    let wanted = random.between(limit / 2, limit);
    while others.len() < wanted {
        let mut clause = Vec::new();
        if !chosen.is_empty() {
            let one = *random.one_of(&chosen);
            let other = *random.one_of(&chosen);
            let negated: Vec<i32> = match random.below(6) {
                0 => vec![-random.one_of(one)],
                1 => vec![-random.one_of(one), -random.one_of(one)],
                2 | 3 => vec![-random.one_of(one), -random.one_of(other)],
                4 => (0..3).map(|_| -random.one_of(one)).collect(),
                _ => vec![
                    -random.one_of(one),
                    -random.one_of(other),
                    -random.one_of(other),
                ],
            };
            for literal in negated {
                put(&mut clause, literal);
            }
        }
        if !fillers.is_empty() && (clause.len() != 2 || random.chance(25)) {
            let filler = *random.one_of(fillers);
            let literal = random.sign(filler);
            put(&mut clause, literal);
        }
        random.shuffle(&mut clause);
        if random.chance(20) {
            let mut copy = clause.clone();
            copy.reverse();
            others.push(copy);
        }
        others.push(clause);
    }
    others
}

/// Sees to it that most negations of chosen literals stand, in clauses that
/// are not unique.
fn cover(random: &mut Random, chosen: &[Vec<i32>], others: &mut [Vec<i32>]) {
    if others.is_empty() {
        return;
    }
    let leave_out = random.chance(15);
    for literal in chosen.iter().flatten() {
        let mut count = others.iter().filter(|c| c.contains(&-literal)).count();
        for _ in 0..40 {
            if count >= 2 || (leave_out && random.chance(10)) {
                break;
            }
            let place = random.below(others.len());
            let before = others[place].len();
            put(&mut others[place], -literal);
            count += others[place].len() - before;
        }
    }
}

fn choices_of(formula: &Formula) -> Vec<Vec<i32>> {
    let settings = Settings::new(Form::Counter, Arrangement::AsListed);
    let choices = Encoding::run(formula, settings).choices;
    choices.into_iter().map(|(_, choice)| choice).collect()
}

/// Up to three literals of each choice of the formula, of some choices all.
fn some_literals_of_choices(random: &mut Random, formula: &Formula) -> Vec<i32> {
    let mut some = Vec::new();
    for mut choice in choices_of(formula) {
        random.shuffle(&mut choice);
        if !random.chance(20) {
            choice.truncate(random.below(4));
        }
        some.append(&mut choice);
    }
    some
}

/// The formula without the clauses that hold the negations of some literals of its choices.
pub fn freed(random: &mut Random, mut formula: Formula) -> Formula {
    let free = some_literals_of_choices(random, &formula);
    let forbids = |clause: &Vec<i32>| free.iter().any(|literal| clause.contains(&-literal));
    formula.clauses.retain(|clause| !forbids(clause));
    formula
}

/// The formula with more pairs of its choices: of each choice some or all, a few in both orders.
pub fn paired(random: &mut Random, mut formula: Formula) -> Formula {
    for choice in choices_of(&formula) {
        let mut pairs = pairs(&choice);
        random.shuffle(&mut pairs);
        if random.chance(50) {
            pairs.truncate(random.below(pairs.len()));
        }
        for mut pair in pairs {
            formula.clauses.push(pair.clone());
            if random.chance(15) {
                pair.reverse();
                formula.clauses.push(pair);
            }
        }
    }
    random.shuffle(&mut formula.clauses);
    formula
}

/// The formula with one choice that is an input clause cut into two to four clauses, which clash on new variables.
pub fn cut_apart(random: &mut Random, mut formula: Formula) -> Formula {
    let settings = Settings::new(Form::Counter, Arrangement::AsListed);
    let mut choices = Encoding::run(&formula, settings).choices;
    choices.retain(|&(place, _)| place < formula.clauses.len());
    if choices.is_empty() {
        return formula;
    }
    let (place, literals) = random.one_of(&choices);
    let mut parts: Vec<Vec<i32>> = vec![Vec::new(); random.between(2, 4)];
    for &literal in literals {
        let part = random.below(parts.len());
        parts[part].push(literal);
    }
    for part in 1..parts.len() {
        formula.variables += 1;
        let clashing = random.sign(formula.variables);
        let before = random.below(part);
        parts[before].push(clashing);
        parts[part].push(-clashing);
    }
    parts.iter_mut().for_each(|part| random.shuffle(part));
    formula.clauses.splice(place..=place, parts);
    if random.chance(50) {
        random.shuffle(&mut formula.clauses);
    }
    formula
}

/// So many clauses of the size, over as many variables as there are literals: nothing forbids any of them.
pub fn clauses_apart(size: usize, count: usize) -> Formula {
    let variables: Vec<i32> = (1..=(size * count) as i32).collect();
    let clauses = variables.chunks(size).map(<[i32]>::to_vec).collect();
    Formula::new((size * count) as i32, clauses)
}

/// 626 choices of 5 and a last one of the size, over V variables.
pub fn many_choices(variables: i32, last: usize) -> Vec<u8> {
    let mut formula = clauses_apart(5, 626);
    let literals = (3_131..).take(last);
    formula.clauses.push(literals.collect());
    formula.variables = variables;
    text_of(&formula)
}

/// 1 and further literals, -1 and further literals: a and b of them. The resolvent has a + b - 2.
pub fn clashing_at_1(a: i32, b: i32) -> [Vec<i32>; 2] {
    [
        (1..=a).collect(),
        [-1].into_iter().chain(a + 1..a + b).collect(),
    ]
}

/// The negation of each of the literals in two clauses, which are not unique.
pub fn forbidding(literals: &[i32]) -> Vec<Vec<i32>> {
    let negations = literals.iter().map(|&literal| vec![-literal]);
    negations
        .flat_map(|clause| [clause.clone(), clause])
        .collect()
}

/// None of the literals, and all but the first, the last, or one between.
pub fn all_but_one(literals: &[i32]) -> Vec<Vec<i32>> {
    let all_but = |place| {
        let mut others = literals.to_vec();
        others.remove(place);
        others
    };
    let last = literals.len() - 1;
    vec![Vec::new(), all_but(0), all_but(last / 2), all_but(last)]
}

/// V 8,000, C 20,000 and L near 60,000: choices of the size, and clauses of two or three negated literals.
pub fn largest_with(size: usize) -> Vec<u8> {
    let mut random = Random::new(size as u64);
    let mut clauses: Vec<Vec<i32>> = (1..=8_000)
        .collect::<Vec<i32>>()
        .chunks(size)
        .map(<[i32]>::to_vec)
        .collect();
    let mut literals = 8_000;
    while clauses.len() < 20_000 {
        let wanted = if 60_000 - literals > 3 * (20_000 - clauses.len()) {
            3
        } else {
            2
        };
        let mut clause: Vec<i32> = Vec::new();
        while clause.len() < wanted {
            let literal = -(random.between(1, 8_000) as i32);
            if !clause.contains(&literal) {
                clause.push(literal);
            }
        }
        literals += wanted;
        clauses.push(clause);
    }
    formula_text(8_000, &clauses)
}

pub fn text_of(formula: &Formula) -> Vec<u8> {
    formula_text(formula.variables, &formula.clauses)
}

/// A text, and the formula that is read of it.
#[derive(Debug, Clone)]
pub struct Joined {
    pub text: Vec<u8>,
    pub formula: Formula,
}

impl From<Formula> for Joined {
    fn from(formula: Formula) -> Joined {
        Joined {
            text: text_of(&formula),
            formula,
        }
    }
}

/// Writes a literal of the clause once more, anywhere behind it.
fn repeat(random: &mut Random, clause: &mut Vec<i32>) {
    let place = random.below(clause.len());
    let later = random.between(place + 1, clause.len());
    clause.insert(later, clause[place]);
}

/// Writes the negation of a literal of the clause, anywhere.
fn oppose(random: &mut Random, clause: &mut Vec<i32>) {
    let negation = -*random.one_of(clause);
    let place = random.below(clause.len() + 1);
    clause.insert(place, negation);
}

/// Writes about a third of the clauses with literals repeated or opposed, as where clauses of several
/// formulas are joined. Those with a literal and its negation are left out where the text is read.
pub fn joined(random: &mut Random, formula: &Formula) -> Joined {
    let mut written = Vec::new();
    let mut read = Formula::new(formula.variables, Vec::new());
    for clause in &formula.clauses {
        let mut changed = clause.clone();
        let is_changed = !clause.is_empty() && random.chance(33);
        let is_opposed = is_changed && random.chance(40);
        if is_opposed {
            oppose(random, &mut changed);
            read.left_out += 1;
        } else {
            read.clauses.push(clause.clone());
        }
        if is_changed && (!is_opposed || random.chance(50)) {
            for _ in 0..random.between(1, 3) {
                repeat(random, &mut changed);
            }
        }
        written.push(changed);
    }
    Joined {
        text: formula_text(formula.variables, &written),
        formula: read,
    }
}

/// One of three formulas joined, the others as they are.
pub fn one_of_three_joined(random: &mut Random, formula: Formula) -> Joined {
    if random.chance(33) {
        joined(random, &formula)
    } else {
        formula.into()
    }
}

/// The same, freed and paired before, each in so many of a hundred.
pub fn varied(random: &mut Random, mut formula: Formula, free: usize, pair: usize) -> Joined {
    if random.chance(free) {
        formula = freed(random, formula);
    }
    if random.chance(pair) {
        formula = paired(random, formula);
    }
    one_of_three_joined(random, formula)
}

/// The clauses of an accepted text as they are written.
pub fn written_clauses(text: &[u8]) -> Vec<Vec<i32>> {
    let text = String::from_utf8_lossy(text);
    let body = text
        .lines()
        .skip_while(|line| line.starts_with('c'))
        .skip(1);
    let numbers: Vec<i32> = body
        .flat_map(str::split_whitespace)
        .map(|word| word.parse().expect("a number"))
        .collect();
    let mut clauses: Vec<Vec<i32>> = numbers.split(|&n| n == 0).map(<[i32]>::to_vec).collect();
    let after = clauses.pop();
    assert_eq!(after, Some(Vec::new()), "the text ends inside a clause");
    clauses
}

/// The clauses (by index) that are kept of an accepted text, though a literal is written more than once.
pub fn clauses_with_repeat(text: &[u8]) -> Vec<usize> {
    let mut kept = written_clauses(text);
    kept.retain(|clause| !holds_opposites(clause));
    let repeats = |clause: &[i32]| {
        let different: HashSet<&i32> = clause.iter().collect();
        different.len() < clause.len()
    };
    (0..kept.len()).filter(|&p| repeats(&kept[p])).collect()
}

/// How many of those go into some choice.
pub fn repeats_in_choices(text: &[u8], encoding: &Encoding) -> usize {
    let mut places = clauses_with_repeat(text);
    let in_choices = encoding.input_clauses_in_choices();
    places.retain(|place| in_choices.contains(place));
    places.len()
}

/// One random change of a text.
pub fn damage(random: &mut Random, text: &[u8]) -> Vec<u8> {
    const BYTES: &[u8] = b"0123456789-- \t\r\n\ncdpsvx";
    const WORDS: &[&[u8]] = &[
        b" 0 ",
        b" 1 ",
        b" -1 ",
        b" 1 1 ",
        b" 2 -2 ",
        b" 99999999999999999999 ",
        b" -0 ",
        b" 00 ",
        b"\n\n",
        b"\r\n",
        b" x ",
        b" 8001 ",
        b" 70001 ",
        b"90000",
        b"d 1 0\n",
        b"c\n",
        b"v \n",
    ];
    let mut damaged = text.to_vec();
    let place = random.below(text.len() + 1);
    match random.below(7) {
        0 if place < text.len() => {
            damaged.remove(place);
        }
        1 => damaged.insert(place, *random.one_of(BYTES)),
        2 if place < text.len() => damaged[place] = *random.one_of(BYTES),
        3 => damaged.truncate(place),
        4 => {
            let end = random.between(place, text.len());
            damaged.drain(place..end.min(place + 8));
        }
        5 => {
            let end = random.between(place, text.len()).min(place + 8);
            let copy = text[place..end].to_vec();
            damaged.splice(place..place, copy);
        }
        _ => {
            damaged.splice(place..place, random.one_of(WORDS).iter().copied());
        }
    }
    damaged
}

/// One random change of a log that keeps its layout: a line dropped, repeated,
/// moved, or with its literals or its `d` changed.
pub fn damage_log(random: &mut Random, lines: &[Line]) -> Vec<Line> {
    let mut damaged = lines.to_vec();
    if lines.is_empty() {
        return damaged;
    }
    let place = random.below(lines.len());
    let other = random.below(lines.len());
    let size = lines[place].literals.len();
    match random.below(6) {
        0 => {
            damaged.remove(place);
        }
        1 => damaged.insert(other, lines[place].clone()),
        2 => damaged.swap(place, other),
        3 if size > 0 => {
            let (first, second) = (random.below(size), random.below(size));
            damaged[place].literals.swap(first, second);
        }
        4 if size > 0 => {
            let index = random.below(size);
            damaged[place].literals[index] *= -1;
        }
        _ => damaged[place].deletion = !lines[place].deletion,
    }
    damaged
}

/// An answer with these values, at the variables' indices, in one of the
/// layouts that are allowed.
pub fn answer_for(random: &mut Random, values: &[bool]) -> Vec<u8> {
    let end = if random.chance(20) { "\r\n" } else { "\n" };
    let mut text = String::new();
    if random.chance(20) {
        text += &format!("c before\rit{end}");
    }
    text += &format!("s SATISFIABLE{end}v ");
    let mut variables: Vec<usize> = (1..values.len()).collect();
    if random.chance(50) {
        random.shuffle(&mut variables);
    }
    for variable in variables {
        if !values[variable] && random.chance(30) {
            continue;
        }
        if random.chance(12) {
            text += end;
            if random.chance(30) {
                text += &format!("c v 1{end}");
            }
            text += if random.chance(20) { "v  \t" } else { "v " };
        }
        text += &format!("{}{variable} ", if values[variable] { "" } else { "-" });
    }
    text += if random.chance(15) { "0 \t " } else { "0" };
    if random.chance(85) {
        text += end;
        text += if random.chance(20) { "c after" } else { "" };
    }
    text.into_bytes()
}

/// Values for 1..highest that satisfy the clauses, if a short search finds some.
fn values_for(random: &mut Random, clauses: &[Vec<i32>], highest: usize) -> Vec<bool> {
    let mut values: Vec<bool> = (0..=highest).map(|_| random.chance(50)).collect();
    for _ in 0..(3 * highest).min(200) {
        let failing: Vec<&Vec<i32>> = clauses
            .iter()
            .filter(|clause| !clause.iter().any(|&literal| is_true(literal, &values)))
            .take(3)
            .collect();
        if failing.is_empty() {
            break;
        }
        let clause = *random.one_of(&failing);
        if clause.is_empty() {
            break;
        }
        let literal = *random.one_of(clause);
        values[literal.unsigned_abs() as usize] = literal > 0;
    }
    values
}

/// An answer that mostly satisfies what stands after the lines.
pub fn answer_after(random: &mut Random, formula: &Formula, kept: &[Line]) -> Vec<u8> {
    let standing = replay(&formula.clauses, kept).unwrap_or_default();
    let highest = highest_allowed(formula, kept);
    let values = values_for(random, &standing, highest as usize);
    answer_for(random, &values)
}

#[cfg(test)]
mod tests {
    use super::*;
    use crate::reading::{read_formula, INPUT_LIMITS};

    #[test]
    fn joined_formulas_are_read_as_told() {
        let (mut clauses, mut with_repeat, mut left_out) = (0, 0, 0);
        for seed in 0..2_000 {
            let random = &mut Random::new(seed);
            let (variables, count) = (random.below(12), random.below(20));
            let formula = planned(random, variables, count);
            let Joined { text, formula } = joined(random, &formula);
            assert_eq!(read_formula(&text, &INPUT_LIMITS), Ok(formula.clone()));
            clauses += formula.header_clauses();
            with_repeat += clauses_with_repeat(&text).len();
            left_out += formula.left_out;
        }
        println!("of {clauses} clauses {with_repeat} with a repeat, {left_out} left out");
        let share = |of: usize| 100 * of / clauses;
        assert!((25..=40).contains(&share(with_repeat + left_out)));
        assert!(share(with_repeat) >= 15 && share(left_out) >= 10);
    }
}
