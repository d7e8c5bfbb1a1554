//! Random formulas: with choices of named sizes, joined by clashes, linked, and negated in many ways; and with
//! clashes at variables all over the range.

use model::counter::pairs;
use model::generator::{
    clauses_apart, clauses_with_repeat, freed, noise, one_of_three_joined, paired, planned, Joined,
    Random,
};
use model::reading::Formula;
use model::texts::formula_text;
use model::valleys::Valley;
use std::collections::BTreeSet;

/// A text that is read as session F: literals are repeated, and two clauses put in that are left out.
pub const JOINED_F: &str = "p cnf 6 9\n1 2 1 3 4 5 5 0\n-1 1 0\n-1 -2 -1 0\n-1 6 0\n-2 6 0\n-3 6 0\n-4 -6 0\n2 6 -2 2 0\n-5 -6 -6 0\n";

/// A formula of one of the kinds, by the seed.
pub fn any_kind(random: &mut Random) -> Formula {
    match random.below(1_000) {
        0..=79 => {
            let (variables, clauses) = (random.below(12), random.below(20));
            noise(random, variables, clauses)
        }
        80..=799 => {
            let (variables, clauses) = (random.below(15), random.between(2, 26));
            planned(random, variables, clauses)
        }
        800..=986 => {
            let sizes: Vec<usize> = (0..random.between(1, 4))
                .map(|_| *random.one_of(&[4, 5, 5, 6, 9, 13]))
                .collect();
            with_choices(random, &sizes)
        }
        _ => {
            let sizes: Vec<usize> = (0..random.between(1, 2))
                .map(|_| *random.one_of(&[63, 64, 64, 65]))
                .collect();
            with_choices(random, &sizes)
        }
    }
}

/// The same, one of three freed, one of three with more pairs of its choices; then one of three joined.
pub fn any_kind_joined(random: &mut Random) -> Joined {
    let formula = any_kind(random);
    let formula = match random.below(3) {
        0 => freed(random, formula),
        1 => paired(random, formula),
        _ => formula,
    };
    one_of_three_joined(random, formula)
}

/// The formula with a choice among its clauses that has variables of its own and that nothing forbids.
pub fn beside_free_choice(random: &mut Random, mut formula: Formula) -> Formula {
    let first = formula.variables + 1;
    formula.variables += random.between(5, 9) as i32;
    let choice = (first..=formula.variables).map(|v| random.sign(v));
    let choice: Vec<i32> = choice.collect();
    let place = random.below(formula.clauses.len() + 1);
    formula.clauses.insert(place, choice);
    formula
}

/// So many choices of the size, and so many copies of all their pairs, every other copy turned.
pub fn with_pairs(size: usize, count: usize, copies: usize) -> Formula {
    let mut formula = clauses_apart(size, count);
    let choices = formula.clauses.clone();
    for copy in 0..copies {
        for mut pair in choices.iter().flat_map(|choice| pairs(choice)) {
            if copy % 2 == 1 {
                pair.reverse();
            }
            formula.clauses.push(pair);
        }
    }
    formula
}

/// So many choices of one size that with the step, 39 or more, the highest variable is near 70,000, on either side;
/// and a few clauses with negated literals of theirs, in two copies each, so that nothing clashes. All are shuffled.
pub fn choices_near_the_limit(random: &mut Random, step: usize) -> Formula {
    // a choice takes its variables, of which there are 8,000 at most, and a step
    let size = random.between(5, 8_000 * step / 62_000);
    let count = (70_000 / (size + step) + random.below(5) - 2).min(8_000 / size);
    let mut formula = clauses_apart(size, count);
    for _ in 0..random.below(20) {
        let pair = [(); 2].map(|()| -(random.between(1, size * count) as i32));
        if pair[0] != pair[1] {
            formula.clauses.extend([pair.to_vec(), pair.to_vec()]);
        }
    }
    random.shuffle(&mut formula.clauses);
    formula
}

/// Whether a clause of the text has a repeat or is left out.
pub fn is_joined(input: &Joined) -> bool {
    input.formula.left_out > 0 || !clauses_with_repeat(&input.text).is_empty()
}

/// A text that is read as the formula: literals are repeated, and clauses put in that are left out.
pub fn rewritten(random: &mut Random, mut formula: Formula) -> Joined {
    let mut written: Vec<Vec<i32>> = Vec::new();
    for clause in &formula.clauses {
        let mut longer = clause.clone();
        for _ in 0..random.below(3).min(clause.len()) {
            longer.push(*random.one_of(clause));
        }
        if let Some(&first) = clause.first().filter(|_| random.chance(40)) {
            let others = *random.one_of(&[&clause[..1], &longer]);
            written.push([others, &[-first]].concat());
        }
        written.push(longer);
    }
    formula.left_out = written.len() - formula.clauses.len();
    let text = formula_text(formula.variables, &written);
    Joined { text, formula }
}

/// Unique literal clauses that come to have the sizes when clashes are cleared.
pub fn with_choices(random: &mut Random, sizes: &[usize]) -> Formula {
    let mut fresh = Fresh::default();
    let choices: Vec<Vec<i32>> = sizes
        .iter()
        .map(|&size| (0..size).map(|_| fresh.literal(random)).collect())
        .collect();
    let fillers: Vec<i32> = (0..random.below(6))
        .map(|_| fresh.literal(random))
        .collect();
    let mut clauses = negated(random, &choices, &fillers);
    link(random, &choices, &mut clauses);
    for choice in choices {
        clauses.extend(split(random, &mut fresh, choice));
    }
    if random.chance(80) {
        random.shuffle(&mut clauses);
    }
    Formula::new(fresh.variables, clauses)
}

#[derive(Default)]
struct Fresh {
    variables: i32,
}

impl Fresh {
    fn literal(&mut self, random: &mut Random) -> i32 {
        self.variables += 1;
        if random.chance(30) {
            -self.variables
        } else {
            self.variables
        }
    }
}

/// Clauses that clashes join to the choice: in a chain, or all with the first, sometimes twice.
fn split(random: &mut Random, fresh: &mut Fresh, choice: Vec<i32>) -> Vec<Vec<i32>> {
    if random.chance(50) {
        return vec![choice];
    }
    let pieces = random.between(2, 4);
    let mut parts: Vec<Vec<i32>> = vec![Vec::new(); pieces];
    for literal in choice {
        let part = random.below(pieces);
        parts[part].push(literal);
    }
    let in_a_chain = random.chance(50);
    for part in 1..pieces {
        let other = if in_a_chain { part - 1 } else { 0 };
        let times = if random.chance(10) { 2 } else { 1 };
        for _ in 0..times {
            let literal = fresh.literal(random);
            parts[other].push(literal);
            parts[part].push(-literal);
        }
    }
    for part in &mut parts {
        random.shuffle(part);
    }
    parts
}

/// Clauses with negated literals of the choices: every one stands, few in clauses of their own.
fn negated(random: &mut Random, choices: &[Vec<i32>], fillers: &[i32]) -> Vec<Vec<i32>> {
    let mut clauses = Vec::new();
    let leave_out = random.chance(10);
    for choice in choices {
        for &literal in choice {
            if leave_out && random.chance(5) {
                continue;
            }
            for _ in 0..2 {
                let mut clause = vec![-literal];
                if !fillers.is_empty() {
                    let filler = *random.one_of(fillers);
                    clause.push(if random.chance(50) { filler } else { -filler });
                }
                random.shuffle(&mut clause);
                clauses.push(clause);
            }
        }
        for _ in 0..random.below(2 * choice.len()) {
            clauses.push(some_of(random, choice, 2));
            if random.chance(30) {
                let mut copy = clauses[clauses.len() - 1].clone();
                copy.reverse();
                clauses.push(copy);
            }
        }
        for _ in 0..random.below(4) {
            let several = random.between(2, 5);
            let mut clause = some_of(random, choice, several);
            for &filler in fillers.iter().take(random.below(3)) {
                clause.push(-filler);
            }
            random.shuffle(&mut clause);
            clauses.push(clause);
        }
    }
    clauses
}

/// A clause of the negations of different literals of a choice, often of neighbours.
fn some_of(random: &mut Random, choice: &[i32], wanted: usize) -> Vec<i32> {
    let mut clause: Vec<i32> = Vec::new();
    let mut place = random.below(choice.len());
    while clause.len() < wanted.min(choice.len()) {
        if !clause.contains(&-choice[place]) {
            clause.push(-choice[place]);
        }
        place = if random.chance(40) {
            (place + 1) % choice.len()
        } else {
            random.below(choice.len())
        };
    }
    clause
}

/// Pairs between choices: as lures would link them, each choice with its lures in an order of its own, or
/// anyhow, which can seldom be aligned.
fn link(random: &mut Random, choices: &[Vec<i32>], clauses: &mut Vec<Vec<i32>>) {
    let by_lure = random.chance(70);
    let lures: Vec<Vec<i32>> = choices
        .iter()
        .map(|choice| {
            let mut lures = choice.clone();
            random.shuffle(&mut lures);
            lures
        })
        .collect();
    for (index, one) in lures.iter().enumerate() {
        for other in &lures[index + 1..] {
            let shared = one.len().min(other.len());
            for _ in 0..random.below(2 * shared) {
                let lure = random.below(shared);
                let other_lure = if by_lure {
                    lure
                } else {
                    random.below(other.len())
                };
                let mut pair = vec![-one[lure], -other[other_lure]];
                random.shuffle(&mut pair);
                clauses.push(pair);
            }
        }
    }
}

/// Clauses that clash one after the other, each with two literals of its own, which stand negated twice.
pub fn clash_chain(clashes: i32) -> Vec<u8> {
    let own = clashes + 1;
    let mut clauses: Vec<Vec<i32>> = Vec::new();
    for link in 1..=own {
        let mut clause = vec![clashes + 2 * link - 1, clashes + 2 * link];
        if link > 1 {
            clause.push(-(link - 1));
        }
        if link <= clashes {
            clause.push(link);
        }
        clauses.push(clause);
    }
    for literal in clashes + 1..=clashes + 2 * own {
        clauses.push(vec![-literal]);
        clauses.push(vec![-literal]);
    }
    formula_text(clashes + 2 * own, &clauses)
}

/// A clause of all variables negated, and each variable as a clause: the first loses a literal with each clash, until it
/// is empty.
pub fn unit_chain(variables: i32) -> Vec<u8> {
    let mut clauses: Vec<Vec<i32>> = vec![(1..=variables).map(|variable| -variable).collect()];
    clauses.extend((1..=variables).map(|variable| vec![variable]));
    formula_text(variables, &clauses)
}

/// So many choices of the size, and so many literals more in wide clauses. These have, of each choice, negated literals of
/// which no two are neighbours, none the first or the last: l2, l4 and so on, or l3, l5 and so on, by turns. So each choice
/// replaces all of them, and they get nearly twice as long.
pub fn wide_over_choices(size: usize, count: usize, literals: usize) -> Vec<u8> {
    let mut formula = clauses_apart(size, count);
    let choices = formula.clauses.clone();
    let mut left = literals;
    for turn in 0.. {
        let inner = |(place, choice): (usize, &Vec<i32>)| {
            let first = 1 + (turn + place) % 2;
            let inner = choice[first..choice.len() - 1].iter().step_by(2);
            inner.map(|literal| -literal).collect::<Vec<i32>>()
        };
        let mut wide: Vec<i32> = choices.iter().enumerate().flat_map(inner).collect();
        wide.truncate(left);
        left -= wide.len();
        if wide.is_empty() {
            break;
        }
        formula.clauses.push(wide);
    }
    formula_text(formula.variables, &formula.clauses)
}

/// The valley shuffled, and so many wide clauses: each forbids that every trap holds one lure of its own.
pub fn wide_over_valley(random: &mut Random, valley: &Valley, wide: usize) -> Vec<u8> {
    let mut formula = valley.shuffled_formula(random);
    for _ in 0..wide {
        let lure = |trap: usize| trap * valley.lures + random.below(valley.lures) + 1;
        let clause = (0..valley.traps).map(lure).map(|held| -(held as i32));
        formula.clauses.push(clause.collect());
    }
    formula_text(formula.variables, &formula.clauses)
}

/// So many clashes all over 8,000 variables, of two clauses of three literals each.
pub fn clashes_apart(clashes: usize) -> Vec<u8> {
    let distance = 8_000 / clashes as i32;
    let (clashing, own): (Vec<i32>, Vec<i32>) =
        (1..=8_000).partition(|variable| variable % distance == 0);
    let clauses: Vec<Vec<i32>> = clashing
        .iter()
        .zip(own.chunks_exact(4))
        .take(clashes)
        .flat_map(|(v, own)| [vec![*v, own[0], own[1]], vec![-v, own[2], own[3]]])
        .collect();
    formula_text(8_000, &clauses)
}

/// How the variables of a chain's clashes go from clause to clause.
#[derive(Debug, Clone, Copy)]
pub enum Order {
    Rising,
    Falling,
    Mixed,
}

/// Chains of unique literal clauses that clash, some more than once, among clauses that nearly clash.
pub fn clashing(random: &mut Random, order: Order) -> Formula {
    let last = if random.chance(50) {
        8_000
    } else {
        random.between(64, 8_000)
    };
    let at = runs(random, last);
    let mut clauses = chains(random, &at, order);
    let others: BTreeSet<i32> = (0..random.below(30))
        .map(|_| random.between(1, last) as i32)
        .filter(|variable| !at.contains(variable))
        .collect();
    nearly_clash(random, &mut clauses, others);
    for clause in &mut clauses {
        random.shuffle(clause);
    }
    if random.chance(80) {
        random.shuffle(&mut clauses);
    }
    Formula::new(last as i32, clauses)
}

/// Up to six runs of variables that lie close together; half of them begin at an end of the range or of a word
/// of 32.
fn runs(random: &mut Random, last: usize) -> BTreeSet<i32> {
    let mut at = BTreeSet::new();
    for _ in 0..random.below(7) {
        let mut variable = if random.chance(50) {
            *random.one_of(&[1, 31, 32, 33, 63, 64, last - 1, last])
        } else {
            random.between(1, last)
        };
        let farthest = *random.one_of(&[1, 1, 9, 50]);
        for _ in 0..random.between(1, 6) {
            if variable <= last {
                at.insert(variable as i32);
            }
            variable += random.between(1, farthest);
        }
    }
    at
}

/// Up to four chains of clauses, the variables dealt out among them.
fn chains(random: &mut Random, at: &BTreeSet<i32>, order: Order) -> Vec<Vec<i32>> {
    let mut variables: Vec<i32> = at.iter().copied().collect();
    match order {
        Order::Rising => {}
        Order::Falling => variables.reverse(),
        Order::Mixed => random.shuffle(&mut variables),
    }
    let count = random.between(1, 4);
    let mut clauses: Vec<Vec<i32>> = Vec::new();
    for chain in 0..count {
        let own = variables.iter().copied().skip(chain).step_by(count);
        clauses.extend(clashing_at(random, &own.collect::<Vec<i32>>()));
    }
    clauses
}

/// Clauses that clash at the variables: in a chain, and any two at the variables left over.
fn clashing_at(random: &mut Random, variables: &[i32]) -> Vec<Vec<i32>> {
    let most = variables.len() + 1;
    let pieces = if random.chance(40) {
        most
    } else {
        random.between(2.min(most), most)
    };
    let mut clauses: Vec<Vec<i32>> = vec![Vec::new(); pieces];
    for (link, &variable) in variables.iter().enumerate() {
        let (one, other) = if link + 1 < pieces {
            (link, link + 1)
        } else {
            let one = random.below(pieces);
            (one, (one + random.between(1, pieces - 1)) % pieces)
        };
        let literal = random.sign(variable);
        clauses[one].push(literal);
        clauses[other].push(-literal);
    }
    clauses.retain(|clause| !clause.is_empty());
    clauses
}

/// Puts the variables into the clauses, and negations of them into clauses that are not unique literal clauses:
/// some stand twice, some beside a literal that does. At times a literal of the first clause stands elsewhere, too.
fn nearly_clash(random: &mut Random, clauses: &mut Vec<Vec<i32>>, variables: BTreeSet<i32>) {
    let mut not_unique: Vec<Vec<i32>> = Vec::new();
    if let Some(clause) = clauses.first().filter(|_| random.chance(20)) {
        not_unique.push(vec![*random.one_of(clause)]);
    }
    let literals: Vec<i32> = variables.iter().map(|&v| random.sign(v)).collect();
    for &literal in &literals {
        if clauses.is_empty() || random.chance(20) {
            clauses.push(Vec::new());
        }
        let place = random.below(clauses.len());
        clauses[place].push(literal);
        match random.below(3) {
            0 => not_unique.extend([vec![-literal], vec![-literal]]),
            1 if literal != literals[0] => not_unique.push(vec![-literal, -literals[0]]),
            _ => {}
        }
    }
    if let Some(shared) = literals.first() {
        not_unique.extend([vec![-shared], vec![-shared]]);
    }
    clauses.append(&mut not_unique);
}
