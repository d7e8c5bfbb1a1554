//! Counter form.

use crate::encoding::Encoding;
use crate::standing::Standing;

/// Whether the clause at a place is a choice: a unique literal clause of 5 to
/// 64 literals.
pub fn is_choice(standing: &Standing, place: usize) -> bool {
    let size = standing.clause(place).map_or(0, <[i32]>::len);
    (5..=64).contains(&size) && standing.is_unique_literal_clause(place)
}

/// The places of the choices, in list order.
pub fn choice_places(standing: &Standing) -> Vec<usize> {
    let mut places = standing.all_places();
    places.retain(|&place| is_choice(standing, place));
    places
}

/// The pairs -li -lj, by i then j.
pub fn pairs(choice: &[i32]) -> Vec<Vec<i32>> {
    let mut pairs = Vec::new();
    for (i, &first) in choice.iter().enumerate() {
        for &second in &choice[i + 1..] {
            pairs.push(vec![-first, -second]);
        }
    }
    pairs
}

/// How many of the clauses are copies of the choice's pairs, by a plain walk.
pub fn copies_of_pairs(clauses: &[Vec<i32>], choice: &[i32]) -> usize {
    let is_pair = |clause: &&Vec<i32>| {
        clause.len() == 2 && clause.iter().all(|literal| choice.contains(&-literal))
    };
    clauses.iter().filter(is_pair).count()
}

/// The 4(k-1) clauses of stages 2 and 3, in order. Here l1..lk are
/// choice[0]..choice[k-1] and s1..s(k-1) are steps[0]..steps[k-2].
fn counter_clauses(choice: &[i32], steps: &[i32]) -> Vec<Vec<i32>> {
    let k = choice.len();
    let l = |i: usize| choice[i - 1];
    let s = |i: usize| steps[i - 1];
    let mut clauses = vec![vec![-s(1), l(1)], vec![s(1), -l(1)]];
    for i in 2..k {
        clauses.push(vec![-s(i), s(i - 1), l(i)]);
        clauses.push(vec![s(i), -s(i - 1)]);
        clauses.push(vec![s(i), -l(i)]);
    }
    for i in 2..=k {
        clauses.push(vec![-l(i), -s(i - 1)]);
    }
    clauses.push(vec![s(k - 1), l(k)]);
    clauses
}

/// Deletes every standing copy of each pair.
fn delete_pairs(encoding: &mut Encoding, choice: &[i32]) {
    let pairs = pairs(choice);
    let mut standing = 0;
    for pair in &pairs {
        let mut copies = 0;
        while encoding.standing.find(pair).is_some() {
            encoding.delete(pair.clone());
            copies += 1;
        }
        standing += usize::from(copies > 0);
        encoding.tally.repeated_pairs += usize::from(copies > 1);
    }
    let tally = &mut encoding.tally;
    if standing == 0 {
        tally.unpaired += 1;
    } else if standing < pairs.len() {
        tally.partly_paired += 1;
    } else {
        tally.fully_paired += 1;
    }
}

/// Takes one choice. The answer is the places of its counter clauses.
pub fn take_choice(encoding: &mut Encoding, choice: &[i32], steps: &[i32]) -> Vec<usize> {
    let own = counter_clauses(choice, steps)
        .into_iter()
        .map(|clause| encoding.add(clause, &[]))
        .collect();
    encoding.delete(choice.to_vec());
    delete_pairs(encoding, choice);
    own
}
