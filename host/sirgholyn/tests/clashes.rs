//! Library and model, byte for byte, on formulas made for clashes: near and far apart over all variables, in chains,
//! and ended by a resolvent that is not added.

mod common;

use common::formulas::{clashing, Order};
use common::{
    compare_reencode, expect_more, note, over_seeds, run_model, sum, Occurred, Room, WAYS,
};
use model::clearing::clash_of;
use model::encoding::Encoding;
use model::generator::{text_of, Random};
use model::reading::Formula;
use model::standing::{holds_opposites, Standing};
use sirgholyn::Settings;
use std::collections::BTreeSet;

const FORMULAS: u64 = 3_000;

/// The first and the last variables, and those at the ends of words.
const ENDS: [i32; 8] = [1, 31, 32, 33, 63, 64, 7_999, 8_000];

/// The word of 32 variables that has a variable's mark.
fn word(variable: i32) -> i32 {
    variable / 32
}

/// Reencodes by library and model; the answer is the model's run.
fn compare(formula: &Formula, way: Settings) -> Encoding {
    let encoding = run_model(formula, way);
    let room = Room::exact(formula, &encoding);
    let number = compare_reencode(&text_of(formula), way, room);
    assert_eq!(number, 0);
    encoding
}

/// A clash that was cleared.
struct Cleared {
    variable: i32,
    /// A and B.
    parents: [BTreeSet<i32>; 2],
    resolvent: BTreeSet<i32>,
    is_added: bool,
}

impl Cleared {
    /// From the lines that delete A and B.
    fn new(a: &[i32], b: &[i32]) -> Cleared {
        let set = |literals: &[i32]| literals.iter().copied().collect();
        let resolvent = [&a[1..], &b[1..]].concat();
        Cleared {
            variable: a[0],
            parents: [set(a), set(b)],
            resolvent: set(&resolvent),
            is_added: !holds_opposites(&resolvent),
        }
    }
}

/// The clashes in their order, by the log's first deletions.
fn cleared(encoding: &Encoding) -> Vec<Cleared> {
    let deletions: Vec<_> = encoding.log.iter().filter(|line| line.deletion).collect();
    deletions
        .chunks(2)
        .take(encoding.tally.clashes)
        .map(|pair| Cleared::new(&pair[0].literals, &pair[1].literals))
        .collect()
}

/// The variables that clash.
fn clashing_variables(formula: &Formula) -> BTreeSet<i32> {
    let standing = Standing::new(&formula.clauses);
    (1..=formula.variables)
        .filter(|&variable| clash_of(&standing, variable).is_some())
        .collect()
}

/// How many variables stand once with each sign, and do not clash.
fn nearly_clashing(formula: &Formula) -> usize {
    let standing = Standing::new(&formula.clauses);
    (1..=formula.variables)
        .filter(|&variable| clash_of(&standing, variable).is_none())
        .filter(|&variable| [variable, -variable].map(|l| standing.count_holding(l)) == [1, 1])
        .count()
}

/// Goes through the clashes by marks, which are set for the input and then only cleared: the lowest is next.
fn note_clashes(occurred: &mut Occurred, formula: &Formula, clashes: &[Cleared]) {
    let mut marked = clashing_variables(formula);
    note_words(occurred, &marked);
    for clash in clashes {
        let variable = clash.variable;
        assert_eq!(marked.pop_first(), Some(variable));
        if ENDS.contains(&variable) {
            note(occurred, format!("at {variable}"), 1);
        }
        if !clash.is_added {
            end_clashes(occurred, &mut marked, clash);
        }
        let next = place(variable, marked.first());
        note(occurred, format!("next {next}"), 1);
    }
    assert!(marked.is_empty());
}

/// Notes the words with several marks.
fn note_words(occurred: &mut Occurred, marked: &BTreeSet<i32>) {
    let marked: Vec<i32> = marked.iter().copied().collect();
    note(occurred, "no clash", usize::from(marked.is_empty()));
    for marks in marked.chunk_by(|&one, &next| word(one) == word(next)) {
        let several = usize::from(marks.len() > 1);
        note(occurred, "words with several marks", several);
        let adjacent = marks.windows(2).filter(|pair| pair[0] + 1 == pair[1]);
        note(occurred, "adjacent in a word", adjacent.count());
    }
}

/// Clears the marks of all variables of A and B, and notes those that would be found before others, were they left.
fn end_clashes(occurred: &mut Occurred, marked: &mut BTreeSet<i32>, clash: &Cleared) {
    let gone: BTreeSet<i32> = clash.resolvent.iter().map(|l| l.abs()).collect();
    let ended: Vec<i32> = marked.intersection(&gone).copied().collect();
    marked.retain(|variable| !gone.contains(variable));
    for variable in ended {
        let own = place(clash.variable, Some(&variable));
        note(occurred, format!("ended {own}"), 1);
        let holds = |literal| clash.resolvent.contains(&literal);
        let is_of_both = holds(variable) && holds(-variable);
        let with = ["a third clause", "A and B"][usize::from(is_of_both)];
        let other = place(variable, marked.range(variable..).next());
        note(occurred, format!("ended with {with}, another {other}"), 1);
    }
}

/// Where a later variable is, seen from one.
fn place(variable: i32, later: Option<&i32>) -> &'static str {
    match later.map(|&later| word(later) - word(variable)) {
        Some(0) => "in the same word",
        Some(1..=9) => "in a later word",
        Some(_) => "many words later",
        None => "nowhere",
    }
}

/// Notes the clashes with the resolvent that was added last, and those of two resolvents.
fn note_chains(occurred: &mut Occurred, order: Order, clashes: &[Cleared]) {
    let mut added: Vec<&BTreeSet<i32>> = Vec::new();
    for clash in clashes {
        let [a, b] = &clash.parents;
        if added.last() == Some(&a) || added.last() == Some(&b) {
            note(occurred, format!("{order:?}: with the last resolvent"), 1);
        }
        if added.contains(&a) && added.contains(&b) {
            note(occurred, format!("{order:?}: of two resolvents"), 1);
        }
        if clash.is_added {
            added.push(&clash.resolvent);
        }
    }
}

#[test]
fn library_and_model_agree() {
    let counted = over_seeds(0..FORMULAS, |seed, occurred: &mut Occurred| {
        let random = &mut Random::new(seed);
        let order = *random.one_of(&[Order::Rising, Order::Falling, Order::Mixed]);
        let formula = clashing(random, order);
        let encoding = compare(&formula, *random.one_of(&WAYS));
        let clashes = cleared(&encoding);
        note_clashes(occurred, &formula, &clashes);
        note_chains(occurred, order, &clashes);
        note(occurred, "nearly clashing", nearly_clashing(&formula));
    });
    let occurred = sum(counted);
    println!("{FORMULAS} formulas: {occurred:#?}");
    expect_more(
        &occurred,
        ENDS.map(|variable| (format!("at {variable}"), 50)),
    );
    expect_cases(&occurred);
}

fn expect_cases(occurred: &Occurred) {
    let cases = [
        ("no clash", 200),
        ("nearly clashing", 5_000),
        ("words with several marks", 3_000),
        ("adjacent in a word", 5_000),
        ("next in the same word", 5_000),
        ("next in a later word", 2_000),
        ("next many words later", 1_500),
        ("ended in the same word", 600),
        ("ended in a later word", 1_000),
        ("ended many words later", 2_000),
        ("ended with A and B, another in the same word", 800),
        ("ended with A and B, another in a later word", 300),
        ("ended with A and B, another many words later", 300),
        ("ended with a third clause, another in the same word", 500),
        ("ended with a third clause, another in a later word", 250),
        ("ended with a third clause, another many words later", 250),
        ("Rising: with the last resolvent", 800),
        ("Falling: with the last resolvent", 800),
        ("Mixed: with the last resolvent", 700),
        ("Mixed: of two resolvents", 400),
    ];
    expect_more(occurred, cases);
}

/// All variables stand in unique literal clauses, their negations beside one that stands often.
#[test]
fn no_variable_clashes() {
    let variables: Vec<i32> = (1..=8_000).collect();
    let mut clauses: Vec<Vec<i32>> = variables.chunks(4).map(<[i32]>::to_vec).collect();
    clauses.extend((1..8_000).map(|variable| vec![-variable, -8_000]));
    let formula = Formula::new(8_000, clauses);
    assert_eq!(nearly_clashing(&formula), 7_999);
    assert!(compare(&formula, WAYS[0]).log.is_empty());
}

/// All variables, alone, in one chain, and two by two, of which the second ends with the first.
#[test]
fn every_variable_clashes() {
    let variables = 1..=8_000;
    let alone = variables.clone().flat_map(|v| [vec![v], vec![-v]]);
    let chain = (1..8_000)
        .map(|v| vec![-v, v + 1])
        .chain([vec![1], vec![-8_000]]);
    let pairs = variables
        .step_by(2)
        .flat_map(|v| [vec![v, v + 1], vec![-v - 1, -v]]);
    for (clauses, cleared) in [
        (alone.collect(), 8_000),
        (chain.collect(), 8_000),
        (pairs.collect::<Vec<_>>(), 4_000),
    ] {
        let formula = Formula::new(8_000, clauses);
        assert_eq!(clashing_variables(&formula).len(), 8_000);
        let encoding = compare(&formula, WAYS[0]);
        assert_eq!(encoding.tally.clashes, cleared);
    }
}
