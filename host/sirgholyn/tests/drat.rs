//! The DRAT checker: proofs written by hand, and a plain checker beside it on random lines and on solvers'
//! proofs with lines changed.

mod common;

use common::formulas::rewritten;
use common::solvers::{cadical, Answer};
use common::{over_seeds, sum, WAYS};
use model::generator::{damage_log, written_clauses, Random};
use model::log_reading::read_kept_lines;
use model::reading::Formula;
use model::texts::{log_text, Line};
use model::valleys::Valley;
use sirgholyn::drat::{check, Checker, Error, Fault, Ground};
use sirgholyn::{reencode, Settings};
use std::alloc::{GlobalAlloc, Layout, System};
use std::cell::Cell;
use std::collections::{BTreeMap, BTreeSet};
use std::io::{self, BufRead, BufReader, Read};

/// How often each case occurred.
type Cases = BTreeMap<&'static str, usize>;

fn expect_cases(cases: Vec<Cases>, least: usize, expected: &[&str]) {
    let cases = sum(cases);
    println!("{cases:?}");
    for case in expected {
        assert!(
            cases.get(case).is_some_and(|&times| times >= least),
            "{case}"
        );
    }
}

// ---- proofs written by hand

/// The fault of a proof and its line.
fn fault_of(formula: &[u8], proof: impl BufRead) -> Option<(u64, Fault)> {
    match check(formula, proof, &mut |_| {}) {
        Ok(_) => None,
        Err(Error::Faulty { line, fault, .. }) => Some((line, fault)),
        Err(Error::Unreadable(error)) => panic!("{error}"),
    }
}

/// All four clauses of two variables.
const FOUR: &str = "p cnf 2 4\n1 2 0\n-1 2 0\n1 -2 0\n-1 -2 0\n";

const WITH_PLAN: &str = "p cnf 3 2\n1 2 0\n-1 3 0\n";

/// The four, and a clause that holds 3 and its negation.
const TRUE_BY_3: &str = "p cnf 3 5\n1 2 0\n-1 2 0\n3 -3 3 0\n1 -2 0\n-1 -2 0\n";

#[test]
fn proofs_that_hold() {
    for (formula, proof) in [
        (FOUR, "2 0\n0\n"),
        (FOUR, "2 2 0\n0\n"),
        (FOUR, "1 -1 0\n2 0\nd -1 1 0\n0\n"),
        // a new variable, its definition, and both taken out again
        (FOUR, "3 1 0\n-3 -1 0\nd 1 3 0\nd -1 -3 0\n2 0\n0\n"),
        // the same variable again after no clause has held it
        (FOUR, "3 1 0\nd 3 1 0\n-3 1 0\nd 1 -3 0\n2 0\n0\n"),
        (FOUR, "1073741823 -1 0\n2 0\n0\n"),
        // after the empty clause all follows, and what stands can be deleted
        (FOUR, "2 0\n0\n-2 0\n5 0\nd 5 0\nd 0\nd 2 0\n"),
        ("p cnf 1 2\n1 0\n-1 0\n", "0\n"),
        ("p cnf 0 1\n0\n", ""),
        ("p cnf 0 2\n0\n0\n", "d 0\nd 0\n"),
        ("c\nc p cnf\np cnf 1 2\r\n1\t0\r\n-1\n0", "0\n"),
        // repeated and opposed literals in the formula
        (
            "p cnf 2 5\n1 1 2 0\n1 -1 0\n-1 2 0\n-2 -2 0\n2 -2 1 0\n",
            "d -1 1 1 0\nd 2 1 -2 0\n2 0\n0\n",
        ),
        ("p cnf 1 2\n1 1 0\n-1 -1 -1 0\n", "0\n"),
        (
            "p cnf 2 4\n1 1 2 0\n-1 2 2 -1 0\n1 -2 0\n-1 -2 0\n",
            "2 0\nd 1 2 0\nd -1 2 0\n0\n",
        ),
        // a resolvent with a clause that is true by any assignment
        (TRUE_BY_3, "-3 0\n2 0\nd -3 3 0\n0\n"),
    ] {
        let outcome = check(formula.as_bytes(), proof.as_bytes(), &mut |_| {});
        let lines = outcome
            .unwrap_or_else(|error| panic!("{error}: {proof:?}"))
            .lines;
        assert_eq!(lines as usize, proof.lines().count());
    }
}

#[test]
fn proofs_that_do_not_hold() {
    for (formula, proof, line, fault) in [
        (FOUR, "0\n", 1, Fault::DoesNotFollow),
        (FOUR, "d 1 2 0\n2 0\n0\n", 2, Fault::DoesNotFollow),
        (FOUR, "2 0\nd 2 0\n0\n", 3, Fault::DoesNotFollow),
        (WITH_PLAN, "-2 0\n", 1, Fault::DoesNotFollow),
        (WITH_PLAN, "1 0\n", 1, Fault::DoesNotFollow),
        // by the resolvents on its second literal only
        (WITH_PLAN, "-2 3 0\n", 1, Fault::DoesNotFollow),
        // a clause that is true by any assignment is no unit, whatever is true
        ("p cnf 1 1\n1 -1 0\n", "1 0\n0\n", 2, Fault::DoesNotFollow),
        (
            "p cnf 2 3\n1 -1 1 0\n-1 2 0\n-1 -2 0\n",
            "0\n",
            1,
            Fault::DoesNotFollow,
        ),
        (
            "p cnf 2 3\n2 2 0\n1 -2 2 0\n-1 0\n",
            "0\n",
            1,
            Fault::DoesNotFollow,
        ),
        (TRUE_BY_3, "d 3 0\n", 1, Fault::NotStanding),
        (TRUE_BY_3, "d 3 -3 0\nd -3 3 0\n", 2, Fault::NotStanding),
        // a reason of a unit is deleted
        (
            "p cnf 2 2\n1 0\n-1 2 0\n",
            "d -1 2 0\n-2 0\nd -2 0\nd 1 0\n-1 0\n2 0\n0\n",
            7,
            Fault::DoesNotFollow,
        ),
        // all follows while the empty clause stands
        (
            FOUR,
            "2 0\n0\nd 2 0\nd 0\n1 2 -3 0\n-3 0\n3 0\n",
            7,
            Fault::DoesNotFollow,
        ),
        (FOUR, "d 1 2 0\nd 2 1 0\n", 2, Fault::NotStanding),
        (FOUR, "d 1 0\n", 1, Fault::NotStanding),
        (FOUR, "d 1 2 3 0\n", 1, Fault::NotStanding),
        (FOUR, "d 0\n", 1, Fault::NotStanding),
        (FOUR, "2 0\n0\nd 7 0\n", 3, Fault::NotStanding),
        (FOUR, "2 0\n0\nd 0\nd 0\n", 4, Fault::NotStanding),
        // cut off at a line's end
        (FOUR, "2 0\n", 1, Fault::NoEmptyClause),
        // empty
        (FOUR, "", 0, Fault::NoEmptyClause),
        (WITH_PLAN, "", 0, Fault::NoEmptyClause),
        (WITH_PLAN, "3 0\n", 1, Fault::NoEmptyClause),
        // false by propagation, and no line says so
        ("p cnf 1 2\n1 0\n-1 0\n", "", 0, Fault::NoEmptyClause),
        ("p cnf 1 2\n1 0\n-1 0\n", "1 0\n", 1, Fault::NoEmptyClause),
    ] {
        let found = fault_of(formula.as_bytes(), proof.as_bytes());
        assert_eq!(found, Some((line, fault)), "{proof:?}");
    }
}

#[test]
fn lines_out_of_layout() {
    let long = [b"1 ".repeat(8 << 20), b"0\n".to_vec()].concat();
    let bad: &[&[u8]] = &[
        // a solver's file that is no proof
        b"- - d d 0 5\n",
        b"\n",
        b" \n",
        b"0",
        b"2 0",
        b"2\n",
        b"2 \n",
        b"20\n",
        b" 2 0\n",
        b"2 0 \n",
        b"2  0\n",
        b"2 0\r\n",
        b"2\t0\n",
        b"c 2 0\n",
        b"c\n",
        b"d\n",
        b"d 2\n",
        b"d  2 0\n",
        b"dd 2 0\n",
        b"D 2 0\n",
        b"d d 2 0\n",
        b"d2 0\n",
        b" d 2 0\n",
        b"2 d 0\n",
        b"00\n",
        b"-0\n",
        b"0 0\n",
        b"2 0 0\n",
        b"0 2\n",
        b"02 0\n",
        b"+2 0\n",
        b"-02 0\n",
        b"--2 0\n",
        b"- 2 0\n",
        b"2- 0\n",
        b"2a 0\n",
        b"2.0\n",
        b"1073741824 0\n",
        b"-1073741824 0\n",
        b"99999999999999999999999999 0\n",
        b"a\x04\x00d\x05\x00",
        b"a\x04\x00\n",
        b"\xff\n",
        b"2 \x000\n",
        &long,
    ];
    for line in bad {
        let shown = String::from_utf8_lossy(&line[..line.len().min(40)]);
        assert_eq!(
            fault_of(FOUR.as_bytes(), *line),
            Some((1, Fault::Layout)),
            "{shown:?}"
        );
        let later = [b"2 0\n0\n", *line].concat();
        assert_eq!(
            fault_of(FOUR.as_bytes(), later.as_slice()),
            Some((3, Fault::Layout)),
            "{shown:?}"
        );
    }
}

/// What an error shows of a line.
fn text_of_error(proof: &[u8]) -> String {
    match check(FOUR.as_bytes(), proof, &mut |_| {}) {
        Err(Error::Faulty { text, .. }) => text,
        other => panic!("{other:?}"),
    }
}

#[test]
fn lines_are_shown() {
    assert_eq!(text_of_error(b"0\n"), "0");
    assert_eq!(
        text_of_error(b"a\x00\x1b[2J\xc3~\x7f"),
        "a\\x00\\x1b[2J\\xc3~\\x7f"
    );
    let forty = [b'1'; 40];
    assert_eq!(text_of_error(&forty).as_bytes(), forty);
    assert_eq!(
        text_of_error(&[b'1'; 41]).as_bytes(),
        [forty.as_slice(), b".."].concat()
    );
    let error = check(FOUR.as_bytes(), &b"2 0\n1 3 0\nd 3 0\n"[..], &mut |_| {}).unwrap_err();
    assert_eq!(
        error.to_string(),
        "line 3: the deleted clause does not stand: `d 3 0`"
    );
    let error = check(FOUR.as_bytes(), &b"2 0\n"[..], &mut |_| {}).unwrap_err();
    assert_eq!(
        error.to_string(),
        "line 1: the proof ends without the empty clause"
    );
}

#[test]
fn formulas_that_are_none() {
    for formula in [
        "",
        "c",
        "c\n",
        "p cnf 1\n",
        "p cnf 1 1 \n1 0\n",
        "p  cnf 0 0\n",
        "p cnf 0 0\r",
        "p cnf -1 0\n",
        "p cnf 01 0\n",
        "p cnf x 0\n",
        "p cnf 1 1\n",
        "p cnf 1 1\n1\n",
        "p cnf 1 1\n2 0\n",
        "p cnf 1 1\n1 0\n1 0\n",
        "p cnf 1 1\nx 0\n",
        "p cnf 1 1\nc\n1 0\n",
        "p cnf 1073741824 0\n",
    ] {
        let outcome = check(formula.as_bytes(), &b"0\n"[..], &mut |_| {});
        assert!(matches!(outcome, Err(Error::Unreadable(_))), "{formula:?}");
    }
}

/// The text `2 0` LF, and then an error.
struct Failing(bool);

impl Read for Failing {
    fn read(&mut self, buffer: &mut [u8]) -> io::Result<usize> {
        if std::mem::replace(&mut self.0, true) {
            return Err(io::Error::other("gone"));
        }
        buffer[..4].copy_from_slice(b"2 0\n");
        Ok(4)
    }
}

#[test]
fn a_proof_that_cannot_be_read() {
    let mut seen = Vec::new();
    let outcome = check(
        FOUR.as_bytes(),
        BufReader::new(Failing(false)),
        &mut |lines| seen.push(lines),
    );
    assert!(matches!(outcome, Err(Error::Unreadable(error)) if error.to_string() == "gone"));
    assert_eq!(seen, [1]);
}

/// Progress is told after each line, and for each resolvent within it.
#[test]
fn progress_is_told() {
    let formula = b"p cnf 4 3\n1 2 0\n1 3 0\n1 4 0\n";
    let mut seen = Vec::new();
    let outcome = check(formula, &b"5 0\n-1 -2 -3 -4 0\n"[..], &mut |lines| {
        seen.push(lines)
    });
    assert!(outcome.is_err());
    assert_eq!(seen, [1, 1, 1, 1, 2]);
}

// ---- a plain checker

/// Clauses as they were given; everything by walks of all of them.
#[derive(Default)]
struct Reference {
    clauses: Vec<Vec<i32>>,
}

fn as_set(clause: &[i32]) -> BTreeSet<i32> {
    clause.iter().copied().collect()
}

impl Reference {
    /// All that is true if the literals are; None where a clause is false or literals are opposed.
    fn closure(&self, mut literals: BTreeSet<i32>) -> Option<BTreeSet<i32>> {
        if literals.iter().any(|&literal| literals.contains(&-literal)) {
            return None;
        }
        loop {
            let before = literals.len();
            for clause in &self.clauses {
                if clause.iter().any(|literal| literals.contains(literal)) {
                    continue;
                }
                let mut open = clause
                    .iter()
                    .filter(|&&literal| !literals.contains(&-literal));
                let first = *open.next()?;
                if open.all(|&other| other == first) {
                    literals.insert(first);
                }
            }
            if literals.len() == before {
                return Some(literals);
            }
        }
    }

    fn refutes(&self, clause: &[i32]) -> bool {
        self.closure(clause.iter().map(|literal| -literal).collect())
            .is_none()
    }

    /// The clauses that hold a literal's negation.
    fn opposing(&self, literal: i32) -> impl Iterator<Item = &Vec<i32>> {
        let clauses = self.clauses.iter();
        clauses.filter(move |clause| clause.contains(&-literal))
    }

    /// Whether a clause holds the literal and its negation.
    fn has_true_by(&self, literal: i32) -> bool {
        self.opposing(literal)
            .any(|clause| clause.contains(&literal))
    }

    fn ground(&self, clause: &[i32]) -> Option<Ground> {
        if self.refutes(clause) {
            return Some(Ground::Propagation);
        }
        let pivot = *clause.first()?;
        let mut partners = self.opposing(pivot);
        let follow = partners.all(|partner| {
            let others = partner.iter().filter(|&&literal| literal != -pivot);
            let resolvent: Vec<i32> = clause.iter().chain(others).copied().collect();
            partner.contains(&pivot) || self.refutes(&resolvent)
        });
        follow.then_some(Ground::Resolvents)
    }

    fn delete(&mut self, clause: &[i32]) -> bool {
        let same = |other: &Vec<i32>| as_set(other) == as_set(clause);
        let place = self.clauses.iter().position(same);
        place.map(|place| self.clauses.remove(place)).is_some()
    }

    /// The fault of a proof and its line, as `check` gives them.
    fn fault_of(&mut self, lines: &[Line]) -> Option<(u64, Fault)> {
        let mut refuted = self.clauses.iter().any(Vec::is_empty);
        for (index, line) in lines.iter().enumerate() {
            let number = index as u64 + 1;
            if line.deletion {
                if !self.delete(&line.literals) {
                    return Some((number, Fault::NotStanding));
                }
                continue;
            }
            if self.ground(&line.literals).is_none() {
                return Some((number, Fault::DoesNotFollow));
            }
            refuted |= line.literals.is_empty();
            self.clauses.push(line.literals.clone());
        }
        (!refuted).then_some((lines.len() as u64, Fault::NoEmptyClause))
    }
}

// ---- random lines

/// Both checkers on the same clauses.
#[derive(Default)]
struct Pair {
    fast: Checker,
    plain: Reference,
}

impl Pair {
    /// Adds a clause if it follows, or all the same if `anyway`.
    fn add(&mut self, clause: Vec<i32>, anyway: bool, cases: &mut Cases) {
        let ground = self.plain.ground(&clause);
        let case = self.case_of(&clause, ground);
        *cases.entry(case).or_default() += 1;
        let past_true = clause
            .first()
            .is_some_and(|&pivot| self.plain.has_true_by(pivot));
        if ground == Some(Ground::Resolvents) && past_true {
            *cases.entry("follows past a true clause").or_default() += 1;
        }
        if ground.is_some() || anyway {
            *cases.entry(kind_of(&clause)).or_default() += 1;
            self.fast.add(&clause);
            self.plain.clauses.push(clause);
        }
    }

    /// The ground that the fast checker finds is the plain one's. Where there are no resolvents it does not
    /// try to propagate.
    fn case_of(&mut self, clause: &[i32], ground: Option<Ground>) -> &'static str {
        let mut pivots = clause.first().into_iter();
        let has_resolvents = pivots.all(|&pivot| self.plain.opposing(pivot).next().is_some());
        let (case, expected) = match (ground, has_resolvents) {
            (Some(Ground::Propagation), true) => ("follows by propagation", ground),
            (Some(Ground::Resolvents), true) => ("follows by resolvents only", ground),
            (Some(_), false) => ("has no resolvents", Some(Ground::Resolvents)),
            (None, _) => ("does not follow", None),
        };
        let under_conflict = self.plain.closure(BTreeSet::new()).is_none();
        let expected = expected.filter(|_| !under_conflict).or(ground);
        let found = self.fast.ground(clause);
        assert_eq!(found, expected, "{clause:?} to {:?}", self.plain.clauses);
        case
    }

    fn delete(&mut self, clause: &[i32], cases: &mut Cases) {
        let mut count = |case| *cases.entry(case).or_default() += 1;
        let before = self.plain.closure(BTreeSet::new());
        let stands = self.plain.delete(clause);
        assert_eq!(
            self.fast.delete(clause),
            stands,
            "{clause:?} from {:?}",
            self.plain.clauses
        );
        match (before, self.plain.closure(BTreeSet::new())) {
            _ if !stands => count("does not stand"),
            (None, None) => count("deleted under a conflict"),
            (None, Some(_)) => count("conflict undone"),
            (Some(before), Some(after)) if before != after => {
                count("reason of a true literal deleted")
            }
            _ => count("deleted"),
        }
    }
}

fn kind_of(clause: &[i32]) -> &'static str {
    match as_set(clause).len() {
        0 => "empty clause",
        1 => "unit clause",
        size if size < clause.len() => "repeated literal",
        _ if clause.iter().any(|&literal| clause.contains(&-literal)) => "opposed literals",
        _ => "clause",
    }
}

/// Of which size random clauses are.
const SMALL: &[usize] = &[0, 1, 1, 2, 2, 2, 2, 3, 3, 3, 4, 5];
const LARGER: &[usize] = &[1, 2, 2, 3, 3, 3, 3, 3, 3, 4, 4, 5, 6, 12];

/// How random lines are made.
struct Kind {
    lines: usize,
    variables: usize,
    /// About so many clauses stand.
    standing: usize,
    sizes: &'static [usize],
}

/// A clause of few variables, sometimes with repeated or opposed literals; one variable is large.
fn some_clause(random: &mut Random, kind: &Kind) -> Vec<i32> {
    let size = *random.one_of(kind.sizes);
    let mut clause: Vec<i32> = Vec::new();
    while clause.len() < size {
        let variable = random.between(1, kind.variables) as i32;
        let variable = if variable == 3 {
            1_073_741_823
        } else {
            variable
        };
        let literal = if random.chance(50) {
            variable
        } else {
            -variable
        };
        let is_new = !clause.contains(&literal) && !clause.contains(&-literal);
        if is_new || random.chance(10) {
            clause.push(literal);
        }
    }
    clause
}

fn random_lines(random: &mut Random, kind: &Kind, cases: &mut Cases) {
    let anyway = *random.one_of(&[10, 40, 90]);
    let mut pair = Pair::default();
    for _ in 0..kind.lines {
        let count = pair.plain.clauses.len();
        let add = random.below(2 * kind.standing) >= count;
        if add || random.chance(5) {
            let clause = some_clause(random, kind);
            let anyway = random.chance(anyway) && (!clause.is_empty() || random.chance(10));
            pair.add(clause, anyway, cases);
        } else if random.chance(90) {
            let mut clause = random.one_of(&pair.plain.clauses).clone();
            random.shuffle(&mut clause);
            clause.extend(clause.first().copied().filter(|_| random.chance(20)));
            pair.delete(&clause, cases);
        } else {
            pair.delete(&some_clause(random, kind), cases);
        }
    }
    *cases.entry("collection").or_default() += pair.fast.collections() as usize;
}

const RANDOM_CASES: &[&str] = &[
    "follows by propagation",
    "follows by resolvents only",
    "follows past a true clause",
    "has no resolvents",
    "does not follow",
    "empty clause",
    "unit clause",
    "repeated literal",
    "opposed literals",
    "does not stand",
    "deleted",
    "deleted under a conflict",
    "conflict undone",
    "reason of a true literal deleted",
];

#[test]
fn random_lines_as_the_plain_checker_has_them() {
    let cases = over_seeds(0..4_000, |seed, cases| {
        let mut random = Random::new(seed);
        let kind = Kind {
            lines: 60,
            variables: random.between(2, 9),
            standing: random.between(1, 24),
            sizes: SMALL,
        };
        random_lines(&mut random, &kind, cases);
    });
    expect_cases(cases, 1_000, RANDOM_CASES);
}

#[test]
fn many_random_lines_as_the_plain_checker_has_them() {
    let cases = over_seeds(0..200, |seed, cases| {
        let mut random = Random::new(seed);
        let kind = Kind {
            lines: 1_500,
            variables: random.between(2, 9),
            standing: random.between(1, 24),
            sizes: SMALL,
        };
        random_lines(&mut random, &kind, cases);
    });
    expect_cases(cases, 400, &["collection"]);
}

#[test]
fn more_random_clauses_as_the_plain_checker_has_them() {
    let cases = over_seeds(0..200, |seed, cases| {
        let mut random = Random::new(seed);
        let variables = random.between(15, 40);
        let kind = Kind {
            lines: 600,
            variables,
            standing: random.between(variables, 3 * variables),
            sizes: LARGER,
        };
        random_lines(&mut random, &kind, cases);
    });
    let expected = [
        "follows by propagation",
        "follows by resolvents only",
        "does not follow",
        "conflict undone",
        "reason of a true literal deleted",
    ];
    expect_cases(cases, 100, &expected);
}

/// So many clauses that the hashes of some are equal.
#[test]
fn clauses_are_told_apart() {
    let mut random = Random::new(1);
    let mut clause = || [1, 2, 3].map(|_| random.between(1, 1_000) as i32);
    let standing: Vec<[i32; 3]> = (0..300_000).map(|_| clause()).collect();
    let sets: BTreeSet<BTreeSet<i32>> = standing.iter().map(|clause| as_set(clause)).collect();
    let mut checker = Checker::new(&standing);
    for _ in 0..300_000 {
        let other = clause();
        if !sets.contains(&as_set(&other)) {
            assert!(!checker.delete(&other), "{other:?}");
        }
    }
    assert!(standing.iter().all(|clause| checker.delete(clause)));
}

// ---- solvers' proofs, with lines changed

/// Clauses of three literals.
fn threes(random: &mut Random, variables: usize, clauses: usize) -> Formula {
    let clause = |random: &mut Random| -> Vec<i32> {
        let mut list: Vec<i32> = (1..=variables as i32).collect();
        random.shuffle(&mut list);
        let signs = list.into_iter().take(3);
        signs
            .map(|variable| {
                if random.chance(50) {
                    variable
                } else {
                    -variable
                }
            })
            .collect()
    };
    let clauses = (0..clauses).map(|_| clause(random)).collect();
    Formula::new(variables as i32, clauses)
}

/// Traps that are all in scent range of each other, and one lure too few.
fn crowded(random: &mut Random, traps: usize) -> Formula {
    let mut formula = Valley::random(random, traps, traps - 1, traps * traps).formula();
    for clause in &mut formula.clauses {
        random.shuffle(clause);
    }
    formula
}

/// Our log and cadical's proof after it; None where there is a plan.
fn whole_proof(text: &[u8], way: Settings) -> Option<Vec<u8>> {
    let new = reencode(text, way, Default::default()).unwrap();
    match cadical(&new.formula) {
        Answer::Unsatisfiable(Some(proof)) => Some([new.log, proof.into_bytes()].concat()),
        _ => None,
    }
}

/// A proof of a text passes, and each change of it has the fault that the plain checker finds.
fn change_proof(
    text: &[u8],
    way: Settings,
    changes: usize,
    random: &mut Random,
    cases: &mut Cases,
) {
    let mut count = |case| *cases.entry(case).or_default() += 1;
    let Some(proof) = whole_proof(text, way) else {
        return count("plan");
    };
    assert_eq!(fault_of(text, proof.as_slice()), None);
    assert_eq!(
        fault_of(text, BufReader::with_capacity(3, proof.as_slice())),
        None
    );
    count("proof");
    let count_of_lines = proof.iter().filter(|&&byte| byte == b'\n').count();
    let lines = read_kept_lines(&proof, count_of_lines).unwrap();
    for _ in 0..changes {
        let changed = damage_log(random, &lines);
        let clauses = written_clauses(text);
        let expected = Reference { clauses }.fault_of(&changed);
        let found = fault_of(text, log_text(&changed).as_slice());
        assert_eq!(
            found,
            expected,
            "{}",
            String::from_utf8_lossy(&log_text(&changed))
        );
        count(match found.map(|(_, fault)| fault) {
            None => "harmless",
            Some(Fault::DoesNotFollow) => "does not follow",
            Some(Fault::NotStanding) => "does not stand",
            Some(Fault::NoEmptyClause) => "no empty clause",
            Some(Fault::Layout) => "layout",
        });
    }
}

const CHANGES: &[&str] = &["proof", "harmless", "does not follow", "does not stand"];

#[test]
fn changed_proofs_of_threes() {
    let cases = over_seeds(0..80, |seed, cases| {
        let mut random = Random::new(seed);
        let variables = random.between(8, 24);
        let formula = threes(&mut random, variables, 5 * variables);
        let text = rewritten(&mut random, formula).text;
        change_proof(&text, WAYS[3], 40, &mut random, cases);
    });
    expect_cases(cases, 10, &[CHANGES, &["no empty clause"]].concat());
}

#[test]
fn changed_proofs_of_crowded_valleys() {
    let cases = over_seeds(0..6, |seed, cases| {
        let mut random = Random::new(seed);
        let formula = crowded(&mut random, 6);
        let text = rewritten(&mut random, formula).text;
        // both forms, each with no number skipped, with few and with many
        let way = [WAYS[1], WAYS[3]][seed as usize % 2];
        let way = way.with_step([1, 7, 100][seed as usize / 2]);
        change_proof(&text, way, 30, &mut random, cases);
    });
    expect_cases(cases, 5, CHANGES);
}

// ---- a long proof

/// Counts the bytes that each thread holds, and the most that it has held.
struct Counting;

thread_local! {
    static HELD: Cell<isize> = const { Cell::new(0) };
    static MOST_HELD: Cell<isize> = const { Cell::new(0) };
}

fn count_held(bytes: isize) {
    let held = HELD.get() + bytes;
    HELD.set(held);
    MOST_HELD.set(held.max(MOST_HELD.get()));
}

#[global_allocator]
static COUNTING: Counting = Counting;

// SAFETY: all is done by the system's allocator; the counts have neither constructor nor destructor.
unsafe impl GlobalAlloc for Counting {
    unsafe fn alloc(&self, layout: Layout) -> *mut u8 {
        count_held(layout.size() as isize);
        System.alloc(layout)
    }

    unsafe fn dealloc(&self, start: *mut u8, layout: Layout) {
        count_held(-(layout.size() as isize));
        System.dealloc(start, layout)
    }
}

/// Lines made as they are read, a few bytes at a time.
struct Made<I> {
    lines: I,
    line: Vec<u8>,
    bytes: usize,
}

impl<I: Iterator<Item = String>> Read for Made<I> {
    fn read(&mut self, buffer: &mut [u8]) -> io::Result<usize> {
        if self.line.is_empty() {
            self.line = self.lines.next().unwrap_or_default().into_bytes();
        }
        let taken = buffer.len().min(self.line.len());
        buffer[..taken].copy_from_slice(&self.line[..taken]);
        self.line.drain(..taken);
        self.bytes += taken;
        Ok(taken)
    }
}

/// New variables, each in three clauses for a while.
fn passing_variables(round: usize) -> String {
    let own = |round: usize| 10 + 7 * round;
    let (new, old) = (own(round), own(round.saturating_sub(50)));
    let added = format!("{new} 1 0\n-{new} -1 0\n{new} 3 4 5 6 7 8 9 -1 0\n");
    let deleted = format!("d 1 {old} 0\nd -1 -{old} 0\nd -1 9 8 7 6 5 4 3 {old} 0\n");
    if round < 50 {
        added
    } else {
        added + &deleted
    }
}

#[test]
fn a_long_proof_takes_little_memory() {
    const ROUNDS: usize = 200_000;
    let lines = (0..ROUNDS)
        .map(passing_variables)
        .chain(["2 0\n0\n".to_string()]);
    let mut made = Made {
        lines,
        line: Vec::new(),
        bytes: 0,
    };
    let before = HELD.get();
    MOST_HELD.set(before);
    let checked = check(
        FOUR.as_bytes(),
        BufReader::with_capacity(5, &mut made),
        &mut |_| {},
    )
    .unwrap();
    let most = MOST_HELD.get() - before;
    println!(
        "{checked:?}, {} bytes of proof, {most} bytes held",
        made.bytes
    );
    assert_eq!(checked.lines as usize, ROUNDS * 6 - 150 + 2);
    assert_eq!(checked.deletions as usize, (ROUNDS - 50) * 3);
    assert_eq!(checked.by_resolvents as usize, ROUNDS);
    assert!(made.bytes > 20_000_000 && most < 1_500_000);
}
