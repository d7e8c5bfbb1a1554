//! Our logs under the DRAT checker: why each line follows, and what tells a log with a line left out, turned or put
//! in from a true one.

mod common;

use common::formulas::{any_kind_joined, with_pairs};
use common::lines::{check_lines, cleared, parts, Part};
use common::{expect_more, note, over_seeds, run_model, sum, way_of, Occurred, WAYS};
use model::counter::{copies_of_pairs, pairs};
use model::encoding::Encoding;
use model::generator::{clauses_apart, forbidding, paired, Joined, Random};
use model::log_reading::read_kept_lines;
use model::texts::{count_true, log_text, Line};
use sirgholyn::drat::{check, Error, Fault, Ground};
use sirgholyn::{Refusal, Settings, WalkBackRoom};

/// The library's log of a text, with what the model tells of it.
struct Log {
    encoding: Encoding,
    lines: Vec<Line>,
    parts: Vec<Part>,
    /// What stands before the first choice is taken.
    standing: Vec<Vec<i32>>,
}

impl Log {
    fn new(input: &Joined, way: Settings) -> Log {
        let Joined { text, formula } = input;
        let new = sirgholyn::reencode(text, way, Default::default()).unwrap();
        let encoding = run_model(formula, way);
        let parts = parts(formula, &encoding);
        let lines = read_kept_lines(&new.log, new.tally.lines as usize).unwrap();
        assert_eq!(lines.len(), parts.len());
        Log {
            lines,
            parts,
            standing: cleared(formula, &encoding),
            encoding,
        }
    }

    /// Whether the pairs of the literal and those before it in its choice stand.
    fn is_paired(&self, literal: i32) -> bool {
        let mut choices = self.encoding.choices.iter().map(|(_, choice)| choice);
        let choice = choices.find(|choice| choice.contains(&literal)).unwrap();
        let mut before = choice.iter().take_while(|&&other| other != literal);
        before.all(|&other| copies_of_pairs(&self.standing, &[literal, other]) > 0)
    }

    /// The places of the lines of a part.
    fn places(&self, part: Part) -> Vec<usize> {
        let mut places: Vec<usize> = (0..self.parts.len()).collect();
        places.retain(|&place| self.parts[place] == part);
        places
    }

    fn without(&self, place: usize) -> Vec<Line> {
        let mut lines = self.lines.clone();
        lines.remove(place);
        lines
    }
}

// ---- why each line follows

const ALL_PAIRS: &str = "all pairs stand: by propagation, turned as well";
const BY_OTHERS: &str = "a pair is missing: by propagation, turned as well";
const BY_RESOLVENTS: &str = "a pair is missing: by resolvents only, not turned";
const BOTH_BY_RESOLVENTS: &str = "a pair is missing: by resolvents only, turned as well";

/// Why -li -s(i-1) follows, and -s(i-1) -li, by whether the pairs of li and those before it stand.
fn case_of(is_paired: bool, ground: Option<Ground>, turned: Option<Ground>) -> &'static str {
    use Ground::{Propagation, Resolvents};
    match (is_paired, ground, turned) {
        (true, Some(Propagation), Some(Propagation)) => ALL_PAIRS,
        (false, Some(Propagation), Some(Propagation)) => BY_OTHERS,
        (false, Some(Resolvents), None) => BY_RESOLVENTS,
        (false, Some(Resolvents), Some(Resolvents)) => BOTH_BY_RESOLVENTS,
        other => panic!("{other:?}"),
    }
}

/// Goes through a log line by line, each of which follows, and counts its lines -li -s(i-1) by their cases.
fn follow(input: &Joined, way: Settings, cases: &mut Occurred) {
    let log = Log::new(input, way);
    check_lines(&input.text, &log.lines, |checker, place, ground| {
        if log.parts[place] == Part::Exclusion {
            let line = &log.lines[place].literals;
            let turned = checker.ground(&[line[1], line[0]]);
            note(cases, case_of(log.is_paired(-line[0]), ground, turned), 1);
        }
    });
}

/// Where no propagation shows that li excludes those before it, the line hangs on its first literal: turned, it
/// follows by its resolvents only where other clauses exclude these literals.
#[test]
fn any_formulas() {
    let counted = over_seeds(0..2_000, |seed, cases: &mut Occurred| {
        let input = any_kind_joined(&mut Random::new(seed));
        follow(&input, way_of(seed), cases);
    });
    let cases = sum(counted);
    println!("{cases:#?}");
    let least = [
        (ALL_PAIRS, 1_000),
        (BY_OTHERS, 1_000),
        (BY_RESOLVENTS, 3_000),
    ];
    expect_more(&cases, least);
    let not_turned = cases[BY_RESOLVENTS];
    let turned = cases.get(BOTH_BY_RESOLVENTS).copied().unwrap_or(0);
    assert!(turned * 100 < not_turned, "{turned} of {not_turned}");
}

/// With no other clauses but pairs the line follows by propagation exactly if all its pairs stand, and else only with
/// -li first.
#[test]
fn choices_alone() {
    let counted = over_seeds(0..600, |seed, cases: &mut Occurred| {
        let random = &mut Random::new(seed);
        let mut formula = clauses_apart(random.between(5, 64), random.between(1, 2));
        if !random.chance(25) {
            formula = paired(random, formula);
        }
        follow(&formula.into(), *random.one_of(&WAYS), cases);
    });
    let cases = sum(counted);
    println!("{cases:#?}");
    expect_more(&cases, [(ALL_PAIRS, 5_000), (BY_RESOLVENTS, 5_000)]);
    assert_eq!(cases.len(), 2);
}

// ---- lines left out and put in

/// The first line of a log that the checker refuses, and why.
fn fault_of(input: &Joined, lines: &[Line]) -> Option<(usize, Fault)> {
    match check(&input.text, log_text(lines).as_slice(), &mut |_| {}) {
        // a formula that has a plan has no proof that ends
        Err(Error::Faulty { line, fault, .. }) => {
            Some((line as usize, fault)).filter(|(_, fault)| *fault != Fault::NoEmptyClause)
        }
        other => panic!("{other:?}"),
    }
}

/// The line that a log gives for an answer that makes these literals true, or the number of the refusal.
fn walk(input: &Joined, lines: &[Line], literals: &[i32]) -> Result<String, u32> {
    let words: String = literals
        .iter()
        .map(|literal| format!("{literal} "))
        .collect();
    let answer = format!("s SATISFIABLE\nv {words}0\n");
    let (log, room) = (log_text(lines), WalkBackRoom::default());
    match sirgholyn::walk_back(&input.text, &log, lines.len(), answer.as_bytes(), room) {
        Ok(line) => Ok(String::from_utf8(line).unwrap()),
        Err(sirgholyn::Error::Refused(Refusal(number))) => Err(number),
        Err(other) => panic!("{other}"),
    }
}

/// A choice of 1..k, and so many copies of all its pairs. Its new variable si is k + i.
fn choice_of(k: i32, copies: usize) -> Joined {
    with_pairs(k as usize, 1, copies).into()
}

/// Sizes of choices, and how many copies of their pairs stand.
fn small_choices() -> impl Iterator<Item = (i32, usize)> {
    (5..=9).flat_map(|k| [0, 1, 2].map(|copies| (k, copies)))
}

/// Both logs on the same answer: the true one refuses it, and the other lets two literals of the choice come back.
#[track_caller]
fn expect_two(input: &Joined, log: &Log, changed: &[Line], answer: &[i32]) {
    assert_eq!(walk(input, &log.lines, answer), Err(44));
    let line = walk(input, changed, answer).unwrap();
    assert_eq!(count_true(&line, &input.formula.clauses[0]), 2, "{line}");
}

/// Without -sj s(j-1) lj the line -l(j+1) -sj does not follow, and without sj -s(j-1) or sj -lj the line s(k-1) lk
/// does not. At j = k-1 that one follows by its resolvents.
#[test]
fn a_line_left_out_of_stage_2() {
    for (k, copies) in small_choices() {
        let input = choice_of(k, copies);
        let log = Log::new(&input, WAYS[0]);
        assert_eq!(fault_of(&input, &log.lines), None);
        let (exclusions, last) = (log.places(Part::Exclusion), log.places(Part::Last)[0]);
        let mut passing = 0;
        for place in log.places(Part::Counter) {
            let line = &log.lines[place].literals;
            let j = line[0].abs() - k;
            // lines are counted from 1, and one before the refused line is left out
            let refused = match line[0] {
                ..0 => Some(exclusions[j as usize - 1]),
                _ => Some(last).filter(|_| j < k - 1),
            };
            let expected = refused.map(|line| (line, Fault::DoesNotFollow));
            assert_eq!(fault_of(&input, &log.without(place)), expected, "{line:?}");
            passing += usize::from(expected.is_none());
        }
        assert_eq!(passing, 2);
    }
}

/// Without s(k-1) -s(k-2) the first and the last literal can both be true, without s(k-1) -l(k-1) the last two.
#[test]
fn two_lines_of_stage_2_that_the_checker_can_do_without() {
    for k in 5..=9 {
        let input = choice_of(k, 0);
        let log = Log::new(&input, WAYS[0]);
        let without = |literals: [i32; 2]| {
            let place = log.lines.iter().position(|line| line.literals == literals);
            log.without(place.unwrap())
        };
        let steps: Vec<i32> = (k + 1..2 * k - 1).collect();
        let first_and_last = [&[1, k], &steps[..]].concat();
        let changed = without([2 * k - 1, -(2 * k - 2)]);
        expect_two(&input, &log, &changed, &first_and_last);
        let changed = without([2 * k - 1, -(k - 1)]);
        expect_two(&input, &log, &changed, &[k - 1, k]);
    }
}

/// Without -li -s(i-1), i = k among them, the others follow, but l(i-1) and li can both be true. In order form its
/// deletion fails.
#[test]
fn a_line_left_out_of_stage_3() {
    for k in 5..=9 {
        let input = choice_of(k, 0);
        let (counter, order) = (Log::new(&input, WAYS[0]), Log::new(&input, WAYS[2]));
        let places = counter.places(Part::Exclusion);
        assert_eq!(places.len() as i32, k - 1);
        for (place, i) in places.into_iter().zip(2..) {
            assert_eq!(counter.lines[place].literals, [-i, -(k + i - 1)]);
            let changed = counter.without(place);
            assert_eq!(fault_of(&input, &changed), None);
            let steps: Vec<i32> = (k + i - 1..2 * k).collect();
            let answer = [&[i - 1, i], &steps[..]].concat();
            expect_two(&input, &counter, &changed, &answer);

            let changed = order.without(place);
            let (_, fault) = fault_of(&input, &changed).unwrap();
            assert_eq!(fault, Fault::NotStanding);
            assert_eq!(walk(&input, &changed, &answer), Err(32));
        }
    }
}

/// Without s(k-1) lk no literal need be true, and the first comes back even where it is forbidden.
#[test]
fn the_last_line_of_stage_3_left_out() {
    for k in 5..=9 {
        let mut formula = choice_of(k, 0).formula;
        formula.clauses.extend(forbidding(&[1]));
        let input: Joined = formula.into();
        let (counter, order) = (Log::new(&input, WAYS[0]), Log::new(&input, WAYS[2]));
        let place = counter.places(Part::Last)[0];
        assert_eq!(counter.lines[place].literals, [2 * k - 1, k]);
        assert_eq!(walk(&input, &counter.lines, &[]), Err(44));
        assert_eq!(walk(&input, &counter.without(place), &[]), Err(33));
        let changed = order.without(place);
        assert_eq!(fault_of(&input, &changed).unwrap().1, Fault::NotStanding);
        assert_eq!(walk(&input, &changed, &[]), Err(32));
    }
}

/// A copy of a pair that is not deleted still stands, and refuses an answer that the new formula allows: in order
/// form the choice's literals stand nowhere else.
#[test]
fn a_pair_not_deleted() {
    for (k, copies) in small_choices() {
        let input = choice_of(k, copies);
        let log = Log::new(&input, WAYS[2]);
        let answer: Vec<i32> = (1..2 * k).collect();
        let line = walk(&input, &log.lines, &answer).unwrap();
        assert_eq!(count_true(&line, &input.formula.clauses[0]), 1);
        let places = log.places(Part::Pair);
        assert_eq!(places.len(), copies * (k * (k - 1) / 2) as usize);
        for place in places {
            let changed = log.without(place);
            assert_eq!(fault_of(&input, &changed), None);
            assert_eq!(walk(&input, &changed, &answer), Err(44));
        }
    }
}

/// One deletion more than there are copies, as of a pair that was never there, has no clause.
#[test]
fn a_pair_deleted_too_often() {
    for (k, copies) in small_choices() {
        let input = choice_of(k, copies);
        let log = Log::new(&input, WAYS[0]);
        let place = log.lines.len();
        for literals in pairs(&input.formula.clauses[0]) {
            let deletion = Line {
                deletion: true,
                literals,
            };
            let changed = [&log.lines[..], &[deletion]].concat();
            let expected = Some((place + 1, Fault::NotStanding));
            assert_eq!(fault_of(&input, &changed), expected);
            assert_eq!(walk(&input, &changed, &[]), Err(32));
        }
    }
}
