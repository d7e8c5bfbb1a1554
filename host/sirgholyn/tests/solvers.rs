//! Round trips through cadical and minisat, and proofs of `no plan` checked against the input.

mod common;

use common::formulas::{any_kind, any_kind_joined, beside_free_choice, is_joined, rewritten};
use common::lines::check_lines;
use common::solvers::{cadical, fullest_answer, minisat, Answer};
use common::{
    expect_more, note, over_seeds, records, run_model, skipped, sum, way_of, Occurred, STEPS, WAYS,
};
use model::generator::{one_of_three_joined, paired, Joined, Random};
use model::log_reading::read_kept_lines;
use model::texts::count_true;
use model::valleys::Valley;
use sirgholyn::drat::{self, Ground};
use sirgholyn::{plan, CarryForwardRoom, ReencodeRoom, Reencoded, Settings, WalkBackRoom};
use std::io::Read;

fn either(formula: &[u8], is_satisfiable: bool, solve: fn(&[u8]) -> Answer) -> Answer {
    let answer = solve(formula);
    assert_eq!(matches!(answer, Answer::Satisfiable(_)), is_satisfiable);
    answer
}

/// A text reencoded one way, and what the model tells of it.
struct Trip<'a> {
    input: &'a Joined,
    new: Reencoded,
    /// Clauses of the input that go into a choice.
    in_choices: Vec<&'a [i32]>,
    /// Whether a choice has a pure literal.
    free: bool,
    /// Whether a pair of some choice stands.
    paired: bool,
    /// Whether no pair of some choice stands.
    unpaired: bool,
    /// Whether numbers are skipped, with several choices.
    skipping: bool,
}

impl<'a> Trip<'a> {
    fn new(input: &'a Joined, way: Settings) -> Trip<'a> {
        let room = ReencodeRoom::default();
        let new = sirgholyn::reencode(&input.text, way, room).unwrap();
        let encoding = run_model(&input.formula, way);
        assert_eq!(new.table, records(&encoding.table));
        let skips = skipped(&input.formula, &encoding) > 0;
        let clause = |place: usize| input.formula.clauses[place].as_slice();
        let places = encoding.input_clauses_in_choices();
        let tally = &encoding.tally;
        Trip {
            input,
            new,
            in_choices: places.into_iter().map(clause).collect(),
            free: tally.free_choices > 0,
            paired: tally.partly_paired + tally.fully_paired > 0,
            unpaired: tally.unpaired > 0,
            skipping: skips && encoding.choices.len() > 1,
        }
    }

    fn note(&self, trips: &mut Occurred, what: &str) {
        note(trips, what, 1);
        for (of, applies) in [
            ("joined", is_joined(self.input)),
            ("free", self.free),
            ("paired", self.paired),
            ("unpaired", self.unpaired),
            ("skipping", self.skipping),
        ] {
            note(trips, format!("{of}: {what}"), usize::from(applies));
        }
    }

    /// The answer carried back: a plan, with exactly one true literal in each clause that goes into a choice.
    fn walk_back(&self, answer: &[u8], trips: &mut Occurred) -> String {
        let Reencoded { log, tally, .. } = &self.new;
        let (text, room) = (&self.input.text, WalkBackRoom::default());
        let line = sirgholyn::walk_back(text, log, tally.lines as usize, answer, room).unwrap();
        let line = String::from_utf8(line).unwrap();
        let plain_text = String::from_utf8_lossy(text);
        assert!(plan::satisfies(&plain_text, &line), "{plain_text}");
        for clause in &self.in_choices {
            let chosen = count_true(&line, clause);
            assert_eq!(chosen, 1, "{clause:?} in {line} of {plain_text}");
        }
        self.note(trips, "plans");
        self.carry_forward(format!("s SATISFIABLE\n{line}").as_bytes(), trips);
        line
    }

    /// The plan carried forward satisfies the new formula.
    fn carry_forward(&self, given: &[u8], trips: &mut Occurred) {
        let Reencoded {
            log,
            tally,
            formula,
            ..
        } = &self.new;
        let (text, room) = (&self.input.text, CarryForwardRoom::default());
        let line = sirgholyn::carry_forward(text, log, tally.lines as usize, given, room).unwrap();
        let [new, line] = [formula, &line].map(|text| String::from_utf8_lossy(text));
        assert!(plan::satisfies(&new, &line), "{line} of {new}");
        self.note(trips, "plans carried forward");
    }

    /// The log and the solver's proof show that the text has no plan.
    fn check(&self, proof: &str, trips: &mut Occurred) {
        let text = &self.input.text;
        let whole = self.new.log.as_slice().chain(proof.as_bytes());
        let checked = drat::check(text, whole, &mut |_| {})
            .unwrap_or_else(|why| panic!("{why}: {}", String::from_utf8_lossy(text)));
        note(trips, "proof lines", checked.lines as usize);
        self.note(trips, "proofs");
    }

    /// Solves input, as it is written, and new formula by both solvers, and carries the first's answers forward and
    /// the second's back to a line.
    fn round(&self, trips: &mut Occurred) -> Vec<String> {
        let text = &self.input.text;
        let of_cadical = cadical(text);
        let can = matches!(of_cadical, Answer::Satisfiable(_));
        for answer in [of_cadical, either(text, can, minisat)] {
            if let Answer::Satisfiable(plan) = answer {
                self.carry_forward(&plan, trips);
            }
        }
        let mut lines = Vec::new();
        for solve in [cadical, minisat] {
            match either(&self.new.formula, can, solve) {
                Answer::Satisfiable(answer) => lines.push(self.walk_back(&answer, trips)),
                Answer::Unsatisfiable(Some(proof)) => self.check(&proof, trips),
                Answer::Unsatisfiable(None) => self.note(trips, "no plans without proof"),
            }
        }
        lines
    }
}

fn total(trips: Vec<Occurred>) -> Occurred {
    let trips = sum(trips);
    println!("{trips:#?}");
    trips
}

/// Also of texts that are not kept in full, with a choice that has a pure literal, with and without pairs, and with
/// numbers skipped.
const ROUNDS: [(&str, usize); 14] = [
    ("plans", 60),
    ("plans carried forward", 120),
    ("unpaired: plans carried forward", 40),
    ("proofs", 60),
    ("joined: plans", 20),
    ("joined: proofs", 10),
    ("free: plans", 20),
    ("free: proofs", 10),
    ("paired: plans", 20),
    ("paired: proofs", 10),
    ("unpaired: plans", 20),
    ("unpaired: proofs", 10),
    ("skipping: plans", 20),
    ("skipping: proofs", 5),
];

#[test]
fn valleys() {
    let trips = total(over_seeds(0..160, |seed, trips: &mut Occurred| {
        let mut random = Random::new(seed);
        let (traps, lures) = (random.between(10, 24), random.between(5, 6));
        let pairs = random.between(traps * 2, traps * 4);
        let mut valley = Valley::random(&mut random, traps, lures, pairs);
        if random.chance(30) {
            valley.free = vec![(random.below(traps), random.below(lures))];
        }
        let mut formula = valley.formula();
        if random.chance(40) {
            formula = paired(&mut random, formula);
        }
        let input = match seed % 3 {
            0 => rewritten(&mut random, formula),
            _ => formula.into(),
        };
        Trip::new(&input, way_of(seed)).round(trips);
    }));
    expect_more(&trips, ROUNDS);
    expect_more(&trips, [("proof lines", 10_000)]);
}

/// Whether no rule between two traps is a unique literal clause, so that no clash takes a trap's clause.
fn nothing_clashes(valley: &Valley) -> bool {
    let clauses = valley.formula().clauses;
    let holders = |literal: &i32| clauses.iter().filter(|c| c.contains(literal)).count();
    let is_unique = |clause: &Vec<i32>| clause.iter().all(|literal| holders(literal) == 1);
    !clauses[valley.traps..].iter().any(is_unique)
}

/// A valley with lures that nothing forbids, in which nothing clashes.
fn with_free_lures(random: &mut Random) -> Valley {
    loop {
        let valley = any_with_free_lures(random);
        if nothing_clashes(&valley) {
            return valley;
        }
    }
}

/// A valley with lures that nothing forbids, at some traps all of them. One of two is crowded, and has no plan;
/// there the lures are those of traps around the crowd.
fn any_with_free_lures(random: &mut Random) -> Valley {
    let lures = random.between(5, 6);
    let (mut valley, first) = if random.chance(50) {
        let around = random.between(4, 8);
        let crowded = Valley::crowded(random, lures + 1, lures, around);
        (crowded, lures + 1)
    } else {
        let traps = random.between(8, 16);
        let pairs = random.between(traps * 2, traps * 3);
        (Valley::random(random, traps, lures, pairs), 0)
    };
    for _ in 0..random.between(1, 4) {
        let trap = random.between(first, valley.traps - 1);
        if random.chance(20) {
            valley.free.extend((0..lures).map(|lure| (trap, lure)));
        } else {
            valley.free.push((trap, random.below(lures)));
        }
    }
    valley
}

/// Whoever answers, each trap gets exactly one lure.
#[test]
fn valleys_with_free_lures() {
    let trips = total(over_seeds(0..120, |seed, trips: &mut Occurred| {
        let valley = with_free_lures(&mut Random::new(seed));
        let input: Joined = valley.formula().into();
        for form in [0, 2] {
            let (turn, step) = (seed as usize % 2, seed as usize / 2 % STEPS.len());
            let trip = Trip::new(&input, WAYS[form + turn].with_step(STEPS[step]));
            assert!(trip.free);
            let mut lines = trip.round(trips);
            if let Some(answer) = fullest_answer(&trip.new.formula, input.formula.variables) {
                lines.push(trip.walk_back(&answer, trips));
            }
            for line in lines {
                for trap in &input.formula.clauses[..valley.traps] {
                    assert_eq!(count_true(&line, trap), 1, "{trap:?} in {line}");
                }
                note(trips, "lures", valley.traps);
            }
        }
    }));
    let cases = [("free: plans", 200), ("free: proofs", 60), ("lures", 2_000)];
    expect_more(&trips, cases);
}

#[test]
fn random_formulas() {
    let trips = total(over_seeds(0..240, |seed, trips: &mut Occurred| {
        let random = &mut Random::new(seed);
        let formula = any_kind(random);
        let formula = match seed % 3 {
            0 => beside_free_choice(random, formula),
            1 => paired(random, formula),
            _ => formula,
        };
        let input = one_of_three_joined(random, formula);
        Trip::new(&input, way_of(seed)).round(trips);
    }));
    expect_more(&trips, ROUNDS);
}

/// Every log of ours passes line by line, whatever the formula, and with its clauses as they are written.
#[test]
fn our_lines_follow() {
    let lines = total(over_seeds(0..650, |seed, lines: &mut Occurred| {
        let random = &mut Random::new(seed);
        let input = match seed % 13 {
            0 => with_free_lures(random).formula().into(),
            _ => any_kind_joined(random),
        };
        let trip = Trip::new(&input, way_of(seed));
        let kept = read_kept_lines(&trip.new.log, trip.new.tally.lines as usize).unwrap();
        check_lines(&input.text, &kept, |_, _, ground| {
            let what = match ground {
                Some(Ground::Propagation) => "by propagation",
                Some(Ground::Resolvents) => "by resolvents",
                None => "deletions",
            };
            trip.note(lines, what);
        });
    }));
    for (what, least) in [
        ("by propagation", 10_000),
        ("by resolvents", 10_000),
        ("deletions", 20_000),
    ] {
        let of = |kind: &str, share: usize| (format!("{kind}{what}"), least / share);
        expect_more(&lines, [of("", 1), of("joined: ", 10), of("free: ", 4)]);
        expect_more(&lines, [of("paired: ", 2), of("unpaired: ", 4)]);
        expect_more(&lines, [of("skipping: ", 10)]);
    }
}
