//! Random calls.

use crate::rows::{Call, Carry, Reencode, Text, Way, PLENTY, PLENTY_OF_ROOM};
use model::encoding::Encoding;
use model::generator::{
    answer_after, clauses_apart, cut_apart, damage, damage_log, freed, noise, one_of_three_joined,
    paired, planned, Joined, Random,
};
use model::reading::Formula;
use model::texts::{log_text, Line};
use model::walk_back::workspace_needed;
use model::{reencode, Arrangement, Form, Room, Settings};

pub const FORMS: [Form; 2] = [Form::Counter, Form::Order];
pub const ARRANGEMENTS: [Arrangement; 2] = [Arrangement::AsListed, Arrangement::Alignment];

/// A formula that the checker computes in little time.
pub fn small(random: &mut Random) -> Joined {
    let (variables, clauses) = (random.below(13), random.between(1, 14));
    let formula = if random.chance(15) {
        noise(random, variables, clauses)
    } else {
        planned(random, variables, clauses)
    };
    one_of_three_joined(random, formula)
}

/// The same, made so that choices have pure literals.
pub fn small_freed(random: &mut Random) -> Joined {
    let (variables, clauses) = (random.between(5, 12), random.between(1, 14));
    let formula = planned(random, variables, clauses);
    let formula = freed(random, formula);
    one_of_three_joined(random, formula)
}

/// Choices of which pairs stand, among other clauses or alone.
pub fn small_paired(random: &mut Random) -> Joined {
    let formula = if random.chance(50) {
        let (variables, clauses) = (random.between(5, 12), random.between(1, 8));
        planned(random, variables, clauses)
    } else {
        clauses_apart(random.between(5, 6), 1)
    };
    let formula = paired(random, formula);
    one_of_three_joined(random, formula)
}

/// A choice that clashes join from two to four clauses, with pure literals.
pub fn small_cut(random: &mut Random) -> Joined {
    let formula = clauses_apart(random.between(5, 6), random.between(1, 2));
    let formula = cut_apart(random, formula);
    one_of_three_joined(random, formula)
}

/// Literals of the variables 1 up to the size, and their negations in another order.
fn literals(random: &mut Random, size: usize) -> (Vec<i32>, Vec<i32>) {
    let mut literals: Vec<i32> = (1..=size as i32).collect();
    for literal in &mut literals {
        *literal *= *random.one_of(&[1, 1, -1]);
    }
    random.shuffle(&mut literals);
    let mut negated: Vec<i32> = literals.iter().map(|literal| -literal).collect();
    random.shuffle(&mut negated);
    (literals, negated)
}

/// A choice of 20. Its negated literals stand two to five together, with 21 or -21 by turns, and some in
/// pairs, of which one stands in both orders.
pub fn choice_of_20(random: &mut Random) -> Formula {
    let (choice, mut negated) = literals(random, 20);
    let mut clauses = vec![choice];
    for (one, other) in [(0, 1), (1, 0), (1, 2), (5, 9), (17, 3)] {
        clauses.push(vec![negated[one], negated[other]]);
    }
    while !negated.is_empty() {
        let together = random.between(2, 5).min(negated.len());
        let mut clause = negated.split_off(negated.len() - together);
        clause.push(if clauses.len() % 2 == 0 { 21 } else { -21 });
        random.shuffle(&mut clause);
        clauses.push(clause);
    }
    random.shuffle(&mut clauses);
    Formula::new(21, clauses)
}

/// A clause of the size without a clash or a pure literal, in a formula of few clauses: its negated
/// literals stand in two clauses, and these twice.
pub fn unique_clause(random: &mut Random, size: usize) -> Formula {
    let (clause, mut negated) = literals(random, size);
    let rest = negated.split_off(random.between(1, size - 1));
    let mut clauses = vec![clause, negated.clone(), rest.clone(), rest, negated];
    random.shuffle(&mut clauses);
    Formula::new(size as i32, clauses)
}

/// A clause of the size without a clash, in a formula of few clauses: some of its negated literals stand in
/// a clause that stands twice, the others nowhere.
pub fn free_clause(random: &mut Random, size: usize) -> Formula {
    let (clause, mut negated) = literals(random, size);
    negated.truncate(random.between(1, size - 1));
    let mut clauses = vec![clause, negated.clone(), negated];
    random.shuffle(&mut clauses);
    Formula::new(size as i32, clauses)
}

/// Three choices of 5 with links, each a part of a chain over all three.
pub fn linked_choices(random: &mut Random) -> Formula {
    let (literals, mut negated) = literals(random, 15);
    let mut clauses: Vec<Vec<i32>> = literals.chunks(5).map(<[i32]>::to_vec).collect();
    let shifts = [0, random.below(5), random.below(5)];
    for lure in 0..random.between(1, 3) {
        let [first, second, third] = [0, 1, 2].map(|c: usize| -clauses[c][(lure + shifts[c]) % 5]);
        clauses.push(vec![first, second]);
        clauses.push(vec![third, second]);
    }
    let rest = negated.split_off(random.between(5, 10));
    clauses.extend([negated.clone(), rest.clone(), rest, negated]);
    random.shuffle(&mut clauses);
    Formula::new(15, clauses)
}

/// As much as is needed or more; in so many of a hundred cases one too few.
fn room(random: &mut Random, needed: usize, short: usize) -> usize {
    if random.chance(short) {
        needed.saturating_sub(1)
    } else if random.chance(50) {
        needed
    } else {
        needed + random.below(300)
    }
}

/// The text, in so many of a hundred cases changed; at times a byte comes in that is no character of
/// ASCII.
fn perhaps_damaged(random: &mut Random, mut text: Text, damaged: usize) -> Text {
    if random.chance(damaged) {
        text = damage(random, &text);
        if random.chance(25) {
            let place = random.below(text.len() + 1);
            text.insert(place, random.between(0xC0, 0xFF) as u8);
        }
    }
    text
}

/// As many records as there are or more; in so many of a hundred cases none or one too few.
fn table_room(random: &mut Random, records: usize, short: usize) -> usize {
    if random.chance(short / 2) {
        0
    } else {
        room(random, records, short)
    }
}

/// In so many of a hundred cases, the text is damaged, the workspace short, a buffer short.
pub fn reencoding(
    formula: impl Into<Joined>,
    random: &mut Random,
    settings: Settings,
    damaged: usize,
) -> Call {
    let Joined { text, formula } = formula.into();
    let text = perhaps_damaged(random, text, damaged);
    let result = reencode(&text, settings, PLENTY_OF_ROOM);
    let (log, new, records) = result.map_or((100, 100, 2), |result| {
        (result.log.len(), result.formula.len(), result.table.len())
    });
    let room = Room {
        workspace: room(random, formula.workspace_needed() as usize, damaged) as u64,
        log: room(random, log, damaged),
        formula: room(random, new, damaged),
        table: table_room(random, records, damaged),
    };
    Call::Reencode(Reencode {
        settings,
        room,
        text,
    })
}

/// In so many of a hundred cases, the text is damaged, the workspace short.
pub fn sizing(
    formula: impl Into<Joined>,
    random: &mut Random,
    settings: Settings,
    damaged: usize,
) -> Call {
    let Joined { text, formula } = formula.into();
    Call::Sizes {
        settings,
        work: room(random, formula.workspace_needed() as usize, damaged),
        text: perhaps_damaged(random, text, damaged),
    }
}

/// The run of a formula whose log is gone over or whose new formula is read back, with any step.
fn run(formula: &Formula, random: &mut Random, form: Form) -> Encoding {
    let settings = Settings {
        step: *random.one_of(&[1, 1, 2, 3, 7, 100]),
        ..Settings::new(form, *random.one_of(&ARRANGEMENTS))
    };
    Encoding::run(formula, settings)
}

pub fn reading_back(formula: Formula, random: &mut Random, form: Form, damaged: usize) -> Call {
    let run = run(&formula, random, form);
    let new = Formula::new(run.highest, run.standing.clauses());
    let Joined { text, formula } = one_of_three_joined(random, new);
    Call::ReadBack {
        work: room(random, formula.workspace_needed() as usize, damaged),
        text: perhaps_damaged(random, text, damaged),
    }
}

/// Over the formula's own log, in so many of a hundred cases with its lines damaged.
pub fn carrying(
    way: Way,
    formula: impl Into<Joined>,
    random: &mut Random,
    form: Form,
    damaged: usize,
) -> Call {
    let formula = formula.into();
    let mut lines = run(&formula.formula, random, form).log;
    if random.chance(damaged) {
        lines = damage_log(random, &lines);
    }
    carrying_over(&lines, way, formula, random, damaged)
}

/// Over the log of another formula.
pub fn carrying_astray(way: Way, random: &mut Random, form: Form) -> Call {
    let other = small(random).formula;
    let lines = run(&other, random, form).log;
    let formula = small(random);
    carrying_over(&lines, way, formula, random, 0)
}

/// All of the lines are kept, or another number of them.
fn carrying_over(
    lines: &[Line],
    way: Way,
    formula: Joined,
    random: &mut Random,
    damaged: usize,
) -> Call {
    let Joined { text, formula } = formula;
    let kept = if random.chance(50) {
        lines.len()
    } else {
        random.below(lines.len() + 1) + usize::from(random.chance(damaged))
    };
    let kept_lines = &lines[..kept.min(lines.len())];
    let answer = answer(way, random, &formula, kept_lines, damaged);
    let mut call = Carry {
        way,
        work: PLENTY,
        room: PLENTY,
        kept,
        text: perhaps_damaged(random, text, damaged / 2),
        log: perhaps_damaged(random, log_text(lines), damaged / 2),
        answer: perhaps_damaged(random, answer, damaged / 2),
    };
    let needed = workspace_needed(&formula, kept_lines) as usize;
    let line = call.given().map_or(60, |line| line.len());
    call.work = room(random, needed, damaged);
    call.room = room(random, line, damaged);
    Call::Carry(call)
}

/// An answer to what stands after the lines, or a plan for the formula; in so many of a hundred cases the former in
/// the place of the latter.
fn answer(
    way: Way,
    random: &mut Random,
    formula: &Formula,
    lines: &[Line],
    damaged: usize,
) -> Text {
    let is_plan = way == Way::Forward && !random.chance(damaged);
    let lines = if is_plan { &[] } else { lines };
    answer_after(random, formula, lines)
}
