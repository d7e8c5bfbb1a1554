//! Library and model, byte for byte, on random formulas in which all that is remarkable occurs.

mod common;

use common::formulas::{any_kind_joined, choices_near_the_limit, is_joined};
use common::lines::lines_of_choices;
use common::{
    carrying_work, compare_read_back, compare_reencode, compare_sizes, expect_exact, expect_more,
    new_formula, note, over_seeds, run_model, skipped, sum, work_for, Carrying, Occurred, Room,
    CARRYING, NO_STEPS, STEPS, WAYS,
};
use model::encoding::{Encoding, Tally, PAIRS};
use model::generator::{
    answer_after, clauses_with_repeat, damage, damage_log, repeats_in_choices, text_of, Joined,
    Random,
};
use model::reading::{read_formula, Formula, INPUT_LIMITS};
use model::texts::{log_text, Line};
use model::walk_back::highest_allowed;
use model::ChoiceRecord;
use sirgholyn::{Form, Settings};

const FORMULAS: u64 = 22_000;

fn note_run(occurred: &mut Occurred, encoding: &Encoding) {
    let tally = &encoding.tally;
    note(occurred, "clashes", tally.clashes);
    note(occurred, "clash chains", tally.chained_clashes);
    note(occurred, "double clashes", tally.double_clashes);
    note(occurred, "empty resolvents", tally.empty_resolvents);
    note(occurred, "pure literals", tally.pure);
    note(occurred, "several negated literals", tally.several_negated);
    note(occurred, "replaced by nothing", tally.replaced_by_nothing);
    note(occurred, "aligned", tally.aligned);
    note(occurred, "chained links", tally.chained_links);
    note(occurred, "unalignable", tally.unalignable);
    for (place, choice) in &encoding.choices {
        note(occurred, format!("taken {:02}", choice.len()), 1);
        let joined = *place >= encoding.input_clauses;
        note(occurred, "choices joined by clashes", usize::from(joined));
    }
    for place in encoding.standing.all_places() {
        let size = encoding.standing.clause(place).map_or(0, <[i32]>::len);
        if [4, 65].contains(&size) && encoding.standing.is_unique_literal_clause(place) {
            note(occurred, format!("stays {size:02}"), 1);
        }
    }
}

/// Choices with a pure literal, and with no, some and all of their pairs.
fn kinds(tally: &Tally) -> Vec<(&'static str, usize)> {
    let pairs = PAIRS.map(|(what, times)| (what, times(tally)));
    [&[("free choices", tally.free_choices)], &pairs[..]].concat()
}

/// The kinds of choices that are taken, by a name of the way.
fn note_choices(occurred: &mut Occurred, way: &str, encoding: &Encoding) {
    let tally = &encoding.tally;
    let joined = ("free choices joined by clashes", tally.joined_free_choices);
    for (what, times) in kinds(tally).into_iter().chain([joined]) {
        note(occurred, format!("{way}: {what}"), times);
    }
}

/// An assignment that was carried, over all lines or some, by what choices the log has, and whether values of
/// the formula's variables changed.
fn note_carried(occurred: &mut Occurred, of: &str, encoding: &Encoding, carried: &Carried) {
    let tally = &encoding.tally;
    if carried.kept <= tally.clearing_lines() {
        return;
    }
    let cut = ["cut in a choice", "whole"][usize::from(carried.kept == encoding.log.len())];
    let changed = ("values changed", usize::from(carried.changed));
    for (what, times) in kinds(tally).into_iter().chain([changed]) {
        let carried = usize::from(times > 0);
        note(occurred, format!("{of}, {cut}: {what}"), carried);
    }
}

/// Each choice's first new variable is the least above all used that is 1 more than a multiple of the step.
fn expect_firsts(step: i32, variables: i32, table: &[ChoiceRecord]) {
    let mut used = variables;
    for record in table {
        let distance = record.first - used;
        assert!((1..=step).contains(&distance) && (record.first - 1) % step == 0);
        used = record.first + record.length as i32 - 2;
    }
    let is_short = |record: &ChoiceRecord| record.length as i32 <= step + 1;
    if table.iter().all(is_short) {
        let mut neighbours = table.windows(2);
        assert!(neighbours.all(|pair| pair[1].first - pair[0].first == step));
    }
}

/// What is skipped stands in no line: a variable above V is a choice's.
fn expect_used(variables: i32, encoding: &Encoding) {
    let has = |record: &ChoiceRecord, variable: i32| {
        (record.first..record.first + record.length as i32 - 1).contains(&variable)
    };
    let is_used = |variable: i32| {
        variable <= variables || encoding.table.iter().any(|record| has(record, variable))
    };
    let mut literals = encoding.log.iter().flat_map(|line| &line.literals);
    assert!(literals.all(|literal| is_used(literal.abs())));
}

/// The table of a run that was accepted: its records by their input clauses, and what the step has skipped.
fn note_table(occurred: &mut Occurred, way: Settings, formula: &Formula, encoding: &Encoding) {
    expect_firsts(way.step as i32, formula.variables, &encoding.table);
    expect_used(formula.variables, encoding);
    for record in &encoding.table {
        let clauses = ["1", "2", "3 or more"][record.clauses.min(3) - 1];
        let what = format!("{:?}: records with {clauses} input clauses", way.form);
        note(occurred, what, 1);
    }
    let skipped = skipped(formula, encoding);
    assert!(way.step > 1 || skipped == 0);
    let several = way.step > 1 && encoding.table.len() > 1;
    for (what, times) in [
        ("numbers skipped", usize::from(skipped > 0)),
        ("several choices, step above 1", usize::from(several)),
    ] {
        note(occurred, format!("{:?}: {what}", way.form), times);
    }
    let with_choices = usize::from(!encoding.table.is_empty());
    note(
        occurred,
        format!("choices, step {:03}", way.step),
        with_choices,
    );
}

/// The number of lines in counter form: clashes have three each, or two if no resolvent is added, pure clauses one.
fn expect_lines(occurred: &mut Occurred, formula: &Formula, encoding: &Encoding) {
    let (lines, tally) = (encoding.log.len(), &encoding.tally);
    let of_choices = lines_of_choices(formula, encoding);
    assert_eq!(lines, tally.clearing_lines() + of_choices, "{formula:?}");
    let most = 3 * tally.clashes + tally.pure + of_choices;
    assert!(lines <= most, "{formula:?}");
    if of_choices > 0 {
        let what = ["fewer lines than the bound", "lines at the bound"][usize::from(lines == most)];
        note(occurred, what, 1);
    }
}

fn outcome(occurred: &mut Occurred, call: &str, number: u32) {
    note(occurred, format!("{call} {number:02}"), 1);
}

/// The outcome of a call that reads the text, and what an accepted one has that is not kept.
fn read_outcome(occurred: &mut Occurred, call: &str, number: u32, read: &Joined) {
    outcome(occurred, call, number);
    if number == 0 {
        for (what, times) in [
            (
                "clauses with a repeat",
                clauses_with_repeat(&read.text).len(),
            ),
            ("clauses left out", read.formula.left_out),
            ("joined", usize::from(is_joined(read))),
            ("kept in full", usize::from(!is_joined(read))),
        ] {
            note(occurred, format!("{call}: {what}"), times);
        }
    }
}

/// Mostly the length itself or a little more, at times one short.
fn around(random: &mut Random, exact: usize) -> usize {
    match random.below(20) {
        0 => exact.saturating_sub(1),
        1..=9 => exact,
        _ => exact + random.below(300),
    }
}

/// Texts that are in order, and buffers that mostly suffice.
fn in_order(seed: u64, occurred: &mut Occurred) {
    let mut random = Random::new(seed);
    let forward_random = &mut Random::new(seed + (3 << 32));
    let input = any_kind_joined(&mut random);
    for form in [0, 2] {
        let way = WAYS[form + random.below(2)].with_step(*random.one_of(&STEPS));
        let name = name_of(way);
        let encoding = run_model(&input.formula, way);
        note_run(occurred, &encoding);
        note_choices(occurred, &name, &encoding);
        let repeats = repeats_in_choices(&input.text, &encoding);
        note(occurred, "repeats in choices", repeats);
        let new: Joined = new_formula(&encoding).into();
        let room = Room {
            work: around(&mut random, work_for(&input.formula)),
            log: around(&mut random, log_text(&encoding.log).len()),
            formula: around(&mut random, new.text.len()),
            table: around(&mut random, encoding.table.len()),
        };
        let asked = mostly(&mut random, way);
        let number = compare_reencode(&input.text, asked, room);
        read_outcome(occurred, "reencode", number, &input);
        let told = expect_told(occurred, &input.text, asked, room.work, number);
        read_outcome(occurred, "sizes", told, &input);
        if number == 0 {
            note_table(occurred, way, &input.formula, &encoding);
            if way.form == Form::Counter {
                expect_lines(occurred, &input.formula, &encoding);
            }
        }
        for text in [&new, &input] {
            let store = around(&mut random, work_for(&text.formula));
            let number = compare_read_back(&text.text, store);
            read_outcome(occurred, "read-back", number, text);
        }
        let randoms = [&mut random, &mut *forward_random];
        carry_both_ways(occurred, randoms, &name, &input, &encoding);
    }
}

fn carry_both_ways(
    occurred: &mut Occurred,
    randoms: [&mut Random; 2],
    way: &str,
    input: &Joined,
    encoding: &Encoding,
) {
    for (carrying, random) in CARRYING.into_iter().zip(randoms) {
        let carried = carry_in_order(random, carrying, input, encoding);
        read_outcome(occurred, carrying.name(), carried.number, input);
        if carried.number == 0 {
            let of = format!("{}, {way}", carrying.name());
            note_carried(occurred, &of, encoding, &carried);
        }
    }
}

/// The sizes by library and model, beside the number of a reencoding on as much workspace: the same number, but where a
/// buffer is too short. Buffers of just these sizes are accepted, and each one short is refused. The answer is the number.
fn expect_told(
    occurred: &mut Occurred,
    text: &[u8],
    way: Settings,
    work: usize,
    number: u32,
) -> u32 {
    match compare_sizes(text, way, work) {
        Ok(tally) => {
            assert!([0, 12, 13, 17].contains(&number));
            note(occurred, "just the sizes told", 1);
            for short in expect_exact(text, way, work, tally) {
                note(occurred, format!("one short of the sizes told: {short}"), 1);
            }
            0
        }
        Err(told) => {
            assert_eq!(told, number);
            told
        }
    }
}

fn name_of(way: Settings) -> String {
    format!("{:?} {:?}", way.form, way.arrangement)
}

/// The way itself, at times with a step that is refused.
fn mostly(random: &mut Random, way: Settings) -> Settings {
    match random.chance(3) {
        true => way.with_step(*random.one_of(&NO_STEPS)),
        false => way,
    }
}

/// Formulas whose highest variable is near the limit.
fn near_the_limit(seed: u64, occurred: &mut Occurred) {
    let random = &mut Random::new(seed + (2 << 32));
    let step = *random.one_of(&[39, 64, 100]);
    let way = random.one_of(&WAYS).with_step(step);
    let formula = choices_near_the_limit(random, step as usize);
    let encoding = run_model(&formula, way);
    let exact = Room::exact(&formula, &encoding);
    let room = Room {
        work: around(random, exact.work),
        table: around(random, exact.table),
        ..exact
    };
    let text = text_of(&formula);
    let number = compare_reencode(&text, way, room);
    outcome(occurred, "near the limit", number);
    let told = expect_told(occurred, &text, way, room.work, number);
    outcome(occurred, "near the limit, sizes", told);
}

/// What carrying an assignment over the lines of a log came to.
struct Carried {
    number: u32,
    kept: usize,
    /// Whether a variable of the formula has another value than in the assignment.
    changed: bool,
}

/// An assignment that may be carried over the lines: an answer for what stands after them, or a plan.
fn drawn_for(
    random: &mut Random,
    carrying: Carrying,
    formula: &Formula,
    lines: &[Line],
) -> Vec<u8> {
    match carrying {
        Carrying::Back => answer_after(random, formula, lines),
        Carrying::Forward => answer_after(random, formula, &[]),
    }
}

/// The variables up to V that the `v ` lines name as true, in order.
fn true_variables(text: &[u8], formula: &Formula) -> Vec<i32> {
    let text = String::from_utf8_lossy(text);
    let lines = text.lines().filter_map(|line| line.strip_prefix("v "));
    let literals = lines.flat_map(|line| line.split_whitespace().map(|word| word.parse().unwrap()));
    let mut found: Vec<i32> = literals
        .filter(|literal| (1..=formula.variables).contains(literal))
        .collect();
    found.sort_unstable();
    found
}

/// Carries over all lines of a log or the first of them.
fn carry_in_order(
    random: &mut Random,
    carrying: Carrying,
    input: &Joined,
    encoding: &Encoding,
) -> Carried {
    let Joined { text, formula } = input;
    let log = log_text(&encoding.log);
    let lines = encoding.log.len();
    let kept = if random.chance(50) {
        lines
    } else {
        random.below(lines + 1)
    };
    let assignment = drawn_for(random, carrying, formula, &encoding.log[..kept]);
    let work = around(random, carrying_work(formula, &log, kept));
    let longest = match carrying {
        Carrying::Back => 4 + 5 * formula.variables as usize,
        Carrying::Forward => 4 + 6 * encoding.highest as usize,
    };
    let room = if random.chance(50) {
        longest
    } else {
        random.below(longest)
    };
    let line = carrying.line(text, &log, kept, &assignment, work, room);
    // the formula's own log
    assert!(![Err(32), Err(33), Err(46)].contains(&line));
    let changed =
        |line: &Vec<u8>| true_variables(line, formula) != true_variables(&assignment, formula);
    Carried {
        kept,
        changed: line.as_ref().is_ok_and(changed),
        number: line.err().unwrap_or(0),
    }
}

/// Texts with a few changes.
fn changed(seed: u64, occurred: &mut Occurred) {
    let mut random = Random::new(seed + (1 << 32));
    let input = any_kind_joined(&mut random);
    let way = random.one_of(&WAYS).with_step(*random.one_of(&STEPS));
    let encoding = run_model(&input.formula, way);
    let mut text = input.text.clone();
    for _ in 0..random.below(3) {
        text = damage(&mut random, &text);
    }
    let room = Room {
        work: work_for(&input.formula) + 100,
        log: log_text(&encoding.log).len() + 400,
        formula: 20 * text.len() + 4_000,
        table: encoding.table.len() + random.below(5),
    };
    let asked = mostly(&mut random, way);
    let number = compare_reencode(&text, asked, room);
    outcome(occurred, "reencode", number);
    let told = expect_told(occurred, &text, asked, room.work, number);
    outcome(occurred, "sizes", told);
    if number == 0 {
        let read = read_formula(&text, &INPUT_LIMITS).unwrap();
        let encoding = run_model(&read, way);
        note_choices(occurred, "changed", &encoding);
        note_table(occurred, way, &read, &encoding);
        if way.form == Form::Counter {
            expect_lines(occurred, &read, &encoding);
        }
    }
    outcome(occurred, "read-back", compare_read_back(&text, room.work));
    let forward_random = &mut Random::new(seed + (4 << 32));
    for (carrying, random) in CARRYING.into_iter().zip([&mut random, forward_random]) {
        let number = carry_changed(random, carrying, &input, encoding.log.clone());
        outcome(occurred, carrying.name(), number);
    }
}

/// Carries an assignment with a few changes over a log with a few.
fn carry_changed(
    random: &mut Random,
    carrying: Carrying,
    input: &Joined,
    mut lines: Vec<Line>,
) -> u32 {
    let Joined { text, formula } = input;
    if random.chance(60) {
        lines = damage_log(random, &lines);
    }
    let kept = if random.chance(70) {
        lines.len()
    } else {
        random.below(lines.len() + 2)
    };
    let mut assignment = drawn_for(random, carrying, formula, &lines[..kept.min(lines.len())]);
    let mut log = log_text(&lines);
    if random.chance(20) {
        log = damage(random, &log);
    }
    if random.chance(30) {
        assignment = damage(random, &assignment);
    }
    let work = carrying_work(formula, &log, kept) + 1_000;
    let room = match carrying {
        Carrying::Back => 20 + 5 * formula.variables as usize,
        Carrying::Forward => 20 + 6 * highest_allowed(formula, &lines) as usize,
    };
    carrying.compare(text, &log, kept, &assignment, work, room)
}

#[test]
fn library_and_model_agree() {
    let counted = over_seeds(0..FORMULAS, |seed, occurred: &mut Occurred| {
        in_order(seed, occurred);
        if seed % 2 == 0 {
            changed(seed, occurred);
        }
        if seed % 100 == 0 {
            near_the_limit(seed, occurred);
        }
    });
    let occurred = sum(counted);
    println!("{FORMULAS} formulas in both forms, and half as many changed: {occurred:#?}");
    expect_cases(&occurred);
    expect_choices(&occurred);
    expect_tables(&occurred);
    expect_sizes(&occurred);
    for (call, numbers) in [
        ("reencode", &[0, 1, 2, 3, 4, 7, 8, 11, 12, 13, 15, 17][..]),
        ("sizes", &[0, 1, 2, 3, 4, 7, 8, 11, 15]),
        ("read-back", &[0, 1, 2, 3, 4, 7, 8, 11]),
        ("walk-back", &[0, 11, 14, 31, 32, 33, 34, 41, 42, 43, 44]),
        (
            "carry-forward",
            &[0, 11, 14, 31, 32, 34, 41, 42, 43, 45, 46],
        ),
    ] {
        expect_call(&occurred, call, numbers);
    }
    let forward_alone = [("carry-forward 45", 1_000), ("carry-forward 46", 30)];
    expect_more(&occurred, forward_alone);
}

fn expect_cases(occurred: &Occurred) {
    let cases = [
        ("clashes", 500),
        ("clash chains", 500),
        ("double clashes", 500),
        ("empty resolvents", 500),
        ("pure literals", 500),
        ("several negated literals", 500),
        ("replaced by nothing", 500),
        ("aligned", 500),
        ("chained links", 500),
        ("unalignable", 500),
        ("choices joined by clashes", 500),
        ("repeats in choices", 500),
        ("taken 05", 500),
        ("taken 64", 200),
        ("stays 04", 500),
        ("stays 65", 100),
        ("lines at the bound", 5_000),
        ("fewer lines than the bound", 500),
    ];
    expect_more(occurred, cases);
}

/// Choices with a pure literal, and with no, some and all of their pairs, in each way and in texts that were
/// changed.
fn expect_choices(occurred: &Occurred) {
    let choices = |of: &str| {
        let cases = [
            ("free choices", 500),
            ("free choices joined by clashes", 200),
            ("choices with no pair", 500),
            ("choices with some pairs", 1_000),
            ("choices with all pairs", 300),
            ("pairs in several copies", 1_000),
        ];
        cases.map(|(what, least)| (format!("{of}: {what}"), least))
    };
    expect_more(occurred, choices("changed"));
    for way in WAYS.map(name_of) {
        expect_more(occurred, choices(&way));
        for carrying in CARRYING {
            expect_carried(occurred, &format!("{}, {way}", carrying.name()));
        }
    }
}

/// Carried over whole logs, and over logs cut in a choice.
fn expect_carried(occurred: &Occurred, of: &str) {
    for (what, least) in [
        ("free choices", 200),
        ("choices with no pair", 200),
        ("choices with some pairs", 500),
        ("choices with all pairs", 100),
        ("pairs in several copies", 500),
        ("values changed", 150),
    ] {
        let cuts = ["whole", "cut in a choice"];
        let of_call = cuts.map(|cut| (format!("{of}, {cut}: {what}"), least));
        expect_more(occurred, of_call);
    }
}

/// Records of all kinds in both forms, steps that skip numbers, and what only the step and the table can raise.
fn expect_tables(occurred: &Occurred) {
    for form in [Form::Counter, Form::Order] {
        let cases = [
            ("records with 1 input clauses", 5_000),
            ("records with 2 input clauses", 1_000),
            ("records with 3 or more input clauses", 1_000),
            ("numbers skipped", 5_000),
            ("several choices, step above 1", 1_000),
        ];
        expect_more(
            occurred,
            cases.map(|(what, least)| (format!("{form:?}: {what}"), least)),
        );
    }
    expect_more(
        occurred,
        STEPS.map(|step| (format!("choices, step {step:03}"), 1_000)),
    );
    let numbers = [("reencode 15", 500), ("reencode 17", 500)];
    expect_more(occurred, numbers);
    let numbers = [(0, 50), (11, 5), (16, 50), (17, 2)];
    let near = |(number, least)| (format!("near the limit {number:02}"), least);
    expect_more(occurred, numbers.map(near));
}

/// Just the sizes that were told, each of them one short, and what only the workspace, the step and the highest variable
/// can raise.
fn expect_sizes(occurred: &Occurred) {
    expect_more(
        occurred,
        [
            ("just the sizes told", 40_000),
            ("one short of the sizes told: 17", 15_000),
            ("one short of the sizes told: 12", 30_000),
            ("one short of the sizes told: 13", 40_000),
            ("sizes 11", 500),
            ("sizes 15", 500),
            ("near the limit, sizes 00", 50),
            ("near the limit, sizes 11", 5),
            ("near the limit, sizes 16", 50),
        ],
    );
}

/// The call ended with each of these numbers and no other, and accepted texts of both kinds.
fn expect_call(occurred: &Occurred, call: &str, numbers: &[u32]) {
    let own = occurred.keys().filter_map(|what| what.strip_prefix(call));
    let found = own.filter_map(|what| what.trim_start().parse::<u32>().ok());
    assert_eq!(found.collect::<Vec<_>>(), numbers);
    let kinds = [
        ("clauses with a repeat", 20_000),
        ("clauses left out", 10_000),
        ("joined", 4_000),
        ("kept in full", 5_000),
    ];
    expect_more(
        occurred,
        kinds.map(|(what, least)| (format!("{call}: {what}"), least)),
    );
}
