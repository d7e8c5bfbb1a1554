//! How often each case occurs in the rows.

use crate::rows::{Call, Carry, Row, Way};
use model::encoding::{Encoding, PAIRS};
use model::generator::clauses_with_repeat;
use model::reading::{read_formula, INPUT_LIMITS, READ_BACK_LIMITS};
use model::{Arrangement, Settings};
use std::collections::BTreeMap;

pub type Counts = BTreeMap<String, usize>;

pub fn counts(rows: &[Row]) -> Counts {
    let mut counts = Counts::new();
    for row in rows {
        let (call, texts) = match &row.call {
            Call::Reencode(call) => ("reencode", vec![&call.text]),
            Call::Sizes { text, .. } => ("sizes", vec![text]),
            Call::ReadBack { text, .. } => ("read-back", vec![text]),
            Call::Carry(call) => (call.way.name(), vec![&call.text, &call.log, &call.answer]),
            Call::Choose { text } => ("choose", vec![text]),
        };
        count(&mut counts, format!("{call} {:02}", row.number()), 1);
        let is_ascii = texts.iter().all(|text| text.is_ascii());
        count(&mut counts, "not in ASCII", usize::from(!is_ascii));
        if row.number() == 0 {
            count_reading(&mut counts, call, texts[0]);
        }
        count_reencoding(&mut counts, row);
        count_sizes(&mut counts, row);
        count_carry(&mut counts, row);
        count_forward(&mut counts, row);
        count_choose(&mut counts, row);
    }
    counts
}

fn count(counts: &mut Counts, what: impl Into<String>, times: usize) {
    *counts.entry(what.into()).or_default() += times;
}

/// What is taken out of the formula's text, in a row with a result.
fn count_reading(counts: &mut Counts, call: &str, text: &[u8]) {
    let formula = read_formula(text, &READ_BACK_LIMITS).expect("the row has a result");
    let with_repeat = clauses_with_repeat(text).len();
    count(
        counts,
        format!("{call}, clauses with a repeat"),
        with_repeat,
    );
    count(
        counts,
        format!("{call}, clauses left out"),
        formula.left_out,
    );
}

/// The form, and whether the choices are aligned.
fn way_of(settings: Settings) -> String {
    let aligned = match settings.arrangement {
        Arrangement::Alignment => ", aligned",
        Arrangement::AsListed => "",
    };
    format!("{:?}{aligned}", settings.form)
}

fn count_reencoding(counts: &mut Counts, row: &Row) {
    let (Call::Reencode(call), Some(run)) = (&row.call, row.run()) else {
        return;
    };
    let (form, way) = (call.settings.form, way_of(call.settings));
    count(counts, &way, 1);
    let free_choices = run.tally.free_choices;
    count(counts, format!("{way}, free choices"), free_choices);
    for (what, kind) in PAIRS {
        count(counts, format!("{form:?}, {what}"), kind(&run.tally));
    }
    let matters = usize::from(row.alignment_matters());
    count(counts, format!("{form:?}, alignment matters"), matters);
    for (place, choice) in &run.choices {
        let size = choice.len();
        count(counts, format!("{form:?}, choice of {size:02}"), 1);
        let joined = *place >= run.input_clauses;
        count(counts, "choices joined by clashes", usize::from(joined));
    }
    count(counts, "repeats in choices", row.repeats_in_choices());
    count_table(counts, row, &way);
    count_run(counts, &run);
}

/// Sizes that are given: the ways, the steps and the workspaces.
fn count_sizes(counts: &mut Counts, row: &Row) {
    let Call::Sizes {
        settings,
        work,
        text,
    } = &row.call
    else {
        return;
    };
    let Some(run) = row.run() else {
        return;
    };
    let formula = read_formula(text, &INPUT_LIMITS).expect("the row has a result");
    let (way, Settings { form, step, .. }) = (way_of(*settings), settings);
    let (has_choices, skips) = (!run.choices.is_empty(), row.skipped() > 0);
    let is_exact = formula.workspace_needed() == *work as u64;
    let matters = row.alignment_matters();
    for (what, is_so) in [
        (&*way, true),
        (&format!("{way}, choices"), has_choices),
        (&format!("{way}, skipped numbers"), skips),
        (&format!("{way}, exact workspace"), is_exact),
        (&format!("{form:?}, alignment matters"), matters),
        (&format!("step {step}"), true),
        ("repeats in choices", row.repeats_in_choices() > 0),
        ("V 0", formula.variables == 0),
    ] {
        count(counts, format!("sizes, {what}"), usize::from(is_so));
    }
    count_sized_run(counts, &run);
}

/// The runs whose sizes are given.
fn count_sized_run(counts: &mut Counts, run: &Encoding) {
    let tally = &run.tally;
    for (what, is_so) in [
        ("several choices", run.choices.len() > 1),
        ("clash chains", tally.chained_clashes > 0),
        ("double clashes", tally.double_clashes > 0),
        ("empty resolvents", tally.empty_resolvents > 0),
        ("pure deletions", tally.pure > 0),
        ("free choices", tally.free_choices > 0),
        ("no line", run.log.is_empty()),
        ("no clause left", run.standing.clauses().is_empty()),
    ] {
        count(counts, format!("sizes, {what}"), usize::from(is_so));
    }
    for (what, kind) in PAIRS {
        let times = usize::from(kind(tally) > 0);
        count(counts, format!("sizes, {what}"), times);
    }
    for record in &run.table {
        let size = record.length;
        count(counts, format!("sizes, choice of {size:02}"), 1);
    }
}

/// Steps above 1, and input clauses in records.
fn count_table(counts: &mut Counts, row: &Row, way: &str) {
    let (step, table) = row.table();
    let several = usize::from(table.len() > 1);
    if step > 1 {
        count(counts, format!("{way}, step"), 1);
        count(counts, format!("{way}, step, several choices"), several);
        let skips = usize::from(row.skipped() > 0);
        count(counts, format!("{way}, step, skipped numbers"), skips);
        count(counts, format!("step {step}"), 1);
    }
    for record in table {
        let clauses = record.clauses;
        count(counts, format!("records of {clauses} input clauses"), 1);
    }
    let is_exact = matches!(&row.call, Call::Reencode(call) if call.room.table == table.len());
    count(counts, "exact tables", usize::from(is_exact && several > 0));
}

fn count_run(counts: &mut Counts, run: &Encoding) {
    let tally = &run.tally;
    for (what, times) in [
        ("choices", run.choices.len()),
        ("clashes", tally.clashes),
        ("clash chains", tally.chained_clashes),
        ("double clashes", tally.double_clashes),
        ("empty resolvents", tally.empty_resolvents),
        ("pure deletions", tally.pure),
        ("free choices joined by clashes", tally.joined_free_choices),
        ("several negated literals", tally.several_negated),
        ("replaced by nothing", tally.replaced_by_nothing),
        ("chained links", tally.chained_links),
        ("unalignable", tally.unalignable),
    ] {
        count(counts, what, times);
    }
}

/// Either way over a log.
fn count_carry(counts: &mut Counts, row: &Row) {
    let Some(Carry { way, .. }) = row.carry().filter(|_| row.number() == 0) else {
        return;
    };
    let name = way.name();
    let log = if row.is_cut() { "cut log" } else { "whole log" };
    let tally = row.tally();
    let has_free = tally.free_choices > 0;
    for (what, is_so) in [
        ("", true),
        (", values changed", row.is_changed()),
        (", skipped numbers", row.skips_in_log()),
        (
            ", free choice, values changed",
            has_free && row.is_changed(),
        ),
    ] {
        count(counts, format!("{name}, {log}{what}"), usize::from(is_so));
    }
    for (log, is_so) in [
        ("whole log", !row.is_cut()),
        ("cut in choices", row.is_cut_in_choices()),
    ] {
        for (what, kind) in PAIRS {
            let times = usize::from(is_so) * kind(&tally);
            count(counts, format!("{name}, {log}, {what}"), times);
        }
    }
}

/// What occurs on the way forward alone.
fn count_forward(counts: &mut Counts, row: &Row) {
    if row.carry().is_none_or(|call| call.way == Way::Back) {
        return;
    }
    let is_cut = row.is_cut();
    let has_twenty = row
        .plain_run()
        .is_some_and(|run| run.choices.iter().any(|(_, c)| c.len() == 20));
    for (what, is_so) in [
        ("42, at most X", row.names_new()),
        ("whole log, new true", !is_cut && row.makes_new_true()),
        ("cut log, new true", is_cut && row.makes_new_true()),
        (
            "cut in choices",
            row.number() == 0 && row.is_cut_in_choices(),
        ),
        ("choice of 20", row.number() == 0 && !is_cut && has_twenty),
    ] {
        count(counts, format!("carry-forward, {what}"), usize::from(is_so));
    }
}

fn count_choose(counts: &mut Counts, row: &Row) {
    if matches!(row.call, Call::Choose { .. }) {
        let tally = row.tally();
        count(counts, "choose, free choices", tally.free_choices);
        count(counts, "choose, pure deletions", tally.pure);
    }
}
