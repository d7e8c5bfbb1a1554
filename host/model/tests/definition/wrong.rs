//! Rows made wrong on purpose.

use crate::antt::row_text;
use crate::fixed::{
    due_numbers, forward, one_clause, reencoding_with, sizing_by, two_choices, workspaces,
};
use crate::rows::{Call, Outcome, Row, Way, NO_ROOM, PLENTY, PLENTY_OF_ROOM};
use model::sessions::{CHAIN, JOINED_E};
use model::{ChoiceRecord, Form, Room};

/// Of the rows, the shortest with each kind of result, and the shortest refusal of each call.
pub fn short_rows(rows: &[Row]) -> Vec<Row> {
    let kinds: [fn(&Row) -> bool; 12] = [
        |row| matches!(&row.outcome, Outcome::Reencoded { log, .. } if !log.is_empty()),
        |row| !row.table().1.is_empty(),
        |row| matches!(row.outcome, Outcome::Sized([choices, ..]) if choices > 0),
        |row| matches!(row.outcome, Outcome::Read(_)),
        |row| goes(row, Way::Back) && row.number() == 0,
        |row| goes(row, Way::Forward) && row.number() == 0,
        |row| matches!(&row.outcome, Outcome::Chosen(text) if !text.is_empty()),
        |row| matches!(row.call, Call::Reencode(_)) && row.number() > 0,
        |row| matches!(row.call, Call::Sizes { .. }) && row.number() > 0,
        |row| matches!(row.call, Call::ReadBack { .. }) && row.number() > 0,
        |row| goes(row, Way::Back) && row.number() > 0,
        |row| goes(row, Way::Forward) && row.number() > 0,
    ];
    let mut short = Vec::new();
    for is_wanted in kinds {
        let wanted = rows.iter().filter(|row| is_wanted(row));
        let shortest = wanted.min_by_key(|row| row_text(row).len());
        short.push(shortest.expect("the rows have each kind").clone());
    }
    short
}

fn goes(row: &Row, way: Way) -> bool {
    row.carry().is_some_and(|call| call.way == way)
}

/// The row with one number or one byte of its outcome changed, for each number and each text, and with a record more.
pub fn wrong(row: &Row) -> Vec<Row> {
    let parts = match &row.outcome {
        Outcome::Reencoded { table, .. } => 9 + 3 * table.len(),
        Outcome::Sized(numbers) => numbers.len(),
        _ => 1,
    };
    let mut wrong = vec![row.clone(); parts];
    for (part, row) in wrong.iter_mut().enumerate() {
        change(&mut row.outcome, part);
    }
    wrong
}

/// The parts of a reencoding are its six numbers, its two texts, its table's length and the numbers of each record.
fn change(outcome: &mut Outcome, part: usize) {
    match outcome {
        Outcome::Refused(number) => *number += 1,
        Outcome::Sized(numbers) => numbers[part] += 1,
        Outcome::Read(text) | Outcome::Line(text) | Outcome::Chosen(text) => change_byte(text),
        Outcome::Reencoded {
            tally,
            log,
            formula,
            table,
        } => match part {
            0..6 => tally[part] += 1,
            6 => change_byte(log),
            7 => change_byte(formula),
            8 => table.push(record(6, 5, 1)),
            _ => change_record(&mut table[(part - 9) / 3], part % 3),
        },
    }
}

fn change_record(record: &mut ChoiceRecord, part: usize) {
    match part {
        0 => record.first += 1,
        1 => record.length += 1,
        _ => record.clauses += 1,
    }
}

/// Each text ends with `0` and LF; this `0` becomes `1`.
fn change_byte(text: &mut [u8]) {
    let place = text.len() - 2;
    assert_eq!(text[place], b'0');
    text[place] = b'1';
}

/// Rows by another workspace rule, or in which a repeated literal or a clause left out counts: the outcomes with just
/// enough workspace and with one entry less, exchanged.
pub fn miscounted() -> Vec<Row> {
    let mut rows = Vec::new();
    for [enough, short] in workspaces() {
        assert_eq!((enough.number(), short.number()), (0, 11));
        rows.push(Row {
            call: enough.call,
            outcome: short.outcome,
        });
        rows.push(Row {
            call: short.call,
            outcome: enough.outcome,
        });
    }
    rows
}

/// Rows in which a repeated literal is kept, or at its last place only, or a clause is not left out.
pub fn misread() -> Vec<Row> {
    let wrong = |read: &str| Row {
        call: Call::ReadBack {
            work: PLENTY,
            text: JOINED_E.into(),
        },
        outcome: Outcome::Read(read.into()),
    };
    [
        JOINED_E,
        "p cnf 3 2\n1 1 2 0\n-1 3 -1 0\n",
        "p cnf 3 2\n1 2 0\n3 -1 0\n",
        "p cnf 3 3\n1 2 0\n3 -3 0\n-1 3 0\n",
    ]
    .map(wrong)
    .to_vec()
}

/// Rows of one clause, each literal pure, in which a choice is none or another clause is one. Of a clause of 64
/// the checker does not compute a false row to its end.
pub fn mischosen() -> Vec<Row> {
    let wrong = |size, is_choice: bool| {
        let text = one_clause(size);
        let body = text.splitn(2, |&byte| byte == b'\n').nth(1);
        let clause = body.filter(|_| is_choice).unwrap_or_default().to_vec();
        Row {
            call: Call::Choose { text },
            outcome: Outcome::Chosen(clause),
        }
    };
    vec![wrong(4, true), wrong(5, false)]
}

/// The call with another outcome than its own.
fn instead(call: Call, outcome: Outcome) -> Row {
    let row = Row { call, outcome };
    assert!(row != Row::of(row.call.clone()));
    row
}

/// Rows with the outcome of another step.
pub fn misstepped() -> Vec<Row> {
    let calls: [fn(u32, &[u8]) -> Call; 2] = [
        |step, text| reencoding_with(step, PLENTY_OF_ROOM, text),
        |step, text| sizing_by(Form::Counter, step, PLENTY, text),
    ];
    let five = one_clause(5);
    let mut rows = Vec::new();
    for call in calls {
        for (step, other) in [(2, 1), (1, 2), (5, 2), (0, 1), (101, 100)] {
            let outcome = Row::of(call(other, &five)).outcome;
            rows.push(instead(call(step, &five), outcome));
        }
    }
    rows
}

/// The row of a reencoding with step 1, but with these records.
fn recorded(text: &[u8], records: &[[usize; 3]]) -> Row {
    let mut row = Row::of(reencoding_with(1, PLENTY_OF_ROOM, text));
    if let Outcome::Reencoded { table, .. } = &mut row.outcome {
        let records = records.iter();
        *table = records
            .map(|&[first, length, clauses]| record(first as i32, length, clauses))
            .collect();
    }
    instead(row.call, row.outcome)
}

/// Rows of a choice that two clashes join from three clauses: the count of a single clause or of the last clash, another
/// first variable, no record. And two choices with their records exchanged.
pub fn misrecorded() -> Vec<Row> {
    let tables: [&[[usize; 3]]; 5] = [&[[9, 6, 1]], &[[9, 6, 2]], &[[10, 6, 3]], &[[8, 6, 3]], &[]];
    let mut rows = tables
        .map(|table| recorded(CHAIN.as_bytes(), table))
        .to_vec();
    rows.push(recorded(&two_choices(), &[[16, 6, 1], [12, 5, 1]]));
    rows
}

fn record(first: i32, length: usize, clauses: usize) -> ChoiceRecord {
    ChoiceRecord {
        first,
        length,
        clauses,
    }
}

/// Rows refused with a number that comes later than the one that is due, or where none is.
pub fn mistaken() -> Vec<Row> {
    let five = one_clause(5);
    let rooms = |workspace, table| Room {
        workspace,
        table,
        ..NO_ROOM
    };
    let refused = |step, room, text: &[u8], number| {
        instead(reencoding_with(step, room, text), Outcome::Refused(number))
    };
    let work = PLENTY_OF_ROOM.workspace;
    let one_record = Room {
        table: 1,
        ..PLENTY_OF_ROOM
    };
    vec![
        refused(0, PLENTY_OF_ROOM, b"", 1),
        refused(101, NO_ROOM, &five, 11),
        refused(100, PLENTY_OF_ROOM, &five, 15),
        refused(1, NO_ROOM, &five, 17),
        refused(1, rooms(work, 0), &five, 12),
        refused(1, rooms(work, 1), &five, 17),
        refused(1, one_record, &five, 17),
    ]
}

/// The row of sizes, but with one of the numbers one less.
fn one_less(row: &Row, part: usize) -> Row {
    let mut outcome = row.outcome.clone();
    if let Outcome::Sized(numbers) = &mut outcome {
        numbers[part] -= 1;
    }
    instead(row.call.clone(), outcome)
}

/// Sizes of a choice: one of the numbers one less, those of the other form, or a refusal where none is due. And sizes
/// refused with a number that comes later than the one that is due, or that only a reencoding has.
pub fn missized() -> Vec<Row> {
    let five = one_clause(5);
    let row = |form| Row::of(sizing_by(form, 1, PLENTY, &five));
    let (counter, order) = (row(Form::Counter), row(Form::Order));
    let mut rows: Vec<Row> = (0..6).map(|part| one_less(&order, part)).collect();
    for number in [11, 12, 13, 15, 16, 17] {
        let call = counter.call.clone();
        rows.push(instead(call, Outcome::Refused(number)));
    }
    rows.push(instead(counter.call, order.outcome));
    rows.push(instead(order.call, counter.outcome));

    let refused = |step, work, text: &[u8], number| {
        let call = sizing_by(Form::Counter, step, work, text);
        instead(call, Outcome::Refused(number))
    };
    rows.push(refused(0, PLENTY, b"", 1));
    rows.push(refused(101, 0, &five, 11));
    rows.push(refused(1, 0, b"p cnf 1 1\n2 0\n", 11));
    for number in [12, 13, 16, 17] {
        rows.push(refused(1, 0, &five, number));
    }
    rows
}

/// Plans carried forward, refused with a number that comes later than the one that is due, or given another line.
pub fn miscarried() -> Vec<Row> {
    let mut rows = Vec::new();
    for (call, due, other) in due_numbers() {
        assert_eq!(call.given(), Err(due));
        rows.push(instead(Call::Carry(call), Outcome::Refused(other)));
    }
    for number in [46, 32, 45] {
        let call = Call::Carry(forward("3 -1 0\n", "1 "));
        rows.push(instead(call, Outcome::Refused(number)));
    }
    for (log, line) in [
        // backwards through the lines; as if 3 and 4 were true before; not for 3 and 4; nothing done
        ("3 -1 0\n4 -3 0\n", "v 1 -2 3 -4 0\n"),
        ("4 3 0\n", "v 1 -2 3 4 0\n"),
        ("3 -1 0\n4 -3 0\n", "v 1 -2 0\n"),
        ("3 -1 0\n4 -3 0\n", "v 1 -2 -3 -4 0\n"),
        // the last literal in place of the first; a false deletion repaired; the first made true though the last is
        ("-1 2 0\nd 1 2 0\n", "v 1 2 0\n"),
        ("-1 2 0\nd 1 2 0\n", "v 1 -2 0\n"),
        ("2 1 0\n", "v 1 2 0\n"),
    ] {
        let call = Call::Carry(forward(log, "1 "));
        rows.push(instead(call, Outcome::Line(line.into())));
    }
    rows
}
