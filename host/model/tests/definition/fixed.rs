//! Rows that are not drawn: the limits, repeated and opposed literals, clauses with a pure literal, pairs in
//! several copies, steps and tables, plans carried forward, sizes, and all formulas of a small kind.

use crate::calls::FORMS;
use crate::rows::{Call, Carry, Reencode, Row, Text, Way, NO_ROOM, PLENTY, PLENTY_OF_ROOM};
use model::encoding::Encoding;
use model::generator::{clashing_at_1, clauses_apart, text_of};
use model::log_reading::read_kept_lines;
use model::reading::{read_formula, INPUT_LIMITS};
use model::sessions::{CHAIN, COPIES, F, JOINED_E, SIX};
use model::texts::{formula_text, log_text};
use model::walk_back::workspace_needed;
use model::{Arrangement, Form, Room, Settings};

fn reencoding(work: usize, text: &[u8]) -> Call {
    let room = Room {
        workspace: work as u64,
        ..PLENTY_OF_ROOM
    };
    reencoding_by(as_listed(Form::Counter), room, text)
}

fn reencoding_in(form: Form, text: &[u8]) -> Call {
    reencoding_by(as_listed(form), PLENTY_OF_ROOM, text)
}

/// With the step, in counter form.
pub fn reencoding_with(step: u32, room: Room, text: &[u8]) -> Call {
    reencoding_by(stepped(Form::Counter, step), room, text)
}

fn reencoding_by(settings: Settings, room: Room, text: &[u8]) -> Call {
    Call::Reencode(Reencode {
        settings,
        room,
        text: text.to_vec(),
    })
}

fn as_listed(form: Form) -> Settings {
    Settings::new(form, Arrangement::AsListed)
}

fn stepped(form: Form, step: u32) -> Settings {
    Settings {
        step,
        ..as_listed(form)
    }
}

fn sizing(work: usize, text: &[u8]) -> Call {
    sizing_by(Form::Counter, 1, work, text)
}

/// As listed.
pub fn sizing_by(form: Form, step: u32, work: usize, text: &[u8]) -> Call {
    Call::Sizes {
        settings: stepped(form, step),
        work,
        text: text.to_vec(),
    }
}

fn reading_back(work: usize, text: &[u8]) -> Call {
    let text = text.to_vec();
    Call::ReadBack { work, text }
}

/// All lines of the log are kept. The answer names the variables that are true.
fn carry(way: Way, text: &[u8], log: &str, answer: &str) -> Carry {
    Carry {
        way,
        work: PLENTY,
        room: PLENTY,
        kept: log.lines().count(),
        text: text.to_vec(),
        log: log.into(),
        answer: format!("s SATISFIABLE\nv {answer}0\n").into(),
    }
}

fn walking_back(text: &[u8], log: &str, kept: usize, answer: &str) -> Call {
    Call::Carry(Carry {
        kept,
        ..carry(Way::Back, text, log, answer)
    })
}

/// The largest V and C of both readers and the largest variable of a log, and one more.
pub fn limits() -> Vec<Row> {
    let mut rows = Vec::new();
    for (variables, clauses) in [(8_000, 20_000), (70_000, 300_000)] {
        for (variables, clauses) in [
            (variables, 0),
            (variables + 1, 0),
            (0, clauses),
            (0, clauses + 1),
        ] {
            let text = format!("p cnf {variables} {clauses}\n").into_bytes();
            rows.push(Row::of(reencoding(PLENTY, &text)));
            rows.push(Row::of(sizing(PLENTY, &text)));
            rows.push(Row::of(reading_back(PLENTY, &text)));
        }
    }
    for variable in [70_000, 70_001] {
        let (log, answer) = (format!("{variable} 0\n"), format!("{variable} "));
        let call = walking_back(b"p cnf 1 0\n", &log, 1, &answer);
        rows.push(Row::of(call));
    }
    rows
}

/// V, C, and what follows the header: accepted, then refused in a clause with repeated or opposed literals
/// and after it.
const JOINED: [(usize, usize, &str); 18] = [
    (1, 1, "1 1 0"),
    (1, 1, "1 -1 0"),
    (1, 1, "1 -1 1 0"),
    (1, 2, "-1 1 0 1 1 1 0"),
    (3, 4, "3 1 3 2 1 0 2 3 -2 0 0 -1 -1 0"),
    (3, 5, "1 -1 2 0 -3 2 -3 0 -2 1 2 0 3 2 2 3 0 1 -2 -2 1 0"),
    (1, 1, "1 -1 x 0"),
    (1, 1, "1 1 2 0"),
    (1, 1, "1 -1 2 0"),
    (1, 1, "1 1"),
    (1, 1, "1 -1"),
    (1, 1, "1 -1 0 1 0"),
    (1, 1, "1 -1 0 x"),
    (1, 2, "1 -1 0"),
    (1, 2, "1 -1 0 x"),
    (1, 2, "1 -1 0 2 0"),
    (1, 2, "1 -1 0 -1"),
    (1, 2, "1 -1 0 -1 1 0 0"),
];

/// Repeated and opposed literals in each text that a call reads.
pub fn joined() -> Vec<Row> {
    let mut rows = Vec::new();
    for (variables, clauses, body) in JOINED {
        let text = format!("p cnf {variables} {clauses}\n{body}\n").into_bytes();
        rows.push(Row::of(reencoding(PLENTY, &text)));
        rows.push(Row::of(sizing(PLENTY, &text)));
        rows.push(Row::of(reading_back(PLENTY, &text)));
        rows.push(Row::of(walking_back(&text, "", 0, "1 ")));
    }
    let walk =
        |log: &str, kept, answer| Row::of(walking_back(JOINED_E.as_bytes(), log, kept, answer));
    let log = "2 3 0\nd 1 2 0\nd -1 3 0\nd 2 3 0\n";
    for kept in 0..=4 {
        rows.extend([walk(log, kept, ""), walk(log, kept, "2 ")]);
    }
    rows.extend(["d 1 1 2 0\n", "d 3 -3 0\n"].map(|log| walk(log, 1, "")));
    rows.push(walk("d 2 1 0\nd 1 2 0\n", 2, ""));
    rows.extend(workspaces().into_iter().flatten());
    rows
}

/// The formula of one clause of so many literals.
pub fn one_clause(size: usize) -> Text {
    text_of(&clauses_apart(size, 1))
}

fn clashing(a: i32, b: i32) -> Text {
    formula_text(a + b - 1, &clashing_at_1(a, b))
}

/// The log, and the number of its lines.
fn log_in(form: Form, text: &[u8]) -> (String, usize) {
    let formula = read_formula(text, &INPUT_LIMITS).expect("in order");
    let lines = Encoding::run(&formula, as_listed(form)).log;
    let log = String::from_utf8(log_text(&lines)).expect("in ASCII");
    (log, lines.len())
}

/// Over the whole log in order form.
fn walking_back_ordered(text: &[u8], answer: &str) -> Call {
    let (log, lines) = log_in(Form::Order, text);
    walking_back(text, &log, lines, answer)
}

/// Clauses of which each literal is pure: choices, and clauses that are deleted.
pub fn free() -> Vec<Row> {
    let (six, joined) = (SIX.as_bytes(), clashing(3, 4));
    let mut calls = Vec::new();
    for form in FORMS {
        calls.extend([six, &joined].map(|text| reencoding_in(form, text)));
    }
    for text in [one_clause(4), one_clause(65), clashing(33, 34)] {
        calls.push(reencoding(PLENTY, &text));
    }
    let text = clashing(33, 33);
    calls.push(Call::Choose { text });
    // 2 and 3 are true, but the counter variables choose 4
    calls.push(walking_back_ordered(six, "2 3 10 11 "));
    calls.push(walking_back_ordered(&joined, "2 3 9 10 "));
    calls.into_iter().map(Row::of).collect()
}

/// A choice with pairs in several copies, its log cut in stages 3 and 4. With 1 true each cut is walked back. With 2
/// and 3 true, of which the pair does not stand, only the cuts before -3 -7 are.
pub fn pairs() -> Vec<Row> {
    let text = COPIES.as_bytes();
    let (log, lines) = log_in(Form::Counter, text);
    let mut calls = FORMS.map(|form| reencoding_in(form, text)).to_vec();
    for kept in 11..=lines {
        for answer in ["1 6 7 8 9 ", "2 3 7 8 9 "] {
            calls.push(walking_back(text, &log, kept, answer));
        }
    }
    calls.into_iter().map(Row::of).collect()
}

/// Steps at and past their limits, which come before all other numbers, and a joined choice with several steps.
pub fn steps() -> Vec<Row> {
    let mut calls = Vec::new();
    for text in ["", "p cnf 1 1\n2 0\n", SIX] {
        for step in [0, 1, 100, 101, 1_000] {
            for room in [NO_ROOM, PLENTY_OF_ROOM] {
                calls.push(reencoding_with(step, room, text.as_bytes()));
            }
        }
    }
    for step in [1, 2, 3, 4, 5, 8, 39] {
        for form in FORMS {
            let settings = stepped(form, step);
            calls.push(reencoding_by(settings, PLENTY_OF_ROOM, CHAIN.as_bytes()));
        }
    }
    calls.into_iter().map(Row::of).collect()
}

/// Two choices, of 5 and of 6 literals.
pub fn two_choices() -> Text {
    let clauses = [(1..=5).collect(), (6..=11).collect()];
    formula_text(11, &clauses)
}

/// Tables that are exact, one short and empty, with enough room for the texts and with none.
pub fn tables() -> Vec<Row> {
    let mut calls = Vec::new();
    for table in [2, 1, 0] {
        let enough = Room {
            table,
            ..PLENTY_OF_ROOM
        };
        let short = Room {
            log: 0,
            formula: 0,
            ..enough
        };
        calls.extend([enough, short].map(|room| reencoding_with(3, room, &two_choices())));
    }
    calls.into_iter().map(Row::of).collect()
}

/// Sizes of the sessions and of long clauses in both forms, and of steps at and past their limits, with enough workspace
/// and with none.
pub fn sizes() -> Vec<Row> {
    let mut calls = Vec::new();
    for text in [
        "p cnf 0 0",
        "p cnf 0 1\n0\n",
        "p cnf 1 2\n1 0\n-1 0\n",
        "p cnf 2 2\n1 2 0\n-1 -2 0\n",
        JOINED_E,
        F,
        COPIES,
        CHAIN,
    ] {
        calls.extend(FORMS.map(|form| sizing_by(form, 1, PLENTY, text.as_bytes())));
    }
    for text in [one_clause(64), one_clause(65), clashing(33, 33)] {
        calls.extend(FORMS.map(|form| sizing_by(form, 1, PLENTY, &text)));
    }
    for text in ["", "p cnf 1 1\n2 0\n", SIX] {
        for step in [0, 1, 100, 101, 1_000] {
            for work in [0, PLENTY] {
                calls.push(sizing_by(Form::Order, step, work, text.as_bytes()));
            }
        }
    }
    calls.into_iter().map(Row::of).collect()
}

/// Calls with just enough workspace, and with one entry less, by formulas with many literals, clauses or variables.
pub fn workspaces() -> Vec<[Row; 2]> {
    let mut pairs = Vec::new();
    for text in [
        JOINED_E,
        "p cnf 2 2\n1 -1 0\n2 2 2 0\n",
        "p cnf 2 5\n1 2 0\n2 0\n2 0\n2 -1 0\n2 1 0\n",
        "p cnf 9 1\n1 -9 0\n",
    ] {
        let text = text.as_bytes();
        let formula = read_formula(text, &INPUT_LIMITS).expect("in order");
        let reading = formula.workspace_needed() as usize;
        pairs.push([reading, reading - 1].map(|work| Row::of(reencoding(work, text))));
        pairs.push([reading, reading - 1].map(|work| Row::of(sizing(work, text))));
        pairs.push([reading, reading - 1].map(|work| Row::of(reading_back(work, text))));
        pairs.push(carry_workspaces(&carry(Way::Back, text, "1 2 0\n", "2 ")));
        // X is 12
        let log = "1 2 0\n12 -2 0\n";
        pairs.push(carry_workspaces(&carry(Way::Forward, text, log, "2 ")));
    }
    pairs
}

fn carry_workspaces(call: &Carry) -> [Row; 2] {
    let formula = read_formula(&call.text, &INPUT_LIMITS).expect("in order");
    let lines = read_kept_lines(&call.log, call.kept).expect("in order");
    let needed = workspace_needed(&formula, &lines) as usize;
    [needed, needed - 1].map(|work| {
        carry_row(Carry {
            work,
            ..call.clone()
        })
    })
}

fn carry_row(call: Carry) -> Row {
    Row::of(Call::Carry(call))
}

/// A formula of one clause.
const PAIR: &[u8] = b"p cnf 2 1\n1 2 0\n";

/// A plan for the pair, carried forward.
pub fn forward(log: &str, plan: &str) -> Carry {
    carry(Way::Forward, PAIR, log, plan)
}

/// Room for just the line that is given, and one byte less.
fn rooms(call: &Carry) -> [Row; 2] {
    let needed = call.given().expect("with enough room").len();
    [needed, needed - 1].map(|room| {
        carry_row(Carry {
            room,
            ..call.clone()
        })
    })
}

/// Plans carried forward: rooms, each cut of a choice's log, no formula, no line, lines without literals, refusals.
pub fn forwards() -> Vec<Row> {
    let mut rows = Vec::new();
    for (log, plan) in [
        ("", "1 "),
        ("3 0\n", "2 "),
        ("-1 2 0\n10 1 0\nd 1 2 0\n", "1 "),
    ] {
        rows.extend(rooms(&forward(log, plan)));
    }
    rows.extend(forward_cuts());
    let (none, empty) = (b"p cnf 0 0\n".as_slice(), b"p cnf 0 1\n0\n".as_slice());
    for (text, log) in [
        (none, ""),
        (none, "3 -1 0\n1 0\n-3 -1 0\n2 1 0\n"),
        (empty, ""),
        (empty, "d 0\n"),
    ] {
        rows.push(carry_row(carry(Way::Forward, text, log, "")));
    }
    // a line without literals; deletions, of which a false one is left so; lines in which several literals are false
    for log in [
        "0\n",
        "0\nd 0\n",
        "d 0\n",
        "-1 2 0\nd 1 2 0\n",
        "d 2 1 0\n-1 0\n",
        "3 -1 0\n4 -3 0\n",
    ] {
        rows.push(carry_row(forward(log, "1 ")));
    }
    // what follows the kept lines is not read
    for kept in 0..=2 {
        let call = forward("3 0\nx", "1 ");
        rows.push(carry_row(Carry { kept, ..call }));
    }
    rows.extend(due_numbers().map(|(call, ..)| carry_row(call)));
    rows
}

/// Of a choice with pairs in several copies. 2 and 3 are true, of which the pair does not stand: -3 -7 makes 3 false.
fn forward_cuts() -> Vec<Row> {
    let text = COPIES.as_bytes();
    let (log, lines) = log_in(Form::Counter, text);
    let cut = |kept| {
        carry_row(Carry {
            kept,
            ..carry(Way::Forward, text, &log, "2 3 ")
        })
    };
    (0..=lines).map(cut).collect()
}

/// Plans carried forward that two numbers refuse: the one that is due, then the other.
pub fn due_numbers() -> [(Carry, u8, u8); 9] {
    let short = |log, plan| Carry {
        work: 0,
        room: 0,
        ..forward(log, plan)
    };
    let no_room = |log, plan| Carry {
        room: 0,
        ..forward(log, plan)
    };
    let more_kept = Carry {
        kept: 2,
        ..short("3 0\n", "x ")
    };
    [
        (short("3 3 0\n", "x "), 31, 41),
        (more_kept, 34, 41),
        (short("3 0\n", "3 x "), 42, 41),
        (short("3 0\n", "1 -1 "), 43, 11),
        (short("3 0\n", ""), 11, 45),
        (no_room("d 1 0\n", ""), 45, 32),
        (no_room("-1 0\nd 1 0\n", "1 "), 32, 46),
        (no_room("-1 0\n", "1 "), 46, 14),
        (no_room("-1 0\nd 1 2 0\n", ""), 45, 14),
    ]
}

const CLAUSES: [&[i32]; 13] = [
    &[],
    &[1],
    &[-1],
    &[2],
    &[-2],
    &[1, 2],
    &[1, -2],
    &[-1, 2],
    &[-1, -2],
    &[2, 1],
    &[2, -1],
    &[-2, 1],
    &[-2, -1],
];

/// The reencoding of each formula with V 2 and up to 3 clauses.
pub fn tiny_formulas() -> Vec<Row> {
    formulas(2, &CLAUSES.map(<[i32]>::to_vec), 3)
}

/// The reencoding of each formula with V 1 and up to 2 clauses, and with V 2 and up to 1 clause, of up to 3
/// literals that may be repeated or opposed.
pub fn tiny_joined() -> Vec<Row> {
    let mut rows = formulas(1, &lists_of(&[1, -1], 3), 2);
    rows.extend(formulas(2, &lists_of(&[1, -1, 2, -2], 3), 1));
    rows
}

/// The reencoding of each formula with up to so many of the clauses.
fn formulas(variables: i32, clauses: &[Vec<i32>], most: u32) -> Vec<Row> {
    let row = |clauses: Vec<Vec<i32>>| {
        let text = formula_text(variables, &clauses);
        Row::of(reencoding(PLENTY, &text))
    };
    lists_of(clauses, most).into_iter().map(row).collect()
}

/// All lists of up to so many of the items.
fn lists_of<T: Clone>(items: &[T], most: u32) -> Vec<Vec<T>> {
    let mut lists = Vec::new();
    for size in 0..=most {
        for number in 0..items.len().pow(size) {
            let item = |place| items[number / items.len().pow(place) % items.len()].clone();
            lists.push((0..size).map(item).collect());
        }
    }
    lists
}
